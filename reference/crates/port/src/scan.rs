//! The comparison of the port's scanner with the reference's, on one text and at scale.

use crate::compare::{fill, hex};
use crate::count::Numbers;
use crate::parallel::in_parallel;
use crate::texts::text;
use crate::{read, Reading};
use diverplume::scan_into;
use scan::{commands, scan, write, Answer, Scanned, Token};
use schema::command;
use std::fmt;
use std::ops::AddAssign;

/// How many answers of the scanner were compared.
#[derive(Debug, Clone, Copy, PartialEq, Eq, Default)]
pub struct Compared {
    /// Texts.
    pub texts: u64,
    /// Calls.
    pub calls: Numbers,
    /// Tokens that were read back.
    pub tokens: u64,
}

impl AddAssign for Compared {
    fn add_assign(&mut self, other: Self) {
        self.texts += other.texts;
        self.calls += other.calls;
        self.tokens += other.tokens;
    }
}

impl fmt::Display for Compared {
    fn fmt(&self, f: &mut fmt::Formatter<'_>) -> fmt::Result {
        writeln!(f, "{} texts, {} tokens read back", self.texts, self.tokens)?;
        write!(f, "number       scan")?;
        for number in self.calls.occurring() {
            write!(f, "\n{number:6} {:10}", self.calls.of(number))?;
        }
        Ok(())
    }
}

/// A difference between the port's scanner and the reference's.
#[derive(Debug, Clone, PartialEq, Eq)]
pub struct Difference {
    /// The call.
    pub call: String,
    /// The reference's answer.
    pub reference: String,
    /// The port's answer.
    pub port: String,
    /// The text.
    pub text: Vec<u8>,
}

impl fmt::Display for Difference {
    fn fmt(&self, f: &mut fmt::Formatter<'_>) -> fmt::Result {
        writeln!(f, "{}", self.call)?;
        writeln!(f, "reference {}", self.reference)?;
        writeln!(f, "port      {}", self.port)?;
        writeln!(f, "text      {}", hex(&self.text))?;
        write!(f, "          {}", self.text.escape_ascii())
    }
}

/// Compares the answers on a text: into outputs that are exact, long, one byte short and empty;
/// what is written is read back.
///
/// # Errors
///
/// The first difference.
pub fn compare(text: &[u8]) -> Result<Compared, Difference> {
    let scanned = scan(text);
    let mut compared = Compared { texts: 1, ..Compared::default() };
    for length in lengths(&scanned) {
        compared.calls.add(call(text, &scanned, length)?);
    }
    if let Ok(tokens) = scanned {
        read_back(text, &tokens)?;
        compared.tokens = tokens.len() as u64;
    }
    Ok(compared)
}

/// The lengths of outputs.
fn lengths(scanned: &Scanned) -> Vec<usize> {
    match scanned {
        Ok(tokens) => {
            let exact = 4 * tokens.len();
            let mut lengths = vec![exact, exact + 9, exact.saturating_sub(1), 0];
            lengths.dedup();
            lengths
        }
        Err(_) => vec![64],
    }
}

/// Compares a call with an output of that length: the answer and every byte of the output. Gives the
/// number.
fn call(text: &[u8], scanned: &Scanned, length: usize) -> Result<u8, Difference> {
    let (mut of_reference, mut of_port) = (fill(length), fill(length));
    let expected = write(scanned, &mut of_reference);
    let actual = answer(text, &mut of_port);
    if (expected, &of_reference) == (actual, &of_port) {
        return Ok(expected.number);
    }
    Err(Difference {
        call: format!("scan into {length} bytes"),
        reference: format!("{expected:?} {}", hex(&of_reference)),
        port: format!("{actual:?} {}", hex(&of_port)),
        text: text.to_vec(),
    })
}

/// The port's answer.
#[must_use]
pub fn answer(text: &[u8], output: &mut [u8]) -> Answer {
    match scan_into(text, output) {
        Ok(written) => Answer { number: 0, place: 0, written },
        Err(refusal) => {
            let place = u32::try_from(refusal.place).expect("a place within a text");
            Answer { number: refusal.number as u8, place, written: 0 }
        }
    }
}

/// The commands in front of a tree without declarations: the port's record check has to give these
/// tokens.
fn read_back(text: &[u8], tokens: &[Token]) -> Result<(), Difference> {
    let mut record = commands(tokens);
    let tree = record.len() as u64;
    record.extend([command::LIST, 0, 0]);
    let mut start = 0;
    let table = tokens.iter().map(|token| {
        let length = u16::try_from(token.length).expect("at most a text's length");
        start += length;
        (token.kind, start - length, length)
    });
    let expected = Reading { answer: [0, 0, tokens.len() as u64, tree], tokens: table.collect() };
    let actual = read(text, &record);
    if expected == actual {
        return Ok(());
    }
    Err(Difference {
        call: "tokens read back".into(),
        reference: format!("{expected:?}"),
        port: format!("{actual:?}"),
        text: text.to_vec(),
    })
}

/// Compares the first texts of a seed on all processors.
///
/// # Errors
///
/// A text that differs: of those found before the threads stopped, the first.
pub fn run(seed: u64, count: u64) -> Result<Compared, Difference> {
    in_parallel(count, |index| compare(&text(seed, index)))
}
