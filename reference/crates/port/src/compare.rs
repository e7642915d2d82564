//! The comparison of the port with the reference on one sheet.

use crate::count::Compared;
use crate::skip::field_end;
use crate::{end, read};
use answers::{CommentSet, Formatted, Reference};
use decode::number;
use diverplume::{check, comment_above, doc_comment_above, get};
use schema::{command, Family, Node};
use sheet::Sheet;
use sml_syntax::ast::AstNode as _;
use sml_syntax::kind::SyntaxElement;
use std::fmt;
use stops::{failures_of_check, missing, Missing};

/// The tab sizes at which every sheet is formatted.
const TAB_SIZES: [u32; 5] = [0, 1, 2, 4, 8];

/// The longest text that is compared byte for byte; a longer one is declined.
const LONGEST: usize = 1 << 20;

/// What a call takes beyond reading the record, in bytes of it.
const CALL: usize = 500;

/// The most bytes of record that the lookups of a sheet read. Each one reads the whole record; where
/// lookups at every token would read more, they are at some tokens only.
#[derive(Debug, Clone, Copy)]
pub struct Work {
    /// Lookups of a comment.
    pub comments: usize,
    /// Lookups of a doc comment.
    pub docs: usize,
}

impl Work {
    /// Lookups at every token.
    pub const ALL: Self = Self { comments: usize::MAX, docs: usize::MAX };
}

/// A difference between the port and the reference.
#[derive(Debug, Clone, PartialEq, Eq)]
pub struct Difference {
    /// The call with its parameters.
    pub call: String,
    /// The reference's answer.
    pub reference: String,
    /// The port's answer.
    pub port: String,
    /// The sheet.
    pub sheet: Sheet,
}

impl fmt::Display for Difference {
    fn fmt(&self, f: &mut fmt::Formatter<'_>) -> fmt::Result {
        writeln!(f, "{}", self.call)?;
        writeln!(f, "reference {}", self.reference)?;
        writeln!(f, "port      {}", self.port)?;
        writeln!(f, "text      {}", hex(&self.sheet.text))?;
        write!(f, "record    {}", hex(&self.sheet.record))
    }
}

pub(crate) fn hex(bytes: &[u8]) -> String {
    bytes.iter().fold(String::new(), |text, byte| text + &format!("{byte:02x}"))
}

/// Compares the answers on a sheet, with lookups as far as `most` allows.
///
/// # Errors
///
/// The first difference.
pub fn compare(sheet: &Sheet, most: Work) -> Result<Compared, Difference> {
    let reference = Reference::new(sheet);
    let tokens = reference.token_count() as u64;
    let compared = Compared { sheets: 1, tokens, ..Compared::default() };
    let mut comparison = Comparison { sheet, reference, compared };
    comparison.read()?;
    comparison.ends()?;
    comparison.check()?;
    comparison.get_all()?;
    comparison.lookups(most)?;
    Ok(comparison.compared)
}

struct Comparison<'a> {
    sheet: &'a Sheet,
    reference: Reference,
    compared: Compared,
}

impl Comparison<'_> {
    fn same<T: PartialEq + fmt::Debug>(
        &self,
        call: impl FnOnce() -> String,
        reference: &T,
        port: &T,
    ) -> Result<(), Difference> {
        if reference == port {
            return Ok(());
        }
        Err(Difference {
            call: call(),
            reference: format!("{reference:?}"),
            port: format!("{port:?}"),
            sheet: self.sheet.clone(),
        })
    }

    /// Numbers 1 to 4 with their places, the tokens, where the list of declarations starts.
    fn read(&mut self) -> Result<(), Difference> {
        let port = read(&self.sheet.text, &self.sheet.record);
        let (mut answer, mut tokens) = ([0; 4], Vec::new());
        if let Some(root) = self.reference.root() {
            let all = root.syntax().descendants_with_tokens();
            tokens.extend(all.filter_map(SyntaxElement::into_token).map(|token| {
                let range = token.text_range();
                (token.kind().number(), range.start(), range.end() - range.start())
            }));
            answer[2] = tokens.len() as u64;
            // A token's command has four bytes.
            answer[3] = 4 * answer[2];
        } else {
            let verdict = self.reference.check().value;
            answer[..2].copy_from_slice(&[u64::from(verdict.number), u64::from(verdict.place)]);
        }
        self.same(|| "read".into(), &answer, &port.answer)?;
        let of_port = port.tokens.iter();
        let of_port = of_port.map(|&(kind, start, length)| (kind, start.into(), length.into()));
        self.same(|| "tokens".into(), &tokens, &of_port.collect())
    }

    /// The ends of expressions and types from offsets all over the record and past it.
    fn ends(&mut self) -> Result<(), Difference> {
        let record = &self.sheet.record;
        let count = self.reference.token_count() as u64;
        let other = u64::from(record.get(2).copied().unwrap_or(0));
        let tokens = record.chunks(4).take_while(|chunk| chunk[0] == command::TOKEN).count();
        let tree = (4 * tokens).min(record.len());
        let step = 1 + (record.len() - tree) / 96;
        let inside = (tree..record.len()).step_by(step);
        for at in inside.chain([0, record.len(), record.len() + 1, usize::MAX - 8]) {
            for family in [Family::Exp, Family::Ty] {
                for count in [count, other] {
                    let expected = match field_end(family, record, count, at) {
                        Ok(next) => [0, next as u64],
                        Err((number, place)) => [u64::from(number), place as u64],
                    };
                    let actual = end(family, record, count, at as u64);
                    let name = family.name();
                    let call = || format!("end of {name} at {at}, {count} tokens");
                    self.same(call, &expected, &actual)?;
                    self.compared.ends += 1;
                    self.compared.ended += u64::from(expected[0] == 0);
                }
            }
        }
        Ok(())
    }

    fn check(&mut self) -> Result<(), Difference> {
        let expected = Told::from(self.reference.check().value);
        let verdict = check(&self.sheet.text, &self.sheet.record);
        let named = verdict.stop().map(|stop| (stop.node, stop.field));
        self.same(|| "check".into(), &expected, &Told::from(verdict))?;
        self.compared.check.add(expected.number);
        self.same(|| "what the message names".into(), &self.missing(), &named)?;
        self.same(|| "the bytes at the place".into(), &true, &self.fits(&expected))
    }

    /// The node and the field that the innermost failing `?` of the check misses.
    fn missing(&self) -> Option<(Node, Option<&'static str>)> {
        let number = self.reference.check().value.number;
        let is_stopped = [number::MISSING, number::IMPORT].contains(&number);
        let root = self.reference.root().filter(|_| is_stopped)?;
        let failures = failures_of_check(root);
        let innermost = failures.iter().rev().find(|failure| failure.stop.is_some())?;
        match missing().nth(innermost.site)?.1? {
            Missing::Field(node, field) => Some((node, Some(field))),
            Missing::FirstName => Some((Node::Path, Some("name_star_eq_dots"))),
            Missing::Import => Some((Node::EsImportDec, None)),
        }
    }

    /// Whether what stands in the record at the place of 13 or 14 is an absent part, an empty list or
    /// an import.
    fn fits(&self, told: &Told) -> bool {
        let there = self.sheet.record.get(told.place..).unwrap_or_default();
        match told.number {
            number::MISSING => there.starts_with(&[0x00]) || there.starts_with(&[0x02, 0, 0]),
            number::IMPORT => there.starts_with(&[0x23]),
            _ => true,
        }
    }

    /// Formatting at the usual tab sizes, at the largest at which no indent is too wide, and at one
    /// more.
    fn get_all(&mut self) -> Result<(), Difference> {
        let verdict = self.reference.check().value;
        let largest = u32::MAX / verdict.measures.deepest.max(1);
        let past = largest.checked_add(1);
        for tab_size in TAB_SIZES.into_iter().chain([largest]).chain(past) {
            let needed = verdict.measures.length(tab_size);
            let is_written = verdict.number == number::ACCEPTED && tab_size <= largest;
            for output in lengths(needed, is_written) {
                self.get(tab_size, output)?;
            }
        }
        Ok(())
    }

    fn get(&mut self, tab_size: u32, length: usize) -> Result<(), Difference> {
        let Formatted { verdict, text } = self.reference.get(tab_size, length).value;
        let expected = (Told::from(verdict), filled(length, text.as_deref()));
        let mut output = filled(length, None);
        let verdict = get(&self.sheet.text, &self.sheet.record, tab_size, &mut output.0);
        let call = || format!("get at tab size {tab_size} into {length} bytes");
        self.same(call, &expected, &(Told::from(verdict), output))?;
        self.compared.get.add(expected.0.number);
        self.compared.texts += u64::from(text.is_some());
        let indents = u64::from(tab_size) * expected.0.measures[2];
        self.compared.indented += u64::from(text.is_some() && indents > 0);
        Ok(())
    }

    /// Both lookups.
    fn lookups(&mut self, most: Work) -> Result<(), Difference> {
        for token in self.looked_up(self.step(most.comments)) {
            self.comment_above(token)?;
        }
        let step = self.step(most.docs);
        self.compared.whole += u64::from(step == 1);
        for token in self.looked_up(step) {
            self.doc_comment_above_all(token)?;
        }
        Ok(())
    }

    /// From one token to the next so that lookups read at most this many bytes of record.
    fn step(&self, most_work: usize) -> usize {
        1 + self.reference.token_count() * (CALL + self.sheet.record.len()) / most_work
    }

    /// The tokens by that step, and numbers past the last.
    fn looked_up(&self, step: usize) -> impl Iterator<Item = u64> {
        let count = self.reference.token_count();
        let tokens = (self.sheet.record.len() % step..count).step_by(step);
        let count = count as u64;
        let past = [count, count + 1, 0xFFFF, 0x1_0000, 1 << 32, u64::MAX];
        tokens.map(|token| token as u64).chain(past)
    }

    fn comment_above(&mut self, token: u64) -> Result<(), Difference> {
        let expected = self.reference.comment_above(token).value;
        let actual = comment_above(&self.sheet.text, &self.sheet.record, token);
        let comment = expected.found.map(|above| usize::from(above.comment));
        let keyword = expected.found.and_then(|above| above.keyword).map(usize::from);
        let numbers = (expected.number, expected.place as usize, comment, keyword);
        let actual = (actual.number as u8, actual.place, actual.comment, actual.keyword);
        self.same(|| format!("comment_above {token}"), &numbers, &actual)?;
        self.compared.comment_above.add(expected.number);
        self.compared.comments += u64::from(comment.is_some());
        self.compared.keywords += u64::from(keyword.is_some());
        Ok(())
    }

    /// The doc lookup at a token: into outputs that are exact, one byte short, empty and long
    /// where there is a doc text, else into an empty or another output.
    fn doc_comment_above_all(&mut self, token: u64) -> Result<(), Difference> {
        match self.reference.doc_comment_above(token, usize::MAX).value.found {
            Some(text) => {
                let exact = text.len();
                for length in [exact, exact.saturating_sub(1), 0, exact + 9] {
                    self.doc_comment_above(token, length)?;
                }
            }
            None => self.doc_comment_above(token, if token.is_multiple_of(2) { 0 } else { 9 })?,
        }
        Ok(())
    }

    fn doc_comment_above(&mut self, token: u64, length: usize) -> Result<(), Difference> {
        let expected = self.reference.doc_comment_above(token, length).value;
        let text = expected.found;
        let numbers =
            (expected.number, expected.place as usize, text.as_ref().map(|text| text.len()));
        let mut output = filled(length, None);
        let actual = doc_comment_above(&self.sheet.text, &self.sheet.record, token, &mut output.0);
        let actual = (actual.number as u8, actual.place, actual.found);
        let call = || format!("doc_comment_above {token} into {length} bytes");
        let expected_output = filled(length, text.as_deref());
        self.same(call, &(numbers, expected_output), &(actual, output))?;
        self.compared.doc_comment_above.add(expected.number);
        self.compared.doc_texts += u64::from(text.is_some());
        Ok(())
    }
}

/// The lengths of outputs for a text of that many bytes: exact, long, one byte short, empty. Where no
/// text is written, or one that is too long to compare: empty and not.
fn lengths(needed: u128, is_written: bool) -> Vec<usize> {
    let mut lengths = match usize::try_from(needed) {
        Ok(exact) if is_written && exact <= LONGEST => {
            vec![exact, exact + 1 + exact % 9, exact.saturating_sub(1), 0]
        }
        _ => vec![64, 0],
    };
    lengths.dedup();
    lengths
}

/// An output of that length with a text at its start. No byte of the rest is ASCII, so none passes
/// for a text's, and neighbours differ.
fn filled(length: usize, text: Option<&str>) -> Output {
    let mut output = fill(length);
    if let Some(text) = text {
        output[..text.len()].copy_from_slice(text.as_bytes());
    }
    Output(output)
}

/// The bytes of an output before a call.
pub(crate) fn fill(length: usize) -> Vec<u8> {
    (0..length).map(|at| 0x80 | (at % 101) as u8).collect()
}

/// A verdict in the terms of both sides.
#[derive(Debug, Clone, PartialEq, Eq)]
struct Told {
    number: u8,
    place: usize,
    measures: [u64; 3],
    /// The comments left, by token number.
    left: Vec<usize>,
}

impl From<answers::Verdict> for Told {
    fn from(verdict: answers::Verdict) -> Self {
        let decode::Measures { deepest, letters, units } = verdict.measures;
        let measures = [u64::from(deepest), letters, units];
        let place = verdict.place as usize;
        Self { number: verdict.number, place, measures, left: tokens(&verdict.set) }
    }
}

impl From<diverplume::Verdict> for Told {
    fn from(verdict: diverplume::Verdict) -> Self {
        let diverplume::Measures { deepest, letters, units } = verdict.measures;
        let measures = [deepest, letters, units];
        let left = tokens(verdict.comments.words());
        Self { number: verdict.number as u8, place: verdict.place, measures, left }
    }
}

/// The token numbers of a set.
fn tokens(set: &CommentSet) -> Vec<usize> {
    let words = set.iter().enumerate().filter(|(_, &word)| word != 0);
    let bits = words.flat_map(|(at, &word)| (0..64).map(move |bit| (64 * at + bit, word >> bit)));
    bits.filter(|(_, from_bit)| from_bit & 1 == 1).map(|(token, _)| token).collect()
}

/// The bytes of an output, shown as text.
#[derive(PartialEq, Eq)]
struct Output(Vec<u8>);

impl fmt::Debug for Output {
    fn fmt(&self, f: &mut fmt::Formatter<'_>) -> fmt::Result {
        write!(f, "\"{}\"", self.0.escape_ascii())
    }
}
