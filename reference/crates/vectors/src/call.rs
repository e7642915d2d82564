//! A call with its answer.

use answers::{program_output, CommentSet, Origin, Reference, Verdict};
use decode::program::{Input, OUTPUT};
use decode::{number, Measures};
use sheet::Sheet;

/// The byte that fills an output before a call.
pub const FILL: u8 = 0xA5;

/// A call of the port, by its number in the file.
#[derive(Debug, Clone, Copy, PartialEq, Eq, Hash)]
#[repr(u8)]
pub enum Call {
    /// The check.
    Check,
    /// Formatting.
    Get,
    /// The lookup of a comment.
    CommentAbove,
    /// The lookup of a doc comment.
    DocCommentAbove,
    /// The program.
    Program,
}

impl Call {
    /// All calls in the order of their numbers.
    pub const ALL: [Self; 5] =
        [Self::Check, Self::Get, Self::CommentAbove, Self::DocCommentAbove, Self::Program];

    /// The call's name.
    #[must_use]
    pub const fn name(self) -> &'static str {
        match self {
            Self::Check => "check",
            Self::Get => "get",
            Self::CommentAbove => "comment_above",
            Self::DocCommentAbove => "doc_comment_above",
            Self::Program => "program",
        }
    }
}

/// A call with its answer.
#[derive(Debug, Clone, PartialEq, Eq)]
pub struct Vector {
    /// The sheet's name.
    pub name: String,
    /// What the vector shows.
    pub shows: String,
    /// The call.
    pub call: Call,
    /// The sheet. The program's has the whole standard input as its record, and no text.
    pub sheet: Sheet,
    /// The tab size, 0 where the call takes none.
    pub tab_size: u32,
    /// The token number, 0 where the call takes none.
    pub token: u64,
    /// The length of the output, 0 where the call takes none.
    pub output: usize,
    /// The answer.
    pub answer: Answer,
    /// What the answer came from.
    pub origin: Origin,
}

/// The answer to a call.
#[derive(Debug, Clone, PartialEq, Eq)]
pub struct Answer {
    /// The number.
    pub number: u8,
    /// The place.
    pub place: u32,
    /// The measures; 0 for a lookup.
    pub measures: Measures,
    /// A lookup's comment by its token number, or the length of its doc text.
    pub found: Option<u64>,
    /// The comments left; empty for numbers other than 6, for a lookup and for the program.
    pub set: CommentSet,
    /// All bytes of the output after the call, or what the program prints.
    pub output: Vec<u8>,
}

impl From<Verdict> for Answer {
    fn from(Verdict { number, place, measures, set }: Verdict) -> Self {
        Self { number, place, measures, found: None, set, output: Vec::new() }
    }
}

impl Answer {
    fn of_lookup(number: u8, place: u32, found: Option<u64>) -> Self {
        let verdict = Verdict { number, place, measures: Measures::default(), set: [0; 64] };
        Self { found, ..verdict.into() }
    }

    /// The answer with an output of that length, which begins with the text that was written.
    fn with_output(self, output: usize, text: Option<&str>) -> Self {
        let mut bytes = vec![FILL; output];
        if let Some(text) = text {
            bytes[..text.len()].copy_from_slice(text.as_bytes());
        }
        Self { output: bytes, ..self }
    }
}

/// The calls on one sheet.
pub(crate) struct Calls<'a> {
    pub(crate) name: &'a str,
    pub(crate) sheet: &'a Sheet,
    pub(crate) reference: &'a Reference,
}

impl Calls<'_> {
    fn vector(&self, call: Call, shows: &str, answer: Answer, origin: Origin) -> Vector {
        Vector {
            name: self.name.to_owned(),
            shows: shows.to_owned(),
            call,
            sheet: self.sheet.clone(),
            tab_size: 0,
            token: 0,
            output: answer.output.len(),
            answer,
            origin,
        }
    }

    pub(crate) fn check(&self, shows: &str) -> Vector {
        let check = self.reference.check();
        self.vector(Call::Check, shows, check.value.into(), check.origin)
    }

    pub(crate) fn get(&self, tab_size: u32, output: usize, shows: &str) -> Vector {
        let get = self.reference.get(tab_size, output);
        let answer = Answer::from(get.value.verdict);
        let answer = answer.with_output(output, get.value.text.as_deref());
        Vector { tab_size, ..self.vector(Call::Get, shows, answer, get.origin) }
    }

    pub(crate) fn comment_above(&self, token: u64, shows: &str) -> Vector {
        let lookup = self.reference.comment_above(token);
        let found = lookup.value.found.map(|above| u64::from(above.comment));
        let answer = Answer::of_lookup(lookup.value.number, lookup.value.place, found);
        Vector { token, ..self.vector(Call::CommentAbove, shows, answer, lookup.origin) }
    }

    pub(crate) fn doc_comment_above(&self, token: u64, output: usize, shows: &str) -> Vector {
        let lookup = self.reference.doc_comment_above(token, output);
        let text = lookup.value.found.as_deref();
        let found = text.map(|text| text.len() as u64);
        let answer = Answer::of_lookup(lookup.value.number, lookup.value.place, found);
        let answer = answer.with_output(output, text);
        Vector { token, ..self.vector(Call::DocCommentAbove, shows, answer, lookup.origin) }
    }

    pub(crate) fn program(&self, tab_size: u32, shows: &str) -> Vector {
        let input = Input { tab_size, text: &self.sheet.text, record: &self.sheet.record };
        let input = input.to_bytes().expect("the text's length is a u16");
        program(self.name, input, shows)
    }
}

/// A call of the program with this standard input.
pub(crate) fn program(name: &str, input: Vec<u8>, shows: &str) -> Vector {
    let too_long =
        Verdict { number: number::TOO_LONG, place: 0, measures: Measures::default(), set: [0; 64] };
    let (verdict, origin) = Input::parse(&input).map_or((too_long, Origin::Decoder), |input| {
        let sheet = Sheet { text: input.text.to_vec(), record: input.record.to_vec() };
        let get = Reference::new(&sheet).get(input.tab_size, OUTPUT);
        (Verdict { set: [0; 64], ..get.value.verdict }, get.origin)
    });
    let answer = Answer { output: program_output(&input), ..verdict.into() };
    Vector {
        name: name.to_owned(),
        shows: shows.to_owned(),
        call: Call::Program,
        sheet: Sheet { text: Vec::new(), record: input },
        tab_size: 0,
        token: 0,
        output: 0,
        answer,
        origin,
    }
}
