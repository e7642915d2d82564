//! How many answers were compared.

use std::fmt;
use std::ops::AddAssign;

/// The count of numbers.
const COUNT: u8 = 15;

/// How many answers have each number from 0.
#[derive(Debug, Clone, Copy, PartialEq, Eq, Default)]
pub struct Numbers([u64; COUNT as usize]);

impl Numbers {
    pub(crate) fn add(&mut self, number: u8) {
        self.0[usize::from(number)] += 1;
    }

    /// How many have this number.
    #[must_use]
    pub fn of(&self, number: u8) -> u64 {
        self.0[usize::from(number)]
    }

    /// The numbers that occur.
    #[must_use]
    pub fn occurring(&self) -> Vec<u8> {
        (0..COUNT).filter(|&number| self.of(number) > 0).collect()
    }
}

impl AddAssign for Numbers {
    fn add_assign(&mut self, other: Self) {
        for (count, more) in self.0.iter_mut().zip(other.0) {
            *count += more;
        }
    }
}

/// How many answers were compared.
#[derive(Debug, Clone, Copy, PartialEq, Eq, Default)]
pub struct Compared {
    /// Sheets: number, place and tokens.
    pub sheets: u64,
    /// Tokens of the sheets that meet none of numbers 1 to 4.
    pub tokens: u64,
    /// Sheets with lookups of a doc comment at every token.
    pub whole: u64,
    /// Ends of fields, refusals among them.
    pub ends: u64,
    /// Fields that have an end.
    pub ended: u64,
    /// Checks.
    pub check: Numbers,
    /// Formatting.
    pub get: Numbers,
    /// Formatted texts among them.
    pub texts: u64,
    /// Formatted texts that have indents, at a tab size other than 0.
    pub indented: u64,
    /// Lookups of a comment.
    pub comment_above: Numbers,
    /// Comments among them.
    pub comments: u64,
    /// Keywords that the search passed before it found a comment.
    pub keywords: u64,
    /// Lookups of a doc comment.
    pub doc_comment_above: Numbers,
    /// Doc texts among them.
    pub doc_texts: u64,
}

impl AddAssign for Compared {
    fn add_assign(&mut self, other: Self) {
        self.sheets += other.sheets;
        self.tokens += other.tokens;
        self.whole += other.whole;
        self.ends += other.ends;
        self.ended += other.ended;
        self.check += other.check;
        self.get += other.get;
        self.texts += other.texts;
        self.indented += other.indented;
        self.comment_above += other.comment_above;
        self.comments += other.comments;
        self.keywords += other.keywords;
        self.doc_comment_above += other.doc_comment_above;
        self.doc_texts += other.doc_texts;
    }
}

impl fmt::Display for Compared {
    fn fmt(&self, f: &mut fmt::Formatter<'_>) -> fmt::Result {
        writeln!(f, "{} sheets of {} tokens", self.sheets, self.tokens)?;
        writeln!(f, "{} of them with lookups of a doc comment at every token", self.whole)?;
        writeln!(f, "number      check        get    comment_above    doc_comment_above")?;
        // No call on sheets gives the others.
        for number in (0..10).filter(|&number| number != 5).chain([13, 14]) {
            writeln!(
                f,
                "{number:6} {:10} {:10} {:16} {:20}",
                self.check.of(number),
                self.get.of(number),
                self.comment_above.of(number),
                self.doc_comment_above.of(number)
            )?;
        }
        writeln!(f, "{} formatted texts, {} of them with indents", self.texts, self.indented)?;
        writeln!(f, "{} comments, {} of them across a keyword", self.comments, self.keywords)?;
        writeln!(f, "{} doc texts", self.doc_texts)?;
        write!(f, "{} ends of fields, {} of them an end", self.ends, self.ended)
    }
}
