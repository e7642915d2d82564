//! Tokens that would be read otherwise beside their neighbours.

use super::{Parsed, Parser};
use crate::lex::{is_symbolic, Class};
use diverplume_record::Token;

impl Parser<'_> {
    pub(super) fn starts_constant(&self) -> bool {
        self.is_at(Class::Constant) || self.is_at(Class::Numeral)
    }

    /// A constant. `1_000` and `0b1`, constants in other languages and some compilers, are several
    /// tokens here; they are no constants.
    pub(super) fn constant(&mut self) -> Parsed<Token> {
        let number = self.peek();
        let token = self.next().ok_or_else(|| self.unexpected("a constant"))?;
        let is_grouped = self.peek() == "_"
            && self.text_ahead(1).starts_with(|c: char| c.is_ascii_digit())
            && number.starts_with(|c: char| c.is_ascii_digit() || c == '~');
        let is_binary = matches!(number, "0" | "~0")
            && self.peek().strip_prefix('b').is_some_and(|bits| {
                !bits.is_empty() && bits.bytes().all(|bit| matches!(bit, b'0' | b'1'))
            });
        if (is_grouped || is_binary) && self.is_adjacent() {
            return Err(self.unexpected("white space behind the number"));
        }
        Ok(token)
    }

    /// An opening parenthesis, which must not begin a comment with what is written behind it.
    pub(super) fn open_parenthesis(&mut self) -> Parsed<Token> {
        let open = self.expect("(")?;
        if self.peek().starts_with('*') {
            self.lose(format!(
                "the parenthesis and {:?} would be written as the start of a comment; write \"op\" \
                 before the name",
                self.peek()
            ));
        }
        Ok(open)
    }

    /// Told where the name `*` was read and a parenthesis closes: SML/NJ takes the two, written
    /// without a space, for the end of a comment.
    pub(super) fn star_before_close(&mut self) {
        let before = self.at.checked_sub(1).map_or("", |at| self.words[at].text);
        if before == "*" && self.peek() == ")" {
            self.lose(
                "the \"*\" before this parenthesis would be written without a space, which \
                 SML/NJ takes for the end of a comment; write fn (x, y) => x * y",
            );
        }
    }

    /// Whether a constant, a selector or a vector is next that begins with a symbol.
    pub(super) fn starts_symbolic_mark(&self) -> bool {
        let is_symbol = self.peek().bytes().next().is_some_and(is_symbolic);
        is_symbol && self.starts_atomic_exp() && !self.is_at(Class::Name)
    }
}
