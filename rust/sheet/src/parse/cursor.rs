//! Reading words, and what to say where another is expected.

use super::{Loss, Parsed, Parser};
use crate::error::{too_deep, Error, Position, Reason};
use crate::lex::{Class, Word};
use diverplume_record::tree::Path;
use diverplume_record::{limit, Token};

impl<'a> Parser<'a> {
    /// A word ahead of the cursor.
    pub(super) fn ahead(&self, by: usize) -> Option<&'a Word<'a>> {
        self.words.get(self.at + by)
    }

    /// The text of a word ahead, empty behind the last.
    pub(super) fn text_ahead(&self, by: usize) -> &'a str {
        self.ahead(by).map_or("", |word| word.text)
    }

    pub(super) fn peek(&self) -> &'a str {
        self.text_ahead(0)
    }

    pub(super) fn is_at(&self, class: Class) -> bool {
        self.ahead(0).is_some_and(|word| word.class == class)
    }

    /// The offset of the next word, behind the last that of the text's end.
    pub(super) fn offset(&self) -> usize {
        self.ahead(0).map_or(self.text.len(), |word| word.offset)
    }

    /// Whether the next word stands right behind the one before it.
    pub(super) fn is_adjacent(&self) -> bool {
        let before = self.at.checked_sub(1).map(|at| &self.words[at]);
        before.is_some_and(|word| word.offset + word.text.len() == self.offset())
    }

    /// The next word's token.
    pub(super) fn next(&mut self) -> Option<Token> {
        let token = self.ahead(0)?.token;
        self.at += 1;
        Some(token)
    }

    /// The token of the word before the cursor.
    pub(super) fn last(&self) -> Option<Token> {
        self.at.checked_sub(1).map(|at| self.words[at].token)
    }

    /// The word of that text, if it is next.
    pub(super) fn eat(&mut self, text: &str) -> Option<Token> {
        if self.peek() == text {
            self.next()
        } else {
            None
        }
    }

    pub(super) fn expect(&mut self, text: &str) -> Parsed<Token> {
        self.eat(text).ok_or_else(|| self.unexpected(&format!("{text:?}")))
    }

    /// The next word, if it is of that class.
    pub(super) fn of_class(&mut self, class: Class, what: &str) -> Parsed<Token> {
        let token = if self.is_at(class) { self.next() } else { None };
        token.ok_or_else(|| self.unexpected(what))
    }

    pub(super) fn name(&mut self) -> Parsed<Token> {
        self.of_class(Class::Name, "a name")
    }

    /// A name or `=`.
    pub(super) fn name_or_equals(&mut self) -> Parsed<Token> {
        match self.eat("=") {
            Some(equals) => Ok(equals),
            None => self.name(),
        }
    }

    /// A label of a row: a name or a number.
    pub(super) fn label(&mut self) -> Parsed<Token> {
        if self.is_at(Class::Numeral) {
            return self.of_class(Class::Numeral, "a label");
        }
        self.of_class(Class::Name, "a label")
    }

    /// Names with dots between.
    pub(super) fn path(&mut self) -> Parsed<Path> {
        let mut names = vec![self.name()?];
        self.rest_of_path(&mut names)?;
        Ok(Path::named(names))
    }

    /// The path behind `op`, which may be `=`.
    pub(super) fn path_or_equals(&mut self) -> Parsed<Path> {
        let mut names = vec![self.name_or_equals()?];
        self.rest_of_path(&mut names)?;
        Ok(Path::named(names))
    }

    fn rest_of_path(&mut self, names: &mut Vec<Token>) -> Parsed<()> {
        while self.eat(".").is_some() {
            names.push(self.name_or_equals()?);
        }
        Ok(())
    }

    /// Items with a word between.
    pub(super) fn separated<T>(
        &mut self,
        by: &str,
        mut item: impl FnMut(&mut Self) -> Parsed<T>,
    ) -> Parsed<Vec<T>> {
        let mut items = vec![item(self)?];
        while self.eat(by).is_some() {
            items.push(item(self)?);
        }
        Ok(items)
    }

    /// Items with bars between. A bar before the first is told as a loss.
    pub(super) fn barred<T>(&mut self, item: impl FnMut(&mut Self) -> Parsed<T>) -> Parsed<Vec<T>> {
        if self.peek() == "|" {
            self.lose("the bar before the first case would be lost; remove it");
            self.next();
        }
        self.separated("|", item)
    }

    /// Items with commas between and a closing word behind; there may be none.
    pub(super) fn until<T>(
        &mut self,
        close: &str,
        item: impl FnMut(&mut Self) -> Parsed<T>,
    ) -> Parsed<Vec<T>> {
        if self.eat(close).is_some() {
            return Ok(Vec::new());
        }
        let items = self.separated(",", item)?;
        self.close_list(close)?;
        Ok(items)
    }

    /// The closing word of a list whose items have commas between.
    pub(super) fn close_list(&mut self, close: &str) -> Parsed<Token> {
        self.eat(close).ok_or_else(|| self.unexpected(&format!("\",\" or {close:?}")))
    }

    /// Reads a form, which stands inside those that are being read.
    pub(super) fn nested<T>(&mut self, read: impl FnOnce(&mut Self) -> Parsed<T>) -> Parsed<T> {
        if self.depth == limit::FORMS {
            return Err(self.error(Reason::Limit, too_deep()));
        }
        self.depth += 1;
        let form = read(self);
        self.depth -= 1;
        form
    }

    /// Notes that formatting would lose something at the next word.
    pub(super) fn lose(&mut self, problem: impl Into<String>) {
        self.losses.push(Loss { offset: self.offset(), problem: problem.into() });
    }

    /// That something is expected at the next word.
    pub(super) fn unexpected(&self, what: &str) -> Error {
        let found = match self.peek() {
            "" => "the end".to_owned(),
            text => format!("{text:?}"),
        };
        self.error(Reason::Syntax, format!("{what} is expected, not {found}"))
    }

    pub(super) fn error(&self, reason: Reason, problem: String) -> Error {
        Error { at: Position::of(self.text, self.offset()), reason, problem }
    }
}
