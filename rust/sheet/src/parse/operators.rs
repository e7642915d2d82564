//! Operands and the operators between them, joined as they bind.

use super::Parser;
use crate::lex::Class;
use diverplume_record::Token;

/// What stands between two operands.
#[derive(Debug, Clone, Copy, PartialEq, Eq)]
pub(super) enum Link {
    Orelse,
    Andalso,
    Infix(Token),
}

/// A link and how tightly it binds.
#[derive(Debug, Clone, Copy)]
pub(super) struct Operator {
    pub(super) link: Link,
    strength: u8,
    is_right: bool,
}

impl Operator {
    pub(super) const ORELSE: Self = Self { link: Link::Orelse, strength: 0, is_right: false };
    pub(super) const ANDALSO: Self = Self { link: Link::Andalso, strength: 1, is_right: false };
    /// The strength of the loosest infix name, just above that of a type annotation.
    const INFIX: u8 = 2;
}

/// Operands with operators between, joined as far as what was read decides it.
pub(super) struct Operands<T> {
    last: T,
    /// The operands before the last, each with the operator behind it.
    waiting: Vec<(T, Operator)>,
    join: fn(Link, T, T) -> T,
}

impl<T> Operands<T> {
    pub(super) fn new(first: T, join: fn(Link, T, T) -> T) -> Self {
        Self { last: first, waiting: Vec::new(), join }
    }

    /// An operator and the operand behind it.
    pub(super) fn push(mut self, operator: Operator, operand: T) -> Self {
        self = self.joined(|waiting| {
            waiting.strength > operator.strength
                || (waiting.strength == operator.strength && !operator.is_right)
        });
        self.waiting.push((self.last, operator));
        Self { last: operand, ..self }
    }

    /// Puts what infix names join into another operand.
    pub(super) fn wrap(self, wrap: impl FnOnce(T) -> T) -> Self {
        let Self { last, waiting, join } =
            self.joined(|waiting| waiting.strength >= Operator::INFIX);
        Self { last: wrap(last), waiting, join }
    }

    pub(super) fn finish(self) -> T {
        self.joined(|_| true).last
    }

    /// Joins the last operand with those before it whose operator takes it.
    fn joined(mut self, takes: impl Fn(&Operator) -> bool) -> Self {
        while let Some((lhs, operator)) = self.waiting.pop() {
            if !takes(&operator) {
                self.waiting.push((lhs, operator));
                break;
            }
            self.last = (self.join)(operator.link, lhs, self.last);
        }
        self
    }
}

impl Parser<'_> {
    /// The operator that the word ahead is as an infix name.
    pub(super) fn infix_ahead(&self, by: usize) -> Option<Operator> {
        let word = self.ahead(by)?;
        let is_name = word.class == Class::Name || word.text == "=";
        if !is_name || self.text_ahead(by + 1) == "." {
            return None;
        }
        let fixity = self.fixities.of(word.text)?;
        let strength = Operator::INFIX + fixity.precedence;
        Some(Operator { link: Link::Infix(word.token), strength, is_right: fixity.is_right })
    }

    pub(super) fn is_infix(&self) -> bool {
        self.infix_ahead(0).is_some()
    }

    /// Whether the word ahead is an infix name other than `=`, which ends a pattern.
    pub(super) fn is_infix_in_pat(&self, by: usize) -> bool {
        self.text_ahead(by) != "=" && self.infix_ahead(by).is_some()
    }
}
