//! The tokens of a sheet that is being built.

use crate::describe::{NodeDescription, PartDescription, Token};
use crate::error::{BuildError, Problem};
use crate::{command, limit, Bytes, SyntaxKind};
use std::ops::Range;

/// A text as its tokens.
#[derive(Debug, Clone, Default)]
pub(crate) struct Tokens {
    text: Vec<u8>,
    /// The kind of each token and where it ends in the text.
    ends: Vec<(SyntaxKind, usize)>,
    /// For each token that was given the one that holds it, where some were made one.
    holders: Option<Vec<usize>>,
}

impl Tokens {
    pub(crate) fn push(&mut self, kind: SyntaxKind, text: &[u8]) -> Token {
        let number = u32::try_from(self.ends.len()).unwrap_or(u32::MAX);
        self.text.extend_from_slice(text);
        self.ends.push((kind, self.text.len()));
        Token(number)
    }

    pub(crate) fn into_text(self) -> Vec<u8> {
        self.text
    }

    /// The token that holds a token that was given.
    fn holder(&self, token: Token) -> Option<usize> {
        match &self.holders {
            Some(holders) => holders.get(token.index()).copied(),
            None => Some(token.index()).filter(|&number| number < self.ends.len()),
        }
    }

    /// The number that a token has in the record.
    pub(crate) fn number(&self, token: Token) -> Option<u16> {
        self.holder(token).and_then(|number| u16::try_from(number).ok())
    }

    /// Where a token that the tree names begins in the text.
    pub(crate) fn offset(&self, token: Token) -> usize {
        let before = self.holder(token).and_then(|number| self.ends.get(number.checked_sub(1)?));
        before.map_or(0, |&(_, end)| end)
    }

    /// The same text in which each longest run of tokens of kind `Other` that the tree doesn't name
    /// is one token.
    pub(crate) fn fused(self, tree: &NodeDescription) -> Self {
        let named = named(tree, self.ends.len());
        let mut ends: Vec<(SyntaxKind, usize)> = Vec::new();
        let mut holders = Vec::with_capacity(self.ends.len());
        let mut is_open = false;
        for (&(kind, end), is_named) in self.ends.iter().zip(named) {
            let is_run = kind == SyntaxKind::Other && !is_named;
            match ends.last_mut() {
                Some(last) if is_open && is_run => last.1 = end,
                _ => ends.push((kind, end)),
            }
            is_open = is_run;
            holders.push(ends.len() - 1);
        }
        Self { text: self.text, ends, holders: Some(holders) }
    }

    /// The record's part for the tokens.
    pub(crate) fn record(&self, unlimited: bool) -> Result<Vec<u8>, BuildError> {
        let mut record = Vec::with_capacity(4 * self.ends.len());
        let mut start = 0;
        for (number, &(kind, end)) in self.ends.iter().enumerate() {
            if !unlimited {
                self.within_limits(number, start..end)?;
            }
            let told = |problem| Err(BuildError::on_the_whole(problem, Some(start)));
            match (u16::try_from(number), u16::try_from(end - start)) {
                (Err(_) | Ok(command::NO_TOKEN), _) => return told(Problem::TooManyTokens(number)),
                (_, Err(_)) => return told(Problem::LongToken(number)),
                (_, Ok(0)) => return told(Problem::EmptyToken(number)),
                (_, Ok(length)) => {
                    record.extend([command::TOKEN, kind.number()]);
                    record.extend(length.to_le_bytes());
                }
            }
            start = end;
        }
        Ok(record)
    }

    /// The limit that a token passes.
    fn within_limits(&self, number: usize, range: Range<usize>) -> Result<(), BuildError> {
        let told = |problem, offset| Err(BuildError::on_the_whole(problem, Some(offset)));
        if number >= limit::TOKENS {
            return told(Problem::TooManyTokens(number), range.start);
        }
        if range.end > limit::TEXT {
            return told(Problem::LongText(number), range.start);
        }
        let (start, token) = (range.start, &self.text[range]);
        match std::str::from_utf8(token) {
            Ok(_) => Ok(()),
            Err(error) => {
                let whole = error.valid_up_to();
                told(Problem::NotUtf8(number, Bytes::broken(&token[whole..])), start + whole)
            }
        }
    }
}

/// Whether the tree names each token, as a field or as the first or last of a declaration. Nodes
/// are visited without recursion, so that deep nesting needs no deep stack.
fn named(tree: &NodeDescription, count: usize) -> Vec<bool> {
    let mut named = vec![false; count];
    let mut name = |token: Token| {
        if let Some(is_named) = named.get_mut(token.index()) {
            *is_named = true;
        }
    };
    let mut nodes = vec![tree];
    let mut parts = Vec::new();
    while let Some(node) = nodes.pop() {
        node.first_token.into_iter().chain(node.last_token).for_each(&mut name);
        parts.extend(node.fields.iter().map(|(_, part)| part));
        while let Some(part) = parts.pop() {
            match part {
                PartDescription::Absent => {}
                PartDescription::Token(token) => name(*token),
                PartDescription::Node(node) => nodes.push(node),
                PartDescription::List(items) => parts.extend(items),
            }
        }
    }
    named
}
