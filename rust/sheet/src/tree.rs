//! What the tree of a file says of its text.

use crate::File;
use diverplume_record::{Family, Node, NodeDescription, PartDescription, Token};
use std::ops::Range;

/// A declaration.
#[derive(Debug, Clone, PartialEq, Eq)]
pub struct Declaration {
    /// Its place in the text, from its first token to its last; a semicolon behind it is no part
    /// of it.
    pub range: Range<usize>,
    /// The name of its form.
    pub form: &'static str,
}

/// Where two trees differ: an offset in each of the two texts, that of the last token before the
/// difference.
#[derive(Debug, Clone, Copy, PartialEq, Eq)]
pub struct Difference {
    /// In the first text.
    pub first: usize,
    /// In the second.
    pub second: usize,
}

impl File<'_> {
    /// The declarations in the order of the text, an outer one before those inside it.
    #[must_use]
    pub fn declarations(&self) -> Vec<Declaration> {
        let nodes = Steps::new(self).filter_map(|step| match step {
            Step::Node(node) => Some(node),
            _ => None,
        });
        nodes.filter_map(|node| self.declaration(node)).collect()
    }

    fn declaration(&self, node: &NodeDescription) -> Option<Declaration> {
        let (first, last) = (node.first_token()?, node.last_token()?);
        let form = Node::named(node.name()).filter(|&form| Family::DecOne.command(form).is_some());
        let range = self.range(first).start..self.range(last).end;
        Some(Declaration { range, form: form?.name() })
    }

    /// Whether two files have the same tree, tokens compared by their texts.
    ///
    /// # Errors
    ///
    /// The first difference.
    pub fn same_tree(&self, other: &File<'_>) -> Result<(), Difference> {
        let (mut ours, mut theirs) = (Steps::new(self), Steps::new(other));
        loop {
            let is_same = match (ours.next(), theirs.next()) {
                (None, None) => return Ok(()),
                (Some(ours), Some(theirs)) => ours.shape(self) == theirs.shape(other),
                _ => false,
            };
            if !is_same {
                return Err(Difference { first: ours.offset, second: theirs.offset });
            }
        }
    }

    /// The place of a token in the text.
    fn range(&self, token: Token) -> Range<usize> {
        self.tokens.get(token.index()).map_or(0..0, |token| token.range.clone())
    }

    fn text_of(&self, token: Token) -> &[u8] {
        &self.text[self.range(token)]
    }
}

/// A step of a walk over a tree.
#[derive(Clone, Copy)]
enum Step<'t> {
    Node(&'t NodeDescription),
    Field(&'t str),
    Token(Token),
    List(usize),
    Absent,
}

/// What is compared of a step.
#[derive(PartialEq, Eq)]
enum Shape<'t> {
    Node(&'t str, [Option<&'t [u8]>; 2]),
    Field(&'t str),
    Token(&'t [u8]),
    List(usize),
    Absent,
}

impl<'t> Step<'t> {
    fn shape(self, file: &'t File<'_>) -> Shape<'t> {
        let text = |token| file.text_of(token);
        match self {
            Self::Node(node) => Shape::Node(
                node.name(),
                [node.first_token(), node.last_token()].map(|t| t.map(text)),
            ),
            Self::Field(name) => Shape::Field(name),
            Self::Token(token) => Shape::Token(text(token)),
            Self::List(count) => Shape::List(count),
            Self::Absent => Shape::Absent,
        }
    }
}

/// The steps of a walk over a file's tree, each node before its fields. It needs no deep stack.
struct Steps<'t> {
    file: &'t File<'t>,
    /// What is left, the next one last.
    left: Vec<Left<'t>>,
    /// The place of the last token.
    offset: usize,
}

enum Left<'t> {
    Node(&'t NodeDescription),
    Field(&'t str),
    Part(&'t PartDescription),
}

impl<'t> Steps<'t> {
    fn new(file: &'t File<'_>) -> Self {
        Self { file, left: vec![Left::Node(file.root.as_ref())], offset: 0 }
    }

    fn node(&mut self, node: &'t NodeDescription) -> Step<'t> {
        for (name, part) in node.fields().rev() {
            self.left.extend([Left::Part(part), Left::Field(name)]);
        }
        Step::Node(node)
    }
}

impl<'t> Iterator for Steps<'t> {
    type Item = Step<'t>;

    fn next(&mut self) -> Option<Step<'t>> {
        Some(match self.left.pop()? {
            Left::Node(node) | Left::Part(PartDescription::Node(node)) => self.node(node),
            Left::Field(name) => Step::Field(name),
            Left::Part(PartDescription::Absent) => Step::Absent,
            Left::Part(PartDescription::Token(token)) => {
                self.offset = self.file.range(*token).start;
                Step::Token(*token)
            }
            Left::Part(PartDescription::List(items)) => {
                self.left.extend(items.iter().rev().map(Left::Part));
                Step::List(items.len())
            }
        })
    }
}
