//! The description of a tree.

use crate::Node;
use std::borrow::Cow;

/// A token of the sheet that is being built: its number in the text.
#[derive(Debug, Clone, Copy, PartialEq, Eq, PartialOrd, Ord, Hash)]
pub struct Token(pub u32);

impl Token {
    /// The number as an index.
    #[must_use]
    pub fn index(self) -> usize {
        usize::try_from(self.0).unwrap_or(usize::MAX)
    }
}

/// A node with some of its fields.
#[derive(Debug, Clone, PartialEq, Eq)]
pub struct NodeDescription {
    pub(crate) name: Name,
    pub(crate) first_token: Option<Token>,
    pub(crate) last_token: Option<Token>,
    pub(crate) fields: Vec<(Cow<'static, str>, PartDescription)>,
}

/// The name of a node: one of the schema, or another.
#[derive(Debug, Clone, PartialEq, Eq)]
pub(crate) enum Name {
    Known(Node),
    Unknown(String),
}

/// A node of that name, all of its fields absent or empty.
#[must_use]
pub fn node(name: &str) -> NodeDescription {
    let name = Node::named(name).map_or_else(|| Name::Unknown(name.to_owned()), Name::Known);
    NodeDescription { name, first_token: None, last_token: None, fields: Vec::new() }
}

impl NodeDescription {
    /// A node of the schema, all of its fields absent or empty.
    pub(crate) fn known(node: Node) -> Self {
        let name = Name::Known(node);
        Self { name, first_token: None, last_token: None, fields: Vec::new() }
    }

    /// Sets a declaration's first token. A declaration on which this is not called has none.
    #[must_use]
    pub fn first(mut self, token: Token) -> Self {
        self.first_token = Some(token);
        self
    }

    /// Sets a declaration's last token. The record has no place for it.
    #[must_use]
    pub fn last(mut self, token: Token) -> Self {
        self.last_token = Some(token);
        self
    }

    /// Sets a field: a token, a node, or an array or vector of these for a list.
    #[must_use]
    pub fn with(mut self, field: &str, part: impl Into<PartDescription>) -> Self {
        self.fields.push((Cow::Owned(field.to_owned()), part.into()));
        self
    }

    /// Sets a field that the schema names.
    pub(crate) fn with_known(mut self, field: &'static str, part: PartDescription) -> Self {
        self.fields.push((Cow::Borrowed(field), part));
        self
    }

    /// The node's name.
    #[must_use]
    pub fn name(&self) -> &str {
        match &self.name {
            Name::Known(node) => node.name(),
            Name::Unknown(name) => name,
        }
    }

    /// A declaration's first token.
    #[must_use]
    pub fn first_token(&self) -> Option<Token> {
        self.first_token
    }

    /// A declaration's last token.
    #[must_use]
    pub fn last_token(&self) -> Option<Token> {
        self.last_token
    }

    /// The fields that are set, in the order in which they were.
    #[must_use]
    pub fn fields(&self) -> impl DoubleEndedIterator<Item = (&str, &PartDescription)> {
        self.fields.iter().map(|(name, part)| (name.as_ref(), part))
    }
}

impl Drop for NodeDescription {
    /// Drops the nodes inside one after the other, so that deep nesting needs no deep stack.
    fn drop(&mut self) {
        let mut left: Vec<_> = self.fields.drain(..).map(|(_, part)| part).collect();
        while let Some(part) = left.pop() {
            match part {
                PartDescription::Node(mut node) => {
                    left.extend(node.fields.drain(..).map(|(_, part)| part));
                }
                PartDescription::List(items) => left.extend(items),
                PartDescription::Absent | PartDescription::Token(_) => {}
            }
        }
    }
}

/// What stands in a field.
#[derive(Debug, Clone, PartialEq, Eq)]
pub enum PartDescription {
    /// Nothing.
    Absent,
    /// A token.
    Token(Token),
    /// A node: a group, a form, or what a choice holds.
    Node(NodeDescription),
    /// A list.
    List(Vec<PartDescription>),
}

impl From<Token> for PartDescription {
    fn from(token: Token) -> Self {
        Self::Token(token)
    }
}

impl From<NodeDescription> for PartDescription {
    fn from(node: NodeDescription) -> Self {
        Self::Node(node)
    }
}

impl<T: Into<PartDescription>> From<Vec<T>> for PartDescription {
    fn from(items: Vec<T>) -> Self {
        Self::List(items.into_iter().map(Into::into).collect())
    }
}

impl<T: Into<PartDescription>, const N: usize> From<[T; N]> for PartDescription {
    fn from(items: [T; N]) -> Self {
        Self::List(items.into_iter().map(Into::into).collect())
    }
}

impl<T: Into<PartDescription>> From<Option<T>> for PartDescription {
    fn from(part: Option<T>) -> Self {
        part.map_or(Self::Absent, Into::into)
    }
}
