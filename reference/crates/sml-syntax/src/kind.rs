//! Untyped nodes and tokens.

use crate::tree::{NodeData, Slot, TokenData, Tree};
use schema::Node;
pub use schema::SyntaxKind;
use std::rc::Rc;
use text_size_util::TextRange;

/// A node of the tree.
#[derive(Debug, Clone)]
pub struct SyntaxNode {
    pub(crate) tree: Rc<Tree>,
    index: u32,
    first_token: Option<u16>,
}

impl SyntaxNode {
    #[inline]
    pub(crate) fn new(tree: Rc<Tree>, index: u32) -> Self {
        let first_token = tree.nodes[index as usize].first_token;
        Self { tree, index, first_token }
    }

    #[inline]
    fn data(&self) -> NodeData {
        self.tree.nodes[self.index as usize]
    }

    #[inline]
    pub(crate) fn node(&self) -> Node {
        self.data().node
    }

    #[inline]
    pub(crate) fn slot(&self, field: usize) -> Slot {
        self.tree.slots[self.data().fields as usize + field]
    }

    /// The first token: a declaration's operand, the root's token 0, of other nodes none.
    #[must_use]
    #[inline]
    pub fn first_token(&self) -> Option<SyntaxToken> {
        let number = self.first_token?;
        Some(SyntaxToken { tree: Rc::clone(&self.tree), number })
    }

    /// This node with another first token, for lookups at any token. None where the number isn't
    /// below the count of tokens.
    #[must_use]
    #[inline]
    pub fn with_first_token(&self, number: u16) -> Option<Self> {
        let known = usize::from(number) < self.tree.tokens.len();
        known.then(|| Self { first_token: Some(number), ..self.clone() })
    }

    /// Where the node's command stands in the record; 0 for the root, which has none.
    #[must_use]
    #[inline]
    pub fn offset_in_record(&self) -> u32 {
        self.data().at
    }

    /// The tokens of the tree in order. The record tells the tokens of the root alone, and 000
    /// asks the root alone.
    pub fn descendants_with_tokens(&self) -> impl Iterator<Item = SyntaxElement> + '_ {
        let numbers = (0..=u16::MAX).take(self.tree.tokens.len());
        numbers.map(|number| SyntaxElement(SyntaxToken { tree: Rc::clone(&self.tree), number }))
    }

    /// The number of tokens of the tree.
    #[must_use]
    #[inline]
    pub fn token_count(&self) -> usize {
        self.tree.tokens.len()
    }
}

/// What [`SyntaxNode::descendants_with_tokens`] gives: a token.
#[derive(Debug, Clone)]
pub struct SyntaxElement(SyntaxToken);

impl SyntaxElement {
    /// The token.
    #[must_use]
    #[inline]
    pub fn into_token(self) -> Option<SyntaxToken> {
        Some(self.0)
    }
}

/// A token of the text.
#[derive(Debug, Clone)]
pub struct SyntaxToken {
    pub(crate) tree: Rc<Tree>,
    pub(crate) number: u16,
}

impl SyntaxToken {
    #[inline]
    fn data(&self) -> TokenData {
        self.tree.tokens[usize::from(self.number)]
    }

    /// The token's kind.
    #[must_use]
    #[inline]
    pub fn kind(&self) -> SyntaxKind {
        self.data().kind
    }

    /// The token's bytes in the text.
    #[must_use]
    #[inline]
    pub fn text(&self) -> &str {
        let range = self.text_range();
        &self.tree.text[range.start() as usize..range.end() as usize]
    }

    /// Where the token stands in the text.
    #[must_use]
    #[inline]
    pub fn text_range(&self) -> TextRange {
        self.data().range
    }

    /// The token before this one.
    #[must_use]
    #[inline]
    pub fn prev_token(&self) -> Option<Self> {
        let number = self.number.checked_sub(1)?;
        Some(Self { tree: Rc::clone(&self.tree), number })
    }

    /// The token's number, from 0.
    #[must_use]
    #[inline]
    pub fn number(&self) -> u16 {
        self.number
    }
}
