//! The arena behind all handles, and its builder.

use crate::ast::Root;
use crate::kind::{SyntaxKind, SyntaxNode};
use schema::Node;
#[cfg(feature = "notes")]
use std::cell::Cell;
use std::rc::Rc;
use text_size_util::TextRange;

/// A text, its tokens, and the tree that a record describes.
#[derive(Debug)]
pub struct Tree {
    pub(crate) text: String,
    pub(crate) tokens: Vec<TokenData>,
    pub(crate) nodes: Vec<NodeData>,
    pub(crate) slots: Vec<Slot>,
}

#[derive(Debug, Clone, Copy)]
pub(crate) struct TokenData {
    pub(crate) kind: SyntaxKind,
    pub(crate) range: TextRange,
}

#[derive(Debug, Clone, Copy)]
pub(crate) struct NodeData {
    pub(crate) node: Node,
    pub(crate) first_token: Option<u16>,
    /// Where the node's fields begin in the slots.
    pub(crate) fields: u32,
    /// Where its command stands in the record.
    pub(crate) at: u32,
}

/// A field of a node or an item of a list.
#[derive(Debug, Clone, Copy)]
pub(crate) enum Slot {
    /// Where its command stands in the record.
    Absent {
        at: u32,
    },
    Token(u16),
    Node(u32),
    /// The items stand side by side in the slots, the list's command at this place of the record.
    List {
        start: u32,
        count: u16,
        at: u32,
    },
}

#[cfg(feature = "notes")]
thread_local! {
    static MISSED: Cell<u32> = const { Cell::new(0) };
}

/// Notes what was asked for and is not there.
#[inline]
pub(crate) fn miss(at: u32) {
    #[cfg(feature = "notes")]
    MISSED.set(at);
    #[cfg(not(feature = "notes"))]
    let _ = at;
}

/// Where what was last asked for on this thread and is not there stands in the record: the command of
/// an absent part, or of the list that had no further item.
#[cfg(feature = "notes")]
#[must_use]
pub fn missed() -> u32 {
    MISSED.get()
}

/// Builds a tree: first the tokens, then the nodes, each after its fields.
///
/// Parts wait until the list or node that they belong to is closed. The caller gives each node
/// the fields of its schema; a handle to a node that stands in an unfitting field panics.
#[derive(Debug)]
pub struct TreeBuilder {
    tree: Tree,
    waiting: Vec<Slot>,
}

impl TreeBuilder {
    /// A builder of a tree over this text, without tokens or nodes.
    #[must_use]
    pub fn new(text: String) -> Self {
        let tree = Tree { text, tokens: Vec::new(), nodes: Vec::new(), slots: Vec::new() };
        Self { tree, waiting: Vec::new() }
    }

    /// Appends a token that begins where the last one ended.
    pub fn token(&mut self, kind: SyntaxKind, length: u16) {
        let start = self.tokens_end();
        let range = TextRange::new(start, start + u32::from(length));
        self.tree.tokens.push(TokenData { kind, range });
    }

    /// The text offset at which the last token ends.
    #[must_use]
    pub fn tokens_end(&self) -> u32 {
        self.tree.tokens.last().map_or(0, |token| token.range.end())
    }

    /// The number of tokens.
    #[must_use]
    pub fn token_count(&self) -> usize {
        self.tree.tokens.len()
    }

    /// An absent part, its command at this place of the record.
    pub fn absent(&mut self, at: usize) {
        self.waiting.push(Slot::Absent { at: index(at) });
    }

    /// A part that is a token of the text.
    pub fn token_ref(&mut self, number: u16) {
        self.waiting.push(Slot::Token(number));
    }

    /// A list of the last `count` parts, its command at this place of the record.
    pub fn list(&mut self, count: u16, at: usize) {
        let start = self.take_waiting(usize::from(count));
        self.waiting.push(Slot::List { start, count, at: index(at) });
    }

    /// A node with the last parts as its fields, its command at this place of the record.
    pub fn node(&mut self, node: Node, first_token: Option<u16>, at: usize) {
        let fields = self.take_waiting(node.fields().len());
        let number = index(self.tree.nodes.len());
        self.tree.nodes.push(NodeData { node, first_token, fields, at: index(at) });
        self.waiting.push(Slot::Node(number));
    }

    /// The tree's root with the one part left, the list of declarations, as its field. It has no
    /// command of its own.
    #[must_use]
    pub fn finish(mut self) -> Root {
        let first_token = (!self.tree.tokens.is_empty()).then_some(0);
        self.node(Node::Root, first_token, 0);
        let root = index(self.tree.nodes.len() - 1);
        Root::of(SyntaxNode::new(Rc::new(self.tree), root))
    }

    /// Moves the last `count` parts to the slots and gives the index of the first of them.
    fn take_waiting(&mut self, count: usize) -> u32 {
        let start = index(self.tree.slots.len());
        let parts = self.waiting.drain(self.waiting.len() - count..);
        self.tree.slots.extend(parts);
        start
    }
}

/// An index into the arena or an offset in the record, which has far fewer bytes than a u32 counts.
fn index(len: usize) -> u32 {
    u32::try_from(len).expect("arena over 4 GiB")
}
