//! Typed nodes, with the accessors of the schema.

use crate::kind::{SyntaxNode, SyntaxToken};
use crate::tree::{miss, Slot, Tree};
use schema::Node;
use std::marker::PhantomData;
use std::ops::Range;
use std::rc::Rc;

/// A typed node.
pub trait AstNode {
    /// The untyped node.
    fn syntax(&self) -> &SyntaxNode;
}

/// What a slot of the tree may hold.
trait FromSlot: Sized {
    /// The part in the slot, or none where the slot is absent.
    fn from_slot(tree: &Rc<Tree>, slot: Slot) -> Option<Self>;
}

impl FromSlot for SyntaxToken {
    #[inline]
    fn from_slot(tree: &Rc<Tree>, slot: Slot) -> Option<Self> {
        match slot {
            Slot::Absent { at } => {
                miss(at);
                None
            }
            Slot::Token(number) => Some(Self { tree: Rc::clone(tree), number }),
            Slot::Node(_) | Slot::List { .. } => unreachable!("not a token: {slot:?}"),
        }
    }
}

impl FromSlot for SyntaxNode {
    #[inline]
    fn from_slot(tree: &Rc<Tree>, slot: Slot) -> Option<Self> {
        match slot {
            Slot::Absent { at } => {
                miss(at);
                None
            }
            Slot::Node(index) => Some(Self::new(Rc::clone(tree), index)),
            Slot::Token(_) | Slot::List { .. } => unreachable!("not a node: {slot:?}"),
        }
    }
}

/// The items of a list.
#[derive(Debug, Clone)]
pub struct AstChildren<T> {
    tree: Rc<Tree>,
    slots: Range<usize>,
    /// Where the list's command stands in the record.
    at: u32,
    items: PhantomData<T>,
}

impl<T> AstChildren<T> {
    #[inline]
    fn of(syntax: &SyntaxNode, field: usize) -> Self {
        let (start, count, at) = match syntax.slot(field) {
            Slot::List { start, count, at } => (start as usize, usize::from(count), at),
            slot => unreachable!("not a list: {slot:?}"),
        };
        let slots = start..start + count;
        Self { tree: Rc::clone(&syntax.tree), slots, at, items: PhantomData }
    }
}

impl<T: FromSlot> Iterator for AstChildren<T> {
    type Item = T;

    #[inline]
    fn next(&mut self) -> Option<T> {
        let Some(slot) = self.slots.next() else {
            miss(self.at);
            return None;
        };
        T::from_slot(&self.tree, self.tree.slots[slot])
    }

    #[inline]
    fn size_hint(&self) -> (usize, Option<usize>) {
        self.slots.size_hint()
    }

    #[inline]
    fn count(self) -> usize {
        self.slots.len()
    }
}

macro_rules! wrappers {
    ($($wrapper:ident)*) => {
        $(
            /// A node that is one token.
            #[derive(Debug, Clone)]
            pub struct $wrapper {
                /// The token.
                pub token: SyntaxToken,
            }

            impl FromSlot for $wrapper {
                #[inline]
                fn from_slot(tree: &Rc<Tree>, slot: Slot) -> Option<Self> {
                    SyntaxToken::from_slot(tree, slot).map(|token| Self { token })
                }
            }
        )*
    };
}

wrappers!(NameStarEq TyHead Ascription SCon Lab);

/// The type of a part of the schema.
macro_rules! part {
    (token) => {
        SyntaxToken
    };
    ($how:ident $type:ident) => {
        $type
    };
}

/// One accessor for each field; `$at` is the field's number in its node.
macro_rules! accessors {
    ($at:expr;) => {};
    ($at:expr; $field:ident: (list $($part:ident)+), $($rest:tt)*) => {
        #[doc = concat!("The list `", stringify!($field), "`.")]
        #[must_use]
        #[inline]
        pub fn $field(&self) -> AstChildren<part!($($part)+)> {
            AstChildren::of(&self.syntax, $at)
        }
        accessors!($at + 1; $($rest)*);
    };
    ($at:expr; $field:ident: ($($part:ident)+), $($rest:tt)*) => {
        #[doc = concat!("The field `", stringify!($field), "`.")]
        #[must_use]
        #[inline]
        pub fn $field(&self) -> Option<part!($($part)+)> {
            FromSlot::from_slot(&self.syntax.tree, self.syntax.slot($at))
        }
        accessors!($at + 1; $($rest)*);
    };
}

/// The enum of a family or a choice.
macro_rules! sum {
    ($sum:ident [$($node:ident)*]) => {
        #[doc = concat!("One of the nodes of `", stringify!($sum), "`.")]
        #[derive(Debug, Clone)]
        #[expect(missing_docs, reason = "named as in 000")]
        pub enum $sum { $($node($node),)* }

        impl AstNode for $sum {
            #[inline]
            fn syntax(&self) -> &SyntaxNode {
                match self { $(Self::$node(node) => &node.syntax,)* }
            }
        }

        impl FromSlot for $sum {
            #[inline]
            fn from_slot(tree: &Rc<Tree>, slot: Slot) -> Option<Self> {
                let syntax = SyntaxNode::from_slot(tree, slot)?;
                match syntax.node() {
                    $(Node::$node => Some(Self::$node($node { syntax })),)*
                    other => unreachable!("{other:?} in {}", stringify!($sum)),
                }
            }
        }
    };
}

macro_rules! typed {
    (
        nodes { $($node:ident { $($fields:tt)* })* }
        families { $($family:ident $first:literal $forms:tt)* }
        choices { $($choice:ident $held:tt)* }
    ) => {
        $(
            #[doc = concat!("The node `", stringify!($node), "`.")]
            #[derive(Debug, Clone)]
            pub struct $node {
                syntax: SyntaxNode,
            }

            impl $node {
                accessors!(0; $($fields)*);
            }

            impl AstNode for $node {
                #[inline]
                fn syntax(&self) -> &SyntaxNode {
                    &self.syntax
                }
            }

            impl FromSlot for $node {
                #[inline]
                fn from_slot(tree: &Rc<Tree>, slot: Slot) -> Option<Self> {
                    SyntaxNode::from_slot(tree, slot).map(|syntax| Self { syntax })
                }
            }
        )*
        $(sum!($family $forms);)*
        $(sum!($choice $held);)*
    };
}

schema::with_nodes!(typed);

impl Root {
    pub(crate) fn of(syntax: SyntaxNode) -> Self {
        Self { syntax }
    }
}
