//! The nodes of the tree as types, one for each node of the schema, named as in `sml-naive-fmt`.
//!
//! - A node has a method for each of its fields. A field that is no list takes the part or an
//!   `Option` of it; a list takes anything that iterates over its items.
//! - A node of one field also has `of`, which sets that field.
//! - A family of forms ([`Exp`], [`Pat`], [`Ty`], ..) and a choice ([`ExBindInner`], ..) is a type
//!   that its nodes convert to, so that `ParenExp::of(exp)` stands wherever an [`Exp`] may.
//! - A form of [`DecOne`] converts by `first` or `without_first`: its first token has to be said.

use crate::describe::{NodeDescription, PartDescription, Token};
use crate::{with_nodes, Node};

/// The type of a part of the schema.
macro_rules! part {
    (token $($wrapper:ident)?) => {
        Token
    };
    ($how:ident $type:ident) => {
        $type
    };
}

/// One method for each field.
macro_rules! setters {
    () => {};
    ($field:ident: (list $($part:ident)+), $($rest:tt)*) => {
        #[doc = concat!("Sets the list `", stringify!($field), "`.")]
        #[must_use]
        pub fn $field<I>(self, items: I) -> Self
        where
            I: IntoIterator,
            I::Item: Into<part!($($part)+)>,
        {
            let items = items.into_iter().map(|item| PartDescription::from(item.into()));
            let items = PartDescription::List(items.collect());
            Self(self.0.with_known(stringify!($field), items))
        }
        setters!($($rest)*);
    };
    ($field:ident: ($($part:ident)+), $($rest:tt)*) => {
        #[doc = concat!("Sets the field `", stringify!($field), "`.")]
        #[must_use]
        pub fn $field(self, part: impl Into<Option<part!($($part)+)>>) -> Self {
            let part = PartDescription::from(part.into());
            Self(self.0.with_known(stringify!($field), part))
        }
        setters!($($rest)*);
    };
}

/// The shorthand of a node that has one field.
macro_rules! of {
    ($field:ident: (list $($part:ident)+),) => {
        #[doc = concat!("A node with this list `", stringify!($field), "`.")]
        #[must_use]
        pub fn of<I>(items: I) -> Self
        where
            I: IntoIterator,
            I::Item: Into<part!($($part)+)>,
        {
            Self::new().$field(items)
        }
    };
    ($field:ident: ($($part:ident)+),) => {
        #[doc = concat!("A node with this field `", stringify!($field), "`.")]
        #[must_use]
        pub fn of(part: impl Into<Option<part!($($part)+)>>) -> Self {
            Self::new().$field(part)
        }
    };
    ($($fields:tt)*) => {};
}

/// How a node becomes a form of a family or what a choice holds.
macro_rules! held {
    (DecOne $node:ident) => {
        impl $node {
            /// The declaration with its first token, from which the comment above is looked for.
            #[must_use]
            pub fn first(self, token: Token) -> DecOne {
                DecOne(self.0.first(token))
            }

            /// The declaration without a first token: no comment stands above it.
            #[must_use]
            pub fn without_first(self) -> DecOne {
                DecOne(self.0)
            }
        }
    };
    ($sum:ident $node:ident) => {
        impl From<$node> for $sum {
            fn from(node: $node) -> Self {
                Self(node.0)
            }
        }

        impl From<$node> for Option<$sum> {
            fn from(node: $node) -> Self {
                Some(node.into())
            }
        }
    };
}

/// A type around a description.
macro_rules! described {
    ($name:ident, $doc:expr) => {
        #[doc = $doc]
        #[derive(Debug, Clone, PartialEq, Eq)]
        pub struct $name(NodeDescription);

        impl From<$name> for NodeDescription {
            fn from(node: $name) -> Self {
                node.0
            }
        }

        impl AsRef<NodeDescription> for $name {
            fn as_ref(&self) -> &NodeDescription {
                &self.0
            }
        }

        impl From<$name> for PartDescription {
            fn from(node: $name) -> Self {
                Self::Node(node.0)
            }
        }
    };
}

/// The type of a family or a choice.
macro_rules! sum {
    ($sum:ident [$($node:ident)*]) => {
        described!($sum, concat!("One of the nodes of `", stringify!($sum), "`."));
        $(held!($sum $node);)*
    };
}

macro_rules! typed {
    (
        nodes { $($node:ident { $($fields:tt)* })* }
        families { $($family:ident $first:literal $forms:tt)* }
        choices { $($choice:ident $held:tt)* }
    ) => {
        $(
            described!($node, concat!("The node `", stringify!($node), "`."));

            impl $node {
                /// A node without its parts: fields absent, lists empty.
                #[must_use]
                pub fn new() -> Self {
                    Self(NodeDescription::known(Node::$node))
                }

                of!($($fields)*);
                setters!($($fields)*);
            }

            impl Default for $node {
                fn default() -> Self {
                    Self::new()
                }
            }
        )*
        $(sum!($family $forms);)*
        $(sum!($choice $held);)*
    };
}

with_nodes!(typed);

impl DecOne {
    /// Sets the declaration's last token. The record has no place for it.
    #[must_use]
    pub fn last(self, token: Token) -> Self {
        Self(self.0.last(token))
    }
}

impl Dec {
    /// A `Dec` that holds one declaration, without semicolons or sharing tails.
    #[must_use]
    pub fn one(dec_one: DecOne) -> Self {
        Self::sequence([DecInSeq::new().dec_one(dec_one)])
    }

    /// A `Dec` that holds these, without sharing tails or a semicolon behind them.
    #[must_use]
    pub fn sequence(items: impl IntoIterator<Item = DecInSeq>) -> Self {
        Self::new().dec_with_tail(DecWithTail::new().dec_in_seqs(items))
    }
}

impl Path {
    /// The path of these names.
    #[must_use]
    pub fn named(names: impl IntoIterator<Item = Token>) -> Self {
        Self::of(names.into_iter().map(NameStarEqDot::of))
    }
}
