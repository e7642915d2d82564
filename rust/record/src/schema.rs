//! The schema of the record: every node with its fields, every family of forms and every choice.
//!
//! Each node is declared once, in [`with_nodes`]. The tables here and the types of
//! [`tree`](crate::tree) both come from that declaration.

use crate::with_nodes;
use std::fmt;

/// The commands of the record other than forms.
pub mod command {
    /// An absent field.
    pub const ABSENT: u8 = 0x00;
    /// A token by its number (u16).
    pub const TOKEN_REF: u8 = 0x01;
    /// A list: its count (u16), then its items.
    pub const LIST: u8 = 0x02;
    /// A group, then its fields.
    pub const GROUP: u8 = 0x03;
    /// A choice: which (u8), then the fields of the node it holds.
    pub const CHOICE: u8 = 0x04;
    /// A token of the text: kind (u8), length (u16).
    pub const TOKEN: u8 = 0x05;
    /// The first token operand of a declaration that has none.
    pub const NO_TOKEN: u16 = 0xFFFF;

    /// The name of a command: what it stands for, or the form; none where no command has this byte.
    #[must_use]
    pub fn name(byte: u8) -> Option<&'static str> {
        match byte {
            ABSENT => Some("absent"),
            TOKEN_REF => Some("token number"),
            LIST => Some("list"),
            GROUP => Some("group"),
            CHOICE => Some("choice"),
            TOKEN => Some("token"),
            _ => super::Family::ALL
                .iter()
                .find_map(|family| family.form(byte))
                .map(super::Node::name),
        }
    }
}

/// The limits of a sheet.
pub mod limit {
    /// The longest text in bytes.
    pub const TEXT: usize = 32_768;
    /// The longest record in bytes.
    pub const RECORD: usize = 65_536;
    /// The most tokens.
    pub const TOKENS: usize = 4_096;
    /// The most forms inside one another; groups and choices are not counted.
    pub const FORMS: usize = 200;
}

/// A field of a node.
#[derive(Debug, Clone, Copy, PartialEq, Eq)]
pub struct Field {
    /// The name of the accessor that 000 calls.
    pub accessor: &'static str,
    /// What the field holds.
    pub kind: FieldKind,
}

/// What a field holds.
#[derive(Debug, Clone, Copy, PartialEq, Eq)]
pub enum FieldKind {
    /// One part, or absent.
    One(Part),
    /// A list of parts, none of them absent.
    List(Part),
}

impl FieldKind {
    /// The part that the field holds, or the part that the items of its list are.
    #[must_use]
    pub const fn part(self) -> Part {
        match self {
            Self::One(part) | Self::List(part) => part,
        }
    }
}

impl fmt::Display for FieldKind {
    fn fmt(&self, f: &mut fmt::Formatter<'_>) -> fmt::Result {
        match self {
            Self::One(part) => part.fmt(f),
            Self::List(part) => write!(f, "list of {part}"),
        }
    }
}

/// What stands in a field or as an item of a list.
#[derive(Debug, Clone, Copy, PartialEq, Eq)]
pub enum Part {
    /// A token: what is read by text or presence alone.
    Token,
    /// A node written as a group.
    Group(Node),
    /// One of the nodes of a choice.
    Choice(Choice),
    /// One of the forms of a family.
    Form(Family),
}

impl fmt::Display for Part {
    fn fmt(&self, f: &mut fmt::Formatter<'_>) -> fmt::Result {
        match self {
            Self::Token => f.write_str("token"),
            Self::Group(node) => write!(f, "group {}", node.name()),
            Self::Choice(choice) => write!(f, "choice {}", choice.name()),
            Self::Form(family) => write!(f, "form {}", family.name()),
        }
    }
}

macro_rules! part {
    (token $($wrapper:ident)?) => {
        Part::Token
    };
    (group $node:ident) => {
        Part::Group(Node::$node)
    };
    (choice $choice:ident) => {
        Part::Choice(Choice::$choice)
    };
    (form $family:ident) => {
        Part::Form(Family::$family)
    };
}

macro_rules! field_kind {
    ((list $($part:ident)+)) => { FieldKind::List(part!($($part)+)) };
    (($($part:ident)+)) => { FieldKind::One(part!($($part)+)) };
}

macro_rules! tables {
    (
        nodes { $($node:ident { $($field:ident: $kind:tt,)* })* }
        families { $($family:ident $first:literal [$($form:ident)*])* }
        choices { $($choice:ident [$($held:ident)*])* }
    ) => {
        /// A node of the tree.
        #[derive(Debug, Clone, Copy, PartialEq, Eq, Hash)]
        #[repr(u8)]
        #[expect(missing_docs, reason = "named as in 000")]
        pub enum Node { $($node,)* }

        impl Node {
            /// All nodes.
            pub const ALL: &'static [Self] = &[$(Self::$node,)*];

            /// The node's name.
            #[must_use]
            pub const fn name(self) -> &'static str {
                match self { $(Self::$node => stringify!($node),)* }
            }

            /// The node's fields in the order of the record.
            #[must_use]
            pub const fn fields(self) -> &'static [Field] {
                match self {
                    $(Self::$node => const { &[
                        $(Field { accessor: stringify!($field), kind: field_kind!($kind) },)*
                    ] },)*
                }
            }
        }

        /// A family of forms.
        #[derive(Debug, Clone, Copy, PartialEq, Eq, Hash)]
        #[expect(missing_docs, reason = "named as in 000")]
        pub enum Family { $($family,)* }

        impl Family {
            /// All families.
            pub const ALL: &'static [Self] = &[$(Self::$family,)*];

            /// The family's name.
            #[must_use]
            pub const fn name(self) -> &'static str {
                match self { $(Self::$family => stringify!($family),)* }
            }

            /// The command of the family's first form; the others follow without a gap.
            #[must_use]
            pub const fn first_command(self) -> u8 {
                match self { $(Self::$family => $first,)* }
            }

            /// The forms in the order of their commands.
            #[must_use]
            pub const fn forms(self) -> &'static [Node] {
                match self { $(Self::$family => &[$(Node::$form,)*],)* }
            }
        }

        /// A choice.
        #[derive(Debug, Clone, Copy, PartialEq, Eq, Hash)]
        #[expect(missing_docs, reason = "named as in 000")]
        pub enum Choice { $($choice,)* }

        impl Choice {
            /// All choices.
            pub const ALL: &'static [Self] = &[$(Self::$choice,)*];

            /// The choice's name.
            #[must_use]
            pub const fn name(self) -> &'static str {
                match self { $(Self::$choice => stringify!($choice),)* }
            }

            /// The nodes in the order of their numbers from 0.
            #[must_use]
            pub const fn nodes(self) -> &'static [Node] {
                match self { $(Self::$choice => &[$(Node::$held,)*],)* }
            }
        }
    };
}

with_nodes!(tables);

impl Node {
    /// The node of that name.
    #[must_use]
    pub fn named(name: &str) -> Option<Self> {
        Self::ALL.iter().copied().find(|node| node.name() == name)
    }
}

impl Family {
    /// The form that a command stands for in this family.
    #[must_use]
    pub fn form(self, command: u8) -> Option<Node> {
        let at = command.checked_sub(self.first_command())?;
        self.forms().get(usize::from(at)).copied()
    }

    /// The command of a form of this family.
    #[must_use]
    pub fn command(self, form: Node) -> Option<u8> {
        Some(self.first_command() + number_in(self.forms(), form)?)
    }

    /// Whether the command has the first token as its operand.
    #[must_use]
    pub const fn has_first_token(self) -> bool {
        matches!(self, Self::DecOne)
    }
}

impl Choice {
    /// The node of that number.
    #[must_use]
    pub fn node(self, which: u8) -> Option<Node> {
        self.nodes().get(usize::from(which)).copied()
    }

    /// The number of a node of this choice.
    #[must_use]
    pub fn which(self, node: Node) -> Option<u8> {
        number_in(self.nodes(), node)
    }
}

fn number_in(nodes: &[Node], node: Node) -> Option<u8> {
    let at = nodes.iter().position(|&other| other == node)?;
    u8::try_from(at).ok()
}
