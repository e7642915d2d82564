//! The commands of a record that fits the schema, with what each of them is.

use schema::{command, Choice, Family, FieldKind, Node, Part};
use std::ops::Range;

/// A command of a record.
#[derive(Debug, Clone, PartialEq, Eq)]
pub struct Command {
    /// The command's bytes with its operands.
    pub bytes: Range<usize>,
    /// Where the part ends that begins with this command: the fields, the items and all inside.
    pub end: usize,
    /// What it is.
    pub role: Role,
    /// The node and the number of its field in which it stands, or in whose list; none for a token.
    pub field: Option<(Node, usize)>,
    /// Whether it is an item of that list.
    pub is_item: bool,
}

/// What a command is.
#[derive(Debug, Clone, Copy, PartialEq, Eq)]
pub enum Role {
    /// A token of the text.
    Token,
    /// An absent field.
    Absent,
    /// A token by its number.
    TokenRef(u16),
    /// A list of this many items.
    List(u16),
    /// A group.
    Group(Node),
    /// A choice and the node it holds.
    Choice(Choice, Node),
    /// A form.
    Form(Family, Node),
}

impl Role {
    /// The node whose fields follow.
    #[must_use]
    pub fn node(self) -> Option<Node> {
        match self {
            Self::Group(node) | Self::Choice(_, node) | Self::Form(_, node) => Some(node),
            Self::Token | Self::Absent | Self::TokenRef(_) | Self::List(_) => None,
        }
    }
}

/// The commands in order; none where the record doesn't fit the schema. Limits, kinds, lengths,
/// token numbers and nesting are not checked.
#[must_use]
pub fn commands(record: &[u8]) -> Option<Vec<Command>> {
    let mut pass = Pass { record, at: 0, open: Vec::new(), commands: Vec::new() };
    while record.get(pass.at) == Some(&command::TOKEN) {
        pass.push(4, Role::Token, None, false)?;
    }
    let last = Node::Root.fields().len();
    for field in 0..last {
        pass.field(Node::Root, field)?;
        pass.inside()?;
    }
    (pass.at == record.len()).then_some(pass.commands)
}

/// A list or a node whose items or fields are being read.
struct Open {
    /// Its command's place in the list of commands.
    command: usize,
    /// Items or fields read.
    read: usize,
    /// Items or fields in all.
    count: usize,
}

struct Pass<'a> {
    record: &'a [u8],
    at: usize,
    open: Vec<Open>,
    commands: Vec<Command>,
}

impl Pass<'_> {
    /// Reads what stands inside the part just begun.
    fn inside(&mut self) -> Option<()> {
        while let Some(open) = self.open.last_mut() {
            if open.read == open.count {
                self.commands[open.command].end = self.at;
                self.open.pop();
                continue;
            }
            let read = open.read;
            open.read += 1;
            let outer = &self.commands[open.command];
            match (outer.role.node(), outer.field) {
                (Some(node), _) => self.field(node, read)?,
                (None, Some((node, field))) => {
                    self.part(node, field, node.fields()[field].kind.part(), true)?;
                }
                (None, None) => return None,
            }
        }
        Some(())
    }

    fn push(
        &mut self,
        length: usize,
        role: Role,
        field: Option<(Node, usize)>,
        is_item: bool,
    ) -> Option<()> {
        let bytes = self.at..self.at + length;
        self.record.get(bytes.clone())?;
        let count = match role {
            Role::List(count) => usize::from(count),
            _ => role.node().map_or(0, |node| node.fields().len()),
        };
        self.at = bytes.end;
        self.open.push(Open { command: self.commands.len(), read: 0, count });
        if matches!(role, Role::Token | Role::Absent | Role::TokenRef(_)) {
            self.open.pop();
        }
        self.commands.push(Command { end: bytes.end, bytes, role, field, is_item });
        Some(())
    }

    fn field(&mut self, node: Node, field: usize) -> Option<()> {
        let place = Some((node, field));
        match (node.fields()[field].kind, *self.record.get(self.at)?) {
            (FieldKind::List(_), command::LIST) => {
                self.push(3, Role::List(self.operand()?), place, false)
            }
            (FieldKind::List(_), _) => None,
            (FieldKind::One(_), command::ABSENT) => self.push(1, Role::Absent, place, false),
            (FieldKind::One(part), _) => self.part(node, field, part, false),
        }
    }

    fn part(&mut self, node: Node, field: usize, part: Part, is_item: bool) -> Option<()> {
        let byte = *self.record.get(self.at)?;
        let (length, role) = match (part, byte) {
            (Part::Token, command::TOKEN_REF) => (3, Role::TokenRef(self.operand()?)),
            (Part::Group(group), command::GROUP) => (1, Role::Group(group)),
            (Part::Choice(choice), command::CHOICE) => {
                let held = choice.node(*self.record.get(self.at + 1)?)?;
                (2, Role::Choice(choice, held))
            }
            (Part::Form(family), _) => {
                let length = if family.has_first_token() { 3 } else { 1 };
                (length, Role::Form(family, family.form(byte)?))
            }
            _ => return None,
        };
        self.push(length, role, Some((node, field)), is_item)
    }

    /// The u16 behind the command at the cursor.
    fn operand(&self) -> Option<u16> {
        let bytes = self.record.get(self.at + 1..self.at + 3)?;
        Some(u16::from_le_bytes([bytes[0], bytes[1]]))
    }
}
