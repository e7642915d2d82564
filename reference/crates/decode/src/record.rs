//! The record check: one forward pass, without recursion.

use crate::number;
use crate::verdict::Refusal;
use schema::{command, limit, Choice, Family, FieldKind, Node, Part, SyntaxKind};
use sml_syntax::ast::Root;
use sml_syntax::tree::TreeBuilder;

/// The tree of a sheet.
///
/// # Errors
///
/// The refusal of a sheet that meets one of numbers 1 to 4.
pub fn decode(text: &[u8], record: &[u8]) -> Result<Root, Refusal> {
    if text.len() > limit::TEXT || record.len() > limit::RECORD {
        return Err(Refusal::new(number::TOO_LONG, 0));
    }
    let text = std::str::from_utf8(text)
        .map_err(|error| Refusal::new(number::NOT_UTF8, error.valid_up_to()))?;
    let tree = TreeBuilder::new(text.to_owned());
    let mut pass = Pass { record, cursor: 0, forms: 0, open: Vec::new(), tree };
    pass.tokens(text)?;
    pass.tree()?;
    if pass.cursor < record.len() {
        return Err(malformed(pass.cursor));
    }
    Ok(pass.tree.finish())
}

fn malformed(place: usize) -> Refusal {
    Refusal::new(number::MALFORMED, place)
}

/// What is being read.
enum Open {
    /// A list: the part that its items are, its count, how many are still to be read, and where its
    /// command stands.
    List { part: Part, count: u16, left: u16, at: usize },
    /// A node: how many of its fields have been read, whether it counts as a form, and where its
    /// command stands.
    Node { node: Node, read: usize, is_form: bool, first_token: Option<u16>, at: usize },
}

struct Pass<'a> {
    record: &'a [u8],
    /// The offset of the next command.
    cursor: usize,
    /// The number of forms being read, each inside the one before.
    forms: usize,
    open: Vec<Open>,
    tree: TreeBuilder,
}

impl Pass<'_> {
    /// Reads the 0x05 commands; they have to tile the text, each token ending at a character.
    fn tokens(&mut self, text: &str) -> Result<(), Refusal> {
        while self.record.get(self.cursor) == Some(&command::TOKEN) {
            let [_, kind, low, high] = self.command()?;
            let kind = SyntaxKind::of_number(kind).ok_or(malformed(self.cursor))?;
            let length = u16::from_le_bytes([low, high]);
            let end = self.tree.tokens_end() as usize + usize::from(length);
            let fits = length > 0 && text.is_char_boundary(end);
            if !fits || self.tree.token_count() == limit::TOKENS {
                return Err(malformed(self.cursor));
            }
            self.tree.token(kind, length);
            self.cursor += 4;
        }
        if (self.tree.tokens_end() as usize) < text.len() {
            return Err(malformed(self.cursor));
        }
        Ok(())
    }

    /// Reads the list `root.decs()`.
    fn tree(&mut self) -> Result<(), Refusal> {
        for field in Node::Root.fields() {
            self.field(field.kind)?;
        }
        while let Some(open) = self.open.last_mut() {
            match open {
                Open::List { part, left: left @ 1.., .. } => {
                    *left -= 1;
                    let part = *part;
                    self.part(part)?;
                }
                Open::Node { node, read, .. } if *read < node.fields().len() => {
                    let kind = node.fields()[*read].kind;
                    *read += 1;
                    self.field(kind)?;
                }
                _ => self.close(),
            }
        }
        Ok(())
    }

    /// Closes the innermost list or node.
    fn close(&mut self) {
        match self.open.pop() {
            None => {}
            Some(Open::List { count, at, .. }) => self.tree.list(count, at),
            Some(Open::Node { node, is_form, first_token, at, .. }) => {
                self.forms -= usize::from(is_form);
                self.tree.node(node, first_token, at);
            }
        }
    }

    /// Reads a field's first command.
    fn field(&mut self, kind: FieldKind) -> Result<(), Refusal> {
        match kind {
            FieldKind::List(part) => {
                let [_, low, high] = self.command_of(command::LIST)?;
                let count = u16::from_le_bytes([low, high]);
                self.open.push(Open::List { part, count, left: count, at: self.cursor });
                self.cursor += 3;
            }
            FieldKind::One(_) if self.record.get(self.cursor) == Some(&command::ABSENT) => {
                self.tree.absent(self.cursor);
                self.cursor += 1;
            }
            FieldKind::One(part) => self.part(part)?,
        }
        Ok(())
    }

    /// Reads the first command of a part that is there.
    fn part(&mut self, part: Part) -> Result<(), Refusal> {
        match part {
            Part::Token => {
                let [_, low, high] = self.command_of(command::TOKEN_REF)?;
                let number = self.known(u16::from_le_bytes([low, high]))?;
                self.cursor += 3;
                self.tree.token_ref(number);
                Ok(())
            }
            Part::Group(node) => {
                let [_] = self.command_of(command::GROUP)?;
                self.open_node(node, false, None);
                self.cursor += 1;
                Ok(())
            }
            Part::Choice(choice) => self.choice(choice),
            Part::Form(family) => self.form(family),
        }
    }

    fn choice(&mut self, choice: Choice) -> Result<(), Refusal> {
        let [_, which] = self.command_of(command::CHOICE)?;
        let node = choice.node(which).ok_or(malformed(self.cursor))?;
        self.open_node(node, false, None);
        self.cursor += 2;
        Ok(())
    }

    /// Reads a form's command; malformation comes before depth.
    fn form(&mut self, family: Family) -> Result<(), Refusal> {
        let [command] = self.command()?;
        let form = family.form(command).ok_or(malformed(self.cursor))?;
        let (length, first_token) = if family.has_first_token() {
            let [_, low, high] = self.command()?;
            (3, self.operand(u16::from_le_bytes([low, high]))?)
        } else {
            (1, None)
        };
        if self.forms == limit::FORMS {
            return Err(Refusal::new(number::TOO_DEEP, self.cursor));
        }
        self.open_node(form, true, first_token);
        self.cursor += length;
        self.forms += 1;
        Ok(())
    }

    /// Opens a node whose command stands at the cursor.
    fn open_node(&mut self, node: Node, is_form: bool, first_token: Option<u16>) {
        let at = self.cursor;
        self.open.push(Open::Node { node, read: 0, is_form, first_token, at });
    }

    /// The first token that a declaration's operand gives.
    fn operand(&self, number: u16) -> Result<Option<u16>, Refusal> {
        if number == command::NO_TOKEN {
            Ok(None)
        } else {
            self.known(number).map(Some)
        }
    }

    /// The number, if it is below the count of tokens.
    fn known(&self, number: u16) -> Result<u16, Refusal> {
        let known = usize::from(number) < self.tree.token_count();
        known.then_some(number).ok_or(malformed(self.cursor))
    }

    /// The command at the cursor with its operands, N bytes in all. The cursor stays.
    fn command<const N: usize>(&self) -> Result<[u8; N], Refusal> {
        let left = self.record.get(self.cursor..).unwrap_or_default();
        left.first_chunk().copied().ok_or(malformed(self.cursor))
    }

    /// The command at the cursor, which has to be this one.
    fn command_of<const N: usize>(&self, expected: u8) -> Result<[u8; N], Refusal> {
        let bytes = self.command()?;
        (bytes[0] == expected).then_some(bytes).ok_or(malformed(self.cursor))
    }
}
