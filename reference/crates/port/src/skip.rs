//! The end of a field, by recursion over the schema.

use decode::number;
use schema::{command, limit, Family, FieldKind, Node, Part};

/// A refusal: number and place.
type Refused = (u8, usize);

/// The end of a field that holds a form of the family, or the refusal.
pub(crate) fn field_end(
    family: Family,
    record: &[u8],
    count: u64,
    at: usize,
) -> Result<usize, Refused> {
    Skipper { record, count, forms: 0 }.field(FieldKind::One(Part::Form(family)), at)
}

/// A record, the count of tokens, and how many forms are open.
#[derive(Clone, Copy)]
struct Skipper<'a> {
    record: &'a [u8],
    count: u64,
    forms: usize,
}

impl Skipper<'_> {
    fn field(self, kind: FieldKind, at: usize) -> Result<usize, Refused> {
        match kind {
            FieldKind::One(_) if self.byte(at) == Some(command::ABSENT) => Ok(at + 1),
            FieldKind::One(part) => self.part(part, at),
            FieldKind::List(part) => {
                let items = self.operand(command::LIST, at)?;
                (0..items).try_fold(at + 3, |at, _| self.part(part, at))
            }
        }
    }

    fn part(self, part: Part, at: usize) -> Result<usize, Refused> {
        match part {
            Part::Token => match self.operand(command::TOKEN_REF, at)? {
                token if u64::from(token) < self.count => Ok(at + 3),
                _ => Err(malformed(at)),
            },
            Part::Group(node) => {
                self.byte(at).filter(|&byte| byte == command::GROUP).ok_or(malformed(at))?;
                self.fields(node, at + 1)
            }
            Part::Choice(choice) => {
                self.byte(at).filter(|&byte| byte == command::CHOICE).ok_or(malformed(at))?;
                let which = self.byte(at + 1).ok_or(malformed(at))?;
                self.fields(choice.node(which).ok_or(malformed(at))?, at + 2)
            }
            Part::Form(family) => self.form(family, at),
        }
    }

    fn form(self, family: Family, at: usize) -> Result<usize, Refused> {
        let byte = self.byte(at).ok_or(malformed(at))?;
        let node = family.form(byte).ok_or(malformed(at))?;
        let mut width = 1;
        if family.has_first_token() {
            let first = self.operand(byte, at)?;
            if first != command::NO_TOKEN && u64::from(first) >= self.count {
                return Err(malformed(at));
            }
            width = 3;
        }
        if self.forms == limit::FORMS {
            return Err((number::TOO_DEEP, at));
        }
        Self { forms: self.forms + 1, ..self }.fields(node, at + width)
    }

    fn fields(self, node: Node, at: usize) -> Result<usize, Refused> {
        node.fields().iter().try_fold(at, |at, field| self.field(field.kind, at))
    }

    fn byte(self, at: usize) -> Option<u8> {
        self.record.get(at).copied()
    }

    /// The u16 operand of this command.
    fn operand(self, command: u8, at: usize) -> Result<u16, Refused> {
        match self.record.get(at..).and_then(|left| left.first_chunk()) {
            Some(&[first, low, high]) if first == command => Ok(u16::from_le_bytes([low, high])),
            _ => Err(malformed(at)),
        }
    }
}

fn malformed(at: usize) -> Refused {
    (number::MALFORMED, at)
}
