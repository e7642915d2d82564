//! Damaged sheets: a grammar-directed sheet with one change.

use crate::commands::{commands, Command, Role};
use crate::rng::Rng;
use schema::{command, Family, SyntaxKind};
use sheet::Sheet;

macro_rules! damages {
    ($($(#[$doc:meta])* $damage:ident $name:literal,)*) => {
        /// A kind of damage.
        #[derive(Debug, Clone, Copy, PartialEq, Eq, Hash)]
        pub enum Damage { $($(#[$doc])* $damage,)* }

        impl Damage {
            /// All kinds.
            pub const ALL: &'static [Self] = &[$(Self::$damage,)*];

            /// The kind's name.
            #[must_use]
            pub const fn name(self) -> &'static str {
                match self { $(Self::$damage => $name,)* }
            }
        }
    };
}

damages! {
    /// A byte of the record gets any value.
    ByteChanged "byte changed",
    /// A byte of the record is gone.
    ByteDropped "byte dropped",
    /// A byte stands twice.
    ByteRepeated "byte repeated",
    /// Any byte is put in.
    ByteInserted "byte inserted",
    /// The record ends before a command.
    CutBetween "record cut between commands",
    /// The record ends before a command's last operand byte.
    CutInside "record cut inside a command",
    /// The record is empty.
    CutAll "record empty",
    /// Bytes follow the tree.
    BytesLeft "bytes left over",
    /// A command of the tree is gone, what it holds stays.
    CommandDropped "command dropped",
    /// A command of the tree stands twice.
    CommandRepeated "command repeated",
    /// Any command is put into the tree.
    CommandInserted "command inserted",
    /// A command of the tree gets another first byte.
    CommandChanged "command changed",
    /// A field with all inside is gone.
    FieldDropped "field dropped",
    /// A field becomes absent; the record still fits the schema.
    FieldAbsent "field absent",
    /// A list becomes absent.
    ListAbsent "list absent",
    /// An item becomes absent.
    ItemAbsent "item absent",
    /// A list's count is another.
    ListCount "list count",
    /// A list's count is far over the items there are.
    ListCountHuge "list count huge",
    /// A choice's number is out of range.
    ChoiceNumber "choice number out of range",
    /// A choice's number is another of the choice.
    ChoiceChanged "choice number changed",
    /// A form of another family.
    WrongFamily "form of another family",
    /// A form becomes another of its family.
    FormChanged "form changed",
    /// A byte between the families.
    BetweenFamilies "byte between families",
    /// A token field's number is out of range.
    TokenNumber "token number out of range",
    /// A first token is out of range.
    FirstToken "first token out of range",
    /// A kind is out of range.
    TokenKind "token kind out of range",
    /// A kind is another.
    TokenKindChanged "token kind changed",
    /// A token has no bytes.
    TokenEmpty "token length 0",
    /// A token's length is one more or one less.
    TokenLength "token length off by one",
    /// A token's length is far past the end.
    TokenLengthHuge "token length huge",
    /// A token command is gone.
    TokenDropped "token dropped",
    /// A token command stands twice.
    TokenRepeated "token repeated",
    /// A token command stands in the tree.
    TokenInTree "token in the tree",
    /// A text byte is 128 or more.
    TextByte "text byte over 127",
    /// The text has lost its last byte.
    TextShorter "text one byte shorter",
    /// The text has one more byte.
    TextLonger "text one byte longer",
}

impl Damage {
    /// The sheet with this damage; none where the sheet has no place for it.
    #[must_use]
    pub fn apply(self, sheet: &Sheet, rng: &mut Rng) -> Option<Sheet> {
        let commands = commands(&sheet.record)?;
        let mut damaged = sheet.clone();
        let mut place = Place { commands: &commands, rng };
        place
            .bytes(self, &mut damaged.record)
            .or_else(|| place.anywhere(self, &mut damaged.record))
            .or_else(|| place.number(self, &mut damaged.record))
            .or_else(|| place.form(self, &mut damaged.record))
            .or_else(|| place.token(self, &mut damaged.record))
            .or_else(|| place.text(self, &mut damaged.text))?;
        (damaged != *sheet).then_some(damaged)
    }
}

/// The places at which a sheet can be damaged.
struct Place<'a> {
    commands: &'a [Command],
    rng: &'a mut Rng,
}

impl<'a> Place<'a> {
    /// Any command for which `wanted` is true.
    fn any(&mut self, wanted: impl Fn(&Command) -> bool) -> Option<&'a Command> {
        let count = self.commands.iter().filter(|command| wanted(command)).count();
        let at = (count > 0).then(|| self.rng.below(count))?;
        self.commands.iter().filter(|command| wanted(command)).nth(at)
    }

    /// Any command of the tree.
    fn in_tree(&mut self) -> Option<&'a Command> {
        self.any(|command| command.role != Role::Token)
    }

    /// Damage to bytes anywhere in the record.
    fn bytes(&mut self, damage: Damage, record: &mut Vec<u8>) -> Option<()> {
        let at = self.rng.below(record.len());
        match damage {
            Damage::ByteChanged => record[at] = self.rng.byte(),
            Damage::ByteDropped => drop(record.remove(at)),
            Damage::ByteRepeated => record.insert(at, record[at]),
            Damage::ByteInserted => record.insert(at, self.rng.byte()),
            Damage::CutAll => record.clear(),
            Damage::BytesLeft => {
                let first = self.rng.pick(&[0, 1, 2, 3, 4, 5, 0x10, 0x44, 0xFF]);
                record.extend(std::iter::repeat_n(first, self.rng.from_to(1, 5)));
            }
            _ => return None,
        }
        Some(())
    }

    /// Damage to whole commands.
    fn anywhere(&mut self, damage: Damage, record: &mut Vec<u8>) -> Option<()> {
        match damage {
            Damage::CutBetween => record.truncate(self.any(|_| true)?.bytes.start),
            Damage::CutInside => {
                let command = self.any(|command| command.bytes.len() > 1)?;
                record.truncate(self.rng.from_to(command.bytes.start + 1, command.bytes.end - 1));
            }
            Damage::CommandDropped => drop(record.drain(self.in_tree()?.bytes.clone())),
            Damage::CommandRepeated => repeat(record, self.in_tree()?),
            Damage::CommandInserted => {
                let at = self.in_tree()?.bytes.start;
                let bytes = self.rng.pick(&[&[0][..], &[1, 0, 0], &[2, 0, 0], &[3], &[4, 0]]);
                record.splice(at..at, bytes.iter().copied());
            }
            Damage::CommandChanged => {
                let first = self.rng.pick(&[0, 1, 2, 3, 4, 5, 6, 0x0F, 0x7F, 0xFF]);
                record[self.in_tree()?.bytes.start] = first;
            }
            Damage::FieldDropped => {
                let command = self.any(|command| command.field.is_some() && !command.is_item)?;
                drop(record.drain(command.bytes.start..command.end));
            }
            _ => return None,
        }
        Some(())
    }

    /// Damage to fields, lists and numbers.
    fn number(&mut self, damage: Damage, record: &mut Vec<u8>) -> Option<()> {
        let is_list = |command: &Command| matches!(command.role, Role::List(_));
        let is_field = |command: &Command| {
            !matches!(command.role, Role::Token | Role::Absent | Role::List(_)) && !command.is_item
        };
        match damage {
            Damage::FieldAbsent => absent(record, self.any(is_field)?),
            Damage::ListAbsent => absent(record, self.any(is_list)?),
            Damage::ItemAbsent => absent(record, self.any(|command| command.is_item)?),
            Damage::ListCount => {
                let at = self.any(is_list)?.bytes.start;
                let count = u16::from_le_bytes([record[at + 1], record[at + 2]]);
                let step = if self.rng.chance(1, 2) { 1 } else { u16::MAX };
                set(record, at + 1, count.wrapping_add(step));
            }
            Damage::ListCountHuge => {
                let at = self.any(is_list)?.bytes.start;
                set(record, at + 1, self.rng.pick(&[1_000, 32_768, 65_535]));
            }
            Damage::TokenNumber => {
                let at = self.any(|command| matches!(command.role, Role::TokenRef(_)))?.bytes.start;
                set(record, at + 1, self.past_tokens(u16::MAX));
            }
            Damage::FirstToken => {
                let at = self.any(is_declaration)?.bytes.start;
                set(record, at + 1, self.past_tokens(u16::MAX - 1));
            }
            _ => return None,
        }
        Some(())
    }

    /// A token number not below the count, at most `last`.
    fn past_tokens(&mut self, last: u16) -> u16 {
        let count = self.commands.iter().filter(|command| command.role == Role::Token).count();
        let count = u16::try_from(count).unwrap_or(last).min(last);
        self.rng.pick(&[count, count, count.saturating_add(1).min(last), last])
    }

    /// Damage to choices and forms.
    fn form(&mut self, damage: Damage, record: &mut [u8]) -> Option<()> {
        let is_form = |command: &Command| matches!(command.role, Role::Form(..));
        match damage {
            Damage::ChoiceNumber | Damage::ChoiceChanged => {
                let command = self.any(|command| matches!(command.role, Role::Choice(..)))?;
                let Role::Choice(choice, _) = command.role else { return None };
                let count = u8::try_from(choice.nodes().len()).ok()?;
                record[command.bytes.start + 1] = match damage {
                    Damage::ChoiceNumber => self.rng.pick(&[count, count, count + 1, 0xFF]),
                    _ => self.rng.byte() % count,
                };
            }
            Damage::WrongFamily => {
                let command = self.any(is_form)?;
                let other = |family| !matches!(command.role, Role::Form(own, _) if own == family);
                let others: Vec<_> = Family::ALL.iter().copied().filter(|&f| other(f)).collect();
                let family = self.rng.pick(&others);
                record[command.bytes.start] = any_form(self.rng, family);
            }
            Damage::FormChanged => {
                let command = self.any(is_form)?;
                let Role::Form(family, _) = command.role else { return None };
                record[command.bytes.start] = any_form(self.rng, family);
            }
            Damage::BetweenFamilies => {
                let between = [0x06, 0x0F, 0x24, 0x27, 0x2D, 0x2F, 0x34, 0x3F, 0x59, 0x5F];
                let behind = [0x6C, 0x6F, 0x79, 0x7F, 0x80, 0xFF];
                let byte = self.rng.pick(&[&between[..], &behind].concat());
                record[self.any(is_form)?.bytes.start] = byte;
            }
            _ => return None,
        }
        Some(())
    }

    /// Damage to token commands.
    fn token(&mut self, damage: Damage, record: &mut Vec<u8>) -> Option<()> {
        let command = self.any(|command| command.role == Role::Token)?;
        let at = command.bytes.start;
        let length = u16::from_le_bytes([record[at + 2], record[at + 3]]);
        match damage {
            Damage::TokenKind => record[at + 1] = self.rng.pick(&[21, 21, 22, 0x80, 0xFF]),
            Damage::TokenKindChanged => record[at + 1] = self.rng.pick(SyntaxKind::ALL).number(),
            Damage::TokenEmpty => set(record, at + 2, 0),
            Damage::TokenLength => {
                // It wraps: a sheet that was damaged before may have a length of 0 or 65,535.
                let step = if self.rng.chance(1, 2) { 1 } else { u16::MAX };
                set(record, at + 2, length.wrapping_add(step));
            }
            Damage::TokenLengthHuge => {
                set(record, at + 2, self.rng.pick(&[0x7FFF, 0x8001, 0xFFFF]));
            }
            Damage::TokenDropped => drop(record.drain(command.bytes.clone())),
            Damage::TokenRepeated => repeat(record, command),
            Damage::TokenInTree => {
                let to = self.in_tree()?.bytes.start;
                record.splice(to..to, [command::TOKEN, 0, 1, 0]);
            }
            _ => return None,
        }
        Some(())
    }

    /// Damage to the text.
    fn text(&mut self, damage: Damage, text: &mut Vec<u8>) -> Option<()> {
        match damage {
            Damage::TextByte => {
                let at = (!text.is_empty()).then(|| self.rng.below(text.len()))?;
                text[at] = self.rng.pick(&[0x80, 0xA5, 0xC3, 0xFF]);
            }
            Damage::TextShorter => drop(text.pop()?),
            Damage::TextLonger => text.push(self.rng.pick(b" x\x00\x7F")),
            _ => return None,
        }
        Some(())
    }
}

fn is_declaration(command: &Command) -> bool {
    matches!(command.role, Role::Form(family, _) if family.has_first_token())
}

fn set(record: &mut [u8], at: usize, number: u16) {
    record[at..at + 2].copy_from_slice(&number.to_le_bytes());
}

fn absent(record: &mut Vec<u8>, command: &Command) {
    record.splice(command.bytes.start..command.end, [command::ABSENT]);
}

fn repeat(record: &mut Vec<u8>, command: &Command) {
    let bytes = record[command.bytes.clone()].to_vec();
    record.splice(command.bytes.end..command.bytes.end, bytes);
}

fn any_form(rng: &mut Rng, family: Family) -> u8 {
    let form = rng.pick(family.forms());
    family.command(form).expect("a form of the family")
}
