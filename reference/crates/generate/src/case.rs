//! A sheet with the parameters of the calls on it.

use crate::damage::Damage;
use crate::limits;
use crate::rng::Rng;
use crate::style::Size;
use answers::{Above, Answer, Formatted, Lookup, Reference, Verdict};
use schema::command;
use sheet::Sheet;
use std::fmt;

/// The sequence of cases of a seed.
#[derive(Debug, Clone, Copy, PartialEq, Eq)]
pub struct Generator {
    /// The seed.
    pub seed: u64,
}

/// A sheet with the parameters of the calls on it.
#[derive(Debug, Clone, PartialEq, Eq)]
pub struct Case {
    /// The seed.
    pub seed: u64,
    /// The case's number under the seed.
    pub index: u64,
    /// The size of the grammar-directed sheet.
    pub size: Size,
    /// The damage done to it.
    pub damage: Option<Damage>,
    /// The sheet.
    pub sheet: Sheet,
    /// The tab size for formatting.
    pub tab_size: u32,
    /// The length of the outputs.
    pub room: Room,
    /// The token number for the lookups.
    pub token: u64,
}

/// The length of an output against the bytes that are to be written.
#[derive(Debug, Clone, Copy, PartialEq, Eq)]
pub enum Room {
    /// As long as needed.
    Exact,
    /// One byte shorter.
    OneShort,
    /// None at all.
    Empty,
    /// This many bytes more.
    Spare(usize),
}

impl Room {
    /// No output is longer, so that a huge tab size needs no huge output.
    pub const MOST: usize = 1 << 20;

    /// The output's length where this many bytes are needed.
    #[must_use]
    pub fn length(self, needed: u128) -> usize {
        let needed = usize::try_from(needed).unwrap_or(Self::MOST).min(Self::MOST);
        match self {
            Self::Exact => needed,
            Self::OneShort => needed.saturating_sub(1),
            Self::Empty => 0,
            Self::Spare(bytes) => (needed + bytes).min(Self::MOST),
        }
    }
}

/// The answers to the four calls of a case.
#[derive(Debug, Clone, PartialEq, Eq)]
pub struct Calls {
    /// The check.
    pub check: Answer<Verdict>,
    /// Formatting at the case's tab size into an output of [`Self::output`] bytes.
    pub get: Answer<Formatted>,
    /// The length of formatting's output.
    pub output: usize,
    /// The lookup at the case's token.
    pub comment_above: Answer<Lookup<Above>>,
    /// The doc lookup at the case's token into an output of [`Self::doc_output`] bytes.
    pub doc_comment_above: Answer<Lookup<String>>,
    /// The length of the doc lookup's output.
    pub doc_output: usize,
}

/// The share of sheets that are damaged; a little less, because some have no place for the damage
/// picked first.
const DAMAGED: (usize, usize) = (3, 10);

impl Generator {
    /// The cases of a seed.
    #[must_use]
    pub fn new(seed: u64) -> Self {
        Self { seed }
    }

    /// The case of that number; each one can be made without those before it.
    #[must_use]
    pub fn case(self, index: u64) -> Case {
        let mut rng = Rng::new(self.seed, index);
        let size = Size::pick(&mut rng);
        let mut sheet = limits::sheet(&mut rng, size);
        let mut damage = None;
        while damage.is_none() && rng.chance(DAMAGED.0, DAMAGED.1) {
            let kind = rng.pick(Damage::ALL);
            if let Some(damaged) = kind.apply(&sheet, &mut rng) {
                (sheet, damage) = (damaged, Some(kind));
            }
        }
        let token = any_token(&mut rng, &sheet);
        let (tab_size, room) = (any_tab_size(&mut rng), any_room(&mut rng));
        Case { seed: self.seed, index, size, damage, sheet, tab_size, room, token }
    }

    /// The first cases.
    pub fn cases(self, count: u64) -> impl Iterator<Item = Case> {
        (0..count).map(move |index| self.case(index))
    }
}

impl Case {
    /// The reference's answers to the calls of this case.
    #[must_use]
    pub fn calls(&self, reference: &Reference) -> Calls {
        let check = reference.check();
        let output = self.room.length(check.value.measures.length(self.tab_size));
        let doc = reference.doc_comment_above(self.token, usize::MAX).value.found;
        let doc_output = self.room.length(doc.map_or(0, |text| text.len() as u128));
        Calls {
            get: reference.get(self.tab_size, output),
            comment_above: reference.comment_above(self.token),
            doc_comment_above: reference.doc_comment_above(self.token, doc_output),
            check,
            output,
            doc_output,
        }
    }
}

impl fmt::Display for Case {
    fn fmt(&self, f: &mut fmt::Formatter<'_>) -> fmt::Result {
        write!(f, "case {} of seed {}, {}", self.index, self.seed, self.size)?;
        self.damage.map_or(Ok(()), |damage| write!(f, ", {}", damage.name()))
    }
}

/// A token number, one time in eight at or past the count.
fn any_token(rng: &mut Rng, sheet: &Sheet) -> u64 {
    let tokens = sheet.record.chunks(4).take_while(|chunk| chunk[0] == command::TOKEN);
    let count = tokens.count();
    if count == 0 || rng.chance(1, 8) {
        let count = count as u64;
        return rng.pick(&[count, count, count + 1, 0xFFFF, 0x1_0000, 1 << 32, u64::MAX]);
    }
    rng.below(count) as u64
}

/// A tab size, seldom one at which deepest × tab size is close to 2^32.
fn any_tab_size(rng: &mut Rng) -> u32 {
    if rng.chance(1, 16) {
        let depth = u32::try_from(rng.from_to(1, 8)).unwrap_or(1);
        return (u32::MAX / depth).saturating_add(rng.pick(&[0, 1]));
    }
    rng.pick(&[2, 2, 2, 2, 0, 1, 3, 4, 4, 8, 17, 1_000])
}

fn any_room(rng: &mut Rng) -> Room {
    let spare = Room::Spare(rng.from_to(1, 200));
    rng.pick(&[Room::Exact, Room::Exact, Room::OneShort, Room::Empty, spare, spare, spare])
}
