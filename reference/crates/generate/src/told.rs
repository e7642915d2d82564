//! What stops and imports a case shows: the operands of an `AppExp`, types that `TupleTy` drops, the
//! places of imports.

use crate::commands::{Command, Role};
use crate::course::nodes_of;
use crate::shape::is_required;
use answers::Verdict;
use decode::number;
use schema::Node;
use std::ops::Range;
use stops::Failure;

/// What an operand of an `AppExp` that is a `PathExp` has.
#[derive(Debug, Clone, Copy, PartialEq, Eq)]
pub(crate) enum Operand {
    Whole,
    NoPath,
    NoNames,
    NoName,
}

impl Operand {
    const ALL: [Self; 4] = [Self::Whole, Self::NoPath, Self::NoNames, Self::NoName];

    fn name(self) -> &'static str {
        match self {
            Self::Whole => "whole",
            Self::NoPath => "with its path absent",
            Self::NoNames => "with an empty path",
            Self::NoName => "with its first name absent",
        }
    }
}

/// What a case may show.
#[derive(Debug, Clone, Copy, PartialEq, Eq)]
pub(crate) enum Shown {
    /// Both operands of an `AppExp` are paths: what is missing of func is told before what is of arg.
    Operands(Operand, Operand),
    /// An absent arg is told before what is missing of func.
    ArgAbsent(Operand),
    /// What is missing of arg is told before a part that is absent inside func.
    InsideFunc(Operand),
    /// A type is dropped, and the sheet is accepted.
    Dropped,
    /// A type is dropped, and an absent star type of the same `TupleTy` is told.
    StarAfterDropped,
    /// Inside a type that is dropped another one is.
    DroppedInside,
    /// A type is dropped, and an import is told.
    ImportAfterDropped,
    /// An import is told that stands in this field.
    Import(Node, &'static str),
}

impl Shown {
    /// All that a case may show.
    pub(crate) fn all() -> Vec<Self> {
        let pairs = Operand::ALL
            .into_iter()
            .flat_map(|func| Operand::ALL.into_iter().map(move |arg| Self::Operands(func, arg)));
        let mut all: Vec<_> = pairs.collect();
        all.extend(Operand::ALL.map(Self::ArgAbsent));
        all.extend(Operand::ALL[1..].iter().map(|&arg| Self::InsideFunc(arg)));
        all.extend([Self::Dropped, Self::StarAfterDropped, Self::DroppedInside]);
        all.push(Self::ImportAfterDropped);
        for &node in Node::ALL {
            let fields = node.fields().iter();
            let fields = fields.filter(|field| nodes_of(field.kind.part()).contains(&Node::Dec));
            all.extend(fields.map(|field| Self::Import(node, field.accessor)));
        }
        all
    }

    /// What it is.
    pub(crate) fn name(self) -> String {
        match self {
            Self::Operands(func, arg) => {
                format!("AppExp: func {}, arg {}", func.name(), arg.name())
            }
            Self::ArgAbsent(func) => format!("AppExp: func {}, arg absent", func.name()),
            Self::InsideFunc(arg) => {
                format!("AppExp: a part absent inside func, arg {}", arg.name())
            }
            Self::Dropped => "a type is dropped, the sheet accepted".to_owned(),
            Self::StarAfterDropped => "a type is dropped, then a star type is absent".to_owned(),
            Self::DroppedInside => "a type is dropped inside a dropped one".to_owned(),
            Self::ImportAfterDropped => "a type is dropped, then there is an import".to_owned(),
            Self::Import(node, field) => format!("an import in {}.{field}", node.name()),
        }
    }
}

/// What a case shows: its commands, the failures of the check, the check's verdict.
pub(crate) fn shown(commands: &[Command], failures: &[Failure], check: &Verdict) -> Vec<Shown> {
    let sheet = Told { commands, place: check.place as usize, number: check.number };
    let mut shown = Vec::new();
    for (at, command) in commands.iter().enumerate() {
        match command.role {
            Role::Form(_, Node::AppExp) => shown.extend(sheet.operands(at)),
            Role::Form(_, Node::TupleTy) => shown.extend(sheet.dropped(at, failures)),
            _ => {}
        }
    }
    shown.extend(sheet.import());
    shown
}

struct Told<'a> {
    commands: &'a [Command],
    place: usize,
    number: u8,
}

impl Told<'_> {
    /// Whether what is missing at this place is told.
    fn is_missing(&self, place: usize) -> bool {
        self.number == number::MISSING && self.place == place
    }

    /// The command at an offset, or the next.
    fn at(&self, offset: usize) -> usize {
        self.commands.partition_point(|command| command.bytes.start < offset)
    }

    fn start(&self, at: usize) -> usize {
        self.commands[at].bytes.start
    }

    /// The command at the place that is told.
    fn told(&self) -> usize {
        self.at(self.place)
    }

    /// The innermost such node around the place that is told.
    fn around(&self, node: Node) -> Option<usize> {
        let mut before = (0..self.told()).rev();
        before.find(|&at| {
            self.commands[at].role.node() == Some(node) && self.commands[at].end > self.place
        })
    }

    /// What the operand at a command has, and the place of what it lacks; none where it is no path.
    fn operand(&self, at: usize) -> Option<(Operand, usize)> {
        let role = |at: usize| self.commands[at].role;
        let (path, list, name) = (at + 2, at + 3, at + 5);
        let (operand, place) = match role(at) {
            Role::Form(_, Node::PathExp) if role(path) == Role::Absent => (Operand::NoPath, path),
            Role::Form(_, Node::PathExp) if role(list) == Role::List(0) => (Operand::NoNames, list),
            Role::Form(_, Node::PathExp) if role(name) == Role::Absent => (Operand::NoName, name),
            Role::Form(_, Node::PathExp) => (Operand::Whole, path),
            _ => return None,
        };
        Some((operand, self.start(place)))
    }

    /// What the operands of the `AppExp` at a command show.
    fn operands(&self, at: usize) -> Option<Shown> {
        let func = at + 1;
        let arg = self.at(self.commands[func].end);
        match (self.operand(func), self.operand(arg)) {
            (Some((Operand::Whole, _)), Some((Operand::Whole, _))) => {
                let whole = Shown::Operands(Operand::Whole, Operand::Whole);
                (self.number == number::ACCEPTED).then_some(whole)
            }
            (Some((func, at)), Some((arg, other))) => {
                let place = if func == Operand::Whole { other } else { at };
                self.is_missing(place).then_some(Shown::Operands(func, arg))
            }
            (Some((func, _)), None) if self.commands[arg].role == Role::Absent => {
                self.is_missing(self.start(arg)).then_some(Shown::ArgAbsent(func))
            }
            (None, Some((arg, place))) if self.lacks_inside(func) => {
                (arg != Operand::Whole && self.is_missing(place)).then_some(Shown::InsideFunc(arg))
            }
            _ => None,
        }
    }

    /// Whether a required part is absent inside the part at a command.
    fn lacks_inside(&self, at: usize) -> bool {
        let inside = self.commands[at + 1..].iter();
        let mut inside = inside.take_while(|command| command.bytes.start < self.commands[at].end);
        inside.any(|command| {
            command.role == Role::Absent
                && command.field.is_some_and(|(node, field)| is_required(node, field))
        })
    }

    /// Where the first type of the `TupleTy` at a command stands; empty where it is absent.
    fn first_type(&self, at: usize) -> Range<usize> {
        let first = &self.commands[at + 1];
        match first.role {
            Role::Absent => 0..0,
            _ => first.bytes.start..first.end,
        }
    }

    /// What the `TupleTy` at a command shows of the failures that begin in its first type.
    fn dropped(&self, at: usize, failures: &[Failure]) -> Vec<Shown> {
        let first = self.first_type(at);
        let begun = failures.iter().filter_map(|failure| failure.stop);
        let begun = begun.map(|stop| stop.place as usize);
        let begun: Vec<_> = begun.filter(|place| first.contains(place)).collect();
        if begun.is_empty() {
            return Vec::new();
        }
        let is_star = self.around(Node::StarTy).is_some_and(|star| star + 1 == self.told());
        let is_own = is_star && self.around(Node::TupleTy) == Some(at);
        let told = match self.number {
            number::ACCEPTED => Some(Shown::Dropped),
            number::IMPORT if !first.contains(&self.place) => Some(Shown::ImportAfterDropped),
            number::MISSING if is_own => Some(Shown::StarAfterDropped),
            _ => None,
        };
        let is_inside = self.is_dropped_inside(at, &begun);
        told.into_iter().chain(is_inside.then_some(Shown::DroppedInside)).collect()
    }

    /// Whether a `TupleTy` inside the first type of that at a command drops one of these failures, and
    /// another one begins behind its first type.
    fn is_dropped_inside(&self, at: usize, begun: &[usize]) -> bool {
        let end = self.first_type(at).end;
        let inside = (at + 1..self.commands.len()).take_while(|&at| self.start(at) < end);
        let mut inner = inside.filter(|&at| self.commands[at].role.node() == Some(Node::TupleTy));
        inner.any(|at| {
            let (first, whole) = (self.first_type(at), self.start(at)..self.commands[at].end);
            begun.iter().any(|place| first.contains(place))
                && begun.iter().any(|place| whole.contains(place) && !first.contains(place))
        })
    }

    /// Where the import stands that is told.
    fn import(&self) -> Option<Shown> {
        let dec = self.around(Node::Dec).filter(|_| self.number == number::IMPORT)?;
        let (node, field) = self.commands[dec].field?;
        Some(Shown::Import(node, node.fields()[field].accessor))
    }
}
