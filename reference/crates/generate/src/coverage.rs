//! What a run of cases reaches.

use crate::case::{Calls, Case};
use crate::commands::{commands, Command, Role};
use crate::goals::{Goals, Mark, SIZES};
use crate::told::shown;
use answers::Reference;
use decode::number;
use schema::{command, SyntaxKind};
use std::collections::HashSet;
use std::fmt;

/// The kinds of goals.
const KINDS: [&str; 10] =
    ["node", "field", "list", "site", "number", "damage", "kind", "size", "told", "mark"];

/// Counts of the cases that reach each goal.
#[derive(Debug, Clone, PartialEq, Eq)]
pub struct Coverage {
    counts: Vec<u64>,
    cases: u64,
    grammar_directed: u64,
    accepted: u64,
}

/// A goal by its number.
#[derive(Debug, Clone, Copy, PartialEq, Eq, Hash, PartialOrd, Ord)]
pub struct Goal(usize);

impl Goal {
    /// All goals.
    pub fn all() -> impl Iterator<Item = Self> {
        (0..Goals::get().names.len()).map(Self)
    }

    /// The goal's kind: node, field, list, site, number, damage, kind, size, told or mark.
    #[must_use]
    pub fn kind(self) -> &'static str {
        Goals::get().names[self.0].0
    }

    /// The goal's name.
    #[must_use]
    pub fn name(self) -> &'static str {
        &Goals::get().names[self.0].1
    }
}

impl Default for Coverage {
    fn default() -> Self {
        let counts = vec![0; Goals::get().names.len()];
        Self { counts, cases: 0, grammar_directed: 0, accepted: 0 }
    }
}

impl Coverage {
    /// The coverage of no cases.
    #[must_use]
    pub fn new() -> Self {
        Self::default()
    }

    /// Counts a case with the reference of its sheet and its answers.
    pub fn add(&mut self, case: &Case, reference: &Reference, calls: &Calls) {
        self.cases += 1;
        if case.damage.is_none() {
            self.grammar_directed += 1;
            self.accepted += u64::from(calls.check.value.number == number::ACCEPTED);
        }
        for goal in goals(case, reference, calls) {
            self.counts[goal.0] += 1;
        }
    }

    /// The count of cases that reach a goal.
    #[must_use]
    pub fn count(&self, goal: Goal) -> u64 {
        self.counts[goal.0]
    }

    /// The goals that no case reaches.
    pub fn unreached(&self) -> impl Iterator<Item = Goal> + '_ {
        Goal::all().filter(|goal| self.counts[goal.0] == 0)
    }

    /// The grammar-directed cases without damage, and how many of their sheets the check accepts.
    #[must_use]
    pub fn grammar_directed(&self) -> (u64, u64) {
        (self.grammar_directed, self.accepted)
    }
}

impl fmt::Display for Coverage {
    fn fmt(&self, f: &mut fmt::Formatter<'_>) -> fmt::Result {
        let Self { cases, grammar_directed, accepted, .. } = self;
        let share = *accepted as f64 * 100.0 / (*grammar_directed).max(1) as f64;
        writeln!(f, "cases {cases}")?;
        writeln!(f, "grammar-directed {grammar_directed}, accepted {accepted} ({share:.1} %)")?;
        for kind in KINDS {
            let goals: Vec<_> = Goal::all().filter(|goal| goal.kind() == kind).collect();
            let reached = goals.iter().filter(|&&goal| self.count(goal) > 0).count();
            writeln!(f, "\n{kind}: {reached} of {} reached", goals.len())?;
            for goal in goals {
                writeln!(f, "{:>9}  {}", self.count(goal), goal.name())?;
            }
        }
        Ok(())
    }
}

/// The goals that a case reaches, each once.
#[must_use]
pub fn goals(case: &Case, reference: &Reference, calls: &Calls) -> Vec<Goal> {
    let mut reached = Reached { goals: Goals::get(), found: Vec::new() };
    reached.calls(calls);
    reached.found.extend(case.damage.map(|kind| reached.goals.damage[kind as usize]));
    let commands = commands(&case.sheet.record).unwrap_or_default();
    reached.sizes(case, &commands);
    if let Some(root) = reference.root() {
        let (get, check) = (stops::failures_of_get(root, 0), stops::failures_of_check(root));
        let sites = get.iter().chain(&check).map(|failure| failure.site);
        reached.found.extend(sites.filter_map(|site| reached.goals.sites[site]));
        let shown = shown(&commands, &check, &calls.check.value);
        let told = reached.goals.told.iter().filter(|(told, _)| shown.contains(told));
        reached.found.extend(told.map(|&(_, goal)| goal));
        reached.tokens(case, &commands);
    }
    if calls.check.value.number == number::ACCEPTED {
        reached.accepted(&commands);
        reached.written(case, reference);
    }
    reached.found.sort_unstable();
    reached.found.dedup();
    reached.found.into_iter().map(Goal).collect()
}

struct Reached {
    goals: &'static Goals,
    found: Vec<usize>,
}

impl Reached {
    fn mark(&mut self, mark: Mark, reached: bool) {
        if reached {
            self.found.push(self.goals.mark(mark));
        }
    }

    fn calls(&mut self, calls: &Calls) {
        let numbers = [
            calls.check.value.number,
            calls.get.value.verdict.number,
            calls.comment_above.value.number,
            calls.doc_comment_above.value.number,
        ];
        for (call, number) in numbers.into_iter().enumerate() {
            self.found.extend(self.goals.number[call][usize::from(number)]);
        }
        let looked_up = calls.comment_above.value.number == number::ACCEPTED;
        let comment = calls.comment_above.value.found.is_some();
        self.mark(Mark::CommentFound, comment);
        self.mark(Mark::CommentNone, looked_up && !comment);
        let doc = calls.doc_comment_above.value.found.as_ref();
        self.mark(Mark::DocFound, doc.is_some());
        self.mark(Mark::DocEmpty, doc.is_some_and(String::is_empty));
        let accepted = calls.doc_comment_above.value.number == number::ACCEPTED;
        self.mark(Mark::DocNone, comment && accepted && doc.is_none());
        let set = &calls.check.value.set;
        self.mark(Mark::SeveralLeft, set.iter().map(|word| word.count_ones()).sum::<u32>() > 1);
        self.mark(Mark::LeftPastWord, set[1..].iter().any(|&word| word != 0));
    }

    fn sizes(&mut self, case: &Case, commands: &[Command]) {
        let tokens = commands.iter().filter(|command| command.role == Role::Token).count();
        let nesting = nesting(commands);
        let sizes = [case.sheet.text.len(), tokens, case.sheet.record.len(), nesting];
        for (at, (&size, (_, limit))) in sizes.iter().zip(SIZES).enumerate() {
            if let Some(step @ 0..3) = (size + 1).checked_sub(limit) {
                self.found.push(self.goals.sizes[at][step]);
            }
        }
    }

    /// The tokens' kinds, and how fields and declarations name tokens.
    fn tokens(&mut self, case: &Case, commands: &[Command]) {
        let record = &case.sheet.record;
        let kinds: Vec<u8> = record.chunks(4).map_while(kind).collect();
        self.found.extend(kinds.iter().map(|&kind| self.goals.kinds[usize::from(kind)]));
        let is_comment = |number: u16| {
            kinds.get(usize::from(number)) == Some(&SyntaxKind::BlockComment.number())
        };
        let (mut named, mut last) = (HashSet::new(), 0);
        for command in commands {
            match command.role {
                Role::TokenRef(number) => {
                    self.mark(Mark::NamedTwice, !named.insert(number));
                    self.mark(Mark::NamedBefore, number < last);
                    self.mark(Mark::CommentNamed, is_comment(number));
                    last = number;
                }
                Role::Form(family, _) if family.has_first_token() => {
                    let at = command.bytes.start;
                    let first = u16::from_le_bytes([record[at + 1], record[at + 2]]);
                    self.mark(Mark::FirstNone, first == command::NO_TOKEN);
                    self.mark(Mark::FirstComment, is_comment(first));
                }
                _ => {}
            }
        }
    }

    /// The nodes, fields and lists of an accepted sheet.
    fn accepted(&mut self, commands: &[Command]) {
        for command in commands {
            if let Some(node) = command.role.node() {
                self.found.extend(self.goals.nodes[node as usize]);
            }
            let Some((node, field)) = command.field.filter(|_| !command.is_item) else { continue };
            let how = match command.role {
                Role::Absent => 0,
                Role::List(count) => usize::from(count.min(2)),
                _ => 1,
            };
            self.found.extend(self.goals.fields[node as usize][field][how]);
        }
    }

    /// What an accepted sheet's text shows.
    fn written(&mut self, case: &Case, reference: &Reference) {
        let units = reference.check().value.measures.units;
        self.mark(Mark::IndentWritten, units > 0 && case.tab_size > 1);
        let above = |first: &u16| reference.comment_above(u64::from(*first)).value.found;
        let commands = commands(&case.sheet.record).unwrap_or_default();
        let firsts = commands.iter().filter_map(|command| first_token(&case.sheet.record, command));
        let mut seen = HashSet::new();
        let twice =
            firsts.filter_map(|first| above(&first)).any(|above| !seen.insert(above.comment));
        self.mark(Mark::CommentTwice, twice);
    }
}

/// A declaration's first token.
fn first_token(record: &[u8], command: &Command) -> Option<u16> {
    let Role::Form(family, _) = command.role else { return None };
    let at = command.bytes.start;
    let first = u16::from_le_bytes([*record.get(at + 1)?, *record.get(at + 2)?]);
    (family.has_first_token() && first != command::NO_TOKEN).then_some(first)
}

/// The kind in a token command.
fn kind(bytes: &[u8]) -> Option<u8> {
    match bytes {
        [command::TOKEN, kind, _, _] => Some(*kind),
        _ => None,
    }
}

/// The most forms inside one another.
fn nesting(commands: &[Command]) -> usize {
    let (mut open, mut most) = (Vec::new(), 0);
    for command in commands.iter().filter(|command| matches!(command.role, Role::Form(..))) {
        while open.last().is_some_and(|&end| end <= command.bytes.start) {
            open.pop();
        }
        open.push(command.end);
        most = most.max(open.len());
    }
    most
}
