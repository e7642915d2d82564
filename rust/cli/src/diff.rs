//! How two texts differ, line by line.

use std::iter::repeat_n;
use std::ops::Range;

/// The lines shown before and behind a change.
const AROUND: usize = 3;

/// With more changes than this, all lines between the first and the last are shown as changed.
const MOST_CHANGES: usize = 2_000;

/// A step from the lines before to those after.
#[derive(Debug, Clone, Copy, PartialEq, Eq)]
enum Step {
    Keep,
    Remove,
    Add,
}

/// The differences in the format that `patch` reads; nothing where there are none.
pub fn unified(name: &str, before: &[u8], after: &[u8]) -> Vec<u8> {
    let (old, new) = (lines(before), lines(after));
    let steps = steps(&old, &new);
    let mut output = Vec::new();
    let mut lines = Lines { old: &old, new: &new, old_at: 0, new_at: 0 };
    let mut at = 0;
    for hunk in hunks(&steps) {
        if output.is_empty() {
            output.extend(format!("--- {name}\n+++ {name}\n").bytes());
        }
        // What stands between hunks is kept.
        lines.skip(hunk.start - at);
        at = hunk.end;
        lines.write(&mut output, &steps[hunk]);
    }
    output
}

/// The lines of a text, each with its line feed.
fn lines(text: &[u8]) -> Vec<&[u8]> {
    text.split_inclusive(|&byte| byte == b'\n').collect()
}

/// The way from the old lines to the new ones.
fn steps(old: &[&[u8]], new: &[&[u8]]) -> Vec<Step> {
    let head = old.iter().zip(new).take_while(|(a, b)| a == b).count();
    let (old, new) = (&old[head..], &new[head..]);
    let tail = old.iter().rev().zip(new.iter().rev()).take_while(|(a, b)| a == b).count();
    let (old, new) = (&old[..old.len() - tail], &new[..new.len() - tail]);
    let between = match furthest(old, new) {
        Some(rounds) => shortest(&rounds, old.len(), new.len()),
        None => repeat_n(Step::Remove, old.len()).chain(repeat_n(Step::Add, new.len())).collect(),
    };
    repeat_n(Step::Keep, head).chain(between).chain(repeat_n(Step::Keep, tail)).collect()
}

/// For each count of changes c the old line that is reached with so many (Myers): the entry i is for
/// those ends that have c - 2 × i new lines more than old ones.
fn furthest(old: &[&[u8]], new: &[&[u8]]) -> Option<Vec<Vec<usize>>> {
    let mut rounds: Vec<Vec<usize>> = Vec::new();
    for changes in 0..=MOST_CHANGES {
        let mut round = Vec::with_capacity(changes + 1);
        for entry in 0..=changes {
            let mut x = rounds.last().map_or(0, |last| last_change(last, entry).1);
            let y = |x: usize| x + changes - 2 * entry;
            while x < old.len() && y(x) < new.len() && old[x] == new[y(x)] {
                x += 1;
            }
            round.push(x);
            if x >= old.len() && y(x) >= new.len() {
                rounds.push(round);
                return Some(rounds);
            }
        }
        rounds.push(round);
    }
    None
}

/// The change that leads furthest to an entry of the next round, and the old line behind it.
fn last_change(last: &[usize], entry: usize) -> (Step, usize) {
    let added = last.get(entry).copied();
    let removed = entry.checked_sub(1).map(|entry| last[entry] + 1);
    match (added, removed) {
        (Some(added), Some(removed)) if added < removed => (Step::Remove, removed),
        (Some(added), _) => (Step::Add, added),
        (None, removed) => (Step::Remove, removed.unwrap_or(0)),
    }
}

/// The steps of the last round, found from its end.
fn shortest(rounds: &[Vec<usize>], old: usize, new: usize) -> Vec<Step> {
    let changes = rounds.len() - 1;
    let mut entry = (changes + old - new) / 2;
    let mut x = old;
    let mut steps = Vec::new();
    for last in rounds[..changes].iter().rev() {
        let (step, from) = last_change(last, entry);
        steps.extend(repeat_n(Step::Keep, x - from));
        steps.push(step);
        if step == Step::Remove {
            entry -= 1;
        }
        x = last[entry];
    }
    steps.extend(repeat_n(Step::Keep, x));
    steps.reverse();
    steps
}

/// The ranges of steps that are shown: changes with some lines around.
fn hunks(steps: &[Step]) -> Vec<Range<usize>> {
    let mut hunks: Vec<Range<usize>> = Vec::new();
    for (at, _) in steps.iter().enumerate().filter(|(_, step)| **step != Step::Keep) {
        let range = at.saturating_sub(AROUND)..(at + AROUND + 1).min(steps.len());
        match hunks.last_mut() {
            Some(last) if range.start <= last.end => last.end = range.end,
            _ => hunks.push(range),
        }
    }
    hunks
}

/// Both texts and how far they are shown.
struct Lines<'a> {
    old: &'a [&'a [u8]],
    new: &'a [&'a [u8]],
    old_at: usize,
    new_at: usize,
}

impl Lines<'_> {
    fn skip(&mut self, count: usize) {
        self.old_at += count;
        self.new_at += count;
    }

    /// Writes a hunk.
    fn write(&mut self, output: &mut Vec<u8>, steps: &[Step]) {
        let count = |other| steps.iter().filter(|&&step| step != other).count();
        let side = |at: usize, count: usize| format!("{},{count}", at + usize::from(count > 0));
        let old = side(self.old_at, count(Step::Add));
        let new = side(self.new_at, count(Step::Remove));
        output.extend(format!("@@ -{old} +{new} @@\n").bytes());
        for step in steps {
            let (mark, line) = match step {
                Step::Keep => (b' ', self.old[self.old_at]),
                Step::Remove => (b'-', self.old[self.old_at]),
                Step::Add => (b'+', self.new[self.new_at]),
            };
            self.old_at += usize::from(*step != Step::Add);
            self.new_at += usize::from(*step != Step::Remove);
            output.push(mark);
            output.extend(line);
            if !line.ends_with(b"\n") {
                output.extend(b"\n\\ No newline at end of file\n");
            }
        }
    }
}

#[cfg(test)]
mod tests {
    use super::*;

    fn shown(before: &str, after: &str) -> String {
        String::from_utf8(unified("f", before.as_bytes(), after.as_bytes())).unwrap()
    }

    #[test]
    fn changes() {
        assert_eq!(shown("a\n", "a\n"), "");
        assert_eq!(
            shown("a\nb\nc\n", "a\nx\nc\n"),
            "--- f\n+++ f\n@@ -1,3 +1,3 @@\n a\n-b\n+x\n c\n"
        );
        assert_eq!(shown("", "a\n"), "--- f\n+++ f\n@@ -0,0 +1,1 @@\n+a\n");
        assert_eq!(
            shown("a", "a\n"),
            "--- f\n+++ f\n@@ -1,1 +1,1 @@\n-a\n\\ No newline at end of file\n+a\n"
        );
    }

    #[test]
    fn changes_far_apart() {
        let before = "1\n2\n3\n4\n5\n6\n7\n8\n9\n";
        let after = "0\n1\n2\n3\n4\n5\n6\n7\n8\n";
        assert_eq!(
            shown(before, after),
            "--- f\n+++ f\n@@ -1,3 +1,4 @@\n+0\n 1\n 2\n 3\n@@ -6,4 +7,3 @@\n 6\n 7\n 8\n-9\n"
        );
    }

    /// The steps lead from the old lines to the new ones, and no shorter way does.
    #[test]
    fn steps_are_right_and_shortest() {
        let words = |mut number: usize, length: usize| -> Vec<&[u8]> {
            let word = |_| {
                let word: &[u8] = [b"a", b"b", b"c"][number % 3];
                number /= 3;
                word
            };
            (0..length).map(word).collect()
        };
        for number in 0..3_usize.pow(8) {
            let (old, new) = (words(number, 4), words(number / 81, 4 - number % 2));
            let steps = steps(&old, &new);
            let kept = steps.iter().filter(|step| **step == Step::Keep).count();
            assert_eq!(kept, common(&old, &new), "{old:?} {new:?}");
            assert_eq!(applied(&steps, &old, &new), new);
        }
    }

    /// The length of the longest common subsequence.
    fn common(old: &[&[u8]], new: &[&[u8]]) -> usize {
        match (old, new) {
            ([a, old @ ..], [b, new @ ..]) if a == b => 1 + common(old, new),
            ([_, less @ ..], [_, fewer @ ..]) => common(less, new).max(common(old, fewer)),
            _ => 0,
        }
    }

    fn applied<'a>(steps: &[Step], old: &[&'a [u8]], new: &[&'a [u8]]) -> Vec<&'a [u8]> {
        let (mut old, mut new) = (old.iter(), new.iter());
        let mut lines = Vec::new();
        for step in steps {
            match step {
                Step::Keep => {
                    new.next();
                    lines.extend(old.next());
                }
                Step::Remove => assert!(old.next().is_some()),
                Step::Add => lines.extend(new.next()),
            }
        }
        assert!(old.next().is_none() && new.next().is_none());
        lines
    }
}
