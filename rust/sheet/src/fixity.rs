//! Which names are infix, by scope.

use std::collections::HashMap;

/// How an infix name binds.
#[derive(Debug, Clone, Copy, PartialEq, Eq)]
pub(crate) struct Fixity {
    pub(crate) precedence: u8,
    pub(crate) is_right: bool,
}

/// The infix names of the initial basis, and `|>`, for which there is a layout of its own.
const INITIAL: [(&str, u8, bool); 19] = [
    ("*", 7, false),
    ("/", 7, false),
    ("div", 7, false),
    ("mod", 7, false),
    ("+", 6, false),
    ("-", 6, false),
    ("^", 6, false),
    ("::", 5, true),
    ("@", 5, true),
    ("=", 4, false),
    ("<>", 4, false),
    ("<", 4, false),
    (">", 4, false),
    ("<=", 4, false),
    (">=", 4, false),
    (":=", 3, false),
    ("o", 3, false),
    ("before", 0, false),
    ("|>", 0, false),
];

/// The infix names in force.
#[derive(Debug)]
pub(crate) struct Fixities<'a> {
    in_force: HashMap<&'a str, Fixity>,
    /// What each directive replaced, the last one last.
    replaced: Vec<(&'a str, Option<Fixity>)>,
}

/// A place in the sequence of directives.
#[derive(Debug, Clone, Copy)]
pub(crate) struct Mark(usize);

impl<'a> Fixities<'a> {
    pub(crate) fn initial() -> Self {
        let entry = |(name, precedence, is_right)| (name, Fixity { precedence, is_right });
        Self { in_force: INITIAL.into_iter().map(entry).collect(), replaced: Vec::new() }
    }

    pub(crate) fn of(&self, name: &str) -> Option<Fixity> {
        self.in_force.get(name).copied()
    }

    /// A directive: the name is infix, or nonfix where there is no fixity.
    pub(crate) fn set(&mut self, name: &'a str, fixity: Option<Fixity>) {
        let before = match fixity {
            Some(fixity) => self.in_force.insert(name, fixity),
            None => self.in_force.remove(name),
        };
        self.replaced.push((name, before));
    }

    pub(crate) fn mark(&self) -> Mark {
        Mark(self.replaced.len())
    }

    /// The end of a scope: takes back the directives behind a mark.
    pub(crate) fn end(&mut self, scope: Mark) {
        self.take_back(scope);
    }

    /// The end of `local .. in .. end`: takes back the directives between the two marks, and keeps
    /// those behind the second.
    pub(crate) fn end_local(&mut self, head: Mark, tail: Mark) {
        let kept = self.take_back(tail);
        self.take_back(head);
        for (name, fixity) in kept.into_iter().rev() {
            self.set(name, fixity);
        }
    }

    /// Takes back the directives behind a mark and gives them, the last one first.
    fn take_back(&mut self, mark: Mark) -> Vec<(&'a str, Option<Fixity>)> {
        let mut taken = Vec::new();
        while self.replaced.len() > mark.0 {
            let Some((name, before)) = self.replaced.pop() else { break };
            taken.push((name, self.of(name)));
            match before {
                Some(fixity) => self.in_force.insert(name, fixity),
                None => self.in_force.remove(name),
            };
        }
        taken
    }
}

#[cfg(test)]
mod tests {
    use super::*;

    const PLUS: Option<Fixity> = Some(Fixity { precedence: 6, is_right: false });

    #[test]
    fn scopes_end() {
        let mut fixities = Fixities::initial();
        let outer = fixities.mark();
        fixities.set("++", PLUS);
        fixities.set("+", None);
        let inner = fixities.mark();
        fixities.set("++", None);
        assert_eq!((fixities.of("++"), fixities.of("+")), (None, None));
        fixities.end(inner);
        assert_eq!((fixities.of("++"), fixities.of("+")), (PLUS, None));
        fixities.end(outer);
        assert_eq!((fixities.of("++"), fixities.of("+")), (None, PLUS));
    }

    #[test]
    fn the_tail_of_local_is_kept() {
        let mut fixities = Fixities::initial();
        let head = fixities.mark();
        fixities.set("a", PLUS);
        fixities.set("b", PLUS);
        let tail = fixities.mark();
        fixities.set("b", None);
        fixities.set("c", PLUS);
        fixities.end_local(head, tail);
        assert_eq!((fixities.of("a"), fixities.of("b"), fixities.of("c")), (None, None, PLUS));
    }
}
