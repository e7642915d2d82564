//! The accessors that a source text calls on each node.
//!
//! One pass over the words follows which node each variable is: parameters and match arms name
//! their node, `let`, `for` and closures take theirs from the accessor chain that they bind.
//! Scopes are not followed; 000 never reads a variable again behind the scope of one that hides
//! it, and a variable taken for a wrong node would name an accessor that this node hasn't got.

use schema::{Node, Part};
use std::collections::HashMap;

/// Methods that hand on the node they are called on.
const SAME: [&str; 3] = ["next", "into_iter", "as_ref"];
/// Methods after which no node is left.
const NO_NODE: [&str; 4] = ["syntax", "is_some", "is_none", "count"];

/// For each node the accessors called on it, in the order first named, each once.
pub fn first_named<'a>(words: &[&'a str]) -> HashMap<&'static str, Vec<&'a str>> {
    let mut pass = Pass { words, nodes: HashMap::new(), recent: None, named: HashMap::new() };
    let mut at = 0;
    while at < words.len() {
        at = pass.step(at);
    }
    pass.named
}

struct Pass<'w, 'a> {
    words: &'w [&'a str],
    /// The node that each variable is.
    nodes: HashMap<&'a str, Node>,
    /// The node that the last chain ended with.
    recent: Option<Node>,
    named: HashMap<&'static str, Vec<&'a str>>,
}

impl<'a> Pass<'_, 'a> {
    /// Reads what begins at this word and gives the place behind it.
    fn step(&mut self, at: usize) -> usize {
        let words = self.words;
        match &words[at..] {
            ["fn", ..] => {
                self.nodes.clear();
                self.recent = None;
                at + 1
            }
            ["ast", "::", _, "::", node, "(", variable, ")", ..] => {
                self.bind(variable, Node::named(node));
                at + 8
            }
            ["Item", "=", "ast", "::", node, ..] => {
                self.bind("iter", Node::named(node));
                at + 5
            }
            ["let", "Some", "(", variable, ")", "=", ..] => self.bound(variable, at + 6),
            ["let", "mut", variable, "=", ..] => self.bound(variable, at + 4),
            ["let", variable, "=", ..] => self.bound(variable, at + 3),
            ["for", variable, "in", ..] => self.bound(variable, at + 3),
            ["|", variable, "|", ..] => self.closure(variable, at + 3),
            ["|", _, ",", variable, "|", ..] => self.closure(variable, at + 5),
            [variable, ":", rest @ ..] if parameter(rest).is_some() => {
                self.bind(variable, parameter(rest));
                at + 2
            }
            [".", ..] => at + 2,
            _ => self.chain(at),
        }
    }

    fn bind(&mut self, variable: &'a str, node: Option<Node>) {
        match node {
            Some(node) => self.nodes.insert(variable, node),
            None => self.nodes.remove(variable),
        };
    }

    /// Binds the variable to the chain that begins at this word.
    fn bound(&mut self, variable: &'a str, at: usize) -> usize {
        self.recent = None;
        let behind = self.chain(at);
        // What follows is no chain of a variable that is a node, so it is read again.
        let behind = if self.recent.is_none() && behind == at + 1 { at } else { behind };
        self.bind(variable, self.recent);
        behind
    }

    /// Binds a closure's variable to the chain before it; `cfg` is no node.
    fn closure(&mut self, variable: &'a str, behind: usize) -> usize {
        if variable != "cfg" {
            self.bind(variable, self.recent);
        }
        behind
    }

    /// Follows the accessors called on a variable that is a node.
    fn chain(&mut self, at: usize) -> usize {
        let words = self.words;
        let Some(&node) = self.nodes.get(words[at]) else { return at + 1 };
        let mut current = Some(node);
        let mut behind = at + 1;
        loop {
            match &words[behind..] {
                ["?", ..] => behind += 1,
                [".", method, "(", ")", ..] => {
                    current = current.and_then(|node| self.call(node, method));
                    behind += 4;
                }
                [".", _, "(", ..] => break,
                [".", _, ..] => {
                    current = None;
                    behind += 2;
                }
                _ => break,
            }
        }
        self.recent = current;
        behind
    }

    /// The node that a method of this node gives.
    fn call(&mut self, node: Node, method: &'a str) -> Option<Node> {
        if let Some(field) = node.fields().iter().find(|field| field.accessor == method) {
            let named = self.named.entry(node.name()).or_default();
            if !named.contains(&method) {
                named.push(method);
            }
            return match field.kind.part() {
                Part::Group(group) => Some(group),
                Part::Token | Part::Choice(_) | Part::Form(_) => None,
            };
        }
        assert!(
            SAME.contains(&method) || NO_NODE.contains(&method),
            "000 calls {method} on {}, which is no field of it",
            node.name()
        );
        SAME.contains(&method).then_some(node)
    }
}

/// The node in a parameter's type.
fn parameter(words: &[&str]) -> Option<Node> {
    match words {
        ["&", rest @ ..] | ["Option", "<", rest @ ..] | ["sml_syntax", "::", rest @ ..] => {
            parameter(rest)
        }
        ["ast", "::", node, ..] => Node::named(node),
        _ => None,
    }
}
