//! The course of a sheet: where the grammar is to lead to.

use crate::rng::Rng;
use crate::shape::Shape;
use schema::{Family, Node, Part};

/// Where the grammar is to lead to. A node *carries* the course where the rest of it has to stand
/// inside that node.
#[derive(Debug, Clone)]
pub(crate) enum Course {
    /// Anywhere.
    Free,
    /// To forms inside one another; how many are left.
    Deep(usize),
    /// To these nodes inside one another, the last of them first.
    Aimed(Aims),
}

#[derive(Debug, Clone)]
pub(crate) struct Aims {
    nodes: Vec<Node>,
    /// Whether something required is missing at the last aim.
    fault: bool,
    /// How many detours are left.
    detours: usize,
}

/// What a node that carries the course does.
#[derive(Debug, Clone, Copy, PartialEq, Eq)]
pub(crate) enum Step {
    /// This field carries on.
    Carrier(usize),
    /// The course ends here.
    End,
    /// The course ends here with something required missing.
    Fault,
}

impl Course {
    /// A course to any node, often through one that holds it, or through any other.
    pub(crate) fn aimed(rng: &mut Rng) -> Self {
        let shape = Shape::get();
        let fault = rng.chance(1, 2);
        let last = any_node(rng, |node| fault || node != Node::EsImportDec);
        let mut nodes = vec![last];
        let is_of_path = matches!(last, Node::PathExp | Node::Path | Node::NameStarEqDot);
        match rng.below(4) {
            0 | 1 if is_of_path => nodes.push(Node::AppExp),
            0 | 1 => nodes.push(any_node(rng, |node| holds(node, last))),
            2 => nodes.push(any_node(rng, |node| shape.leads_to(node, last))),
            _ => {}
        }
        Self::Aimed(Aims { nodes, fault, detours: rng.below(4) })
    }

    pub(crate) fn is_free(&self) -> bool {
        matches!(self, Self::Free)
    }

    /// Whether the rest of the course can stand inside this node.
    pub(crate) fn can_lead_through(&self, node: Node) -> bool {
        let shape = Shape::get();
        match self {
            Self::Free => false,
            Self::Deep(_) => shape.leads(node),
            Self::Aimed(aims) => aims.nodes.last().is_some_and(|&aim| shape.leads_to(node, aim)),
        }
    }

    /// What a node that carries the course does.
    pub(crate) fn step(&mut self, rng: &mut Rng, node: Node) -> Step {
        if let Self::Aimed(aims) = self {
            if aims.nodes.last() == Some(&node) {
                aims.nodes.pop();
            }
            if aims.nodes.is_empty() {
                return if aims.fault { Step::Fault } else { Step::End };
            }
        }
        let parts: Vec<_> = node.fields().iter().map(|field| nodes_of(field.kind.part())).collect();
        let parts: Vec<_> = parts.iter().map(Vec::as_slice).collect();
        Step::Carrier(self.pick(rng, &parts))
    }

    /// The node that carries the course among those that can stand in a place.
    pub(crate) fn node(&mut self, rng: &mut Rng, nodes: &[Node]) -> Node {
        let alone: Vec<_> = nodes.chunks(1).collect();
        nodes[self.pick(rng, &alone)]
    }

    /// The place that carries the course among several, each with the nodes that can stand there.
    fn pick(&mut self, rng: &mut Rng, places: &[&[Node]]) -> usize {
        let shape = Shape::get();
        let those = |fits: &dyn Fn(Node) -> bool| -> Vec<usize> {
            (0..places.len()).filter(|&at| places[at].iter().any(|&node| fits(node))).collect()
        };
        let leading = match self {
            Self::Free => Vec::new(),
            Self::Deep(_) => {
                // Only types stand inside types, and only these and patterns inside patterns.
                let back = those(&|node| shape.leads_back(node));
                let enough = !back.is_empty() && !rng.chance(1, 200);
                if enough {
                    back
                } else {
                    those(&|node| shape.leads(node))
                }
            }
            Self::Aimed(aims) => {
                let aim = aims.nodes.last().copied().unwrap_or(Node::Root);
                let distance = |node| shape.distance(node, aim);
                if aims.detours > 0 && rng.chance(1, 4) {
                    aims.detours -= 1;
                    those(&|node| distance(node).is_some())
                } else {
                    let all = places.iter().flat_map(|nodes| nodes.iter());
                    let least = all.filter_map(|&node| distance(node)).min();
                    those(&|node| distance(node) == least && least.is_some())
                }
            }
        };
        rng.pick(&leading)
    }
}

/// Any node but the root for which `wanted` is true.
fn any_node(rng: &mut Rng, wanted: impl Fn(Node) -> bool) -> Node {
    loop {
        let node = rng.pick(Node::ALL);
        if node != Node::Root && wanted(node) {
            return node;
        }
    }
}

/// Whether a node has a field in which the other can stand.
fn holds(node: Node, other: Node) -> bool {
    node.fields().iter().any(|field| nodes_of(field.kind.part()).contains(&other))
}

/// The nodes that can stand in a part.
pub(crate) fn nodes_of(part: Part) -> Vec<Node> {
    match part {
        Part::Token => Vec::new(),
        Part::Group(node) => vec![node],
        Part::Choice(choice) => choice.nodes().to_vec(),
        Part::Form(family) => family.forms().to_vec(),
    }
}

/// Whether only types can stand inside the family's forms, or only types and patterns.
pub(crate) fn is_closed(family: Family) -> bool {
    matches!(family, Family::Pat | Family::Ty)
}
