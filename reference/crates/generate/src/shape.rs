//! What the generator has to know of the schema's nodes.

use crate::course::{is_closed, nodes_of};
use schema::{Family, FieldKind, Node, Part};
use std::sync::OnceLock;

/// The fields that may be absent where the walk reads them; any other field that is no list is
/// required.
const OPTIONAL: &[(Node, &str)] = &[
    (Node::Dec, "semicolon"),
    (Node::DecInSeq, "semicolon"),
    (Node::ValBind, "rec_kw"),
    (Node::ValBind, "eq_exp"),
    (Node::FunDec, "ty_var_seq"),
    (Node::FunBindCase, "ty_annotation"),
    (Node::FunBindCase, "eq_exp"),
    (Node::PrefixFunBindCaseHead, "op_kw"),
    (Node::InfixFunBindCaseHead, "l_round"),
    (Node::DatDec, "with_type"),
    (Node::AbstypeDec, "with_type"),
    (Node::ExBind, "ex_bind_inner"),
    (Node::InfixDec, "int_lit"),
    (Node::InfixrDec, "int_lit"),
    (Node::LocalDec, "local_dec_hd"),
    (Node::LocalDec, "local_dec_tl"),
    (Node::StrBind, "ascription_tail"),
    (Node::StrBind, "eq_str_exp"),
    (Node::FunctorBind, "ascription_tail"),
    (Node::DatBind, "ty_var_seq"),
    (Node::ConBind, "of_ty"),
    (Node::WhereTypeSigExp, "ty_var_seq"),
    (Node::TyBind, "ty_var_seq"),
    (Node::TyBind, "eq_ty"),
    (Node::TyVarSeq, "l_round"),
    (Node::PathExp, "op_kw"),
    (Node::ExpRow, "eq_exp"),
    (Node::HandleExp, "matcher"),
    (Node::CaseExp, "matcher"),
    (Node::ConPat, "op_kw"),
    (Node::ConPat, "pat"),
    (Node::LabPatRow, "ty_annotation"),
    (Node::LabPatRow, "as_pat_tail"),
    (Node::ConTy, "ty_seq"),
    (Node::ExpInSeq, "semicolon"),
];

/// Whether a field is one that isn't a list and whose absence stops the walk where it reads it.
#[must_use]
pub fn is_required(node: Node, field: usize) -> bool {
    let is_list = matches!(node.fields()[field].kind, FieldKind::List(_));
    !is_list && !Shape::get().is_optional(node, field)
}

/// The tables of all nodes, worked out once.
pub struct Shape {
    /// For each node and field whether the field is optional.
    optional: Vec<Vec<bool>>,
    /// For each node whether a form can stand inside it.
    leads: Vec<bool>,
    /// For each node whether a form other than a pattern or type can stand inside it.
    leads_back: Vec<bool>,
    /// For each node whether it is complete without a form inside.
    terminal: Vec<bool>,
    /// For each node as an aim, for each node the least number of steps from it down to the aim.
    distances: Vec<Vec<Option<usize>>>,
}

impl Shape {
    /// The tables.
    pub fn get() -> &'static Self {
        static SHAPE: OnceLock<Shape> = OnceLock::new();
        SHAPE.get_or_init(Self::new)
    }

    fn new() -> Self {
        let optional: Vec<Vec<bool>> = Node::ALL
            .iter()
            .map(|&node| {
                let listed = |name| OPTIONAL.contains(&(node, name));
                node.fields().iter().map(|field| listed(field.accessor)).collect()
            })
            .collect();
        let terminal = Node::ALL.iter().map(|&node| is_terminal(node, &optional)).collect();
        let leads = holding(|_| true);
        let leads_back = holding(|family| !is_closed(family));
        let distances = Node::ALL.iter().map(|&aim| distances_to(aim)).collect();
        Self { optional, leads, leads_back, terminal, distances }
    }

    /// Whether a field may be absent where the walk reads it. A list is not optional.
    pub fn is_optional(&self, node: Node, field: usize) -> bool {
        self.optional[node as usize][field]
    }

    /// Whether a form can stand inside this node.
    pub fn leads(&self, node: Node) -> bool {
        self.leads[node as usize]
    }

    /// Whether a form other than a pattern or type can stand inside this node.
    pub fn leads_back(&self, node: Node) -> bool {
        self.leads_back[node as usize]
    }

    /// The least number of steps from a node down to another; none where there is no way.
    pub fn distance(&self, node: Node, aim: Node) -> Option<usize> {
        self.distances[aim as usize][node as usize]
    }

    /// Whether the aim can stand inside a node.
    pub fn leads_to(&self, node: Node, aim: Node) -> bool {
        let inside = node.fields().iter().flat_map(|field| nodes_of(field.kind.part()));
        inside.into_iter().any(|inner| self.distance(inner, aim).is_some())
    }

    /// Whether the node is complete without a form inside.
    pub fn is_terminal(&self, node: Node) -> bool {
        self.terminal[node as usize]
    }
}

/// For each node whether a form of a family that `wanted` names can stand inside it, with only
/// groups and choices between.
fn holding(wanted: impl Fn(Family) -> bool) -> Vec<bool> {
    let mut known = vec![false; Node::ALL.len()];
    loop {
        let before = known.clone();
        for &node in Node::ALL {
            known[node as usize] |= node.fields().iter().any(|field| match field.kind.part() {
                Part::Token => false,
                Part::Form(family) => wanted(family),
                Part::Group(group) => before[group as usize],
                Part::Choice(choice) => choice.nodes().iter().any(|&held| before[held as usize]),
            });
        }
        if known == before {
            return known;
        }
    }
}

/// A node is terminal where each field is a token, a path, a list of these, or optional.
fn is_terminal(node: Node, optional: &[Vec<bool>]) -> bool {
    let plain = |part| matches!(part, Part::Token | Part::Group(Node::Path));
    let fields = node.fields().iter().zip(&optional[node as usize]);
    fields.into_iter().all(|(field, &optional)| plain(field.kind.part()) || optional)
}

/// For each node the least number of steps from it down to the aim.
fn distances_to(aim: Node) -> Vec<Option<usize>> {
    let mut known = vec![None; Node::ALL.len()];
    known[aim as usize] = Some(0);
    // Each round finds the nodes that are one step further away.
    loop {
        let before = known.clone();
        for &node in Node::ALL.iter().filter(|&&node| before[node as usize].is_none()) {
            let inside = node.fields().iter().flat_map(|field| nodes_of(field.kind.part()));
            let least = inside.filter_map(|inner| before[inner as usize]).min();
            known[node as usize] = least.map(|steps: usize| steps + 1);
        }
        if known == before {
            return known;
        }
    }
}
