//! Descriptions of frequent nodes.

use schema::{node, NodeDescription, Token};

/// A `Dec` that holds one declaration, without semicolons or sharing tails.
#[must_use]
pub fn dec(dec_one: NodeDescription) -> NodeDescription {
    let in_seq = node("DecInSeq").with("dec_one", dec_one);
    node("Dec").with("dec_with_tail", node("DecWithTail").with("dec_in_seqs", [in_seq]))
}

/// A `Path` of these names.
#[must_use]
pub fn path<const N: usize>(names: [Token; N]) -> NodeDescription {
    let dots = names.map(|name| node("NameStarEqDot").with("name_star_eq", name));
    node("Path").with("name_star_eq_dots", dots)
}

/// A `ConPat` of one name.
#[must_use]
pub fn con_pat(name: Token) -> NodeDescription {
    node("ConPat").with("path", path([name]))
}

/// A `PathExp` of one name.
#[must_use]
pub fn path_exp(name: Token) -> NodeDescription {
    node("PathExp").with("path", path([name]))
}

/// An `SConExp`.
#[must_use]
pub fn s_con_exp(s_con: Token) -> NodeDescription {
    node("SConExp").with("s_con", s_con)
}

/// An `EqExp`.
#[must_use]
pub fn eq_exp(exp: NodeDescription) -> NodeDescription {
    node("EqExp").with("exp", exp)
}

/// A `ValDec` whose first token is `val`, with one binding of `name` to `exp`.
#[must_use]
pub fn val_dec(val: Token, name: Token, exp: NodeDescription) -> NodeDescription {
    let bind = node("ValBind").with("pat", con_pat(name)).with("eq_exp", eq_exp(exp));
    node("ValDec").first(val).with("val_binds", [bind])
}
