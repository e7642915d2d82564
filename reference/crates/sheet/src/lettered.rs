//! The sheets that document 01 lists with their answers, A to N.

use crate::parts::{con_pat, dec, eq_exp, path, path_exp, s_con_exp, val_dec};
use schema::{node, NodeDescription, Sheet, SheetBuilder, SyntaxKind, Token};

/// Every lettered sheet with its name.
#[must_use]
pub fn all() -> Vec<(&'static str, Sheet)> {
    vec![
        ("A", a()),
        ("B", b()),
        ("C", c()),
        ("D", d()),
        ("E", e()),
        ("F", f()),
        ("G-left", g_left()),
        ("G-above", g_above()),
        ("H", h()),
        ("I", i()),
        ("J", j()),
        ("K", k()),
        ("L-import", l_import()),
        ("L-import-with-comment", l_import_with_comment()),
        ("L-empty", l_empty()),
        ("M-doc", m_doc()),
        ("M-plain", m_plain()),
        ("N-parentheses-198", n_parentheses(198)),
        ("N-parentheses-199", n_parentheses(199)),
        ("N-spaces-32768", n_spaces(32_768)),
        ("N-spaces-32769", n_spaces(32_769)),
        ("N-tokens-4096", n_tokens(4_096)),
        ("N-tokens-4097", n_tokens(4_097)),
    ]
}

/// The sheet with these items of `root.decs()`.
fn finish<const N: usize>(sheet: SheetBuilder, decs: [NodeDescription; N]) -> Sheet {
    sheet.finish_named(decs).expect("a lettered sheet fits the schema")
}

/// Appends the tokens of `val x = 1` and gives its declaration.
fn val_x_is_1(sheet: &mut SheetBuilder) -> NodeDescription {
    let [val, _, x, _, _, _, one] = sheet.words(["val", " ", "x", " ", "=", " ", "1"]);
    val_dec(val, x, s_con_exp(one))
}

/// `val x = 1`
#[must_use]
pub fn a() -> Sheet {
    let mut sheet = SheetBuilder::new();
    let val_dec = val_x_is_1(&mut sheet);
    finish(sheet, [dec(val_dec)])
}

/// `fun f x = 1`
#[must_use]
pub fn b() -> Sheet {
    let mut sheet = SheetBuilder::new();
    let [fun, _, f, _, x, _, _, _, one] =
        sheet.words(["fun", " ", "f", " ", "x", " ", "=", " ", "1"]);
    let case = node("FunBindCase")
        .with("fun_bind_case_head", node("PrefixFunBindCaseHead").with("name_star_eq", f))
        .with("pats", [con_pat(x)])
        .with("eq_exp", eq_exp(s_con_exp(one)));
    let bind = node("FunBind").with("fun_bind_cases", [case]);
    finish(sheet, [dec(node("FunDec").first(fun).with("fun_binds", [bind]))])
}

/// `val x = if a then b else c`
#[must_use]
pub fn c() -> Sheet {
    let mut sheet = SheetBuilder::new();
    let [val, _, x, _, _, _] = sheet.words(["val", " ", "x", " ", "=", " "]);
    let [_, _, a, _, _, _, b, _, _, _, c] =
        sheet.words(["if", " ", "a", " ", "then", " ", "b", " ", "else", " ", "c"]);
    let if_exp =
        node("IfExp").with("cond", path_exp(a)).with("yes", path_exp(b)).with("no", path_exp(c));
    finish(sheet, [dec(val_dec(val, x, if_exp))])
}

/// A `DatDec` of one type with these constructors.
fn dat_dec<const N: usize>(datatype: Token, name: Token, cons: [Token; N]) -> NodeDescription {
    let con_binds = cons.map(|con| node("ConBind").with("name_star_eq", con));
    let bind = node("DatBind")
        .with("name", name)
        .with("eq_con_binds", node("EqConBinds").with("con_binds", con_binds));
    node("DatDec").first(datatype).with("dat_binds", [bind])
}

/// `datatype t = A`
#[must_use]
pub fn d() -> Sheet {
    let mut sheet = SheetBuilder::new();
    let [datatype, _, t, _, _, _, a] = sheet.words(["datatype", " ", "t", " ", "=", " ", "A"]);
    finish(sheet, [dec(dat_dec(datatype, t, [a]))])
}

/// `datatype t = A | B`
#[must_use]
pub fn e() -> Sheet {
    let mut sheet = SheetBuilder::new();
    let [datatype, _, t, _, _, _, a, _, _, _, b] =
        sheet.words(["datatype", " ", "t", " ", "=", " ", "A", " ", "|", " ", "B"]);
    finish(sheet, [dec(dat_dec(datatype, t, [a, b]))])
}

/// `(* c *) val x = 1`
#[must_use]
pub fn f() -> Sheet {
    let mut sheet = SheetBuilder::new();
    sheet.words(["(* c *)", " "]);
    let val_dec = val_x_is_1(&mut sheet);
    finish(sheet, [dec(val_dec)])
}

/// Appends the tokens of `val x = (* c *) 1` and gives its declaration.
fn val_x_is_comment_1(sheet: &mut SheetBuilder) -> NodeDescription {
    let [val, _, x, _, _, _, _, _, one] =
        sheet.words(["val", " ", "x", " ", "=", " ", "(* c *)", " ", "1"]);
    val_dec(val, x, s_con_exp(one))
}

/// `val x = (* c *) 1`
#[must_use]
pub fn g_left() -> Sheet {
    let mut sheet = SheetBuilder::new();
    let val_dec = val_x_is_comment_1(&mut sheet);
    finish(sheet, [dec(val_dec)])
}

/// `val x = (* c *) 1 val y = 2`
#[must_use]
pub fn g_above() -> Sheet {
    let mut sheet = SheetBuilder::new();
    let val_x = val_x_is_comment_1(&mut sheet);
    let [_, val, _, y, _, _, _, two] = sheet.words([" ", "val", " ", "y", " ", "=", " ", "2"]);
    finish(sheet, [dec(val_x), dec(val_dec(val, y, s_con_exp(two)))])
}

/// `(* c *) val x = 1 f`, `f` recorded as an `ExpDec` of its own
#[must_use]
pub fn h() -> Sheet {
    let mut sheet = SheetBuilder::new();
    sheet.words(["(* c *)", " "]);
    let val_dec = val_x_is_1(&mut sheet);
    let [_, f] = sheet.words([" ", "f"]);
    let exp_dec = node("ExpDec").first(f).with("exp", path_exp(f));
    finish(sheet, [dec(val_dec), dec(exp_dec)])
}

/// `val p = op +`
#[must_use]
pub fn i() -> Sheet {
    let mut sheet = SheetBuilder::new();
    let [val, _, p, _, _, _, op, _, plus] =
        sheet.words(["val", " ", "p", " ", "=", " ", "op", " ", "+"]);
    let op_plus = path_exp(plus).with("op_kw", op);
    finish(sheet, [dec(val_dec(val, p, op_plus))])
}

/// `val x = let val y = 1 in y; end`
#[must_use]
pub fn j() -> Sheet {
    let mut sheet = SheetBuilder::new();
    let [val, _, x, _, _, _] = sheet.words(["val", " ", "x", " ", "=", " "]);
    let [_, _, inner_val, _, inner_y, _, _, _, one] =
        sheet.words(["let", " ", "val", " ", "y", " ", "=", " ", "1"]);
    let [_, _, _, y, semicolon, _, _] = sheet.words([" ", "in", " ", "y", ";", " ", "end"]);
    let let_exp =
        node("LetExp").with("decs", [dec(val_dec(inner_val, inner_y, s_con_exp(one)))]).with(
            "exps_in_seq",
            [node("ExpInSeq").with("exp", path_exp(y)).with("semicolon", semicolon)],
        );
    finish(sheet, [dec(val_dec(val, x, let_exp))])
}

/// `type t = () * int`, nothing inside the parentheses
#[must_use]
pub fn k() -> Sheet {
    let mut sheet = SheetBuilder::new();
    let [ty_head, _, t, _, _, _] = sheet.words(["type", " ", "t", " ", "=", " "]);
    let [_, _, _, _, _, int] = sheet.words(["(", ")", " ", "*", " ", "int"]);
    let star_ty = node("StarTy").with("ty", node("ConTy").with("path", path([int])));
    let tuple_ty = node("TupleTy").with("ty", node("ParenTy")).with("star_tys", [star_ty]);
    let bind = node("TyBind").with("name", t).with("eq_ty", node("EqTy").with("ty", tuple_ty));
    let ty_dec = node("TyDec").first(ty_head).with("ty_head", ty_head).with("ty_binds", [bind]);
    finish(sheet, [dec(ty_dec)])
}

/// Appends the tokens of an import and gives its declaration.
fn import(sheet: &mut SheetBuilder) -> NodeDescription {
    let [import, _, _] = sheet.words(["import", " ", "x"]);
    node("EsImportDec").first(import)
}

/// `import x`
#[must_use]
pub fn l_import() -> Sheet {
    let mut sheet = SheetBuilder::new();
    let import = import(&mut sheet);
    finish(sheet, [dec(import)])
}

/// `(* c *) import x`
#[must_use]
pub fn l_import_with_comment() -> Sheet {
    let mut sheet = SheetBuilder::new();
    sheet.words(["(* c *)", " "]);
    let import = import(&mut sheet);
    finish(sheet, [dec(import)])
}

/// No declarations and no comments.
#[must_use]
pub fn l_empty() -> Sheet {
    finish(SheetBuilder::new(), [])
}

/// A comment, a line feed, `val x = 1`. The comment is token 0, `val` is token 2.
fn commented(comment: &str) -> Sheet {
    let mut sheet = SheetBuilder::new();
    sheet.words([comment, "\n"]);
    let val_dec = val_x_is_1(&mut sheet);
    finish(sheet, [dec(val_dec)])
}

/// `(*!`, ` * a`, ` *)` as three lines of one comment above `val`
#[must_use]
pub fn m_doc() -> Sheet {
    commented("(*!\n * a\n *)")
}

/// `(* a *)` above `val`
#[must_use]
pub fn m_plain() -> Sheet {
    commented("(* a *)")
}

/// `val x =` with that many parentheses round `_`
#[must_use]
pub fn n_parentheses(count: usize) -> Sheet {
    let mut sheet = SheetBuilder::unlimited();
    let [val, _, x, _, _, _] = sheet.words(["val", " ", "x", " ", "=", " "]);
    for _ in 0..count {
        sheet.word("(");
    }
    sheet.word("_");
    for _ in 0..count {
        sheet.word(")");
    }
    let wildcard = node("WildcardExp");
    let exp = (0..count).fold(wildcard, |exp, _| node("ParenExp").with("exp", exp));
    finish(sheet, [dec(val_dec(val, x, exp))])
}

/// A text of that many spaces, one token, no declarations
#[must_use]
pub fn n_spaces(count: usize) -> Sheet {
    let mut sheet = SheetBuilder::unlimited();
    sheet.token(SyntaxKind::Other, " ".repeat(count));
    finish(sheet, [])
}

/// That many tokens of one byte, no declarations
#[must_use]
pub fn n_tokens(count: usize) -> Sheet {
    let mut sheet = SheetBuilder::unlimited();
    for _ in 0..count {
        sheet.word(";");
    }
    finish(sheet, [])
}
