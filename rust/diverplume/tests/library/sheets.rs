//! Small sheets.

use diverplume::record::tree::{
    ConPat, Dec, DecOne, EqExp, EsImportDec, Exp, ExpDec, HoleExp, IfExp, ParenExp, Path, PathExp,
    SConExp, ValBind, ValDec,
};
use diverplume::record::{Sheet, SheetBuilder, Token};

/// `val x = exp`, the first token `val`.
fn val_dec(val: Token, x: Token, exp: impl Into<Exp>) -> DecOne {
    let pat = ConPat::new().path(Path::named([x]));
    ValDec::of([ValBind::new().pat(pat).eq_exp(EqExp::of(exp.into()))]).first(val)
}

fn finish(builder: SheetBuilder, decs: impl IntoIterator<Item = DecOne>) -> Sheet {
    builder.finish(decs.into_iter().map(Dec::one)).expect("a sheet within the limits")
}

/// `val x = if a then b else c`
pub fn conditional() -> Sheet {
    let mut builder = SheetBuilder::new();
    let [val, _, x, _, _, _] = builder.words(["val", " ", "x", " ", "=", " "]);
    let [_, _, a, _, _, _, b, _, _, _, c] =
        builder.words(["if", " ", "a", " ", "then", " ", "b", " ", "else", " ", "c"]);
    let name = |token| PathExp::new().path(Path::named([token]));
    let exp = IfExp::new().cond(name(a)).yes(name(b)).no(name(c));
    finish(builder, [val_dec(val, x, exp)])
}

/// A comment, a line feed, `val x = 1`: the comment is token 0, `val` is token 2.
pub fn commented(comment: &str) -> Sheet {
    let mut builder = SheetBuilder::new();
    builder.words([comment, "\n"]);
    let [val, _, x, _, _, _, one] = builder.words(["val", " ", "x", " ", "=", " ", "1"]);
    finish(builder, [val_dec(val, x, SConExp::of(one))])
}

/// `val x =`, each of the comments on a line of its own, `1`.
pub fn with_comments_inside(comments: &[&str]) -> Sheet {
    let mut builder = SheetBuilder::new();
    let [val, _, x, _, _] = builder.words(["val", " ", "x", " ", "="]);
    for comment in comments {
        builder.words(["\n  ", *comment]);
    }
    let [_, one] = builder.words(["\n", "1"]);
    finish(builder, [val_dec(val, x, SConExp::of(one))])
}

/// A comment with an accent, then `val x =` without a value on the next line.
pub fn without_value() -> Sheet {
    let mut builder = SheetBuilder::new();
    builder.words(["(* \u{e9}t\u{e9} *)", "\n"]);
    let [val, _, x, _, _] = builder.words(["val", " ", "x", " ", "="]);
    let pat = ConPat::new().path(Path::named([x]));
    finish(builder, [ValDec::of([ValBind::new().pat(pat).eq_exp(EqExp::new())]).first(val)])
}

/// `import x`
pub fn import() -> Sheet {
    let mut builder = SheetBuilder::new();
    let [import, _, _] = builder.words(["import", " ", "x"]);
    finish(builder, [EsImportDec::new().first(import)])
}

/// So many parentheses round `...`, more than a sheet may have.
pub fn parentheses(count: usize) -> Sheet {
    let mut builder = SheetBuilder::unlimited();
    builder.word("...");
    let exp = (0..count).fold(Exp::from(HoleExp::new()), |exp, _| ParenExp::of(exp).into());
    finish(builder, [ExpDec::of(exp).without_first()])
}
