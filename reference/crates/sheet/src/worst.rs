//! Sheets on which a call takes long or nests deep, all of them accepted.

use schema::tree::{
    AppExp, Arm, CaseExp, ConTy, Dec, EqExp, EqTy, Exp, ExpArg, ExpDec, FnExp, HoleDec, HoleExp,
    HoleTy, LetExp, ListExp, LocalDec, Matcher, ParenPat, ParenTy, Pat, Path, PathExp, RecordTy,
    SConExp, StarTy, StrBind, StructStrExp, StructureDec, TupleTy, Ty, TyBind, TyDec, TyRow,
    ValBind, ValDec, WildcardPat,
};
use schema::{limit, tree, Sheet, SheetBuilder, SyntaxKind, Token};

/// Every sheet with its name.
#[must_use]
pub fn all() -> Vec<(&'static str, Sheet)> {
    vec![
        ("cases", cases()),
        ("lets", lets()),
        ("structures", structures()),
        ("locals", locals()),
        ("patterns", patterns()),
        ("types", types()),
        ("left-applications", left_applications()),
        ("applied-list", applied_list()),
        ("applied-fn", applied_fn()),
        ("stopped-types", stopped_types()),
        ("far-comment", far_comment()),
    ]
}

fn finish(builder: SheetBuilder, decs: impl IntoIterator<Item = Dec>) -> Sheet {
    builder.finish(decs).expect("a sheet within the limits")
}

fn name(token: Token) -> PathExp {
    PathExp::new().path(Path::named([token]))
}

fn val_dec(val: Token, pat: impl Into<Option<Pat>>, exp: impl Into<Option<Exp>>) -> tree::DecOne {
    ValDec::of([ValBind::new().pat(pat).eq_exp(EqExp::of(exp))]).first(val)
}

/// The most of these items that fit a record that already has this many bytes.
fn most(used: usize, item: usize) -> usize {
    (limit::RECORD - used) / item
}

/// `val _ =` and 198 `case` inside one another: 200 forms, and each arm forms two depths.
#[must_use]
pub fn cases() -> Sheet {
    let mut builder = SheetBuilder::new();
    let [val, x] = builder.words(["val", "x"]);
    let exp = (0..limit::FORMS - 2).fold(Exp::from(name(x)), |exp, _| {
        let arm = Arm::new().pat(WildcardPat::new()).exp(exp);
        CaseExp::new().exp(name(x)).matcher(Matcher::of([arm])).into()
    });
    finish(builder, [Dec::one(val_dec(val, WildcardPat::new(), exp))])
}

/// `let` inside `val` inside `let`, 200 forms.
#[must_use]
pub fn lets() -> Sheet {
    let mut builder = SheetBuilder::new();
    let [val, x] = builder.words(["val", "x"]);
    let exp = (0..limit::FORMS / 2 - 1).fold(Exp::from(name(x)), |exp, _| {
        let dec = Dec::one(val_dec(val, WildcardPat::new(), exp));
        let body = tree::ExpInSeq::new().exp(name(x));
        LetExp::new().decs([dec]).exps_in_seq([body]).into()
    });
    finish(builder, [Dec::one(val_dec(val, WildcardPat::new(), exp))])
}

/// Structures inside one another, 199 forms, the innermost `...`.
#[must_use]
pub fn structures() -> Sheet {
    let mut builder = SheetBuilder::new();
    let [structure, s] = builder.words(["structure", "S"]);
    let hole = HoleDec::new().first(structure);
    let dec = (0..(limit::FORMS - 1) / 2).fold(hole, |dec, _| {
        let body = tree::EqStrExp::of(StructStrExp::of([Dec::one(dec)]));
        StructureDec::of([StrBind::new().name(s).eq_str_exp(body)]).first(structure)
    });
    finish(builder, [Dec::one(dec)])
}

/// `local` inside `local`, 200 forms, the innermost `...`. No sheet is known that takes more stack.
#[must_use]
pub fn locals() -> Sheet {
    let mut builder = SheetBuilder::new();
    let local = builder.word("local");
    let hole = HoleDec::new().first(local);
    let dec = (0..limit::FORMS - 1).fold(hole, |dec, _| {
        let head = tree::LocalDecHd::of([Dec::one(dec)]);
        LocalDec::new().local_dec_hd(head).first(local)
    });
    finish(builder, [Dec::one(dec)])
}

/// `val ((..(_)..))`, 200 forms.
#[must_use]
pub fn patterns() -> Sheet {
    let mut builder = SheetBuilder::new();
    let val = builder.word("val");
    let pat = (0..limit::FORMS - 2)
        .fold(Pat::from(WildcardPat::new()), |pat, _| ParenPat::of(pat).into());
    finish(builder, [Dec::one(ValDec::of([ValBind::new().pat(pat)]).first(val))])
}

/// `type t =` and a type.
fn ty_dec(builder: &mut SheetBuilder, ty: Ty) -> Dec {
    let [ty_head, t] = builder.words(["type", "t"]);
    let bind = TyBind::new().name(t).eq_ty(EqTy::of(ty));
    Dec::one(TyDec::new().ty_head(ty_head).ty_binds([bind]).first(ty_head))
}

/// `type t = (..(t)..)`, 200 forms.
#[must_use]
pub fn types() -> Sheet {
    let mut builder = SheetBuilder::new();
    let ty = (0..limit::FORMS - 2)
        .fold(Ty::from(ConTy::new().path(Path::new())), |ty, _| ParenTy::of(ty).into());
    let dec = ty_dec(&mut builder, ty);
    finish(builder, [dec])
}

/// `func a a .. a` with so many arguments.
fn applied(func: impl Into<Exp>, a: Token, arguments: usize) -> Exp {
    (0..arguments).fold(func.into(), |func, _| AppExp::new().func(func).arg(name(a)).into())
}

/// Expressions `f a a .. a` of 198 arguments, as many as the record holds: each application looks
/// behind all those inside it.
#[must_use]
pub fn left_applications() -> Sheet {
    let sheet = |count: usize| {
        let mut builder = SheetBuilder::new();
        let [f, a] = builder.words(["f", "a"]);
        let exp = ExpDec::of(applied(name(f), a, limit::FORMS - 2)).without_first();
        finish(builder, vec![Dec::one(exp); count])
    };
    let (none, one) = (sheet(0).record.len(), sheet(1).record.len());
    sheet(most(none, one - none))
}

/// `[1, .., 1] a .. a`: 197 applications, each of which looks behind the same long list.
#[must_use]
pub fn applied_list() -> Sheet {
    let sheet = |items: usize| {
        let mut builder = SheetBuilder::new();
        let [one, a] = builder.words(["1", "a"]);
        let list = ListExp::of(vec![ExpArg::of(SConExp::of(one)); items]);
        let exp = applied(list, a, limit::FORMS - 3);
        finish(builder, [Dec::one(ExpDec::of(exp).without_first())])
    };
    let (none, one) = (sheet(0).record.len(), sheet(1).record.len());
    sheet(most(none, one - none))
}

/// A `fn` of as many arms as the record holds, three bytes each, applied: 197 applications, each of
/// which looks behind the same arms. Its text is longer than the draft of `get`, which walks twice.
/// No sheet is known that takes longer.
#[must_use]
pub fn applied_fn() -> Sheet {
    let sheet = |arms: usize| {
        let mut builder = SheetBuilder::new();
        let a = builder.word("a");
        let arm = Arm::new().pat(WildcardPat::new()).exp(HoleExp::new());
        let fn_exp = FnExp::new().matcher(Matcher::of(vec![arm; arms]));
        let exp = applied(fn_exp, a, limit::FORMS - 3);
        finish(builder, [Dec::one(ExpDec::of(exp).without_first())])
    };
    let (none, one) = (sheet(0).record.len(), sheet(1).record.len());
    sheet(most(none, one - none))
}

/// `type t =` 197 tuple types, each the first part of the next, around a long record type. Each but
/// the outermost stops in its second part, so that the next one skips it, and the long one with it.
#[must_use]
pub fn stopped_types() -> Sheet {
    let sheet = |rows: usize| {
        let mut builder = SheetBuilder::new();
        let a = builder.word("a");
        let row = TyRow::new().lab(a).ty(HoleTy::new());
        let stopped = StarTy::of(ParenTy::new());
        let ty = (0..limit::FORMS - 4).fold(Ty::from(RecordTy::of(vec![row; rows])), |ty, _| {
            TupleTy::new().ty(ty).star_tys([stopped.clone()]).into()
        });
        let dec = ty_dec(&mut builder, TupleTy::new().ty(ty).into());
        finish(builder, [dec])
    };
    let (none, one) = (sheet(0).record.len(), sheet(1).record.len());
    sheet(most(none, one - none))
}

/// 4,096 tokens, the first a comment, and as many `...` as the record holds, each with the last
/// token as its first: each looks for its comment over all tokens.
#[must_use]
pub fn far_comment() -> Sheet {
    let sheet = |count: usize| {
        let mut builder = SheetBuilder::new();
        builder.token(SyntaxKind::BlockComment, "(**)");
        for _ in 2..limit::TOKENS {
            builder.token(SyntaxKind::Other, " ");
        }
        let last = builder.token(SyntaxKind::Other, ";");
        finish(builder, vec![Dec::one(HoleDec::new().first(last)); count])
    };
    let (none, one) = (sheet(0).record.len(), sheet(1).record.len());
    sheet(most(none, one - none))
}
