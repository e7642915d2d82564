//! Typed nodes against nodes by name.

use diverplume_record::tree::{
    ConPat, Dec, DecInSeq, EqExp, ExBind, ExDec, ExpArg, HoleTy, IfExp, OfTy, ParenExp, Path,
    PathExp, SConExp, TupleExp, ValBind, ValDec,
};
use diverplume_record::{node, NodeDescription, SheetBuilder, Token};

/// The tokens of `val x = 1`.
fn tokens(builder: &mut SheetBuilder) -> [Token; 7] {
    builder.words(["val", " ", "x", " ", "=", " ", "1"])
}

#[test]
fn sheet_a_has_the_66_bytes_of_01() {
    let mut builder = SheetBuilder::new();
    let [val, _, x, _, _, _, one] = tokens(&mut builder);
    let bind = ValBind::new()
        .pat(ConPat::new().path(Path::named([x])))
        .eq_exp(EqExp::of(SConExp::of(one)));
    let sheet = builder.finish([Dec::one(ValDec::of([bind]).first(val))]).unwrap();
    let listed = "05 04 03 00 \
        05 00 01 00 05 00 01 00 05 00 01 00 05 00 01 00 05 00 01 00 05 00 01 00 \
        02 01 00 03 03 02 01 00 03 11 00 00 02 01 00 03 00 62 00 03 02 01 00 03 01 02 00 00 03 44 \
        01 06 00 00 02 00 00 00";
    let listed: Vec<_> =
        listed.split(' ').map(|byte| u8::from_str_radix(byte, 16).unwrap()).collect();
    assert_eq!(sheet.record, listed);
    assert_eq!(sheet.text, b"val x = 1");
}

#[test]
fn nodes_are_those_of_their_names() {
    let token = Token(0);
    let typed = IfExp::new().cond(SConExp::of(token)).yes(ParenExp::of(None)).no(None);
    let s_con = node("SConExp").with("s_con", token);
    let named = node("IfExp")
        .with("cond", s_con)
        .with("yes", node("ParenExp").with("exp", None::<Token>))
        .with("no", None::<Token>);
    assert_eq!(NodeDescription::from(typed), named);
}

#[test]
fn fields_take_parts_and_options_of_them() {
    let x = Token(0);
    let path = |op: Option<Token>| PathExp::new().op_kw(op).path(Path::named([x]));
    assert_ne!(path(Some(x)), path(None));
    assert_eq!(path(Some(x)), PathExp::new().op_kw(x).path(Some(Path::named([x]))));
    let args = [ExpArg::of(path(None)), ExpArg::of(SConExp::of(x))];
    assert_eq!(TupleExp::of(args.clone()), TupleExp::new().exp_args(Vec::from(args)));
}

#[test]
fn choices_and_sequences_are_written() {
    let mut builder = SheetBuilder::new();
    let [exception, _, e] = builder.words(["exception", " ", "E"]);
    let bind = ExBind::new().name_star_eq(e).ex_bind_inner(OfTy::of(HoleTy::new()));
    let dec = DecInSeq::new().dec_one(ExDec::of([bind]).first(exception));
    let record = builder.finish([Dec::sequence([dec])]).unwrap().record;
    let tree =
        [2, 1, 0, 3, 3, 2, 1, 0, 3, 0x17, 0, 0, 2, 1, 0, 3, 1, 2, 0, 4, 0, 0x70, 0, 2, 0, 0, 0];
    assert_eq!(record[12..], tree);
}

#[test]
fn a_field_set_twice_is_told() {
    let mut builder = SheetBuilder::new();
    let [val, ..] = tokens(&mut builder);
    let dec = ValDec::new().val_binds([ValBind::new()]).val_binds([ValBind::new()]).first(val);
    let error = builder.finish([Dec::one(dec)]).unwrap_err().to_string();
    let at = "decs[0].dec_with_tail.dec_in_seqs[0].dec_one";
    assert_eq!(error, format!("at {at}: ValDec has val_binds twice"));
}

#[test]
fn names_of_commands() {
    use diverplume_record::command;
    let names = [
        (0x00, Some("absent")),
        (0x05, Some("token")),
        (0x06, None),
        (0x0F, None),
        (0x10, Some("HoleDec")),
        (0x23, Some("EsImportDec")),
        (0x24, None),
        (0x33, Some("WhereSigExp")),
        (0x41, Some("WildcardExp")),
        (0x78, Some("ParenTy")),
        (0x79, None),
        (0xFF, None),
    ];
    for (byte, name) in names {
        assert_eq!(command::name(byte), name, "{byte:#04x}");
    }
}
