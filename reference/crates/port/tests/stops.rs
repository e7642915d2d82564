//! Numbers 13 and 14 through the archive: the examples of Ticket 4, operands of an `AppExp` in every
//! state, dropped types, imports.

use diverplume::{check, get, Measures, Number, Verdict};
use generate::{Coverage, Generator};
use port::compare::{compare, Work};
use schema::{node, NodeDescription, Sheet, SheetBuilder, Token};
use sheet::{lettered, parts};

/// What stands in a record without tokens before and behind the expression of one `ExpDec`.
const BEFORE: [u8; 12] = [0x02, 1, 0, 0x03, 0x03, 0x02, 1, 0, 0x03, 0x21, 0xFF, 0xFF];
const BEHIND: [u8; 5] = [0x00, 0x02, 0, 0, 0x00];

/// The sheet of an expression.
fn of_exp(exp: &[u8]) -> Sheet {
    Sheet { text: Vec::new(), record: [&BEFORE, exp, &BEHIND].concat() }
}

/// Checks that a sheet is refused with this number at this place by both calls, that nothing else is
/// said or written, and that the Rust says the same.
fn stops(sheet: &Sheet, number: Number, place: usize) {
    let mut output = [0xA5; 64];
    let refused = |verdict: &Verdict| {
        assert_eq!((verdict.number, verdict.place), (number, place), "{sheet:?}");
        assert_eq!(verdict.measures, Measures::default());
        assert!(verdict.comments.is_empty());
        let stop = verdict.stop().expect("what it stops at");
        assert_eq!(stop.field.is_none(), number == Number::Import);
    };
    refused(&check(&sheet.text, &sheet.record));
    for tab_size in [0, 2, u32::MAX] {
        refused(&get(&sheet.text, &sheet.record, tab_size, &mut output));
        assert_eq!(output, [0xA5; 64]);
    }
    same(sheet);
}

fn accepts(sheet: &Sheet) {
    assert_eq!(check(&sheet.text, &sheet.record).number, Number::Accepted, "{sheet:?}");
    same(sheet);
}

fn same(sheet: &Sheet) {
    compare(sheet, Work::ALL).unwrap_or_else(|difference| panic!("{difference}"));
}

#[test]
fn arg_is_asked_before_func_is_walked() {
    // The `exp` of func's ParenExp is absent, arg's path is empty.
    let sheet = of_exp(&[0x4E, 0x48, 0x00, 0x45, 0x00, 0x03, 0x02, 0x00, 0x00]);
    stops(&sheet, Number::Missing, BEFORE.len() + 6);
    assert_eq!(sheet.record[BEFORE.len() + 6], 0x02);
}

#[test]
fn arg_is_asked_before_the_path_of_func() {
    let sheet = of_exp(&[0x4E, 0x45, 0x00, 0x00, 0x00]);
    stops(&sheet, Number::Missing, BEFORE.len() + 4);
}

/// An operand's bytes behind its form, and where in the operand it stops an `AppExp`.
const OPERANDS: [(&[u8], Option<usize>); 4] = [
    (&[0x45, 0x00, 0x03, 0x02, 1, 0, 0x03, 0x01, 0, 0], None),
    (&[0x45, 0x00, 0x00], Some(2)),
    (&[0x45, 0x00, 0x03, 0x02, 0, 0], Some(3)),
    (&[0x45, 0x00, 0x03, 0x02, 1, 0, 0x03, 0x00], Some(7)),
];

/// The sheet of an expression over the text `x`.
fn over_x(exp: &[u8]) -> Sheet {
    let token = [0x05, 0, 1, 0];
    Sheet { text: b"x".to_vec(), record: [&token[..], &BEFORE, exp, &BEHIND].concat() }
}

#[test]
fn operands_in_every_state() {
    let start = 4 + BEFORE.len() + 1;
    for (func, in_func) in OPERANDS {
        for (arg, in_arg) in OPERANDS {
            let sheet = over_x(&[&[0x4E], func, arg].concat());
            let in_arg = in_arg.map(|at| start + func.len() + at);
            match in_func.map(|at| start + at).or(in_arg) {
                Some(place) => stops(&sheet, Number::Missing, place),
                None => accepts(&sheet),
            }
        }
        let without_arg = over_x(&[&[0x4E], func, &[0x00]].concat());
        stops(&without_arg, Number::Missing, start + func.len());
        let without_func = over_x(&[&[0x4E, 0x00], func].concat());
        stops(&without_func, Number::Missing, start);
        // Outside of an AppExp a path without names is fine.
        let alone = over_x(func);
        match in_func {
            Some(at) if func[at] == 0x00 => stops(&alone, Number::Missing, start - 1 + at),
            _ => accepts(&alone),
        }
    }
}

/// `type t = ty`, with the token `int` for the type.
fn of_type(ty: impl FnOnce(Token) -> NodeDescription) -> Sheet {
    let mut sheet = SheetBuilder::new();
    let [ty_head, _, t, _, _, _, int] = sheet.words(["type", " ", "t", " ", "=", " ", "int"]);
    let bind = node("TyBind").with("name", t).with("eq_ty", node("EqTy").with("ty", ty(int)));
    let ty_dec = node("TyDec").first(ty_head).with("ty_head", ty_head).with("ty_binds", [bind]);
    sheet.finish_named([parts::dec(ty_dec)]).expect("the sheet fits the schema")
}

fn int(token: Token) -> NodeDescription {
    node("ConTy").with("path", parts::path([token]))
}

fn star(ty: NodeDescription) -> NodeDescription {
    node("StarTy").with("ty", ty)
}

/// Where the command stands that is this many bytes before the record's end.
fn before_end(sheet: &Sheet, bytes: usize) -> usize {
    // Behind a declaration's last part: the absent semicolon, no sharing tails, the absent semicolon.
    sheet.record.len() - BEHIND.len() - bytes
}

#[test]
fn a_dropped_type_is_no_stop() {
    accepts(&lettered::k());
    let k_and_absent = of_type(|token| {
        let stars = [star(int(token)), node("StarTy")];
        node("TupleTy").with("ty", node("ParenTy")).with("star_tys", stars)
    });
    stops(&k_and_absent, Number::Missing, before_end(&k_and_absent, 1));
    let first_absent = of_type(|token| node("TupleTy").with("star_tys", [star(int(token))]));
    // TupleTy and its list of one item of ten bytes.
    let place = first_absent.record.iter().rposition(|&byte| byte == 0x76).expect("TupleTy") + 1;
    stops(&first_absent, Number::Missing, place);
    let nested = |star_tys: Vec<NodeDescription>| {
        of_type(|token| {
            let inner =
                node("TupleTy").with("ty", node("ParenTy")).with("star_tys", [node("StarTy")]);
            let outer = node("TupleTy").with("ty", inner);
            let star_tys = star_tys.into_iter().chain([star(int(token))]).collect::<Vec<_>>();
            outer.with("star_tys", star_tys)
        })
    };
    accepts(&nested(Vec::new()));
    let behind = nested(vec![node("StarTy")]);
    let names = star_bytes();
    stops(&behind, Number::Missing, before_end(&behind, 1 + names));
}

/// The bytes of a star type that is one name.
fn star_bytes() -> usize {
    // StarTy, ConTy, no arguments, Path, a list of one, NameStarEqDot, its token.
    1 + 1 + 1 + 1 + 3 + 1 + 3
}

#[test]
fn the_look_for_a_space_is_no_stop() {
    let sheet = |path: NodeDescription| {
        let mut builder = SheetBuilder::new();
        let [val, _, op] = builder.words(["val", " ", "op"]);
        let pat = node("ConPat").with("op_kw", op).with("path", path);
        let bind = node("ValBind").with("pat", pat);
        let dec = node("ValDec").first(val).with("val_binds", [bind]);
        builder.finish_named([parts::dec(dec)]).expect("the sheet fits the schema")
    };
    accepts(&sheet(node("Path")));
    let no_name = sheet(node("Path").with("name_star_eq_dots", [node("NameStarEqDot")]));
    // Behind the name: no pattern, no value.
    stops(&no_name, Number::Missing, before_end(&no_name, 3));
}

#[test]
fn imports() {
    stops(&lettered::l_import(), Number::Import, 21);
    stops(&lettered::l_import_with_comment(), Number::Import, 29);
    // An import before a missing part, and behind one.
    let import = || parts::dec(node("EsImportDec"));
    let missing = || parts::dec(node("DoDec"));
    let sheet = |decs: [NodeDescription; 2]| {
        SheetBuilder::new().finish_named(decs).expect("the sheet fits the schema")
    };
    stops(&sheet([import(), missing()]), Number::Import, 9);
    stops(&sheet([missing(), import()]), Number::Missing, 12);
}

#[test]
fn a_comment_is_not_told_before_a_stop() {
    let mut sheet = lettered::g_left();
    let at = sheet.record.iter().rposition(|&byte| byte == 0x44).expect("SConExp");
    sheet.record.splice(at..at + 4, [0x00]);
    stops(&sheet, Number::Missing, at);
}

#[test]
fn generated_sheets_show_all_of_it() {
    let mut coverage = Coverage::new();
    for case in Generator::new(31).cases(100_000) {
        let reference = answers::Reference::new(&case.sheet);
        coverage.add(&case, &reference, &case.calls(&reference));
    }
    let unreached = coverage.unreached().filter(|goal| goal.kind() == "told");
    let unreached: Vec<_> = unreached.map(|goal| goal.name()).collect();
    assert!(unreached.is_empty(), "{unreached:?}");
}
