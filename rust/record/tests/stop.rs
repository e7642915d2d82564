//! What formatting stops at, in words.

use diverplume_record::tree::{
    AppExp, Arm, CaseExp, ConPat, Dec, DecInSeq, DecOne, DoDec, EsImportDec, FnExp, HoleDec,
    HoleExp, InfixExp, LetExp, Matcher, OpenDec, Path, PathExp, ValBind, ValDec, WildcardPat,
};
use diverplume_record::{Node, Sheet, SheetBuilder, Stop, Token};

/// The sheet of some tokens and these declarations.
fn sheet(decs: impl FnOnce([Token; 3]) -> Vec<Dec>) -> Sheet {
    let mut builder = SheetBuilder::new();
    let [a, _, b, _, c] = builder.words(["a", "\n", "b\u{e9}", " ", "c"]);
    builder.finish(decs([a, b, c])).expect("a sheet within the limits")
}

/// What is said of each place of a sheet at which something is missing or an import stands.
fn said(sheet: &Sheet) -> Vec<String> {
    let places = 0..=sheet.record.len() + 1;
    let stops = places.filter_map(|place| Stop::at(&sheet.text, &sheet.record, place));
    stops.map(|stop| stop.to_string()).collect()
}

/// Whether one of the places of a sheet is said to be this.
fn says(sheet: &Sheet, expected: &str) {
    let said = said(sheet);
    assert!(said.iter().any(|said| said == expected), "{said:#?}");
}

fn one(dec: impl FnOnce([Token; 3]) -> DecOne) -> Sheet {
    sheet(|tokens| vec![Dec::one(dec(tokens))])
}

const BEHIND_A: &str = "behind the token at line 1, column 1 of the text (offset 0)";
const BEHIND_B: &str = "behind the token at line 2, column 1 of the text (offset 2)";
const COMPLETE: &str = "complete the file's syntax there";

#[test]
fn a_field_of_a_form_and_of_nodes_inside_it() {
    let do_dec = one(|[a, ..]| DoDec::new().first(a));
    says(
        &do_dec,
        &format!("DoDec at offset 29 of the record: its `exp` is missing, {BEHIND_A}; {COMPLETE}"),
    );
    let arms = [Arm::new().pat(WildcardPat::new()).exp(HoleExp::new()), Arm::new()];
    let fn_exp = FnExp::of(Matcher::of(arms));
    says(
        &one(|[a, ..]| DoDec::of(fn_exp).first(a)),
        &format!(
            "FnExp at offset 32 of the record: the `pat` of its `matcher`'s 2nd arm is missing, \
             {BEHIND_A}; {COMPLETE}"
        ),
    );
}

#[test]
fn the_nearest_token_is_the_one_named_last() {
    let name = |token| PathExp::new().path(Path::named([token]));
    says(
        &one(|[a, b, c]| DoDec::of(InfixExp::new().name_star_eq(c).lhs(name(b))).first(a)),
        &format!(
            "InfixExp at offset 32 of the record: its `rhs` is missing, {BEHIND_B}; {COMPLETE}"
        ),
    );
    says(
        &one(|_| DoDec::new().without_first()),
        &format!("DoDec at offset 29 of the record: its `exp` is missing; {COMPLETE}"),
    );
}

#[test]
fn an_empty_list() {
    let app_exp = AppExp::new().func(PathExp::new().path(Path::new())).arg(HoleExp::new());
    says(
        &one(|[a, ..]| DoDec::of(app_exp).first(a)),
        &format!(
            "PathExp at offset 33 of the record: the list `name_star_eq_dots` of its `path` is empty, \
             {BEHIND_A}; {COMPLETE}"
        ),
    );
    let paths = one(|[a, b, _]| OpenDec::of([Path::named([b]), Path::new()]).first(a));
    says(
        &paths,
        &format!(
            "OpenDec at offset 29 of the record: the list `name_star_eq_dots` of its 2nd path is \
             empty, {BEHIND_B}; {COMPLETE}"
        ),
    );
}

#[test]
fn outside_of_all_forms() {
    let decs = sheet(|[a, ..]| vec![Dec::one(HoleDec::new().first(a)), Dec::new()]);
    says(
        &decs,
        &format!(
            "Root: the `dec_with_tail` of its 2nd declaration is missing, {BEHIND_A}; {COMPLETE}"
        ),
    );
    let items: Vec<_> = (0..23).map(|_| DecInSeq::new()).collect();
    let decs = sheet(|_| vec![Dec::sequence(items)]);
    for ordinal in ["1st", "2nd", "3rd", "4th", "11th", "12th", "13th", "21st", "22nd", "23rd"] {
        says(
            &decs,
            &format!(
                "Root: the `dec_one` of its declaration's `dec_with_tail`'s {ordinal} declaration is \
                 missing; {COMPLETE}"
            ),
        );
    }
}

#[test]
fn inside_an_inner_declaration() {
    let val_dec = ValDec::of([ValBind::new().pat(ConPat::new())]);
    let let_exp = |b| LetExp::new().decs([Dec::one(val_dec.first(b))]);
    says(
        &one(|[a, b, _]| DoDec::of(let_exp(b)).first(a)),
        &format!(
            "ConPat at offset 50 of the record: its `path` is missing, {BEHIND_B}; {COMPLETE}"
        ),
    );
    let case_exp = CaseExp::new().exp(HoleExp::new()).matcher(Matcher::of([Arm::new()]));
    says(
        &one(|[a, ..]| DoDec::of(case_exp).first(a)),
        &format!(
            "CaseExp at offset 32 of the record: the `exp` of its `matcher`'s arm is missing, \
             {BEHIND_A}; {COMPLETE}"
        ),
    );
}

#[test]
fn an_import() {
    let advice = "an import is not formatted; keep imports out of the file";
    says(
        &one(|[_, b, _]| EsImportDec::new().first(b)),
        &format!(
            "EsImportDec at offset 29 of the record, line 2, column 1 of the text (offset 2): {advice}"
        ),
    );
    let behind = sheet(|[a, ..]| {
        let import = EsImportDec::new().without_first();
        vec![Dec::one(HoleDec::new().first(a)), Dec::one(import)]
    });
    says(&behind, &format!("EsImportDec at offset 43 of the record, {BEHIND_A}: {advice}"));
    let alone = one(|_| EsImportDec::new().without_first());
    says(&alone, &format!("EsImportDec at offset 29 of the record: {advice}"));
}

#[test]
fn nodes_and_fields_by_name() {
    let sheet = one(|[a, ..]| DoDec::new().first(a));
    let stop = Stop::at(&sheet.text, &sheet.record, 32).expect("an absent field");
    assert_eq!((stop.form, stop.node), (Some((Node::DoDec, 29)), Node::DoDec));
    assert_eq!((stop.field, stop.token.map(|(offset, _)| offset)), (Some("exp"), Some(0)));
}

#[test]
fn any_bytes_may_be_asked_about() {
    let sheet = one(|[a, b, c]| DoDec::of(InfixExp::new().name_star_eq(b)).first(a.max(c)));
    for cut in 0..=sheet.record.len() {
        for place in 0..=sheet.record.len() + 2 {
            let _ = Stop::at(&sheet.text, &sheet.record[..cut], place);
            let _ = Stop::at(&[], &sheet.record[..cut], place);
        }
    }
    for at in 0..sheet.record.len() {
        for byte in [0x00, 0x01, 0x02, 0x03, 0x04, 0x05, 0x23, 0x4E, 0x70, 0xFF] {
            let mut record = sheet.record.clone();
            record[at] = byte;
            for place in 0..record.len() {
                let _ = Stop::at(&sheet.text, &record, place);
            }
        }
    }
    assert_eq!(Stop::at(&[], &[], 0), None);
    assert_eq!(Stop::at(&[], &[0x02, 0, 0], usize::MAX), None);
}
