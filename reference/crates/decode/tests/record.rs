//! Numbers 1 to 4 with their places, sentence by sentence of document 01.

use decode::{decode, Refusal};
use schema::{Family, SyntaxKind};
use sheet::{lettered, node, parts, Sheet, SheetBuilder};

/// The number and place at which a sheet is refused; none where it is decoded.
fn refusal(text: &[u8], record: &[u8]) -> Option<(u8, u32)> {
    decode(text, record).err().map(|Refusal { number, place }| (number, place))
}

fn sheet_refusal(sheet: &Sheet) -> Option<(u8, u32)> {
    refusal(&sheet.text, &sheet.record)
}

/// A record over the text `x`, one token of kind 0, with these bytes behind the token.
fn over_x(tree: &[u8]) -> Option<(u8, u32)> {
    let record = [&[0x05, 0x00, 0x01, 0x00], tree].concat();
    refusal(b"x", &record)
}

/// The tree bytes of one declaration: list, Dec, DecWithTail, list, DecInSeq, then `dec_one`, then
/// three absent or empty fields. The form stands 9 bytes in.
fn one_dec(dec_one: &[u8]) -> Vec<u8> {
    let head = [0x02, 1, 0, 0x03, 0x03, 0x02, 1, 0, 0x03];
    [&head, dec_one, &[0x00, 0x02, 0, 0, 0x00]].concat()
}

/// The offset of the form of [`one_dec`] in a record of [`over_x`].
const FORM: u32 = 4 + 9;

#[test]
fn records_of_the_lettered_sheets_are_decoded() {
    for (name, sheet) in lettered::all() {
        let expected = match name {
            "N-parentheses-199" => Some(4),
            "N-spaces-32769" => Some(1),
            "N-tokens-4097" => Some(3),
            _ => None,
        };
        assert_eq!(sheet_refusal(&sheet).map(|(number, _)| number), expected, "{name}");
    }
}

#[test]
fn number_1_text_or_record_too_long() {
    assert_eq!(refusal(&[b' '; 32_769], &[]), Some((1, 0)));
    assert_eq!(refusal(&[], &[0; 65_537]), Some((1, 0)));
    // At the limit the record itself is read.
    assert_eq!(refusal(&[], &[0; 65_536]), Some((3, 0)));
    assert_eq!(refusal(&[b' '; 32_768], &[]), Some((3, 0)));
    // Before number 2.
    assert_eq!(refusal(&[128; 32_769], &[]), Some((1, 0)));
}

#[test]
fn number_2_first_text_byte_of_128_or_more() {
    assert_eq!(refusal(&[127, 128, 255], &[]), Some((2, 1)));
    assert_eq!(refusal(&[255], &[]), Some((2, 0)));
    // 127 and 0 are no such bytes.
    assert_eq!(refusal(&[127, 0], &[0x05, 0, 2, 0, 0x02, 0, 0]), None);
}

#[test]
fn number_3_command_wholly_missing() {
    assert_eq!(refusal(&[], &[]), Some((3, 0)));
    // The root list, a list item, a field.
    assert_eq!(over_x(&[]), Some((3, 4)));
    assert_eq!(refusal(&[], &[0x02, 1, 0]), Some((3, 3)));
    assert_eq!(refusal(&[], &[0x02, 1, 0, 0x03]), Some((3, 4)));
    // The count is not compared with the bytes left.
    assert_eq!(refusal(&[], &[0x02, 0xFF, 0xFF]), Some((3, 3)));
    assert_eq!(refusal(&[], &[0x02, 2, 0, 0x03, 0x00, 0x00]), Some((3, 6)));
}

#[test]
fn number_3_place_may_be_the_longest_records_length() {
    // Each item is a Dec whose fields are both absent; one is missing at the end.
    let items = (65_536 - 3 - 1) / 3;
    let mut record = vec![0x02, 0xFF, 0xFF];
    record.extend([0x03, 0x00, 0x00].repeat(items));
    record.push(0x03);
    assert_eq!(record.len(), 65_536);
    assert_eq!(refusal(&[], &record), Some((3, 65_536)));
}

#[test]
fn number_3_operands_cut_short() {
    assert_eq!(refusal(&[], &[0x02]), Some((3, 0)));
    assert_eq!(refusal(&[], &[0x02, 1]), Some((3, 0)));
    for cut in 1..4 {
        assert_eq!(refusal(b"x", &[0x05, 0, 1, 0][..cut]), Some((3, 0)), "{cut}");
    }
    // A token number, a choice, a first token.
    assert_eq!(over_x(&[0x02, 1, 0, 0x03, 0x00, 0x01, 0]), Some((3, 4 + 5)));
    let dec = one_dec(&[0x11, 0]);
    assert_eq!(over_x(&dec[..11]), Some((3, FORM)));
    assert_eq!(over_x(&dec[..10]), Some((3, FORM)));
}

#[test]
fn number_3_tokens_that_end_before_the_text() {
    assert_eq!(refusal(b"xy", &[0x05, 0, 1, 0]), Some((3, 4)));
    assert_eq!(refusal(b"xy", &[0x05, 0, 1, 0, 0x02, 0, 0]), Some((3, 4)));
    assert_eq!(refusal(b"xy", &[0x02, 0, 0]), Some((3, 0)));
    // Told before what follows.
    assert_eq!(refusal(b"xy", &[0x05, 0, 1, 0, 0xEE]), Some((3, 4)));
}

#[test]
fn number_3_tokens_length_0_or_past_the_end() {
    assert_eq!(refusal(b"x", &[0x05, 0, 0, 0, 0x05, 0, 1, 0, 0x02, 0, 0]), Some((3, 0)));
    assert_eq!(refusal(b"x", &[0x05, 0, 2, 0, 0x02, 0, 0]), Some((3, 0)));
    assert_eq!(refusal(b"x", &[0x05, 0, 1, 1, 0x02, 0, 0]), Some((3, 0)));
    // A token once the text is tiled.
    assert_eq!(over_x(&[0x05, 0, 1, 0, 0x02, 0, 0]), Some((3, 4)));
    assert_eq!(over_x(&[0x05, 0, 0, 0, 0x02, 0, 0]), Some((3, 4)));
    assert_eq!(refusal(b"", &[0x05, 0, 1, 0, 0x02, 0, 0]), Some((3, 0)));
}

#[test]
fn number_3_kind_out_of_range() {
    for kind in 0..=255 {
        let expected = (kind > 20).then_some((3, 0));
        assert_eq!(refusal(b"x", &[0x05, kind, 1, 0, 0x02, 0, 0]), expected, "{kind}");
    }
}

#[test]
fn number_3_the_4097th_token() {
    assert_eq!(sheet_refusal(&lettered::n_tokens(4_096)), None);
    assert_eq!(sheet_refusal(&lettered::n_tokens(4_097)), Some((3, 4 * 4_096)));
}

#[test]
fn number_3_unknown_or_unfitting_commands() {
    // In place of the root list.
    for byte in (0..=255).filter(|&byte| byte != 0x02) {
        assert_eq!(over_x(&[byte, 0, 0]), Some((3, 4)), "{byte:#x}");
    }
    // In place of an item, 0x00 among them.
    for byte in (0..=255).filter(|&byte| byte != 0x03) {
        assert_eq!(over_x(&[0x02, 1, 0, byte, 0, 0]), Some((3, 7)), "{byte:#x}");
    }
    // In place of a list field.
    assert_eq!(over_x(&[0x02, 1, 0, 0x03, 0x03, 0x00]), Some((3, 9)));
    // In place of a token, 0x05 in the tree among them.
    for byte in (0..=255).filter(|&byte| byte > 0x01) {
        assert_eq!(over_x(&[0x02, 1, 0, 0x03, 0x00, byte, 0, 0]), Some((3, 9)), "{byte:#x}");
    }
    // In place of a group.
    for byte in (0..=255).filter(|byte| ![0x00, 0x03].contains(byte)) {
        assert_eq!(over_x(&[0x02, 1, 0, 0x03, byte, 0, 0]), Some((3, 8)), "{byte:#x}");
    }
}

/// One declaration `ExpDec` without a first token, with this expression.
fn exp_dec(exp: &[u8]) -> Option<(u8, u32)> {
    over_x(&one_dec(&[&[0x21, 0xFF, 0xFF], exp].concat()))
}

/// The offset of the expression of [`exp_dec`].
const EXP: u32 = FORM + 3;

#[test]
fn number_3_forms_of_another_family() {
    let declaration = |byte| over_x(&one_dec(&[byte, 0xFF, 0xFF]));
    for byte in (1..=255).filter(|byte| !(0x10..=0x23).contains(byte)) {
        assert_eq!(declaration(byte), Some((3, FORM)), "{byte:#x}");
    }
    for byte in (1..=255).filter(|byte| !(0x40..=0x58).contains(byte)) {
        assert_eq!(exp_dec(&[byte]), Some((3, EXP)), "{byte:#x}");
    }
    // Forms without fields, and an absent expression.
    for byte in [0x10, 0x23] {
        assert_eq!(declaration(byte), None, "{byte:#x}");
    }
    for byte in [0x00, 0x40, 0x41, 0x42, 0x43] {
        assert_eq!(exp_dec(&[byte]), None, "{byte:#x}");
    }
}

#[test]
fn number_3_token_number_out_of_range() {
    let semicolon = |low, high| over_x(&[0x02, 1, 0, 0x03, 0x00, 0x01, low, high]);
    assert_eq!(semicolon(0, 0), None);
    assert_eq!(semicolon(1, 0), Some((3, 9)));
    assert_eq!(semicolon(0, 1), Some((3, 9)));
    assert_eq!(semicolon(0xFF, 0xFF), Some((3, 9)));
}

#[test]
fn number_3_first_token_out_of_range() {
    let hole = |low, high| over_x(&one_dec(&[0x10, low, high]));
    assert_eq!(hole(0, 0), None);
    assert_eq!(hole(0xFF, 0xFF), None);
    assert_eq!(hole(1, 0), Some((3, FORM)));
    assert_eq!(hole(0xFE, 0xFF), Some((3, FORM)));
    // Without tokens only 0xFFFF is left.
    assert_eq!(refusal(&[], &one_dec(&[0x10, 0, 0])), Some((3, FORM - 4)));
    assert_eq!(refusal(&[], &one_dec(&[0x10, 0xFF, 0xFF])), None);
}

#[test]
fn number_3_bytes_left_over() {
    for byte in 0..=255 {
        assert_eq!(over_x(&[0x02, 0, 0, byte]), Some((3, 7)), "{byte:#x}");
        assert_eq!(over_x(&[0x02, 0, 0, byte, 1, 2]), Some((3, 7)), "{byte:#x}");
    }
    let mut sheet = lettered::a();
    sheet.record.push(0);
    assert_eq!(sheet_refusal(&sheet), Some((3, 66)));
}

#[test]
fn number_3_choice_number_out_of_range() {
    let choices = [
        // FunBindCaseHead in FunDec, FunBind, FunBindCase
        (vec![0x12, 0, 0, 0x00, 0x02, 1, 0, 0x03, 0x02, 1, 0, 0x03], 2),
        // ExBindInner in ExDec, ExBind
        (vec![0x17, 0, 0, 0x02, 1, 0, 0x03, 0x00], 2),
        // FunctorArg in FunctorDec, FunctorBind
        (vec![0x20, 0, 0, 0x02, 1, 0, 0x03, 0x00, 0x02, 1, 0], 2),
        // AppStrExpArg in StructureDec, StrBind, EqStrExp, AppStrExp
        (vec![0x1E, 0, 0, 0x02, 1, 0, 0x03, 0x00, 0x00, 0x03, 0x2B, 0x00, 0x02, 1, 0], 2),
        // PatRowInner in ValDec, ValBind, RecordPat, PatRow
        (vec![0x11, 0, 0, 0x02, 1, 0, 0x03, 0x00, 0x63, 0x02, 1, 0, 0x03], 3),
    ];
    for (dec_one, count) in choices {
        let head = [&[0x02, 1, 0, 0x03, 0x03, 0x02, 1, 0, 0x03], &dec_one[..], &[0x04]].concat();
        let place = u32::try_from(4 + head.len() - 1).unwrap();
        let with = |rest: &[u8]| over_x(&[&head, rest].concat());
        assert_eq!(with(&[]), Some((3, place)), "which is cut off");
        for which in 0..=255 {
            let told_there = with(&[which]) == Some((3, place));
            assert_eq!(told_there, which >= count, "{dec_one:?} {which}");
        }
    }
}

#[test]
fn number_4_the_201st_form() {
    assert_eq!(sheet_refusal(&lettered::n_parentheses(198)), None);
    let sheet = lettered::n_parentheses(199);
    let wildcard = sheet.record.iter().rposition(|&byte| byte == 0x41).unwrap();
    assert_eq!(sheet_refusal(&sheet), Some((4, u32::try_from(wildcard).unwrap())));
}

/// `ExpDec` with that many nested `ParenExp` and this expression; also its offset.
fn nested(parens: usize, exp: &[u8]) -> (Option<(u8, u32)>, u32) {
    let refusal = exp_dec(&[&vec![0x48; parens], exp].concat());
    (refusal, EXP + u32::try_from(parens).unwrap())
}

#[test]
fn number_4_is_told_at_the_command_before_its_fields() {
    // The declaration and 199 parentheses are 200 forms.
    let (refusal, _) = nested(199, &[0x00]);
    assert_eq!(refusal, None);
    // A ParenExp without its field, the same with an unfitting one.
    for exp in [&[0x48][..], &[0x48, 0x77]] {
        let (refusal, place) = nested(199, exp);
        assert_eq!(refusal, Some((4, place)));
    }
}

#[test]
fn of_3_and_4_the_earlier_command_is_told() {
    // Leftover bytes or a later malformed command don't matter.
    let (refusal, place) = nested(199, &[0x41, 0xEE]);
    assert_eq!(refusal, Some((4, place)));
    // An earlier malformed command does.
    let (refusal, place) = nested(150, &[&[0x77][..], &[0x48; 100]].concat());
    assert_eq!(refusal, Some((3, place)));
}

#[test]
fn at_one_command_3_comes_before_4() {
    // LetExp is form 200; its declarations' form is the 201st.
    let head = [0x4D, 0x02, 1, 0, 0x03, 0x03, 0x02, 1, 0, 0x03];
    let inner = |rest: &[u8]| {
        let (refusal, place) = nested(198, &[&head, rest].concat());
        (refusal, place + u32::try_from(head.len()).unwrap())
    };
    for (rest, number) in [
        (&[0x10, 0xFF, 0xFF][..], 4),
        (&[0x10, 0, 0], 4),
        (&[0x10, 1, 0], 3),       // a first token out of range
        (&[0x41, 0xFF, 0xFF], 3), // an unfitting command
    ] {
        let (refusal, place) = inner(rest);
        assert_eq!(refusal, Some((number, place)), "{rest:?}");
    }
    // The operand cut short.
    let record = [&[0x02, 1, 0, 0x03, 0x03, 0x02, 1, 0, 0x03, 0x21, 0xFF, 0xFF], &[0x48; 198][..]];
    let record = [&record.concat()[..], &head, &[0x10, 0xFF]].concat();
    let place = u32::try_from(record.len() - 2).unwrap();
    assert_eq!(refusal(&[], &record), Some((3, place)));
}

#[test]
fn forms_count_only_inside_one_another() {
    // 300 declarations side by side; after each the count is back.
    let mut builder = SheetBuilder::new();
    let dots = builder.word("...");
    let decs = (0..300).map(|_| parts::dec(node("HoleDec").first(dots)));
    assert_eq!(sheet_refusal(&builder.finish_named(decs).unwrap()), None);
    // Groups and choices don't count: 199 parentheses round a record pattern's row.
    let mut builder = SheetBuilder::new();
    let x = builder.word("x");
    let row = node("PatRow").with("pat_row_inner", node("LabPatRow").with("name_star_eq", x));
    let innermost = node("RecordPat").with("pat_rows", [row]);
    let pat = (0..198).fold(innermost, |pat, _| node("ParenPat").with("pat", pat));
    let bind = node("ValBind").with("pat", pat);
    let dec = parts::dec(node("ValDec").with("val_binds", [bind]));
    assert_eq!(sheet_refusal(&builder.finish_named([dec]).unwrap()), None);
}

#[test]
fn list_exp_and_list_pat_are_groups() {
    // VectorExp with its group, which holds an empty list.
    assert_eq!(exp_dec(&[0x4B, 0x03, 0x02, 0, 0]), None);
    assert_eq!(exp_dec(&[0x4B, 0x4A, 0x02, 0, 0]), Some((3, EXP + 1)));
    // As the 200th form it may hold its group, which isn't counted.
    let (refusal, _) = nested(198, &[0x4B, 0x03, 0x02, 0, 0]);
    assert_eq!(refusal, None);
}

#[test]
fn a_dec_in_a_choice_has_no_0x03_of_its_own() {
    let functor = |arg: &[u8]| {
        let head = [0x20, 0xFF, 0xFF, 0x02, 1, 0, 0x03, 0x00, 0x02, 1, 0];
        over_x(&one_dec(&[&head, arg, &[0x00, 0x00]].concat()))
    };
    let dec_with_tail = [0x03, 0x02, 0, 0, 0x02, 0, 0];
    let arg = [&[0x04, 0x01], &dec_with_tail[..], &[0x00]].concat();
    assert_eq!(functor(&arg), None);
    assert_eq!(functor(&[0x04, 0x01, 0x00, 0x00]), None);
    let with_group = [&[0x04, 0x01, 0x03], &dec_with_tail[..], &[0x00]].concat();
    assert!(functor(&with_group).is_some());
}

#[test]
fn kinds_are_not_checked_against_use() {
    // A block comment in a token field and as a first token, twice and out of order.
    let mut builder = SheetBuilder::new();
    let x = builder.token(SyntaxKind::Other, "x");
    let comment = builder.token(SyntaxKind::BlockComment, "y");
    let names = [comment, x, comment];
    let dec = node("NonfixDec").first(comment).with("name_star_eqs", names);
    assert_eq!(sheet_refusal(&builder.finish_named([parts::dec(dec)]).unwrap()), None);
}

#[test]
fn no_bytes_make_the_decoder_panic() {
    for (_, sheet) in lettered::all().into_iter().filter(|(_, sheet)| sheet.record.len() < 2_000) {
        for at in 0..=sheet.record.len() {
            assert!(
                refusal(&sheet.text, &sheet.record[..at]).is_some() || at == sheet.record.len()
            );
            for byte in [0x00, 0x01, 0x02, 0x03, 0x04, 0x05, 0x21, 0x4D, 0x7F, 0xFF] {
                let mut record = sheet.record.clone();
                record.insert(at, byte);
                let _ = refusal(&sheet.text, &record);
                if at < sheet.record.len() {
                    record.remove(at + 1);
                    let _ = refusal(&sheet.text, &record);
                }
            }
        }
    }
}

#[test]
fn every_form_command_opens_its_form() {
    // Cut off behind the command, a form with fields lacks the first of them.
    let place = EXP + 1;
    for &form in Family::Exp.forms() {
        let command = Family::Exp.command(form).unwrap();
        let record =
            [&[0x02, 1, 0, 0x03, 0x03, 0x02, 1, 0, 0x03, 0x21, 0xFF, 0xFF], &[command][..]];
        // Without fields, the semicolon of DecInSeq is missing at the same place.
        assert_eq!(over_x(&record.concat()), Some((3, place)), "{}", form.name());
    }
}
