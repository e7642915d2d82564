//! The fixed sample.

use crate::call::{program, Calls, Vector};
use answers::Reference;
use generate::{goals, Case, Generator, Goal, Size};
use schema::{limit, SyntaxKind};
use sheet::{lettered, parts, Sheet, SheetBuilder};
use std::collections::HashSet;

/// The seed of the generated sheets.
const SEED: u64 = 1;
/// The generated cases to choose from.
const CASES: u64 = 60_000;
/// The most bytes of text and record that a generated sheet may have to be chosen: small sheets
/// first, then larger ones for the goals that are left.
const BYTES: [usize; 3] = [150, 300, 800];

/// All vectors.
#[must_use]
pub fn all() -> Vec<Vector> {
    let mut vectors = Vec::new();
    for (name, sheet) in lettered::all() {
        lettered_sheet(&mut vectors, name, &sheet);
    }
    tab_sizes(&mut vectors);
    lookups(&mut vectors);
    keywords(&mut vectors);
    damage_tables(&mut vectors);
    program_inputs(&mut vectors);
    generated(&mut vectors);
    limits(&mut vectors);
    vectors
}

/// Hands the calls on a sheet to a function.
fn with_calls<T>(name: &str, sheet: &Sheet, then: impl FnOnce(&Calls<'_>) -> T) -> T {
    let reference = Reference::new(sheet);
    then(&Calls { name, sheet, reference: &reference })
}

/// The calls on a lettered sheet; only two on one of a limit.
fn lettered_sheet(vectors: &mut Vec<Vector>, name: &str, sheet: &Sheet) {
    with_calls(name, sheet, |calls| {
        let shows = format!("sheet {name}");
        vectors.push(calls.check(&shows));
        let measures = calls.reference.check().value.measures;
        let needed = |tab_size| usize::try_from(measures.length(tab_size)).expect("a short text");
        vectors.push(calls.get(2, needed(2), &format!("{shows}, tab 2, output exact")));
        if sheet.record.len() > 10_000 || sheet.text.len() > 10_000 {
            return;
        }
        vectors.push(calls.get(4, needed(4) + 8, &format!("{shows}, tab 4, 8 bytes spare")));
        vectors.push(calls.get(0, needed(0), &format!("{shows}, tab 0")));
        if let Some(short) = needed(2).checked_sub(1) {
            vectors.push(calls.get(2, short, &format!("{shows}, tab 2, one byte short")));
        }
        vectors.push(calls.program(2, &format!("{shows}, tab 2")));
        for token in [0, 2, calls.reference.token_count() as u64] {
            vectors.push(calls.comment_above(token, &format!("{shows}, token {token}")));
            vectors.push(calls.doc_comment_above(token, 4, &format!("{shows}, token {token}")));
        }
    });
}

/// Sheets with and without indents at many tab sizes.
fn tab_sizes(vectors: &mut Vec<Vector>) {
    let sheets = [("B", lettered::b()), ("C", lettered::c()), ("E", lettered::e())];
    for (name, sheet) in sheets {
        with_calls(&format!("tabs-{name}"), &sheet, |calls| {
            for tab_size in [0, 1, 3, 8, 17, 100, 0x7FFF_FFFF, 0x8000_0000, u32::MAX] {
                let shows = format!("sheet {name}, tab {tab_size}");
                vectors.push(calls.get(tab_size, 700, &shows));
            }
            vectors.push(calls.program(20_000, &format!("sheet {name}, tab 20,000")));
            vectors.push(calls.program(0x8000_0000, &format!("sheet {name}, tab 2^31")));
        });
    }
}

/// Comments for the doc lookup.
const COMMENTS: &[&str] = &[
    "(*!\n * a\n *)",
    "(*!\n*)",
    "(*!*)",
    "(*! *)",
    "(**)",
    "(*!\n * a\n * b\n *)",
    "(*!\r\n * a\r\n *)",
    "(*!\r * a\r *)",
    "(*!\r\r\n * a\n *)",
    "(*!\n * a\n *)\r",
    "(*!\n * a\n *)\r\n",
    "(*!\n * a\n *) ",
    "(*!\n * a\n * )",
    "(*!\n * a\n **)",
    "(*!\n * a\n)",
    "(* !\n * a\n *)",
    "(*  !\n * a\n *)",
    "(*! \n * a\n *)",
    "(*!!\n * a\n *)",
    "!\n(*!\n * a\n *)",
    "(*!\n a\n\n *  b\n\t*c\n * d * e\n *\n*)",
    "(*!\n\n\n*)\n",
    " (*!\n * a\n *)",
    "\n",
    "*!\n*)",
];

/// Every outcome of the lookups, at every token of a commented declaration.
fn lookups(vectors: &mut Vec<Vector>) {
    for (at, comment) in COMMENTS.iter().enumerate() {
        let mut builder = SheetBuilder::new();
        builder.token(SyntaxKind::BlockComment, comment);
        let [_, val, _, x, _, _, _, one] =
            builder.words([" ", "val", " ", "x", " ", "=", " ", "1"]);
        let dec = parts::dec(parts::val_dec(val, x, parts::s_con_exp(one)));
        let sheet = builder.finish_named([dec]).expect("the sheet fits the schema");
        with_calls(&format!("comment-{at}"), &sheet, |calls| {
            let shows = format!("comment {comment:?}");
            vectors.push(calls.comment_above(2, &shows));
            vectors.push(calls.get(1, 60, &shows));
            let doc = calls.reference.doc_comment_above(2, usize::MAX).value.found;
            let length = doc.map_or(0, |text| text.len());
            vectors.push(calls.doc_comment_above(2, length, &format!("{shows}, output exact")));
            vectors.push(calls.doc_comment_above(0, length + 3, &format!("{shows}, at itself")));
            if let Some(short) = length.checked_sub(1) {
                vectors.push(calls.doc_comment_above(
                    2,
                    short,
                    &format!("{shows}, one byte short"),
                ));
            }
        });
    }
    with_calls("tokens", &lettered::g_above(), |calls| {
        for token in (0..19).chain([0xFFFF, 0x1_0000, 1 << 32, u64::MAX]) {
            vectors.push(calls.comment_above(token, &format!("sheet G-above, token {token}")));
        }
    });
}

/// Each kind once and twice between a comment and the token looked up.
fn keywords(vectors: &mut Vec<Vector>) {
    for kind in SyntaxKind::ALL {
        let mut builder = SheetBuilder::new();
        builder.token(SyntaxKind::BlockComment, "c");
        for _ in 0..3 {
            builder.token(*kind, "k");
        }
        let sheet = builder.finish_named([]).expect("the sheet fits the schema");
        with_calls(&format!("kind-{kind:?}"), &sheet, |calls| {
            vectors.push(calls.check("a comment, then three tokens of a kind, no declarations"));
            for token in 1..4 {
                let shows = format!("{token} of this kind from the token back to the comment");
                vectors.push(calls.comment_above(token, &shows));
            }
        });
    }
}

/// Sheet A's record cut at each byte, and with each byte one more and one less.
fn damage_tables(vectors: &mut Vec<Vector>) {
    let sheet = lettered::a();
    let mut push = |name: String, record: Vec<u8>, shows: &str| {
        let damaged = Sheet { text: sheet.text.clone(), record };
        with_calls(&name, &damaged, |calls| vectors.push(calls.check(shows)));
    };
    for at in 0..sheet.record.len() {
        let cut = sheet.record[..at].to_vec();
        push(format!("A-cut-{at}"), cut, "sheet A, the record cut here");
        for (step, how) in [(1, "one more"), (0xFF, "one less")] {
            let mut record = sheet.record.clone();
            record[at] = record[at].wrapping_add(step);
            push(format!("A-byte-{at}-{step}"), record, &format!("sheet A, this byte {how}"));
        }
    }
    for at in [0, 4, 8] {
        let mut damaged = sheet.clone();
        damaged.text[at] |= 0x80;
        with_calls(&format!("A-text-{at}"), &damaged, |calls| {
            vectors.push(calls.check("sheet A, a text byte of 128 or more"));
            vectors.push(calls.get(2, 9, "sheet A, a text byte of 128 or more"));
        });
    }
}

/// Inputs that the program can't take apart, and some that it can.
fn program_inputs(vectors: &mut Vec<Vector>) {
    let sheet = lettered::a();
    let input = decode::program::Input { tab_size: 2, text: &sheet.text, record: &sheet.record };
    let input = input.to_bytes().expect("a short text");
    for length in [0, 1, 4, 5, 6, 14, 15, 16, input.len() - 1] {
        let name = format!("input-{length}");
        let shows = format!("the first {length} bytes of sheet A's input");
        vectors.push(program(&name, input[..length].to_vec(), &shows));
    }
    let mut longer = input;
    longer.push(0);
    vectors.push(program("input-longer", longer, "sheet A's input and a byte more"));
    let mut text = vec![2, 0, 0, 0];
    text.extend(32_769_u16.to_le_bytes());
    vectors.push(program("input-text-missing", text, "a text length past the limit, no text"));
}

/// Generated cases: each one chosen reaches a goal that none before it does.
fn generated(vectors: &mut Vec<Vector>) {
    let mut reached = HashSet::new();
    for bytes in BYTES {
        let cases = Generator::new(SEED).cases(CASES).filter(|case| {
            case.size == Size::Small && case.sheet.text.len() + case.sheet.record.len() <= bytes
        });
        for case in cases {
            chosen(vectors, &mut reached, &case);
        }
    }
    // Numbers 1 and 4 and the sizes need a sheet at a limit.
    let is_of_limit =
        |goal: &Goal| ["gives 1", "gives 4"].iter().any(|end| goal.name().ends_with(end));
    let unreached = Goal::all().filter(|goal| goal.kind() != "size" && !is_of_limit(goal));
    let unreached = unreached.filter(|goal| !reached.contains(goal));
    let unreached: Vec<_> = unreached.map(Goal::name).collect();
    assert!(unreached.is_empty(), "no small sheet of seed {SEED} reaches {unreached:?}");
}

/// The four calls of a case, if it reaches a goal that isn't reached yet.
fn chosen(vectors: &mut Vec<Vector>, reached: &mut HashSet<Goal>, case: &Case) {
    let reference = Reference::new(&case.sheet);
    let calls = case.calls(&reference);
    let mut new = goals(case, &reference, &calls);
    new.retain(|goal| !reached.contains(goal));
    if new.is_empty() || calls.output > 1_000 {
        return;
    }
    let shows = short(&new);
    reached.extend(new);
    let name = format!("case-{}", case.index);
    let on = Calls { name: &name, sheet: &case.sheet, reference: &reference };
    vectors.push(on.check(&shows));
    vectors.push(on.get(case.tab_size, calls.output, &shows));
    vectors.push(on.comment_above(case.token, &shows));
    vectors.push(on.doc_comment_above(case.token, calls.doc_output, &shows));
}

/// The first goals by name, and how many more there are.
fn short(goals: &[Goal]) -> String {
    const FEW: usize = 4;
    let first: Vec<_> = goals.iter().take(FEW).map(|goal| goal.name()).collect();
    let first = first.join("; ");
    match goals.len().saturating_sub(FEW) {
        0 => first,
        more => format!("{first}; {more} more"),
    }
}

/// Sheets at the limits that no lettered sheet has.
fn limits(vectors: &mut Vec<Vector>) {
    let found = |size| {
        let cases = Generator::new(SEED).cases(CASES);
        cases.filter(move |case| case.size == size && case.damage.is_none())
    };
    for length in [limit::RECORD, limit::RECORD + 1] {
        let case = found(Size::Record(length)).next().expect("a case of this size");
        with_calls(&format!("record-{length}"), &case.sheet, |calls| {
            vectors.push(calls.check(&format!("a record of {length} bytes")));
        });
    }
    for forms in [limit::FORMS - 1, limit::FORMS, limit::FORMS + 1] {
        for case in found(Size::Deep(forms)).take(2) {
            with_calls(&format!("deep-{forms}-{}", case.index), &case.sheet, |calls| {
                let shows = format!("{forms} forms inside one another");
                vectors.push(calls.check(&shows));
                vectors.push(calls.get(2, 0, &shows));
                vectors.push(calls.comment_above(0, &shows));
                vectors.push(calls.doc_comment_above(0, 4, &shows));
            });
        }
    }
    let spaces = Sheet { text: vec![b' '; limit::TEXT + 1], record: Vec::new() };
    with_calls("text-32769", &spaces, |calls| {
        vectors.push(calls.comment_above(0, "a text of 32,769 bytes"));
        vectors.push(calls.doc_comment_above(0, 4, "a text of 32,769 bytes"));
    });
}
