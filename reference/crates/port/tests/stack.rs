//! The deepest sheets in threads of a small stack.

use diverplume::record::limit;
use generate::{Generator, Size};
use port::compare::{compare, Work};
use sheet::{lettered, worst, Sheet};
use std::thread;

/// The stack of a thread.
const STACK: usize = 1 << 19;

/// The generated sheets.
const GENERATED: usize = 200;

/// The sheets that nest as deep as the limit allows, of every kind.
fn deep_sheets() -> Vec<Sheet> {
    let deep = Size::Deep(limit::FORMS);
    let cases = (0..).map(|index| Generator::new(5).case(index)).filter(|case| case.size == deep);
    let generated = cases.take(GENERATED).map(|case| case.sheet);
    let listed = worst::all().into_iter().chain(lettered::all());
    listed.map(|(_, sheet)| sheet).chain(generated).collect()
}

#[test]
fn calls_run_in_a_stack_of_512_kib() {
    for sheet in deep_sheets() {
        let Sheet { text, record } = sheet;
        let call = move || {
            let mut output = vec![0; 1 << 19];
            let verdict = diverplume::get(&text, &record, 1, &mut output);
            assert_eq!(verdict, diverplume::check(&text, &record));
            let _ = diverplume::comment_above(&text, &record, 0);
            let _ = diverplume::doc_comment_above(&text, &record, 0, &mut output);
            let _ = diverplume::scan(&text);
        };
        let thread = thread::Builder::new().stack_size(STACK).spawn(call).expect("a thread");
        thread.join().expect("the calls end");
    }
}

#[test]
fn worst_sheets() {
    for (name, sheet) in worst::all() {
        // Lookups at few tokens are enough here.
        let compared = compare(&sheet, Work { comments: 1_000_000, docs: 1_000_000 });
        let compared = compared.unwrap_or_else(|difference| panic!("{name}: {difference}"));
        assert_eq!(compared.check.of(0), 1, "{name}");
    }
}
