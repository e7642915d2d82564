//! Forms inside one another: 200 are read, more are told before a stack could overflow.

use diverplume_sheet::{sheet, File, Reason};
use std::thread;

/// The stack of the tests' threads: 1 MiB where the code is optimized.
const STACK: usize = if cfg!(debug_assertions) { 8 << 20 } else { 1 << 20 };

/// Runs in a thread with a small stack.
fn on_a_small_stack(run: impl FnOnce() + Send + 'static) {
    let thread = thread::Builder::new().stack_size(STACK).spawn(run).expect("a thread");
    thread.join().expect("the stack is large enough");
}

fn around(before: &str, inside: &str, behind: &str, count: usize) -> String {
    format!("val x = {}{inside}{}", before.repeat(count), behind.repeat(count))
}

#[test]
fn parentheses() {
    on_a_small_stack(|| {
        assert!(sheet(around("(", "_", ")", 198)).is_ok());
        for count in [199, 200, 5_000, 100_000] {
            let error = sheet(around("(", "_", ")", count)).map(|_| count).unwrap_err();
            assert_eq!(error.reason, Reason::Limit, "{count}");
        }
    });
}

#[test]
fn each_kind_of_nesting() {
    let kinds = [
        ("(", ")"),
        ("[", "]"),
        ("{ a = ", " }"),
        ("(a; ", ")"),
        ("let val x = ", " in x end"),
        ("let val x = (1 + ", ") in x end"),
        ("if a then ", " else b"),
        ("if a then b else ", ""),
        ("case a of b => ", ""),
        ("fn a => ", ""),
        ("raise ", ""),
        ("while a do ", ""),
        ("a handle b => ", ""),
        ("a :: ", ""),
        ("a + ", ""),
        ("a andalso ", ""),
        ("f ", ""),
        ("f (", ")"),
        ("fn (", " ) => b"),
        ("fn [", " ] => b"),
        ("a : (", " -> b)"),
        ("a : b -> ", "b"),
        ("let structure S = struct val x = ", " end in x end"),
        ("let local val x = ", " in end in x end"),
    ];
    on_a_small_stack(move || {
        for (before, behind) in kinds {
            for count in [300, 20_000] {
                let text = around(before, "_", behind, count);
                let error = sheet(&text).map(|_| before).unwrap_err();
                assert_ne!(error.reason, Reason::Loss, "{before}: {error}");
            }
        }
    });
}

#[test]
fn long_chains_are_parsed_and_told_by_their_declaration() {
    on_a_small_stack(|| {
        let chain = |count: usize| format!("val y = 1\nval x = a{}", " + a".repeat(count));
        assert!(sheet(chain(198)).is_ok());
        let text = chain(199);
        assert!(File::parse(text.as_bytes()).is_ok());
        assert_eq!(
            sheet(&text).unwrap_err().to_string(),
            "2:1: more than 200 forms stand inside one another in this declaration; give an inner \
             part a declaration of its own"
        );
    });
}
