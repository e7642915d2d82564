//! The stored vectors, replayed.

use diverplume::record::Sheet;
use diverplume::{check, comment_above, doc_comment_above, get, Number, Verdict};
use std::path::Path;
use vectors::{parse, Answer, Call, Stored, BINARY, FILL};

#[test]
fn stored_vectors() {
    let path = Path::new(env!("CARGO_MANIFEST_DIR")).join("../../vectors").join(BINARY);
    let bytes = std::fs::read(&path).unwrap_or_else(|error| panic!("{}: {error}", path.display()));
    let stored = parse(&bytes).expect("the format of vectors/README.md");
    let mut replayed = [0; Call::ALL.len()];
    for (at, vector) in stored.iter().enumerate() {
        if let Some(answer) = replay(vector) {
            assert_eq!(answer, vector.answer, "vector {at}, {}", vector.call.name());
            replayed[vector.call as usize] += 1;
        }
    }
    assert!(replayed[..4].iter().all(|&count| count > 100), "{replayed:?}");
}

/// `crates/replay` has the vectors a second time, as its standard input.
#[test]
fn replayed_vectors_are_these() {
    let root = Path::new(env!("CARGO_MANIFEST_DIR")).join("../..");
    let stored = std::fs::read(root.join("vectors").join(BINARY)).expect("the stored vectors");
    let replayed = std::fs::read(root.join("../crates/replay/stdin")).expect("the input of replay");
    assert!(stored == replayed, "copy vectors/{BINARY} to crates/replay/stdin");
}

/// The port's answer; none for the program.
fn replay(vector: &Stored) -> Option<Answer> {
    let Sheet { text, record } = &vector.sheet;
    let mut output = vec![FILL; vector.output];
    let answer = match vector.call {
        Call::Check => of_verdict(&check(text, record)),
        Call::Get => of_verdict(&get(text, record, vector.tab_size, &mut output)),
        Call::CommentAbove => {
            let above = comment_above(text, record, vector.token);
            of_lookup(above.number, above.place, above.comment)
        }
        Call::DocCommentAbove => {
            let lookup = doc_comment_above(text, record, vector.token, &mut output);
            of_lookup(lookup.number, lookup.place, lookup.found)
        }
        Call::Program => return None,
    };
    Some(Answer { output, ..answer })
}

fn of_verdict(verdict: &Verdict) -> Answer {
    let diverplume::Measures { deepest, letters, units } = verdict.measures;
    let deepest = u32::try_from(deepest).expect("a depth");
    Answer {
        number: verdict.number as u8,
        place: u32::try_from(verdict.place).expect("an offset"),
        measures: decode::Measures { deepest, letters, units },
        found: None,
        set: *verdict.comments.words(),
        output: Vec::new(),
    }
}

/// A lookup's answer. The vectors hold no keyword.
fn of_lookup(number: Number, place: usize, found: Option<usize>) -> Answer {
    Answer {
        number: number as u8,
        place: u32::try_from(place).expect("an offset"),
        measures: decode::Measures::default(),
        found: found.map(|found| found as u64),
        set: [0; 64],
        output: Vec::new(),
    }
}
