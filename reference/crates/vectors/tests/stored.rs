//! The stored files against the reference.

use std::collections::HashSet;
use std::path::{Path, PathBuf};
use std::process::Command;
use vectors::{all, bytes, index, parse, Call, FormatError, Vector, BINARY, FILL, INDEX};

fn folder() -> PathBuf {
    Path::new(env!("CARGO_MANIFEST_DIR")).join("../../vectors")
}

fn read(name: &str) -> Vec<u8> {
    let path = folder().join(name);
    std::fs::read(&path).unwrap_or_else(|error| panic!("{}: {error}", path.display()))
}

/// Everything about the sample in one test, because it takes the time to make it.
#[test]
fn stored_files_are_those_of_the_reference() {
    let vectors = all();
    let binary = bytes(&vectors);
    assert!(binary == read(BINARY), "{BINARY} differs from the reference");
    assert!(index(&vectors).as_bytes() == read(INDEX), "{INDEX} differs from the reference");
    sizes_are_small(&vectors, binary.len());
    numbers_are_all_there(&vectors);
    outputs_change_only_when_accepted(&vectors);
    files_are_read_back(&vectors, &binary);
}

fn sizes_are_small(vectors: &[Vector], file: usize) {
    assert!(file < 1_500_000, "{file}");
    for vector in vectors {
        let size = bytes(std::slice::from_ref(vector)).len();
        assert!(size < 200_000, "{}: {size}", vector.name);
    }
    // The README names these for a replaying program's buffers.
    let most = |length: fn(&Vector) -> usize| vectors.iter().map(length).max();
    assert_eq!(most(|vector| vector.sheet.text.len()), Some(32_769));
    assert_eq!(most(|vector| vector.sheet.record.len()), Some(65_537));
    assert!(most(|vector| vector.output) <= Some(1_000));
    assert!(most(|vector| vector.answer.output.len()) <= Some(21_000));
    let sheets: HashSet<_> = vectors.iter().map(|vector| &vector.sheet).collect();
    assert!(sheets.len() > 300, "{}", sheets.len());
}

fn numbers_are_all_there(vectors: &[Vector]) {
    let expected: [(Call, &[u8]); 5] = [
        (Call::Check, &[0, 1, 2, 3, 4, 6, 13, 14]),
        (Call::Get, &[0, 1, 2, 3, 4, 6, 7, 8, 13, 14]),
        (Call::CommentAbove, &[0, 1, 2, 3, 4, 9]),
        (Call::DocCommentAbove, &[0, 1, 2, 3, 4, 8, 9]),
        (Call::Program, &[0, 1, 3, 4, 6, 7, 8, 14]),
    ];
    for (call, numbers) in expected {
        let of_call = vectors.iter().filter(|vector| vector.call == call);
        let given: HashSet<_> = of_call.map(|vector| vector.answer.number).collect();
        assert_eq!(given, numbers.iter().copied().collect(), "{}", call.name());
    }
}

fn outputs_change_only_when_accepted(vectors: &[Vector]) {
    for vector in vectors.iter().filter(|vector| vector.call != Call::Program) {
        assert_eq!(vector.answer.output.len(), vector.output, "{}", vector.name);
        if vector.answer.number != 0 {
            assert!(vector.answer.output.iter().all(|&byte| byte == FILL), "{}", vector.name);
        }
    }
}

fn files_are_read_back(vectors: &[Vector], binary: &[u8]) {
    let stored = parse(binary).expect("the file is in the format");
    assert_eq!(stored.len(), vectors.len());
    for (stored, vector) in stored.iter().zip(vectors) {
        assert_eq!(stored.call, vector.call, "{}", vector.name);
        assert_eq!(stored.sheet, vector.sheet, "{}", vector.name);
        assert_eq!(stored.tab_size, vector.tab_size, "{}", vector.name);
        assert_eq!(stored.token, vector.token, "{}", vector.name);
        assert_eq!(stored.output, vector.output, "{}", vector.name);
        assert_eq!(stored.answer, vector.answer, "{}", vector.name);
    }
    assert_eq!(parse(&binary[..binary.len() - 1]).map_err(|FormatError(at)| at > 0), Err(true));
    let longer = [binary, &[0]].concat();
    assert_eq!(parse(&longer), Err(FormatError(binary.len())));
}

#[test]
fn bad_arguments_get_a_message_and_exit_2() {
    for (arguments, message) in [
        (&[][..], "unknown arguments []"),
        (&["write"], "unknown arguments [\"write\"]"),
        (&["write", "/no/such/folder"], "/no/such/folder is no folder"),
    ] {
        let output = Command::new(env!("CARGO_BIN_EXE_vectors")).args(arguments).output();
        let output = output.expect("the tool runs");
        assert_eq!(output.status.code(), Some(2), "{arguments:?}");
        let told = String::from_utf8(output.stderr).unwrap();
        assert!(told.starts_with(&format!("vectors: {message}")), "{told}");
    }
}
