//! The tool `reference`.

use sheet::lettered;
use std::io::Write as _;
use std::process::{Command, Output, Stdio};

fn run(arguments: &[&str], input: &[u8]) -> Output {
    let mut child = Command::new(env!("CARGO_BIN_EXE_reference"))
        .args(arguments)
        .stdin(Stdio::piped())
        .stdout(Stdio::piped())
        .stderr(Stdio::piped())
        .spawn()
        .expect("the tool starts");
    // A tool that refuses its arguments may end before it reads.
    let _ = child.stdin.take().expect("standard input").write_all(input);
    child.wait_with_output().expect("the tool ends")
}

#[test]
fn input_goes_to_the_program() {
    let input = run(&["input", "A", "2"], &[]);
    assert!(input.status.success());
    let printed = run(&["program"], &input.stdout);
    assert!(printed.status.success());
    assert_eq!(printed.stdout, b"0 0 0 9 0\nval x = 1");
    let short = run(&["program"], &input.stdout[..10]);
    assert_eq!(short.stdout, b"1 0 0 0 0\n");
}

#[test]
fn names_are_those_of_the_lettered_sheets() {
    let names = String::from_utf8(run(&["names"], &[]).stdout).unwrap();
    let expected: Vec<_> = lettered::all().into_iter().map(|(name, _)| name).collect();
    assert_eq!(names.lines().collect::<Vec<_>>(), expected);
}

#[test]
fn bad_arguments_get_a_message_and_a_non_zero_exit() {
    for (arguments, message) in [
        (&[][..], "unknown arguments"),
        (&["nothing"], "unknown arguments"),
        (&["input", "A"], "unknown arguments"),
        (&["input", "Z", "2"], "no lettered sheet is named \"Z\""),
        (&["input", "A", "-1"], "the tab size \"-1\" is no number below 2^32"),
        (&["input", "A", "4294967296"], "the tab size \"4294967296\" is no number below 2^32"),
    ] {
        let output = run(arguments, &[]);
        assert_eq!(output.status.code(), Some(2), "{arguments:?}");
        assert!(output.stdout.is_empty());
        let told = String::from_utf8(output.stderr).unwrap();
        assert!(told.starts_with(&format!("reference: {message}")), "{told}");
    }
}
