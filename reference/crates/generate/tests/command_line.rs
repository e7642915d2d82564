//! The tool `generate`.

use decode::program::Input;
use generate::Generator;
use std::process::{Command, Output};

fn run(arguments: &[&str]) -> Output {
    Command::new(env!("CARGO_BIN_EXE_generate")).args(arguments).output().expect("the tool runs")
}

#[test]
fn a_report_lists_what_is_reached() {
    let output = run(&["report", "500", "7"]);
    assert!(output.status.success());
    let report = String::from_utf8(output.stdout).unwrap();
    assert!(report.starts_with("cases 500\ngrammar-directed "), "{report}");
    for line in ["node: ", "site: ", "damage: ", "  ValDec", "  get gives 8"] {
        assert!(report.contains(line), "no {line:?} in {report}");
    }
    assert_eq!(report, String::from_utf8(run(&["report", "500", "7"]).stdout).unwrap());
    assert_ne!(report, String::from_utf8(run(&["report", "500", "8"]).stdout).unwrap());
}

#[test]
fn the_input_is_that_of_the_case() {
    for index in 0..20 {
        let output = run(&["input", "7", &index.to_string()]);
        assert!(output.status.success());
        let case = Generator::new(7).case(index);
        let input = Input::parse(&output.stdout).expect("a small sheet");
        assert_eq!(input.tab_size, case.tab_size);
        assert_eq!((input.text, input.record), (&case.sheet.text[..], &case.sheet.record[..]));
    }
}

#[test]
fn bad_arguments_get_a_message_and_exit_2() {
    for (arguments, message) in [
        (&[][..], "unknown arguments []"),
        (&["report", "5"], "unknown arguments [\"report\", \"5\"]"),
        (&["reprot", "5", "1"], "unknown arguments"),
        (&["report", "x", "1"], "the count \"x\" is no number below 2^64"),
        (&["input", "5", "x"], "the index \"x\" is no number below 2^64"),
        (&["report", "5", "-1"], "the seed \"-1\" is no number below 2^64"),
    ] {
        let output = run(arguments);
        assert_eq!(output.status.code(), Some(2), "{arguments:?}");
        assert!(output.stdout.is_empty());
        let told = String::from_utf8(output.stderr).unwrap();
        assert!(told.starts_with(&format!("generate: {message}")), "{told}");
    }
}
