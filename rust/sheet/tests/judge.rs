//! What formatting may change, and the comments that it moves.

use diverplume::comment_above;
use diverplume_sheet::{judge, Change, File, Stray};

#[test]
fn white_space_may_change() {
    let before = b"val x=1(* a *)\n(*b*)val y=2";
    assert_eq!(judge(before, b"(*b*) val x = 1 (* a *)\nval y\n= 2\n"), Ok(Ok(())));
    assert_eq!(judge(b"", b"\n"), Ok(Ok(())));
}

#[test]
fn tokens_may_not() {
    let change = |before: &[u8], after: &[u8]| judge(before, after).unwrap().unwrap_err();
    let token = |before, after| Change::Token { before, after };
    assert_eq!(change(b"val x = 1", b"val x = 2"), token(8..9, 8..9));
    assert_eq!(change(b"val x = 1;", b"val x = 1"), token(9..10, 9..9));
    assert_eq!(change(b"f (op *)", b"f (op*) x"), token(8..8, 8..9));
    assert_eq!(change(b"# *", b"#*"), token(0..1, 0..2));
}

#[test]
fn comments_may_not_vanish() {
    let change = judge(b"(* a *) x (* b *)", b"(* a *) x (* a *)").unwrap().unwrap_err();
    assert_eq!(change, Change::Comment { before: 10..17 });
    let broken = judge(b"f ( ** )", b"f (**").unwrap_err().to_string();
    assert_eq!(broken, "1:3: this comment has no end; \"*)\" is expected");
}

fn strays(text: &str) -> Vec<String> {
    let file = File::parse(text.as_bytes()).unwrap();
    let strays = file.strays().into_iter().map(|stray| match stray {
        Stray::Moved { comment, above } => {
            format!("{} to {}", &text[comment], &text[above.range])
        }
        Stray::Repeated { comment, above, again, count } => format!(
            "{} {count} times, above {} and {}",
            &text[comment], &text[above.range], &text[again.range]
        ),
    });
    strays.collect()
}

#[test]
fn comments_that_move() {
    assert!(strays("(* a *)\nval x = 1\n(* b *) val y = 2").is_empty());
    assert_eq!(strays("val x = (* c *) 1 val y = 2"), ["(* c *) to val y = 2"]);
    assert_eq!(strays("val x = 1 (* c *);\nval y = 2"), ["(* c *) to val y = 2"]);
    assert!(strays("structure S = struct (* c *) val x = 1 end").is_empty());
}

#[test]
fn comments_that_are_written_twice() {
    assert_eq!(strays("(* c *) val x = 1; f x; g x"), ["(* c *) 3 times, above val x = 1 and f x"]);
}

/// The search is that of the proved call.
#[test]
fn comments_above_are_those_of_the_call() {
    let text = include_bytes!("../../../examples/sample.sml");
    let file = File::parse(text).unwrap();
    let sheet = file.sheet().unwrap();
    let mut starts = vec![0];
    for token in sheet.record.chunks(4).take_while(|token| token[0] == 5) {
        starts
            .push(starts[starts.len() - 1] + usize::from(u16::from_le_bytes([token[2], token[3]])));
    }
    let mut found = 0;
    for declaration in file.declarations() {
        let token = starts.binary_search(&declaration.range.start).unwrap();
        let call = comment_above(&sheet.text, &sheet.record, token as u64);
        let ours = file.above(&declaration);
        let comment = ours.as_ref().map(|above| above.comment.start);
        let keyword = ours.and_then(|above| above.keyword).map(|keyword| keyword.start);
        assert_eq!(call.comment.map(|token| starts[token]), comment);
        assert_eq!(call.keyword.map(|token| starts[token]), keyword);
        found += usize::from(comment.is_some());
    }
    assert_eq!(found, 7);
}
