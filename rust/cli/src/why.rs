//! Why a comment belongs to a declaration.

use crate::message::Message;
use diverplume_sheet::{Above, Declaration, File, Position};
use std::ops::Range;

/// Why a comment is written where it is.
#[derive(Debug)]
pub struct Why {
    /// What is said of each declaration.
    pub messages: Vec<Message>,
    /// The text of the comment, if there is one.
    pub comment: Option<String>,
}

/// Why the innermost declaration at a line and a column has its comment. For a comment that stands
/// there, why the declarations that have it do.
///
/// # Errors
///
/// If the text is no Standard ML, if no declaration stands there or has the comment.
pub fn why(text: &[u8], line: usize, column: usize) -> Result<Why, Message> {
    let file =
        File::parse(text).map_err(|error| Message { at: Some(error.at), text: error.problem })?;
    let at = Position { line, column };
    let is_here = |range: &Range<usize>| {
        Position::of(text, range.start) <= at && at < Position::of(text, range.end)
    };
    let mut declarations = file.declarations();
    let (those, problem) = if let Some(comment) = file.comments().find(is_here) {
        let has_it = |above: Above| above.comment == comment;
        declarations.retain(|declaration| file.above(declaration).is_some_and(has_it));
        (declarations, "no declaration has this comment")
    } else {
        let innermost = declarations.into_iter().rfind(|each| is_here(&each.range));
        (innermost.into_iter().collect(), "no declaration stands here")
    };
    let Some(first) = those.first() else {
        return Err(Message { at: Some(at), text: problem.to_owned() });
    };
    let comment = file.above(first).map(|above| above.comment);
    Ok(Why {
        messages: those.iter().map(|each| of_declaration(&file, text, each)).collect(),
        comment: comment.map(|range| String::from_utf8_lossy(&text[range]).into_owned()),
    })
}

/// What is said of the comment above a declaration.
fn of_declaration(file: &File<'_>, text: &[u8], declaration: &Declaration) -> Message {
    let place = |offset| Position::of(text, offset);
    let said = match file.above(declaration) {
        None => "this declaration has no comment: none stands before it that a second keyword \
                 doesn't part from it"
            .to_owned(),
        Some(Above { comment, keyword: None }) => format!(
            "this declaration has the comment at {}; the search passed no keyword",
            place(comment.start)
        ),
        Some(Above { comment, keyword: Some(keyword) }) => format!(
            "this declaration has the comment at {}; the search passed the keyword {:?} at {}",
            place(comment.start),
            String::from_utf8_lossy(&text[keyword.clone()]),
            place(keyword.start)
        ),
    };
    Message { at: Some(place(declaration.range.start)), text: said }
}

#[cfg(test)]
mod tests {
    use super::*;

    const TEXT: &[u8] = b"(* a *)\nval x = let\n  (* b *)\n  val y = 1 in y end\n\
        val z = 1; f z;\nval c = (* c *) (1)\n(* d *)\nval z = 1; f z";

    fn said(line: usize, column: usize) -> String {
        match why(TEXT, line, column) {
            Ok(Why { messages, comment }) => {
                let messages = messages.iter().map(|message| message.of_file("f") + "\n");
                messages.collect::<String>() + &comment.unwrap_or_default()
            }
            Err(message) => message.of_file("f"),
        }
    }

    #[test]
    fn declarations() {
        assert_eq!(
            said(2, 1),
            "f:2:1: this declaration has the comment at 1:1; the search passed the keyword \"val\" \
             at 2:1\n(* a *)"
        );
        assert_eq!(
            said(4, 11),
            "f:4:3: this declaration has the comment at 3:3; the search passed the keyword \"val\" \
             at 4:3\n(* b *)"
        );
        assert!(said(5, 13).starts_with("f:5:12: this declaration has no comment"));
        assert_eq!(said(9, 1), "f:9:1: no declaration stands here");
    }

    #[test]
    fn comments() {
        assert_eq!(said(1, 7), said(2, 1));
        assert_eq!(said(3, 3), said(4, 3));
        assert_eq!(said(6, 9), "f:6:9: no declaration has this comment");
        let twice = said(7, 1);
        let declarations: Vec<_> = twice.lines().map(|line| line.split(" this").next()).collect();
        assert_eq!(declarations, [Some("f:8:1:"), Some("f:8:12:"), Some("(* d *)")]);
    }
}
