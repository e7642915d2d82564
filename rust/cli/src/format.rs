//! From a text to the formatted text, or to what is refused.

use crate::message::{self, Message};
use diverplume_sheet::{judge, Change, Error, File, Position};

/// A formatted text, with the comments that it has elsewhere than the text before.
#[derive(Debug)]
pub struct Formatted {
    pub text: Vec<u8>,
    pub warnings: Vec<Message>,
}

/// Formats a text. A line feed stands at the end of the formatted text, unless that is empty.
///
/// # Errors
///
/// What is refused.
pub fn format(text: &[u8], tab_size: u32) -> Result<Formatted, Vec<Message>> {
    let file = File::parse(text).map_err(refused)?;
    let sheet = file.sheet().map_err(refused)?;
    let mut formatted = diverplume::format(&sheet.text, &sheet.record, tab_size)
        .map_err(|verdict| message::of_verdict(&verdict, &sheet))?;
    if !formatted.is_empty() {
        formatted.push(b'\n');
    }
    accepted(text, &formatted).map_err(|message| vec![message])?;
    let warnings = file.strays().iter().map(|stray| message::of_stray(stray, text)).collect();
    Ok(Formatted { text: formatted, warnings })
}

fn refused(error: Error) -> Vec<Message> {
    vec![Message { at: Some(error.at), text: error.problem }]
}

/// The net under the parser: whether the formatted text has the file's tokens and comments.
fn accepted(before: &[u8], after: &[u8]) -> Result<(), Message> {
    let change = match judge(before, after) {
        Ok(Ok(())) => return Ok(()),
        Ok(Err(change)) => change,
        Err(error) => {
            let text = format!(
                "the formatted text has no tokens at its {}: {}; the file is left alone",
                error.at, error.problem
            );
            return Err(Message { at: None, text });
        }
    };
    let quoted = |text: &[u8]| format!("{:?}", String::from_utf8_lossy(text));
    Err(match change {
        Change::Comment { before: place } => Message {
            at: Some(Position::of(before, place.start)),
            text: format!(
                "formatting would lose the comment {}; the file is left alone",
                quoted(&before[place])
            ),
        },
        Change::Token { before: ours, after: theirs } => Message {
            at: Some(Position::of(before, ours.start)),
            text: format!(
                "formatting would write {} for {}, at {} of the formatted text; the file is left \
                 alone",
                quoted(&after[theirs.clone()]),
                quoted(&before[ours]),
                Position::of(after, theirs.start)
            ),
        },
    })
}

#[cfg(test)]
mod tests {
    use super::*;

    #[test]
    fn the_net_tells_the_first_difference() {
        let said = |before: &str, after: &str| {
            accepted(before.as_bytes(), after.as_bytes()).map_err(|message| message.of_file("f"))
        };
        assert_eq!(said("val x=1", "val x = 1\n"), Ok(()));
        assert_eq!(
            said("val x=1\nval y=2", "val x = 1\n\nval y = 3\n"),
            Err(
                "f:2:7: formatting would write \"3\" for \"2\", at 3:9 of the formatted text; the \
                 file is left alone"
                    .to_owned()
            )
        );
        assert_eq!(
            said("(* a *) x", "x\n"),
            Err("f:1:1: formatting would lose the comment \"(* a *)\"; the file is left alone"
                .to_owned())
        );
        assert_eq!(
            said("( ** )", "(**"),
            Err("f: the formatted text has no tokens at its 1:1: this comment has no end; \"*)\" \
                 is expected; the file is left alone"
                .to_owned())
        );
    }
}
