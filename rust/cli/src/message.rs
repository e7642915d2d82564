//! What is said of a file.

use diverplume::record::{command, Sheet};
use diverplume::{Number, Verdict};
use diverplume_sheet::{Position, Stray};

/// The most comments of a file that are told one by one.
const MOST_COMMENTS: usize = 10;

/// Something that is said of a place in a file, or of the file as a whole.
#[derive(Debug, Clone, PartialEq, Eq)]
pub struct Message {
    pub at: Option<Position>,
    pub text: String,
}

impl Message {
    /// The message with the file's name before it.
    pub fn of_file(&self, file: &str) -> String {
        match self.at {
            Some(at) => format!("{file}:{at}: {}", self.text),
            None => format!("{file}: {}", self.text),
        }
    }
}

/// What is said of a sheet that isn't accepted.
pub fn of_verdict(verdict: &Verdict, sheet: &Sheet) -> Vec<Message> {
    if verdict.number != Number::CommentsLeft {
        let offset = verdict.stop().and_then(|stop| stop.token).map(|(offset, _)| offset);
        let at = offset.map(|offset| Position::of(&sheet.text, offset));
        return vec![Message { at, text: verdict.to_string() }];
    }
    let starts = token_starts(&sheet.record);
    let count = verdict.comments.len();
    let mut messages: Vec<_> = verdict
        .comments
        .iter()
        .take(MOST_COMMENTS)
        .map(|token| Message {
            at: starts.get(token).map(|&start| Position::of(&sheet.text, start)),
            text: "formatting would lose this comment; move it above a declaration".to_owned(),
        })
        .collect();
    if count > MOST_COMMENTS {
        let text =
            format!("{} more comments stand where they would be lost", count - MOST_COMMENTS);
        messages.push(Message { at: None, text });
    }
    messages
}

/// Where each token of a record begins in the text.
fn token_starts(record: &[u8]) -> Vec<usize> {
    let tokens = record.chunks_exact(4).take_while(|token| token[0] == command::TOKEN);
    let mut start = 0;
    tokens
        .map(|token| {
            let this = start;
            start += usize::from(u16::from_le_bytes([token[2], token[3]]));
            this
        })
        .collect()
}

/// The warning of a comment that formatting moves or repeats.
pub fn of_stray(stray: &Stray, text: &[u8]) -> Message {
    let position = |offset| Position::of(text, offset);
    match stray {
        Stray::Moved { comment, above } => Message {
            at: Some(position(comment.start)),
            text: format!(
                "warning: this comment is written above the declaration at {}",
                position(above.range.start)
            ),
        },
        Stray::Repeated { comment, above, again, count } => Message {
            at: Some(position(comment.start)),
            text: format!(
                "warning: this comment is written {count} times, above the declarations at {} and \
                 {}{}",
                position(above.range.start),
                position(again.range.start),
                if *count > 2 { " and others" } else { "" }
            ),
        },
    }
}

#[cfg(test)]
mod tests {
    use super::*;
    use diverplume::record::tree::{Dec, DecOne, DoDec, EsImportDec, ParenExp};
    use diverplume::record::SheetBuilder;

    /// What is said of a sheet of `(* é *)`, two words on a line of their own, and this declaration.
    fn said(
        words: [&str; 2],
        dec: impl FnOnce(diverplume::record::Token) -> DecOne,
    ) -> Vec<String> {
        let mut builder = SheetBuilder::new();
        let [_, _, first, _, _] = builder.words(["(* \u{e9} *)", " ", words[0], " ", words[1]]);
        let sheet = builder.finish([Dec::one(dec(first))]).expect("a sheet within the limits");
        let verdict = diverplume::check(&sheet.text, &sheet.record);
        of_verdict(&verdict, &sheet).iter().map(|message| message.of_file("f.sml")).collect()
    }

    #[test]
    fn what_is_missing_is_told_at_the_nearest_token() {
        assert_eq!(
            said(["do", "()"], |first| DoDec::of(ParenExp::new()).first(first)),
            [
                "f.sml:1:9: refused (13): ParenExp at offset 32 of the record: its `exp` is missing, \
              behind the token at line 1, column 9 of the text (offset 9); complete the file's \
              syntax there"
            ]
        );
        assert_eq!(
            said(["import", "x"], |first| EsImportDec::new().first(first)),
            ["f.sml:1:9: refused (14): EsImportDec at offset 29 of the record, line 1, column 9 of \
              the text (offset 9): an import is not formatted; keep imports out of the file"]
        );
    }
}
