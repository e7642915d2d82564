//! A sheet while it is written: the text with its tokens, and the tree.

use crate::rng::Rng;
use crate::style::{Comments, Style};
use crate::words;
use schema::{command, SyntaxKind};
use sheet::Sheet;

/// Past this many tokens a field names an earlier token.
const TOKENS: usize = 3_500;
/// Past this many bytes of text a field names an earlier token.
const TEXT: usize = 28_000;
/// Past this many bytes of record a list ends.
const RECORD: usize = 50_000;

pub(crate) struct Writer<'r> {
    pub(crate) rng: &'r mut Rng,
    pub(crate) style: Style,
    text: Vec<u8>,
    /// The token commands.
    tokens: Vec<u8>,
    /// The commands behind the tokens.
    pub(crate) tree: Vec<u8>,
    /// Where token numbers stand in the tree.
    operands: Vec<usize>,
}

impl<'r> Writer<'r> {
    pub(crate) fn new(rng: &'r mut Rng, style: Style) -> Self {
        let (text, tokens, tree, operands) = Default::default();
        Self { rng, style, text, tokens, tree, operands }
    }

    pub(crate) fn token_count(&self) -> usize {
        self.tokens.len() / 4
    }

    pub(crate) fn text_length(&self) -> usize {
        self.text.len()
    }

    pub(crate) fn record_length(&self) -> usize {
        self.tokens.len() + self.tree.len()
    }

    /// Whether the record has room for another item.
    pub(crate) fn has_room(&self) -> bool {
        self.record_length() < RECORD
    }

    /// Appends a token. The text is not empty.
    pub(crate) fn token(&mut self, kind: SyntaxKind, text: &[u8]) {
        let length = u16::try_from(text.len()).expect("a token's length is a u16");
        self.text.extend_from_slice(text);
        self.tokens.extend([command::TOKEN, kind.number()]);
        self.tokens.extend(length.to_le_bytes());
    }

    /// Appends a token and what stands between it and the next, and gives its number. With a full
    /// text it gives an earlier token.
    pub(crate) fn word(&mut self, kind: SyntaxKind, text: &str) -> usize {
        let number = self.token_count();
        if number >= TOKENS || self.text.len() >= TEXT {
            return self.rng.below(number);
        }
        let any_kind = self.style.any_kind > 0 && self.rng.chance(self.style.any_kind, 256);
        let kind = if any_kind { self.rng.pick(SyntaxKind::ALL) } else { kind };
        self.token(kind, text.as_bytes());
        self.gap();
        number
    }

    /// Appends white space, and a comment where the style has comments anywhere.
    fn gap(&mut self) {
        if self.rng.chance(7, 8) {
            let gap = words::gap(self.rng);
            self.token(SyntaxKind::Other, gap.as_bytes());
        }
        if self.style.comments == Comments::Anywhere && self.rng.chance(1, 10) {
            self.comment();
        }
    }

    /// Appends a block comment and what stands between it and the next token.
    pub(crate) fn comment(&mut self) -> usize {
        let comment = words::comment(self.rng);
        self.word(SyntaxKind::BlockComment, &comment)
    }

    /// Appends a command with a token number as its operand.
    pub(crate) fn with_token(&mut self, command: u8, number: usize) {
        self.tree.push(command);
        self.operands.push(self.tree.len());
        self.tree.extend(operand(number).to_le_bytes());
    }

    /// Sets the operand of the command at this place of the tree.
    pub(crate) fn set_operand(&mut self, at: usize, number: usize) {
        self.tree[at + 1..at + 3].copy_from_slice(&operand(number).to_le_bytes());
    }

    /// Lets some operands name any token of the text, earlier or later, comments too.
    pub(crate) fn name_any_tokens(&mut self) {
        let count = self.token_count();
        if self.style.any_token == 0 || count == 0 {
            return;
        }
        for at in std::mem::take(&mut self.operands) {
            if self.rng.chance(self.style.any_token, 256) {
                let number = self.rng.below(count);
                self.set_operand(at - 1, number);
            }
        }
    }

    pub(crate) fn finish(self) -> Sheet {
        let mut record = self.tokens;
        record.extend(self.tree);
        Sheet { text: self.text, record }
    }
}

fn operand(number: usize) -> u16 {
    u16::try_from(number).expect("a token number or a count is a u16")
}
