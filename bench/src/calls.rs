//! The calls on a sheet, the port's and the Rust's, timed.
//!
//! The port reads a text and a record; the Rust reads a tree at hand. So two times of the Rust stand
//! beside the port's: over the tree at hand, and with the tree made from the record before.

use crate::sheets::Named;
use crate::time::{call, turns, Call, Times, AGAINST_RUST};
use crate::TAB_SIZE;
use decode::decode;
use diverplume::Number;
use sml_comment::{comment_above, doc_comment_above};
use sml_syntax::ast::{AstNode as _, Root};
use sml_syntax::kind::SyntaxNode;
use std::hint::black_box;

/// The times of one call.
#[derive(Debug, Clone, Copy)]
pub struct Timed {
    pub port: Times,
    /// The Rust over a tree at hand.
    pub at_hand: Times,
    /// The Rust, the tree decoded before.
    pub decoded: Times,
}

impl Timed {
    /// Times the port's call, then the Rust's two.
    fn of(calls: [Call<'_>; 3]) -> Self {
        let mut calls = calls;
        let [port, at_hand, decoded] = turns(&mut calls, AGAINST_RUST)
            .into_iter()
            .map(|taken| Times::of(&taken))
            .collect::<Vec<_>>()
            .try_into()
            .expect("three calls");
        Self { port, at_hand, decoded }
    }

    /// The times of one of so many calls that were timed together.
    fn each_of(self, count: usize) -> Self {
        let [port, at_hand, decoded] =
            [self.port, self.at_hand, self.decoded].map(|times| times.each_of(count));
        Self { port, at_hand, decoded }
    }
}

/// The times of all calls on a sheet.
pub struct Measured {
    pub name: String,
    /// The bytes of the text, of the record and of the formatted text.
    pub text: usize,
    pub record: usize,
    pub formatted: usize,
    pub get: Timed,
    pub check: Timed,
    /// The means of a lookup at the first, the middle and the last token.
    pub comment_above: Timed,
    pub doc_comment_above: Timed,
}

impl Measured {
    /// Times all calls on a sheet, once the port's answers were compared with the Rust's.
    pub fn of(named: &Named) -> Self {
        let (text, record) = (&named.sheet.text[..], &named.sheet.record[..]);
        let verdict = diverplume::check(text, record);
        assert_eq!(verdict.number, Number::Accepted, "{}", named.name);
        let formatted = usize::try_from(verdict.measures.length(TAB_SIZE)).expect("a short text");
        let timed = OnSheet { text, record, root: decoded(text, record) };
        Self {
            name: named.name.clone(),
            text: text.len(),
            record: record.len(),
            formatted,
            get: timed.get(formatted),
            check: timed.check(),
            comment_above: timed.comment_above(),
            doc_comment_above: timed.doc_comment_above(),
        }
    }

    /// The calls with their names.
    pub fn calls(&self) -> [(&'static str, Timed); 4] {
        [
            ("get", self.get),
            ("check", self.check),
            ("comment_above", self.comment_above),
            ("doc_comment_above", self.doc_comment_above),
        ]
    }
}

fn decoded(text: &[u8], record: &[u8]) -> Root {
    decode(text, record).expect("an accepted sheet")
}

/// A sheet, and its tree at hand.
struct OnSheet<'a> {
    text: &'a [u8],
    record: &'a [u8],
    root: Root,
}

impl OnSheet<'_> {
    fn get(&self, length: usize) -> Timed {
        let Self { text, record, root } = self;
        let mut output = vec![0; length];
        let _ = diverplume::get(text, record, TAB_SIZE, &mut output);
        let of_rust = sml_naive_fmt::get(root, TAB_SIZE).expect("an accepted sheet");
        assert!(output == of_rust.as_bytes(), "the texts differ");
        Timed::of([
            call(|| {
                black_box(diverplume::get(black_box(text), record, TAB_SIZE, &mut output));
            }),
            call(|| {
                black_box(sml_naive_fmt::get(black_box(root), TAB_SIZE)).ok();
            }),
            call(|| {
                let root = decoded(black_box(text), record);
                black_box(sml_naive_fmt::get(&root, TAB_SIZE)).ok();
            }),
        ])
    }

    fn check(&self) -> Timed {
        let Self { text, record, root } = self;
        Timed::of([
            call(|| {
                black_box(diverplume::check(black_box(text), record));
            }),
            call(|| {
                black_box(sml_naive_fmt::check(black_box(root))).ok();
            }),
            call(|| {
                let root = decoded(black_box(text), record);
                black_box(sml_naive_fmt::check(&root)).ok();
            }),
        ])
    }

    /// The first, the middle and the last token.
    fn tokens(&self) -> [u16; 3] {
        let last = self.root.syntax().token_count() - 1;
        [0, last / 2, last].map(|token| u16::try_from(token).expect("a token number"))
    }

    fn comment_above(&self) -> Timed {
        let Self { text, record, .. } = self;
        for (token, node) in self.tokens().into_iter().zip(self.nodes()) {
            let found = diverplume::comment_above(text, record, token.into()).comment;
            let of_rust = comment_above(&node).map(|token| usize::from(token.number()));
            assert_eq!(found, of_rust, "the comments above token {token}");
        }
        self.lookups(
            |token| {
                black_box(diverplume::comment_above(black_box(text), record, token));
            },
            |node| {
                black_box(comment_above(black_box(node)));
            },
        )
    }

    fn doc_comment_above(&self) -> Timed {
        let Self { text, record, .. } = self;
        let mut output = vec![0; text.len()];
        for (token, node) in self.tokens().into_iter().zip(self.nodes()) {
            let answer = diverplume::doc_comment_above(text, record, token.into(), &mut output);
            let found = answer.found.map(|length| &output[..length]);
            let of_rust = doc_comment_above(&node);
            let of_rust = of_rust.as_deref().map(str::as_bytes);
            assert_eq!(found, of_rust, "the doc comments above token {token}");
        }
        self.lookups(
            |token| {
                let text = black_box(text);
                black_box(diverplume::doc_comment_above(text, record, token, &mut output));
            },
            |node| {
                black_box(doc_comment_above(black_box(node)));
            },
        )
    }

    /// Nodes for lookups at the tokens.
    fn nodes(&self) -> [SyntaxNode; 3] {
        self.tokens().map(|token| at(&self.root, token))
    }

    /// Times a lookup of the port's by the token's number, and one of the Rust's by a node.
    fn lookups(&self, mut of_port: impl FnMut(u64), of_rust: impl Fn(&SyntaxNode)) -> Timed {
        let (tokens, nodes) = (self.tokens(), self.nodes());
        let timed = Timed::of([
            call(|| tokens.map(u64::from).into_iter().for_each(&mut of_port)),
            call(|| nodes.iter().for_each(&of_rust)),
            call(|| {
                for token in tokens {
                    of_rust(&at(&decoded(black_box(self.text), self.record), token));
                }
            }),
        ]);
        timed.each_of(tokens.len())
    }
}

/// A node for the lookup at a token.
fn at(root: &Root, token: u16) -> SyntaxNode {
    root.syntax().with_first_token(token).expect("a token of the sheet")
}
