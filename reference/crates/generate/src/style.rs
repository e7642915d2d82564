//! What one sheet is like: its size, and how often something unusual stands in it.

use crate::rng::Rng;
use schema::limit;
use std::fmt;

/// The size of a sheet. Its shares of [`Size::pick`] are in 4,096.
#[derive(Debug, Clone, Copy, PartialEq, Eq, Hash)]
pub enum Size {
    /// Up to some thirty forms.
    Small,
    /// Up to some three hundred forms.
    Medium,
    /// A list of this many items, less where the record gets too long.
    Wide(usize),
    /// This many forms inside one another.
    Deep(usize),
    /// A text of this many bytes.
    Text(usize),
    /// This many tokens.
    Tokens(usize),
    /// A record of this many bytes.
    Record(usize),
}

impl Size {
    /// A size by its share.
    pub(crate) fn pick(rng: &mut Rng) -> Self {
        let near = |rng: &mut Rng, limit: usize| rng.from_to(limit - 1, limit + 1);
        match rng.below(4096) {
            0..64 => Self::Deep(near(rng, limit::FORMS)),
            64..88 => Self::Wide(rng.from_to(50, 2_000)),
            88..100 => Self::Text(near(rng, limit::TEXT)),
            100..112 => Self::Tokens(near(rng, limit::TOKENS)),
            112..120 => Self::Record(near(rng, limit::RECORD)),
            120..400 => Self::Medium,
            _ => Self::Small,
        }
    }

    /// The size without its number.
    #[must_use]
    pub fn name(self) -> &'static str {
        match self {
            Self::Small => "small",
            Self::Medium => "medium",
            Self::Wide(_) => "wide",
            Self::Deep(_) => "deep",
            Self::Text(_) => "text",
            Self::Tokens(_) => "tokens",
            Self::Record(_) => "record",
        }
    }
}

impl fmt::Display for Size {
    fn fmt(&self, f: &mut fmt::Formatter<'_>) -> fmt::Result {
        match self {
            Self::Small | Self::Medium => f.write_str(self.name()),
            Self::Wide(count)
            | Self::Deep(count)
            | Self::Text(count)
            | Self::Tokens(count)
            | Self::Record(count) => write!(f, "{} {count}", self.name()),
        }
    }
}

/// Where comments stand.
#[derive(Debug, Clone, Copy, PartialEq, Eq)]
pub(crate) enum Comments {
    Nowhere,
    AboveDeclarations,
    Anywhere,
}

/// How often something unusual stands in a sheet, as shares in 256.
#[derive(Debug, Clone, Copy)]
pub(crate) struct Style {
    /// A required field is absent.
    pub(crate) faults: usize,
    /// The operands of an `AppExp` lack a first name, the first type of a `TupleTy` lacks a part.
    pub(crate) odd: usize,
    pub(crate) comments: Comments,
    /// A token operand names any token of the text.
    pub(crate) any_token: usize,
    /// A token has any kind.
    pub(crate) any_kind: usize,
    /// A declaration has no first token.
    pub(crate) no_first: usize,
}

impl Style {
    pub(crate) fn pick(rng: &mut Rng) -> Self {
        use Comments::{AboveDeclarations, Anywhere, Nowhere};
        Self {
            faults: rng.pick(&[0, 0, 0, 0, 0, 3, 12]),
            odd: rng.pick(&[0, 0, 0, 0, 0, 0, 0, 0, 0, 0, 0, 0, 0, 0, 0, 192]),
            comments: rng.pick(&[Nowhere, Nowhere, AboveDeclarations, AboveDeclarations, Anywhere]),
            any_token: rng.pick(&[0, 0, 0, 0, 8, 64]),
            any_kind: rng.pick(&[0, 0, 0, 0, 0, 0, 0, 32]),
            no_first: rng.pick(&[0, 0, 0, 16, 128]),
        }
    }
}
