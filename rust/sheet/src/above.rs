//! The comments above declarations, and those that formatting moves or writes twice.

use crate::{lex, Declaration, File};
use diverplume_record::SyntaxKind;
use std::ops::Range;

/// The comment that is written above a declaration.
#[derive(Debug, Clone, PartialEq, Eq)]
pub struct Above {
    /// Its place in the text.
    pub comment: Range<usize>,
    /// The place of the keyword that the search passed before it found the comment.
    pub keyword: Option<Range<usize>>,
}

/// A comment that formatting takes away from its place.
#[derive(Debug, Clone, PartialEq, Eq)]
pub enum Stray {
    /// It is written above a declaration though other words stand between.
    Moved {
        /// The place of the comment.
        comment: Range<usize>,
        /// The declaration above which it is written.
        above: Declaration,
    },
    /// It is written above several declarations.
    Repeated {
        /// The place of the comment.
        comment: Range<usize>,
        /// The first declaration above which it is written.
        above: Declaration,
        /// The next one.
        again: Declaration,
        /// How often it is written.
        count: usize,
    },
}

impl File<'_> {
    /// The places of the comments, in the order of the text.
    pub fn comments(&self) -> impl Iterator<Item = Range<usize>> + '_ {
        let comments = self.tokens.iter().filter(|token| token.kind == SyntaxKind::BlockComment);
        comments.map(|token| token.range.clone())
    }

    /// The comment that is written above a declaration: the search goes back from its first token,
    /// ends at a block comment, and finds none behind two keywords.
    #[must_use]
    pub fn above(&self, declaration: &Declaration) -> Option<Above> {
        let behind =
            self.tokens.partition_point(|token| token.range.start <= declaration.range.start);
        let mut keyword = None;
        for token in self.tokens[..behind].iter().rev() {
            match token.kind {
                SyntaxKind::Other => {}
                SyntaxKind::BlockComment => {
                    return Some(Above { comment: token.range.clone(), keyword });
                }
                _ if keyword.is_some() => return None,
                _ => keyword = Some(token.range.clone()),
            }
        }
        None
    }

    /// The comments that formatting moves or writes more than once, in the order of the text.
    #[must_use]
    pub fn strays(&self) -> Vec<Stray> {
        let mut written: Vec<(Range<usize>, Vec<Declaration>)> = Vec::new();
        for declaration in self.declarations() {
            let Some(Above { comment, .. }) = self.above(&declaration) else { continue };
            match written.last_mut() {
                Some((last, declarations)) if *last == comment => declarations.push(declaration),
                _ => written.push((comment, vec![declaration])),
            }
        }
        written.into_iter().filter_map(|(comment, above)| self.stray(comment, above)).collect()
    }

    fn stray(&self, comment: Range<usize>, mut above: Vec<Declaration>) -> Option<Stray> {
        let count = above.len();
        if count > 1 {
            let again = above.swap_remove(1);
            return Some(Stray::Repeated { comment, above: above.swap_remove(0), again, count });
        }
        let above = above.pop()?;
        let from = self.tokens.partition_point(|token| token.range.start < comment.end);
        let between = self.tokens[from..].iter();
        let mut between = between.take_while(|token| token.range.start < above.range.start);
        let is_moved = between.any(|token| !lex::is_space(self.text[token.range.start]));
        is_moved.then_some(Stray::Moved { comment, above })
    }
}
