//! The keyword that `comment_above` passes, recorded by the copy of 001.

use sml_syntax::kind::SyntaxNode;
use std::cell::Cell;

include!(concat!(env!("OUT_DIR"), "/with_keyword_module.rs"));

thread_local! {
    static PASSED: Cell<Option<u16>> = const { Cell::new(None) };
}

/// Called by the copy of 001 for a keyword that the search passes.
pub(crate) fn passed(token: u16) {
    PASSED.set(Some(token));
}

/// The keyword that the search from this node passes.
pub(crate) fn passed_from(node: &SyntaxNode) -> Option<u16> {
    PASSED.set(None);
    // Only the keyword counts here; the comment comes from the unchanged file.
    let _ = with_keyword::comment_above(node);
    PASSED.get()
}
