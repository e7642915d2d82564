//! The depths that `indented` forms, recorded by the copy of 000.

use sml_syntax::ast;
use std::cell::Cell;

include!(concat!(env!("OUT_DIR"), "/with_depth_module.rs"));

thread_local! {
    static DEEPEST: Cell<u32> = const { Cell::new(0) };
}

/// Called by the copy of 000 for each depth that `indented` forms.
pub(crate) fn formed(depth: u32) {
    DEEPEST.set(DEEPEST.get().max(depth));
}

/// The largest depth that `indented` forms in the walk over this tree, also in a walk that ends in
/// a refusal.
pub(crate) fn deepest(root: &ast::Root) -> u32 {
    DEEPEST.set(0);
    // Only the depths count here; the text and the refusals come from the unchanged file.
    let _ = with_depth::get(root, 1);
    DEEPEST.get()
}
