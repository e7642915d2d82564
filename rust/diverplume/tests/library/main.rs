//! The library over the archive.

mod calls;
mod messages;
mod scan;
mod sheets;
