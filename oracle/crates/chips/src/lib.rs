//! Ours, not published: the crate root that the published files `glass.rs` and `uc8253/` need.
//! `lines.rs` is a stand-in and `probe.rs` a door for test vectors; both are ours too.

pub mod glass;
pub mod lines;
pub mod probe;
pub mod uc8253;
