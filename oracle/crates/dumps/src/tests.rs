//! Tests: what was written is read, and the hand-made dumps.

mod made;
mod written;
