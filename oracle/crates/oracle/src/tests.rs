//! Tests: the papers' own examples, the capture format's ends, and the program's other parts.

mod format;
mod paper;
mod program;
mod rates;
mod rules;
mod tops;
