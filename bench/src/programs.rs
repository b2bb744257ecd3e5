//! A whole capture by the two programs, each a process of its own.

use std::ffi::OsStr;
use std::io::{self, Read, Write};
use std::path::Path;
use std::process::{Command, Stdio};
use std::time::Instant;

use oracle::capture::MOST_EVENTS;
use oracle::{generate, run};

use crate::table::{ROUNDS, Row};

/// The argument that makes this program the Rust's side.
pub const RUN: &str = "run";
const PANEL: &str = concat!(env!("CARGO_MANIFEST_DIR"), "/../target/bin/panel");

/// What `oracle run` does, in a build without overflow checks.
pub fn be_the_rust() -> io::Result<()> {
    let mut file = Vec::new();
    io::stdin().lock().read_to_end(&mut file)?;
    io::stdout().lock().write_all(run::run(&file).as_bytes())
}

/// The first generated capture of as many events as fit.
fn longest() -> Vec<u8> {
    (1..)
        .map(generate::make)
        .find(|file| {
            run::accept(file).is_ok_and(|(capture, _)| capture.events.len() == MOST_EVENTS)
        })
        .expect("a seed has one")
}

/// What a program prints for `file`, and its nanoseconds from start to exit.
fn printed(
    program: impl AsRef<OsStr>,
    arguments: &[&str],
    file: &[u8],
) -> io::Result<(f64, Vec<u8>)> {
    let start = Instant::now();
    let mut child = Command::new(program)
        .args(arguments)
        .stdin(Stdio::piped())
        .stdout(Stdio::piped())
        .spawn()?;
    let mut input = child.stdin.take().expect("its input is a pipe");
    input.write_all(file)?;
    drop(input);
    let text = child.wait_with_output()?.stdout;
    Ok((start.elapsed().as_nanos() as f64, text))
}

pub fn whole_capture() -> io::Result<()> {
    if !Path::new(PANEL).exists() {
        println!("(no target/bin/panel: `tools/build panel` builds it)");
        return Ok(());
    }
    let file = longest();
    let own = std::env::current_exe()?;
    let mut row = Row::new("a capture of 6,521 events, `panel` against `oracle run`", 1);
    for _ in 0..ROUNDS {
        let (ours, our_text) = printed(PANEL, &[], &file)?;
        let (rust, rust_text) = printed(&own, &[RUN], &file)?;
        assert!(our_text == rust_text, "the two programs print the same");
        row.note(ours, rust);
    }
    row.print();
    Ok(())
}
