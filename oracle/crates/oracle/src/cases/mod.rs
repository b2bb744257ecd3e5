//! `oracle cases` and `oracle check`: small captures with the output each must give.

mod commands;
mod rates;
mod refreshes;
mod refusals;
mod vcom;

use std::fmt::Write;
use std::fs;
use std::io;
use std::path::{Path, PathBuf};

use crate::run;
use crate::script::{Script, example_panel};

pub struct Case {
    pub name: &'static str,
    /// One line for the index.
    shows: String,
    pub file: Vec<u8>,
    /// The output as a paper has it or as worked by hand; without one it is the published Rust's.
    output: Option<String>,
}

impl Case {
    fn new(name: &'static str, shows: impl Into<String>, script: Script) -> Case {
        Case::of_file(name, shows, script.file())
    }

    fn of_file(name: &'static str, shows: impl Into<String>, file: Vec<u8>) -> Case {
        Case {
            name,
            shows: shows.into(),
            file,
            output: None,
        }
    }

    /// With its output, worked by hand.
    fn worked(self, output: impl Into<String>) -> Case {
        Case {
            output: Some(output.into()),
            ..self
        }
    }
}

/// The output of the example, typed from document 01.
pub const EXAMPLE_OUTPUT: &str = "\
diag 100 13 34 6 0
dropped 0
image 8 1 1 full 0 100 3100
128 128 128 128 0 0 0 0
";

/// Document 01's example.
pub fn example() -> Script {
    Script::new(example_panel())
        .at(0)
        .command(0x00, &[0x3F])
        .command(0x04, &[])
        .at(100)
        .command(0x22, &[0x80, 0x01, 0x00, 0x00, 0x00, 0x01])
        .command(0x13, &[0xF0])
        .command(0x12, &[])
        .at(3_100)
        .advance()
}

pub fn all() -> Vec<Case> {
    let shows = "document 01's worked example; the output is the paper's";
    let mut cases = vec![Case::new("example", shows, example()).worked(EXAMPLE_OUTPUT)];
    cases.extend(refreshes::cases());
    cases.extend(commands::cases());
    cases.extend(refusals::cases());
    cases.extend(rates::cases());
    cases.extend(vcom::cases());
    cases
}

/// Writes each case's capture and output, and the index.
pub fn write(directory: &Path) -> io::Result<()> {
    fs::create_dir_all(directory)?;
    let mut index = String::from("# The small cases\n\n");
    for case in all() {
        let output = case.output.unwrap_or_else(|| run::run(&case.file));
        fs::write(directory.join(format!("{}.capture", case.name)), &case.file)?;
        fs::write(directory.join(format!("{}.out", case.name)), output)?;
        let _ = writeln!(index, "- `{}`: {}.", case.name, case.shows);
    }
    fs::write(directory.join("INDEX.md"), index)
}

fn captures(directory: &Path) -> io::Result<Vec<PathBuf>> {
    let mut paths = Vec::new();
    for entry in fs::read_dir(directory)? {
        let path = entry?.path();
        if path
            .extension()
            .is_some_and(|extension| extension == "capture")
        {
            paths.push(path);
        }
    }
    paths.sort();
    Ok(paths)
}

/// A line for each capture of the directory, and whether every output is as expected.
pub fn check(directory: &Path) -> io::Result<(String, bool)> {
    let mut text = String::new();
    let (mut equal, mut different) = (0, 0);
    for path in captures(directory)? {
        let expected = fs::read_to_string(path.with_extension("out"))?;
        let name = path.file_stem().unwrap_or_default().to_string_lossy();
        let word = if run::run(&fs::read(&path)?) == expected {
            equal += 1;
            "equal"
        } else {
            different += 1;
            "different"
        };
        let _ = writeln!(text, "{name}: {word}");
    }
    let _ = writeln!(text, "{equal} equal, {different} different");
    Ok((text, different == 0))
}
