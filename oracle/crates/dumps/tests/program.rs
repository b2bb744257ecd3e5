//! The comparison held to itself: `dumps` stands in for `jollanqe`, sound and with faults.

use std::fs;
use std::os::unix::fs::PermissionsExt;
use std::path::{Path, PathBuf};
use std::process::{Command, Output};

const DUMPS: &str = env!("CARGO_BIN_EXE_dumps");

/// The real dumps, in the order of their README.
const REAL: [&str; 14] = [
    "icarus",
    "icarus-all",
    "fst2vcd",
    "sigrok",
    "ghdl-ns",
    "verilator",
    "icarus-1ps",
    "verilator-1ps",
    "ghdl",
    "icarus-x",
    "icarus-pause",
    "ghdl-u",
    "icarus-twice",
    "verilator-twice",
];

/// A folder of this test's own.
fn folder(name: &str) -> PathBuf {
    let folder = std::env::temp_dir().join(format!("dumps-test-{name}-{}", std::process::id()));
    fs::create_dir_all(&folder).expect("it can be made");
    folder
}

fn run(folder: &Path, words: &[&str]) -> Output {
    let output = Command::new(DUMPS).args(words).current_dir(folder).output();
    output.expect("it runs")
}

/// A program that is `dumps` but for what `sed` does to its output.
fn faulty(folder: &Path, edit: &str) -> String {
    let path = folder.join("faulty");
    let text = format!("#!/bin/sh\n'{DUMPS}' \"$@\" | sed '{edit}'\n");
    fs::write(&path, text).expect("it can be written");
    fs::set_permissions(&path, fs::Permissions::from_mode(0o755)).expect("it is ours");
    path.to_string_lossy().into_owned()
}

#[test]
fn a_sound_program_is_equal() {
    let here = folder("sound");
    let real = Path::new(env!("CARGO_MANIFEST_DIR")).join("../../dumps/real");
    let real = real.to_string_lossy();
    for words in [
        &["compare", DUMPS, "300", "1"][..],
        &["pieces", DUMPS, "30", "1"],
        &["made", DUMPS, &real],
        &["fuzz", DUMPS, "1", "1"],
    ] {
        let output = run(&here, words);
        let text = String::from_utf8_lossy(&output.stdout);
        assert!(output.status.success(), "{words:?}: {text}");
        assert!(text.ends_with(" 0 different\n"), "{words:?}: {text}");
    }
    fs::remove_dir_all(here).expect("it is ours");
}

#[test]
fn a_fault_is_seen_and_kept() {
    for (name, edit) in [
        ("row", "s/^dropped 0/dropped 1/"),
        ("number", "s/^refused 1$/refused 2/"),
    ] {
        let here = folder(name);
        let program = faulty(&here, edit);
        let output = run(&here, &["compare", &program, "600", "1"]);
        let text = String::from_utf8_lossy(&output.stdout);
        assert_eq!(output.status.code(), Some(1), "{text}");
        assert!(text.contains("differs: see difference/"), "{text}");
        for kept in ["config", "vcd", "rust", "jollanqe"] {
            assert!(here.join("difference").join(kept).exists(), "{kept}");
        }
        fs::remove_dir_all(here).expect("it is ours");
    }
}

/// The batch of `jollanqe` ends with the dumps made by hand, and then the real ones.
#[test]
fn the_stored_dumps_are_the_written_ones() {
    let root = Path::new(env!("CARGO_MANIFEST_DIR")).join("../..");
    let stored = root.join("../crates/jollanqe");
    let read = |path: PathBuf| fs::read(&path).unwrap_or_else(|_| panic!("{path:?}"));
    let (all, told) = (read(stored.join("stdin")), read(stored.join("stdout")));
    for name in REAL {
        let dump = read(root.join(format!("dumps/real/{name}.vcd")));
        let kept = read(stored.join(format!("data/{name}.vcd")));
        assert!(kept == dump, "{name}");
    }
    let here = folder("stored");
    assert!(run(&here, &["cases", "."]).status.success());
    let (mut jobs, mut lines) = (read(here.join("stdin")), read(here.join("stdout")));
    for entry in fs::read_dir(here.join("data")).expect("it was made") {
        let name = entry.expect("it was made").file_name();
        let kept = read(stored.join("data").join(&name));
        assert!(kept == read(here.join("data").join(&name)), "{name:?}");
    }
    for name in REAL {
        jobs.extend(format!("vcd panel.config {name}.vcd\n").into_bytes());
        lines.extend(read(root.join(format!("dumps/real/{name}.out"))));
    }
    assert!(all.ends_with(&jobs));
    assert!(told.ends_with(&lines));
    fs::remove_dir_all(here).expect("it is ours");
}
