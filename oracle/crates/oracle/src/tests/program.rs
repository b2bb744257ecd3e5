//! The program's other parts: digests of planes, stored cases, generated captures.

use chips::uc8253::{Plane, RAM_GATES};

use crate::capture::{Capture, VCOM_BY_FRAME, VCOM_RULE};
use crate::planes::{self, Planes};
use crate::{cases, cuts, generate, jobs, log, picture, replays, run, stats, trace};

/// Digests that are kept are those taken anew over the whole planes.
#[test]
fn kept_digests_are_true() {
    for seed in 1..60 {
        let Ok((capture, chip)) = run::accept(&generate::make(seed)) else {
            continue;
        };
        let last = capture.events.len();
        let mut kept = Planes::at_making(&chip);
        run::events(chip, &capture.events, |index, event, chip| {
            kept.follow(event, chip);
            if index % 97 == 0 || index + 1 == last {
                let old = planes::digest(chip, Plane::Old, RAM_GATES);
                let new = planes::digest(chip, Plane::New, RAM_GATES);
                assert_eq!(
                    (kept.old, kept.new),
                    (old, new),
                    "seed {seed} event {index}"
                );
            }
        });
    }
}

#[test]
fn a_trace_ends_with_the_run() {
    for seed in 1..20 {
        let file = generate::make(seed);
        let (trace, run) = (trace::trace(&file), run::run(&file));
        assert!(trace.ends_with(&run), "seed {seed}");
    }
}

#[test]
fn the_stored_cases_are_the_written_ones() {
    let directory = std::path::Path::new(env!("CARGO_MANIFEST_DIR")).join("../../cases");
    let (text, equal) = cases::check(&directory).expect("the cases can be read");
    assert!(equal, "{text}");
    for case in cases::all() {
        let path = directory.join(format!("{}.capture", case.name));
        let stored = std::fs::read(path).expect("each case is stored");
        assert_eq!(stored, case.file, "{}", case.name);
    }
}

/// Of rows of every kind just kind 13 with 61 bytes or more is left out.
#[test]
fn the_second_row_of_a_fault_is_left_out() {
    for kind in 1..=15 {
        for field in 0..=65_535 {
            let row = [7, kind, 0x24, field, 0];
            assert_eq!(log::is_second(&row), kind == 13 && field >= 61, "{row:?}");
        }
    }
}

/// Up to 1,024 rows the log is the Rust's own list with those rows left out, each of them behind
/// a row of kind 4 for the same command, and nothing else; beyond that it is the Rust's own where
/// none is left out.
#[test]
fn nothing_else_is_left_out() {
    let (mut short, mut long) = (0, 0);
    for seed in 1..3_000 {
        let file = generate::make(seed);
        let (Ok((capture, chip)), Ok((_, twin))) = (run::accept(&file), run::accept(&file)) else {
            continue;
        };
        let log = run::events(chip, &capture.events, |_, _, _| ()).log;
        let own = run::own_log(twin, &capture.events);
        if own.dropped > 0 {
            long += u64::from(log.left_out == 0);
            assert!(log.left_out > 0 || log == own, "seed {seed}");
            continue;
        }
        let (second, kept): (Vec<log::Row>, _) =
            own.stored.iter().partition(|row| log::is_second(row));
        assert_eq!((&log.stored, log.dropped), (&kept, 0), "seed {seed}");
        assert_eq!(log.left_out, second.len() as u64, "seed {seed}");
        short += u64::from(log.left_out > 0);
        for row in second {
            let at = own.stored.iter().position(|other| *other == row);
            let before = &own.stored[..at.unwrap_or_default()];
            let first = before.iter().rev().find(|other| other[2] == row[2]);
            assert_eq!(first.map(|first| first[1]), Some(4), "seed {seed}");
        }
    }
    assert!(short > 50 && long > 20, "{short} {long}");
}

/// A file of one of the project's crates.
fn crate_file(path: &str) -> Vec<u8> {
    let crates = std::path::Path::new(env!("CARGO_MANIFEST_DIR")).join("../../../crates");
    std::fs::read(crates.join(path)).expect("the file is stored")
}

/// The captures of a sample.
fn captures(mut input: &[u8]) -> Vec<&[u8]> {
    let mut captures = Vec::new();
    while let Some((length, rest)) = input.split_first_chunk() {
        let (file, rest) = rest.split_at(u32::from_le_bytes(*length) as usize);
        captures.push(file);
        input = rest;
    }
    captures
}

/// Whether 2026-08 lists what a capture holds and was not listed before.
fn has_rules(file: &[u8]) -> bool {
    Capture::read(file).is_ok_and(|capture| {
        capture.configuration.flag(VCOM_BY_FRAME)
            || capture.events.iter().any(|event| event.kind == VCOM_RULE)
    })
}

/// The stored sample is the written one, and its outputs are the judge's.
#[test]
fn the_stored_sample_is_the_written_one() {
    let stored = ["stdin", "stdout"].map(|name| crate_file(&format!("test_captures/{name}")));
    let files = captures(&stored[0]);
    let output: String = files.iter().map(|file| run::run(file)).collect();
    assert!(stored[1] == output.as_bytes());
    assert!(stored[0] == replays::sample(1, 344).input);
    assert!(files.iter().filter(|file| has_rules(file)).count() > 100);
}

/// The graymap's bytes are the greys that `lines` prints.
#[test]
fn a_graymap_holds_the_greys() {
    let file = crate_file("jollanqe/data/upright.capture");
    let text = jobs::lines(&file);
    let mut rows = text.lines().skip_while(|line| !line.starts_with("image"));
    let head: Vec<&str> = rows.next().unwrap_or_default().split(' ').collect();
    let mut bytes = format!("P5\n{} {}\n255\n", head[1], head[2]).into_bytes();
    bytes.extend(rows.flat_map(|row| {
        row.split(' ')
            .map(|grey| grey.parse::<u8>().expect("a grey"))
    }));
    assert_eq!(picture::pgm(&file), bytes);
}

/// Of three refreshes reset cuts two; the third ends by itself in the call that asserts reset.
#[test]
fn a_refresh_that_has_ended_is_not_cut() {
    let file = crate_file("jollanqe/data/cut-twice.capture");
    assert_eq!(cuts::cuts(&file), "cut 3099 2 6\ncut 11099 5 6\n");
    let heads = picture::heads(&file);
    assert_eq!(heads.lines().last(), Some("image 8 1 3 full 0 12100 18100"));
}

/// The batch of `jollanqe` begins with the written one; its dumps are `dumps`' to hold.
#[test]
fn the_stored_batch_is_the_written_one() {
    let directory = std::env::temp_dir().join(format!("jobs-{}", std::process::id()));
    let stored = ["stdin", "stdout"].map(|name| crate_file(&format!("jollanqe/{name}")));
    jobs::write(&directory).expect("it can be written");
    for (name, stored) in ["stdin", "stdout"].iter().zip(stored) {
        let written = std::fs::read(directory.join(name)).expect("it was written");
        assert!(stored.starts_with(&written), "{name}");
    }
    for entry in std::fs::read_dir(directory.join("data")).expect("it was written") {
        let path = entry.expect("it was written").path();
        let name = path.file_name().unwrap_or_default().to_string_lossy();
        let written = std::fs::read(&path).expect("it was written");
        assert!(
            crate_file(&format!("jollanqe/data/{name}")) == written,
            "{name}"
        );
    }
    std::fs::remove_dir_all(directory).expect("it is ours");
}

#[test]
fn a_seed_makes_one_capture_and_seeds_differ() {
    assert_eq!(generate::make(5), generate::make(5));
    assert_ne!(generate::make(5), generate::make(6));
}

#[test]
fn counts_do_not_depend_on_the_threads() {
    let line = |text: &str, word: &str| {
        let found = text.lines().find(|line| line.starts_with(word));
        found.and_then(|line| line.rsplit(' ').next()?.parse::<u64>().ok())
    };
    let whole = stats::stats(100, 60);
    let parts = [stats::stats(100, 23), stats::stats(123, 37)];
    let sum: u64 = parts.iter().filter_map(|part| line(part, "accepted")).sum();
    assert_eq!(line(&whole, "accepted"), Some(sum));
}
