//! `oracle jobs`: a batch for `jollanqe` and what it has to write.

use std::fs;
use std::io;
use std::path::Path;

use crate::capture::Configuration;
use crate::script::{Script, example_panel};
use crate::{cases, cuts, differ, picture, run, tops};

/// What a word writes for a capture: as the program, without 10.
pub fn lines(file: &[u8]) -> String {
    match run::accept_any(file) {
        Err(refusal) => run::refused(refusal),
        Ok((capture, chip)) => run::report(&run::events(chip, &capture.events, |_, _, _| ())),
    }
}

/// A panel of 160 by 60, more pixels than `panel` plays: the example's table over two rows of
/// bytes.
fn large() -> Vec<u8> {
    let panel = Configuration {
        sources: 160,
        gates: 60,
        ..example_panel()
    };
    let bytes: Vec<u8> = (0..1_200u32).map(|byte| (byte * 7 % 251) as u8).collect();
    Script::new(panel)
        .power_up()
        .command(0x61, &[0x00, 0xA0, 0x00, 0x3C])
        .command(0x22, &[0x80, 0x01, 0x00, 0x00, 0x00, 0x01])
        .command(0x13, &bytes)
        .command(0x12, &[])
        .at(3_100)
        .advance()
        .file()
}

/// A refresh of six frames from the clock on, on a panel that has its registers and its supplies.
fn refresh(script: Script) -> Script {
    script
        .command(0x22, &[0x80, 0x04, 0x00, 0x00, 0x00, 0x01])
        .command(0x13, &[0xF0])
        .command(0x12, &[])
}

/// Out of reset at a time, and the supplies up 100 after it.
fn again(script: Script, time: u64) -> Script {
    script
        .at(time)
        .release_reset()
        .command(0x00, &[0x3F])
        .command(0x04, &[])
        .at(time + 100)
}

/// Two refreshes cut, one after two whole frames and one a nanosecond before its end; a third that
/// ends by itself in the very call that asserts reset; and reset asserted again.
fn cut_twice() -> Vec<u8> {
    let first = refresh(Script::new(example_panel()).power_up());
    let second = refresh(again(first.at(3_099).assert_reset(), 5_000));
    let third = refresh(again(second.at(11_099).assert_reset(), 12_000));
    third
        .at(18_100)
        .assert_reset()
        .at(19_000)
        .assert_reset()
        .file()
}

/// The example with another event, with an event less, with other configurations.
fn variations() -> Vec<(&'static str, Vec<u8>)> {
    let with = |panel: Configuration| {
        let mut capture = cases::example().capture().clone();
        capture.configuration = panel;
        capture.encode()
    };
    let mut other = cases::example().capture().clone();
    other.events[4].kind = 1;
    let mut shorter = cases::example().capture().clone();
    shorter.events.pop();
    vec![
        ("other-event", other.encode()),
        ("shorter", shorter.encode()),
        (
            "odd-swing",
            with(Configuration {
                full_swing: 28_000_019,
                initial_grey: 77,
                ..example_panel()
            }),
        ),
        (
            "grey",
            with(Configuration {
                initial_grey: 40,
                ..example_panel()
            }),
        ),
        (
            "slow",
            with(Configuration {
                power_on: 5_000,
                ..example_panel()
            }),
        ),
        (
            "ambient",
            with(Configuration {
                ambient: 25,
                ..example_panel()
            }),
        ),
        (
            "wide",
            with(Configuration {
                sources: 16,
                ..example_panel()
            }),
        ),
    ]
}

/// No events: every state is two thirds of a swing of 3, and the picture still the initial grey.
fn made() -> Vec<u8> {
    let panel = Configuration {
        full_swing: 3,
        initial_grey: 200,
        ..example_panel()
    };
    Script::new(panel).file()
}

/// The captures of the batch by name: the large panel and small cases.
const CASES: [&str; 16] = [
    "example",
    "upright",
    "reads-uc8279d",
    "partial-window",
    "table-lengths",
    "refused-1",
    "refused-2",
    "refused-8",
    "refused-8-6522",
    "refused-9-kind",
    "refused-10",
    "empty-evening",
    "rate-part-of-a-cycle",
    "rate-cut-3",
    "rate-1-ghz",
    "refused-13-over",
];

/// Those that are asked for cuts and pictures.
const REPLAYED: [&str; 12] = [
    "cut-twice",
    "reset-before-frame",
    "reset-on-frame",
    "reset-at-start",
    "reset-at-end",
    "example",
    "large",
    "refused-9-kind",
    "empty-evening",
    "rate-cut-3",
    "rate-cut-7",
    "refused-13-over",
];

/// Those that are compared.
const PAIRS: [[&str; 2]; 13] = [
    ["example", "example"],
    ["example", "other-event"],
    ["example", "shorter"],
    ["shorter", "example"],
    ["example", "slow"],
    ["example", "grey"],
    ["example", "ambient"],
    ["example", "wide"],
    ["large", "cut-twice"],
    ["refused-2", "refused-8"],
    ["example", "rate-1-ghz"],
    ["rate-1-ghz", "rate-3-hz"],
    ["rate-cut-3", "rate-cut-7"],
];

/// By VCOM's rules (2026-08): all words of these, and each compared with the next.
const RULED: [&str; 6] = [
    "rule-2-repeats",
    "rule-1-repeats",
    "rule-2-floating-cut",
    "rule-changed-to-2-under-way",
    "rule-changed-to-1-under-way",
    "refused-9-rule-3",
];

/// At tops (2026-03): by every top of the list as a graymap, by each that it may have as a PNG file.
const TONED: [&str; 13] = [
    "example",
    "odd-swing",
    "made",
    "upright",
    "partial-window",
    "undriven-grey",
    "swing-largest",
    "reset-before-frame",
    "rate-cut-3",
    "rule-2-repeats",
    "rule-2-floating-cut",
    "refused-8",
    "empty-evening",
];
const TOPS: [u16; 5] = [1, 255, 256, 65_535, 0];
const PNG_TOPS: [u16; 2] = [255, 65_535];

/// A batch as it grows: its captures, its lines, what it has to write.
struct Batch {
    files: Vec<(&'static str, Vec<u8>)>,
    jobs: String,
    output: Vec<u8>,
}

impl Batch {
    fn file(&self, name: &str) -> &[u8] {
        let found = self.files.iter().find(|(of, _)| *of == name);
        &found.expect("a capture of that name").1
    }

    fn add(&mut self, job: &str, output: impl AsRef<[u8]>) {
        self.jobs += &format!("{job}\n");
        self.output.extend(output.as_ref());
    }

    fn add_ruled(&mut self) {
        for name in RULED {
            let file = self.file(name).to_vec();
            self.add(&format!("lines {name}.capture"), lines(&file));
            self.add(&format!("pgm {name}.capture"), picture::pgm(&file));
            self.add(&format!("png {name}.capture"), picture::png(&file));
            self.add(&format!("cuts {name}.capture"), cuts::cuts(&file));
            let heads = picture::heads(&file);
            self.add(&format!("pictures {name}.capture {name}"), heads);
        }
        for pair in RULED.windows(2) {
            let names = [pair[0], pair[1]].map(|name| format!("{name}.capture"));
            let [a, b] = [&names[0], &names[1]];
            let files = [self.file(pair[0]), self.file(pair[1])];
            let output = differ::differ([a, b], files);
            self.add(&format!("compare {a} {b}"), output);
        }
    }

    fn add_pgm(&mut self, name: &str, top: u16) {
        let output = tops::pgm(self.file(name), top);
        self.add(&format!("pgm {name}.capture {top}"), output);
    }

    fn add_png(&mut self, name: &str, top: u16) {
        let output = tops::png(self.file(name), top);
        self.add(&format!("png {name}.capture {top}"), output);
    }

    fn add_toned(&mut self) {
        for name in TONED {
            for top in TOPS {
                self.add_pgm(name, top);
            }
            for top in PNG_TOPS {
                self.add_png(name, top);
            }
        }
        self.add_pgm("cut-twice", 40_000);
        self.add_pgm("large", 65_535);
        self.add_png("large", 65_535);
        self.add_png("example", 0);
        // tops that are none, and one too many
        for job in [
            "pgm example.capture 65536",
            "pgm example.capture -1",
            "pgm example.capture white",
            "pgm example.capture 255 255",
            "png example.capture 256",
        ] {
            self.add(job, "");
        }
    }
}

fn captures() -> Vec<(&'static str, Vec<u8>)> {
    let mut files = vec![
        ("large", large()),
        ("cut-twice", cut_twice()),
        ("made", made()),
    ];
    files.extend(variations());
    let others = [
        "reset-before-frame",
        "reset-on-frame",
        "reset-at-start",
        "reset-at-end",
        "rate-3-hz",
        "rate-cut-7",
        "undriven-grey",
        "swing-largest",
    ];
    let all = cases::all();
    for name in CASES.into_iter().chain(others).chain(RULED) {
        let case = all.iter().find(|case| case.name == name);
        files.push((name, case.expect("a case of that name").file.clone()));
    }
    files
}

fn batch() -> Batch {
    let mut batch = Batch {
        files: captures(),
        jobs: String::new(),
        output: Vec::new(),
    };
    for name in ["large"].into_iter().chain(CASES) {
        let file = batch.file(name).to_vec();
        batch.add(&format!("lines {name}.capture"), lines(&file));
        batch.add(&format!("pgm {name}.capture"), picture::pgm(&file));
        batch.add(&format!("png {name}.capture"), picture::png(&file));
    }
    for name in REPLAYED {
        let file = batch.file(name).to_vec();
        batch.add(&format!("cuts {name}.capture"), cuts::cuts(&file));
        batch.add(
            &format!("pictures {name}.capture {name}"),
            picture::heads(&file),
        );
    }
    for pair in PAIRS {
        let names = pair.map(|name| format!("{name}.capture"));
        let [a, b] = [&names[0], &names[1]];
        let output = differ::differ([a, b], pair.map(|name| batch.file(name)));
        batch.add(&format!("compare {a} {b}"), output);
    }
    // a blank line, a word that is not there, files that are not there, standard input in a batch
    for job in [
        "",
        "nothing",
        "lines missing.capture",
        "compare example.capture missing.capture",
        "cuts -",
        "pictures example.capture",
    ] {
        batch.add(job, "");
    }
    batch.add_ruled();
    batch.add_toned();
    batch
}

/// Writes the batch, its captures and what it has to write.
pub fn write(directory: &Path) -> io::Result<()> {
    let data = directory.join("data");
    fs::create_dir_all(&data)?;
    let batch = batch();
    for (name, file) in &batch.files {
        fs::write(data.join(format!("{name}.capture")), file)?;
    }
    fs::write(directory.join("stdin"), &batch.jobs)?;
    fs::write(directory.join("stdout"), &batch.output)
}
