//! Dumps made by hand: one small dump, and edits of it, each with the answer that the request and
//! its readings give, written down here and by no reader.

mod readings;
mod request;

use std::fmt::Write;
use std::fs;
use std::io;
use std::path::Path;

use oracle::capture::{ADVANCE, COMMAND, Configuration, Event, TRAILER_BYTES};
use oracle::script::{Script, example_panel};

use crate::batch::{self, Job};
use crate::judge::{self, Form};

/// One command byte, 35, whose eighth bit comes at 90; the last time is 100.
pub const BASE: &str = "\
$date today $end
$version analyser $end
$timescale 1ns $end
$scope module bench $end
$var wire 1 ! cs $end
$var wire 1 \" dc $end
$var wire 1 # clk $end
$var wire 1 $ mosi $end
$var wire 1 % rst $end
$upscope $end
$enddefinitions $end
#0
$dumpvars
1!
1\"
0#
0$
1%
$end
#10
0!
0\"
#20
1#
#25
0#
#30
1#
#35
0#
1$
#40
1#
#45
0#
#50
1#
#55
0#
0$
#60
1#
#65
0#
1$
#70
1#
#75
0#
0$
#80
1#
#85
0#
1$
#90
1#
#95
0#
#100
1!
";

/// What a dump answers: events, each its time, kind and value, and the last time; or a refusal.
#[derive(Clone, Copy, Debug)]
enum Answer {
    Events(&'static [(u64, u8, u8)], u64),
    Refused(u8),
}

/// As the dump before the edit.
const SAME: Answer = Answer::Events(&[(90, COMMAND, 0x35)], 100);
const MALFORMED: Answer = Answer::Refused(11);
const SIGNALS: Answer = Answer::Refused(12);

/// A name, the text that goes (it stands once), the text that comes, and the answer.
type Edit = (&'static str, &'static [u8], &'static [u8], Answer);

/// The edits that show one row of the readings or one sentence of the request.
struct Row {
    shows: &'static str,
    edits: &'static [Edit],
}

pub struct Case {
    pub name: String,
    pub shows: &'static str,
    pub configuration: Vec<u8>,
    pub dump: Vec<u8>,
    pub answer: Result<Vec<Event>, u8>,
}

impl Case {
    fn new(name: &str, shows: &'static str, dump: Vec<u8>, answer: Answer) -> Case {
        Case {
            name: name.to_string(),
            shows,
            configuration: bytes(&example_panel()),
            dump,
            answer: written_out(answer),
        }
    }

    /// What must be written, by the answer.
    pub fn written(&self, form: Form) -> Vec<u8> {
        match &self.answer {
            Err(number) => judge::refused(*number),
            Ok(events) => {
                let chip = judge::make(&self.configuration).expect("it is accepted");
                judge::played(chip, events, form)
            }
        }
    }

    /// The base after several edits, each of a text that stands once.
    fn edits(name: &str, shows: &'static str, edits: &[(&str, &str)], answer: Answer) -> Case {
        let edit = |dump: Vec<u8>, (old, new): &(&str, &str)| {
            edited(&dump, old.as_bytes(), new.as_bytes())
        };
        let dump = edits.iter().fold(BASE.as_bytes().to_vec(), edit);
        Case::new(name, shows, dump, answer)
    }
}

fn written_out(answer: Answer) -> Result<Vec<Event>, u8> {
    let (events, last) = match answer {
        Answer::Refused(number) => return Err(number),
        Answer::Events(events, last) => (events, (last, ADVANCE, 0)),
    };
    let all = events.iter().chain([&last]);
    Ok(all
        .map(|&(time, kind, value)| Event { time, kind, value })
        .collect())
}

/// The 312 bytes of a configuration, or 320 with a rate.
pub fn bytes(configuration: &Configuration) -> Vec<u8> {
    let mut file = Script::new(configuration.clone()).file();
    file.truncate(file.len() - TRAILER_BYTES);
    file
}

/// A dump with the one place of `old` replaced.
fn edited(dump: &[u8], old: &[u8], new: &[u8]) -> Vec<u8> {
    let mut places = (0..=dump.len() - old.len()).filter(|&at| dump[at..].starts_with(old));
    let at = places.next().expect("the old text stands in the dump");
    assert!(places.next().is_none(), "it stands once: {old:?}");
    [&dump[..at], new, &dump[at + old.len()..]].concat()
}

/// Every dump, those together that show the same.
pub fn all() -> Vec<Case> {
    let mut cases = vec![Case::new(
        "base",
        "a command byte",
        BASE.as_bytes().to_vec(),
        SAME,
    )];
    for row in request::ROWS.iter().chain(readings::ROWS) {
        for (name, old, new, answer) in row.edits {
            let dump = edited(BASE.as_bytes(), old, new);
            cases.push(Case::new(name, row.shows, dump, *answer));
        }
    }
    cases.extend(request::edits());
    cases.extend(request::wholes());
    cases.extend(readings::edits());
    cases.extend(readings::wholes());
    cases.extend(request::configurations());
    let mut rows: Vec<&str> = Vec::new();
    for case in &cases {
        if !rows.contains(&case.shows) {
            rows.push(case.shows);
        }
    }
    cases.sort_by_key(|case| rows.iter().position(|row| *row == case.shows));
    cases
}

/// The dumps by what they show, each with its answer.
fn index(cases: &[Case]) -> String {
    let mut index = String::from("# Dumps made by hand\n");
    let mut shown = "";
    for case in cases {
        if case.shows != shown {
            shown = case.shows;
            let _ = write!(index, "\n## {shown}\n\n");
        }
        let answer = match &case.answer {
            Err(number) => format!("refused {number}"),
            Ok(events) => format!("played, {} events", events.len()),
        };
        let _ = writeln!(index, "- `{}`: {answer}", case.name);
    }
    index
}

/// The dumps that are also asked for pictures at tops (2026-03): the worked example, one by rule 2,
/// one that is refused.
const TONED: [&str; 3] = ["example", "rule-2", "config-sources-0"];
const TONES: [Form; 3] = [
    Form::Pgm(Some(65_535)),
    Form::Png(Some(65_535)),
    Form::Pgm(Some(0)),
];

/// A job for the lines of each dump, and behind them those of pictures at tops.
pub fn jobs() -> Vec<Job> {
    let cases = all();
    let toned = cases
        .iter()
        .filter(|case| TONED.contains(&case.name.as_str()));
    let toned = toned.flat_map(|case| TONES.map(|form| Job::made(case, form)));
    let lines = cases.iter().map(|case| Job::made(case, Form::Lines));
    lines.chain(toned).collect()
}

/// Writes the dumps as a batch of `jollanqe`, and an index of them.
pub fn write(folder: &Path) -> io::Result<()> {
    batch::write(folder, &jobs())?;
    fs::write(folder.join("INDEX.md"), index(&all()))
}
