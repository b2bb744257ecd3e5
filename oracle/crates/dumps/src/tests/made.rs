//! The reader beside the dumps made by hand and the real ones.

use std::collections::HashSet;
use std::path::Path;

use crate::judge::Form;
use crate::{cases, judge, real};

/// The reader gives the answers that were written down.
#[test]
fn the_reader_agrees() {
    let mut wrong = Vec::new();
    for case in cases::all() {
        let read = judge::accept(&case.configuration, &case.dump).map(|(_, events)| events);
        if read != case.answer {
            wrong.push(format!("{}: {read:?}", case.name));
        }
    }
    assert!(wrong.is_empty(), "{wrong:#?}");
}

#[test]
fn names_differ() {
    let mut names = HashSet::new();
    for case in cases::all() {
        assert!(names.insert(case.name.clone()), "{}", case.name);
    }
    assert!(names.len() > 400, "{}", names.len());
}

/// The lines of the dump that is edited, by hand: kind 1, an unknown command, 35.
#[test]
fn the_base_prints_its_row() {
    let base = &cases::all()[0];
    let lines = "diag 90 1 53 0 0\ndropped 0\nimage 8 1 0 poweron 0 0 0\n0 0 0 0 0 0 0 0\n";
    assert_eq!(base.written(Form::Lines), lines.as_bytes());
}

/// The worked example as a dump prints what the rules have for it; cut short, no refresh has ended.
#[test]
fn the_example_is_the_rules_own() {
    let cases = cases::all();
    let lines = |name: &str| {
        let case = cases.iter().find(|case| case.name == name);
        String::from_utf8(case.expect("it is there").written(Form::Lines)).expect("it is text")
    };
    assert_eq!(lines("example"), oracle::cases::EXAMPLE_OUTPUT);
    // up by an eighth in the first, third and fifth frame
    let rows = "diag 100 13 32 6 0\ndiag 100 13 36 6 0\ndropped 0\n";
    let picture = "image 8 1 1 full 0 100 8100\n96 96 96 96 96 96 96 96\n";
    assert_eq!(lines("rule-2"), format!("{rows}{picture}"));
    assert!(lines("example-too-short").contains("image 8 1 0 poweron 0 0 0\n"));
}

#[test]
fn the_real_dumps_answer_as_stored() {
    let folder = Path::new(env!("CARGO_MANIFEST_DIR")).join("../../dumps/real");
    let (text, equal) = real::check(&folder).expect("they can be read");
    assert!(equal, "{text}");
    assert_eq!(text.lines().count(), 14);
}
