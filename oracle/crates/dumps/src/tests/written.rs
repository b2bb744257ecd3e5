//! The reader beside the writer.

use oracle::capture::{Capture, Configuration, MOST_EVENTS};
use oracle::run;
use oracle::script::x3_panel;

use crate::judge::{self, Form};
use crate::{make, page, signals};

/// What was written comes back; and changes without any order are a dump.
#[test]
fn events_come_back() {
    let mut planned = 0;
    for seed in 1..3_000 {
        let made = make::make(seed);
        let read = signals::events(&made.dump);
        if let Some(events) = made.events {
            assert!(read.as_ref() == Ok(&events), "seed {seed}");
            planned += 1;
        } else {
            assert!(read.is_ok(), "seed {seed}");
        }
    }
    assert!(planned > 2_500, "{planned}");
}

/// A small dump gives what `panel` has to print for the capture of its events.
#[test]
fn a_small_dump_is_its_capture() {
    let mut compared = 0;
    for seed in 1..1_000 {
        let made = make::make(seed);
        let Ok((_, events)) = judge::accept(&made.configuration, &made.dump) else {
            continue;
        };
        let configuration = Configuration::decode(&made.configuration);
        if configuration.pixels() > run::MOST_PIXELS || events.len() > MOST_EVENTS {
            continue;
        }
        let capture = Capture {
            configuration,
            events,
        };
        let lines = judge::judge(&made.configuration, &made.dump, Form::Lines);
        assert!(
            lines == run::run(&capture.encode()).as_bytes(),
            "seed {seed}"
        );
        compared += 1;
    }
    assert!(compared > 850, "{compared}");
}

#[test]
fn a_seed_makes_one_dump() {
    let (one, other) = (make::make(7), make::make(7));
    assert!(one.dump == other.dump && one.configuration == other.configuration);
}

#[test]
fn a_page_turn_comes_back() {
    let page = page::page(1, 16);
    assert!(signals::events(&page.dump) == Ok(page.events));
}

/// The size that the timing asks for.
#[test]
fn a_page_turn_is_large() {
    let page = page::page(1, x3_panel().gates);
    assert!((20_000_000..35_000_000).contains(&page.dump.len()));
    assert!(page.events.len() > 100_000);
}
