//! VCOM by its own clock (2026-08).

use crate::capture::{self, Capture, Configuration, Event, VCOM_BY_FRAME};
use crate::chip::Judges;
use crate::generate::{self, rules};
use crate::rng::Rng;
use crate::script::{Script, example_panel};
use crate::vcom::Rule;
use crate::{differ, list, refreshes, run, stats};

/// Of 100,000 refreshes by rule 1 the published chip and the walk leave the same grey.
#[test]
fn the_walk_is_the_published_one_by_rule_1() {
    let mut rng = Rng::new(1);
    let mut apart = 0;
    for row in 0..100_000 {
        let [chip, walked, other] = refreshes::both_ways(&mut rng, Rule::ByPhase);
        assert_eq!(chip, walked, "row {row}");
        apart += u64::from(walked != other);
    }
    assert!(apart > 20_000, "{apart}");
}

/// Of refreshes by rule 2 the judge and the walk from the loaded bytes leave the same.
#[test]
fn the_judge_walks_what_was_loaded() {
    let mut rng = Rng::new(2);
    let mut apart = 0;
    for row in 0..3_000 {
        let [chip, walked, other] = refreshes::both_ways(&mut rng, Rule::ByFrame);
        assert_eq!(chip, walked, "row {row}");
        apart += u64::from(walked != other);
    }
    assert!(apart > 600, "{apart}");
}

/// In whole captures of rule 1, with every refresh walked, each picture is the published chip's:
/// numbers, states, cuts at any rate and earlier refreshes included.
#[test]
fn walked_captures_are_the_published_ones() {
    let mut pictures = 0;
    for seed in 1..700 {
        let Ok((capture, chip)) = run::accept(&generate::rated(seed)) else {
            continue;
        };
        let mut chip = chip.walking_all();
        for (index, &event) in capture.events.iter().enumerate() {
            run::step(&mut chip, event);
            let published = chip.published().panel_image();
            assert_eq!(chip.panel_image(), published, "seed {seed} event {index}");
        }
        pictures += chip.judges().walked();
    }
    assert!(pictures > 1_000, "{pictures}");
}

/// Where the tables have VCOM's timing the walk by rule 2 is the published chip's too.
#[test]
fn rules_agree_on_tables_of_one_timing() {
    let mut judges = Judges::default();
    for seed in 1..2_000 {
        let Ok((mut capture, _)) = run::accept(&generate::plain(seed)) else {
            continue;
        };
        capture.configuration.flags |= VCOM_BY_FRAME;
        let chip = |of: &Configuration| run::make(of).expect("accepted");
        let of = &mut capture.configuration;
        let outcome = run::events(chip(of), &capture.events, |_, _, _| ());
        if outcome.judges.walked() > 0 || outcome.judges.alike == 0 {
            continue;
        }
        judges.add(outcome.judges);
        let walked = run::events(chip(of).walking_all(), &capture.events, |_, _, _| ());
        assert_eq!(walked.image, outcome.image, "seed {seed}");
        of.flags ^= VCOM_BY_FRAME;
        let first = run::events(chip(of), &capture.events, |_, _, _| ());
        assert_eq!(first.image, outcome.image, "seed {seed}");
    }
    assert!(judges.alike > 500, "{judges:?}");
}

/// An event of kind 6 that names rule 1, where it is in force, is an advance.
#[test]
fn naming_the_rule_in_force_is_an_advance() {
    for seed in 1..400 {
        let Ok(mut capture) = Capture::read(&generate::plain(seed)) else {
            continue;
        };
        let plain = run::run(&capture.encode());
        let advances = capture.events.iter_mut();
        for event in advances.filter(|event| event.kind == capture::ADVANCE) {
            (event.kind, event.value) = (capture::VCOM_RULE, 1);
        }
        assert_eq!(run::run(&capture.encode()), plain, "seed {seed}");
    }
}

/// Rule 2 changes nothing but pictures: reads, rows, deadlines and planes are those of rule 1.
#[test]
fn only_pictures_depend_on_the_rule() {
    let mut apart = 0;
    for seed in 1..300 {
        let Ok((mut capture, first)) = run::accept(&generate::ruled(seed)) else {
            continue;
        };
        let mut seen = Vec::new();
        let one = run::events(first, &capture.events, |_, _, chip| {
            seen.push((chip.next_deadline(), chip.panel_image().generation));
        });
        capture.configuration.flags &= !VCOM_BY_FRAME;
        for Event { kind, value, .. } in &mut capture.events {
            if *kind == capture::VCOM_RULE {
                (*kind, *value) = (capture::ADVANCE, 0);
            }
        }
        let mut seen = seen.into_iter();
        let chip = run::make(&capture.configuration).expect("accepted");
        let other = run::events(chip, &capture.events, |_, _, chip| {
            let shown = (chip.next_deadline(), chip.panel_image().generation);
            assert_eq!(seen.next(), Some(shown), "seed {seed}");
        });
        assert_eq!(
            (one.reads, one.log),
            (other.reads, other.log),
            "seed {seed}"
        );
        apart += u64::from(one.image != other.image);
    }
    assert!(apart > 20, "{apart}");
}

/// Two seeds in five have a host that chooses, and without it a seed's capture is the plain one.
#[test]
fn two_seeds_in_five_choose_the_rule() {
    let mut chosen = 0;
    for seed in 1..=3_000 {
        match rules::rules(seed) {
            None => assert!(generate::ruled(seed) == generate::plain(seed), "{seed}"),
            Some(_) => chosen += 1,
        }
    }
    assert!((1_100..1_300).contains(&chosen), "{chosen}");
}

/// Everything that is counted of the rules occurs.
#[test]
fn every_change_of_the_rule_occurs() {
    let text = stats::stats(1, 3_000);
    let lines = text.lines().filter(|line| line.contains("rule"));
    let mut counted = 0;
    for line in lines {
        let count = line
            .rsplit(' ')
            .next()
            .and_then(|word| word.parse::<u64>().ok());
        assert!(count.is_some_and(|count| count >= 5), "{line}");
        counted += 1;
    }
    assert!(counted >= 19, "{counted}");
}

#[test]
fn kind_6_in_words() {
    let mut panel = example_panel();
    panel.flags = 12;
    let one = Script::new(panel.clone()).at(7).rule(2).file();
    let text = list::list(&one);
    assert!(text.contains("flags 12 (positive drives black, VCOM by rule 2)\n"));
    assert!(text.contains("event 0 at 7: VCOM by rule 2\n"));
    let other = Script::new(panel).at(7).rule(1).file();
    let words = differ::differ(["A", "B"], [&one, &other]);
    assert!(
        words.starts_with("event 0: rule 2 at 7, rule 1 at 7\n"),
        "{words}"
    );
}
