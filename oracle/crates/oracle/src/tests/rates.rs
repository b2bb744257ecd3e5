//! The board's own clock (2026-05).

use crate::capture::{Capture, Configuration, RATE_BYTES};
use crate::clock::{Clock, GIGAHERTZ};
use crate::generate::{self, rate};
use crate::refusal::Refusal;
use crate::rng::Rng;
use crate::script::{Script, example_panel};
use crate::{cuts, differ, list, run, stats};

/// The capture of a file with this rate, where it is whole and has room.
fn with_rate(file: &[u8], rate: u64) -> Option<Vec<u8>> {
    let mut capture = Capture::read(file).ok()?;
    capture.configuration.rate = Some(rate);
    (capture.events.len() <= capture.configuration.most_events()).then(|| capture.encode())
}

#[test]
fn a_gigahertz_in_320_bytes_prints_what_312_bytes_print() {
    let mut compared = 0;
    for seed in 1..=1_000 {
        let plain = generate::plain(seed);
        let Some(rated) = with_rate(&plain, GIGAHERTZ) else {
            continue;
        };
        assert_eq!(rated.len(), plain.len() + RATE_BYTES);
        assert_eq!(run::run(&rated), run::run(&plain), "seed {seed}");
        assert_eq!(cuts::cuts(&rated), cuts::cuts(&plain), "seed {seed}");
        let words = differ::differ(["A", "B"], [&rated, &plain]);
        if run::accept_any(&plain).is_ok() {
            assert_eq!(words, "the captures agree\n", "seed {seed}");
        }
        compared += 1;
    }
    assert!(compared > 900, "{compared}");
}

/// The rates from 1 to 1,000,000,000 are taken, and 13 is all that another changes.
#[test]
fn rates_out_of_range_are_refused() {
    let refusal = |rate: u64| {
        let panel = Configuration {
            rate: Some(rate),
            ..example_panel()
        };
        run::accept(&Script::new(panel).file()).err()
    };
    for rate in [1, 2, 3, 32_768, GIGAHERTZ - 1, GIGAHERTZ] {
        assert_eq!(refusal(rate), None, "{rate}");
    }
    for rate in [0, GIGAHERTZ + 1, 1 << 32, 1 << 63, u64::MAX] {
        assert_eq!(refusal(rate), Some(Refusal::Rate), "{rate}");
    }
}

/// Worked anew in 128 bits: the least cycles that last as long, the most nanoseconds that fit.
#[test]
fn durations_round_up_and_cycles_down() {
    let billion = u128::from(GIGAHERTZ);
    let mut rng = Rng::new(5);
    for _ in 0..100_000 {
        let hertz = rng.edgy(&[1, 2, 3, GIGAHERTZ - 1, GIGAHERTZ], 1, GIGAHERTZ);
        let board = Clock::of(hertz).expect("it is in range");
        let number = rng.edgy(&[0, 1, GIGAHERTZ, u64::MAX], 0, u64::MAX);
        let product = u128::from(number) * u128::from(hertz);
        let cycles = u128::from(board.cycles(number));
        assert!(cycles * billion >= product);
        assert!(cycles == 0 || (cycles - 1) * billion < product);
        let nanos = u128::from(board.nanos(number));
        let fits = |nanos: u128| nanos * u128::from(hertz) <= u128::from(number) * billion;
        assert!(fits(nanos));
        assert!(nanos == u128::from(u64::MAX) || !fits(nanos + 1));
    }
}

/// What a refresh of three driven frames shows that a reset cuts so many cycles after its start:
/// none where it had ended.
fn cut(hertz: u64, period: u64, cycles: u64) -> Option<u8> {
    let panel = Configuration {
        full_swing: 4 * 14_000 * period,
        power_on: 0,
        periods: [period; 32],
        rate: Some(hertz),
        ..example_panel()
    };
    let script = Script::new(panel)
        .at(7)
        .command(0x00, &[0x3F])
        .command(0x04, &[])
        .command(0x24, &[0x80, 3, 0, 0, 0, 1])
        .command(0x12, &[])
        .at(7 + cycles)
        .assert_reset();
    let (capture, chip) = run::accept(&script.file()).expect("accepted");
    let image = run::events(chip, &capture.events, |_, _, _| ()).image;
    image.interrupted.then_some(image.pixels[0])
}

/// A cut at each cycle of short refreshes: the frames are counted in whole nanoseconds.
#[test]
fn a_cut_at_each_cycle() {
    let mut driven = 0;
    for (hertz, period) in [
        (1, 1),
        (1, 400_000_000),
        (2, 700_000_001),
        (3, 500_000_000),
        (3, 333_333_333),
        (3, 333_333_334),
        (7, GIGAHERTZ),
        (32_768, 30_517),
        (32_768, 30_518),
        (1_000_000, 2_500),
        (999_999_937, 9),
        (GIGAHERTZ - 1, 5),
        (GIGAHERTZ, 5),
    ] {
        let end = (5 * period * hertz).div_ceil(GIGAHERTZ);
        for cycles in 0..=end + 1 {
            let frames = cycles * GIGAHERTZ / hertz / period;
            let grey = [0, 64, 128, 191][frames.min(3) as usize];
            let expected = (cycles < end).then_some(grey);
            let found = cut(hertz, period, cycles);
            assert_eq!(found, expected, "{hertz} Hz, {period} ns, {cycles}");
            driven += u64::from(expected.is_some() && frames > 0);
        }
    }
    assert!(driven > 40, "{driven}");
}

/// A third of the seeds has a rate, and without it a seed's capture is the plain one.
#[test]
fn a_third_of_the_seeds_has_a_rate() {
    let mut rated = 0;
    for seed in 1..=3_000 {
        match rate::board(seed) {
            None => assert!(generate::rated(seed) == generate::plain(seed), "{seed}"),
            Some(_) => rated += 1,
        }
        let plain = Capture::salvage(&generate::plain(seed));
        let whole = Capture::is_whole(&generate::plain(seed));
        assert!(!whole || plain.is_some_and(|plain| plain.configuration.rate.is_none()));
    }
    assert!((900..1_100).contains(&rated), "{rated}");
}

/// At each class of rates that is not refused, refreshes end and are cut in mid-refresh.
#[test]
fn refreshes_end_and_are_cut_at_every_class() {
    let text = stats::stats(1, 6_000);
    for name in rate::names() {
        let head = format!("rate {name}: captures ");
        let line = text.lines().find_map(|line| line.strip_prefix(&head));
        let words = line.expect("each class has a line").split([' ', ',']);
        let numbers: Vec<u64> = words.filter_map(|word| word.parse().ok()).collect();
        let [captures, ended, cut, inner] = numbers[..] else {
            panic!("{name}: {numbers:?}");
        };
        assert!(captures >= 20, "{name}: {captures}");
        if !name.contains("refused") {
            assert!(ended > captures && cut >= inner, "{name}: {ended} {cut}");
            assert!(inner >= 8, "{name}: {inner}");
        }
    }
}

#[test]
fn a_list_names_the_rate() {
    let panel = Configuration {
        rate: Some(3),
        ..example_panel()
    };
    let text = list::list(&Script::new(panel).advance().file());
    assert!(text.contains("period of codes 0 to 31: 1000 ns\nrate 3 Hz\nevent 0 at 0: advance\n"));
    assert!(!list::list(&Script::new(example_panel()).file()).contains("rate"));
}
