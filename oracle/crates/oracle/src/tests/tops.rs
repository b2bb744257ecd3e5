//! Pictures at tops (2026-03).

use chips::probe;

use crate::rng::Rng;
use crate::tops::{self, Shades};
use crate::{cases, generate, jobs, picture, run};

/// At top 255, and at 0, the grey is the published one, of any state and swing.
#[test]
fn the_grey_at_255_is_the_published_one() {
    let mut rng = Rng::new(3);
    for row in 0..200_000 {
        let swing = rng.wide(63) as i64;
        let state = rng.between(0, swing as u64) as i64;
        let grey = u16::from(probe::gray(state, swing));
        assert_eq!(tops::grey(state, swing, 255), grey, "row {row}");
        assert_eq!(tops::grey(state, swing, 0), grey, "row {row}");
    }
}

/// Black is 0 and white the top; between them halves go up.
#[test]
fn greys_worked_by_hand() {
    for top in [1, 2, 255, 256, 65_535] {
        for swing in [1, 3, 28_000_000, i64::MAX] {
            assert_eq!(tops::grey(0, swing, top), 0);
            assert_eq!(tops::grey(swing, swing, top), top);
        }
        assert_eq!(tops::grey(1, 2, top), top.div_ceil(2));
    }
    // a sixth of 65,535 is 10,922.5; two thirds of white are nearer to white
    assert_eq!(tops::grey(1, 6, 65_535), 10_923);
    assert_eq!(tops::grey(2, 3, 1), 1);
    assert_eq!(tops::grey(1, 3, 1), 0);
    assert_eq!(tops::grey(i64::MAX / 2, i64::MAX, 65_535), 32_767);
    assert_eq!(tops::grey(i64::MAX / 2 + 1, i64::MAX, 65_535), 32_768);
}

/// After a refresh's end the picture at top 255 is the picture, of captures of either rule, whole
/// and cut, after every event.
#[test]
fn at_255_it_is_the_picture() {
    let (mut pictures, mut cut, mut walked) = (0, 0, 0);
    for seed in 1..250 {
        let Ok((capture, mut chip)) = run::accept(&generate::make(seed)) else {
            continue;
        };
        let mut seen = 0;
        for &event in &capture.events {
            run::step(&mut chip, event);
            if chip.panel_image().generation == seen {
                continue;
            }
            seen = chip.panel_image().generation;
            let image: Vec<u16> = chip
                .panel_image()
                .pixels
                .iter()
                .map(|&of| of.into())
                .collect();
            assert_eq!(Shades::of(&chip, 255).greys(), image, "seed {seed}");
            pictures += 1;
            cut += u64::from(chip.panel_image().interrupted);
        }
        walked += chip.judges().walked();
    }
    assert!(
        pictures > 200 && cut > 20 && walked > 50,
        "{pictures} {cut} {walked}"
    );
}

/// Right after making the picture is the initial grey, and that at a top the states': grey 200 of a
/// swing of 3 is two thirds.
#[test]
fn at_making_the_states_are_asked() {
    let all = cases::all();
    let case = all.iter().find(|case| case.name == "undriven-grey");
    let mut capture = run::accept_any(&case.expect("it is there").file)
        .ok()
        .expect("it is taken")
        .0;
    capture.events.clear();
    let (file, pixels) = (capture.encode(), capture.configuration.pixels() as usize);
    assert!(picture::pgm(&file).ends_with(&vec![200; pixels]));
    assert!(tops::pgm(&file, 255).ends_with(&vec![170; pixels]));
    let two = 43_690u16.to_be_bytes().repeat(pixels);
    assert!(tops::pgm(&file, 65_535).ends_with(&two));
    assert!(jobs::lines(&file).contains("poweron"));
}
