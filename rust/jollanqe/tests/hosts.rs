//! What a Rust host can get wrong, each with its outcome; and the worked example of docs/FORMAT.md.

use jollanqe::{
    Answer, Configuration, Event, Panel, Parts, Plane, Refused, RunError, Variant, What,
    read_capture, write_capture,
};

const SWING: u64 = 28_000_000;

/// 8 by 1 pixels, of which a frame of the usual level is half a swing.
fn small() -> Configuration {
    Configuration {
        rows_reversed: false,
        sources: 8,
        gates: 1,
        initial_grey: 0,
        ambient: 0,
        full_swing: SWING,
        power_on: 100,
        power_off: 0,
        deep_sleep: 0,
        soft_reset: 0,
        hardware_reset: 0,
        frame_periods: [1_000; 32],
        ..Configuration::x3(Variant::Uc8253)
    }
}

/// Four pixels are being driven from black to white, from 100 to 3,100.
fn refreshing() -> Panel {
    let mut panel = Panel::new(&small()).expect("made");
    let mut send = |at, command, data: &[u8]| panel.send(at, command, data).expect("taken");
    send(0, 0x00, &[0x3F]);
    send(0, 0x04, &[]);
    send(100, 0x22, &[0x80, 1, 0, 0, 0, 1]);
    send(100, 0x13, &[0xF0]);
    send(100, 0x12, &[]);
    panel
}

fn numbers<T>(result: Result<T, Refused>) -> (u8, &'static str) {
    result.err().map_or((0, ""), |no| (no.number(), no.word()))
}

/// Every call, each on a panel of its own.
type Call = fn(&mut Panel) -> Result<(), Refused>;
const LATE: u64 = 5_000;
const CALLS: [Call; 8] = [
    |panel| panel.command(LATE, 0x12),
    |panel| panel.data(LATE, 7),
    |panel| panel.read(LATE).map(drop),
    |panel| panel.reset(LATE, true),
    |panel| panel.reset(LATE, false),
    |panel| panel.advance(LATE),
    |panel| panel.vcom_rule(LATE, true),
    |panel| panel.send(LATE, 0x10, &[1, 2, 3]),
];

/// Every call on these parts is refused by a number and changes nothing.
fn refused(number: u8, word: &str, change: impl Fn(&mut Parts)) {
    let mut parts = refreshing().into_parts();
    change(&mut parts);
    for call in CALLS {
        let mut panel = Panel::from_parts(parts.clone());
        assert_eq!(numbers(call(&mut panel)), (number, word));
        assert_eq!(*panel.parts(), parts);
    }
}

#[test]
fn the_worked_example() {
    let mut panel = refreshing();
    assert_eq!(panel.deadline(), Ok(Some(3_100)));
    assert_eq!(panel.busy(3_099), Ok(true));
    assert_eq!(panel.busy(3_100), Ok(false));
    panel.advance(3_100).expect("taken");
    assert_eq!(panel.deadline(), Ok(None));
    assert_eq!(panel.picture(), [128, 128, 128, 128, 0, 0, 0, 0]);
    assert_eq!(panel.picture_row(0), panel.picture());
    assert_eq!(panel.picture_row(1), []);
    assert_eq!(panel.graymap()[..11], *b"P5\n8 1\n255\n");
    let image = panel.image();
    assert_eq!((image.generation, image.started, image.at), (1, 100, 3_100));
    assert_eq!(panel.bit(Plane::New, 3, 0), Ok(Some(true)));
    assert_eq!(panel.bit(Plane::New, 4, 0), Ok(Some(false)));
    assert_eq!(panel.bit(Plane::Old, 3, 0), Ok(Some(false)));
    assert_eq!(panel.bit(Plane::Old, 800, 0), Ok(None));
    assert_eq!(panel.rows(), [[100, 13, 34, 6, 0]]);
    assert_eq!(panel.take(), Ok(vec![[100, 13, 34, 6, 0]]));
    assert_eq!((panel.rows().len(), panel.dropped()), (0, 0));
}

#[test]
fn a_configuration_out_of_range_is_refused_by_1_to_4_and_13() {
    let made = |change: fn(&mut Configuration)| {
        let mut configuration = small();
        change(&mut configuration);
        numbers(Panel::new(&configuration))
    };
    assert_eq!(made(|of| of.sources = 0), (1, "empty panel"));
    assert_eq!(made(|of| of.gates = 601), (2, "oversized panel"));
    assert_eq!(made(|of| of.sources = 65_535), (2, "oversized panel"));
    assert_eq!(made(|of| of.full_swing = 0), (3, "swing"));
    assert_eq!(made(|of| of.full_swing = 1 << 63), (3, "swing"));
    assert_eq!(made(|of| of.frame_periods[31] = 0), (4, "frame period"));
    assert_eq!(made(|of| of.rate = 0), (13, "rate out of range"));
    assert_eq!(
        made(|of| of.rate = 1_000_000_001),
        (13, "rate out of range")
    );
    assert_eq!(made(|of| of.rate = 1), (0, ""));
}

#[test]
fn a_short_or_a_long_buffer_is_refused_by_5() {
    let word = "buffer length";
    refused(5, word, |parts| parts.old.truncate(59_999));
    refused(5, word, |parts| parts.old.push(0));
    refused(5, word, |parts| parts.new.clear());
    refused(5, word, |parts| parts.states.truncate(7));
    refused(5, word, |parts| parts.picture.push(1));
    refused(5, word, |parts| parts.picture.clear());
    refused(5, word, |parts| parts.rows.truncate(5_119));
    refused(5, word, |parts| parts.record.panel.sources = 16);
    let mut parts = refreshing().into_parts();
    parts.rows.truncate(3);
    parts.old.truncate(3);
    let mut panel = Panel::from_parts(parts);
    assert_eq!(numbers(panel.take()), (5, word));
    assert_eq!(numbers(panel.bit(Plane::Old, 0, 0)), (5, word));
    assert!(panel.rows().is_empty());
}

#[test]
fn a_foreign_record_is_refused_by_6() {
    let word = "foreign record";
    refused(6, word, |parts| parts.record.panel.gates = 0);
    refused(6, word, |parts| parts.record.regs.window.x1 = 800);
    refused(6, word, |parts| parts.record.log.stored = 1_025);
    refused(6, word, |parts| parts.record.waveform.frame_ns = 0);
    let mut parts = refreshing().into_parts();
    parts.record.timing.frame_period[7] = 0;
    let panel = Panel::from_parts(parts);
    assert_eq!(numbers(panel.busy(0)), (6, word));
    assert_eq!(numbers(panel.deadline()), (6, word));
    assert_eq!(numbers(panel.bit(Plane::New, 0, 0)), (6, word));
}

#[test]
fn foreign_contents_are_refused_by_7() {
    let word = "foreign contents";
    refused(7, word, |parts| parts.states[7] = -1);
    refused(7, word, |parts| parts.states[0] = SWING as i64 + 1);
    let mut parts = refreshing().into_parts();
    parts.states[0] = -1;
    assert_eq!(Panel::from_parts(parts).advance(3_099), Ok(()));
}

#[test]
fn a_run_that_is_refused_in_part_goes_on() {
    let mut parts = refreshing().into_parts();
    parts.states[0] = -1;
    let mut panel = Panel::from_parts(parts);
    let advance = |at| Event {
        at,
        what: What::Advance,
    };
    let ran = panel.run(&[advance(LATE), advance(300)]);
    assert_eq!(numbers(ran), (7, "foreign contents"));
    assert_eq!(panel.record().now, 300);
}

#[test]
fn ragged_bytes_are_no_events() {
    let mut panel = refreshing();
    let before = panel.clone();
    let event = Event {
        at: LATE,
        what: What::Advance,
    };
    let bytes = event.bytes();
    for length in 1..10 {
        let ran = panel.run_bytes(&bytes[..length], &mut [0]);
        assert_eq!(ran, Err(RunError::Ragged(length)));
    }
    assert_eq!(panel, before);
    assert_eq!(panel.run_bytes(&[], &mut []), Ok(()));
    assert_eq!(panel, before);
    assert_eq!(panel.run_bytes(&bytes, &mut []), Ok(()));
    assert_eq!(panel.image().generation, 1);
}

#[test]
fn a_kind_that_is_not_listed_does_nothing() {
    let mut panel = refreshing();
    let before = panel.clone();
    for kind in (0..=0).chain(7..=255) {
        let bytes = [0xFF, 0, 0, 0, 0, 0, 0, 0xFF, kind, 1];
        let mut answers = [0];
        assert_eq!(panel.run_bytes(&bytes, &mut answers), Ok(()));
        assert_eq!(answers, [Answer::NoRead.number()]);
        assert_eq!(numbers(Event::listed(0, kind, 0)), (9, "bad event"));
    }
    assert_eq!(panel, before);
    assert_eq!(numbers(Event::listed(0, 3, 1)), (9, "bad event"));
    assert_eq!(numbers(Event::listed(0, 4, 2)), (9, "bad event"));
    assert_eq!(numbers(Event::listed(0, 5, 1)), (9, "bad event"));
    assert_eq!(numbers(Event::listed(0, 6, 0)), (9, "bad event"));
    assert_eq!(numbers(Event::listed(0, 6, 3)), (9, "bad event"));
}

#[test]
fn a_run_is_its_calls() {
    let configuration = Configuration {
        variant: Variant::Uc8279d,
        ..small()
    };
    let whats = [
        What::Command(0x71),
        What::Read,
        What::Read,
        What::Data(3),
        What::Reset(true),
        What::Reset(false),
        What::Advance,
        What::VcomByFrame(true),
        What::VcomByFrame(false),
        What::VcomByFrame(true),
    ];
    let events: Vec<Event> = (0..)
        .zip(whats)
        .map(|(at, what)| Event { at, what })
        .collect();
    let mut one = Panel::new(&configuration).expect("made");
    let mut other = one.clone();
    let answers = one.run(&events).expect("taken");
    let single: Result<Vec<_>, _> = events.iter().map(|&event| other.event(event)).collect();
    assert_eq!(Ok(&answers), single.as_ref());
    assert_eq!(
        answers[..3],
        [Answer::NoRead, Answer::Byte(0x13), Answer::Nothing]
    );
    assert_eq!(one, other);
}

/// The grey of five frames beside VCOM's 0 2 0 2 0 2, each an eighth of a swing where VCOM has 0.
fn drawn(vcom_by_frame: bool, before: Option<bool>, under_way: Option<bool>) -> u8 {
    let mut panel = Panel::new(&Configuration {
        full_swing: 4 * SWING,
        vcom_by_frame,
        ..small()
    })
    .expect("made");
    panel.send(0, 0x00, &[0x3F]).expect("taken");
    panel.send(0, 0x04, &[]).expect("taken");
    for (table, bytes) in [(0x20, [0x20, 1, 1, 0, 0, 3]), (0x24, [0x80, 5, 0, 0, 0, 1])] {
        panel.send(100, table, &bytes).expect("taken");
    }
    let change = |at, rule: Option<bool>, panel: &mut Panel| {
        if let Some(by_frame) = rule {
            panel.vcom_rule(at, by_frame).expect("taken");
            assert_eq!(panel.record().vcom_by_frame, by_frame);
        }
    };
    change(100, before, &mut panel);
    panel.send(100, 0x12, &[]).expect("taken");
    change(3_000, under_way, &mut panel);
    panel.advance(8_100).expect("taken");
    assert_eq!(panel.record().made_by_frame, vcom_by_frame);
    panel.picture()[0]
}

#[test]
fn vcom_goes_by_frame_or_by_phase() {
    assert_eq!(
        [drawn(false, None, None), drawn(true, None, None)],
        [159, 96]
    );
    assert_eq!(
        [
            drawn(false, Some(true), None),
            drawn(true, Some(false), None)
        ],
        [96, 159]
    );
    assert_eq!(
        [
            drawn(false, None, Some(true)),
            drawn(true, None, Some(false))
        ],
        [159, 96]
    );
}

/// The grey of a state at a top, in 128 bits.
fn grey(state: i64, top: u16) -> u16 {
    let (state, top) = (state as u128, u128::from(top));
    ((2 * state * top + u128::from(SWING)) / (2 * u128::from(SWING))) as u16
}

#[test]
fn a_picture_at_a_top_is_drawn_from_the_states() {
    let mut parts = refreshing().into_parts();
    parts.states = vec![
        0, 1, 213, 214, 9_999_999, 14_000_000, 27_999_999, 28_000_000,
    ];
    let panel = Panel::from_parts(parts.clone());
    for top in [1, 2, 255, 256, 32_768, 65_535] {
        let mut wide = [7; 8];
        assert_eq!(panel.picture_at(top, &mut wide), Ok(()));
        let must: Vec<u16> = parts.states.iter().map(|&at| grey(at, top)).collect();
        assert_eq!(wide[..], must);
    }
    let (mut at_0, mut at_255) = ([7; 8], [8; 8]);
    assert_eq!(panel.picture_at(0, &mut at_0), Ok(()));
    assert_eq!(panel.picture_at(255, &mut at_255), Ok(()));
    assert_eq!(at_0, at_255);
    assert_eq!(*panel.parts(), parts);
}

#[test]
fn at_top_255_it_is_the_picture_after_a_refresh() {
    let mut panel = refreshing();
    panel.advance(3_100).expect("taken");
    assert_eq!(panel.graymap_at(255), Ok(panel.graymap()));
    assert_eq!(panel.graymap_at(0), Ok(panel.graymap()));
    let wide = [&b"P5\n8 1\n65535\n"[..], &[0x80, 0].repeat(4), &[0; 8]].concat();
    assert_eq!(panel.graymap_at(65_535), Ok(wide));
    // right after making the picture is the initial grey, and the state the nearest below it
    let made = Panel::new(&Configuration {
        full_swing: 3,
        initial_grey: 200,
        ..small()
    });
    let (panel, mut wide) = (made.expect("made"), [0; 8]);
    assert_eq!(panel.picture(), [200; 8]);
    assert_eq!(panel.picture_at(255, &mut wide), Ok(()));
    assert_eq!(wide, [170; 8]);
}

#[test]
fn a_picture_at_a_top_is_refused_by_6_5_and_7() {
    let sound = refreshing().into_parts();
    let asked = |change: fn(&mut Parts), length: usize| {
        let mut parts = sound.clone();
        change(&mut parts);
        let (panel, mut wide) = (Panel::from_parts(parts), vec![7; length]);
        let number = numbers(panel.picture_at(65_535, &mut wide)).0;
        assert!(number == 0 || wide == vec![7; length]);
        number
    };
    assert_eq!(asked(|_| (), 8), 0);
    for length in [0, 7, 9] {
        assert_eq!(asked(|_| (), length), 5);
    }
    assert_eq!(asked(|parts| parts.states.truncate(7), 8), 5);
    assert_eq!(asked(|parts| parts.states.push(0), 8), 5);
    assert_eq!(asked(|parts| parts.record.regs.start.h = 1_024, 7), 6);
    assert_eq!(asked(|parts| parts.states[7] = -1, 8), 7);
    assert_eq!(asked(|parts| parts.states[0] = SWING as i64 + 1, 8), 7);
    assert_eq!(asked(|parts| parts.states[0] = -1, 9), 5);
    // what it is not lent it does not test
    assert_eq!(asked(|parts| parts.picture.clear(), 8), 0);
}

#[test]
fn a_capture_is_written_and_read() {
    let whats = [What::Read, What::Reset(true), What::VcomByFrame(true)];
    let events = whats.map(|what| Event { at: 7, what });
    let file = write_capture(&small(), &events);
    assert_eq!(read_capture(&file), Ok((small(), events.to_vec())));
    let broken = (8, "broken capture");
    for length in 0..file.len() {
        assert_eq!(numbers(read_capture(&file[..length])), broken);
    }
    let changed = |at: usize, byte: u8| {
        let mut file = file.clone();
        file[at] = byte;
        numbers(read_capture(&file))
    };
    assert_eq!(changed(file.len() - 8, 31), broken);
    assert_eq!(changed(file.len() - 4, 4), broken);
    let bad = (9, "bad event");
    assert_eq!(changed(30, 2), bad); // the variant
    assert_eq!(changed(31, 16), bad); // a flag
    assert_eq!(changed(31, 15), (0, ""));
    assert_eq!(changed(8, 7), bad); // a kind
    assert_eq!(changed(29, 3), bad); // a rule
    assert_eq!(changed(9, 1), bad); // a value
}

#[test]
fn a_capture_with_a_rate_is_written_and_read() {
    let events = [What::Read, What::Data(9)].map(|what| Event { at: 7, what });
    for rate in [0, 1, 32_768, 999_999_999, 1_000_000_001, u64::MAX] {
        let of = Configuration { rate, ..small() };
        let file = write_capture(&of, &events);
        assert_eq!(file.len(), 20 + 320 + 8);
        assert_eq!(read_capture(&file), Ok((of, events.to_vec())));
        for length in 0..file.len() {
            assert_eq!(
                numbers(read_capture(&file[..length])),
                (8, "broken capture")
            );
        }
    }
    let file = write_capture(&small(), &events);
    assert_eq!(file.len(), 20 + 312 + 8);
    let (front, trailer) = file.split_at(file.len() - 8);
    let said = [front, &1_000_000_000_u64.to_le_bytes(), trailer].concat();
    assert_eq!(read_capture(&said), Ok((small(), events.to_vec())));
    let half = [front, &[0; 4], trailer].concat();
    assert_eq!(numbers(read_capture(&half)), (8, "broken capture"));
}

#[test]
fn a_refusal_says_what_it_is() {
    let mut configuration = small();
    configuration.gates = 0;
    let refused = Panel::new(&configuration).expect_err("empty");
    assert_eq!(refused.to_string(), "refused 1: empty panel");
    let ragged = RunError::Ragged(9).to_string();
    assert_eq!(ragged, "9 bytes are no whole events of 10");
    assert_eq!(RunError::from(refused).to_string(), refused.to_string());
}
