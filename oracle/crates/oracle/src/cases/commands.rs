//! Cases of commands: table lengths, clocks, reads, resets, sleep, refused refreshes, lost rows.

use crate::capture::Configuration;
use crate::script::{Script, example_panel};

use super::Case;

/// KK to white in one frame, then `count` bytes in all.
fn table(count: usize) -> Vec<u8> {
    let mut bytes = vec![0x80, 1, 0, 0, 0, 1];
    bytes.resize(count, 0);
    bytes
}

fn loaded(count: usize) -> Script {
    Script::new(example_panel())
        .power_up()
        .command(0x24, &table(count))
        .command(0x12, &[])
        .at(3_100)
        .advance()
}

/// Loads at 100, 200, .. 600, each closed by the next; 92 closes the last at 700.
fn lengths() -> Script {
    let loads = [
        (0x20, 41),
        (0x21, 42),
        (0x22, 43),
        (0x23, 60),
        (0x24, 61),
        (0x24, 300),
    ];
    loads
        .iter()
        .zip(1..)
        .fold(
            Script::new(example_panel()).power_up(),
            |script, (&(command, count), hundreds)| {
                script.at(100 * hundreds).command(command, &table(count))
            },
        )
        .at(700)
        .command(0x92, &[])
}

/// Kind 13 comes at the close, kind 4 at the byte: of 61 and 300 bytes kind 4 alone.
const LENGTHS_OUTPUT: &str = "\
diag 200 13 32 41 0
diag 400 13 34 43 0
diag 500 13 35 60 0
diag 500 4 36 0 0
diag 600 4 36 0 0
dropped 0
image 8 1 0 poweron 0 0 0
0 0 0 0 0 0 0 0
";

/// 1,024 unknown commands, and then a load of 61 bytes and one of 43, which 92 closes.
fn log_full() -> Script {
    let full = (0..1_024).fold(Script::new(example_panel()), |script, _| {
        script.command(0xFF, &[])
    });
    full.power_up()
        .command(0x24, &table(61))
        .command(0x22, &table(43))
        .command(0x92, &[])
}

/// Dropped: kind 4 of the first load, kind 13 of the second.
fn log_full_output() -> String {
    "diag 0 1 255 0 0\n".repeat(1_024) + "dropped 2\nimage 8 1 0 poweron 0 0 0\n0 0 0 0 0 0 0 0\n"
}

pub fn cases() -> Vec<Case> {
    let mut cases = tables();
    cases.extend(clocks());
    cases.extend(reads());
    cases.extend(resets());
    cases.extend(refused_commands());
    cases
}

fn tables() -> Vec<Case> {
    vec![
        Case::new(
            "table-60-bytes",
            "a table load of 60 bytes: kind 13, and the first 42 drive",
            loaded(60),
        ),
        Case::new(
            "table-61-bytes",
            "a table load of 61 bytes: kind 4 for the extra byte, no kind 13 on closing",
            loaded(61),
        ),
        Case::new(
            "table-lengths",
            "table loads of 41, 42, 43, 60, 61 and 300 bytes: one row for each fault; worked by hand",
            lengths(),
        )
        .worked(LENGTHS_OUTPUT),
        Case::new(
            "table-log-full",
            "loads of 61 and 43 bytes with the log full: two rows are dropped, not three; worked by hand",
            log_full(),
        )
        .worked(log_full_output()),
        Case::new(
            "table-0-bytes",
            "a table load without bytes: kind 5, and the old bytes drive",
            Script::new(example_panel())
                .power_up()
                .command(0x24, &table(42))
                .command(0x24, &[])
                .command(0x12, &[])
                .at(3_100)
                .advance(),
        ),
    ]
}

fn clocks() -> Vec<Case> {
    let back = Script::new(example_panel())
        .power_up()
        .command(0x24, &table(42))
        .command(0x12, &[])
        .at(50)
        .command(0x71, &[])
        .reads(1)
        .at(3_099)
        .command(0x10, &[])
        .at(7)
        .advance()
        .at(3_100)
        .advance()
        .at(0)
        .command(0xFF, &[]);
    vec![Case::new(
        "clock-back",
        "times that go back: reads carry their own, rows the clock, and the end comes once",
        back,
    )]
}

fn panel_of(variant: u8) -> Configuration {
    Configuration {
        variant,
        ambient: 0xE7,
        ..example_panel()
    }
}

/// Every read command with two reads more than it can answer, then one under a write command.
fn questions(variant: u8) -> Script {
    let asked = [(0x70, 7), (0x71, 3), (0x40, 4), (0x11, 3), (0x81, 2)];
    asked
        .iter()
        .fold(
            Script::new(panel_of(variant)),
            |script, &(command, count)| script.command(command, &[]).reads(count),
        )
        .command(0x04, &[])
        .reads(1)
        .at(50)
        .command(0x71, &[])
        .reads(1)
        .at(100)
        .reads(1)
        .command(0x71, &[0x00])
        .reads(1)
}

fn reads() -> Vec<Case> {
    vec![
        Case::new(
            "reads-uc8279d",
            "70, 71, 40 and 11 on the UC8279d, past their bytes; 71 while busy and after",
            questions(1),
        ),
        Case::new(
            "reads-uc8253",
            "the same reads on the UC8253: none, and kind 14 at each first one",
            questions(0),
        ),
    ]
}

fn slow_panel() -> Configuration {
    Configuration {
        power_off: 20,
        deep_sleep: 30,
        soft_reset: 40,
        hardware_reset: 50,
        ..example_panel()
    }
}

/// A soft reset of 40 ns at 100, a command 1 ns before its end and one at it.
fn soft_reset() -> Script {
    Script::new(slow_panel())
        .power_up()
        .command(0x24, &table(42))
        .command(0x00, &[0x3E, 0x12, 0x34])
        .at(139)
        .command(0x04, &[])
        .at(140)
        .command(0x00, &[0x3F])
        .command(0x12, &[])
}

/// Deep sleep of 30 ns at 100, then a reset whose 50 ns begin at 150.
fn deep_sleep() -> Script {
    Script::new(slow_panel())
        .power_up()
        .command(0x07, &[0xA4])
        .command(0x07, &[0xA5])
        .at(129)
        .command(0x71, &[])
        .command(0x12, &[])
        .at(130)
        .command(0x71, &[])
        .at(140)
        .assert_reset()
        .command(0x00, &[])
        .at(150)
        .release_reset()
        .at(199)
        .command(0x00, &[])
        .at(200)
        .command(0x12, &[])
}

fn stray_data() -> Script {
    Script::new(slow_panel())
        .data(&[0x11, 0x22])
        .command(0x90, &[0x00])
        .assert_reset()
        .assert_reset()
        .data(&[0x33, 0x44])
        .release_reset()
        .release_reset()
        .at(50)
        .data(&[0x55])
}

fn resets() -> Vec<Case> {
    vec![
        Case::new(
            "soft-reset",
            "00 with bit 0 clear: later bytes pass silently, commands are dropped until its end",
            soft_reset(),
        ),
        Case::new(
            "deep-sleep",
            "07 with another code, then A5: busy, asleep, woken by reset alone",
            deep_sleep(),
        ),
        Case::new(
            "stray-data",
            "data before a command: kind 3 once, and once more after a reset by pin",
            stray_data(),
        ),
    ]
}

/// 12 after 00 with bit 5, 4 or 1 clear, then with power off.
fn refused_refreshes() -> Script {
    let modes = [0x1F, 0x2F, 0x3D, 0x3F];
    modes
        .iter()
        .fold(Script::new(example_panel()), |script, &mode| {
            script.command(0x00, &[mode]).command(0x12, &[])
        })
}

fn counted_only() -> Script {
    Script::new(example_panel())
        .command(0x15, &[])
        .command(0x17, &[0xA5, 0x00])
        .command(0xA0, &[0x00])
        .command(0xA1, &[])
        .command(0x50, &[0x31, 0x07, 0x00])
        .command(0x61, &[0x00, 0x08, 0x00])
        .command(0x26, &[0x01])
}

fn rows_dropped() -> Script {
    let unknown = (0..1_030).fold(Script::new(example_panel()), |script, _| {
        script.command(0xFF, &[])
    });
    unknown
        .power_up()
        .command(0x24, &table(6))
        .command(0x12, &[])
        .at(3_100)
        .advance()
}

fn refused_commands() -> Vec<Case> {
    vec![
        Case::new(
            "refused-refreshes",
            "12 with bit 5, 4 or 1 of 00 clear gives kind 11, and with power off kind 12",
            refused_refreshes(),
        ),
        Case::new(
            "counted-only",
            "15, 17, A0 and A1 are counted: kinds 2, 4 and 5; too few and too many elsewhere",
            counted_only(),
        ),
        Case::new(
            "rows-dropped",
            "1,031 rows: 1,024 are stored, the others counted, and the refresh still drives",
            rows_dropped(),
        ),
        Case::new(
            "no-events",
            "a capture without events: the picture of making",
            Script::new(example_panel()),
        ),
    ]
}
