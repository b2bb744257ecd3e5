//! The sentences of request 2026-01.

use oracle::capture::{COMMAND, Configuration, DATA, RESET, VCOM_BY_FRAME};
use oracle::script::example_panel;

use super::Answer::{Events, Refused};
use super::{BASE, Case, MALFORMED, Row, SAME, SIGNALS, bytes};

const NOTHING: super::Answer = Events(&[], 100);

// An edit a line.
#[rustfmt::skip]
pub const ROWS: &[Row] = &[
    Row {
        shows: "while `cs` is 0, `mosi` is taken at each rise of `clk`, highest bit first",
        edits: &[
            ("cs-stays-1", b"#10\n0!\n", b"#10\n", NOTHING),
            ("cs-falls-late", b"#10\n0!\n0\"\n#20\n1#\n", b"#10\n0\"\n#20\n1#\n0!\n", NOTHING),
            ("cs-falls-at-the-rise", b"#10\n0!\n0\"\n#20\n", b"#10\n0\"\n#20\n0!\n", SAME),
            ("mosi-between", b"#45\n0#\n", b"#42\n0$\n#45\n0#\n1$\n", SAME),
            ("last-bit-0", b"#85\n0#\n1$\n", b"#85\n0#\n", Events(&[(90, COMMAND, 0x34)], 100)),
            ("seven-bits", b"#90\n1#\n#95\n0#\n", b"", NOTHING),
            ("nine-bits", b"#95\n0#\n", b"#95\n0#\n#96\n1#\n", SAME),
        ],
    },
    Row {
        shows: "the eighth bit makes a command if `dc` is 0, else data, at that time",
        edits: &[
            ("dc-1", b"0!\n0\"\n", b"0!\n", Events(&[(90, DATA, 0x35)], 100)),
            ("dc-1-before-the-eighth", b"#90\n1#\n", b"#90\n1\"\n1#\n", Events(&[(90, DATA, 0x35)], 100)),
            ("dc-1-after-the-eighth", b"#90\n1#\n", b"#90\n1#\n1\"\n", SAME),
            ("dc-1-at-the-fourth", b"#50\n1#\n", b"#50\n1\"\n1#\n0\"\n", SAME),
        ],
    },
    Row {
        shows: "a rise of `cs` drops a begun byte",
        edits: &[
            ("cs-rises-after-seven", b"#85\n0#\n", b"#84\n1!\n0!\n#85\n0#\n", NOTHING),
            ("cs-rises-before-the-first", b"#20\n1#\n", b"#19\n1!\n0!\n#20\n1#\n", SAME),
            ("cs-rises-after-a-begun-byte", b"#20\n1#\n#25\n0#\n", b"#12\n1#\n0#\n1#\n0#\n#13\n1!\n0!\n#20\n1#\n#25\n0#\n", SAME),
            ("cs-1-again", b"#100\n1!\n", b"#100\n1!\n1!\n", SAME),
            ("cs-0-again", b"#50\n1#\n", b"#50\n0!\n1#\n0!\n", SAME),
            ("cs-rises-at-the-eighth", b"#90\n1#\n", b"#90\n1!\n1#\n", NOTHING),
            ("cs-rises-after-the-eighth", b"#90\n1#\n", b"#90\n1#\n1!\n", SAME),
        ],
    },
    Row {
        shows: "a change of `rst` is a reset event, 0 asserting; it drops no bits",
        edits: &[
            (
                "rst-in-the-byte",
                b"#50\n1#\n#55\n0#\n",
                b"#50\n0%\n1#\n#55\n0#\n1%\n",
                Events(&[(50, RESET, 1), (55, RESET, 0), (90, COMMAND, 0x35)], 100),
            ),
            ("rst-0-at-first", b"0$\n1%\n", b"0$\n0%\n", Events(&[(0, RESET, 1), (90, COMMAND, 0x35)], 100)),
            ("rst-1-again", b"#50\n", b"#50\n1%\n", SAME),
            ("rst-0-twice", b"#50\n", b"#50\n0%\n0%\n", Events(&[(50, RESET, 1), (90, COMMAND, 0x35)], 100)),
            ("rst-at-the-eighth", b"#90\n1#\n", b"#90\n0%\n1#\n1%\n", Events(&[(90, RESET, 1), (90, COMMAND, 0x35), (90, RESET, 0)], 100)),
            ("rst-with-cs-1", b"#100\n1!\n", b"#100\n1!\n0%\n", Events(&[(90, COMMAND, 0x35), (100, RESET, 1)], 100)),
        ],
    },
    Row {
        shows: "the last time, 0 if none, is an advance at the end",
        edits: &[
            ("last-time-alone", b"#100\n1!\n", b"#100\n1!\n#250\n", Events(&[(90, COMMAND, 0x35)], 250)),
            ("last-time-largest", b"#100\n1!\n", b"#100\n1!\n#18446744073709551615\n", Events(&[(90, COMMAND, 0x35)], u64::MAX)),
        ],
    },
    Row {
        shows: "changes of one time apply in file order",
        edits: &[
            ("mosi-before-the-rise", b"#85\n0#\n1$\n#90\n1#\n", b"#85\n0#\n#90\n1$\n1#\n", SAME),
            ("mosi-after-the-rise", b"#85\n0#\n1$\n#90\n1#\n", b"#85\n0#\n#90\n1#\n1$\n", Events(&[(90, COMMAND, 0x34)], 100)),
        ],
    },
    Row {
        shows: "signals of one code in the order named",
        edits: &[
            ("clk-and-mosi", b"$ mosi", b"# mosi", Events(&[(90, COMMAND, 0x00)], 100)),
            ("dc-and-clk", b"\" dc", b"# dc", Events(&[(90, DATA, 0x35)], 100)),
            ("cs-and-clk", b"! cs", b"# cs", NOTHING),
            ("cs-and-rst", b"% rst", b"! rst", Events(&[(10, RESET, 1), (90, COMMAND, 0x35), (100, RESET, 0)], 100)),
            (
                "clk-and-rst",
                b"% rst",
                b"# rst",
                Events(
                    &[
                        (0, RESET, 1),
                        (20, RESET, 0),
                        (25, RESET, 1),
                        (30, RESET, 0),
                        (35, RESET, 1),
                        (40, RESET, 0),
                        (45, RESET, 1),
                        (50, RESET, 0),
                        (55, RESET, 1),
                        (60, RESET, 0),
                        (65, RESET, 1),
                        (70, RESET, 0),
                        (75, RESET, 1),
                        (80, RESET, 0),
                        (85, RESET, 1),
                        (90, COMMAND, 0x35),
                        (90, RESET, 0),
                        (95, RESET, 1),
                    ],
                    100,
                ),
            ),
        ],
    },
    Row {
        shows: "a signal counts as 1 before its first value, and a value repeated is no change",
        edits: &[
            ("mosi-without-a-first-value", b"0$\n1%\n", b"1%\n", Events(&[(90, COMMAND, 0xF5)], 100)),
            ("clk-without-a-first-value", b"0#\n0$\n1%\n", b"0$\n1%\n", NOTHING),
            ("rst-without-a-value", b"0$\n1%\n", b"0$\n", SAME),
            ("mosi-again", b"#40\n1#\n", b"#40\n1$\n1#\n", SAME),
            ("clk-1-again", b"#40\n1#\n", b"#40\n1#\n1#\n1#\n", SAME),
            ("clk-0-again", b"#45\n0#\n", b"#45\n0#\n0#\n", SAME),
        ],
    },
    Row {
        shows: "a vector counts by its last digit",
        edits: &[
            ("vector-x1-on-clk", b"#90\n1#\n", b"#90\nbx1 #\n", SAME),
            ("vector-10-on-mosi", b"#85\n0#\n1$\n", b"#85\n0#\nb10 $\n", Events(&[(90, COMMAND, 0x34)], 100)),
            ("vector-01-on-mosi", b"#85\n0#\n1$\n", b"#85\n0#\nB01 $\n", SAME),
            ("vector-zzz0-on-cs", b"#10\n0!\n", b"#10\nbzZxX0 !\n", SAME),
        ],
    },
    Row {
        shows: "an x, z or real on one of the five is malformed",
        edits: &[
            ("x-on-cs", b"#10\n0!\n", b"#10\nx!\n", MALFORMED),
            ("z-on-dc", b"0!\n0\"\n", b"0!\nz\"\n", MALFORMED),
            ("upper-x-on-clk", b"#20\n1#\n", b"#20\nX#\n", MALFORMED),
            ("upper-z-on-mosi", b"#55\n0#\n0$\n", b"#55\n0#\nZ$\n", MALFORMED),
            ("x-on-rst", b"0$\n1%\n", b"0$\nx%\n", MALFORMED),
            ("x-at-the-end", b"#100\n1!\n", b"#100\n1!\nx$\n", MALFORMED),
            ("vector-1x-on-cs", b"#10\n0!\n", b"#10\nb1x !\n", MALFORMED),
            ("vector-0z-on-rst", b"0$\n1%\n", b"0$\nb0z %\n", MALFORMED),
            ("real-on-cs", b"#10\n0!\n", b"#10\nr0 !\n", MALFORMED),
            ("real-on-mosi", b"#55\n0#\n0$\n", b"#55\n0#\nr1.5 $\n", MALFORMED),
            ("x-in-dumpoff", b"#100\n1!\n", b"#100\n1!\n$dumpoff\nx!\n$end\n", MALFORMED),
        ],
    },
    Row {
        shows: "another timescale or none is malformed",
        edits: &[
            ("timescale-none", b"$timescale 1ns $end\n", b"", MALFORMED),
            ("timescale-10ns", b" 1ns ", b" 10ns ", MALFORMED),
            ("timescale-100-ns", b" 1ns ", b" 100 ns ", MALFORMED),
            ("timescale-1ps", b" 1ns ", b" 1ps ", MALFORMED),
            ("timescale-1-us", b" 1ns ", b" 1 us ", MALFORMED),
            ("timescale-1s", b" 1ns ", b" 1s ", MALFORMED),
            ("timescale-1000ps", b" 1ns ", b" 1000ps ", MALFORMED),
        ],
    },
    Row {
        shows: "a time that goes back or passes 2^64 - 1 is malformed",
        edits: &[
            ("time-back", b"#95\n", b"#89\n", MALFORMED),
            ("time-back-to-0", b"#100\n", b"#0\n", MALFORMED),
            ("time-back-at-the-end", b"#100\n1!\n", b"#100\n1!\n#99\n", MALFORMED),
            ("time-2-to-the-64", b"#100\n", b"#18446744073709551616\n", MALFORMED),
            ("time-of-25-digits", b"#100\n", b"#1000000000000000000000000\n", MALFORMED),
            ("time-that-wraps-to-100", b"#100\n", b"#18446744073709551716\n", MALFORMED),
            ("time-largest", b"#100\n", b"#18446744073709551615\n", Events(&[(90, COMMAND, 0x35)], u64::MAX)),
        ],
    },
    Row {
        shows: "other signals and undeclared codes are passed over",
        edits: &[
            ("other-signal", b"$upscope", b"$var reg 8 & data $end\n$upscope", SAME),
            (
                "other-x",
                b"$upscope $end\n$enddefinitions $end\n#0\n",
                b"$var reg 8 & data $end\n$enddefinitions $end\n#0\nx&\nbzz11x &\nr-1.5e3 &\n",
                SAME,
            ),
            ("other-on-the-code-of-mosi", b"$upscope", b"$var wire 8 $ data $end\n$upscope", SAME),
            ("undeclared", b"#50\n", b"#50\n1&\n0&\nx!!\nz!\"\n", SAME),
            ("undeclared-in-dumpvars", b"0$\n1%\n", b"x&\n0$\n1%\n", SAME),
        ],
    },
    Row {
        shows: "changes before the first time stand at 0",
        edits: &[("changes-first", b"#0\n", b"", SAME)],
    },
    Row {
        shows: "12: one of the five signals missing",
        edits: &[
            ("cs-missing", b"$var wire 1 ! cs $end\n", b"", SIGNALS),
            ("dc-missing", b"$var wire 1 \" dc $end\n", b"", SIGNALS),
            ("clk-missing", b"$var wire 1 # clk $end\n", b"", SIGNALS),
            ("mosi-missing", b"$var wire 1 $ mosi $end\n", b"", SIGNALS),
            ("rst-missing", b"$var wire 1 % rst $end\n", b"", SIGNALS),
            ("cs-upper-case", b"! cs", b"! CS", SIGNALS),
        ],
    },
    Row {
        shows: "12: one of the five signals wider than a bit",
        edits: &[
            ("cs-wide", b"1 ! cs", b"2 ! cs", SIGNALS),
            ("dc-wide", b"1 \" dc", b"8 \" dc", SIGNALS),
            ("clk-wide", b"1 # clk", b"10 # clk", SIGNALS),
            ("mosi-wide", b"1 $ mosi", b"002 $ mosi", SIGNALS),
            ("rst-wide", b"1 % rst", b"18446744073709551617 % rst", SIGNALS),
        ],
    },
    Row {
        shows: "12: one of the five signals declared twice",
        edits: &[
            ("cs-twice", b"$upscope", b"$var wire 1 & cs $end\n$upscope", SIGNALS),
            ("dc-twice-on-one-code", b"$upscope", b"$var wire 1 \" dc $end\n$upscope", SIGNALS),
            ("clk-twice-in-two-scopes", b"$upscope", b"$scope module inner $end\n$var wire 1 & clk $end\n$upscope $end\n$upscope", SIGNALS),
            ("mosi-twice-by-select", b"$upscope", b"$var wire 1 & mosi [1] $end\n$upscope", SIGNALS),
            ("rst-twice-by-escape", b"$upscope", b"$var wire 1 & \\rst $end\n$upscope", SIGNALS),
            ("cs-twice-once-wide", b"$upscope", b"$var wire 4 & cs $end\n$upscope", SIGNALS),
        ],
    },
];

fn whole(name: &str, shows: &'static str, dump: String, answer: super::Answer) -> Case {
    Case::new(name, shows, dump.into_bytes(), answer)
}

/// The declarations of the base.
fn head() -> &'static str {
    BASE.split("#0\n").next().unwrap_or_default()
}

/// Cases of several edits each.
pub fn edits() -> Vec<Case> {
    let bits = "while `cs` is 0, `mosi` is taken at each rise of `clk`, highest bit first";
    let eighth = "the eighth bit makes a command if `dc` is 0, else data, at that time";
    let code = "signals of one code in the order named";
    let first = "a signal counts as 1 before its first value, and a value repeated is no change";
    let before = "changes before the first time stand at 0";
    let after = "12 is tested after 11";
    vec![
        Case::edits(
            "first-bit-1",
            bits,
            &[("#20\n", "#20\n1$\n"), ("#25\n0#\n", "#25\n0#\n0$\n")],
            Events(&[(90, COMMAND, 0xB5)], 100),
        ),
        Case::edits(
            "dc-1-until-the-eighth",
            eighth,
            &[("0!\n0\"\n", "0!\n"), ("#90\n", "#90\n0\"\n")],
            SAME,
        ),
        Case::edits(
            "clk-declared-before-cs",
            code,
            &[
                ("$var wire 1 ! cs $end", "$var wire 1 # clk $end"),
                (
                    "$var wire 1 \" dc",
                    "$var wire 1 # cs $end\n$var wire 1 \" dc",
                ),
                ("dc $end\n$var wire 1 # clk", "dc $end\n$var wire 1 & other"),
            ],
            NOTHING,
        ),
        Case::edits(
            "no-first-values",
            first,
            &[("1!\n1\"\n0#\n0$\n1%\n", ""), ("#10\n", "#10\n0#\n0$\n")],
            SAME,
        ),
        Case::edits(
            "rst-before-the-first-time",
            before,
            &[
                ("#0\n$dumpvars\n", "0%\n$dumpvars\n"),
                ("0$\n1%\n", "0$\n"),
                ("#10\n", "#5\n1%\n#10\n"),
            ],
            Events(&[(0, RESET, 1), (5, RESET, 0), (90, COMMAND, 0x35)], 100),
        ),
        Case::edits(
            "cs-missing-and-time-back",
            after,
            &[("! cs", "! select"), ("#95\n", "#89\n")],
            MALFORMED,
        ),
        Case::edits(
            "cs-missing-and-x",
            after,
            &[("! cs", "! select"), ("#20\n1#\n", "#20\nx#\n")],
            MALFORMED,
        ),
        Case::edits(
            "cs-missing-and-x-on-its-code",
            after,
            &[("! cs", "! select"), ("#10\n0!\n", "#10\nx!\n")],
            SIGNALS,
        ),
        Case::edits(
            "cs-wide-and-x",
            after,
            &[("1 ! cs", "2 ! cs"), ("#10\n0!\n", "#10\nx!\n")],
            MALFORMED,
        ),
        Case::edits(
            "cs-wide-and-x1",
            after,
            &[("1 ! cs", "2 ! cs"), ("#10\n0!\n", "#10\nbx1 !\n")],
            SIGNALS,
        ),
    ]
}

/// Bytes as changes, the bits of each all at its time: `dc`, then bit by bit `mosi` and `clk`.
fn sent(bytes: &[(u64, u8, u8)], last: u64) -> String {
    let mut dump = format!("{}0!\n", head());
    for (time, kind, byte) in bytes {
        let dc = u8::from(*kind == DATA);
        dump += &format!("#{time}\n{dc}\"\n");
        for place in (0..8).rev() {
            let bit = byte >> place & 1;
            dump += &format!("0#\n{bit}$\n1#\n");
        }
    }
    dump + &format!("#{last}\n")
}

/// The worked example of the rules: 13 bytes, and the refresh that ends at 3100.
const EXAMPLE: &[(u64, u8, u8)] = &[
    (0, COMMAND, 0x00),
    (0, DATA, 0x3F),
    (0, COMMAND, 0x04),
    (100, COMMAND, 0x22),
    (100, DATA, 0x80),
    (100, DATA, 0x01),
    (100, DATA, 0x00),
    (100, DATA, 0x00),
    (100, DATA, 0x00),
    (100, DATA, 0x01),
    (100, COMMAND, 0x13),
    (100, DATA, 0xF0),
    (100, COMMAND, 0x12),
];

/// VCOM's codes 0 2 0 2 0 2 beside five frames of a pixel's code 2, from 100 to 8100.
const RULE_2: &[(u64, u8, u8)] = &[
    (0, COMMAND, 0x00),
    (0, DATA, 0x3F),
    (0, COMMAND, 0x04),
    (100, COMMAND, 0x20),
    (100, DATA, 0x20),
    (100, DATA, 0x01),
    (100, DATA, 0x01),
    (100, DATA, 0x00),
    (100, DATA, 0x00),
    (100, DATA, 0x03),
    (100, COMMAND, 0x24),
    (100, DATA, 0x80),
    (100, DATA, 0x05),
    (100, DATA, 0x00),
    (100, DATA, 0x00),
    (100, DATA, 0x00),
    (100, DATA, 0x01),
    (100, COMMAND, 0x12),
];

pub fn wholes() -> Vec<Case> {
    let last = "the last time, 0 if none, is an advance at the end";
    let one = "signals of one code in the order named";
    let bits = "0!\n0\"\n0#\n0$\n1#\n0#\n1#\n0#\n1$\n1#\n0#\n1#\n0#\n0$\n1#\n0#\n1$\n1#\n0#\n0$\n1#\n0#\n1$\n1#\n";
    let all_on_one = head()
        .replace("1 \" dc", "1 ! dc")
        .replace("1 # clk", "1 ! clk")
        .replace("1 $ mosi", "1 ! mosi")
        .replace("1 % rst", "1 ! rst");
    vec![
        whole(
            "example",
            last,
            sent(EXAMPLE, 3_100),
            Events(EXAMPLE, 3_100),
        ),
        whole(
            "example-too-short",
            last,
            sent(EXAMPLE, 3_099),
            Events(EXAMPLE, 3_099),
        ),
        whole(
            "no-time",
            last,
            format!("{}{bits}", head()),
            Events(&[(0, COMMAND, 0x35)], 0),
        ),
        whole("no-change", last, head().to_string(), Events(&[], 0)),
        whole(
            "only-a-time",
            last,
            format!("{}#77", head()),
            Events(&[], 77),
        ),
        whole(
            "all-at-77",
            last,
            format!("{}#77\n{bits}", head()),
            Events(&[(77, COMMAND, 0x35)], 77),
        ),
        whole(
            "all-on-one-code",
            one,
            format!("{all_on_one}#1 0!\n#2 1!\n#3 0!\n#4 1!\n"),
            Events(
                &[(1, RESET, 1), (2, RESET, 0), (3, RESET, 1), (4, RESET, 0)],
                4,
            ),
        ),
    ]
}

/// The base with other configuration bytes.
fn with(name: &str, shows: &'static str, configuration: Vec<u8>, number: u8) -> Case {
    let base = BASE.as_bytes().to_vec();
    Case {
        configuration,
        ..Case::new(name, shows, base, Refused(number))
    }
}

fn panel(change: impl Fn(&mut Configuration)) -> Vec<u8> {
    let mut panel = example_panel();
    change(&mut panel);
    bytes(&panel)
}

pub fn configurations() -> Vec<Case> {
    let eight = "8: configuration bytes of a wrong length, tested first";
    let after = "after 12 come 9 and 1 to 4";
    let rule = "2026-08: flag bit 3 selects rule 2 at making";
    let sound = bytes(&example_panel());
    let rated = Configuration {
        rate: Some(1_000_000_000),
        ..example_panel()
    };
    let mut long = sound.clone();
    long.push(0);
    let bad = panel(|of| (of.variant, of.sources) = (2, 0));
    let broken = BASE.replace("#95", "#9x").into_bytes();
    let incomplete = BASE.replace("! cs", "! select").into_bytes();
    let dump = |case: Case, dump: &[u8]| Case {
        dump: dump.to_vec(),
        ..case
    };
    vec![
        with("config-empty", eight, Vec::new(), 8),
        with("config-311", eight, sound[..311].to_vec(), 8),
        with("config-313", eight, long, 8),
        with("config-320", eight, bytes(&rated), 8),
        dump(
            with("config-311-dump-malformed", eight, bad[..311].to_vec(), 8),
            &broken,
        ),
        dump(
            with("config-311-dump-empty", eight, bad[..311].to_vec(), 8),
            b"",
        ),
        dump(
            with("config-bad-dump-malformed", after, bad.clone(), 11),
            &broken,
        ),
        dump(
            with("config-bad-cs-missing", after, bad.clone(), 12),
            &incomplete,
        ),
        with("config-variant-and-sources", after, bad, 9),
        with("config-variant-2", after, panel(|of| of.variant = 2), 9),
        with("config-flag-16", after, panel(|of| of.flags |= 16), 9),
        with("config-flag-128", after, panel(|of| of.flags |= 128), 9),
        with("config-sources-0", after, panel(|of| of.sources = 0), 1),
        with("config-gates-0", after, panel(|of| of.gates = 0), 1),
        with(
            "config-empty-and-large",
            after,
            panel(|of| (of.sources, of.gates) = (801, 0)),
            1,
        ),
        with("config-sources-801", after, panel(|of| of.sources = 801), 2),
        with("config-gates-601", after, panel(|of| of.gates = 601), 2),
        with(
            "config-large-and-swing",
            after,
            panel(|of| (of.sources, of.full_swing) = (801, 0)),
            2,
        ),
        with("config-swing-0", after, panel(|of| of.full_swing = 0), 3),
        with(
            "config-swing-2-to-the-63",
            after,
            panel(|of| of.full_swing = 1 << 63),
            3,
        ),
        with(
            "config-swing-and-period",
            after,
            panel(|of| (of.full_swing, of.periods[3]) = (0, 0)),
            3,
        ),
        with("config-period-0", after, panel(|of| of.periods[31] = 0), 4),
        Case {
            configuration: panel(|of| of.flags |= VCOM_BY_FRAME),
            ..Case::new("config-flag-8", rule, BASE.as_bytes().to_vec(), SAME)
        },
        Case {
            configuration: panel(|of| {
                of.flags |= VCOM_BY_FRAME;
                of.full_swing *= 4;
            }),
            ..whole("rule-2", rule, sent(RULE_2, 8_100), Events(RULE_2, 8_100))
        },
    ]
}
