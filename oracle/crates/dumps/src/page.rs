//! `dumps page`: a page turn of the X3 as an analyser records it, for timing.

use std::fs;
use std::io;
use std::path::Path;

use oracle::capture::{ADVANCE, COMMAND, DATA, Event};
use oracle::rng::Rng;
use oracle::script::x3_panel;

use crate::cases;
use crate::judge::{self, Form};

const HEAD: &str = "\
$date today $end
$version analyser $end
$timescale 1 ns $end
$scope module bench $end
$var wire 1 ! cs $end
$var wire 1 \" dc $end
$var wire 1 # clk $end
$var wire 1 $ mosi $end
$var wire 1 % rst $end
$upscope $end
$enddefinitions $end
#0
$dumpvars
1!
1\"
0#
0$
1%
$end
";

/// Half a period of the clock: 20 MHz.
const HALF: u64 = 25;
const SECOND: u64 = 1_000_000_000;
const TABLE_BYTES: usize = 42;

pub struct Page {
    pub configuration: Vec<u8>,
    pub dump: Vec<u8>,
    pub events: Vec<Event>,
}

struct Line {
    text: Vec<u8>,
    time: u64,
    mosi: bool,
    events: Vec<Event>,
}

impl Line {
    fn at(&mut self, step: u64, changes: &str) {
        self.time += step;
        let time = self.time;
        self.text.extend(format!("#{time}\n{changes}").bytes());
    }

    /// A byte under a `cs` of its own.
    fn byte(&mut self, kind: u8, byte: u8) {
        self.at(2 * HALF, &format!("0!\n{}\"\n", u8::from(kind == DATA)));
        for place in (0..8).rev() {
            let bit = byte >> place & 1 == 1;
            if bit == self.mosi {
                self.at(HALF, "0#\n");
            } else {
                self.at(HALF, &format!("0#\n{}$\n", u8::from(bit)));
                self.mosi = bit;
            }
            self.at(HALF, "1#\n");
        }
        let time = self.time;
        self.events.push(Event {
            time,
            kind,
            value: byte,
        });
        self.at(2 * HALF, "1!\n");
    }

    fn send(&mut self, command: u8, data: &[u8]) {
        self.byte(COMMAND, command);
        data.iter().for_each(|&byte| self.byte(DATA, byte));
    }
}

/// A page turn of as many gates as the X3 has, or of fewer.
pub fn page(seed: u64, gates: u16) -> Page {
    let mut panel = x3_panel();
    panel.gates = gates;
    let mut rng = Rng::new(seed);
    let mut line = Line {
        text: HEAD.as_bytes().to_vec(),
        time: 0,
        mosi: false,
        events: Vec::new(),
    };
    line.send(0x00, &[0x3F]);
    line.send(0x04, &[]);
    line.at(SECOND, "");
    let size = [panel.sources.to_be_bytes(), gates.to_be_bytes()].concat();
    line.send(0x61, &size);
    for table in 0x20..0x25 {
        let mut bytes = [0; TABLE_BYTES];
        bytes[..6].copy_from_slice(&[0x80, 1, 0, 0, 0, 1]);
        line.send(table, &bytes);
    }
    let plane = usize::from(panel.sources) / 8 * usize::from(gates);
    for stream in [0x10, 0x13] {
        let bytes: Vec<u8> = (0..plane).map(|_| rng.byte()).collect();
        line.send(stream, &bytes);
    }
    line.send(0x12, &[]);
    line.at(10 * SECOND, "");
    let last = line.time;
    line.events.push(Event {
        time: last,
        kind: ADVANCE,
        value: 0,
    });
    Page {
        configuration: cases::bytes(&panel),
        dump: line.text,
        events: line.events,
    }
}

/// Writes the page turn of a seed: page.config, page.vcd, and what must come of it.
pub fn write(seed: u64, folder: &Path) -> io::Result<()> {
    fs::create_dir_all(folder)?;
    let page = page(seed, x3_panel().gates);
    let output = |form| {
        let chip = judge::make(&page.configuration).expect("the X3 is made");
        judge::played(chip, &page.events, form)
    };
    fs::write(folder.join("page.config"), &page.configuration)?;
    fs::write(folder.join("page.vcd"), &page.dump)?;
    fs::write(folder.join("page.out"), output(Form::Lines))?;
    fs::write(folder.join("page.png"), output(Form::Png(None)))?;
    println!("{} bytes, {} events", page.dump.len(), page.events.len());
    Ok(())
}
