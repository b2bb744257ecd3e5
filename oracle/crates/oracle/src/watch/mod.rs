//! What an accepted capture covers, told by running it and looking at the chip from outside.

mod items;
mod refresh;
mod rules;

use crate::chip::Chip;

use crate::capture::{self, Capture, Configuration, Event};
use crate::registers::Registers;
use crate::rows;
use crate::run;
use crate::tally::Facts;

pub use items::{
    FAMILIES, HALF_A_RATE, ITEMS, ONE_EVENT_TOO_MANY, ONE_PIXEL_TOO_MANY, ONE_RATED_EVENT_TOO_MANY,
    WRAPPING_COUNT,
};
use refresh::Running;
use rules::Rules;

const READS_TO_COUNT: usize = 3;
const TABLES: [&str; 5] = [
    "table by 20",
    "table by 21",
    "table by 22",
    "table by 23",
    "table by 24",
];

/// The command that data bytes and reads belong to.
struct Sent {
    command: u8,
    /// Not dropped for reset, sleep or busy, and known.
    taken: bool,
    received: usize,
    reads: usize,
    /// 00, whose first byte began a soft reset.
    resets: bool,
}

struct Watch<'a> {
    of: &'a Configuration,
    chip: Chip,
    facts: Facts,
    registers: Registers,
    sent: Option<Sent>,
    running: Option<Running>,
    rules: Rules,
    clock: u64,
    in_reset: bool,
    slept: bool,
    /// 02 is bringing the supplies down.
    falling: bool,
    /// A refresh ended by itself with N2OCP on.
    copied: bool,
}

/// The facts of an accepted capture.
pub fn facts(capture: &Capture) -> Facts {
    let of = &capture.configuration;
    let mut watch = Watch {
        of,
        chip: run::make_any(of).expect("the capture is accepted"),
        facts: Facts::default(),
        registers: Registers::reset(of.variant),
        sent: None,
        running: None,
        rules: Rules::default(),
        clock: 0,
        in_reset: false,
        slept: false,
        falling: false,
        copied: false,
    };
    watch.file(capture);
    for &event in &capture.events {
        watch.event(event);
    }
    watch.close();
    watch.last_picture();
    watch.facts
}

fn binary_length(number: u64) -> u64 {
    u64::from(u64::BITS - number.leading_zeros())
}

impl Watch<'_> {
    fn file(&mut self, capture: &Capture) {
        let (of, facts) = (self.of, &mut self.facts);
        facts.note_if(capture.events.is_empty(), "no events");
        let is_full = capture.events.len() == of.most_events();
        facts.note_if(
            is_full,
            match of.rate {
                None => "6,521 events",
                Some(_) => "6,520 events and a rate",
            },
        );
        facts.note_if(of.pixels() == 1, "panel of 1 by 1");
        facts.note_if(of.pixels() == run::MOST_PIXELS, "panel of 8,000 pixels");
        facts.note_if(of.full_swing == 1, "swing 1");
        facts.note_if(of.full_swing == i64::MAX as u64, "swing 2^63 - 1");
        facts.note_if(of.periods.contains(&1), "a period 1");
        facts.note_if(of.periods.contains(&u64::MAX), "a period 2^64 - 1");
        let second = of.flag(capture::VCOM_BY_FRAME);
        facts.note_if(second, "rule 2 from making on");
        facts.value("variants", of.variant);
        facts.value("flags", of.flags);
        facts.value("initial greys", of.initial_grey);
        facts.value("ambient values", of.ambient);
        facts.value("binary lengths of the swing", binary_length(of.full_swing));
    }

    fn last_picture(&mut self) {
        for &grey in &self.chip.panel_image().pixels {
            self.facts.value("greys of last pictures", grey);
        }
    }

    fn event(&mut self, event: Event) {
        self.times(event);
        let was_powered = self.chip.is_powered();
        let image = self.chip.panel_image();
        let before = (image.generation, image.pixels.clone());
        let generation = before.0;
        let answer = run::step(&mut self.chip, event);
        let kinds = self.kinds();
        self.power(was_powered, event);
        self.picture(before);
        match event.kind {
            capture::COMMAND => self.command(event.value, &kinds),
            capture::DATA => self.data(event.value, &kinds),
            capture::READ => self.read(answer.flatten()),
            capture::RESET => self.reset(event.value == 1),
            _ => {}
        }
        let ended = self.chip.panel_image().generation != generation;
        self.rules
            .met(&mut self.facts, event, &self.chip, self.in_reset, ended);
        let end = self.chip.next_deadline().map(|end| end.get());
        let held = end == Some(u64::MAX);
        self.facts.note_if(held, "operation's end held at 2^64 - 1");
    }

    fn times(&mut self, event: Event) {
        let facts = &mut self.facts;
        facts.note_if(event.time < self.clock, "clock goes back");
        facts.note_if(event.time > 1 << 63, "time above 2^63");
        facts.note_if(event.time == u64::MAX, "time 2^64 - 1");
        facts.value("binary lengths of event times", binary_length(event.time));
        if let Some(end) = self.chip.next_deadline().map(|end| end.get()) {
            let time = event.time.max(self.clock);
            facts.note_if(time == end, "event at an operation's end");
            let before = time.checked_add(1) == Some(end);
            facts.note_if(before, "event 1 cycle before an operation's end");
            let after = end.checked_add(1) == Some(time);
            facts.note_if(after, "event 1 cycle after an operation's end");
            let resets = event.kind == capture::RESET && event.value == 1;
            let both = resets && time == end && self.running.is_some();
            facts.note_if(both, "reset in the cycle of the end");
        }
        self.clock = self.clock.max(event.time);
    }

    /// The kinds of the rows that the event stored; taking them each time keeps all.
    fn kinds(&mut self) -> Vec<u64> {
        let rows = self.chip.take_diagnostics();
        rows.iter().map(|row| rows::numbers(row)[1]).collect()
    }

    fn power(&mut self, was_powered: bool, event: Event) {
        let powered = self.chip.is_powered();
        self.facts
            .note_if(!was_powered && powered, "power on ended");
        let fallen = self.falling && !powered && event.kind != capture::RESET;
        self.facts.note_if(fallen, "power off ended");
        self.falling &= powered;
        let asleep = self.chip.is_asleep();
        self.facts.note_if(asleep, "deep sleep entered");
        let woken = self.slept && !asleep;
        self.facts.note_if(woken, "woken from deep sleep by reset");
        self.slept = asleep;
    }

    fn picture(&mut self, (generation, pixels): (u64, Vec<u8>)) {
        let image = self.chip.panel_image();
        if image.generation == generation {
            return;
        }
        let changed = image.pixels != pixels;
        let greys = image.pixels.iter().any(|&grey| grey != image.pixels[0]);
        let partial = image.kind == chips::uc8253::RefreshKind::Partial;
        let between = image.pixels.iter().any(|grey| (1..=254).contains(grey));
        self.facts.between |= changed && between;
        self.facts.note_if(greys, "picture with two greys or more");
        self.facts.note_if(partial, "partial picture");
        self.facts.note_if(!partial, "full picture");
        if image.interrupted {
            self.facts.cut_with_change |= changed;
        } else {
            self.facts.ended_with_change |= changed;
            self.copied |= self.registers.copies_new_to_old();
        }
        let running = self.running.take().expect("a refresh ran");
        let (interrupted, at) = (image.interrupted, image.at.get());
        let inner = self.facts.inner;
        running.ended(&mut self.facts, interrupted, at, self.clock);
        let inner = self.facts.inner > inner;
        self.rules.ended(&mut self.facts, inner);
    }

    fn command(&mut self, command: u8, kinds: &[u64]) {
        self.close();
        let sorted = !kinds.iter().any(|kind| [6, 7, 8].contains(kind));
        let taken = sorted && !kinds.contains(&1);
        self.facts.value("command bytes sent", command);
        if sorted {
            let family = "command bytes sorted (neither busy, asleep nor in reset)";
            self.facts.value(family, command);
        }
        self.sent = Some(Sent {
            command,
            taken,
            received: 0,
            reads: 0,
            resets: false,
        });
        if taken {
            self.take(command);
        }
    }

    /// A command that the chip took.
    fn take(&mut self, command: u8) {
        let busy = self.chip.next_deadline().is_some();
        let reads_flags = [0x70, 0x71, 0x81].contains(&command);
        self.facts
            .note_if(busy && reads_flags, "command taken while busy");
        match command {
            0x91 => self.registers.partial = true,
            0x92 => self.registers.partial = false,
            0x02 => self.falling = busy,
            0x12 => self.refresh(),
            _ => {}
        }
    }

    fn refresh(&mut self) {
        let Some(end) = self.chip.next_deadline() else {
            return;
        };
        self.facts.note("refresh by 12");
        let copied = self.copied;
        self.facts
            .note_if(copied, "refresh after one that copied NEW to OLD");
        let running = Running::new(self.of, &self.registers, self.clock, end.get());
        running.started(&mut self.facts, self.of, &self.registers);
        let one_timing = !self.registers.vcom_counts_differ();
        self.rules
            .started(&mut self.facts, self.chip.rule(), one_timing);
        self.running = Some(running);
    }

    fn data(&mut self, byte: u8, kinds: &[u64]) {
        self.facts
            .note_if(kinds.contains(&3), "data before a command");
        self.facts
            .note_if(kinds.contains(&9), "07 with another code");
        self.facts
            .note_if(kinds.contains(&10), "pixel byte past the window");
        let Some(sent) = &mut self.sent else {
            return;
        };
        let index = sent.received;
        sent.received += 1;
        if !sent.taken {
            return;
        }
        match (sent.command, index) {
            (0x00, 0) if byte & 1 == 0 => {
                self.facts.note("soft reset");
                self.registers = Registers::reset(self.of.variant);
                sent.resets = true;
            }
            _ if sent.resets => self.facts.note("soft reset with later bytes"),
            (0x10 | 0x13, _) => self.stream(),
            (command, _) => self.registers.put(command, index, byte),
        }
    }

    fn stream(&mut self) {
        let [columns, rows] = self.registers.empty_window();
        self.facts
            .note_if(columns, "window empty in columns at a stream");
        self.facts.note_if(rows, "window empty in rows at a stream");
    }

    fn read(&mut self, byte: Option<u8>) {
        let Some(sent) = self.sent.as_mut().filter(|sent| sent.taken) else {
            self.facts.note("read under no command");
            return;
        };
        if !self.chip.is_read_command(sent.command) {
            self.facts.note("read under a write command");
            return;
        }
        sent.reads += 1;
        let past = byte.is_none() && sent.reads > 1 && self.of.variant == 1;
        self.facts.note_if(past, "read past the last byte");
        if byte.is_some() {
            let family = "read commands on UC8279d answered";
            self.facts.value(family, sent.command);
        }
        if sent.reads >= READS_TO_COUNT {
            let family = match self.of.variant {
                0 => "read commands on UC8253, three reads or more",
                _ => "read commands on UC8279d, three reads or more",
            };
            self.facts.value(family, sent.command);
        }
    }

    fn reset(&mut self, asserted: bool) {
        let again = asserted && self.in_reset;
        self.facts.note_if(again, "reset asserted twice");
        let idle = !asserted && !self.in_reset;
        self.facts.note_if(idle, "released out of reset");
        if asserted && !self.in_reset {
            self.close();
            self.registers = Registers::reset(self.of.variant);
            self.running = None;
        }
        self.in_reset = asserted;
    }

    /// The command under way ends.
    fn close(&mut self) {
        let Some(sent) = self.sent.take().filter(|sent| sent.taken) else {
            return;
        };
        let facts = &mut self.facts;
        match sent.command {
            0x00 => {
                let kw_mode = sent.received > 0 && self.registers.byte(0x00, 0) == 0x3F;
                facts.note_if(kw_mode, "initialised with 00 3F");
            }
            0x01 => facts.note_if(sent.received >= 4, "levels by 01"),
            0x10 => facts.note_if(sent.received > 0, "stream by 10"),
            0x13 => facts.note_if(sent.received > 0, "stream by 13"),
            0x30 => facts.note("frame rate by 30"),
            0x50 => facts.note("50 taken"),
            0x61 => facts.note("61 taken"),
            0x65 => facts.note("65 taken"),
            0x90 => facts.note("90 taken"),
            0x91 => facts.note("91 taken"),
            0x92 => facts.note("92 taken"),
            0x20..=0x24 => {
                facts.note(TABLES[usize::from(sent.command - 0x20)]);
                if sent.received <= 70 {
                    let length = sent.received as u64;
                    facts.value("lengths of table loads, 0 to 70", length);
                }
            }
            _ => {}
        }
    }
}
