//! Both sides of the bench, which meet the same events at the same times.

use chips::lines::ONE_GIGAHERTZ;
use chips::uc8253::{self, Uc8253};
use emu_core::Cycles;
use jollanqe::{Panel, Plane};
use oracle::capture::{self, Capture, Configuration, Event};

pub const DTM1: u8 = 0x10;
pub const DRF: u8 = 0x12;
pub const DTM2: u8 = 0x13;

pub struct Sides {
    pub ours: Panel,
    pub rust: Uc8253,
    /// The time of the next event.
    pub clock: u64,
}

/// A run of events as each side takes it.
pub struct Stream {
    pub bytes: Vec<u8>,
    pub events: Vec<Event>,
    answers: Vec<u16>,
}

impl Stream {
    pub fn new(events: Vec<Event>) -> Stream {
        let mut bytes = Vec::new();
        for event in &events {
            event.encode(&mut bytes);
        }
        Stream {
            bytes,
            answers: vec![0; events.len()],
            events,
        }
    }

    pub fn run_ours(&mut self, ours: &mut Panel) {
        ours.run_bytes(&self.bytes, &mut self.answers)
            .expect("not refused");
    }

    pub fn run_rust(&self, rust: &mut Uc8253) {
        for &event in &self.events {
            step(rust, event);
        }
    }
}

/// Lets the published chip meet an event, with nothing beside it; none of kind 6, which it has not.
fn step(rust: &mut Uc8253, event: Event) {
    let now = Cycles(event.time);
    match event.kind {
        capture::COMMAND => rust.write_command(now, event.value),
        capture::DATA => rust.write_data(now, event.value),
        capture::READ => drop(rust.read_data(now)),
        capture::RESET => rust.set_reset(now, event.value == 1),
        _ => rust.advance(now),
    }
}

/// A command and its data at one time.
pub fn sent(time: u64, command: u8, data: &[u8]) -> impl Iterator<Item = Event> {
    let of = move |kind, value| Event { time, kind, value };
    let data = data.iter().map(move |&byte| of(capture::DATA, byte));
    [of(capture::COMMAND, command)].into_iter().chain(data)
}

impl Sides {
    pub fn new(configuration: &Configuration) -> Sides {
        let capture = Capture {
            configuration: configuration.clone(),
            events: Vec::new(),
        };
        let (handed, _) = jollanqe::read_capture(&capture.encode()).expect("listed");
        Sides {
            ours: Panel::new(&handed).expect("not refused"),
            rust: Uc8253::new(configuration.chip(), ONE_GIGAHERTZ).expect("in range"),
            clock: 0,
        }
    }

    /// Both meet the events of a stream, untimed.
    pub fn meet(&mut self, mut stream: Stream) {
        stream.run_ours(&mut self.ours);
        stream.run_rust(&mut self.rust);
    }

    pub fn send(&mut self, command: u8, data: &[u8]) {
        self.meet(Stream::new(sent(self.clock, command, data).collect()));
    }

    /// The end of what runs.
    pub fn deadline(&self) -> u64 {
        let end = self.rust.next_deadline().expect("something runs");
        assert_eq!(self.ours.deadline(), Ok(Some(end.get())));
        end.get()
    }

    /// Lets what runs end, untimed.
    pub fn settle(&mut self) {
        self.clock = self.deadline();
        self.ours.advance(self.clock).expect("not refused");
        self.rust.advance(Cycles(self.clock));
    }

    /// Both show the same planes, pictures and counts.
    pub fn compare(&self) {
        let image = self.rust.panel_image();
        assert_eq!(self.ours.picture(), &image.pixels[..]);
        assert_eq!(self.ours.image().generation, image.generation);
        assert_eq!(self.ours.image().at, image.at.get());
        for (plane, theirs) in [
            (Plane::Old, uc8253::Plane::Old),
            (Plane::New, uc8253::Plane::New),
        ] {
            for (at, &byte) in self.ours.plane(plane).iter().enumerate() {
                let (x, y) = (at % 100 * 8, at / 100);
                for bit in 0..8 {
                    let rust = self.rust.ram_bit(theirs, (x + bit) as u16, y as u16);
                    assert_eq!(Some(byte & (0x80 >> bit) != 0), rust);
                }
            }
        }
    }
}
