//! VCOM's two rules (2026-08): what a refresh does to a pixel, walked frame by frame as the papers
//! define it. Slow, and written apart from the port.

/// How a frame of a pixel finds VCOM's code.
#[derive(Clone, Copy, Debug, PartialEq, Eq)]
pub enum Rule {
    /// Rule 1: by the pixel's group and phase, 0 once VCOM's table has ended.
    ByPhase,
    /// Rule 2: by the frame's place in VCOM's own sequence, 0 after its end.
    ByFrame,
}

impl Rule {
    pub fn of(by_frame: bool) -> Rule {
        match by_frame {
            false => Rule::ByPhase,
            true => Rule::ByFrame,
        }
    }

    /// As an event of kind 6 has it.
    pub fn number(self) -> u8 {
        match self {
            Rule::ByPhase => 1,
            Rule::ByFrame => 2,
        }
    }
}

pub const TABLES: usize = 5;
pub const GROUPS: usize = 7;
const PHASES: usize = 4;
const GROUP_BYTES: usize = 6;
const VCOM: usize = 0;
/// VCOM's code that lets it float.
const FLOATS: u8 = 3;

#[derive(Clone, Copy, Debug, PartialEq, Eq)]
pub struct Group {
    pub codes: [u8; PHASES],
    pub frames: [u8; PHASES],
    pub repeats: u8,
}

impl Group {
    /// Of the six bytes that a table has for it: codes, highest first, counts, repeats.
    fn read(bytes: [u8; GROUP_BYTES]) -> Group {
        let [codes, a, b, c, d, repeats] = bytes;
        Group {
            codes: [codes >> 6, codes >> 4 & 3, codes >> 2 & 3, codes & 3],
            frames: [a, b, c, d],
            repeats,
        }
    }

    fn ends(&self) -> bool {
        self.repeats == 0 || self.frames == [0; PHASES]
    }
}

pub type Table = [Group; GROUPS];

/// A frame of a table: its code, and where that stands.
struct Frame {
    code: u8,
    group: u8,
    phase: u8,
}

/// The groups of a table up to its end.
fn running(table: &Table) -> impl Iterator<Item = &Group> {
    table.iter().take_while(|group| !group.ends())
}

/// A table's own sequence, an entry for each frame.
fn sequence(table: &Table) -> Vec<Frame> {
    let mut sequence = Vec::new();
    for (index, group) in running(table).enumerate() {
        for _ in 0..group.repeats {
            for phase in 0..PHASES {
                for _ in 0..group.frames[phase] {
                    sequence.push(Frame {
                        code: group.codes[phase],
                        group: index as u8,
                        phase: phase as u8,
                    });
                }
            }
        }
    }
    sequence
}

/// What a refresh drives with, from its start on.
#[derive(Clone, Debug, PartialEq, Eq)]
pub struct Waveform {
    /// By their numbers, VCOM's first.
    pub tables: [Table; TABLES],
    /// Millivolts of the codes 1, 2 and 3, the second below zero.
    pub levels: [i64; 3],
    /// The frame period in nanoseconds.
    pub period: u64,
}

/// How the glass answers.
#[derive(Clone, Copy, Debug)]
pub struct Glass {
    pub swing: i64,
    pub positive_drives_black: bool,
}

impl Waveform {
    /// Of the five tables as they were loaded, and the third to fifth byte of 01.
    pub fn read(tables: [&[u8]; TABLES], power: [u8; 3], period: u64) -> Waveform {
        let [first, second, third] = power.map(|byte| 2_400 + 200 * i64::from(byte & 0x3F));
        Waveform {
            tables: tables.map(|table| {
                let byte = |at: usize| table.get(at).copied().unwrap_or(0);
                std::array::from_fn(|group| {
                    let first = GROUP_BYTES * group;
                    Group::read(std::array::from_fn(|at| byte(first + at)))
                })
            }),
            levels: [first, -second, third],
            period,
        }
    }

    fn level(&self, code: u8) -> i64 {
        match code {
            0 => 0,
            code => self.levels[usize::from(code) - 1],
        }
    }

    /// Source less VCOM in each frame of a table, in millivolts; 0 where VCOM floats.
    fn millivolts(&self, table: usize, rule: Rule) -> Vec<i64> {
        let vcom = sequence(&self.tables[VCOM]);
        let groups = running(&self.tables[VCOM]).count();
        let by_phase = |frame: &Frame| match usize::from(frame.group) {
            group if group < groups => self.tables[VCOM][group].codes[usize::from(frame.phase)],
            _ => 0,
        };
        let by_frame = |place: usize| vcom.get(place).map_or(0, |frame| frame.code);
        sequence(&self.tables[table])
            .iter()
            .enumerate()
            .map(|(place, frame)| {
                let vcom = match rule {
                    Rule::ByPhase => by_phase(frame),
                    Rule::ByFrame => by_frame(place),
                };
                match vcom {
                    FLOATS => 0,
                    code => self.level(frame.code) - self.level(code),
                }
            })
            .collect()
    }

    /// What each frame of a table adds to a state, all of them or the first so many.
    pub fn drives(&self, table: usize, rule: Rule, glass: Glass, most: Option<u64>) -> Vec<i128> {
        let most = most.map_or(usize::MAX, |most| {
            usize::try_from(most).unwrap_or(usize::MAX)
        });
        let whiter = if glass.positive_drives_black { -1 } else { 1 };
        let per_millivolt = whiter * i128::from(self.period);
        let frames = self.millivolts(table, rule);
        let frames = frames.into_iter().take(most);
        frames
            .map(|volts| per_millivolt * i128::from(volts))
            .collect()
    }

    /// Where a table's groups and VCOM's run side by side they have the same counts and repeats:
    /// then a frame finds the same code by both rules.
    fn runs_with_vcom(&self, table: usize) -> bool {
        running(&self.tables[VCOM])
            .zip(running(&self.tables[table]))
            .all(|(vcom, group)| (vcom.frames, vcom.repeats) == (group.frames, group.repeats))
    }

    /// All four tables of pixels do.
    pub fn rules_agree(&self) -> bool {
        (1..TABLES).all(|table| self.runs_with_vcom(table))
    }
}

/// A state after drives, each held to 0 .. swing.
pub fn walk(drives: &[i128], swing: i64, state: i64) -> i64 {
    let swing = i128::from(swing);
    let end = drives.iter().fold(i128::from(state), |state, drive| {
        (state + drive).clamp(0, swing)
    });
    i64::try_from(end).expect("it lies between 0 and the swing")
}
