//! The register bytes as a reader of the bus believes them, for counting what captures cover.
//!
//! Answers never come from here: they come from the published Rust alone.

use std::collections::BTreeMap;

const GROUP_BYTES: usize = 6;
const GROUPS: usize = 7;
const VCOM: u8 = 0x20;
const PIXEL_TABLES: [u8; 4] = [0x21, 0x22, 0x23, 0x24];

/// One group of a table: four selects, four counts, repeats.
#[derive(Clone, Copy)]
struct Group {
    selects: u8,
    counts: [u8; 4],
    repeats: u8,
}

impl Group {
    fn has_frames(self) -> bool {
        self.counts != [0; 4]
    }

    fn ends(self) -> bool {
        self.repeats == 0 || !self.has_frames()
    }

    fn frames(self) -> u64 {
        let round: u64 = self.counts.iter().map(|&count| u64::from(count)).sum();
        round * u64::from(self.repeats)
    }

    fn select(self, phase: usize) -> u8 {
        self.selects >> (6 - 2 * phase) & 3
    }
}

/// What each command's data bytes last set, since the last reset.
#[derive(Default)]
pub struct Registers {
    variant: u8,
    bytes: BTreeMap<(u8, usize), u8>,
    pub partial: bool,
}

impl Registers {
    pub fn reset(variant: u8) -> Registers {
        let mut registers = Registers {
            variant,
            ..Registers::default()
        };
        let interval = if variant == 0 { 0x31 } else { 0xD7 };
        for (command, bytes) in [
            (0x00, &[0x0F, 0x8D][..]),
            (0x30, &[0x06]),
            (0x50, &[interval]),
            (0x61, &[0x03, 0x20, 0x02, 0x58]),
            (0x90, &[0x00, 0x00, 0x03, 0x1F, 0x00, 0x00, 0x02, 0x57]),
        ] {
            for (index, &byte) in bytes.iter().enumerate() {
                registers.put(command, index, byte);
            }
        }
        registers
    }

    pub fn put(&mut self, command: u8, index: usize, byte: u8) {
        self.bytes.insert((command, index), byte);
    }

    pub fn byte(&self, command: u8, index: usize) -> u8 {
        self.bytes.get(&(command, index)).copied().unwrap_or(0)
    }

    /// Ten bits from two bytes, as 61, 65 and 90 hold them.
    pub fn ten_bits(&self, command: u8, index: usize) -> u16 {
        let high = u16::from(self.byte(command, index) & 3);
        high << 8 | u16::from(self.byte(command, index + 1))
    }

    /// A column of 61 or 65, or the first one of 90: its low three bits are lost.
    pub fn column(&self, command: u8, index: usize) -> u16 {
        self.ten_bits(command, index) & !7
    }

    /// Whether the window is in use and empty: in columns, in rows.
    pub fn empty_window(&self) -> [bool; 2] {
        let held = |value: u16, last: u16| value.min(last);
        let columns = held(self.column(0x90, 0), 799) > held(self.ten_bits(0x90, 2) | 7, 799);
        let rows = held(self.ten_bits(0x90, 4), 599) > held(self.ten_bits(0x90, 6), 599);
        [self.partial && columns, self.partial && rows]
    }

    pub fn copies_new_to_old(&self) -> bool {
        self.variant == 0 && self.byte(0x50, 0) & 8 != 0
    }

    pub fn one_is_white(&self) -> bool {
        let bit = if self.variant == 0 { 1 } else { 1 << 4 };
        self.byte(0x50, 0) & bit != 0
    }

    fn group(&self, table: u8, group: usize) -> Group {
        let byte = |index: usize| self.byte(table, GROUP_BYTES * group + index);
        Group {
            selects: byte(0),
            counts: [byte(1), byte(2), byte(3), byte(4)],
            repeats: byte(5),
        }
    }

    /// The groups of `table` that run.
    fn running(&self, table: u8) -> Vec<Group> {
        (0..GROUPS)
            .map(|group| self.group(table, group))
            .take_while(|group| !group.ends())
            .collect()
    }

    /// The group at which `table` ends, if it is not one past the seventh.
    fn last(&self, table: u8) -> Option<Group> {
        let running = self.running(table).len();
        (running < GROUPS).then(|| self.group(table, running))
    }

    pub fn all_tables_empty(&self) -> bool {
        (VCOM..=0x24).all(|table| self.running(table).is_empty())
    }

    pub fn longest_frames(&self) -> u64 {
        let frames = |table| self.running(table).iter().map(|group| group.frames()).sum();
        (VCOM..=0x24).map(frames).max().unwrap_or(0)
    }

    /// A table ends at a group that has frames but no repeats.
    pub fn ends_by_repeats(&self) -> bool {
        PIXEL_TABLES.iter().any(|&table| {
            self.last(table)
                .is_some_and(|group| group.repeats == 0 && group.has_frames())
        })
    }

    /// A table ends at a group that has repeats but no frame.
    pub fn ends_by_counts(&self) -> bool {
        PIXEL_TABLES.iter().any(|&table| {
            self.last(table)
                .is_some_and(|group| group.repeats != 0 && !group.has_frames())
        })
    }

    /// Whether `test` holds of a group of VCOM and the same group of some pixel table.
    fn beside_vcom(&self, test: impl Fn(Group, Group) -> bool) -> bool {
        let vcom = self.running(VCOM);
        PIXEL_TABLES.iter().any(|&table| {
            let pixels = self.running(table);
            vcom.iter()
                .zip(&pixels)
                .any(|(&vcom, &pixels)| test(vcom, pixels))
        })
    }

    pub fn vcom_floats(&self) -> bool {
        self.beside_vcom(|vcom, pixels| {
            (0..4).any(|phase| pixels.counts[phase] != 0 && vcom.select(phase) == 3)
        })
    }

    pub fn vcom_drives(&self) -> bool {
        self.beside_vcom(|vcom, pixels| {
            (0..4).any(|phase| pixels.counts[phase] != 0 && [1, 2].contains(&vcom.select(phase)))
        })
    }

    pub fn vcom_counts_differ(&self) -> bool {
        self.beside_vcom(|vcom, pixels| {
            vcom.counts != pixels.counts || vcom.repeats != pixels.repeats
        })
    }

    pub fn vcom_is_shorter(&self) -> bool {
        let vcom = self.running(VCOM);
        let drives = vcom.iter().any(|group| group.selects != 0);
        drives
            && PIXEL_TABLES
                .iter()
                .any(|&table| self.running(table).len() > vcom.len())
    }
}
