//! What a panel is made from.

use crate::refused::Refused;

/// The bytes of a configuration in a capture, but for its rate.
pub(crate) const BYTES: usize = 312;
/// The rate where none stands behind them, in Hz.
pub(crate) const GIGAHERTZ: u64 = 1_000_000_000;
/// The codes of 30 (PLL), each of which has a frame period.
pub const FRAME_PERIODS: usize = 32;

/// Flags of the second byte.
const ROWS_REVERSED: u8 = 1;
const COLUMNS_REVERSED: u8 = 2;
const POSITIVE_DRIVES_BLACK: u8 = 4;
const VCOM_BY_FRAME: u8 = 8;
const LISTED: u8 = ROWS_REVERSED | COLUMNS_REVERSED | POSITIVE_DRIVES_BLACK | VCOM_BY_FRAME;

/// Which controller.
#[derive(Clone, Copy, Debug, PartialEq, Eq, Hash)]
pub enum Variant {
    /// The X3's first batch: it drives nothing on a read.
    Uc8253,
    /// The later batch.
    Uc8279d,
}

/// A panel's configuration. Any values may stand in it; making tests them.
#[derive(Clone, Debug, PartialEq, Eq)]
pub struct Configuration {
    /// Which controller.
    pub variant: Variant,
    /// The top row is the last gate.
    pub rows_reversed: bool,
    /// The left column is the last source.
    pub columns_reversed: bool,
    /// Source above VCOM darkens.
    pub positive_drives_black: bool,
    /// The width of the panel, 1 to 800.
    pub sources: u16,
    /// Its height, 1 to 600.
    pub gates: u16,
    /// Every pixel at making, 0 black to 255 white.
    pub initial_grey: u8,
    /// Degrees Celsius; read by 40 on UC8279d.
    pub ambient: i8,
    /// The drive from black to white, millivolts × nanoseconds, 1 to 2^63 - 1.
    pub full_swing: u64,
    /// How long power on (04) keeps `BUSY_N` low, in nanoseconds; so the next four.
    pub power_on: u64,
    /// Power off (02).
    pub power_off: u64,
    /// Entering deep sleep (07 A5).
    pub deep_sleep: u64,
    /// A soft reset (first byte of 00 with bit 0 clear).
    pub soft_reset: u64,
    /// A hardware reset, from the moment `RST_N` rises.
    pub hardware_reset: u64,
    /// The frame period of each code of 30 (PLL); none of them 0.
    pub frame_periods: [u64; FRAME_PERIODS],
    /// The rate of the board's clock in Hz, 1 to 1,000,000,000: times of calls and events, of pictures
    /// and diagnostics are its cycles.
    pub rate: u64,
    /// VCOM goes by its own clock (rule 2) from making on: frame k of a pixel meets frame k of VCOM's
    /// own sequence. Otherwise by phase (rule 1).
    pub vcom_by_frame: bool,
}

impl Configuration {
    /// The X3: 792 by 528, white, 25 °C. Most of it is assumed, not measured.
    #[must_use]
    pub fn x3(variant: Variant) -> Configuration {
        let hertz = |code: u64| if code == 31 { 200 } else { 5 * (code + 1) };
        Configuration {
            variant,
            rows_reversed: true,
            columns_reversed: false,
            positive_drives_black: true,
            sources: 792,
            gates: 528,
            initial_grey: 255,
            ambient: 25,
            full_swing: 6_000_000_000_000,
            power_on: 127_000_000,
            power_off: 30_000_000,
            deep_sleep: 1_000_000,
            soft_reset: 50_000,
            hardware_reset: 1_000_000,
            frame_periods: std::array::from_fn(|code| 1_000_000_000 / hertz(code as u64)),
            rate: GIGAHERTZ,
            vcom_by_frame: false,
        }
    }

    /// Sources × gates.
    #[must_use]
    pub fn pixels(&self) -> usize {
        usize::from(self.sources) * usize::from(self.gates)
    }

    fn flags(&self) -> u8 {
        let flag = |is: bool, bit: u8| if is { bit } else { 0 };
        flag(self.rows_reversed, ROWS_REVERSED)
            | flag(self.columns_reversed, COLUMNS_REVERSED)
            | flag(self.positive_drives_black, POSITIVE_DRIVES_BLACK)
            | flag(self.vcom_by_frame, VCOM_BY_FRAME)
    }

    /// As a capture has it; 1 GHz goes without saying.
    pub(crate) fn encode(&self, file: &mut Vec<u8>) {
        let variant = match self.variant {
            Variant::Uc8253 => 0,
            Variant::Uc8279d => 1,
        };
        file.extend([variant, self.flags()]);
        file.extend(self.sources.to_le_bytes());
        file.extend(self.gates.to_le_bytes());
        file.extend([self.initial_grey, self.ambient.to_le_bytes()[0]]);
        let times = [
            self.full_swing,
            self.power_on,
            self.power_off,
            self.deep_sleep,
            self.soft_reset,
            self.hardware_reset,
        ];
        for number in times.into_iter().chain(self.frame_periods) {
            file.extend(number.to_le_bytes());
        }
        if self.rate != GIGAHERTZ {
            file.extend(self.rate.to_le_bytes());
        }
    }

    /// From a capture's bytes and rate; refused by 9 where its variant or a flag is not listed.
    pub(crate) fn decode(bytes: &[u8; BYTES], rate: u64) -> Result<Configuration, Refused> {
        let half = |at: usize| u16::from_le_bytes([bytes[at], bytes[at + 1]]);
        let number = |at: usize| u64::from_le_bytes(std::array::from_fn(|byte| bytes[at + byte]));
        let flags = bytes[1];
        let variant = match bytes[0] {
            0 => Variant::Uc8253,
            1 => Variant::Uc8279d,
            _ => return Err(Refused::BAD_EVENT),
        };
        if flags & !LISTED != 0 {
            return Err(Refused::BAD_EVENT);
        }
        Ok(Configuration {
            variant,
            rows_reversed: flags & ROWS_REVERSED != 0,
            columns_reversed: flags & COLUMNS_REVERSED != 0,
            positive_drives_black: flags & POSITIVE_DRIVES_BLACK != 0,
            sources: half(2),
            gates: half(4),
            initial_grey: bytes[6],
            ambient: i8::from_le_bytes([bytes[7]]),
            full_swing: number(8),
            power_on: number(16),
            power_off: number(24),
            deep_sleep: number(32),
            soft_reset: number(40),
            hardware_reset: number(48),
            frame_periods: std::array::from_fn(|code| number(56 + 8 * code)),
            rate,
            vcom_by_frame: flags & VCOM_BY_FRAME != 0,
        })
    }
}
