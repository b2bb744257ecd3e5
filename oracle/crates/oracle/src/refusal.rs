//! The refusals that the program can give, with their numbers of documents 01 and 02.

use chips::uc8253::ConfigError;

#[derive(Clone, Copy, Debug, PartialEq, Eq, PartialOrd, Ord)]
pub enum Refusal {
    EmptyPanel,
    OversizedPanel,
    Swing,
    FramePeriod,
    BrokenCapture,
    BadEvent,
    TooManyPixels,
    Rate,
}

impl Refusal {
    /// Every refusal of the program, in the order of its tests.
    pub const IN_ORDER: [Refusal; 8] = [
        Refusal::BrokenCapture,
        Refusal::BadEvent,
        Refusal::EmptyPanel,
        Refusal::OversizedPanel,
        Refusal::Swing,
        Refusal::FramePeriod,
        Refusal::Rate,
        Refusal::TooManyPixels,
    ];

    pub fn number(self) -> u8 {
        match self {
            Refusal::EmptyPanel => 1,
            Refusal::OversizedPanel => 2,
            Refusal::Swing => 3,
            Refusal::FramePeriod => 4,
            Refusal::BrokenCapture => 8,
            Refusal::BadEvent => 9,
            Refusal::TooManyPixels => 10,
            Refusal::Rate => 13,
        }
    }

    pub fn word(self) -> &'static str {
        match self {
            Refusal::EmptyPanel => "empty panel",
            Refusal::OversizedPanel => "oversized panel",
            Refusal::Swing => "swing",
            Refusal::FramePeriod => "frame period",
            Refusal::BrokenCapture => "broken capture",
            Refusal::BadEvent => "bad event",
            Refusal::TooManyPixels => "too many pixels",
            Refusal::Rate => "rate out of range",
        }
    }
}

impl From<ConfigError> for Refusal {
    fn from(error: ConfigError) -> Refusal {
        match error {
            ConfigError::EmptyPanel => Refusal::EmptyPanel,
            ConfigError::PanelTooLarge { .. } => Refusal::OversizedPanel,
            ConfigError::FullSwing => Refusal::Swing,
            ConfigError::FramePeriod => Refusal::FramePeriod,
        }
    }
}
