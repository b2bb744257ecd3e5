//! The command bytes by the datasheet's names.

const NAMES: [(u8, &str); 52] = [
    (0x00, "PSR"),
    (0x01, "PWR"),
    (0x02, "POF"),
    (0x03, "PFS"),
    (0x04, "PON"),
    (0x05, "PMES"),
    (0x06, "BTST"),
    (0x07, "DSLP"),
    (0x10, "DTM1"),
    (0x11, "DSP"),
    (0x12, "DRF"),
    (0x13, "DTM2"),
    (0x15, "DUSPI"),
    (0x17, "AUTO"),
    (0x20, "LUTC"),
    (0x21, "LUTWW"),
    (0x22, "LUTKW"),
    (0x23, "LUTWK"),
    (0x24, "LUTKK"),
    (0x25, "LUTBD"),
    (0x2A, "LUTOPT"),
    (0x2B, "KWOPT"),
    (0x30, "PLL"),
    (0x40, "TSC"),
    (0x41, "TSE"),
    (0x42, "TSW"),
    (0x43, "TSR"),
    (0x44, "PBC"),
    (0x50, "CDI"),
    (0x51, "LPD"),
    (0x52, "EVS"),
    (0x60, "TCON"),
    (0x61, "TRES"),
    (0x65, "GSST"),
    (0x70, "REV"),
    (0x71, "FLG"),
    (0x72, "CRC"),
    (0x80, "AMV"),
    (0x81, "VV"),
    (0x82, "VDCS"),
    (0x90, "PTL"),
    (0x91, "PTIN"),
    (0x92, "PTOUT"),
    (0xA0, "PGM"),
    (0xA1, "APG"),
    (0xA2, "ROTP"),
    (0xE0, "CCSET"),
    (0xE1, "LVSEL of the X3"),
    (0xE3, "PWS"),
    (0xE4, "LVSEL"),
    (0xE5, "TSSET"),
    (0xE7, "TSBDRY"),
];

/// The name of `command`, empty for a byte that is no command.
pub fn name(command: u8) -> &'static str {
    NAMES
        .iter()
        .find(|(byte, _)| *byte == command)
        .map_or("", |(_, name)| name)
}
