//! The trim: the worked examples of 003 and 000, and the ends of its range.

use super::{new_century_but, NEW_CENTURY};
use crate::script::Script;

/// The byte for 12h, the pulses that a trimmed second has, and the source.
pub const TRIMS: [(u8, u32, &str); 12] = [
    // 000 reads 29h as if it were decimal and comes to 32,824
    (0x29, 32_848, "003, 000 differs: trim 29h"),
    (0x7E, 32_764, "003, 000: trim 7Eh"),
    (0x01, 32_768, "003, 000: trim 01h"),
    (0x15, 32_808, "003, 000: trim 15h, for 32,770 Hz"),
    (0x44, 32_648, "003, 000: trim 44h, for 32,762 Hz"),
    (
        0x02,
        32_770,
        "003, 000: trim 02h, the least that the formula adds",
    ),
    (0x3F, 32_892, "003, 000: trim 3Fh, the most that is added"),
    (
        0x42,
        32_644,
        "003, 000: trim 42h, the most that is taken off",
    ),
    (
        0x7F,
        32_766,
        "003, 000: trim 7Fh, the least that is taken off",
    ),
    (
        0x00,
        32_768,
        "003: trim 00h, first end of the range, 000 has 01h",
    ),
    (0x40, 32_768, "003, 000: trim 40h"),
    (0x41, 32_768, "003, 000: trim 41h"),
];

/// The seconds that are trimmed, and one that is not.
pub const SECONDS: [u8; 4] = [0x00, 0x20, 0x40, 0x01];

/// A trim byte and the crystal that it is for, in Hz.
pub const CRYSTALS: [(u8, u32); 2] = [(0x15, 32_770), (0x44, 32_762)];

pub fn scripts() -> Vec<Script> {
    let lengths = TRIMS.map(|(trim, length, name)| lengths(trim, length).named(name));
    let crystals = CRYSTALS.map(|(trim, hertz)| {
        let name = format!("003, 000: 20 seconds of a crystal with {hertz} Hz");
        twenty_seconds(trim, hertz).named(&name)
    });
    lengths.into_iter().chain(crystals).collect()
}

fn trimmed(trim: u8) -> Script {
    Script::at(NEW_CENTURY).unlock_with(&[0x80, 0x00, trim])
}

/// Each second is set, and shown at the pulse before its end and at its end.
fn lengths(trim: u8, length: u32) -> Script {
    let one = |script: Script, seconds: u8| {
        let length = if seconds == 0x01 { 32_768 } else { length };
        let time = new_century_but(0x00, seconds);
        script.store(0x00, &time).pulses_shown(length).show()
    };
    SECONDS.into_iter().fold(trimmed(trim), one)
}

/// One trimmed second and 19 plain ones make up for the crystal.
fn twenty_seconds(trim: u8, hertz: u32) -> Script {
    trimmed(trim).pulses_shown(20 * hertz).show()
}
