//! The table of frequencies (003, 000), and 003's example of 1 Hz.

use super::{BY_FREQUENCY, FREQUENCY_ON, NEW_CENTURY, SECOND};
use crate::script::Script;

pub fn scripts() -> Vec<Script> {
    let mut scripts = vec![
        none_and_crystal().named("003, 000: FS 0 is nothing and FS 1 the crystal"),
        one_second().named("003, 000, 001: FS 15, 1 second"),
        one_second_trimmed().named("003, 001: FS 15 follows the trimmed second"),
        one_hertz_trimmed().named("003: FS 10 does not follow the trim, 000 differs"),
    ];
    scripts.extend(PERIODS.map(first_two_periods));
    scripts
}

/// FS from 2 to 14 and the period in pulses.
pub const PERIODS: [(u8, u32); 13] = [
    (2, 8),
    (3, 32),
    (4, 512),
    (5, 1_024),
    (6, 2_048),
    (7, 4_096),
    (8, 8_192),
    (9, 16_384),
    (10, 32_768),
    (11, 65_536),
    (12, 131_072),
    (13, 262_144),
    (14, 524_288),
];

fn output(fs: u8, trim: u8) -> Script {
    Script::at(NEW_CENTURY).unlock_with(&[BY_FREQUENCY | FREQUENCY_ON, fs, trim])
}

/// The pulse before each edge and the edge, over so many halves.
fn halves(script: Script, half: u32, count: u32) -> Script {
    (0..count).fold(script, |script, _| script.pulses(half - 1).pulses(1))
}

fn first_two_periods((fs, period): (u8, u32)) -> Script {
    let name = if fs == 10 {
        "003, 001: the example of 1 Hz, FS 10".to_string()
    } else {
        format!("003, 000, 001: the frequency of FS {fs}")
    };
    halves(output(fs, 0), period / 2, 4).named(&name)
}

/// The crystal is seen as soon as it is chosen and enabled; 001's chip does
/// without this choice.
fn none_and_crystal() -> Script {
    output(0, 0x29)
        .pulses(4)
        .store(0x11, &[0x01])
        .pulses(1)
        .pulses(SECOND)
        .store(0x10, &[BY_FREQUENCY])
}

/// Half low, half high; as 003 and 001 say it falls with each new second. The
/// time is set amid a second, which tells that from a frequency.
fn one_second() -> Script {
    let set = output(15, 0).pulses(20_000).store(0x00, &NEW_CENTURY);
    (0..2).fold(set, |script, _| {
        halves(script, SECOND / 2, 1)
            .pulses_shown(SECOND / 2)
            .show()
    })
}

/// The second 00h has 32,892 pulses, of which the first 16,384 are low.
fn one_second_trimmed() -> Script {
    output(15, 0x3F)
        .pulses(16_383)
        .pulses(1)
        .pulses(32_891 - 16_384)
        .pulses(1)
        .pulses(16_383)
        .pulses(1)
}

fn one_hertz_trimmed() -> Script {
    halves(output(10, 0x3F), SECOND / 2, 4)
}
