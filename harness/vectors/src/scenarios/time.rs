//! Setting the time, its carries, the trim and illegal bytes.

use super::{NEW_CENTURY, SECOND};
use crate::script::Script;

pub fn scripts() -> Vec<Script> {
    let mut scripts = vec![
        set_in_both_modes().named("time: set in both modes"),
        trims().named("time: trims"),
        seconds_written_again().named("time: seconds written again"),
    ];
    scripts.extend(ROLL_OVERS.map(roll_over));
    scripts
}

fn roll_over(time: [u8; 7]) -> Script {
    let name = format!("time: one second after {time:02X?}");
    Script::at(time).pulses(SECOND).named(&name)
}

/// Times that are worth one second more.
const ROLL_OVERS: [[u8; 7]; 19] = [
    // hours of both modes
    [0x59, 0x59, 0x11, 0x01, 0x10, 0x10, 0x10],
    [0x59, 0x59, 0x12, 0x01, 0x10, 0x10, 0x10],
    [0x59, 0x59, 0x32, 0x01, 0x10, 0x10, 0x10],
    [0x59, 0x59, 0x29, 0x01, 0x10, 0x10, 0x10],
    [0x59, 0x59, 0x99, 0x01, 0x10, 0x10, 0x10],
    // the end of February, also where year and byte divide otherwise by 4
    [0x59, 0x59, 0xA3, 0x05, 0x28, 0x02, 0x00],
    [0x59, 0x59, 0xA3, 0x06, 0x28, 0x02, 0x04],
    [0x59, 0x59, 0xA3, 0x00, 0x29, 0x02, 0x04],
    [0x59, 0x59, 0xA3, 0x02, 0x28, 0x02, 0x12],
    [0x59, 0x59, 0xA3, 0x00, 0x28, 0x02, 0x10],
    [0x59, 0x59, 0xA3, 0x06, 0x28, 0x02, 0x30],
    // illegal hours, days, months and years
    [0x59, 0x59, 0x20, 0x07, 0x31, 0x04, 0x21],
    [0x59, 0x59, 0xA4, 0x03, 0x29, 0x02, 0x0C],
    [0x59, 0x59, 0xA3, 0x03, 0x28, 0x02, 0x0C],
    [0x59, 0x7A, 0x00, 0x02, 0x30, 0x13, 0x99],
    [0x59, 0x60, 0xBF, 0x04, 0x31, 0x00, 0x99],
    // all illegal, with a carry and without one
    [0x5A, 0x7F, 0x3F, 0x07, 0x00, 0x1F, 0xFA],
    [0x08, 0x7F, 0x3F, 0x07, 0x00, 0x1F, 0xFA],
    [0x60, 0x0A, 0x8A, 0x06, 0x3A, 0x0A, 0x04],
];

/// Over the end of the century, and over an ordinary midnight.
fn set_in_both_modes() -> Script {
    Script::at([0; 7])
        .unlock()
        .store(0x00, &[0x58, 0x59, 0xA3, 0x06, 0x31, 0x12, 0x99])
        .pulses_shown(2 * SECOND)
        .fetch(0x00, 7)
        .store(0x00, &[0x58, 0x59, 0x31, 0x02, 0x30, 0x09, 0x21])
        .pulses(SECOND)
        .fetch(0x00, 3)
        .pulses_shown(SECOND)
}

/// Longer, shorter and unchanged seconds, each to the very pulse; at the end
/// the trim changes within a second, and the live one decides. What is over
/// its length is dropped: the script ends one pulse before the next second.
fn trims() -> Script {
    let one = |script: Script, (trim, seconds, length): (u8, u8, u32)| {
        script
            .storing(0x12, &[trim])
            .storing(0x00, &[seconds])
            .stop()
            .pulses_shown(length)
            .show()
    };
    let cases = [
        (0x3F, 0x20, 32_892),
        (0x40, 0x20, SECOND),
        (0xC2, 0x40, 32_644),
    ];
    cases
        .into_iter()
        .fold(Script::at([0; 7]).unlock(), one)
        .pulses_shown(SECOND)
        .show()
        .store(0x00, &[0x00])
        .pulses(32_643)
        .store(0x12, &[0x15])
        .pulses(SECOND - 32_643)
        .store(0x12, &[0x42])
        .pulses(1)
        .pulses(SECOND - 1)
}

/// Seconds restart the second; other bytes and locked ones do not. The trim
/// leaves the illegal 60h alone.
fn seconds_written_again() -> Script {
    Script::at(NEW_CENTURY)
        .unlock_with(&[0x80, 0x00, 0x3F])
        .pulses(20_000)
        .storing(0x00, &[0x60])
        .pulses(10_000)
        .storing(0x01, &[0x6F, 0x91])
        .storing(0x10, &[0x00])
        .store(0x00, &[0x33])
        .pulses_shown(SECOND - 10_000)
}
