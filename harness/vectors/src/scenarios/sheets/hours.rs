//! The table of hours in both modes (003, 001).

use super::{NEW_CENTURY, SECOND};
use crate::script::Script;

/// Each row's hour: as 24-hour and as 12-hour display. In 02h the first has
/// bit 7 set as well.
pub const HOURS: [(u8, u8); 24] = [
    (0x00, 0x12),
    (0x01, 0x01),
    (0x02, 0x02),
    (0x03, 0x03),
    (0x04, 0x04),
    (0x05, 0x05),
    (0x06, 0x06),
    (0x07, 0x07),
    (0x08, 0x08),
    (0x09, 0x09),
    (0x10, 0x10),
    (0x11, 0x11),
    (0x12, 0x32),
    (0x13, 0x21),
    (0x14, 0x22),
    (0x15, 0x23),
    (0x16, 0x24),
    (0x17, 0x25),
    (0x18, 0x26),
    (0x19, 0x27),
    (0x20, 0x28),
    (0x21, 0x29),
    (0x22, 0x30),
    (0x23, 0x31),
];

pub fn scripts() -> Vec<Script> {
    vec![
        each(HOURS.map(|(hour, _)| hour | 0x80)).named("003, 001: hours in 24-hour mode"),
        each(HOURS.map(|(_, hour)| hour)).named("003, 001: hours in 12-hour mode"),
    ]
}

/// Each hour is set and shown in its last second and one second later.
fn each(hours: [u8; 24]) -> Script {
    let one = |script: Script, hour: u8| {
        let time = [0x59, 0x59, hour, 0x03, 0x20, 0x12, 0x06];
        script.store(0x00, &time).pulses(SECOND).show()
    };
    hours
        .into_iter()
        .fold(Script::at(NEW_CENTURY).unlock(), one)
}
