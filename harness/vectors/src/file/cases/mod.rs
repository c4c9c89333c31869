//! The stored script files, by part.

mod empty;
mod events;
mod large;
mod layout;
mod orders;
mod runs;
mod sections;
mod start;

use super::Case;
use crate::script::Script;

/// Saturday, 2000-01-01, 00:00:00, 24-hour.
const NEW_CENTURY: [u8; 7] = [0x00, 0x00, 0x80, 0x06, 0x01, 0x01, 0x00];

/// What the output takes for the sample.
const SAMPLE_ROOM: usize = 25;

/// The length of a file with nothing but the sample in it.
const SAMPLE_LENGTH: usize = 47;

/// All stored cases in their order.
pub fn stored_cases() -> Vec<Case> {
    [
        layout::cases(),
        empty::cases(),
        sections::cases(),
        start::cases(),
        events::cases(),
        orders::cases(),
        runs::cases(),
        large::cases(),
    ]
    .concat()
}

/// Five events: START, 65h, two reads, STOP.
fn sample() -> Script {
    Script::at([0x20, 0x19, 0x98, 0x03, 0x20, 0x12, 0x06])
        .start()
        .write(&[0x65])
        .read(2)
        .stop()
}

/// Zero bytes and STARTs: its events and start bytes can stand for each other.
fn starts(count: usize) -> Script {
    (0..count).fold(Script::from_bytes([0; 19]), |script, _| script.start())
}
