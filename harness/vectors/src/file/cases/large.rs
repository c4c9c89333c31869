//! The largest files, and those that are too large.

use super::NEW_CENTURY;
use crate::file::placed::Placed;
use crate::file::Case;
use crate::script::Script;

/// As many events as a file can hold, and the room they need.
const MOST_EVENTS: usize = 4_089;
const MOST_ROOM: usize = 20_445;

/// Bytes for 10h and 11h: frequency on the pin, a period of 1,024 pulses.
const FREQUENCY: [u8; 2] = [0xA1, 0x05];

pub fn cases() -> Vec<Case> {
    let largest = || Placed::start_first(&long_script(MOST_EVENTS));
    let one_more = Placed::start_first(&long_script(MOST_EVENTS + 1));
    vec![
        Case::new("length-16383", largest()).rooms(&[MOST_ROOM, MOST_ROOM - 1]),
        Case::new("length-16384", largest().length(16_384)).rooms(&[20_472]),
        Case::new("length-16385", largest().length(16_385)).rooms(&[MOST_ROOM, 16]),
        Case::new("length-16400", largest().length(16_400)).rooms(&[16]),
        Case::new("events-4090", one_more.length(16_384)).rooms(&[16]),
    ]
}

/// All registers again and again, with some pulses between.
fn long_script(count: usize) -> Script {
    let mut script = Script::at(NEW_CENTURY).unlock_with(&FREQUENCY);
    while script.events.len() < count {
        script = script.fetch(0x00, 32).pulses(900);
    }
    script.events.truncate(count);
    script
}
