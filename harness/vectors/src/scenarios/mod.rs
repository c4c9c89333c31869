//! The stored scenarios, by part.

mod alarm;
mod bus;
mod countdown;
mod example;
pub mod explained;
mod frequency;
mod kept;
mod lock;
mod power;
#[cfg(test)]
mod printed;
mod refused;
mod rings;
mod sheets;
mod states;
mod time;

use crate::chance::row::{Kind, Row};
use crate::file::cases::stored_cases;
use crate::file::Case;
use crate::script::Item;

/// Saturday, 2000-01-01, 00:00:00, 24-hour.
const NEW_CENTURY: [u8; 7] = [0x00, 0x00, 0x80, 0x06, 0x01, 0x01, 0x00];

/// An untrimmed second.
const SECOND: u32 = 32_768;

// Pin choices in 10h, with the lock bit.
const BY_NONE: u8 = 0x80;
const BY_ALARM: u8 = 0x90;
const BY_FREQUENCY: u8 = 0xA0;
const BY_COUNTDOWN: u8 = 0xB0;

// Further bits of 10h.
const PULSE_MODE: u8 = 0x40;
const COUNTDOWN_ON: u8 = 0x04;
const ALARM_ON: u8 = 0x02;
const FREQUENCY_ON: u8 = 0x01;

/// Bytes for 0Fh with the lock kept open.
const CLEAR_FLAGS: u8 = 0x84;
const KEEP_FLAGS: u8 = 0xB4;

/// Bit 7 of 11h.
const AUTO_RESET: u8 = 0x80;

/// All stored items in their order.
pub fn stored_items() -> Vec<Item> {
    [stored_scripts(), stored_by_chance(), stored_files()].concat()
}

/// The stored script files, each with every room that it is run with.
fn stored_files() -> Vec<Item> {
    let runs = stored_cases().into_iter().flat_map(Case::into_runs);
    runs.map(Item::File).collect()
}

/// The scripts, from power-on and from states.
pub fn stored_scripts() -> Vec<Item> {
    let scripts = [
        example::scripts(),
        lock::scripts(),
        time::scripts(),
        alarm::scripts(),
        countdown::scripts(),
        frequency::scripts(),
        bus::scripts(),
        kept::scripts(),
        power::scripts(),
        refused::scripts(),
    ];
    let scripts = scripts.concat().into_iter().map(Item::from);
    scripts
        .chain(rings::items())
        .chain(sheets::items())
        .chain(states::items())
        .collect()
}

/// The first of the random steps and files that are compared elsewhere by the
/// thousand, so that each kind of item is among what is stored.
pub fn stored_by_chance() -> Vec<Item> {
    let steps = Row {
        kind: Kind::Steps,
        x: 2,
        count: 200,
    };
    let files = Row {
        kind: Kind::Files,
        x: 1,
        count: 40,
    };
    steps.items().chain(files.items()).collect()
}
