//! What the chips' sheets work out as examples, and their tables.
//!
//! 003 is the sheet of the SD2010, 000 that of the SD2068, 001 that of the
//! SD3068 and 002 that of the DS1337. Where a sheet differs from the rules the
//! rules hold, and the script's name tells which sheet it is.

mod alarms;
mod countdown;
mod differs;
mod frequency;
mod hours;
mod lock;
mod pin;
mod power;
mod setting;
#[cfg(test)]
mod tests;
mod transfers;
mod trim;

use super::{
    ALARM_ON, AUTO_RESET, BY_ALARM, BY_COUNTDOWN, BY_FREQUENCY, BY_NONE, CLEAR_FLAGS, COUNTDOWN_ON,
    FREQUENCY_ON, KEEP_FLAGS, NEW_CENTURY, PULSE_MODE, SECOND,
};
use crate::script::{Item, Script};
use reference::PIN_PULSE;

/// A quarter of a second, for which a pulse holds the pin.
const PULSE: u32 = PIN_PULSE as u32;

/// The time of 003's and 001's example of setting: Wednesday, 2006-12-20,
/// 18:19:20 in 24-hour hours.
const EXAMPLE_TIME: [u8; 7] = [0x20, 0x19, 0x98, 0x03, 0x20, 0x12, 0x06];

/// All of them, part by part.
pub fn items() -> Vec<Item> {
    let scripts = [
        setting::scripts(),
        hours::scripts(),
        alarms::scripts(),
        pin::scripts(),
        frequency::scripts(),
        countdown::scripts(),
        trim::scripts(),
        transfers::scripts(),
        lock::scripts(),
        power::scripts(),
        differs::scripts(),
    ];
    let scripts = scripts.concat().into_iter().map(Item::from);
    scripts.chain(countdown::longest()).collect()
}

/// A time with this byte in one register and the rest of the new century: the
/// sheets ask for all seven bytes even if only one is to change.
fn new_century_but(at: usize, byte: u8) -> [u8; 7] {
    let mut time = NEW_CENTURY;
    time[at] = byte;
    time
}

/// Closes the lock as the sheets ask: the first bit goes last.
fn lock(script: Script) -> Script {
    script.store(0x0F, &[0x00]).store(0x10, &[0x00])
}
