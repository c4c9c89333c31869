//! Start bytes, good and bad.

use super::NEW_CENTURY;
use crate::file::placed::Placed;
use crate::file::Case;
use crate::script::Script;
use reference::registers::USED;

pub fn cases() -> Vec<Case> {
    let mut cases = fixed_bits();
    cases.extend([ram_full(), all_bits(), every_used_bit()]);
    cases
}

/// Each fixed bit of the time by itself; the year has none.
fn fixed_bits() -> Vec<Case> {
    let mut cases = Vec::new();
    for (at, used) in USED.into_iter().enumerate().take(7) {
        for bit in (0..8).filter(|bit| used & (1 << bit) == 0) {
            let mut time = NEW_CENTURY;
            time[at] |= 1 << bit;
            let script = Script::at(time).start().stop();
            let name = format!("fixed-bit-{bit}-of-{at}");
            cases.push(Case::new(&name, Placed::start_first(&script)));
        }
    }
    cases
}

/// RAM bytes may be anything, and are read back.
fn ram_full() -> Case {
    let mut bytes = [0xFF; 19];
    bytes[..7].copy_from_slice(&NEW_CENTURY);
    let script = Script::from_bytes(bytes).fetch(0x13, 14);
    Case::new("ram-full", Placed::start_first(&script))
}

fn all_bits() -> Case {
    let script = Script::from_bytes([0xFF; 19]).fetch(0x00, 3);
    Case::new("all-bits", Placed::start_first(&script))
}

/// No time of day, but no fixed bit either.
fn every_used_bit() -> Case {
    let mut time = [0; 7];
    time.copy_from_slice(&USED[..7]);
    let script = Script::at(time).fetch(0x00, 8);
    Case::new("every-used-bit", Placed::events_first(&script))
}
