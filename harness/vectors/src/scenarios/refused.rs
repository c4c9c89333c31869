//! Refused events and refused start bytes.

use super::{BY_COUNTDOWN, COUNTDOWN_ON, NEW_CENTURY};
use crate::script::Script;

pub fn scripts() -> Vec<Script> {
    let mut scripts = vec![
        events().named("refused: events"),
        last_event_refused().named("refused: last event"),
        no_events().named("refused: no events"),
        odd_but_fine().named("refused: not an odd time"),
    ];
    scripts.extend((0..6).map(fixed_time_bit));
    scripts.push(all_bits_set().named("refused: all bits set"));
    scripts.push(only_ram_full().named("refused: not a full RAM"));
    scripts
}

/// Each refused event stands amid a transfer that goes on undisturbed.
fn events() -> Script {
    let refused = [
        (7, 0, 0),
        (8, 1, 1),
        (255, 0, 0),
        (0, 1, 0),
        (0, 0, 1),
        (1, 1, 0),
        (1, 0, 0x0100),
        (2, 0x65, 1),
        (3, 1, 0),
        (3, 0, 1),
        (4, 0x80, 0),
        (4, 0, 0x8000),
        (5, 0, 0),
        (5, 1, 1),
        (6, 1, 0),
        (6, 0, 1),
    ];
    let script = Script::at(NEW_CENTURY)
        .unlock_with(&[BY_COUNTDOWN | COUNTDOWN_ON, 0x00, 0x00, 0x01])
        .pulses(7)
        .fetching(0x13);
    refused
        .into_iter()
        .fold(script, |script, (kind, byte, count)| {
            script.event(kind, byte, count)
        })
        .read_on(1)
        .pulses(1)
        .event(2, 0, 0)
        .read(1)
}

/// The state is shown after it all the same, and once.
fn last_event_refused() -> Script {
    Script::at(NEW_CENTURY).start().event(1, 0, 1)
}

fn no_events() -> Script {
    Script::at(NEW_CENTURY)
}

/// Illegal as a time, but no fixed bit is set.
fn odd_but_fine() -> Script {
    Script::at([0x7F, 0x7F, 0xBF, 0x07, 0x3F, 0x1F, 0xFF])
}

/// One fixed bit in this time byte; the year's byte has none.
fn fixed_time_bit(at: usize) -> Script {
    const FIXED: [u8; 6] = [0x80, 0x80, 0x40, 0x08, 0x40, 0x20];
    let mut time = NEW_CENTURY;
    time[at] |= FIXED[at];
    Script::at(time).named(&format!("refused: fixed bit of time byte {at}"))
}

fn all_bits_set() -> Script {
    Script::from_bytes([0xFF; 19]).fetch(0x1E, 3)
}

fn only_ram_full() -> Script {
    let mut bytes = [0xFF; 19];
    bytes[..7].copy_from_slice(&NEW_CENTURY);
    Script::from_bytes(bytes).fetch(0x1E, 3)
}
