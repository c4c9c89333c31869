//! Good states of which one byte is set to each of its values.

use super::contrasts::contrasts;
use super::record::State;
use crate::script::Event;
use reference::STATE_BYTES;

/// Taken in turn. Their number is odd, so that a value meets another of them at
/// each byte.
const EVENTS: [(u8, u8, u16); 17] = [
    (Event::START, 0, 0),
    (Event::STOP, 0, 0),
    (Event::BYTE, 0x64, 0),
    (Event::BYTE, 0x65, 0),
    (Event::BYTE, 0x0F, 0),
    (Event::BYTE, 0x80, 0),
    (Event::BYTE, 0x84, 0),
    (Event::READ_ACK, 0, 0),
    (Event::READ_NAK, 0, 0),
    (Event::PULSES, 0, 1),
    (Event::PULSES, 0, 8),
    (Event::PULSES, 0, 40),
    (Event::POWER_LOSS, 0, 0),
    (7, 0, 0),
    (Event::START, 1, 0),
    (Event::READ_ACK, 0, 1),
    (Event::PULSES, 0, 0),
];

pub fn cases() -> Vec<State> {
    let damages = contrasts().into_iter().flat_map(damages);
    let events = EVENTS.into_iter().cycle();
    let addresses = (0..40).cycle();
    damages
        .zip(events.zip(addresses))
        .map(|(bytes, ((kind, byte, count), address))| State {
            bytes,
            event: Event { kind, byte, count },
            address,
        })
        .collect()
}

/// Each of the bytes with each value, its own among them.
fn damages(good: [u8; STATE_BYTES]) -> impl Iterator<Item = [u8; STATE_BYTES]> {
    (0..STATE_BYTES).flat_map(move |at| {
        (0..=255).map(move |value| {
            let mut bytes = good;
            bytes[at] = value;
            bytes
        })
    })
}
