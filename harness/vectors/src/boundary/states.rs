//! States and events for them: those of the stored scripts, every kind, field
//! and address on states that differ, and steps by chance.

use super::contrasts::contrasts;
use super::record::State;
use crate::chance::draws::Draws;
use crate::chance::steps::{draw_event, draw_step};
use crate::scenarios::stored_scripts;
use crate::script::{Event, Item, Script};
use reference::{Chip, Reading, STATE_BYTES};

/// Of more pulses in a script only the last are tried: what is due comes with
/// them.
const LAST_PULSES: u16 = 2;

const RANDOM: usize = 20_000;

pub fn cases() -> Vec<State> {
    let mut draws = Draws::from(4);
    let mut cases: Vec<State> = stored_scripts()
        .iter()
        .flat_map(|item| reached(item, &mut draws))
        .collect();
    for bytes in contrasts() {
        cases.extend(kinds(bytes));
        cases.extend(fields(bytes));
    }
    cases.extend((0..RANDOM).map(|_| random(&mut draws)));
    cases
}

/// Each state that a script comes to, with the script's own event and with one
/// by chance.
pub fn reached(item: &Item, draws: &mut Draws) -> Vec<State> {
    let mut chip = first_chip(item);
    let mut cases = Vec::new();
    for event in item.events() {
        let event = with_last_pulses(&mut chip, *event);
        for event in [event, draw_event(draws)] {
            cases.push(State {
                bytes: chip.to_form(),
                event,
                address: draws.mostly_below(32),
            });
        }
        // A refused event changes nothing, as its own case shows.
        let _ = chip.step_any(event.kind, event.byte, event.count);
    }
    cases
}

fn first_chip(item: &Item) -> Chip {
    match item {
        Item::PowerOn(script) => {
            let powered = Chip::power_on(&script.start_bytes);
            powered.unwrap_or_else(|_| Chip::of_zeros(Reading::Right))
        }
        Item::State(script) => script.chip(Reading::Right),
        Item::File(_) => unreachable!("the stored scripts are no files"),
    }
}

/// Runs all but the last of many pulses, and leaves these.
fn with_last_pulses(chip: &mut Chip, mut event: Event) -> Event {
    if event.kind == Event::PULSES && event.byte == 0 && event.count > LAST_PULSES {
        // On a bad state nothing runs, and the last ones are refused alike.
        let _ = chip.step_any(event.kind, event.byte, event.count - LAST_PULSES);
        event.count = LAST_PULSES;
    }
    event
}

/// Every kind and every address, and with each kind an unused field or two.
fn kinds(bytes: [u8; STATE_BYTES]) -> Vec<State> {
    let of_number = |number: u8| {
        let fields = [(0, 0), (1, 0), (0, 1), (1, 1)];
        fields.map(|(byte, count)| State {
            bytes,
            event: Event {
                kind: number,
                byte,
                count,
            },
            address: number,
        })
    };
    (0..=255).flat_map(of_number).collect()
}

const BYTES: [u8; 10] = [0x00, 0x01, 0x1F, 0x20, 0x64, 0x65, 0x80, 0x84, 0x85, 0xFF];
const COUNTS: [u16; 8] = [0, 1, 2, 8, 256, 8_192, 32_768, 65_535];

/// The kinds there are with bytes and counts at which something turns.
fn fields(bytes: [u8; STATE_BYTES]) -> Vec<State> {
    let mut script = Script::from_bytes(bytes);
    for kind in Event::START..=Event::POWER_LOSS {
        for byte in BYTES {
            for count in COUNTS {
                script = script.event(kind, byte, count);
            }
        }
    }
    let events = script.events.into_iter();
    events
        .map(|event| State {
            bytes,
            event,
            address: event.byte,
        })
        .collect()
}

fn random(draws: &mut Draws) -> State {
    let script = draw_step(draws);
    State {
        bytes: script.start_bytes,
        event: script.events[0],
        address: draws.mostly_below(32),
    }
}
