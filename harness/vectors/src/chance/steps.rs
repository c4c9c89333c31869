//! Steps by chance: a state, well formed or not, and one event on it.
//!
//! A register and a latched byte hold what leads somewhere in that register. A
//! counter stands about a number at which its rules turn, and can be one over its
//! limit. Phase and mark are any. Some pointers are over 1Fh, some counts over
//! their reload and some fixed bits set, so more than a third of the states are
//! not well formed.

use super::draws::Draws;
use super::tables::{ANY_BYTE_ROW, EDGES};
use crate::script::{Event, Script};
use reference::registers::{COUNTDOWN, CTR1, USED};
use reference::STATE_BYTES;

// What the counters stay below: each can be one over its limit.
const AGES: u32 = 16_385;
const PIN_PULSES: u32 = 8_194;
const LONG_COUNTERS: [u32; 3] = [32_893, 524_289, 1_966_081];

/// A script of one event from a state.
pub fn draw_step(draws: &mut Draws) -> Script<STATE_BYTES> {
    let state = draw_state(draws);
    let Event { kind, byte, count } = draw_event(draws);
    Script::from_bytes(state).event(kind, byte, count)
}

/// One state in four is loose: its fixed bits may be set.
pub(super) fn draw_state(draws: &mut Draws) -> [u8; STATE_BYTES] {
    let loose = draws.below(4) == 0;
    let registers = (0..32).chain(0..7);
    let mut bytes: Vec<u8> = registers
        .map(|register| register_byte(draws, register, loose))
        .collect();
    bytes.push(reload(draws, bytes[COUNTDOWN]));
    bytes.push(draws.mostly_below(32));
    bytes.extend(phase(draws));
    for _ in 0..2 {
        bytes.extend(short_counter(draws, PIN_PULSES));
    }
    for end in LONG_COUNTERS {
        bytes.extend(counter(draws, end).to_le_bytes());
    }
    bytes.try_into().expect("the sizes add up")
}

/// 0Fh has no place for its fixed bits in a state that is handed in.
fn register_byte(draws: &mut Draws, register: usize, loose: bool) -> u8 {
    let byte = draws.byte_of(row_of(register));
    if loose && register != CTR1 {
        byte
    } else {
        byte & USED[register]
    }
}

/// The row of bytes for a register.
fn row_of(register: usize) -> usize {
    match register {
        0x00..=0x0E => register,
        0x0F => 19,
        0x10..=0x13 => register - 1,
        _ => ANY_BYTE_ROW,
    }
}

/// Three times in four the same as the count, else any byte.
fn reload(draws: &mut Draws, count: u8) -> u8 {
    let h = usize::from(draws.draw());
    if h % 4 == 0 {
        (h / 256) as u8
    } else {
        count
    }
}

/// The phase, the mark of 0Fh and the age; a closed bus has neither.
fn phase(draws: &mut Draws) -> [u8; 4] {
    let phase = draws.below(6) as u8;
    let mark = draws.below(2) as u8;
    let [low, high] = short_counter(draws, AGES);
    match phase {
        0 => [0; 4],
        _ => [phase, mark, low, high],
    }
}

/// A number below `end`, about one at which the rules turn.
pub(super) fn counter(draws: &mut Draws, end: u32) -> u32 {
    let edge = EDGES[draws.below(EDGES.len())];
    (edge + draws.below(4) as u32) % end
}

fn short_counter(draws: &mut Draws, end: u32) -> [u8; 2] {
    let [low, high, ..] = counter(draws, end).to_le_bytes();
    [low, high]
}

/// Mostly an event that is not refused by itself: one kind in sixteen is any byte,
/// and one field in sixteen is set that the kind does not use.
pub fn draw_event(draws: &mut Draws) -> Event {
    let kind = draws.mostly_below(7);
    let byte = match kind {
        Event::BYTE => draws.byte_of(ANY_BYTE_ROW),
        _ => seldom_below(draws, 256) as u8,
    };
    let count = match kind {
        Event::PULSES => pulses(draws),
        _ => seldom_below(draws, 3) as u16,
    };
    Event { kind, byte, count }
}

/// Mostly 0, else drawn below `limit`.
fn seldom_below(draws: &mut Draws, limit: usize) -> usize {
    match draws.below(16) {
        0 => draws.below(limit),
        _ => 0,
    }
}

/// Up to seven, or one time in four about a length at which something is due.
fn pulses(draws: &mut Draws) -> u16 {
    match draws.below(4) {
        0 => draws.length(),
        _ => draws.below(8) as u16,
    }
}
