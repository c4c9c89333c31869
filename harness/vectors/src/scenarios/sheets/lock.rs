//! The order in which the lock bits are set and cleared (003, 000, 001).

use super::{BY_COUNTDOWN, COUNTDOWN_ON, NEW_CENTURY};
use crate::script::Script;

/// The lock bits by their numbers, in each order.
pub const ORDERS: [[u8; 3]; 6] = [
    [1, 2, 3],
    [1, 3, 2],
    [2, 1, 3],
    [2, 3, 1],
    [3, 1, 2],
    [3, 2, 1],
];

pub fn scripts() -> Vec<Script> {
    let setting = ORDERS.map(|order| setting(order).named(&named("setting", order)));
    let clearing = ORDERS.map(|order| clearing(order).named(&named("clearing", order)));
    let others = [
        believing([2, 1, 3]).named("003, 000: WRTC2 set before WRTC1 and again with WRTC3"),
        ff_and_7b().named("001: FFh to unlock and 7Bh to lock"),
        bits_missing().named("003, 001: 0Fh and 10h written with a lock bit 0"),
    ];
    let opening = OPENING.map(|writes| together(Script::at(NEW_CENTURY), writes));
    let locking = LOCKING.map(|writes| together(Script::at(NEW_CENTURY).unlock(), writes));
    let together = [opening, locking].concat();
    [&setting[..], &clearing[..], &others[..], &together[..]].concat()
}

/// The sheets want WRTC1 first when setting and last when clearing.
fn named(what: &str, [a, b, c]: [u8; 3]) -> String {
    let asked = match (what, a, c) {
        ("setting", 1, _) | ("clearing", _, 1) => "as asked",
        _ => "not as asked",
    };
    format!("003, 000, 001: {what} WRTC{a}, WRTC{b}, WRTC{c}, {asked}")
}

/// After each lock write another byte is tried on 14h.
const TRIED: [u8; 3] = [0x11, 0x22, 0x33];

/// Writes these bits and no others to a register, and tries 14h.
fn write_and_try(script: Script, at: u8, bits: u8, tried: u8) -> Script {
    script.store(at, &[bits]).store(0x14, &[tried])
}

/// The register that holds a lock bit.
fn register(number: u8) -> u8 {
    [0x10, 0x0F, 0x0F][usize::from(number) - 1]
}

/// The place of a lock bit in its register.
fn bit(number: u8) -> u8 {
    [0x80, 0x04, 0x80][usize::from(number) - 1]
}

/// One bit a write. Beside it stand the bits of 0Fh that were set after WRTC1:
/// those set before it were lost.
fn setting(order: [u8; 3]) -> Script {
    let mut script = Script::at(NEW_CENTURY);
    let (mut first, mut others) = (false, 0);
    for (number, tried) in order.into_iter().zip(TRIED) {
        let mut bits = bit(number);
        if number == 1 {
            first = true;
        } else {
            bits |= others;
            others = if first { bits } else { 0 };
        }
        script = write_and_try(script, register(number), bits, tried);
    }
    script
}

/// The host takes it that each bit was set: its last write holds both bits of
/// 0Fh, and so it unlocks after all.
fn believing([a, b, c]: [u8; 3]) -> Script {
    let script = write_and_try(Script::at(NEW_CENTURY), register(a), bit(a), TRIED[0]);
    let script = write_and_try(script, register(b), bit(b), TRIED[1]);
    write_and_try(script, register(c), bit(a) | bit(c), TRIED[2])
}

/// One bit a write, and the other one of 0Fh as if it still stood: after WRTC1
/// a 1 is tried in vain.
fn clearing(order: [u8; 3]) -> Script {
    let mut script = Script::at(NEW_CENTURY).unlock();
    let mut others = 0x84;
    for (number, tried) in order.into_iter().zip(TRIED) {
        let bits = if number == 1 {
            0
        } else {
            others &= !bit(number);
            others
        };
        script = write_and_try(script, register(number), bits, tried);
    }
    script
}

/// Two registers with a byte for each, and whether the sheets ask for this
/// order.
type Writes = ([(u8, u8); 2], &'static str);

/// WRTC2 and WRTC3 go together, in one byte: when opening after WRTC1.
const OPENING: [Writes; 2] = [
    ([(0x10, 0x80), (0x0F, 0x84)], "as asked"),
    ([(0x0F, 0x84), (0x10, 0x80)], "not as asked"),
];

/// When locking they go before it.
const LOCKING: [Writes; 2] = [
    ([(0x0F, 0x00), (0x10, 0x00)], "as asked"),
    ([(0x10, 0x00), (0x0F, 0x00)], "not as asked"),
];

fn together(script: Script, ([(a, x), (b, y)], asked): Writes) -> Script {
    let name = format!("003, 000, 001: {a:02X}h = {x:02X}h, {b:02X}h = {y:02X}h, {asked}");
    let script = write_and_try(script, a, x, TRIED[0]);
    write_and_try(script, b, y, TRIED[1]).named(&name)
}

/// 001's bytes for 0Fh keep a flag that is up.
fn ff_and_7b() -> Script {
    Script::at(NEW_CENTURY)
        .store(0x10, &[0x80])
        .store(0x0F, &[0xFF])
        .store(0x10, &[BY_COUNTDOWN | COUNTDOWN_ON, 0x00, 0x00, 0x01])
        .pulses(8)
        .store(0x0F, &[0xFF])
        .store(0x14, &[TRIED[0]])
        .store(0x0F, &[0x7B])
        .store(0x14, &[TRIED[1]])
        .store(0x10, &[0x00])
}

/// While open, a write without a lock bit locks, and stores nothing else.
fn bits_missing() -> Script {
    Script::at(NEW_CENTURY)
        .unlock_with(&[0x88])
        .store(0x10, &[0x72])
        .unlock()
        .store(0x0F, &[0x04])
        .store(0x10, &[0xF2])
}
