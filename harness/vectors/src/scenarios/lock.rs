//! The lock: what opens and closes it, what is stored and what is lost.

use super::{BY_ALARM, COUNTDOWN_ON, KEEP_FLAGS, NEW_CENTURY, PULSE_MODE};
use crate::script::Script;

pub fn scripts() -> Vec<Script> {
    vec![
        right_order().named("lock: right order"),
        wrong_order_in_one_transfer().named("lock: wrong order in one transfer"),
        first_bit_missing().named("lock: first bit missing"),
        bit_by_bit().named("lock: bit by bit"),
        closed_with_a_flag_up().named("lock: closed with a flag up"),
        opened_and_closed_within_a_transfer().named("lock: opened and closed within a transfer"),
    ]
}

/// Ones into every register show the fixed bits; zeros close the lock midway.
fn right_order() -> Script {
    Script::at(NEW_CENTURY)
        .storing(0x14, &[0x11])
        .unlock()
        .store(0x00, &[0xFF; 32])
        .store(0x0E, &[0x00; 5])
}

fn wrong_order_in_one_transfer() -> Script {
    Script::at(NEW_CENTURY)
        .store(0x0F, &[0x84, 0x80])
        .storing(0x12, &[0x15, 0x05])
        .store(0x0F, &[0x84])
        .storing(0x12, &[0x15, 0x05])
}

/// Then 0Fh takes nothing at all, and 10h no more than its lock bit.
fn first_bit_missing() -> Script {
    Script::at(NEW_CENTURY)
        .store(0x0F, &[0xFF])
        .store(0x10, &[0xFF])
        .storing(0x1F, &[0x12, 0x34])
}

/// Each lock bit by itself, with a lost byte after each.
fn bit_by_bit() -> Script {
    Script::at(NEW_CENTURY)
        .storing(0x10, &[0x80])
        .storing(0x0F, &[0x80])
        .store(0x14, &[0x01])
        .storing(0x0F, &[0x04])
        .store(0x14, &[0x02])
        .storing(0x10, &[0xFF])
        .storing(0x0F, &[0xB4])
        .store(0x14, &[0x03])
        .storing(0x10, &[0x7F])
}

/// Closing and opening writes keep the flag and the other control bits, and
/// a locked 11h does not disturb the countdown.
fn closed_with_a_flag_up() -> Script {
    let controls = BY_ALARM | PULSE_MODE | COUNTDOWN_ON;
    Script::at(NEW_CENTURY)
        .unlock_with(&[controls, 0x00, 0x00, 0x01])
        .pulses(15)
        .store(0x10, &[0x0B])
        .storing(0x10, &[0x80])
        .store(0x0F, &[0x84])
        .storing(0x0F, &[0x80, 0xFF, 0x30, 0x3F, 0x09])
        .pulses(1)
        .stop()
        .storing(0x0F, &[0x84])
        .storing(0x0F, &[KEEP_FLAGS])
}

/// Each byte meets the lock as the byte before has left it.
fn opened_and_closed_within_a_transfer() -> Script {
    Script::at(NEW_CENTURY)
        .storing(0x10, &[0x80])
        .storing(0x0E, &[0x01, 0x84, 0xC8, 0x05])
        .storing(0x0E, &[0x02, 0x80, 0xFF, 0x06])
        .stop()
}
