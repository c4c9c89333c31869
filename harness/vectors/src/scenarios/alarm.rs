//! Alarms: what rings, what clears the flag, and the pin.

use super::{ALARM_ON, BY_ALARM, BY_NONE, CLEAR_FLAGS, KEEP_FLAGS, PULSE_MODE, SECOND};
use crate::script::Script;

/// The afternoon of a Wednesday.
const TIME: [u8; 7] = [0x30, 0x59, 0x29, 0x03, 0x17, 0x08, 0x33];

const LEVEL: u8 = BY_ALARM | ALARM_ON;
const PULSE: u8 = BY_ALARM | ALARM_ON | PULSE_MODE;

pub fn scripts() -> Vec<Script> {
    vec![
        seconds_only().named("alarm: seconds only"),
        day_weekday_and_hour().named("alarm: day weekday and hour"),
        all_fields_at_the_end_of_century().named("alarm: all fields at the end of century"),
        switched_off().named("alarm: switched off"),
        enable_clears_the_flag().named("alarm: enable clears the flag"),
        pulse_mode().named("alarm: pulse mode"),
    ]
}

/// Rings at the second 31h, which TIME reaches next.
fn at_second_31(controls: u8) -> Script {
    Script::at(TIME)
        .unlock_with(&[controls])
        .storing(0x07, &[0x31])
        .storing(0x0E, &[0x01])
        .stop()
}

/// A flag written 1 stays as it is, written 0 it clears.
fn seconds_only() -> Script {
    at_second_31(LEVEL)
        .pulses(SECOND - 1)
        .pulses(1)
        .store(0x0F, &[KEEP_FLAGS])
        .storing(0x0F, &[CLEAR_FLAGS])
        .store(0x0F, &[KEEP_FLAGS])
}

/// The day decides where both are enabled; a weekday alone goes by its bit,
/// and the eighth weekday has none. Nine in the evening is not nine in the
/// morning, but the mode does not count. Each second begins a match of its own.
fn day_weekday_and_hour() -> Script {
    Script::at(TIME)
        .unlock_with(&[LEVEL])
        .storing(0x07, &[0x31, 0x00, 0x00, 0x00, 0x17, 0x00, 0x00, 0x19])
        .pulses(SECOND)
        .storing(0x07, &[0x32, 0x00, 0x00, 0x08, 0x18, 0x00, 0x00, 0x19])
        .pulses(SECOND)
        .storing(0x07, &[0x33])
        .storing(0x0E, &[0x09])
        .pulses(SECOND)
        .storing(0x07, &[0x34, 0x00, 0x00, 0xF7, 0x17, 0x00, 0x00, 0x09])
        .pulses(SECOND)
        .storing(0x02, &[0x29, 0x07])
        .storing(0x07, &[0x35, 0x00, 0x09, 0xFF])
        .pulses(SECOND)
        .storing(0x07, &[0x36])
        .storing(0x0E, &[0x05])
        .pulses(SECOND)
        .storing(0x07, &[0x37, 0x00, 0xE9])
        .pulses(SECOND)
        .storing(0x02, &[0xA9])
        .storing(0x07, &[0x38])
        .storing(0x0E, &[0x05])
        .pulses(SECOND)
}

fn all_fields_at_the_end_of_century() -> Script {
    Script::at([0x59, 0x59, 0xA3, 0x06, 0x31, 0x12, 0x99])
        .unlock_with(&[LEVEL])
        .store(0x07, &[0x00, 0x00, 0x00, 0x01, 0x01, 0x01, 0x00, 0xFF])
        .pulses_shown(SECOND)
}

/// Silent while off, silent when switched on within the match, and silent
/// when the match is made by a write.
fn switched_off() -> Script {
    at_second_31(BY_ALARM)
        .pulses(SECOND)
        .storing(0x10, &[LEVEL])
        .storing(0x0E, &[0x80])
        .pulses(SECOND)
        .storing(0x0E, &[0x01])
        .store(0x00, &[0x31])
}

/// A stored 0Eh clears the flag, a locked one does not.
fn enable_clears_the_flag() -> Script {
    at_second_31(LEVEL)
        .pulses(SECOND)
        .store(0x07, &[0x32])
        .store(0x0E, &[0x01])
        .storing(0x0F, &[0x80])
        .pulses(SECOND)
        .store(0x0E, &[0x00])
}

/// The pulse runs unseen under another source and while disabled, and
/// neither the cleared flag nor 0Eh cuts it short.
fn pulse_mode() -> Script {
    at_second_31(BY_NONE | ALARM_ON)
        .pulses(SECOND)
        .storing(0x10, &[PULSE])
        .storing(0x0E, &[0x00, CLEAR_FLAGS])
        .storing(0x10, &[BY_ALARM | PULSE_MODE])
        .pulses(4_000)
        .storing(0x10, &[PULSE])
        .pulses(4_191)
        .pulses(1)
}
