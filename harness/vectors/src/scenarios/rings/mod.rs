//! A match rings where it begins: matches that last, end and begin again, and all
//! ways into one that ring nothing.
//!
//! Each starts from a state with one pulse left of its second.

#[cfg(test)]
mod tests;

use super::{ALARM_ON, BY_ALARM, CLEAR_FLAGS, PULSE_MODE, SECOND};
use crate::script::{Item, Script};
use reference::{PIN_PULSE, STATE_BYTES};

type FromState = Script<STATE_BYTES>;

/// A second before 20:30 on Friday, 2008-08-08, in 24-hour mode.
const BEFORE: [u8; 7] = [0x59, 0x29, 0xA0, 0x05, 0x08, 0x08, 0x08];

/// In that minute.
const WITHIN: [u8; 7] = [0x10, 0x30, 0xA0, 0x05, 0x08, 0x08, 0x08];

/// In the next minute.
const AFTER: [u8; 7] = [0x10, 0x31, 0xA0, 0x05, 0x08, 0x08, 0x08];

/// 07h to 0Eh for the minute of WITHIN alone.
const MINUTE: [u8; 8] = of_minute(0x30, 0x02);

const OFF: u8 = BY_ALARM;
const LEVEL: u8 = BY_ALARM | ALARM_ON;
const PULSE: u8 = LEVEL | PULSE_MODE;

/// Pulses for which a ring holds the pin.
const QUARTER: u32 = PIN_PULSE as u32;

pub fn items() -> Vec<Item> {
    let whole = vec![
        minute().named("ring: a minute, once"),
        inside().named("ring: a state inside a match"),
        time_written().named("ring: a time written into a match"),
        field_written().named("ring: an alarm register written into a match"),
        enable_written().named("ring: 0Eh written inside a match"),
        switched_on().named("ring: INTAE set inside a match"),
        monday_with_tuesday().named("ring: Monday with Tuesday"),
        ends_and_begins().named("ring: a match that ends and begins again"),
    ];
    let scripts = [whole, fields_alone(), illegal_bytes()];
    scripts.concat().into_iter().map(Item::from).collect()
}

/// 07h to 0Eh with this minute and this byte at 0Eh.
const fn of_minute(minute: u8, enable: u8) -> [u8; 8] {
    [0x00, minute, 0x00, 0x00, 0x00, 0x00, 0x00, enable]
}

/// With the lock open, these controls and 07h to 0Eh.
fn set(time: [u8; 7], controls: u8, alarm: [u8; 8]) -> FromState {
    Script::handed_in(time, |chip| {
        chip.regs[0x07..0x0F].copy_from_slice(&alarm);
        chip.regs[0x0F] |= CLEAR_FLAGS;
        chip.regs[0x10] = controls;
        chip.second_counter = SECOND - 1;
    })
}

/// The cleared flag stays so within the match and over its end.
fn minute() -> FromState {
    set(BEFORE, PULSE, MINUTE)
        .pulses(1)
        .pulses(QUARTER - 1)
        .pulses(1)
        .store(0x0F, &[CLEAR_FLAGS])
        .pulses(SECOND - QUARTER)
        .storing(0x00, &[0x58])
        .pulses(SECOND)
        .fetch(0x0F, 1)
        .pulses(SECOND)
}

/// A state remembers no match.
fn inside() -> FromState {
    set(WITHIN, LEVEL, MINUTE).pulses(1)
}

/// By the minute alone and with the second, after a second out of it each; then
/// to just before it.
fn time_written() -> FromState {
    set(AFTER, LEVEL, MINUTE)
        .pulses(1)
        .storing(0x01, &[0x30])
        .pulses(SECOND)
        .storing(0x01, &[0x31])
        .pulses(SECOND)
        .storing(0x00, &WITHIN[..2])
        .pulses(SECOND)
        .storing(0x00, &BEFORE[..2])
        .pulses(SECOND)
}

/// To the present minute, and then to the next one in the last second.
fn field_written() -> FromState {
    set(WITHIN, LEVEL, of_minute(0x31, 0x02))
        .pulses(1)
        .storing(0x08, &[0x30])
        .pulses(SECOND)
        .storing(0x00, &[0x59])
        .storing(0x08, &[0x31])
        .pulses(SECOND)
}

/// From nothing, from the second 00h, and to the same again.
fn enable_written() -> FromState {
    set(WITHIN, LEVEL, of_minute(0x30, 0x00))
        .pulses(1)
        .storing(0x0E, &[0x02])
        .pulses(SECOND)
        .storing(0x0E, &[0x01])
        .pulses(SECOND)
        .storing(0x0E, &[0x02])
        .pulses(SECOND)
        .storing(0x0E, &[0x02])
        .pulses(SECOND)
        .storing(0x00, &BEFORE[..2])
        .pulses(SECOND)
}

/// Off as the match begins and on within it; then off and on again.
fn switched_on() -> FromState {
    set(BEFORE, OFF, MINUTE)
        .pulses(1)
        .storing(0x10, &[LEVEL])
        .pulses(SECOND)
        .storing(0x10, &[OFF])
        .pulses(SECOND)
        .storing(0x10, &[LEVEL])
        .pulses(SECOND)
        .storing(0x00, &BEFORE[..2])
        .pulses(SECOND)
}

/// The midnights after Sunday, Monday and Tuesday.
fn monday_with_tuesday() -> FromState {
    let weekdays = [0x00, 0x00, 0x00, 0b0000_0110, 0x00, 0x00, 0x00, 0x08];
    let sunday = [0x59, 0x59, 0xA3, 0x00, 0x10, 0x08, 0x08];
    let next_midnight = |script: FromState| {
        script
            .storing(0x0F, &[CLEAR_FLAGS])
            .storing(0x00, &[0x59, 0x59, 0xA3])
            .pulses(SECOND)
    };
    let rung = set(sunday, LEVEL, weekdays).pulses(1);
    next_midnight(next_midnight(rung))
}

/// The flag stays set all the while.
fn ends_and_begins() -> FromState {
    set(BEFORE, PULSE, MINUTE)
        .pulses(1)
        .storing(0x00, &[0x59])
        .pulses(SECOND)
        .storing(0x00, &BEFORE[..2])
        .pulses_shown(SECOND)
}

/// At the century's end all change at once; then all but the second stay.
fn fields_alone() -> Vec<FromState> {
    let end = [0x59, 0x59, 0xA3, 0x06, 0x31, 0x12, 0x99];
    let one = |bit: u8| {
        let alarm = [0x00, 0x00, 0x00, 0x01, 0x01, 0x01, 0x00, 1 << bit];
        set(end, PULSE, alarm)
            .pulses(1)
            .pulses(SECOND)
            .named(&format!("ring: field {bit} alone"))
    };
    (0..7).map(one).collect()
}

/// A second and a minute, the alarm's, what it compares, and whether it rings.
type Illegal = ([u8; 2], [u8; 2], u8, bool);

/// The second 31h in the minute 7Ah, and that minute itself; the second 00h that
/// comes after 5Ah, and 5Ah as it goes.
const ILLEGAL: [Illegal; 4] = [
    ([0x30, 0x7A], [0x31, 0x7A], 0x01, true),
    ([0x30, 0x7A], [0x31, 0x7A], 0x02, false),
    ([0x5A, 0x30], [0x00, 0x30], 0x01, true),
    ([0x5A, 0x30], [0x5A, 0x30], 0x01, false),
];

fn illegal_bytes() -> Vec<FromState> {
    let one = |(at, ([second, minute], alarm, enable, _)): (usize, Illegal)| {
        let time = [second, minute, 0xA0, 0x05, 0x08, 0x08, 0x08];
        let alarm = [alarm[0], alarm[1], 0x00, 0x00, 0x00, 0x00, 0x00, enable];
        set(time, LEVEL, alarm)
            .pulses(1)
            .named(&format!("ring: illegal bytes {at}"))
    };
    ILLEGAL.into_iter().enumerate().map(one).collect()
}
