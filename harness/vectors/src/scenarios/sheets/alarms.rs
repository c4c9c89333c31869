//! Alarms: the four examples of 003 and 001, their weekday example (000 has it
//! too), how the flag is cleared, and 002's table of what is compared.

use super::{
    new_century_but, ALARM_ON, AUTO_RESET, BY_ALARM, CLEAR_FLAGS, KEEP_FLAGS, NEW_CENTURY, PULSE,
    PULSE_MODE, SECOND,
};
use crate::script::Script;

/// INTAE 1, IM 1 and INTS 1, as in the first three examples.
const PERIODIC: u8 = BY_ALARM | ALARM_ON | PULSE_MODE;

/// The same with IM 0, as in the fourth.
const SINGLE: u8 = BY_ALARM | ALARM_ON;

pub fn scripts() -> Vec<Script> {
    vec![
        each_minute().named("003, 001: alarm example 1, second 20 of each minute"),
        weekdays_at_half_past_eight().named("003, 001: alarm example 2, Mon Tue Fri 8:30:00"),
        first_of_each_month().named("003, 001: alarm example 3, the 1st at 8:30:00"),
        opening_of_the_games().named("003, 001: alarm example 4, 2008-08-08 20h"),
        games_rung_once().named("003, 001: alarm example 4 rings once"),
        first_second_of_a_match().named("003, 000, 001: the first second of a match rings"),
        saturday_and_monday().named("003, 000, 001: weekday alarm AW6 and AW1"),
        day_before_weekday().named("003, 000, 001: with day and weekday only the day"),
        ways_to_clear().named("003, 000, 001: ways to clear INTAF"),
        masks().named("002: which fields are compared, once per second differs"),
        written_one().named("002: a flag that is written 1 stays"),
    ]
}

/// The alarm registers from 07h to 0Eh, and the controls.
fn alarm(controls: u8, registers: [u8; 8]) -> Script {
    alarm_at(NEW_CENTURY, controls, registers)
}

fn alarm_at(time: [u8; 7], controls: u8, registers: [u8; 8]) -> Script {
    Script::at(time)
        .unlock_with(&[controls])
        .store(0x07, &registers)
}

/// The pin falls when the seconds reach 20h, stays low for 250 ms, and falls
/// again a minute later.
fn each_minute() -> Script {
    alarm(PERIODIC, [0x20, 0, 0, 0, 0, 0, 0, 0b0000_0001])
        .store(0x00, &new_century_but(0x00, 0x18))
        .pulses(SECOND)
        .pulses(SECOND - 1)
        .pulses(1)
        .show()
        .pulses(PULSE - 1)
        .pulses(1)
        .pulses(60 * SECOND - PULSE - 1)
        .pulses(1)
        .show()
        .pulses(PULSE - 1)
        .pulses(1)
}

/// From a second before a time, with the flag cleared: the pulse before it,
/// the time itself, and the two ends of the 250 ms from then on.
fn around(script: Script, before: &[u8; 7]) -> Script {
    script
        .store(0x00, before)
        .store(0x0F, &[CLEAR_FLAGS])
        .pulses(SECOND - 1)
        .pulses(1)
        .show()
        .pulses(PULSE - 1)
        .pulses(1)
}

/// A time one second before a possible alarm, and whether it rings.
pub type Chance = ([u8; 7], bool);

fn around_all(script: Script, chances: &[Chance]) -> Script {
    chances.iter().map(|(time, _)| time).fold(script, around)
}

/// Bits 1, 2 and 5 of 0Ah: Monday, Tuesday, Friday.
pub const HALF_PAST_EIGHT: [Chance; 13] = [
    ([0x59, 0x29, 0x88, 0x00, 0x07, 0x06, 0x09], false),
    ([0x59, 0x29, 0x88, 0x01, 0x08, 0x06, 0x09], true),
    ([0x59, 0x29, 0x88, 0x02, 0x09, 0x06, 0x09], true),
    ([0x59, 0x29, 0x88, 0x03, 0x10, 0x06, 0x09], false),
    ([0x59, 0x29, 0x88, 0x04, 0x11, 0x06, 0x09], false),
    ([0x59, 0x29, 0x88, 0x05, 0x12, 0x06, 0x09], true),
    ([0x59, 0x29, 0x88, 0x06, 0x13, 0x06, 0x09], false),
    // on a Monday with 12-hour hours: the morning and not the evening
    ([0x59, 0x29, 0x08, 0x01, 0x08, 0x06, 0x09], true),
    ([0x59, 0x29, 0x28, 0x01, 0x08, 0x06, 0x09], false),
    // the evening, another hour, another minute, another second
    ([0x59, 0x29, 0xA0, 0x01, 0x08, 0x06, 0x09], false),
    ([0x59, 0x29, 0x89, 0x01, 0x08, 0x06, 0x09], false),
    ([0x59, 0x28, 0x88, 0x01, 0x08, 0x06, 0x09], false),
    ([0x00, 0x30, 0x88, 0x01, 0x08, 0x06, 0x09], false),
];

fn weekdays_at_half_past_eight() -> Script {
    let registers = [0x00, 0x30, 0x08, 0b0010_0110, 0, 0, 0, 0b0000_1111];
    around_all(alarm(PERIODIC, registers), &HALF_PAST_EIGHT)
}

pub const FIRST_OF_MONTH: [Chance; 18] = [
    ([0x59, 0x29, 0x88, 0x04, 0x01, 0x01, 0x09], true),
    ([0x59, 0x29, 0x88, 0x00, 0x01, 0x02, 0x09], true),
    ([0x59, 0x29, 0x88, 0x00, 0x01, 0x03, 0x09], true),
    ([0x59, 0x29, 0x88, 0x03, 0x01, 0x04, 0x09], true),
    ([0x59, 0x29, 0x88, 0x05, 0x01, 0x05, 0x09], true),
    ([0x59, 0x29, 0x88, 0x01, 0x01, 0x06, 0x09], true),
    ([0x59, 0x29, 0x88, 0x03, 0x01, 0x07, 0x09], true),
    ([0x59, 0x29, 0x88, 0x06, 0x01, 0x08, 0x09], true),
    ([0x59, 0x29, 0x88, 0x02, 0x01, 0x09, 0x09], true),
    ([0x59, 0x29, 0x88, 0x04, 0x01, 0x10, 0x09], true),
    ([0x59, 0x29, 0x88, 0x00, 0x01, 0x11, 0x09], true),
    ([0x59, 0x29, 0x88, 0x02, 0x01, 0x12, 0x09], true),
    // other days that have a 1 in them, and the 2nd
    ([0x59, 0x29, 0x88, 0x02, 0x02, 0x06, 0x09], false),
    ([0x59, 0x29, 0x88, 0x04, 0x11, 0x06, 0x09], false),
    ([0x59, 0x29, 0x88, 0x00, 0x31, 0x05, 0x09], false),
    // with 12-hour hours: the morning and not the evening
    ([0x59, 0x29, 0x08, 0x01, 0x01, 0x06, 0x09], true),
    ([0x59, 0x29, 0x28, 0x01, 0x01, 0x06, 0x09], false),
    ([0x00, 0x30, 0x88, 0x01, 0x01, 0x06, 0x09], false),
];

fn first_of_each_month() -> Script {
    let registers = [0x00, 0x30, 0x08, 0, 0x01, 0, 0, 0b0001_0111];
    around_all(alarm(PERIODIC, registers), &FIRST_OF_MONTH)
}

/// All one second before eight in the evening.
pub const GAMES: [Chance; 6] = [
    ([0x59, 0x59, 0x99, 0x05, 0x08, 0x08, 0x08], true),
    ([0x59, 0x59, 0x99, 0x06, 0x09, 0x08, 0x08], false),
    ([0x59, 0x59, 0x99, 0x02, 0x08, 0x07, 0x08], false),
    ([0x59, 0x59, 0x99, 0x06, 0x08, 0x08, 0x09], false),
    ([0x59, 0x59, 0x98, 0x05, 0x08, 0x08, 0x08], false),
    // the example is for 24-hour hours: with 12-hour ones the hour is 28h
    ([0x59, 0x59, 0x27, 0x05, 0x08, 0x08, 0x08], false),
];

/// Year, month, day and hour.
const GAMES_ALARM: [u8; 8] = [0, 0, 0x20, 0, 0x08, 0x08, 0x08, 0b0111_0100];

/// In the end it rings at eight, and is high from the clearing of INTAF on, up to
/// the last pulse of that second.
fn opening_of_the_games() -> Script {
    let script = around_all(alarm(SINGLE, GAMES_ALARM), &GAMES);
    around(script, &GAMES[0].0)
        .store(0x0F, &[CLEAR_FLAGS])
        .pulses(SECOND - PULSE - 1)
}

/// The whole hour matches. The flag is cleared at 20:00:05 and read a second
/// later, and again in the last second of the hour; then the hour ends.
fn games_rung_once() -> Script {
    alarm_at(GAMES[0].0, SINGLE, GAMES_ALARM)
        .pulses(SECOND)
        .pulses(5 * SECOND)
        .store(0x0F, &[CLEAR_FLAGS])
        .pulses(SECOND)
        .fetch(0x0F, 1)
        .store(0x00, &[0x58, 0x59, 0xA0, 0x05, 0x08, 0x08, 0x08])
        .pulses(SECOND)
        .fetch(0x0F, 1)
        .pulses(SECOND)
}

/// Two seconds of the minute 01h, and after each the flag is cleared.
fn first_second_of_a_match() -> Script {
    let registers = [0, 0x01, 0, 0, 0, 0, 0, 0b0000_0010];
    let script = alarm_at(new_century_but(0x00, 0x59), SINGLE, registers);
    (0..2).fold(script, |script, _| {
        script.pulses(SECOND).store(0x0F, &[CLEAR_FLAGS])
    })
}

/// Nothing but the weekday is compared, at the midnight into each day of a week.
fn saturday_and_monday() -> Script {
    let script = alarm(SINGLE, [0, 0, 0, 0b0100_0010, 0, 0, 0, 0b0000_1000]);
    let one = |script: Script, weekday: u8| {
        let eve = [0x59, 0x59, 0xA3, (weekday + 6) % 7, 0x01, 0x06, 0x09];
        script
            .storing(0x00, &eve)
            .storing(0x0F, &[CLEAR_FLAGS])
            .stop()
            .pulses_shown(SECOND)
    };
    (0..7).fold(script, one)
}

/// The alarm's weekday is a Saturday and its day the 1st: a Monday that is the
/// 1st rings, a Saturday that is the 6th does not.
pub const DAY_AND_WEEKDAY: [Chance; 2] = [
    ([0x59, 0x59, 0x99, 0x01, 0x01, 0x06, 0x09], true),
    ([0x59, 0x59, 0x99, 0x06, 0x06, 0x06, 0x09], false),
];

fn day_before_weekday() -> Script {
    let registers = [0x00, 0x00, 0x20, 0b0100_0000, 0x01, 0, 0, 0b0001_1111];
    around_all(alarm(PERIODIC, registers), &DAY_AND_WEEKDAY)
}

/// Rings at the second 01h, which the new century reaches next.
fn second_1() -> Script {
    alarm(SINGLE, [0x01, 0, 0, 0, 0, 0, 0, 0b0000_0001])
}

/// By a write of 0Eh, by a 0 written to the flag, and with ARST 1 by a read
/// of 0Fh and the STOP after it. The time is set back for each ring.
fn ways_to_clear() -> Script {
    second_1()
        .pulses(SECOND)
        .store(0x0E, &[0b0000_0001])
        .storing(0x00, &[0x00])
        .pulses(SECOND)
        .store(0x0F, &[CLEAR_FLAGS])
        .storing(0x00, &[0x00])
        .pulses(SECOND)
        .fetch(0x0F, 1)
        .store(0x11, &[AUTO_RESET])
        .fetch(0x0F, 1)
}

/// Up as well as down.
fn written_one() -> Script {
    second_1()
        .pulses(SECOND)
        .store(0x0F, &[KEEP_FLAGS])
        .store(0x0F, &[CLEAR_FLAGS])
        .store(0x0F, &[KEEP_FLAGS])
}

/// Times one second before a full minute: they meet the second alone, the
/// minute too, the hour too, and then the day, the weekday, and both of them.
pub const NEARER: [[u8; 7]; 6] = [
    [0x59, 0x44, 0x89, 0x04, 0x18, 0x06, 0x09],
    [0x59, 0x29, 0x89, 0x04, 0x18, 0x06, 0x09],
    [0x59, 0x29, 0x88, 0x04, 0x18, 0x06, 0x09],
    [0x59, 0x29, 0x88, 0x05, 0x17, 0x07, 0x09],
    [0x59, 0x29, 0x88, 0x03, 0x10, 0x06, 0x09],
    [0x59, 0x29, 0x88, 0x03, 0x17, 0x06, 0x09],
];

/// 0Eh for 002's rows: seconds; with minutes; with hours; with the date; with
/// the weekday. Its row "once per second" is 0 here, where 0 never rings.
pub const MASKS: [u8; 6] = [0x01, 0x03, 0x07, 0x17, 0x0F, 0x00];

/// Each write to 0Eh clears the flag of the run before.
fn masks() -> Script {
    let mut script = alarm(SINGLE, [0x00, 0x30, 0x08, 0b0000_1000, 0x17, 0, 0, 0]);
    for mask in MASKS {
        for time in NEARER {
            script = script
                .storing(0x0E, &[mask])
                .storing(0x00, &time)
                .pulses(SECOND);
        }
    }
    script
}
