//! A script that shows every deed and every moment, for the program that is held
//! to its facts.

use super::{
    ALARM_ON, AUTO_RESET, BY_ALARM, BY_COUNTDOWN, BY_FREQUENCY, CLEAR_FLAGS, COUNTDOWN_ON,
    FREQUENCY_ON, PULSE_MODE, SECOND,
};
use crate::file::placed::Placed;
use crate::script::Script;
use reference::AGE_LIMIT;

/// Four seconds before the century ends.
const CENTURY_END: [u8; 7] = [0x56, 0x59, 0xA3, 0x06, 0x31, 0x12, 0x99];

/// The 30th of a February, 33h in 12-hour mode, on weekday 7.
const NO_TIME: [u8; 7] = [0x58, 0x59, 0x33, 0x07, 0x30, 0x02, 0x99];

/// As many as an event can have.
const LONGEST: u32 = 65_535;

const PARTS: [fn(Script) -> Script; 10] = [
    unheard_and_lost,
    unlocked_at_last,
    frequencies,
    zeros,
    rings,
    flags_cleared,
    all_in_one_pulse,
    read_round,
    no_time,
    power_lost,
];

pub fn file() -> Vec<u8> {
    Placed::start_first(&script()).finish()
}

pub fn script() -> Script {
    let start = Script::at(CENTURY_END);
    PARTS.iter().fold(start, |script, part| part(script))
}

/// A closed bus, a deaf one, and bytes that the lock keeps out.
fn unheard_and_lost(script: Script) -> Script {
    script
        .stop()
        .write(&[0x65])
        .read(1)
        .start()
        .write(&[0x66, 0x64])
        .read_on(1)
        .start()
        .write(&[0x64])
        .read_on(1)
        .write(&[0x20])
        .storing(0x1F, &[0x55, 0x12])
        .stop()
}

/// 0Fh moves no lock bit before 10h has moved its own.
fn unlocked_at_last(script: Script) -> Script {
    script
        .storing(0x0F, &[0x84, 0x80])
        .storing(0x0F, &[0x84])
        .write(&[BY_FREQUENCY | FREQUENCY_ON, 0x01])
        .stop()
}

/// A change every four pulses; then two in each second.
fn frequencies(script: Script) -> Script {
    script
        .store(0x11, &[0x02])
        .pulses(300)
        .store(0x11, &[0x0F])
        .pulses(LONGEST)
}

/// A zero every 16 pulses, then periods that let go of the pin between them.
fn zeros(script: Script) -> Script {
    let on = BY_COUNTDOWN | COUNTDOWN_ON;
    script
        .store(0x10, &[on, 0x00, 0x29, 0x01])
        .pulses(1_200)
        .store(0x10, &[on | PULSE_MODE, 0x10, 0x29, 0x14])
        .pulses(40_000)
}

/// The year 00 rings as it begins, over the century's end; it lasts, and no other
/// second of it does. As a pulse, then as a level.
fn rings(script: Script) -> Script {
    let on = BY_ALARM | ALARM_ON;
    script
        .store(0x0E, &[0x40, CLEAR_FLAGS, on | PULSE_MODE])
        .pulses(LONGEST)
        .store(0x10, &[on])
        .pulses(LONGEST)
}

/// 0Fh is read twice, and ARST is set after the second time.
fn flags_cleared(script: Script) -> Script {
    script
        .fetch(0x0F, 1)
        .fetching(0x0F)
        .read_on(1)
        .storing(0x11, &[AUTO_RESET])
        .stop()
}

/// Second and tick begin together, and a transfer in the middle of them. The
/// second 00h rings, and 0Fh is not read again.
fn all_in_one_pulse(script: Script) -> Script {
    let half = AGE_LIMIT.into();
    let (on, seconds) = (BY_ALARM | ALARM_ON | COUNTDOWN_ON, AUTO_RESET | 0x20);
    script
        .storing(0x0E, &[0x01, CLEAR_FLAGS, on, seconds, 0x00, 0x01])
        .storing(0x00, &[0x59])
        .stop()
        .pulses(half)
        .start()
        .pulses(half)
        .stop()
}

/// A second ends just before 1Fh is read.
fn read_round(script: Script) -> Script {
    script
        .pulses(SECOND - 1_000)
        .fetching(0x1E)
        .read_on(1)
        .pulses(1_000)
        .read_on(1)
        .write(&[0x00])
        .read(8)
        .read_on(1)
        .stop()
}

/// Latched as it stands; two seconds on it is a time again.
fn no_time(script: Script) -> Script {
    script
        .store(0x00, &NO_TIME)
        .pulses(SECOND)
        .start()
        .write(&[0x65])
        .stop()
        .pulses(SECOND)
}

/// The lock closes before it, and it comes in a read.
fn power_lost(script: Script) -> Script {
    script
        .storing(0x0F, &[0x80, 0x80])
        .start()
        .write(&[0x65])
        .read_on(1)
        .power_loss()
        .read_on(1)
        .stop()
        .pulses(SECOND)
}
