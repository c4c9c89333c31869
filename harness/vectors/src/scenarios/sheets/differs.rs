//! Places where a sheet differs from the rules, and the rules hold.

use super::{
    ALARM_ON, AUTO_RESET, BY_ALARM, BY_COUNTDOWN, CLEAR_FLAGS, COUNTDOWN_ON, NEW_CENTURY, PULSE,
    PULSE_MODE, SECOND,
};
use crate::script::Script;

pub fn scripts() -> Vec<Script> {
    vec![
        clock_runs_on().named("000 differs: a transfer does not hold the clock"),
        flag_does_not_end_the_pulse().named("000 differs: INTAF does not end the pulse"),
        enable_ends_the_pulse().named("003, 001: INTAE ends the pulses, 000 differs"),
        power_flag_stays().named("003, 001 differ: no write clears RTCF"),
        countdown_stands_still().named("003, 001 differ: INTDE 0 resets nothing"),
        short_period().named("003, 001 differ: pulses for periods below 250 ms"),
        flags_until_stop().named("003, 001 differ: ARST acts at STOP and not at the read"),
        high_bits_of_the_pointer().named("003, 000 differ: a pointer has no mode bits"),
        start_and_stop_latch_nothing().named("002 differs: START and STOP latch nothing"),
        write_over_the_end().named("002 differs: a write that wraps latches nothing"),
    ]
}

/// Without a STOP at the end: the state is that within the transfer.
fn clock_runs_on() -> Script {
    Script::at(NEW_CENTURY)
        .pulses(SECOND - 16_000)
        .fetching(0x00)
        .pulses(15_999)
        .pulses(1)
}

/// Rings at the second 01h, which comes next.
fn second_1(controls: u8) -> Script {
    Script::at(NEW_CENTURY)
        .unlock_with(&[BY_ALARM | controls])
        .storing(0x07, &[0x01])
        .store(0x0E, &[0x01])
}

fn flag_does_not_end_the_pulse() -> Script {
    second_1(ALARM_ON | PULSE_MODE)
        .pulses(SECOND)
        .store(0x0F, &[CLEAR_FLAGS])
        .pulses(PULSE - 1)
        .pulses(1)
}

/// The flag is cleared afterwards, and the next match leaves it so.
fn enable_ends_the_pulse() -> Script {
    second_1(ALARM_ON | PULSE_MODE)
        .pulses(SECOND)
        .store(0x10, &[BY_ALARM | PULSE_MODE])
        .storing(0x00, &[0x00])
        .store(0x0F, &[CLEAR_FLAGS])
        .pulses(SECOND)
}

/// Bytes that are lost, that move the lock, and that are stored.
fn power_flag_stays() -> Script {
    Script::at(NEW_CENTURY)
        .store(0x14, &[0x01])
        .unlock()
        .store(0x14, &[0x01])
        .store(0x0F, &[CLEAR_FLAGS])
}

/// Off after one tick and half of the next, it goes on with the other half.
fn countdown_stands_still() -> Script {
    Script::at(NEW_CENTURY)
        .unlock_with(&[BY_COUNTDOWN | COUNTDOWN_ON, 0x00, 0x00, 0x02])
        .pulses(12)
        .store(0x10, &[BY_COUNTDOWN])
        .pulses(50)
        .store(0x10, &[BY_COUNTDOWN | COUNTDOWN_ON])
        .pulses_shown(4)
}

/// At 4,096 Hz with a count of 1 there is a zero each 16 pulses: low for good.
fn short_period() -> Script {
    Script::at(NEW_CENTURY)
        .unlock_with(&[BY_COUNTDOWN | COUNTDOWN_ON | PULSE_MODE, 0x00, 0x00, 0x01])
        .pulses(7)
        .pulses(1)
        .pulses(PULSE)
        .pulses(PULSE)
}

/// Read twice in a transfer, the flag is there twice.
fn flags_until_stop() -> Script {
    Script::at(NEW_CENTURY)
        .unlock_with(&[BY_COUNTDOWN | COUNTDOWN_ON, AUTO_RESET, 0x00, 0x01])
        .pulses(8)
        .fetching(0x0F)
        .read(1)
        .fetching(0x0F)
        .read(1)
        .stop()
        .fetch(0x0F, 1)
}

/// 14h with each of the upper three bits, which the sheets call a mode.
fn high_bits_of_the_pointer() -> Script {
    let one = |script: Script, bit: u8| script.storing(0x14 | 1 << bit, &[0x5A]);
    (5..8).fold(Script::at(NEW_CENTURY).unlock(), one)
}

/// The latch is still as power-on left it.
fn start_and_stop_latch_nothing() -> Script {
    Script::at(NEW_CENTURY).start().stop()
}

fn write_over_the_end() -> Script {
    Script::at(NEW_CENTURY)
        .unlock()
        .store(0x1F, &[0x5A])
        .store(0x1F, &[0x5A, 0x33])
}
