//! Well-formed states that no script comes to, and what an event makes of them.

use super::{changed, BY_COUNTDOWN, COUNTDOWN_ON};
use crate::script::Script;
use reference::{Chip, STATE_BYTES};

type FromState = Script<STATE_BYTES>;

pub fn scripts() -> Vec<FromState> {
    vec![
        read_at_a_kept_pointer().named("state: closed at 14h, read"),
        stop_at_a_kept_pointer().named("state: closed at 14h, stopped"),
        pulse_at_a_kept_pointer().named("state: closed at 14h, a pulse"),
        no_power_flag().named("state: RTCF 0, written"),
        no_power_flag_and_power_lost().named("state: RTCF 0, power lost"),
        long_prescaler(COUNTDOWN_ON).named("state: prescaler beyond its limit"),
        long_prescaler(0).named("state: prescaler beyond its limit, standing still"),
        long_second(0x00).named("state: second counter beyond a plain second"),
        long_second(0x42).named("state: second counter beyond a short second"),
        long_second(0x3F).named("state: second counter within a long second"),
    ]
}

fn closed_at_14h() -> FromState {
    changed(|chip| chip.pointer = 0x14)
}

/// START keeps the pointer, and 65h reads from there.
fn read_at_a_kept_pointer() -> FromState {
    closed_at_14h().start().write(&[0x65]).read(2)
}

fn stop_at_a_kept_pointer() -> FromState {
    closed_at_14h().stop()
}

fn pulse_at_a_kept_pointer() -> FromState {
    closed_at_14h().pulses(1)
}

fn without_power_flag() -> FromState {
    changed(|chip| chip.regs[0x0F] = 0)
}

/// No write sets it.
fn no_power_flag() -> FromState {
    without_power_flag()
        .unlock()
        .store(0x0F, &[0xFF])
        .fetch(0x0F, 1)
}

fn no_power_flag_and_power_lost() -> FromState {
    without_power_flag().power_loss()
}

/// A tick takes 8 pulses here; the next one comes at once and not 100 pulses
/// late, unless the countdown is off.
fn long_prescaler(enable: u8) -> FromState {
    changed(|chip: &mut Chip| {
        chip.regs[0x10] = BY_COUNTDOWN | enable;
        chip.regs[0x13] = 2;
        chip.reload = 2;
        chip.prescaler = 100;
    })
    .pulses(1)
    .show()
    .pulses_shown(8)
}

/// The second ends with the next pulse if it should have ended before.
fn long_second(trim: u8) -> FromState {
    changed(|chip| {
        chip.regs[0x12] = trim;
        chip.second_counter = 32_800;
    })
    .pulses(1)
}
