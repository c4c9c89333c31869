//! Refused events, and states that are set up by hand.

use super::host::Host;
use crate::registers::{SECONDS, TRIM};
use crate::{Answer, Chip, Phase, Stage};

#[test]
fn a_refused_event_changes_nothing() {
    let mut chip = Host::open().chip;
    let before = chip.clone();
    for (kind, byte, count, number) in [
        (7, 0, 0, 2),
        (255, 1, 1, 2),
        (0, 1, 0, 3),
        (0, 0, 1, 3),
        (1, 1, 0, 3),
        (1, 0, 256, 3),
        (2, 0x64, 1, 3),
        (3, 1, 0, 3),
        (4, 0, 1, 3),
        (5, 0, 0, 3),
        (5, 1, 5, 3),
        (6, 1, 0, 3),
        (6, 0, 1, 3),
    ] {
        assert_eq!(chip.step(kind, byte, count), Err(number));
        assert_eq!(chip, before);
    }
    assert_eq!(chip.step(2, 0, 0), Ok(Answer::Nak));
}

#[test]
fn a_step_takes_its_whole_count() {
    let mut chip = Host::fresh().chip;
    chip.step(5, 0, 65_535).unwrap();
    assert_eq!(chip.divider, 65_535);
    assert_eq!(chip.registers()[SECONDS], 0x01);
    assert_eq!(chip.second_counter, 32_767);
}

#[test]
fn a_closed_bus_may_hold_a_pointer() {
    let mut host = Host::fresh();
    host.chip.pointer = 0x14;
    assert!(host.chip.well_formed());
    host.send(&[0x65]);
    assert_eq!(host.read(), 0xA0);
}

#[test]
fn a_counter_far_beyond_its_second_ends_it() {
    let mut host = Host::open();
    host.write(TRIM, &[0x42]);
    host.chip.second_counter = 32_891;
    assert!(host.chip.well_formed());
    host.pulses(1);
    assert_eq!(host.reg(SECONDS), 0x01);
    assert_eq!(host.chip.second_counter, 0);
}

#[test]
fn a_prescaler_beyond_its_tick_ticks_once() {
    let mut host = Host::open();
    host.write(0x13, &[2]);
    host.write(0x10, &[0x84]);
    host.chip.prescaler = 1_966_079;
    host.pulses(1);
    assert_eq!(host.reg(0x13), 1);
    assert_eq!(host.chip.prescaler, 0);
}

/// Is the fresh chip well formed after this change?
fn formed_with(change: impl FnOnce(&mut Chip)) -> bool {
    let mut chip = Host::fresh().chip;
    change(&mut chip);
    chip.well_formed()
}

#[test]
fn counters_have_their_bounds() {
    assert!(formed_with(|c| c.pointer = 31));
    assert!(!formed_with(|c| c.pointer = 32));
    assert!(formed_with(|c| c.second_counter = 32_891));
    assert!(!formed_with(|c| c.second_counter = 32_892));
    assert!(formed_with(|c| c.divider = 524_287));
    assert!(!formed_with(|c| c.divider = 524_288));
    assert!(formed_with(|c| c.prescaler = 1_966_079));
    assert!(!formed_with(|c| c.prescaler = 1_966_080));
    assert!(formed_with(|c| c.alarm_pulse = 8_192));
    assert!(!formed_with(|c| c.alarm_pulse = 8_193));
    assert!(formed_with(|c| c.countdown_pulse = 8_192));
    assert!(!formed_with(|c| c.countdown_pulse = 8_193));
    assert!(formed_with(|c| c.reload = 1));
    assert!(!formed_with(|c| c.regs[0x13] = 1));
}

#[test]
fn lock_bits_latch_and_age_are_judged() {
    assert!(!formed_with(|c| c.regs[0x0F] |= 0x80));
    assert!(!formed_with(|c| c.regs[0x0F] |= 0x04));
    assert!(formed_with(|c| c.regs[0x10] = 0x80));
    assert!(!formed_with(|c| c.regs[0x12] = 0x80));
    assert!(formed_with(|c| c.latch[2] = 0xBF));
    assert!(!formed_with(|c| c.latch[2] = 0x40));
    let aged = |age| Phase::Open {
        stage: Stage::Deaf,
        age,
        saw_ctr1: true,
    };
    assert!(formed_with(|c| c.phase = aged(16_383)));
    assert!(!formed_with(|c| c.phase = aged(16_384)));
}
