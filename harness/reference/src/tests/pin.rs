//! The level of the pin.

use super::host::Host;
use crate::registers::{
    ALARM_ENABLE, ALARM_SECONDS, COUNTDOWN, CTR1, CTR2, CTR3, FOBAT, IM, INTAE, INTAF, INTDE,
    INTDF, INTFE, SECONDS,
};
use crate::Pin;

const OPEN: u8 = 0x80;
const BY_ALARM: u8 = 0x10;
const BY_FREQUENCY: u8 = 0x20;
const BY_COUNTDOWN: u8 = 0x30;

/// An alarm has just rung; the pin is under these further bits of CTR2.
fn rung(bits: u8) -> Host {
    let mut host = Host::open();
    host.write(ALARM_SECONDS, &[0x01]);
    host.write(ALARM_ENABLE, &[0x01]);
    host.write(CTR2, &[OPEN | INTAE | bits]);
    host.second();
    assert!(host.flag(INTAF));
    host
}

/// A countdown of `count` short ticks, under these further bits of CTR2.
fn counting(count: u8, bits: u8) -> Host {
    let mut host = Host::open();
    host.write(COUNTDOWN, &[count]);
    host.write(CTR2, &[OPEN | INTDE | bits]);
    host
}

fn frequency(fs: u8) -> Host {
    let mut host = Host::open();
    host.write(CTR3, &[fs]);
    host.write(CTR2, &[OPEN | BY_FREQUENCY | INTFE]);
    host
}

#[test]
fn no_source_is_high() {
    let mut host = rung(0);
    assert_eq!(host.pin(), Pin::H);
    host.write(CTR2, &[OPEN | INTAE | IM]);
    assert_eq!(host.pin(), Pin::H);
}

#[test]
fn level_mode_shows_the_flag_alone() {
    let mut host = rung(BY_ALARM);
    assert_eq!(host.pin(), Pin::L);
    host.write(CTR2, &[OPEN | BY_ALARM]);
    assert_eq!(host.pin(), Pin::L);
    host.pulses(9_000);
    assert_eq!(host.pin(), Pin::L);
    host.write(CTR1, &[0x84]);
    assert_eq!(host.pin(), Pin::H);
}

#[test]
fn pulse_mode_lasts_8192_pulses() {
    let mut host = rung(BY_ALARM | IM);
    assert_eq!(host.pin(), Pin::L);
    host.pulses(8_191);
    assert_eq!(host.pin(), Pin::L);
    host.pulses(1);
    assert_eq!(host.pin(), Pin::H);
    assert!(host.flag(INTAF));
}

#[test]
fn pulse_mode_obeys_the_enable_and_not_the_flag() {
    let mut host = rung(BY_ALARM | IM);
    host.write(CTR1, &[0x84]);
    host.write(ALARM_ENABLE, &[0]);
    assert_eq!(host.pin(), Pin::L);
    host.write(CTR2, &[OPEN | BY_ALARM | IM]);
    assert_eq!(host.pin(), Pin::H);
    host.pulses(4_000);
    host.write(CTR2, &[OPEN | BY_ALARM | IM | INTAE]);
    assert_eq!(host.pin(), Pin::L);
    host.pulses(4_192);
    assert_eq!(host.pin(), Pin::H);
}

#[test]
fn a_pulse_runs_under_any_source_and_mode() {
    let mut host = rung(BY_COUNTDOWN);
    assert_eq!(host.pin(), Pin::H);
    host.pulses(8_191);
    host.write(CTR2, &[OPEN | BY_ALARM | IM | INTAE]);
    assert_eq!(host.pin(), Pin::L);
}

#[test]
fn countdown_has_both_modes_too() {
    let mut host = counting(1, BY_COUNTDOWN);
    host.pulses(7);
    assert_eq!(host.pin(), Pin::H);
    host.pulses(1);
    assert_eq!(host.pin(), Pin::L);
    host.write(CTR2, &[OPEN | BY_COUNTDOWN | IM]);
    assert_eq!(host.pin(), Pin::H);
    host.write(CTR2, &[OPEN | BY_COUNTDOWN]);
    assert_eq!(host.pin(), Pin::L);
}

#[test]
fn short_periods_hold_the_pin_low() {
    let mut host = counting(1, BY_COUNTDOWN | IM);
    host.pulses(8);
    host.write(CTR1, &[0x84]);
    for _ in 0..4 {
        host.pulses(8_192);
        assert_eq!(host.pin(), Pin::L);
    }
}

#[test]
fn a_zero_under_a_set_flag_renews_the_pulse() {
    let mut host = counting(255, BY_COUNTDOWN | IM);
    host.pulses(255 * 8);
    let first = host.chip.countdown_pulse;
    host.pulses(256 * 8);
    assert!(host.flag(INTDF));
    assert_eq!(host.chip.countdown_pulse, first);
}

#[test]
fn frequencies_start_low_and_turn_at_half() {
    let periods: [u32; 13] = [
        8, 32, 512, 1024, 2048, 4096, 8192, 16384, 32768, 65536, 131072, 262144, 524288,
    ];
    for (fs, period) in (2..).zip(periods) {
        let mut host = frequency(fs);
        assert_eq!(host.pin(), Pin::L);
        host.pulses(period / 2 - 1);
        assert_eq!(host.pin(), Pin::L);
        host.pulses(1);
        assert_eq!(host.pin(), Pin::H);
        host.pulses(period / 2 - 1);
        assert_eq!(host.pin(), Pin::H);
        host.pulses(1);
        assert_eq!(host.pin(), Pin::L);
    }
}

#[test]
fn nothing_but_power_clears_the_divider() {
    let mut host = frequency(10);
    host.pulses(16_384);
    host.write(SECONDS, &[0]);
    host.write(CTR3, &[10, 0, 0]);
    assert_eq!(host.pin(), Pin::H);
    host.lose_power();
    assert_eq!(host.chip.divider, 0);
    assert_eq!(host.pin(), Pin::H);
}

#[test]
fn the_crystal_needs_source_enable_and_choice() {
    let mut host = frequency(1);
    assert_eq!(host.pin(), Pin::X);
    host.write(CTR2, &[OPEN | BY_FREQUENCY]);
    assert_eq!(host.pin(), Pin::H);
    host.write(CTR2, &[OPEN | BY_ALARM | INTFE]);
    assert_eq!(host.pin(), Pin::H);
    assert_eq!(frequency(0).pin(), Pin::H);
}

#[test]
fn one_hertz_follows_the_second_counter() {
    let mut host = frequency(15);
    host.pulses(16_383);
    assert_eq!(host.pin(), Pin::L);
    host.pulses(1);
    assert_eq!(host.pin(), Pin::H);
    host.write(SECONDS, &[0x00]);
    assert_eq!(host.pin(), Pin::L);
    host.pulses(20_000);
    host.write(CTR2, &[OPEN | BY_FREQUENCY]);
    host.write(SECONDS, &[0x00]);
    assert_eq!(host.pin(), Pin::H);
}

#[test]
fn one_hertz_keeps_its_half_in_a_trimmed_second() {
    let mut host = frequency(15);
    host.write(0x12, &[0x3F]);
    host.pulses(16_384);
    assert_eq!(host.pin(), Pin::H);
    host.pulses(32_891 - 16_384);
    assert_eq!(host.pin(), Pin::H);
    host.pulses(1);
    assert_eq!(host.pin(), Pin::L);
}

#[test]
fn the_battery_bit_is_only_stored() {
    let mut host = rung(BY_ALARM | FOBAT);
    assert_eq!(host.pin(), Pin::L);
    host.write(CTR2, &[OPEN | BY_ALARM | INTAE]);
    assert_eq!(host.pin(), Pin::L);
}
