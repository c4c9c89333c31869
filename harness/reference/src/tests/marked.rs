//! The nine marked cases.

use super::host::Host;
use crate::registers::{COUNTDOWN, CTR1, CTR2, INTDE, INTDF, SECONDS, TRIM};

fn after_one_second(time: [u8; 7]) -> [u8; 7] {
    let mut host = Host::at(time);
    host.second();
    host.time()
}

#[test]
fn case_1_end_of_century() {
    let next = after_one_second([0x59, 0x59, 0xA3, 6, 0x31, 0x12, 0x99]);
    assert_eq!(next, [0, 0, 0x80, 0, 0x01, 0x01, 0x00]);
}

#[test]
fn case_2_end_of_february() {
    let leap = after_one_second([0x59, 0x59, 0xA3, 1, 0x28, 0x02, 0x00]);
    assert_eq!(leap, [0, 0, 0x80, 2, 0x29, 0x02, 0x00]);
    let plain = after_one_second([0x59, 0x59, 0xA3, 1, 0x28, 0x02, 0x01]);
    assert_eq!(plain, [0, 0, 0x80, 2, 0x01, 0x03, 0x01]);
}

#[test]
fn case_3_half_day_hours() {
    for (from, to, day) in [(0x11, 0x32, 5), (0x31, 0x12, 6), (0x12, 0x01, 5)] {
        let next = after_one_second([0x59, 0x59, from, 0, 0x05, 0x05, 0x05]);
        assert_eq!(next[2..5], [to, day - 5, day]);
    }
}

/// A chip with this trim leaves these seconds with the last of so many pulses.
fn assert_length(f: u8, seconds: u8, length: u32) {
    let mut host = Host::open();
    host.write(TRIM, &[f]);
    host.write(SECONDS, &[seconds]);
    host.pulses(length - 1);
    assert_eq!(host.reg(SECONDS), seconds, "{f:02X}h at {seconds:02X}h");
    host.pulses(1);
    assert_eq!(host.reg(SECONDS), seconds + 1, "{f:02X}h at {seconds:02X}h");
}

#[test]
fn case_4_trim_at_second_zero() {
    for (f, length) in [
        (0x02, 32_770),
        (0x3F, 32_892),
        (0x42, 32_644),
        (0x7E, 32_764),
        (0x7F, 32_766),
    ] {
        assert_length(f, 0x00, length);
        assert_length(f, 0x01, 32_768);
    }
}

#[test]
fn case_5_trim_examples() {
    for (f, length) in [
        (0x15, 32_808),
        (0x44, 32_648),
        (0x40, 32_768),
        (0x41, 32_768),
    ] {
        assert_length(f, 0x00, length);
    }
}

#[test]
fn case_6_illegal_seconds() {
    let next = after_one_second([0x5A, 0x07, 0x80, 0, 0x01, 0x01, 0x00]);
    assert_eq!(next[..3], [0x00, 0x08, 0x80]);
}

#[test]
fn case_7_order_of_unlocking() {
    let mut host = Host::fresh();
    host.write(CTR1, &[0x84, 0x80]);
    assert!(!host.chip.lock_open());
    let mut host = Host::fresh();
    host.write(CTR2, &[0x80]);
    host.write(CTR1, &[0x84]);
    assert!(host.chip.lock_open());
}

#[test]
fn case_8_time_out() {
    let mut host = Host::fresh();
    host.send(&[0x65]);
    host.pulses(16_383);
    assert_eq!(host.read(), 0x00);
    host.pulses(1);
    assert_eq!(host.read(), 0xFF);
}

#[test]
fn case_9_countdown_of_three() {
    let mut host = Host::open();
    host.write(COUNTDOWN, &[3]);
    host.write(CTR2, &[0x80 | INTDE]);
    host.pulses(23);
    assert!(!host.flag(INTDF));
    host.pulses(1);
    assert!(host.flag(INTDF));
    host.write(CTR1, &[0x84]);
    host.pulses(31);
    assert!(!host.flag(INTDF));
    host.pulses(1);
    assert!(host.flag(INTDF));
}
