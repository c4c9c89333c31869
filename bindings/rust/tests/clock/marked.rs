//! The marked cases: the places where a clock most easily goes wrong.

use tallowreed::Clock;

use crate::board::{fresh, open, read_at, write_at, SECOND, TIME};

/// The time that is read a second later.
fn second_later(time: [u8; 7]) -> [u8; 7] {
    let mut clock = fresh(time);
    clock.pulses(SECOND);
    read_at(&mut clock, 0x00)
}

#[test]
fn case_1_the_century_ends() {
    let later = second_later([0x59, 0x59, 0xA3, 0x06, 0x31, 0x12, 0x99]);
    assert_eq!(later, [0x00, 0x00, 0x80, 0x00, 0x01, 0x01, 0x00]);
}

#[test]
fn case_2_february_ends() {
    let leap = second_later([0x59, 0x59, 0xA3, 0x01, 0x28, 0x02, 0x00]);
    assert_eq!(leap, [0x00, 0x00, 0x80, 0x02, 0x29, 0x02, 0x00]);
    let plain = second_later([0x59, 0x59, 0xA3, 0x01, 0x28, 0x02, 0x01]);
    assert_eq!(plain, [0x00, 0x00, 0x80, 0x02, 0x01, 0x03, 0x01]);
}

#[test]
fn case_3_hours_of_both_halves_of_the_day() {
    for (hour, next, weekday, day) in [
        (0x11, 0x32, 3, 0x20),
        (0x31, 0x12, 4, 0x21),
        (0x12, 0x01, 3, 0x20),
    ] {
        let later = second_later([0x59, 0x59, hour, 0x03, 0x20, 0x12, 0x06]);
        assert_eq!(later, [0x00, 0x00, next, weekday, day, 0x12, 0x06]);
    }
}

/// With this trim the present second ends with the last of so many pulses.
fn assert_length(trim: u8, seconds: u8, length: u64) {
    let mut clock = open(TIME);
    write_at(&mut clock, 0x12, &[trim]);
    write_at(&mut clock, 0x00, &[seconds]);
    clock.pulses(length - 1);
    assert_eq!(
        clock.register(0x00),
        Some(seconds),
        "{trim:02X}h, a pulse too early"
    );
    clock.pulses(1);
    assert_eq!(clock.register(0x00), Some(seconds + 1), "{trim:02X}h");
}

#[test]
fn cases_4_and_5_trimmed_seconds() {
    let lengths = [
        (0x02, 32_770),
        (0x3F, 32_892),
        (0x42, 32_644),
        (0x7E, 32_764),
        (0x7F, 32_766),
    ];
    for (trim, length) in lengths {
        assert_length(trim, 0x00, length);
        assert_length(trim, 0x01, 32_768);
    }
    for (trim, length) in [
        (0x15, 32_808),
        (0x44, 32_648),
        (0x40, 32_768),
        (0x41, 32_768),
    ] {
        assert_length(trim, 0x20, length);
    }
}

#[test]
fn case_6_seconds_that_are_not_two_digits() {
    let later = second_later([0x5A, 0x19, 0x98, 0x03, 0x20, 0x12, 0x06]);
    assert_eq!(later, [0x00, 0x20, 0x98, 0x03, 0x20, 0x12, 0x06]);
}

#[test]
fn case_7_the_lock_opens_in_one_order_only() {
    let mut clock = fresh(TIME);
    write_at(&mut clock, 0x0F, &[0x84, 0x80]);
    assert_eq!(clock.registers()[0x0F..0x11], [0x01, 0x80]);
    write_at(&mut clock, 0x14, &[0xA5]);
    assert_eq!(clock.register(0x14), Some(0x00), "still locked");

    let mut clock = fresh(TIME);
    write_at(&mut clock, 0x10, &[0x80]);
    write_at(&mut clock, 0x0F, &[0x84]);
    assert_eq!(clock.registers()[0x0F..0x11], [0x85, 0x80]);
    write_at(&mut clock, 0x14, &[0xA5]);
    assert_eq!(clock.register(0x14), Some(0xA5), "open");
}

#[test]
fn case_8_a_transfer_grows_too_old() {
    let mut clock = fresh(TIME);
    clock.start();
    clock.write(0x65);
    clock.pulses(16_383);
    assert_eq!(clock.read(true), 0x20);
    clock.pulses(1);
    assert_eq!(clock.read(true), 0xFF);
}

const CTR1: u8 = 0x0F;
const OPEN_WITHOUT_FLAG: Option<u8> = Some(0x85);
const OPEN_WITH_INTDF: Option<u8> = Some(0x95);

/// The pulse after so many raises INTDF.
fn assert_raised_after(clock: &mut Clock, quiet_pulses: u64) {
    clock.pulses(quiet_pulses);
    assert_eq!(clock.register(CTR1), OPEN_WITHOUT_FLAG);
    clock.pulses(1);
    assert_eq!(clock.register(CTR1), OPEN_WITH_INTDF);
}

#[test]
fn case_9_the_countdown_and_its_next_round() {
    let mut clock = open(TIME);
    write_at(&mut clock, 0x10, &[0x84]);
    write_at(&mut clock, 0x13, &[3]);
    assert_raised_after(&mut clock, 23);
    write_at(&mut clock, CTR1, &[0x84]);
    assert_raised_after(&mut clock, 31);
}
