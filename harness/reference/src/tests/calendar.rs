//! The advance of the time, legal and illegal.

use super::host::Host;
use crate::registers::{HOURS, SECONDS};

/// The time one second after the given one.
fn next(time: [u8; 7]) -> [u8; 7] {
    let mut chip = Host::at(time).chip;
    chip.advance_time();
    let mut after = [0; 7];
    after.copy_from_slice(&chip.registers()[..7]);
    after
}

/// The date one day after the given one: weekday, day, month, year.
fn next_date(weekday: u8, day: u8, month: u8, year: u8) -> [u8; 4] {
    let after = next([0x59, 0x59, 0xA3, weekday, day, month, year]);
    [after[3], after[4], after[5], after[6]]
}

/// The hour after, and whether the day stepped.
fn next_hour(hour: u8) -> (u8, bool) {
    let after = next([0x59, 0x59, hour, 0, 0x10, 0x01, 0x00]);
    (after[HOURS], after[4] != 0x10)
}

#[test]
fn half_day_hours_run_in_order() {
    let mut hour = 0x12;
    let order = [
        0x01, 0x02, 0x03, 0x04, 0x05, 0x06, 0x07, 0x08, 0x09, 0x10, 0x11, 0x32, 0x21, 0x22, 0x23,
        0x24, 0x25, 0x26, 0x27, 0x28, 0x29, 0x30, 0x31, 0x12,
    ];
    for expected in order {
        assert_eq!(next_hour(hour), (expected, expected == 0x12));
        hour = expected;
    }
}

#[test]
fn full_day_hours_run_in_order() {
    for n in 0..24u8 {
        let byte = |n: u8| 0x80 | (n / 10 * 16 + n % 10);
        assert_eq!(next_hour(byte(n)), (byte((n + 1) % 24), n == 23));
    }
}

#[test]
fn illegal_half_day_hours_carry() {
    for hour in [
        0x00, 0x0A, 0x0F, 0x13, 0x19, 0x1A, 0x20, 0x2A, 0x2F, 0x33, 0x3F,
    ] {
        assert_eq!(next_hour(hour), (0x12, true));
    }
}

#[test]
fn illegal_full_day_hours_carry() {
    for hour in [0x8A, 0x9F, 0xA4, 0xA9, 0xAA, 0xB0, 0xB2, 0xBF] {
        assert_eq!(next_hour(hour), (0x80, true));
    }
}

#[test]
fn illegal_bytes_wait_for_a_carry() {
    let odd = [0x57, 0x7A, 0x00, 7, 0x00, 0x1F, 0xFA];
    let mut expected = odd;
    expected[SECONDS] = 0x58;
    assert_eq!(next(odd), expected);
}

#[test]
fn a_carry_runs_through_all_illegal_bytes() {
    let odd = [0x60, 0x7A, 0x00, 7, 0x00, 0x1F, 0xFA];
    assert_eq!(next(odd), [0, 0, 0x12, 0, 0x01, 0x01, 0x00]);
}

#[test]
fn illegal_minutes_carry() {
    for minutes in [0x0A, 0x3C, 0x60, 0x7F] {
        let after = next([0x59, minutes, 0x85, 0, 0x01, 0x01, 0x00]);
        assert_eq!(after[1..3], [0x00, 0x86]);
    }
}

#[test]
fn weekday_steps_with_the_day_only() {
    for (from, to) in [(0, 1), (5, 6), (6, 0), (7, 0)] {
        assert_eq!(next_date(from, 0x10, 0x01, 0x00)[0], to);
    }
    assert_eq!(next([0x59, 0x59, 0x80, 7, 0x10, 0x01, 0x00])[3], 7);
}

#[test]
fn months_end_on_their_own_days() {
    let lasts = [
        (0x01, 0x31),
        (0x02, 0x28),
        (0x03, 0x31),
        (0x04, 0x30),
        (0x05, 0x31),
        (0x06, 0x30),
        (0x07, 0x31),
        (0x08, 0x31),
        (0x09, 0x30),
        (0x10, 0x31),
        (0x11, 0x30),
    ];
    for (month, last) in lasts {
        let after = next_date(0, last, month, 0x01);
        let next_month = if month == 0x09 { 0x10 } else { month + 1 };
        assert_eq!(after, [1, 0x01, next_month, 0x01]);
        let before = if last == 0x30 { 0x29 } else { last - 1 };
        assert_eq!(next_date(0, before, month, 0x01), [1, last, month, 0x01]);
    }
}

#[test]
fn illegal_days_carry() {
    for (day, month) in [
        (0x00, 0x05),
        (0x0A, 0x05),
        (0x32, 0x05),
        (0x31, 0x04),
        (0x30, 0x02),
        (0x29, 0x02),
    ] {
        assert_eq!(next_date(0, day, month, 0x01), [1, 0x01, month + 1, 0x01]);
    }
}

#[test]
fn an_illegal_month_is_long_and_becomes_january() {
    for month in [0x00, 0x0A, 0x13, 0x1F] {
        assert_eq!(next_date(0, 0x30, month, 0x08), [1, 0x31, month, 0x08]);
        assert_eq!(next_date(0, 0x31, month, 0x08), [1, 0x01, 0x01, 0x09]);
    }
}

#[test]
fn an_illegal_year_is_never_leap() {
    for year in [0x0A, 0x0C, 0xA0, 0xF4] {
        assert_eq!(next_date(0, 0x28, 0x02, year), [1, 0x01, 0x03, year]);
        assert_eq!(next_date(0, 0x29, 0x02, year), [1, 0x01, 0x03, year]);
        assert_eq!(next_date(0, 0x31, 0x12, year), [1, 0x01, 0x01, 0x00]);
    }
}

#[test]
fn leap_years_go_by_the_number() {
    for n in 0..100u8 {
        let year = n / 10 * 16 + n % 10;
        let leap = next_date(0, 0x28, 0x02, year)[1] == 0x29;
        assert_eq!(leap, n % 4 == 0);
    }
}

#[test]
fn a_century_has_36525_days() {
    let mut date = [6, 0x01, 0x01, 0x00];
    for _ in 0..36_525 {
        date = next_date(date[0], date[1], date[2], date[3]);
    }
    assert_eq!(date, [(6 + 36_525 % 7) as u8 % 7, 0x01, 0x01, 0x00]);
}
