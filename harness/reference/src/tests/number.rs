//! Second numbers of times, and times of second numbers.

use super::host::NEW_CENTURY;
use crate::registers::{USED, WEEKDAY};
use crate::{second_number, time_of_number};

/// One more than the last second of the century has.
const CENTURY: u32 = 3_155_760_000;

#[test]
fn the_century_has_its_first_and_last_second() {
    assert_eq!(second_number(NEW_CENTURY), Some(0));
    assert_eq!(time_of_number(0, true, 6), Some(NEW_CENTURY));
    let last = [0x59, 0x59, 0x31, 0x04, 0x31, 0x12, 0x99];
    assert_eq!(second_number(last), Some(CENTURY - 1));
    assert_eq!(time_of_number(CENTURY - 1, false, 4), Some(last));
}

#[test]
fn numbers_past_the_century_have_no_time() {
    for number in [CENTURY, CENTURY + 1, u32::MAX] {
        for full_day in [false, true] {
            assert_eq!(time_of_number(number, full_day, 0), None);
        }
    }
}

#[test]
fn both_modes_have_the_same_number() {
    // 2004-03-01, 13:05:07, behind one leap year, three others and a leap February.
    let days = 366 + 3 * 365 + 31 + 29;
    let number = days * 86_400 + 13 * 3_600 + 5 * 60 + 7;
    let in_mode = |hour| [0x07, 0x05, hour, 0x01, 0x01, 0x03, 0x04];
    for (hour, full_day) in [(0x93, true), (0x21, false)] {
        assert_eq!(second_number(in_mode(hour)), Some(number));
        assert_eq!(time_of_number(number, full_day, 1), Some(in_mode(hour)));
    }
}

#[test]
fn fixed_bits_have_no_number_but_for_the_weekday() {
    for (at, used) in USED.into_iter().enumerate().take(7) {
        for bit in (0..8).filter(|bit| used & (1 << bit) == 0) {
            let mut time = NEW_CENTURY;
            time[at] |= 1 << bit;
            assert_eq!(second_number(time).is_some(), at == WEEKDAY);
        }
    }
}

#[test]
fn illegal_bytes_have_no_number() {
    for (at, byte) in [
        (0, 0x60),
        (0, 0x0A),
        (1, 0x60),
        (1, 0x1F),
        (2, 0x00),
        (2, 0x13),
        (2, 0x20),
        (2, 0x33),
        (2, 0xA4),
        (2, 0x8A),
        (4, 0x00),
        (4, 0x32),
        (5, 0x00),
        (5, 0x13),
        (6, 0x9A),
        (6, 0xA0),
    ] {
        let mut time = NEW_CENTURY;
        time[at] = byte;
        assert_eq!(second_number(time), None, "{byte:02X} at {at}");
    }
}

#[test]
fn days_end_with_their_month() {
    for (day, month, year, legal) in [
        (0x29, 0x02, 0x00, true),
        (0x29, 0x02, 0x96, true),
        (0x29, 0x02, 0x10, false),
        (0x28, 0x02, 0x10, true),
        (0x30, 0x02, 0x00, false),
        (0x30, 0x04, 0x00, true),
        (0x31, 0x04, 0x00, false),
        (0x31, 0x10, 0x00, true),
    ] {
        let time = [0, 0, 0x80, 0, day, month, year];
        assert_eq!(second_number(time).is_some(), legal);
    }
}
