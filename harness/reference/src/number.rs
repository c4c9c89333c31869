//! Dates and times of day as one number, 0 being the century's first second, and
//! back.
//!
//! Years and months are counted through one by one. No weekday is looked at.

use crate::calendar::{days_of, from_bcd, to_bcd};
use crate::registers::{DAY, HOURS, MINUTES, MONTH, SECONDS, YEAR};
use crate::Reading;

const DAY_SECONDS: u32 = 86_400;

/// The hours of a day in 12-hour mode.
const HALF_DAY_HOURS: [u8; 24] = [
    0x12, 0x01, 0x02, 0x03, 0x04, 0x05, 0x06, 0x07, 0x08, 0x09, 0x10, 0x11, // morning
    0x32, 0x21, 0x22, 0x23, 0x24, 0x25, 0x26, 0x27, 0x28, 0x29, 0x30, 0x31, // afternoon
];

/// The byte for an hour from 0 to 23, in 24-hour mode if `full_day`.
fn hour_byte(hour: u32, full_day: bool) -> u8 {
    if full_day {
        0x80 | bcd(hour)
    } else {
        HALF_DAY_HOURS[hour as usize]
    }
}

fn bcd(number: u32) -> u8 {
    to_bcd(number as u8)
}

/// The number that a byte stands for, if it lies between these.
fn between(first: u8, last: u8, byte: u8) -> Option<u32> {
    let number = from_bcd(byte)?;
    (first <= number && number <= last).then_some(number.into())
}

/// Days of a month from 1 to 12 in a year from 0 to 99.
fn days(month: u32, year: u32) -> u32 {
    days_of(bcd(month), bcd(year), Reading::Right).into()
}

fn days_of_year(year: u32) -> u32 {
    (1..=12).map(|month| days(month, year)).sum()
}

/// Seconds since midnight, or none if a byte is illegal.
pub fn second_of_day(time: [u8; 7]) -> Option<u32> {
    let full_day = time[HOURS] & 0x80 != 0;
    let hour = (0..24).find(|hour| hour_byte(*hour, full_day) == time[HOURS])?;
    let minute = between(0, 59, time[MINUTES])?;
    Some(hour * 3_600 + minute * 60 + between(0, 59, time[SECONDS])?)
}

/// Days since 2000-01-01, or none if there is no such date.
pub fn day_number(time: [u8; 7]) -> Option<u32> {
    let year = between(0, 99, time[YEAR])?;
    let month = between(1, 12, time[MONTH])?;
    let day = between(1, days(month, year) as u8, time[DAY])?;
    let years: u32 = (0..year).map(days_of_year).sum();
    let months: u32 = (1..month).map(|month| days(month, year)).sum();
    Some(years + months + day - 1)
}

/// The second number of seven time bytes, or none.
pub fn second_number(time: [u8; 7]) -> Option<u32> {
    Some(day_number(time)? * DAY_SECONDS + second_of_day(time)?)
}

/// The seven bytes of a second number, in 24-hour mode if `full_day`, around
/// the given weekday; or none from the century's end on.
pub fn time_of_number(number: u32, full_day: bool, weekday: u8) -> Option<[u8; 7]> {
    let (mut day, second) = (number / DAY_SECONDS, number % DAY_SECONDS);
    let mut year = 0;
    while day >= days_of_year(year) {
        day -= days_of_year(year);
        year += 1;
        if year == 100 {
            return None;
        }
    }
    let mut month = 1;
    while day >= days(month, year) {
        day -= days(month, year);
        month += 1;
    }
    let hour = hour_byte(second / 3_600, full_day);
    let (minute, second) = (bcd(second / 60 % 60), bcd(second % 60));
    Some([
        second,
        minute,
        hour,
        weekday,
        bcd(day + 1),
        bcd(month),
        bcd(year),
    ])
}
