//! The time's advance by one second.
//!
//! Each field is taken through one function that gives its next value and
//! whether it carries. Whatever is not a legal value short of the last one
//! goes to the first value with a carry; so illegal bytes need no extra care.

use crate::number::{day_number, second_number};
use crate::registers::{DAY, HOURS, MINUTES, MONTH, SECONDS, WEEKDAY, YEAR};
use crate::{Chip, Reading};

/// The two-digit number a BCD byte stands for, if its digits are digits.
pub(crate) fn from_bcd(byte: u8) -> Option<u8> {
    let (tens, ones) = (byte >> 4, byte & 15);
    (tens <= 9 && ones <= 9).then_some(10 * tens + ones)
}

pub(crate) fn to_bcd(number: u8) -> u8 {
    number / 10 * 16 + number % 10
}

/// Steps a BCD field that runs from `first` to `last`.
fn step_bcd(byte: u8, first: u8, last: u8, reading: Reading) -> (u8, bool) {
    match from_bcd(byte) {
        Some(n) if first <= n && n < last => (to_bcd(n + 1), false),
        Some(n) if n == last => (to_bcd(first), true),
        _ => match reading {
            Reading::IllegalStepsOn => (byte.wrapping_add(1), false),
            Reading::IllegalWithoutCarry => (to_bcd(first), false),
            Reading::ZeroStepsToOne if byte == 0 => (0x01, false),
            _ => (to_bcd(first), true),
        },
    }
}

/// Half-day hours: midnight is 12h and bit 5 marks the afternoon.
fn step_hour_12(hour: u8) -> (u8, bool) {
    match hour {
        0x12 => (0x01, false),
        0x01..=0x08 | 0x10 => (hour + 1, false),
        0x09 => (0x10, false),
        0x11 => (0x32, false),
        0x32 => (0x21, false),
        0x21..=0x28 | 0x30 => (hour + 1, false),
        0x29 => (0x30, false),
        _ => (0x12, true),
    }
}

/// Steps the hour in its own mode, which bit 7 keeps.
fn step_hour(byte: u8, reading: Reading) -> (u8, bool) {
    if byte & 0x80 == 0 {
        return match (reading, byte) {
            (Reading::HourDropsAfternoon, _) => step_hour_12(byte & 0x1F),
            (Reading::HourZeroIsMidnight, 0x00) => (0x01, false),
            (Reading::HalvesTurnLate, 0x11 | 0x31) => (byte + 1, false),
            (Reading::HalvesTurnLate, 0x12) => (0x21, false),
            (Reading::HalvesTurnLate, 0x32) => (0x01, true),
            _ => step_hour_12(byte),
        };
    }
    let (hour, carry) = step_bcd(byte & 0x7F, 0, 23, reading);
    if reading == Reading::IllegalHourLosesMode && carry && byte != 0xA3 {
        return (0x12, true);
    }
    (0x80 | hour, carry)
}

fn step_weekday(byte: u8, reading: Reading) -> u8 {
    match byte {
        0..=5 => byte + 1,
        6 if reading == Reading::WeekdayOneToSeven => 7,
        _ if reading == Reading::WeekdayOneToSeven => 1,
        _ => 0,
    }
}

fn is_leap(year: u8, reading: Reading) -> bool {
    let number = match reading {
        Reading::LeapByByte => Some(year),
        Reading::CenturyNotLeap if year == 0 => None,
        Reading::IllegalYearLeap => Some(year / 16 * 10 + year % 16),
        _ => from_bcd(year),
    };
    number.is_some_and(|n| n % 4 == 0)
}

/// Days of a month; a byte that is no month counts as a long one.
pub(crate) fn days_of(month: u8, year: u8, reading: Reading) -> u8 {
    match month {
        0x04 | 0x06 | 0x09 | 0x11 => 30,
        0x02 if is_leap(year, reading) => 29,
        0x02 => 28,
        _ if reading == Reading::IllegalMonthShort && !is_month(month) => 30,
        _ => 31,
    }
}

fn is_month(byte: u8) -> bool {
    from_bcd(byte).is_some_and(|n| (1..=12).contains(&n))
}

impl Chip {
    /// The seven time bytes as they live now.
    pub fn time(&self) -> [u8; 7] {
        let mut time = [0; 7];
        time.copy_from_slice(&self.regs[..7]);
        time
    }

    /// Is there a date and a time of day like this?
    pub(crate) fn time_is_legal(&self) -> bool {
        second_number(self.time()).is_some()
    }

    /// Puts a field's next value in place and tells whether it carries.
    fn put(&mut self, field: usize, (value, carry): (u8, bool)) -> bool {
        self.regs[field] = value;
        carry
    }

    /// Steps a BCD field in its place.
    fn step_field(&mut self, field: usize, first: u8, last: u8) -> bool {
        let stepped = step_bcd(self.regs[field], first, last, self.manner.reading);
        self.put(field, stepped)
    }

    /// One second further.
    pub fn advance_time(&mut self) {
        let carries = self.step_field(SECONDS, 0, 59)
            && self.step_field(MINUTES, 0, 59)
            && self.put(HOURS, step_hour(self.regs[HOURS], self.manner.reading));
        if carries {
            self.advance_day();
        }
    }

    fn advance_day(&mut self) {
        let reading = self.manner.reading;
        self.regs[WEEKDAY] = step_weekday(self.regs[WEEKDAY], reading);
        let carries = self.step_field(DAY, 1, self.last_day()) && self.step_field(MONTH, 1, 12);
        if carries {
            self.step_field(YEAR, 0, 99);
        }
        if reading == Reading::WeekdayFromDate {
            self.weekday_from_date();
        }
    }

    /// The last day of the month as it is held.
    fn last_day(&self) -> u8 {
        let last = days_of(self.regs[MONTH], self.regs[YEAR], self.manner.reading);
        match self.manner.reading {
            Reading::DayAboveMonthSteps if self.regs[DAY] > to_bcd(last) => 31,
            _ => last,
        }
    }

    /// Day 0 was a Saturday.
    fn weekday_from_date(&mut self) {
        if let Some(day) = day_number(self.time()) {
            self.regs[WEEKDAY] = ((day + 6) % 7) as u8;
        }
    }
}
