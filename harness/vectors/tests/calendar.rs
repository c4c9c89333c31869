//! The reference's dates against figures that another calendar has made.
//!
//! The stored lines come from tests/calendar_figures.py, which takes every
//! figure of a legal time from Python's datetime. Here the same figures come
//! from the reference and go into the same digests.

use reference::{day_number, second_number, second_of_day, time_of_number, Chip, Reading};
use vectors::chance::draws::Draws;
use vectors::digest::Digest;

type Time = [u8; 7];

/// Seconds of a century.
const CENTURY: u64 = 3_155_760_000;

const DAY: u32 = 86_400;

/// Stands in a digest where there is no number or no time.
const NONE: u64 = 4_294_967_290;

const STORED: &str = concat!(
    env!("CARGO_MANIFEST_DIR"),
    "/../../crates/calendar_vectors/stdout"
);

/// The stored lines that begin so.
fn stored(part: &str) -> Vec<String> {
    let text = std::fs::read_to_string(STORED).expect("stored figures");
    let lines = text.lines().filter(|line| line.starts_with(part));
    lines.map(str::to_string).collect()
}

/// The whole number behind one more draw.
fn next(draws: &mut Draws) -> u32 {
    draws.draw();
    draws.x()
}

/// The time after one second, for any seven bytes.
fn one_second_on(time: Time) -> Time {
    let mut chip = Chip::of_zeros(Reading::Right);
    chip.regs[..7].copy_from_slice(&time);
    chip.advance_time();
    chip.time()
}

/// The time so many seconds after a legal one, by its number and back.
fn seconds_on(time: Time, n: u32) -> Time {
    let number = second_number(time).expect("a legal time");
    let midnights = (u64::from(number % DAY) + u64::from(n)) / u64::from(DAY);
    let weekday = match midnights {
        0 => time[3],
        _ => ((u64::from(next_weekday(time[3])) + midnights - 1) % 7) as u8,
    };
    let later = (u64::from(number) + u64::from(n)) % CENTURY;
    let full_day = time[2] & 0x80 != 0;
    time_of_number(later as u32, full_day, weekday).expect("a number below the century")
}

/// The weekday after the next midnight, as the chip steps it.
fn next_weekday(weekday: u8) -> u8 {
    one_second_on([0x59, 0x59, 0xA3, weekday, 0x01, 0x01, 0x00])[3]
}

fn date_line(first: u32, draws: &mut Draws) -> String {
    let mut digest = Digest::default();
    for day in first..first + 1_461 {
        let number = day * DAY + next(draws) / 256 % DAY;
        let n = next(draws);
        for full_day in [false, true] {
            let time = time_of_number(number, full_day, (day % 8) as u8).expect("a day");
            digest.take_bytes(&time);
            digest.take(second_number(time).expect("its number").into());
            digest.take_bytes(&one_second_on(time));
            digest.take_bytes(&seconds_on(time, n));
        }
    }
    format!(
        "dates {first} to {} digest {}",
        first + 1_460,
        digest.value()
    )
}

#[test]
fn dates_are_those_of_the_other_calendar() {
    let mut draws = Draws::from(1);
    let firsts = (0..36_525).step_by(1_461);
    let lines: Vec<String> = firsts.map(|first| date_line(first, &mut draws)).collect();
    assert_eq!(lines.len(), 25);
    assert_eq!(lines, stored("dates "));
}

/// The last second of a month, counted from 2000-01; found from its first day.
fn end_of_month(month: u32, full_day: bool) -> Time {
    let bcd = |n: u32| (n / 10 * 16 + n % 10) as u8;
    let next = (month + 1) % 1_200;
    let first = [0, 0, 0x80, 0, 0x01, bcd(next % 12 + 1), bcd(next / 12)];
    let number = u64::from(second_number(first).expect("a first day"));
    let last = (number + CENTURY - 1) % CENTURY;
    time_of_number(last as u32, full_day, (month % 7) as u8).expect("a last second")
}

fn month_line(first: u32) -> String {
    let mut digest = Digest::default();
    for month in first..first + 100 {
        for full_day in [false, true] {
            let time = end_of_month(month, full_day);
            digest.take_bytes(&time);
            digest.take_bytes(&one_second_on(time));
        }
    }
    format!(
        "month ends {first} to {} digest {}",
        first + 99,
        digest.value()
    )
}

#[test]
fn month_ends_are_those_of_the_other_calendar() {
    let lines: Vec<String> = (0..1_200).step_by(100).map(month_line).collect();
    assert_eq!(lines.len(), 12);
    assert_eq!(lines, stored("month ends "));
}

/// Bytes near a carry, for each of the seven fields.
const EDGES: [[u8; 8]; 7] = [
    [0x59, 0x59, 0x59, 0x00, 0x58, 0x5A, 0x60, 0xD9],
    [0x59, 0x59, 0x59, 0x00, 0x09, 0x5F, 0x60, 0xD9],
    [0xA3, 0x31, 0xA3, 0x31, 0x11, 0x29, 0xA4, 0x13],
    [0x00, 0x01, 0x02, 0x03, 0x04, 0x05, 0x06, 0x07],
    [0x28, 0x29, 0x30, 0x31, 0x28, 0x29, 0x00, 0x32],
    [0x02, 0x02, 0x04, 0x12, 0x01, 0x09, 0x13, 0x00],
    [0x00, 0x99, 0x01, 0x04, 0x10, 0x96, 0x9A, 0x14],
];

/// One byte in four is any byte, the others stand near a carry.
fn pattern(draws: &mut Draws) -> Time {
    EDGES.map(|edges| {
        let [_, _, choice, byte] = next(draws).to_le_bytes();
        match choice % 4 {
            0 => byte,
            _ => edges[usize::from(byte % 8)],
        }
    })
}

fn pattern_line(first: u32, draws: &mut Draws) -> String {
    let mut digest = Digest::default();
    let (mut numbered, mut turned) = (0, 0);
    for _ in 0..10_000 {
        let time = pattern(draws);
        let n = next(draws);
        let after = one_second_on(time);
        numbered += u32::from(second_number(time).is_some());
        turned += u32::from(after[6] != time[6]);
        let legal = [second_of_day(time).is_some(), day_number(time).is_some()];
        legal.into_iter().for_each(|is| digest.take(is.into()));
        digest.take((time[3] < 7).into());
        digest.take(second_number(time).map_or(NONE, u64::from));
        digest.take_bytes(&after);
        match second_number(time) {
            Some(_) => digest.take_bytes(&seconds_on(time, n)),
            None => digest.take(NONE),
        }
    }
    let (last, digest) = (first + 9_999, digest.value());
    format!("patterns {first} to {last} numbered {numbered} years turned {turned} digest {digest}")
}

#[test]
fn patterns_are_those_of_the_other_calendar() {
    let mut draws = Draws::from(2);
    let firsts = (0..100_000).step_by(10_000);
    let lines: Vec<String> = firsts
        .map(|first| pattern_line(first, &mut draws))
        .collect();
    assert_eq!(lines.len(), 10);
    assert_eq!(lines, stored("patterns "));
}
