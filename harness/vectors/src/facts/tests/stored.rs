//! The stored script shows everything that there is to show.

use super::{lines, text};
use crate::scenarios::explained::script;
use crate::script::pulse_count;
use std::collections::BTreeSet;

const DEEDS: [&str; 19] = [
    "opened",
    "repeated",
    "closed",
    "cleared",
    "idle",
    "to-write",
    "to-read",
    "elsewhere",
    "pointed",
    "beyond",
    "stored",
    "lost",
    "unheard",
    "latched",
    "sent",
    "renewed",
    "silent",
    "passed",
    "power-lost",
];

const MOMENTS: [&str; 5] = ["timeout", "zero", "second", "alarm", "pin"];

fn words_at<'a>(lines: &[Vec<&'a str>], at: usize) -> BTreeSet<&'a str> {
    lines.iter().map(|words| words[at]).collect()
}

#[test]
fn every_deed_and_every_moment_is_in_it() {
    let text = text(&script());
    let (events, pulses) = (lines(&text, &["event"]), lines(&text, &["pulse"]));
    assert_eq!(words_at(&events, 7), DEEDS.into());
    assert_eq!(words_at(&pulses, 2), MOMENTS.into());
    assert_eq!(words_at(&events, 6), ["H", "L", "X"].into());
}

#[test]
fn times_with_and_without_a_number_are_in_it() {
    let text = text(&script());
    let events = lines(&text, &["event"]);
    let mut seconds = lines(&text, &["pulse"]);
    seconds.retain(|words| words[2] == "second");
    for numbers in [
        words_at(&events, 10),
        words_at(&events, 11),
        words_at(&seconds, 3),
    ] {
        assert!(numbers.contains("-") && numbers.len() > 2, "{numbers:?}");
    }
    let no_time = events.iter().find(|words| words[12] == "02303359");
    assert_eq!(no_time.expect("the id of no time")[11], "-");
}

/// The numbers of the seconds that end, and whether the alarm rings with them.
fn seconds(text: &str) -> Vec<(&str, bool)> {
    let pulses = lines(text, &["pulse"]);
    let alarm_behind = |at: usize| pulses.get(at + 1).is_some_and(|words| words[2] == "alarm");
    let seconds = pulses.iter().enumerate();
    seconds
        .filter(|(_, words)| words[2] == "second")
        .map(|(at, words)| (words[3], alarm_behind(at)))
        .collect()
}

/// The year 00 rings with the century's first second, and the next three are in it
/// as well.
#[test]
fn a_match_that_lasts_is_in_it() {
    let text = text(&script());
    let year = [("0", true), ("1", false), ("2", false), ("3", false)];
    assert!(seconds(&text).windows(4).any(|four| four == year));
}

#[test]
fn more_happens_than_is_shown() {
    let text = text(&script());
    let counts = lines(&text, &["counts"]);
    let most = |at: usize| {
        let counts = counts.iter().map(|words| words[at].parse::<u32>());
        counts.map(|count| count.expect("a number")).max()
    };
    assert!(most(3) > Some(64) && most(4) > Some(64));
}

/// The program makes its pulses one by one, perhaps in an emulator.
#[test]
fn it_is_not_long() {
    let events = script().events;
    let pulses = pulse_count(&events);
    println!("{} events, {pulses} pulses", events.len());
    assert!(events.len() <= 160 && pulses <= 1_500_000);
}
