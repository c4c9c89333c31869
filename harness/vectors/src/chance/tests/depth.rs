//! What is counted, and that random files lead to what they were made for.

use super::super::depth::{depth, Depth};
use super::super::row::{Kind, Row};
use super::refusals;
use crate::file::placed::Placed;
use crate::script::Script;
use std::collections::HashMap;

fn by_name(depth: &Depth) -> HashMap<String, u64> {
    depth.counts().into_iter().collect()
}

/// New year in the same pulse as a countdown's tick; the countdown runs out at
/// once, its flag is read away, and it runs out again and again.
#[test]
fn a_known_script_is_counted() {
    let script = Script::at([0x59, 0x59, 0xA3, 0x06, 0x31, 0x12, 0x99])
        .unlock_with(&[0xB4, 0x80, 0x00, 0x01])
        .pulses(8)
        .fetch(0x0F, 1)
        .pulses(32_760);
    let mut depth = Depth::default();
    depth.watch_file(&Placed::start_first(&script).finish());
    let mut counts = by_name(&depth);
    counts.retain(|_, count| *count > 0);
    let expected = [
        ("files that ended with the lock open", 1),
        ("pulses", 32_768),
        ("bytes while locked", 2),
        ("bytes while open", 4),
        ("locks opened", 1),
        ("ticks of 8", 4_096),
        ("reloads", 2_048),
        ("countdown flags set", 2),
        ("flags cleared at STOP", 1),
        ("lines L by the countdown's flag", 8),
        ("seconds ended", 1),
        ("days stepped", 1),
        ("months stepped", 1),
        ("years stepped", 1),
    ];
    let expected = expected.map(|(name, count)| (name.to_string(), count));
    assert_eq!(counts, HashMap::from(expected));
}

/// A minute begins with an alarm, and is gone on with for two seconds; its flag is
/// cleared after the first of them. Then the time is set back.
#[test]
fn a_match_that_lasts_is_counted() {
    let script = Script::at([0x59, 0x29, 0xA0, 0x05, 0x08, 0x08, 0x08])
        .unlock_with(&[0x92])
        .storing(0x08, &[0x30])
        .store(0x0E, &[0x02])
        .pulses(2 * 32_768)
        .store(0x0F, &[0x84])
        .pulses(32_768)
        .store(0x00, &[0x59, 0x29])
        .pulses(32_768);
    let mut depth = Depth::default();
    depth.watch_file(&Placed::start_first(&script).finish());
    let counts = by_name(&depth);
    for (name, count) in [
        ("alarms", 2),
        ("alarm flags set", 2),
        ("alarms with the flag set", 0),
        ("alarms by minute", 2),
        ("alarms by hour", 0),
        ("seconds within a match", 2),
        ("seconds within a match, the flag clear", 1),
        ("alarm flags cleared within a match", 1),
    ] {
        assert_eq!(counts[name], count, "{name}");
    }
}

/// A transfer is left alone until the second is about to end. It ends behind
/// the next 65h, and the read goes over the end.
#[test]
fn an_old_time_is_counted() {
    let script = Script::at([0x58, 0x59, 0xA3, 0x06, 0x31, 0x12, 0x99])
        .start()
        .pulses(32_767)
        .fetching(0x00)
        .pulses(1)
        .read_on(33)
        .power_loss();
    let mut depth = Depth::default();
    depth.watch_file(&Placed::events_first(&script).finish());
    let counts = by_name(&depth);
    for name in [
        "transfers timed out",
        "reads of an old time",
        "wraps that latched anew",
        "power losses",
    ] {
        assert_eq!(counts[name], 1, "{name}");
    }
}

/// The least that 4,000 files must show, about half of what they do.
const LEAST: [(&str, u64); 39] = [
    ("files that ran", 2_600),
    ("files that ended with the lock open", 1_600),
    ("files refused with 2", 12),
    ("files refused with 3", 40),
    ("files refused with 4", 25),
    ("files refused with 5", 200),
    ("files refused with 6", 4),
    ("files refused with 7", 200),
    ("files refused with 8", 8),
    ("alarms", 210),
    ("alarm flags set", 200),
    ("alarms by second", 80),
    ("alarms by minute", 70),
    ("alarms by hour", 40),
    ("alarms by weekday", 40),
    ("alarms by day", 40),
    ("alarms by month", 25),
    ("alarms by year", 25),
    ("seconds within a match", 115),
    ("seconds within a match, the flag clear", 100),
    ("alarm flags cleared within a match", 95),
    ("countdown flags set", 300),
    ("ticks of 512", 4_000),
    ("ticks of 32768", 20),
    ("flags cleared by a byte", 240),
    ("flags cleared at STOP", 35),
    ("trimmed seconds ended", 100),
    ("seconds ended beyond their length", 12),
    ("days stepped", 400),
    ("months stepped", 240),
    ("years stepped", 170),
    ("leap days reached", 85),
    ("transfers timed out", 580),
    ("reads of an old time", 120),
    ("wraps that latched anew", 35),
    ("power losses", 150),
    ("lines L by the alarm's pulse", 450),
    ("lines L by the countdown's pulse", 1_200),
    ("lines X", 400),
];

#[test]
fn random_files_lead_deep() {
    let counts = by_name(&depth(3, 4_000));
    for (name, least) in LEAST {
        let count = counts[name];
        println!("{count} {name}");
        assert!(count >= least, "{name}");
    }
}

#[test]
fn depth_and_row_see_the_same_files() {
    let counts = by_name(&depth(9, 300));
    let files = Row {
        kind: Kind::Files,
        x: 9,
        count: 300,
    };
    let refusals = refusals(files.items());
    assert_eq!(counts["files that ran"], u64::from(refusals[0]));
    for (number, refused) in (1..).zip(&refusals[1..]) {
        let name = format!("files refused with {number}");
        assert_eq!(counts[&name], u64::from(*refused), "{name}");
    }
}
