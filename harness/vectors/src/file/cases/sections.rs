//! Sections that do not fit, in files that are good but for that.

use super::{sample, starts, SAMPLE_LENGTH, SAMPLE_ROOM};
use crate::file::placed::Placed;
use crate::file::Case;

pub fn cases() -> Vec<Case> {
    [
        start_counts(),
        past_the_end(),
        into_the_header(),
        into_each_other(),
        wrapped(),
    ]
    .concat()
}

/// Also with the bytes of the word turned, and with 19 in its low byte only.
fn start_counts() -> Vec<Case> {
    let counted = |count: u16| {
        let placed = Placed::start_first(&sample())
            .start_count(count)
            .behind(&[0]);
        Case::new(&format!("start-count-{count}"), placed)
    };
    [0, 7, 18, 20, 0x0113, 0x1300, 65_535].map(counted).to_vec()
}

fn past_the_end() -> Vec<Case> {
    let tight = || Placed::start_first(&sample());
    let turned = || Placed::events_first(&sample());
    vec![
        Case::new("events-cut-1", tight().cut(1)),
        Case::new("events-cut-2", tight().cut(2)),
        Case::new("events-cut-3", tight().cut(3)),
        Case::new("events-cut-4", tight().cut(4)),
        Case::new("events-one-more", tight().event_count(6)),
        Case::new("events-one-on", tight().events_at(28)),
        Case::new("start-cut-1", turned().cut(1)),
        Case::new("start-cut-12", turned().cut(12)),
        Case::new("start-one-on", turned().start_at(29)),
        Case::new("events-at-the-end", tight().events_at(SAMPLE_LENGTH)),
        Case::new("events-past-the-end", tight().events_at(SAMPLE_LENGTH + 1)),
        Case::new("start-at-the-end", turned().start_at(SAMPLE_LENGTH)),
        Case::new("start-past-the-end", turned().start_at(SAMPLE_LENGTH + 1)),
    ]
}

/// The header's bytes would pass as events and as start bytes.
fn into_the_header() -> Vec<Case> {
    let start_at = |name: &str, at: usize| Case::new(name, Placed::at(&starts(2), at, 40));
    let events_at =
        |name: &str, count: usize, at: usize| Case::new(name, Placed::at(&starts(count), 40, at));
    vec![
        start_at("start-at-0", 0),
        start_at("start-at-7", 7),
        events_at("events-at-0", 1, 0),
        events_at("events-at-7", 1, 7),
        events_at("more-events-at-7", 6, 7),
    ]
}

/// Those just behind each other are good.
fn into_each_other() -> Vec<Case> {
    let shared = |name: &str, count: usize, start_at: usize, events_at: usize| {
        Case::new(name, Placed::at(&starts(count), start_at, events_at))
    };
    vec![
        shared("start-meets-events", 3, 8, 26),
        shared("start-shares-all-but-one", 6, 8, 9),
        shared("events-meet-start", 3, 19, 8),
        shared("events-share-all-but-one", 3, 9, 8),
        shared("same-offset", 3, 8, 8),
        shared("events-inside-start", 1, 8, 16),
        shared("events-at-end-of-start", 1, 8, 23),
        shared("events-at-begin-of-start", 1, 9, 9),
        shared("start-inside-events", 9, 16, 8),
        shared("start-at-end-of-events", 9, 25, 8),
        shared("start-just-behind-events", 9, 44, 8),
        shared("start-on-last-event-byte", 9, 43, 8),
        shared("events-just-behind-start", 9, 11, 30),
        shared("events-on-last-start-byte", 9, 11, 29),
    ]
}

/// Event counts and offsets that come out right in sixteen bits.
fn wrapped() -> Vec<Case> {
    let counted = |name: &str, count: u16| {
        let placed = Placed::start_first(&sample()).event_count(count);
        Case::new(name, placed).rooms(&[SAMPLE_ROOM, 200])
    };
    let placed = || Placed::start_first(&starts(2)).length(SAMPLE_LENGTH);
    vec![
        counted("count-wraps", 16_384 + 5),
        counted("count-wraps-twice", 32_768 + 5),
        counted("count-high", 49_152),
        counted("sum-wraps", 16_378),
        counted("high-byte-of-count", 0x0305),
        Case::new("events-offset-wraps", placed().events_at(65_532)),
        Case::new("start-offset-wraps", placed().start_at(65_525)),
        Case::new("high-byte-of-events-at", placed().events_at(0x011B)),
        Case::new("high-byte-of-start-at", placed().start_at(0x0108)),
    ]
}
