//! Files by chance: most are built, and most of those are good.
//!
//! A built file has its two sections in either order with small gaps, three to
//! twelve moves, mostly behind one that opens the lock, and starts at a time near
//! a roll-over. One in eight is then damaged, and one in eight is lent a byte too
//! little. One file in sixteen is not built, so that there are headers and
//! lengths which no damage would lead to.

use super::draws::Draws;
use super::moves::Events;
use super::tables::MOVES;
use crate::file::Run;
use crate::script::{self, decode_events};
use reference::registers::USED;
use reference::{EVENT_BYTES, HEADER_BYTES, LINE_BYTES, START_BYTES};

/// Behind the header and the start bytes.
const BEHIND_START: usize = HEADER_BYTES + START_BYTES;

pub fn draw_file(draws: &mut Draws) -> Run {
    if draws.below(16) == 0 {
        arbitrary(draws)
    } else {
        built(draws)
    }
}

/// From moves, now and then damaged or short of room.
fn built(draws: &mut Draws) -> Run {
    let (mut file, count) = good_file(draws);
    if draws.below(8) == 0 {
        damage(draws, &mut file);
    }
    let room = room_for(draws, count);
    Run { file, room }
}

/// A file that nothing is wrong with, and the count of its events. Up to three
/// bytes stand before the first section, between the two and at the end.
pub(super) fn good_file(draws: &mut Draws) -> (Vec<u8>, usize) {
    let start_first = draws.below(2) == 0;
    let first = HEADER_BYTES + draws.below(4);
    let gap = draws.below(4);
    let before_events = if start_first { START_BYTES + gap } else { 0 };
    let events = moves(draws, first + before_events);
    let before_start = if start_first {
        0
    } else {
        events.bytes.len() + gap
    };
    let start_at = first + before_start;
    let start_bytes = start_bytes(draws);
    let length = events.end().max(start_at + START_BYTES) + draws.below(4);
    let mut file = vec![0; length];
    file[events.at..events.end()].copy_from_slice(&events.bytes);
    file[start_at..start_at + START_BYTES].copy_from_slice(&start_bytes);
    put_header(
        &mut file,
        [events.count(), events.at, START_BYTES, start_at],
    );
    (file, events.count())
}

/// Three to twelve, any of the table; mostly the lock opens first.
fn moves(draws: &mut Draws, at: usize) -> Events {
    let mut events = Events::at(at);
    let count = 3 + draws.below(10);
    if draws.below(8) != 0 {
        events.make_move(draws, 0);
    }
    for _ in 0..count {
        let number = draws.below(MOVES.len());
        events.make_move(draws, number);
    }
    events
}

/// A time without fixed bits, and any RAM.
fn start_bytes(draws: &mut Draws) -> Vec<u8> {
    let mut bytes: Vec<u8> = (0..7).map(|row| draws.byte_of(row) & USED[row]).collect();
    bytes.extend(draws.bytes_below(START_BYTES - 7, 256));
    bytes
}

/// The event count, its offset, the start count and its offset.
fn put_header(file: &mut [u8], words: [usize; 4]) {
    let words = words.map(|word| (word as u16).to_le_bytes());
    file[..HEADER_BYTES].copy_from_slice(&words.concat());
}

/// Mostly what the events need, sometimes a byte less or some more.
pub(super) fn room_for(draws: &mut Draws, count: usize) -> usize {
    let needed = LINE_BYTES * count;
    match draws.below(8) {
        0 => needed.saturating_sub(1),
        1 => needed + draws.below(40),
        _ => needed,
    }
}

/// The file is cut, a byte of its header becomes any or the next one up or down,
/// or any byte becomes any; the file may stay good all the same.
pub(super) fn damage(draws: &mut Draws, file: &mut Vec<u8>) {
    match draws.below(4) {
        0 => {
            let length = draws.below(file.len() + 1);
            file.truncate(length);
        }
        1 => change_a_byte(draws, &mut file[..HEADER_BYTES]),
        2 => step_a_byte(draws, &mut file[..HEADER_BYTES]),
        _ => change_a_byte(draws, file),
    }
}

fn change_a_byte(draws: &mut Draws, bytes: &mut [u8]) {
    let at = draws.below(bytes.len());
    bytes[at] = draws.any_byte();
}

fn step_a_byte(draws: &mut Draws, bytes: &mut [u8]) {
    let at = draws.below(bytes.len());
    let by = if draws.below(2) == 0 { 0xFF } else { 0x01 };
    bytes[at] = bytes[at].wrapping_add(by);
}

/// Not built from moves: noise, likely headers, and files near the limit.
fn arbitrary(draws: &mut Draws) -> Run {
    match draws.below(4) {
        0 => noise(draws, 64, 256),
        1 => likely_header(draws),
        2 => near_the_limit(draws),
        _ => noise(draws, 10, 8),
    }
}

/// Fewer bytes than `lengths`, each below `limit`.
fn noise(draws: &mut Draws, lengths: usize, limit: usize) -> Run {
    let length = draws.below(lengths);
    let file = draws.bytes_below(length, limit);
    with_any_room(draws, file)
}

fn with_any_room(draws: &mut Draws, file: Vec<u8>) -> Run {
    let room = draws.below(64);
    Run { file, room }
}

/// Bytes that mostly pass for kinds, under a header that may fit them.
fn likely_header(draws: &mut Draws) -> Run {
    let length = BEHIND_START + draws.below(100);
    let mut file = draws.bytes_below(length, 8);
    let event_count = draws.below(8);
    let events_at = draws.below(64);
    let start_count = if draws.below(4) == 0 {
        draws.below(40)
    } else {
        START_BYTES
    };
    let start_at = draws.below(64);
    put_header(&mut file, [event_count, events_at, start_count, start_at]);
    with_any_room(draws, file)
}

/// As many STARTs as a file can hold, give or take a few.
fn near_the_limit(draws: &mut Draws) -> Run {
    let mut file = vec![0; 16_380 + draws.below(8)];
    let count = 4_084 + draws.below(8);
    put_header(&mut file, [count, BEHIND_START, START_BYTES, HEADER_BYTES]);
    let room = 20_440 + draws.below(10);
    Run { file, room }
}

/// The start bytes and the events of a file that is not refused.
pub fn sections(file: &[u8]) -> (&[u8], &[u8]) {
    let word = |at: usize| usize::from(u16::from_le_bytes([file[at], file[at + 1]]));
    let start_bytes = &file[word(6)..][..word(4)];
    let events = &file[word(2)..][..EVENT_BYTES * word(0)];
    (start_bytes, events)
}

/// The pulses of a file that is not refused.
pub fn pulse_count(file: &[u8]) -> u64 {
    let (_, events) = sections(file);
    script::pulse_count(&decode_events(events))
}
