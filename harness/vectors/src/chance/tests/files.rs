//! The form of the files, their damage and their rooms.

use super::super::draws::Draws;
use super::super::files::{damage, draw_file, good_file, pulse_count, room_for, sections};
use super::{after, drawing, Wanted};
use crate::digest::Digest;
use crate::file::Run;
use reference::run_file;

/// The event count, events' offset, start count and start bytes' offset.
fn header(file: &[u8]) -> [usize; 4] {
    let word = |at: usize| usize::from(file[at]) + 256 * usize::from(file[at + 1]);
    [0, 2, 4, 6].map(word)
}

fn good(wanted: &[Wanted]) -> (Vec<u8>, usize) {
    good_file(&mut drawing(wanted))
}

#[test]
fn start_bytes_can_stand_first() {
    for (before, gap) in [(0, 0), (3, 0), (0, 3), (2, 1)] {
        let (file, count) = good(&[(0, 2), (before, 4), (gap, 4)]);
        let events_at = 27 + before + gap;
        assert_eq!(header(&file), [count, events_at, 19, 8 + before]);
        let behind = file.len() - (events_at + 4 * count);
        assert!(behind < 4);
    }
}

#[test]
fn events_can_stand_first() {
    for (before, gap) in [(0, 0), (3, 0), (0, 3), (2, 1)] {
        let (file, count) = good(&[(1, 2), (before, 4), (gap, 4)]);
        let start_at = 8 + before + 4 * count + gap;
        assert_eq!(header(&file), [count, 8 + before, 19, start_at]);
        let behind = file.len() - (start_at + 19);
        assert!(behind < 4);
    }
}

/// The bytes of the first events, kind by kind.
fn first_events(wanted: &[Wanted], count: usize) -> Vec<[u8; 2]> {
    let (file, _) = good(wanted);
    let (_, events) = sections(&file);
    let events = events.chunks_exact(4).take(count);
    events.map(|event| [event[0], event[1]]).collect()
}

/// Seven in eight unlock first; the others begin with the first move drawn,
/// here the one that reads 0Fh.
#[test]
fn mostly_the_lock_opens_first() {
    let placed = [(0, 2), (0, 4), (0, 4), (0, 10)];
    let locked = [placed.as_slice(), &[(0, 8), (22, 32)]].concat();
    let reading = [
        [0, 0],
        [2, 0x64],
        [2, 0x0F],
        [0, 0],
        [2, 0x65],
        [4, 0],
        [1, 0],
    ];
    assert_eq!(first_events(&locked, 7), reading);
    let unlocking = [
        [0, 0],
        [2, 0x64],
        [2, 0x10],
        [2, 0x80],
        [0, 0],
        [2, 0x64],
        [2, 0x0F],
        [2, 0x84],
    ];
    for draw in 1..8 {
        let open = [placed.as_slice(), &[(draw, 8)]].concat();
        assert_eq!(first_events(&open, 8), unlocking);
    }
}

/// Nothing is refused before there is damage, and gaps are zeros.
#[test]
fn good_files_run() {
    let mut draws = Draws::from(20);
    for _ in 0..500 {
        let (file, count) = good_file(&mut draws);
        let run = run_file(&file, &mut vec![0; 5 * count]);
        assert_eq!((run.refusal, run.count), (0, count));
        let [_, events_at, _, start_at] = header(&file);
        let gap = &file[8..events_at.min(start_at)];
        assert!(gap.iter().all(|byte| *byte == 0));
    }
}

#[test]
fn pulses_are_summed() {
    let mut file = vec![3, 0, 8, 0, 19, 0, 20, 0];
    file.extend([5, 0, 2, 1, 2, 0x65, 0, 0, 5, 0, 3, 0]);
    file.extend([9; 19]);
    assert_eq!(pulse_count(&file), 258 + 3);
    assert_eq!(sections(&file).0, [9; 19]);
}

/// The file with bytes 0 to 39, damaged with these draws.
fn damaged(wanted: &[Wanted]) -> Vec<u8> {
    let draws = drawing(wanted);
    let mut used = draws.clone();
    let mut file = (0..40).collect();
    damage(&mut used, &mut file);
    assert_eq!(used, after(draws, wanted.len()));
    file
}

/// The same with one other byte.
fn with_byte(at: usize, value: u8) -> Vec<u8> {
    let mut file: Vec<u8> = (0..40).collect();
    file[at] = value;
    file
}

#[test]
fn damage_cuts_the_file() {
    for length in [0, 7, 39, 40] {
        let kept: Vec<u8> = (0..length).collect();
        assert_eq!(damaged(&[(0, 4), (length.into(), 41)]), kept);
    }
}

#[test]
fn damage_changes_a_byte() {
    assert_eq!(damaged(&[(1, 4), (7, 8), (200, 256)]), with_byte(7, 200));
    assert_eq!(damaged(&[(3, 4), (39, 40), (200, 256)]), with_byte(39, 200));
}

#[test]
fn damage_steps_a_header_byte() {
    assert_eq!(damaged(&[(2, 4), (5, 8), (0, 2)]), with_byte(5, 4));
    assert_eq!(damaged(&[(2, 4), (5, 8), (1, 2)]), with_byte(5, 6));
    assert_eq!(damaged(&[(2, 4), (0, 8), (0, 2)]), with_byte(0, 255));
}

#[test]
fn rooms_are_enough_but_for_one_in_eight() {
    let room = |wanted: &[Wanted], count| room_for(&mut drawing(wanted), count);
    assert_eq!(room(&[(0, 8)], 20), 99);
    assert_eq!(room(&[(0, 8)], 0), 0);
    assert_eq!(room(&[(1, 8), (39, 40)], 20), 139);
    for draw in 2..8 {
        assert_eq!(room(&[(draw, 8)], 20), 100);
    }
}

/// A file with these draws first, and the draws as they stand behind them.
fn drawn(wanted: &[Wanted]) -> (Run, Draws) {
    let draws = drawing(wanted);
    let behind = after(draws.clone(), wanted.len());
    (draw_file(&mut draws.clone()), behind)
}

#[test]
fn noise_is_all_drawn() {
    for (kind, lengths, limit) in [(0, 64, 256), (3, 10, 8)] {
        for length in [0, 5, 9] {
            let (drawn, mut behind) = drawn(&[(0, 16), (kind, 4), (length, lengths)]);
            assert_eq!(drawn.file, behind.bytes_below(length, limit));
            assert_eq!(drawn.room, behind.below(64));
        }
    }
}

#[test]
fn a_likely_header_lies_over_small_bytes() {
    let (drawn, mut behind) = drawn(&[(0, 16), (1, 4), (99, 100)]);
    let bytes = behind.bytes_below(126, 8);
    assert_eq!(drawn.file[8..], bytes[8..]);
    let [count, events_at] = [8, 64].map(|limit| behind.below(limit));
    let start_count = match behind.below(4) {
        0 => behind.below(40),
        _ => 19,
    };
    let start_at = behind.below(64);
    assert_eq!(
        header(&drawn.file),
        [count, events_at, start_count, start_at]
    );
    assert_eq!(drawn.room, behind.below(64));
}

#[test]
fn files_lie_around_the_limit() {
    for (length, count, room) in [(0, 0, 0), (4, 5, 5), (5, 6, 9), (7, 7, 9)] {
        let (drawn, _) = drawn(&[(0, 16), (2, 4), (length, 8), (count, 8), (room, 10)]);
        let mut file = vec![0; 16_380 + length];
        file[..8].copy_from_slice(&[0xF4 + count as u8, 0x0F, 27, 0, 19, 0, 8, 0]);
        assert_eq!((drawn.file, drawn.room), (file, 20_440 + room));
    }
}

/// Lengths, bytes and rooms of 500 files, so that a number that is written down
/// goes on to mean the same file.
#[test]
fn files_stay_the_same() {
    let mut draws = Draws::from(7);
    let mut digest = Digest::default();
    for _ in 0..500 {
        let Run { file, room } = draw_file(&mut draws);
        digest.take(file.len() as u64);
        digest.take_bytes(&file);
        digest.take(room as u64);
    }
    assert_eq!(digest.value(), 2_391_776_164);
    assert_eq!(draws.x(), 2_180_265_561);
}
