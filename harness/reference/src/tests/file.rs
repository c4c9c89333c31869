//! Script files: every refusal, its boundaries on both sides, and the run.

use super::host::NEW_CENTURY;
use crate::{run_file, Chip, FileRun};

type Event = [u8; 4];

const START: Event = [0, 0, 0, 0];
const STOP: Event = [1, 0, 0, 0];
const READ: Event = [3, 0, 0, 0];
const BAD_KIND: Event = [7, 0, 0, 0];
const BAD_FIELD: Event = [1, 1, 0, 0];

/// START, 65h, a read, STOP.
const SAMPLE: [Event; 4] = [START, [2, 0x65, 0, 0], READ, STOP];
const SAMPLE_LINES: &[u8] = b"-- H\nAK H\n00 H\n-- H\n";

fn start_bytes() -> [u8; 19] {
    let mut bytes = [0xA0; 19];
    bytes[..7].copy_from_slice(&NEW_CENTURY);
    bytes
}

/// A file as the header words say, with nothing in it yet.
fn blank(length: usize, words: [u16; 4]) -> Vec<u8> {
    let mut file = vec![0; length];
    for (at, word) in words.into_iter().enumerate() {
        file[2 * at..][..2].copy_from_slice(&word.to_le_bytes());
    }
    file
}

/// Both sections at these places of a zeroed file of this length.
fn placed(length: usize, start_at: usize, events_at: usize, events: &[Event]) -> Vec<u8> {
    let words = [events.len() as u16, events_at as u16, 19, start_at as u16];
    let mut file = blank(length, words);
    file[start_at..][..19].copy_from_slice(&start_bytes());
    let events = events.concat();
    file[events_at..][..events.len()].copy_from_slice(&events);
    file
}

/// Start bytes at 8, the events right behind them.
fn tight(events: &[Event]) -> Vec<u8> {
    placed(27 + 4 * events.len(), 8, 27, events)
}

fn with_word(mut file: Vec<u8>, at: usize, word: u16) -> Vec<u8> {
    file[2 * at..][..2].copy_from_slice(&word.to_le_bytes());
    file
}

fn zero_chip() -> Chip {
    Chip::power_on(&[0; 19]).unwrap()
}

/// The refusal and its index; refused files must leave all else alone.
fn refusal_in(file: &[u8], room: usize) -> (u8, usize) {
    let mut out = vec![b'.'; room];
    let run = run_file(file, &mut out);
    if run.refusal == 0 {
        assert_eq!(run.index, 0);
    } else {
        assert_eq!((run.count, &run.chip), (0, &zero_chip()));
        assert!(out.iter().all(|byte| *byte == b'.'));
    }
    (run.refusal, run.index)
}

/// The same with more than room enough.
fn refusal(file: &[u8]) -> (u8, usize) {
    refusal_in(file, 20_472)
}

#[test]
fn a_good_file_runs() {
    let mut out = [b'.'; 24];
    let run = run_file(&tight(&SAMPLE), &mut out);
    let mut chip = Chip::power_on(&start_bytes()).unwrap();
    for [kind, byte, ..] in SAMPLE {
        chip.step(kind, byte, 0).unwrap();
    }
    let expected = FileRun {
        refusal: 0,
        index: 0,
        count: 4,
        chip,
    };
    assert_eq!(run, expected);
    assert_eq!(&out[..20], SAMPLE_LINES);
    assert_eq!(&out[20..], b"....");
}

#[test]
fn the_last_state_is_handed_back() {
    let pulses = [5, 0, 0x00, 0x80];
    let run = run_file(&tight(&[pulses, START]), &mut [0; 10]);
    assert_eq!(run.chip.regs[0], 0x01);
    assert_ne!(run.chip, zero_chip());
    assert_eq!(run.chip.regs[0x1F], 0xA0);
}

#[test]
fn words_are_little_endian() {
    let pulses = [5, 0, 0x00, 0x80];
    let file = placed(0x0300, 0x0109, 0x0201, &[pulses; 60]);
    let run = run_file(&file, &mut [0; 300]);
    assert_eq!((run.refusal, run.count), (0, 60));
    assert_eq!(run.chip.regs[..2], [0x00, 0x01]);
}

#[test]
fn eight_is_for_files_over_the_limit() {
    let mut file = tight(&SAMPLE);
    file.resize(16_384, 0xEE);
    assert_eq!(refusal(&file), (0, 0));
    file.push(0xEE);
    assert_eq!(refusal(&file), (8, 0));
    file.resize(100_000, 0xEE);
    assert_eq!(refusal(&file), (8, 0));
}

#[test]
fn four_is_for_files_without_a_header() {
    let file = tight(&SAMPLE);
    for length in 0..8 {
        assert_eq!(refusal(&file[..length]), (4, 0));
    }
    assert_eq!(refusal(&file[..8]), (5, 0));
}

#[test]
fn the_start_count_is_nineteen() {
    for count in [0, 7, 18, 20, 0x0113, 0x1300, 65_535] {
        assert_eq!(refusal(&with_word(tight(&SAMPLE), 2, count)), (5, 0));
    }
}

#[test]
fn sections_end_with_the_file_at_the_latest() {
    let events_last = tight(&SAMPLE);
    let start_last = placed(43, 24, 8, &SAMPLE);
    for file in [events_last, start_last] {
        assert_eq!(refusal(&file), (0, 0));
        for cut in 1..file.len() - 8 {
            assert_eq!(refusal(&file[..file.len() - cut]), (5, 0));
        }
    }
}

#[test]
fn sections_may_touch_but_not_share() {
    assert_eq!(refusal(&placed(60, 8, 27, &SAMPLE)), (0, 0));
    assert_eq!(refusal(&placed(60, 8, 26, &SAMPLE)), (5, 0));
    assert_eq!(refusal(&placed(60, 24, 8, &SAMPLE)), (0, 0));
    assert_eq!(refusal(&placed(60, 23, 8, &SAMPLE)), (5, 0));
    assert_eq!(refusal(&placed(60, 8, 8, &SAMPLE)), (5, 0));
}

#[test]
fn a_section_may_not_lie_inside_the_other() {
    assert_eq!(refusal(&placed(60, 8, 16, &[START])), (5, 0));
    assert_eq!(refusal(&placed(60, 20, 8, &[START; 12])), (5, 0));
}

#[test]
fn no_section_reaches_into_the_header() {
    let file = placed(60, 8, 27, &[START]);
    for at in 0..8 {
        assert_eq!(refusal(&with_word(file.clone(), 3, at)), (5, 0));
        assert_eq!(refusal(&with_word(file.clone(), 1, at)), (5, 0));
    }
}

#[test]
fn offsets_past_the_end_are_refused() {
    let file = tight(&SAMPLE);
    for at in [43, 44, 45, 0x2B00, 65_517, 65_535] {
        assert_eq!(refusal(&with_word(file.clone(), 1, at)), (5, 0));
        assert_eq!(refusal(&with_word(file.clone(), 3, at)), (5, 0));
    }
}

#[test]
fn event_counts_do_not_wrap() {
    let file = tight(&SAMPLE);
    for count in [5, 0x0400, 16_378, 16_384, 16_388, 32_768, 65_535] {
        assert_eq!(refusal(&with_word(file.clone(), 0, count)), (5, 0));
    }
}

#[test]
fn no_events_lie_anywhere_behind_the_header() {
    let file = |at: usize| blank(40, [0, at as u16, 19, 10]);
    for at in 0..60 {
        let expected = if (8..=40).contains(&at) { 0 } else { 5 };
        assert_eq!(refusal_in(&file(at), 0), (expected, 0));
    }
}

#[test]
fn no_events_leave_the_output_alone() {
    let mut out = *b"......";
    let run = run_file(&tight(&[]), &mut out);
    assert_eq!((run.refusal, run.count), (0, 0));
    assert_eq!(run.chip, Chip::power_on(&start_bytes()).unwrap());
    assert_eq!(&out, b"......");
}

#[test]
fn all_places_of_two_sections() {
    let mut good = 0;
    for start_at in 0..40 {
        for events_at in 0..40 {
            let file = blank(40, [2, events_at, 19, start_at]);
            let shares = |i: &u16| (events_at..events_at + 8).contains(i);
            let apart = !(start_at..start_at + 19).any(|i| shares(&i));
            let inside = (8..=21).contains(&start_at) && (8..=32).contains(&events_at);
            let judged = refusal(&file).0 != 5;
            assert_eq!(judged, apart && inside);
            good += usize::from(judged);
        }
    }
    assert!(good > 20);
}

#[test]
fn only_the_first_seven_start_bytes_are_judged() {
    const FIXED: [u8; 7] = [0x80, 0x80, 0x40, 0xF8, 0xC0, 0xE0, 0x00];
    for at in 0..19 {
        let mut file = tight(&SAMPLE);
        file[8 + at] = 0xFF;
        let expected = if at < 6 { 6 } else { 0 };
        assert_eq!(refusal(&file), (expected, 0));
        file[8 + at] = !FIXED.get(at).unwrap_or(&0);
        assert_eq!(refusal(&file), (0, 0));
    }
}

#[test]
fn event_faults_come_with_their_index() {
    for at in 0..5 {
        for (fault, number) in [(BAD_KIND, 2), (BAD_FIELD, 3), ([9, 1, 1, 1], 2)] {
            let mut events = [READ; 5];
            events[at] = fault;
            assert_eq!(refusal(&tight(&events)), (number, at));
        }
    }
}

#[test]
fn the_first_event_at_fault_decides() {
    let events = [STOP, BAD_KIND, STOP, BAD_FIELD];
    assert_eq!(refusal(&tight(&events)), (2, 1));
    let events = [STOP, BAD_FIELD, STOP, BAD_KIND];
    assert_eq!(refusal(&tight(&events)), (3, 1));
}

#[test]
fn each_kind_has_its_fields() {
    for kind in 0..=255 {
        for (byte, low, high) in [(0, 0, 0), (1, 0, 0), (0, 1, 0), (0, 0, 1), (1, 1, 0)] {
            let (with_byte, with_count) = (byte != 0, low != 0 || high != 0);
            let expected = match kind {
                2 if !with_count => 0,
                5 if !with_byte && with_count => 0,
                0 | 1 | 3 | 4 | 6 if !with_byte && !with_count => 0,
                0..=6 => 3,
                _ => 2,
            };
            let file = tight(&[[kind, byte, low, high]]);
            assert_eq!(refusal(&file), (expected, 0));
        }
    }
}

#[test]
fn bytes_in_no_section_are_ignored() {
    let mut file = placed(80, 10, 40, &SAMPLE);
    for at in [8, 9, 29, 39, 56, 60, 79] {
        file[at] = 0xEE;
    }
    assert_eq!(refusal(&file), (0, 0));
    assert_eq!(refusal(&with_word(file, 0, 5)), (2, 4));
}

#[test]
fn seven_is_for_a_short_output() {
    let file = tight(&SAMPLE);
    for room in 0..30 {
        let expected = if room < 20 { 7 } else { 0 };
        assert_eq!(refusal_in(&file, room), (expected, 0));
    }
    assert_eq!(refusal_in(&tight(&[]), 0), (0, 0));
}

#[test]
fn the_largest_files() {
    let file = placed(16_384, 8, 27, &[START; 4_089]);
    assert_eq!(refusal_in(&file, 20_445), (0, 0));
    assert_eq!(refusal_in(&file, 20_444), (7, 0));
    assert_eq!(refusal(&with_word(file, 0, 4_090)), (5, 0));
}

/// One file with all faults, which are then taken away one after the other.
#[test]
fn refusals_come_in_their_order() {
    let mut file = tight(&[STOP, STOP, [8, 1, 0, 0], BAD_FIELD]);
    file[8] = 0x80;
    let mut file = with_word(file, 2, 18);
    let fair = file.len();
    file.resize(16_385, 0);
    assert_eq!(refusal_in(&file, 0), (8, 0));
    assert_eq!(refusal_in(&file[..7], 0), (4, 0));
    file.truncate(fair);
    assert_eq!(refusal_in(&file, 0), (5, 0));
    file = with_word(file, 2, 19);
    assert_eq!(refusal_in(&file, 0), (6, 0));
    file[8] = 0x00;
    assert_eq!(refusal_in(&file, 0), (2, 2));
    file[27 + 8] = 1;
    assert_eq!(refusal_in(&file, 0), (3, 2));
    file[27 + 9] = 0;
    assert_eq!(refusal_in(&file, 0), (3, 3));
    file[27 + 13] = 0;
    assert_eq!(refusal_in(&file, 0), (7, 0));
    assert_eq!(refusal_in(&file, 20), (0, 0));
}
