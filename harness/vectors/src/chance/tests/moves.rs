//! Items and moves: what they append, and how many draws they make.

use super::super::moves::Events;
use super::super::tables::{BYTES, LENGTHS, MOVES};
use super::{after, drawing, Wanted};

const START: [u8; 4] = [0, 0, 0, 0];
const STOP: [u8; 4] = [1, 0, 0, 0];
const READ_ACK: [u8; 4] = [3, 0, 0, 0];
const READ_NAK: [u8; 4] = [4, 0, 0, 0];
const POWER_LOSS: [u8; 4] = [6, 0, 0, 0];

fn byte(value: u8) -> [u8; 4] {
    [2, value, 0, 0]
}

fn pulses(count: u16) -> [u8; 4] {
    let [low, high] = count.to_le_bytes();
    [5, 0, low, high]
}

/// With just these draws, the items append just these events.
fn check(items: &[u8], wanted: &[Wanted], expected: &[[u8; 4]]) {
    let draws = drawing(wanted);
    let mut used = draws.clone();
    let mut events = Events::at(8);
    events.items(&mut used, items);
    assert_eq!(events.bytes, expected.concat(), "{items:02X?} {wanted:?}");
    assert_eq!(used, after(draws, wanted.len()), "{items:02X?} {wanted:?}");
}

#[test]
fn plain_items_append_one_event() {
    let plain = [
        (0x01, START),
        (0x02, STOP),
        (0x04, READ_ACK),
        (0x05, READ_NAK),
        (0x08, POWER_LOSS),
        (0x40, byte(0x64)),
        (0x41, byte(0x65)),
        (0x42, byte(0x80)),
        (0x43, byte(0x84)),
    ];
    for (item, event) in plain {
        check(&[item], &[], &[event]);
    }
    for pointer in 0x00..=0x1F {
        check(&[0x80 + pointer], &[], &[byte(pointer)]);
    }
}

#[test]
fn other_items_append_nothing() {
    let others = [
        0x00..=0x00,
        0x0D..=0x1F,
        0x38..=0x3F,
        0x44..=0x7F,
        0xA0..=0xFF,
    ];
    for item in others.into_iter().flatten() {
        check(&[item], &[], &[]);
    }
}

#[test]
fn a_likely_stop_fails_one_time_in_four() {
    check(&[0x03], &[(0, 4)], &[]);
    for draw in 1..4 {
        check(&[0x03], &[(draw, 4)], &[STOP]);
    }
}

#[test]
fn long_pulses_lie_around_a_length() {
    for (at, length) in LENGTHS.into_iter().enumerate() {
        for more in 0..5 {
            let count = length - 2 + more;
            check(&[0x06], &[(at, 16), (more.into(), 5)], &[pulses(count)]);
        }
    }
    assert!(LENGTHS.iter().all(|length| *length >= 3));
}

#[test]
fn short_pulses_are_one_to_eight() {
    for draw in 0..8 {
        check(&[0x07], &[(draw, 8)], &[pulses(draw as u16 + 1)]);
    }
}

#[test]
fn reads_are_none_to_seven() {
    for draw in 0..8 {
        check(&[0x09], &[(draw, 8)], &vec![READ_ACK; draw]);
    }
}

#[test]
fn a_move_can_end_early() {
    check(&[0x01, 0x0A, 0x02], &[(0, 4)], &[START]);
    check(&[0x01, 0x0A, 0x07], &[(0, 4)], &[START]);
    for draw in 1..4 {
        check(&[0x01, 0x0A, 0x02], &[(draw, 4)], &[START, STOP]);
    }
}

#[test]
fn an_event_out_of_place_is_of_any_kind() {
    for (kind, event) in [START, STOP].into_iter().enumerate() {
        check(&[0x0B], &[(kind, 7)], &[event]);
    }
    check(&[0x0B], &[(2, 7), (8 * 3 + 1, 128)], &[byte(BYTES[21][3])]);
    check(&[0x0B], &[(3, 7)], &[READ_ACK]);
    check(&[0x0B], &[(4, 7)], &[READ_NAK]);
    check(&[0x0B], &[(5, 7), (7, 8)], &[pulses(8)]);
    check(&[0x0B], &[(6, 7)], &[POWER_LOSS]);
}

/// A draw of 8 p + 1 below 128 picks place p.
#[test]
fn rows_have_an_item_each() {
    for (item, row) in (0x20..=0x37).zip(BYTES) {
        for place in [0, 9, 15] {
            check(&[item], &[(8 * place + 1, 128)], &[byte(row[place])]);
        }
        check(&[item], &[(0xC7_08, 65_536)], &[byte(0xC7)]);
    }
}

#[test]
fn a_time_and_its_alarm_have_one_place() {
    for place in [0, 9, 15] {
        let column: Vec<[u8; 4]> = BYTES[..14].iter().map(|row| byte(row[place])).collect();
        check(&[0x0C], &[(place, 16)], &column);
    }
}

#[test]
fn no_event_ends_behind_byte_4000() {
    for (at, fitting) in [(3_992, 2), (3_993, 1), (3_996, 1), (3_997, 0)] {
        let draws = drawing(&[]);
        let mut used = draws.clone();
        let mut events = Events::at(at);
        events.items(&mut used, &[0x07, 0x07, 0x07]);
        assert_eq!(events.count(), fitting);
        assert_eq!(events.end(), at + 4 * fitting);
        assert_eq!(used, after(draws, 3));
    }
}

#[test]
fn the_first_move_unlocks() {
    let unlock = [
        START,
        byte(0x64),
        byte(0x10),
        byte(0x80),
        START,
        byte(0x64),
        byte(0x0F),
        byte(0x84),
    ];
    check(&MOVES[0], &[(0, 4)], &unlock);
    check(&MOVES[0], &[(1, 4)], &[&unlock[..], &[STOP]].concat());
}

#[test]
fn a_move_is_found_by_its_number() {
    for (number, items) in MOVES.iter().enumerate() {
        let (mut one, mut other) = (Events::at(8), Events::at(8));
        let (mut draws, mut same) = (drawing(&[]), drawing(&[]));
        one.make_move(&mut draws, number);
        other.items(&mut same, items);
        assert_eq!((one.bytes, draws), (other.bytes, same));
    }
}

/// What the tables hold is what a move can be made of.
#[test]
fn moves_are_made_of_items() {
    let known = |item: &u8| matches!(item, 0x00..=0x0C | 0x20..=0x37 | 0x40..=0x43 | 0x80..=0x9F);
    assert!(MOVES.iter().flatten().all(known));
}
