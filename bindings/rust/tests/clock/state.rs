//! The bytes of a state: what stands where, which are well formed, and that a clock goes on from
//! them.

use tallowreed::{Clock, Event, Refusal, STATE_SIZE};

use crate::board::{fresh, open, write_at, SECOND, TIME};

const RELOAD: usize = 39;
const POINTER: usize = 40;
const PHASE: usize = 41;
const MARK: usize = 42;
const AGE: usize = 43;
const ALARM_PULSE: usize = 45;
const COUNTDOWN_PULSE: usize = 47;
const SECOND_COUNTER: usize = 49;
const DIVIDER: usize = 53;
const PRESCALER: usize = 57;

/// The fixed bits of the registers, rule 2.2.
const FIXED: [(usize, u8); 16] = [
    (0x00, 0x80),
    (0x01, 0x80),
    (0x02, 0x40),
    (0x03, 0xF8),
    (0x04, 0xC0),
    (0x05, 0xE0),
    (0x07, 0x80),
    (0x08, 0x80),
    (0x09, 0xC0),
    (0x0A, 0x80),
    (0x0B, 0xC0),
    (0x0C, 0xE0),
    (0x0E, 0x80),
    (0x0F, 0x4A),
    (0x11, 0x40),
    (0x12, 0x80),
];

/// The state of a fresh clock with bytes at some places changed.
fn changed(changes: &[(usize, &[u8])]) -> [u8; STATE_SIZE] {
    let mut state = *fresh([0; 7]).as_bytes();
    for (at, bytes) in changes {
        state[*at..at + bytes.len()].copy_from_slice(bytes);
    }
    state
}

fn assert_taken(changes: &[(usize, &[u8])]) {
    let state = changed(changes);
    let clock = Clock::from_bytes(&state).unwrap_or_else(|_| panic!("{changes:02X?} is refused"));
    assert_eq!(clock.as_bytes(), &state);
}

fn assert_refused(changes: &[(usize, &[u8])]) {
    let made = Clock::from_bytes(&changed(changes));
    assert_eq!(made, Err(Refusal::State), "{changes:02X?}");
}

#[test]
fn power_on_leaves_all_at_0_but_rtcf_and_the_start_bytes() {
    let start: [u8; 19] = core::array::from_fn(|place| if place < 7 { TIME[place] } else { 0xA5 });
    let mut state = [0; STATE_SIZE];
    state[..7].copy_from_slice(&TIME);
    state[0x0F] = 0x01;
    state[0x14..0x20].fill(0xA5);
    assert_eq!(Clock::power_on(&start).unwrap().as_bytes(), &state);
}

#[test]
fn an_open_transfer_stands_where_the_header_says() {
    let mut clock = open(TIME);
    write_at(&mut clock, 0x10, &[0x84, 0x10]);
    write_at(&mut clock, 0x13, &[200]);
    clock.start();
    clock.write(0x65);
    clock.pulses(300);
    clock.read(true);
    let state = clock.as_bytes();
    assert_eq!(state[32..39], TIME, "latched");
    assert_eq!(state[RELOAD], 200);
    assert_eq!(state[POINTER], 1);
    assert_eq!(state[PHASE], 4, "reading");
    assert_eq!(state[MARK], 0);
    assert_eq!(state[AGE..AGE + 2], 300u16.to_le_bytes());
    assert_eq!(state[ALARM_PULSE..SECOND_COUNTER], [0; 4]);
    for counter in [SECOND_COUNTER, DIVIDER, PRESCALER] {
        assert_eq!(
            state[counter..counter + 4],
            300u32.to_le_bytes(),
            "{counter}"
        );
    }
}

#[test]
fn a_restored_clock_goes_on_as_the_original() {
    let mut original = open(TIME);
    write_at(&mut original, 0x10, &[0xB4, 0x10]);
    write_at(&mut original, 0x13, &[2]);
    original.pulses(SECOND - 1);
    original.start();
    original.write(0x65);
    original.pulses(16_000);
    assert_eq!(original.read(true), 0x20);

    let mut restored = Clock::from_bytes(original.as_bytes()).unwrap();
    assert_eq!(restored, original);
    for event in [
        Event::ReadAck,
        Event::Pulses(383),
        Event::ReadAck,
        Event::Pulses(1),
        Event::ReadAck,
        Event::Stop,
        Event::Pulses(50_000),
        Event::Start,
        Event::Byte(0x64),
        Event::Byte(0x0F),
        Event::Byte(0x84),
        Event::PowerLoss,
    ] {
        assert_eq!(restored.step(event), original.step(event), "{event:?}");
        assert_eq!(restored.as_bytes(), original.as_bytes(), "{event:?}");
    }
}

#[test]
fn a_restored_transfer_is_as_old_as_it_was() {
    let mut original = fresh(TIME);
    original.start();
    original.write(0x65);
    original.read(true);
    original.pulses(16_000);
    let mut restored = Clock::from_bytes(original.as_bytes()).unwrap();
    restored.pulses(383);
    assert_eq!(restored.read(true), 0x19);
    restored.pulses(1);
    assert_eq!(restored.read(true), 0xFF);
}

#[test]
fn fixed_bits_are_refused() {
    for (register, bits) in FIXED {
        for bit in (0..8).map(|bit| 1 << bit).filter(|bit| bits & bit != 0) {
            assert_refused(&[(register, &[bit])]);
            if register < 7 {
                assert_refused(&[(32 + register, &[bit])]);
            }
        }
    }
}

#[test]
fn all_other_bits_are_taken() {
    let mut registers = [0xFF; 32];
    for (register, bits) in FIXED {
        registers[register] = !bits;
    }
    assert_taken(&[(0, &registers), (32, &registers[..7]), (RELOAD, &[0xFF])]);
}

#[test]
fn lock_bits_need_wrtc1() {
    for bits in [0x04, 0x80, 0x84] {
        assert_refused(&[(0x0F, &[bits]), (0x10, &[0x7F])]);
        assert_taken(&[(0x0F, &[bits]), (0x10, &[0x80])]);
    }
}

#[test]
fn the_count_is_at_most_its_reload() {
    assert_taken(&[(0x13, &[3]), (RELOAD, &[3])]);
    assert_refused(&[(0x13, &[4]), (RELOAD, &[3])]);
}

#[test]
fn the_bus_has_six_phases() {
    assert_taken(&[(POINTER, &[31])]);
    assert_refused(&[(POINTER, &[32])]);
    for phase in 1..=5 {
        assert_taken(&[
            (PHASE, &[phase]),
            (MARK, &[1]),
            (AGE, &16_383u16.to_le_bytes()),
        ]);
        assert_refused(&[(PHASE, &[phase]), (MARK, &[2])]);
        assert_refused(&[(PHASE, &[phase]), (AGE, &16_384u16.to_le_bytes())]);
    }
    assert_refused(&[(PHASE, &[6])]);
    // A closed bus has neither a mark nor an age.
    assert_refused(&[(MARK, &[1])]);
    assert_refused(&[(AGE, &[1])]);
}

#[test]
fn each_counter_has_its_bound() {
    for pulse in [ALARM_PULSE, COUNTDOWN_PULSE] {
        assert_taken(&[(pulse, &8_192u16.to_le_bytes())]);
        assert_refused(&[(pulse, &8_193u16.to_le_bytes())]);
    }
    for (counter, bound) in [
        (SECOND_COUNTER, 32_891u32),
        (DIVIDER, 524_287),
        (PRESCALER, 1_966_079),
    ] {
        assert_taken(&[(counter, &bound.to_le_bytes())]);
        assert_refused(&[(counter, &(bound + 1).to_le_bytes())]);
        assert_refused(&[(counter, &u32::MAX.to_le_bytes())]);
    }
}

#[test]
fn bytes_of_another_length_are_no_state() {
    let good = fresh(TIME);
    let mut bytes = good.as_bytes().to_vec();
    bytes.resize(200, 0);
    for length in 0..=bytes.len() {
        let made = Clock::from_bytes(&bytes[..length]);
        if length == STATE_SIZE {
            assert_eq!(made.as_ref(), Ok(&good));
        } else {
            assert_eq!(made, Err(Refusal::State), "{length}");
        }
    }
}

#[test]
fn debug_shows_the_registers_in_hexadecimal() {
    let shown = format!("{:?}", fresh(TIME));
    assert!(
        shown.starts_with("Clock { registers: [20, 19, 98, 03, 20, 12, 06, 00,"),
        "{shown}"
    );
    assert!(shown.ends_with(", 00], .. }"), "{shown}");
}
