//! States and events by chance: their draws, their bounds, and what they lead to.

use super::super::draws::Draws;
use super::super::steps::{counter, draw_event, draw_state, draw_step};
use super::super::tables::BYTES;
use super::{after, drawing, Wanted};
use crate::digest::Digest;
use crate::script::{Event, Script};
use reference::registers::{any_fixed_bit, CTR1, USED};
use reference::{Chip, Phase, Reading, STATE_BYTES};
use std::collections::HashMap;

/// From 0 the draws are 3C6Eh, which is not loose, then 4750h, D1CCh, AAF9h,
/// 6252h and 9F2Eh for the first registers: a byte at will, and the places 9,
/// 15, 10 and 5 of their rows.
#[test]
fn the_first_registers_are_those_worked_out_by_hand() {
    let state = draw_state(&mut Draws::from(0));
    let places = [(1, 9), (2, 15), (3, 10), (4, 5)];
    assert_eq!(state[0], 0x47);
    assert_eq!(state[1..5], places.map(|(row, place)| BYTES[row][place]));
}

/// The same state whole, and the one from 1, which is loose and marked, with
/// their events.
#[test]
fn whole_steps_stay_the_same() {
    let worked = [
        (
            0,
            "475913052800090014242001010408B4D7893F070F59840F13FF8059101F0F0E\
             5A7DA301311299391D00000000201E0004867F0000FEFF0500FEFF0700",
            (6, 0, 0),
            171_871_585,
        ),
        (
            1,
            "5E59A40C5E04190400006C290200FB85A3073F03846500806595654380840765\
             594F110531129903190301873F0600FE0FFF0F0000FE7F0000FFFF1D00",
            (4, 0, 0),
            1_484_013_142,
        ),
    ];
    for (x, state, (kind, byte, count), next) in worked {
        let mut draws = Draws::from(x);
        let script = draw_step(&mut draws);
        let digits = script.start_bytes.map(|byte| format!("{byte:02X}"));
        assert_eq!(digits.concat(), state);
        assert_eq!(script.events, [Event { kind, byte, count }]);
        assert_eq!(draws.x(), next);
    }
}

/// States and events of 500 steps.
#[test]
fn many_steps_stay_the_same() {
    let mut draws = Draws::from(7);
    let mut digest = Digest::default();
    for _ in 0..500 {
        let script = draw_step(&mut draws);
        let event = script.events[0];
        digest.take_bytes(&script.start_bytes);
        digest.take_bytes(&[event.kind, event.byte]);
        digest.take_bytes(&event.count.to_le_bytes());
    }
    assert_eq!(digest.value(), 1_113_112_003);
    assert_eq!(draws.x(), 3_328_850_524);
}

/// Draws, and the kind, byte and count that they give.
type DrawnEvent = (&'static [Wanted], (u8, u8, u16));

/// A draw of 16 k + 1 below 112 gives kind k, 8 p + 1 below 128 place p.
#[test]
fn events_are_drawn_field_by_field() {
    let cases: [DrawnEvent; 11] = [
        (&[(0x01, 112), (1, 16), (1, 16)], (0, 0, 0)),
        (&[(0x61, 112), (15, 16), (15, 16)], (6, 0, 0)),
        (&[(0xC710, 65_536), (1, 16), (1, 16)], (0xC7, 0, 0)),
        (&[(0x11, 112), (0, 16), (200, 256), (1, 16)], (1, 200, 0)),
        (&[(0x31, 112), (1, 16), (0, 16), (2, 3)], (3, 0, 2)),
        (&[(0x21, 112), (25, 128), (1, 16)], (2, BYTES[21][3], 0)),
        (
            &[(0x21, 112), (25, 128), (0, 16), (1, 3)],
            (2, BYTES[21][3], 1),
        ),
        (&[(0x51, 112), (1, 16), (1, 4), (0, 8)], (5, 0, 0)),
        (&[(0x51, 112), (1, 16), (3, 4), (7, 8)], (5, 0, 7)),
        (
            &[(0x51, 112), (1, 16), (0, 4), (14, 16), (4, 5)],
            (5, 0, 32_770),
        ),
        (&[(0x51, 112), (1, 16), (0, 4), (0, 16), (0, 5)], (5, 0, 1)),
    ];
    for (wanted, (kind, byte, count)) in cases {
        let draws = drawing(wanted);
        let mut used = draws.clone();
        assert_eq!(draw_event(&mut used), Event { kind, byte, count });
        assert_eq!(used, after(draws, wanted.len()));
    }
}

/// The places of edges, what is added, what the counter stays below, and the
/// number: below the limit, at it and one over it, and what starts over.
#[test]
fn counters_stand_about_the_edges() {
    for (place, added, end, number) in [
        (0, 0, 16_385, 6),
        (6, 1, 16_385, 16_383),
        (6, 2, 16_385, 16_384),
        (6, 3, 16_385, 0),
        (12, 0, 16_385, 16_379),
        (5, 2, 8_194, 8_192),
        (5, 3, 8_194, 8_193),
        (11, 1, 32_893, 32_891),
        (11, 2, 32_893, 32_892),
        (14, 1, 524_289, 524_287),
        (14, 2, 524_289, 524_288),
        (15, 1, 1_966_081, 1_966_079),
        (15, 2, 1_966_081, 1_966_080),
    ] {
        let draws = drawing(&[(place, 16), (added, 4)]);
        let mut used = draws.clone();
        assert_eq!(counter(&mut used, end), number);
        assert_eq!(used, after(draws, 2));
    }
}

/// The 20,000 steps that the programs are compared on.
fn compared_steps() -> Vec<Script<STATE_BYTES>> {
    let mut draws = Draws::from(2);
    (0..20_000).map(|_| draw_step(&mut draws)).collect()
}

#[test]
fn only_loose_states_have_fixed_bits() {
    let mut draws = Draws::from(2);
    let mut with_fixed_bits = [0; 2];
    for _ in 0..5_000 {
        let loose = draws.clone().below(4) == 0;
        let state = draw_state(&mut draws);
        let any = any_fixed_bit(&state[..32]) || any_fixed_bit(&state[32..39]);
        with_fixed_bits[usize::from(loose)] += u32::from(any);
        assert_eq!(state[CTR1] & !USED[CTR1], 0);
    }
    assert_eq!(with_fixed_bits[0], 0);
    assert!(with_fixed_bits[1] > 500);
}

/// A number of a state by name, its limit, and where it is looked up.
type Number = (&'static str, u32, fn(&Chip) -> u32);

const NUMBERS: [Number; 7] = [
    ("age", 16_383, |chip| match chip.phase {
        Phase::Closed => 0,
        Phase::Open { age, .. } => age.into(),
    }),
    ("alarm's pin pulse", 8_192, |chip| chip.alarm_pulse.into()),
    ("countdown's pin pulse", 8_192, |chip| {
        chip.countdown_pulse.into()
    }),
    ("second counter", 32_891, |chip| chip.second_counter),
    ("divider", 524_287, |chip| chip.divider),
    ("prescaler", 1_966_079, |chip| chip.prescaler),
    ("pointer", 31, |chip| chip.pointer.into()),
];

#[test]
fn each_bound_is_reached_and_passed() {
    let chips: Vec<Chip> = compared_steps()
        .iter()
        .map(|script| script.chip(Reading::Right))
        .collect();
    for (name, limit, number) in NUMBERS {
        let how_many = |test: fn(u32, u32) -> bool| {
            let passing = chips.iter().filter(|chip| test(number(chip), limit));
            passing.count()
        };
        let (at, over) = (
            how_many(|n, limit| n == limit),
            how_many(|n, limit| n > limit),
        );
        println!("{name}: {at} at the limit, {over} over it");
        assert!(at >= 100 && over >= 100, "{name}");
    }
}

/// How many of these steps run, by phase and kind.
#[test]
fn each_kind_runs_in_each_phase() {
    let mut ran: HashMap<(u8, u8), u32> = HashMap::new();
    for script in compared_steps() {
        let Event { kind, byte, count } = script.events[0];
        let mut chip = script.chip(Reading::Right);
        if chip.step_any(kind, byte, count).is_ok() {
            *ran.entry((script.start_bytes[41], kind)).or_default() += 1;
        }
    }
    for phase in 0..6 {
        for kind in 0..7 {
            let count = ran.get(&(phase, kind)).copied().unwrap_or(0);
            println!("{count} in phase {phase} with kind {kind}");
            assert!(count >= 100, "phase {phase}, kind {kind}");
        }
    }
}
