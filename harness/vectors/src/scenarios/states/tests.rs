//! What the rules say about scripts from states.

use super::bounds::{FIXED, LOCKS, NUMBERS, STAGES};
use super::items;
use crate::scenarios::printed::Printed;
use crate::script::Item;
use reference::{Chip, Phase, Stage};

fn printed(name: &str) -> Printed {
    Printed::among(items(), name)
}

/// The state that a script starts from.
fn state_of(item: &Item) -> Chip {
    let Item::State(script) = item else {
        panic!("{} is not from a state", item.name());
    };
    Chip::from_form(&script.start_bytes).expect("the form of a state")
}

#[test]
fn refused_states_stay_as_they_are() {
    let refused = |item: &Item| item.name().starts_with("state refused");
    let (refused, good): (Vec<Item>, Vec<Item>) = items().into_iter().partition(refused);
    for item in &refused {
        let printed = Printed::of(item.clone());
        assert!(
            printed
                .text()
                .split(", ")
                .all(|l| l.starts_with("refused 1 -- ")),
            "{}",
            printed.name
        );
        assert_eq!(printed.states, [state_of(item)], "{}", printed.name);
    }
    for item in good {
        let printed = Printed::of(item);
        assert!(!printed.text().contains("refused 1"), "{}", printed.name);
    }
    // 26 fixed bits of registers and 13 of latched bytes, numbers, ages, lock bits, orders
    assert_eq!(refused.len(), 26 + 13 + 7 + 5 * 2 + 3 + 2);
}

/// Of 29 in all registers the three of 0Fh have no place in a state.
#[test]
fn fixed_bits_are_counted() {
    let count = |bits: &[(usize, u8)]| bits.iter().map(|(_, b)| b.count_ones()).sum::<u32>();
    assert_eq!(count(&FIXED), 26);
    assert_eq!(count(&FIXED[..6]), 13);
}

#[test]
fn all_other_bits_may_be_set() {
    let printed = printed("state: all bits but the fixed ones");
    assert_eq!(printed.answers(), "--");
    let chip = printed.last();
    assert_eq!(chip.second_counter, 1);
    assert_eq!(chip.latch, [0x7F, 0x7F, 0xBF, 0x07, 0x3F, 0x1F, 0xFF]);
}

/// A number at its bound, how it is looked up, and what a pulse makes of it.
type AfterPulse = (&'static str, fn(&Chip) -> u32, u32);

/// A pulse on each number at its bound: the counters step or start again,
/// the pin pulses fall, the others do not move.
#[test]
fn numbers_at_their_bounds() {
    let after: [AfterPulse; 7] = [
        ("pointer 31", |c| c.pointer.into(), 31),
        ("second counter 32891", |c| c.second_counter, 0),
        ("count 7", |c| c.regs[0x13].into(), 7),
        ("divider 524287", |c| c.divider, 0),
        ("prescaler 1966079", |c| c.prescaler, 1_966_079),
        ("alarm's pin pulse 8192", |c| c.alarm_pulse.into(), 8_191),
        (
            "countdown's pin pulse 8192",
            |c| c.countdown_pulse.into(),
            8_191,
        ),
    ];
    assert_eq!(after.len(), NUMBERS.len());
    for (name, number, owed) in after {
        let printed = printed(&format!("state: {name}"));
        assert_eq!(printed.text(), "-- H");
        assert_eq!(number(printed.last()), owed, "{name}");
    }
    assert_eq!(
        printed("state: second counter 32891").last().regs[0x00],
        0x01
    );
}

/// Mark and ARST do not make the time-out a STOP: the flags stay.
#[test]
fn the_oldest_transfers_close() {
    for stage in STAGES {
        let name = format!("state: age 16383, {stage:?}").to_lowercase();
        let printed = printed(&name);
        assert_eq!(printed.answers(), "--");
        let chip = printed.last();
        assert_eq!(chip.phase, Phase::Closed, "{name}");
        assert_eq!(chip.pointer, 0, "{name}");
        assert_eq!(chip.regs[0x0F], 0x31, "{name}");
        assert_eq!(chip.regs[0x11], 0x80, "{name}");
    }
}

/// Partly set they lock; 14h stays.
#[test]
fn lock_bits_with_the_first() {
    for (ctr1, ctr2, _) in LOCKS.into_iter().filter(|(.., good)| *good) {
        let printed = printed(&format!("state: 0Fh {ctr1:02X}h, 10h {ctr2:02X}h"));
        assert_eq!(printed.answers(), "-- AK AK AK --");
        let chip = printed.last();
        assert_eq!(chip.regs[0x0F..0x11], [ctr1, ctr2]);
        assert_eq!(chip.regs[0x14], 0xA0);
    }
}

#[test]
fn events_are_refused_in_order() {
    let printed = printed("state: 2 before 3");
    let owed = "refused 2 -- H, refused 2 -- H, refused 3 -- H, refused 3 -- H, -- H";
    assert_eq!(printed.text(), owed);
}

#[test]
fn a_closed_pointer_is_kept_by_start_and_pulse_only() {
    let read = printed("state: closed at 14h, read");
    assert_eq!(read.bytes_read(), [0xA0, 0xA1]);
    assert_eq!(printed("state: closed at 14h, stopped").last().pointer, 0);
    assert_eq!(
        printed("state: closed at 14h, a pulse").last().pointer,
        0x14
    );
}

#[test]
fn only_power_sets_the_power_flag() {
    let written = printed("state: RTCF 0, written");
    assert_eq!(written.bytes_read(), [0x84]);
    assert_eq!(printed("state: RTCF 0, power lost").last().regs[0x0F], 0x01);
}

/// One tick at once, the next after 8 pulses more.
#[test]
fn a_long_prescaler_ticks_once() {
    let printed = printed("state: prescaler beyond its limit");
    let counts: Vec<u8> = printed.states.iter().map(|s| s.regs[0x13]).collect();
    assert_eq!(counts, [1, 1, 0]);
    assert_eq!(printed.states[0].prescaler, 0);
    assert_eq!(printed.last().regs[0x0F] & 0x10, 0x10);
}

#[test]
fn a_long_prescaler_can_stand_still() {
    let printed = printed("state: prescaler beyond its limit, standing still");
    for chip in &printed.states {
        assert_eq!((chip.regs[0x13], chip.prescaler), (2, 100));
    }
}

#[test]
fn a_long_second_ends_at_once() {
    for (name, owed) in [
        ("beyond a plain second", (0x01, 0)),
        ("beyond a short second", (0x01, 0)),
        ("within a long second", (0x00, 32_801)),
    ] {
        let printed = printed(&format!("state: second counter {name}"));
        let chip = printed.last();
        assert_eq!((chip.regs[0x00], chip.second_counter), owed, "{name}");
    }
}

/// The marks and pointers of the ages are there before their last pulse.
#[test]
fn aged_states_are_open() {
    let aged = items().into_iter().filter(|i| i.name().contains("age 163"));
    let stages: Vec<Stage> = aged
        .map(|item| match state_of(&item).phase {
            Phase::Open {
                stage,
                saw_ctr1: true,
                ..
            } => stage,
            other => panic!("{other:?}"),
        })
        .collect();
    assert_eq!(stages, STAGES.map(|stage| [stage; 3]).concat());
}
