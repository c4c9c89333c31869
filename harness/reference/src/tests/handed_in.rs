//! What wrong readings make of states that are handed in.

use super::host::Host;
use crate::{Chip, Phase, Reading, Stage};

fn aged(chip: &mut Chip, age: u16) {
    chip.phase = Phase::Open {
        stage: Stage::Deaf,
        age,
        saw_ctr1: false,
    };
}

fn locked_with(chip: &mut Chip, ctr1: u8, ctr2: u8) {
    chip.regs[0x0F] = ctr1;
    chip.regs[0x10] = ctr2;
}

/// A reading, and how a fresh chip is changed into a state that it judges
/// otherwise than the rules do.
type Judged = (Reading, fn(&mut Chip));

/// The rules refuse these.
const LET_IN: [Judged; 15] = [
    (Reading::RegisterBitsUnjudged, |c| c.regs[0x12] = 0x80),
    (Reading::LatchedBitsUnjudged, |c| c.latch[2] = 0x40),
    (Reading::SecondLockBitUnjudged, |c| {
        locked_with(c, 0x05, 0x7F)
    }),
    (Reading::ThirdLockBitUnjudged, |c| {
        locked_with(c, 0x81, 0x7F)
    }),
    (Reading::LockBitsRefusedAsPair, |c| {
        locked_with(c, 0x81, 0x7F)
    }),
    (Reading::PointerUnjudged, |c| c.pointer = 255),
    (Reading::AgeUnjudged, |c| aged(c, 16_385)),
    (Reading::AgeToItsLimit, |c| aged(c, 16_384)),
    (Reading::SecondCounterUnjudged, |c| {
        c.second_counter = u32::MAX
    }),
    (Reading::CountUnjudged, |c| c.regs[0x13] = 1),
    (Reading::DividerUnjudged, |c| c.divider = u32::MAX),
    (Reading::PrescalerUnjudged, |c| c.prescaler = u32::MAX),
    (Reading::AlarmPulseUnjudged, |c| c.alarm_pulse = u16::MAX),
    (Reading::CountdownPulseUnjudged, |c| {
        c.countdown_pulse = u16::MAX
    }),
    (Reading::PulseOneLong, |c| c.alarm_pulse = 8_193),
];

/// The rules let these in.
const REFUSED: [Judged; 9] = [
    (Reading::LockBitsInTurn, |c| locked_with(c, 0x81, 0x80)),
    (Reading::LockBitsTogether, |c| locked_with(c, 0x05, 0x80)),
    (Reading::ClosedPointerRefused, |c| c.pointer = 1),
    (Reading::SecondCounterUntrimmed, |c| {
        c.second_counter = 32_768
    }),
    (Reading::SecondCounterByLength, |c| {
        (c.regs[0x12], c.second_counter) = (0x42, 32_644);
    }),
    (Reading::PrescalerBySource, |c| c.prescaler = 8),
    (Reading::PulseBoundOneShort, |c| c.countdown_pulse = 8_192),
    (Reading::NoPowerFlagRefused, |c| c.regs[0x0F] = 0),
    (Reading::IllegalTimeRefused, |c| c.regs[0x00] = 0x60),
];

fn formed(change: fn(&mut Chip), reading: Reading) -> bool {
    let mut chip = Host::fresh().chip;
    change(&mut chip);
    chip.manner = reading.into();
    chip.well_formed()
}

#[test]
fn each_judges_its_own_state_otherwise() {
    for (states, rules_let_in) in [(&LET_IN[..], false), (&REFUSED, true)] {
        for (reading, change) in states {
            assert_eq!(formed(*change, Reading::Right), rules_let_in, "{reading:?}");
            assert_ne!(formed(*change, *reading), rules_let_in, "{reading:?}");
        }
    }
}

#[test]
fn the_limit_is_not_any_age() {
    assert!(!formed(|c| aged(c, 16_385), Reading::AgeToItsLimit));
}

#[test]
fn a_fresh_chip_is_fine_for_all() {
    for reading in Reading::WRONG {
        assert!(formed(|_| {}, *reading), "{reading:?}");
    }
}

/// The numbers for a bad kind with bad fields, a bad kind, bad fields and a
/// good event, on a state that is refused.
fn refusals(reading: Reading) -> [u8; 4] {
    [(7, 1, 1), (7, 0, 0), (5, 0, 0), (0, 0, 0)].map(|(kind, byte, count)| {
        let mut chip = Host::fresh().chip;
        chip.pointer = 32;
        chip.manner = reading.into();
        chip.step_any(kind, byte, count).expect_err("a bad pointer")
    })
}

#[test]
fn refusals_can_be_out_of_order() {
    assert_eq!(refusals(Reading::Right), [1, 1, 1, 1]);
    assert_eq!(refusals(Reading::KindBeforeState), [2, 2, 1, 1]);
    assert_eq!(refusals(Reading::EventBeforeState), [2, 2, 3, 1]);
}

#[test]
fn a_refused_state_can_be_lost() {
    let after = |reading: Reading| {
        let mut chip = Host::fresh().chip;
        chip.pointer = 32;
        chip.manner = reading.into();
        assert_eq!(chip.step_any(0, 0, 0), Err(1));
        chip
    };
    assert_eq!(after(Reading::Right).pointer, 32);
    let zeros = Chip::power_on(&[0; 19]).expect("zero bytes are fine");
    assert_eq!(after(Reading::RefusedStateLost), zeros);
}

/// There is no register to be read past 1Fh.
#[test]
fn a_pointer_let_in_comes_round() {
    let mut host = Host::fresh();
    host.chip.manner = Reading::PointerUnjudged.into();
    host.chip.pointer = 255;
    host.send(&[0x65]);
    assert_eq!(host.read(), 0xAB);
    assert_eq!(host.chip.pointer, 0);
}
