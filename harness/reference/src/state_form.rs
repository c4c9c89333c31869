//! A state in 61 bytes, and the step for states that come from outside.

use crate::bus::{Phase, Stage};
use crate::chip::{check_as_read, Answer};
use crate::{Chip, Reading, START_BYTES};

pub const STATE_BYTES: usize = 61;

/// The open stages in the order of their numbers, from 1 on; 0 is closed.
const STAGES: [Stage; 5] = [
    Stage::Address,
    Stage::Pointer,
    Stage::Writing,
    Stage::Reading,
    Stage::Deaf,
];

impl Chip {
    pub fn to_form(&self) -> [u8; STATE_BYTES] {
        let bytes = [
            &self.regs[..],
            &self.latch,
            &[self.reload, self.pointer],
            &phase_bytes(self.phase),
            &self.alarm_pulse.to_le_bytes(),
            &self.countdown_pulse.to_le_bytes(),
            &self.second_counter.to_le_bytes(),
            &self.divider.to_le_bytes(),
            &self.prescaler.to_le_bytes(),
        ];
        bytes.concat().try_into().expect("the sizes add up")
    }

    /// The state in these bytes, well formed or not; nothing if its phase is
    /// not written as it should be.
    pub fn from_form(bytes: &[u8; STATE_BYTES]) -> Option<Chip> {
        let mut chip = Chip::power_on(&[0; START_BYTES]).expect("zero bytes are fine");
        chip.regs.copy_from_slice(&bytes[..32]);
        chip.latch.copy_from_slice(&bytes[32..39]);
        chip.reload = bytes[39];
        chip.pointer = bytes[40];
        chip.phase = phase_in(bytes);
        chip.alarm_pulse = word(bytes, 45);
        chip.countdown_pulse = word(bytes, 47);
        chip.second_counter = long(bytes, 49);
        chip.divider = long(bytes, 53);
        chip.prescaler = long(bytes, 57);
        (chip.to_form() == *bytes).then_some(chip)
    }

    /// One event on a state that may be badly formed: then 1 goes before the
    /// refusals of the event.
    pub fn step_any(&mut self, kind: u8, byte: u8, count: u16) -> Result<Answer, u8> {
        if !self.well_formed() {
            let event = check_as_read(kind, byte, count, self.manner.reading);
            return Err(self.refuse_state(event));
        }
        self.step(kind, byte, count)
    }

    /// The state stays, and its refusal goes before that of the event.
    fn refuse_state(&mut self, event: Result<(), u8>) -> u8 {
        match (self.manner.reading, event) {
            (Reading::EventBeforeState, Err(number)) => return number,
            (Reading::KindBeforeState, Err(2)) => return 2,
            (Reading::RefusedStateLost, _) => *self = Chip::of_zeros(self.manner.reading),
            _ => {}
        }
        1
    }
}

/// The phase's number, the mark of 0Fh, and the age.
fn phase_bytes(phase: Phase) -> [u8; 4] {
    let Phase::Open {
        stage,
        age,
        saw_ctr1,
    } = phase
    else {
        return [0; 4];
    };
    let [low, high] = age.to_le_bytes();
    [stage as u8 + 1, u8::from(saw_ctr1), low, high]
}

/// A number that means no stage is taken as closed.
fn phase_in(bytes: &[u8; STATE_BYTES]) -> Phase {
    let number = usize::from(bytes[41]);
    match number.checked_sub(1).and_then(|n| STAGES.get(n)) {
        None => Phase::Closed,
        Some(stage) => Phase::Open {
            stage: *stage,
            age: word(bytes, 43),
            saw_ctr1: bytes[42] != 0,
        },
    }
}

fn word(bytes: &[u8; STATE_BYTES], at: usize) -> u16 {
    u16::from_le_bytes([bytes[at], bytes[at + 1]])
}

fn long(bytes: &[u8; STATE_BYTES], at: usize) -> u32 {
    u32::from(word(bytes, at)) | u32::from(word(bytes, at + 2)) << 16
}

#[cfg(test)]
mod tests {
    use super::*;

    /// Every field with bytes of its own.
    fn full() -> Chip {
        let mut chip = Chip::power_on(&[0; START_BYTES]).expect("zero bytes are fine");
        chip.regs = std::array::from_fn(|i| i as u8 + 1);
        chip.latch = std::array::from_fn(|i| i as u8 + 33);
        chip.reload = 40;
        chip.pointer = 41;
        chip.phase = Phase::Open {
            stage: Stage::Deaf,
            age: 0x2D2C,
            saw_ctr1: true,
        };
        chip.alarm_pulse = 0x2F2E;
        chip.countdown_pulse = 0x3130;
        chip.second_counter = 0x35343332;
        chip.divider = 0x39383736;
        chip.prescaler = 0x3D3C3B3A;
        chip
    }

    #[test]
    fn each_field_has_its_place() {
        let mut expected: [u8; STATE_BYTES] = std::array::from_fn(|i| i as u8 + 1);
        expected[41] = 5;
        expected[42] = 1;
        assert_eq!(full().to_form(), expected);
        assert_eq!(Chip::from_form(&expected), Some(full()));
    }

    #[test]
    fn each_phase_has_its_number() {
        for (number, stage) in (1..).zip(STAGES) {
            let mut chip = full();
            chip.phase = Phase::Open {
                stage,
                age: 258,
                saw_ctr1: false,
            };
            assert_eq!(chip.to_form()[41..45], [number, 0, 2, 1]);
            assert_eq!(Chip::from_form(&chip.to_form()), Some(chip));
        }
    }

    #[test]
    fn a_closed_bus_carries_nothing() {
        let mut chip = full();
        chip.phase = Phase::Closed;
        let bytes = chip.to_form();
        assert_eq!(bytes[41..45], [0; 4]);
        assert_eq!(Chip::from_form(&bytes), Some(chip));
        for at in 42..45 {
            let mut odd = bytes;
            odd[at] = 1;
            assert_eq!(Chip::from_form(&odd), None);
        }
    }

    #[test]
    fn other_phases_and_marks_are_no_state() {
        let bytes = full().to_form();
        for (at, value) in [(41, 6), (41, 255), (42, 2), (42, 255)] {
            let mut odd = bytes;
            odd[at] = value;
            assert_eq!(Chip::from_form(&odd), None);
        }
    }

    #[test]
    fn a_badly_formed_state_is_refused_first() {
        let mut chip = full();
        let before = chip.clone();
        for (kind, byte, count) in [(0, 0, 0), (5, 0, 1), (5, 0, 0), (7, 0, 0), (9, 1, 1)] {
            assert_eq!(chip.step_any(kind, byte, count), Err(1));
            assert_eq!(chip, before);
        }
    }

    #[test]
    fn a_good_state_steps_as_ever() {
        let mut chip = Chip::power_on(&[0; START_BYTES]).expect("zero bytes are fine");
        assert_eq!(chip.step_any(7, 1, 0), Err(2));
        assert_eq!(chip.step_any(5, 0, 0), Err(3));
        assert_eq!(chip.step_any(0, 0, 0), Ok(Answer::None));
        assert_eq!(chip.step_any(2, 0x65, 0), Ok(Answer::Ack));
    }
}
