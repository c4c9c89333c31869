//! The kinds of cases, and their records with what the model expects.

use crate::file::Run;
use crate::script::Event;
use reference::{run_file, Answer, Chip, Reading, LINE_BYTES, STATE_BYTES};

pub trait Record {
    /// The record of this case, behind what is already written.
    fn write(&self, out: &mut Vec<u8>);
}

/// Start bytes, as many as there are.
#[derive(Clone, Debug, PartialEq, Eq)]
pub struct PowerOn(pub Vec<u8>);

/// Any bytes as a state; an event for it, and a register to look at.
#[derive(Clone, Debug, PartialEq, Eq)]
pub struct State {
    pub bytes: [u8; STATE_BYTES],
    pub event: Event,
    pub address: u8,
}

impl Record for PowerOn {
    fn write(&self, out: &mut Vec<u8>) {
        let PowerOn(bytes) = self;
        let (refusal, chip) = match Chip::power_on(bytes) {
            Ok(chip) => (0, chip),
            Err(number) => (number, Chip::of_zeros(Reading::Right)),
        };
        out.push(1);
        out.extend((bytes.len() as u16).to_le_bytes());
        out.extend(bytes);
        out.push(refusal);
        out.extend(chip.to_form());
    }
}

impl Record for State {
    fn write(&self, out: &mut Vec<u8>) {
        let Event { kind, byte, count } = self.event;
        let (step, after) = self.step();
        out.push(2);
        out.extend(self.bytes);
        out.extend([kind, byte]);
        out.extend(count.to_le_bytes());
        out.push(self.address);
        out.extend(step.to_le_bytes());
        out.extend(after);
        out.extend(self.pin().to_le_bytes());
        out.extend(self.register().to_le_bytes());
    }
}

/// What is told of bytes that are no state.
const NO_STATE: u32 = 1;

impl State {
    /// The chip in this state, if the rules allow it.
    pub fn chip(&self) -> Option<Chip> {
        Chip::from_form(&self.bytes).filter(Chip::well_formed)
    }

    fn step(&self) -> (u32, [u8; STATE_BYTES]) {
        let Some(mut chip) = self.chip() else {
            return (NO_STATE, self.bytes);
        };
        let Event { kind, byte, count } = self.event;
        let told = match chip.step(kind, byte, count) {
            Ok(answer) => told(0, &chip, answer),
            Err(number) => told(number, &chip, Answer::None),
        };
        (told, chip.to_form())
    }

    fn pin(&self) -> u32 {
        let chip = self.chip();
        chip.map_or(NO_STATE, |chip| told(0, &chip, Answer::None))
    }

    /// Above 1Fh there is no register, and FFh is shown.
    fn register(&self) -> u32 {
        let Some(chip) = self.chip() else {
            return NO_STATE;
        };
        let registers = chip.registers();
        let byte = registers.get(usize::from(self.address)).unwrap_or(&0xFF);
        told(0, &chip, Answer::Byte(*byte))
    }
}

/// Refusal, pin, byte and answer, from the low byte on.
fn told(refusal: u8, chip: &Chip, answer: Answer) -> u32 {
    let (answer, byte) = match answer {
        Answer::None => (0, 0),
        Answer::Ack => (1, 0),
        Answer::Nak => (2, 0),
        Answer::Byte(byte) => (3, byte),
    };
    u32::from_le_bytes([refusal, chip.pin().letter(), byte, answer])
}

impl Record for Run {
    fn write(&self, out: &mut Vec<u8>) {
        let mut output = vec![0; self.room];
        let run = run_file(&self.file, &mut output);
        let words = [usize::from(run.refusal), run.index, run.count, 0];
        out.push(3);
        for length in [self.file.len(), self.room] {
            out.extend((length as u32).to_le_bytes());
        }
        out.extend(&self.file);
        out.extend(words.iter().flat_map(|word| (*word as u16).to_le_bytes()));
        out.extend(run.chip.to_form());
        out.extend(&output[..LINE_BYTES * run.count]);
    }
}
