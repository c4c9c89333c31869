//! Each bound of a well-formed state: the state at it, and what is beyond.

use super::{changed, AUTO_RESET};
use crate::script::Script;
use reference::{Chip, Phase, Stage, STATE_BYTES};

type FromState = Script<STATE_BYTES>;

pub fn scripts() -> Vec<FromState> {
    [
        fixed_bits(),
        vec![all_other_bits().named("state: all bits but the fixed ones")],
        numbers(),
        ages(),
        lock_bits(),
        orders(),
    ]
    .concat()
}

/// The fixed bits of each register. 0Fh is left out: the compared program's
/// state holds the named bits of it alone, so no other can be handed in.
pub const FIXED: [(usize, u8); 15] = [
    (0x00, 0b1000_0000),
    (0x01, 0b1000_0000),
    (0x02, 0b0100_0000),
    (0x03, 0b1111_1000),
    (0x04, 0b1100_0000),
    (0x05, 0b1110_0000),
    (0x07, 0b1000_0000),
    (0x08, 0b1000_0000),
    (0x09, 0b1100_0000),
    (0x0A, 0b1000_0000),
    (0x0B, 0b1100_0000),
    (0x0C, 0b1110_0000),
    (0x0E, 0b1000_0000),
    (0x11, 0b0100_0000),
    (0x12, 0b1000_0000),
];

/// Each fixed bit alone, in its register and in the latched byte of it.
fn fixed_bits() -> Vec<FromState> {
    let mut scripts = Vec::new();
    for (at, bits) in FIXED {
        for bit in (0..8).filter(|bit| bits >> bit & 1 != 0) {
            let script = changed(|chip| chip.regs[at] |= 1 << bit).pulses(1);
            scripts.push(script.named(&format!("state refused: bit {bit} of {at:02X}h")));
            if at < 7 {
                let script = changed(|chip| chip.latch[at] |= 1 << bit).pulses(1);
                scripts
                    .push(script.named(&format!("state refused: bit {bit} of latched {at:02X}h")));
            }
        }
    }
    scripts
}

/// In the registers and in the latched bytes.
fn all_other_bits() -> FromState {
    let fixed = |at: usize| FIXED.iter().find(|(register, _)| *register == at);
    let others = |at: usize| fixed(at).map_or(0xFF, |(_, bits)| !bits);
    changed(|chip| {
        chip.regs = std::array::from_fn(others);
        chip.regs[0x0F] = 0b1011_0101;
        chip.latch = std::array::from_fn(others);
        chip.reload = 0xFF;
    })
    .pulses(1)
}

/// A number of the state, how it is set, and the most it can be.
type Number = (&'static str, fn(&mut Chip, u32), u32);

pub const NUMBERS: [Number; 7] = [
    ("pointer", |chip, n| chip.pointer = n as u8, 31),
    ("second counter", |chip, n| chip.second_counter = n, 32_891),
    ("count", |chip, n| count_under_reload(chip, n as u8), 7),
    ("divider", |chip, n| chip.divider = n, 524_287),
    ("prescaler", |chip, n| chip.prescaler = n, 1_966_079),
    (
        "alarm's pin pulse",
        |chip, n| chip.alarm_pulse = n as u16,
        8_192,
    ),
    (
        "countdown's pin pulse",
        |chip, n| chip.countdown_pulse = n as u16,
        8_192,
    ),
];

fn count_under_reload(chip: &mut Chip, count: u8) {
    chip.regs[0x13] = count;
    chip.reload = 7;
}

fn numbers() -> Vec<FromState> {
    let mut scripts = Vec::new();
    for (name, set, most) in NUMBERS {
        let at = changed(|chip| set(chip, most)).pulses(1);
        let beyond = changed(|chip| set(chip, most + 1)).pulses(1);
        scripts.push(at.named(&format!("state: {name} {most}")));
        scripts.push(beyond.named(&format!("state refused: {name} {}", most + 1)));
    }
    scripts
}

pub const STAGES: [Stage; 5] = [
    Stage::Address,
    Stage::Pointer,
    Stage::Writing,
    Stage::Reading,
    Stage::Deaf,
];

/// INTAF and INTDF.
const BOTH_FLAGS: u8 = 0x30;

/// Where a transfer closes, and one beyond: a bound that is forgotten lets in
/// both, one that is a pulse too high only the first.
const TOO_OLD: [u16; 2] = [16_384, 16_385];

/// The pointer and the mark of 0Fh are set too: both go with the transfer. With
/// ARST a STOP would clear the flags; the time-out must leave them.
fn aged(stage: Stage, age: u16) -> FromState {
    changed(|chip| {
        chip.regs[0x0F] |= BOTH_FLAGS;
        chip.regs[0x11] = AUTO_RESET;
        chip.pointer = 0x14;
        chip.phase = Phase::Open {
            stage,
            age,
            saw_ctr1: true,
        }
    })
}

fn ages() -> Vec<FromState> {
    let mut scripts = Vec::new();
    for stage in STAGES {
        let name = |what: &str| format!("state{what} {stage:?}").to_lowercase();
        let at = aged(stage, 16_383).pulses(1);
        scripts.push(at.named(&name(": age 16383,")));
        for age in TOO_OLD {
            let beyond = aged(stage, age).stop();
            scripts.push(beyond.named(&name(&format!(" refused: age {age},"))));
        }
    }
    scripts
}

/// 0Fh, 10h, and whether they may stand so.
pub const LOCKS: [(u8, u8, bool); 6] = [
    (0x05, 0x80, true),
    (0x81, 0x80, true),
    (0x01, 0x80, true),
    (0x05, 0x7F, false),
    (0x81, 0x7F, false),
    (0x85, 0x7F, false),
];

fn lock_bits() -> Vec<FromState> {
    let one = |(ctr1, ctr2, good): (u8, u8, bool)| {
        let refused = if good { "" } else { " refused" };
        let script = changed(|chip| {
            chip.regs[0x0F] = ctr1;
            chip.regs[0x10] = ctr2;
        });
        script
            .store(0x14, &[0x5A])
            .named(&format!("state{refused}: 0Fh {ctr1:02X}h, 10h {ctr2:02X}h"))
    };
    LOCKS.map(one).to_vec()
}

/// Events that have two faults or one, on a bad state and on a good one.
fn orders() -> Vec<FromState> {
    let faults = |script: FromState| {
        script
            .event(7, 1, 1)
            .event(255, 0, 0)
            .event(5, 0, 0)
            .event(0, 1, 0)
            .event(0, 0, 0)
    };
    vec![
        faults(changed(|chip| chip.pointer = 32)).named("state refused: 1 before 2 and 3"),
        faults(changed(|_| {})).named("state: 2 before 3"),
        changed(|chip| chip.pointer = 255)
            .stop()
            .power_loss()
            .named("state refused: no event helps"),
    ]
}
