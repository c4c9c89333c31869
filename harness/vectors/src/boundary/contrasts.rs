//! Eight good states that differ much: in phase, lock, flags, pin and counters.

use crate::script::Script;
use reference::registers::{ALARM_ENABLE, COUNTDOWN, CTR1, TRIM};
use reference::{Chip, Phase, Stage, PIN_PULSE, STATE_BYTES};

/// The last seconds of a century, 12-hour.
const EVENING: [u8; 7] = [0x58, 0x59, 0x31, 0x06, 0x31, 0x12, 0x99];

pub fn contrasts() -> [[u8; STATE_BYTES]; 8] {
    let changes = [
        fresh, full, address, pointer, writing, locked, reading, deaf,
    ];
    changes.map(|change| Script::handed_in(EVENING, change).start_bytes)
}

fn open(chip: &mut Chip, stage: Stage, age: u16, saw_ctr1: bool) {
    chip.phase = Phase::Open {
        stage,
        age,
        saw_ctr1,
    };
}

/// CTR1 to CTR3.
fn control(chip: &mut Chip, bytes: [u8; 3]) {
    chip.regs[CTR1..][..3].copy_from_slice(&bytes);
}

fn fresh(_: &mut Chip) {}

/// Closed and unlocked, the pin by the countdown's pulse, every counter at its
/// bound.
fn full(chip: &mut Chip) {
    control(chip, [0xB5, 0xF7, 0xB0]);
    (chip.regs[COUNTDOWN], chip.reload, chip.pointer) = (0xFF, 0xFF, 31);
    (chip.alarm_pulse, chip.countdown_pulse) = (PIN_PULSE, PIN_PULSE);
    (chip.second_counter, chip.divider, chip.prescaler) = (32_891, 524_287, 1_966_079);
}

/// Low by the alarm's flag.
fn address(chip: &mut Chip) {
    control(chip, [0x21, 0x92, 0x00]);
    chip.regs[ALARM_ENABLE] = 0x7F;
    open(chip, Stage::Address, 0, false);
}

/// A pulse before its end, with one lock bit set.
fn pointer(chip: &mut Chip) {
    control(chip, [0x11, 0xB4, 0x80]);
    (chip.regs[COUNTDOWN], chip.reload, chip.prescaler) = (1, 2, 7);
    open(chip, Stage::Pointer, 16_383, true);
}

/// Unlocked at 1Fh, the pin by a frequency.
fn writing(chip: &mut Chip) {
    control(chip, [0x84, 0xA1, 0x02]);
    (chip.pointer, chip.divider, chip.second_counter) = (0x1F, 3, 32_767);
    open(chip, Stage::Writing, 255, false);
}

/// Locked at 10h: its byte can open the way to the lock.
fn locked(chip: &mut Chip) {
    (chip.pointer, chip.alarm_pulse) = (0x10, 256);
    open(chip, Stage::Writing, 256, true);
}

/// At 0Fh, where a read marks the transfer; the pin follows the crystal.
fn reading(chip: &mut Chip) {
    control(chip, [0xB5, 0xA1, 0x81]);
    (chip.regs[TRIM], chip.pointer) = (0x42, 0x0F);
    chip.latch = [0x57, 0x59, 0xA3, 0x05, 0x30, 0x11, 0x98];
    open(chip, Stage::Reading, 16_000, false);
}

/// Low for the first half of a second, and with ARST and the mark for a STOP.
fn deaf(chip: &mut Chip) {
    control(chip, [0x31, 0x21, 0x8F]);
    (chip.second_counter, chip.countdown_pulse) = (16_383, 1);
    open(chip, Stage::Deaf, 1, true);
}
