//! The whole chip: its state, power, events and the order of work in a pulse.

use crate::bus::Phase;
use crate::registers::{any_fixed_bit, CTR1, RAM, RTCF};
use crate::{Manner, Reading};

/// Seven time bytes and twelve bytes of RAM.
pub const START_BYTES: usize = 19;

#[derive(Clone, Debug, PartialEq, Eq)]
pub struct Chip {
    /// Live registers; 13h holds the running count.
    pub regs: [u8; 32],
    /// Pulses since the present second began.
    pub second_counter: u32,
    /// Free-running divider for the frequency output.
    pub divider: u32,
    /// Pulses since the last countdown tick.
    pub prescaler: u32,
    /// What the count starts from again.
    pub reload: u8,
    /// Pulses for which an alarm still holds the pin.
    pub alarm_pulse: u16,
    /// Pulses for which a countdown zero still holds the pin.
    pub countdown_pulse: u16,
    /// The time as taken for reading.
    pub latch: [u8; 7],
    pub pointer: u8,
    pub phase: Phase,
    /// How it takes the rules; not a part of the state.
    pub manner: Manner,
}

/// What one event answers.
#[derive(Clone, Copy, Debug, PartialEq, Eq)]
pub enum Answer {
    None,
    Ack,
    Nak,
    Byte(u8),
}

impl Answer {
    /// The two characters that stand for the answer in a script's output.
    pub fn text(self) -> [u8; 2] {
        const DIGITS: &[u8; 16] = b"0123456789ABCDEF";
        match self {
            Answer::None => *b"--",
            Answer::Ack => *b"AK",
            Answer::Nak => *b"NK",
            Answer::Byte(b) => [DIGITS[usize::from(b >> 4)], DIGITS[usize::from(b & 15)]],
        }
    }
}

impl Chip {
    /// Power comes up with the given time and RAM.
    /// Refused with 5 for a wrong count, then 6 for a fixed bit in the time.
    pub fn power_on(bytes: &[u8]) -> Result<Chip, u8> {
        Chip::power_on_reading(bytes, Reading::Right)
    }

    /// The same for a chip that takes the rules in its own way.
    pub fn power_on_reading(bytes: &[u8], reading: Reading) -> Result<Chip, u8> {
        if bytes.len() != START_BYTES {
            return Err(5);
        }
        let (time, ram) = bytes.split_at(7);
        let chip = Chip::fresh(time, ram, reading);
        let refused = match reading {
            Reading::AllStartBytesJudged => any_fixed_bit(bytes),
            Reading::StartBitsUnjudged => false,
            Reading::IllegalStartRefused => any_fixed_bit(time) || !chip.time_is_legal(),
            _ => any_fixed_bit(time),
        };
        if refused {
            return Err(6);
        }
        Ok(chip)
    }

    /// Powered up with zero bytes, as it is handed back with a refusal.
    pub fn of_zeros(reading: Reading) -> Chip {
        let mut chip = Chip::fresh(&[0; 7], &[0; START_BYTES - 7], reading);
        if reading == Reading::RefusedStateZero {
            chip.regs[CTR1] = 0;
        }
        chip
    }

    /// The state after power returned: only time and RAM hold something.
    fn fresh(time: &[u8], ram: &[u8], reading: Reading) -> Chip {
        let mut regs = [0; 32];
        regs[..7].copy_from_slice(time);
        regs[RAM..].copy_from_slice(ram);
        regs[CTR1] = RTCF;
        Chip {
            regs,
            second_counter: 0,
            divider: 0,
            prescaler: 0,
            reload: 0,
            alarm_pulse: 0,
            countdown_pulse: 0,
            latch: [0; 7],
            pointer: 0,
            phase: Phase::Closed,
            manner: Manner::from(reading),
        }
    }

    /// All registers as they live now.
    pub fn registers(&self) -> [u8; 32] {
        self.regs
    }

    /// One event. A refused one (2, then 3) changes nothing.
    pub fn step(&mut self, kind: u8, byte: u8, count: u16) -> Result<Answer, u8> {
        check_as_read(kind, byte, count, self.manner.reading)?;
        Ok(match kind {
            0 => self.start(),
            1 => self.stop(),
            2 => self.master_byte(byte),
            3 => self.read(false),
            4 => self.read(true),
            5 => self.pulses(count),
            _ => self.lose_power(),
        })
    }

    fn pulses(&mut self, count: u16) -> Answer {
        for _ in 0..count {
            self.pulse();
        }
        Answer::None
    }

    /// One crystal pulse, its stages in their fixed order.
    #[inline]
    fn pulse(&mut self) {
        self.age_transfer();
        self.run_divider();
        self.run_pin_pulses();
        self.run_countdown();
        if self.second_ends() {
            self.end_second();
        }
    }

    /// The time advances, and the alarm is judged by it and by the time just
    /// before.
    fn end_second(&mut self) {
        let before = self.clone();
        self.advance_time();
        self.judge_alarm(&before);
        self.stray_after_second(&before);
    }

    fn lose_power(&mut self) -> Answer {
        let before = self.clone();
        let (time, ram) = (&before.regs[..7], &before.regs[RAM..]);
        *self = Chip::fresh(time, ram, before.manner.reading);
        self.stray_after_power_loss(&before);
        Answer::None
    }
}

/// An event's refusal by itself: 2 for the kind, then 3 for the fields.
pub fn check_event(kind: u8, byte: u8, count: u16) -> Result<(), u8> {
    check_as_read(kind, byte, count, Reading::Right)
}

pub(crate) fn check_as_read(kind: u8, byte: u8, count: u16, reading: Reading) -> Result<(), u8> {
    let fields_fit = match (kind, reading) {
        (0..=6, Reading::FieldsUnjudged) => true,
        (2, Reading::ZeroByteRefused) => byte != 0 && count == 0,
        (2, _) => count == 0,
        (5, Reading::NoPulsesFine) => byte == 0,
        (5, _) => byte == 0 && count != 0,
        (0..=6, _) => byte == 0 && count == 0,
        (_, Reading::FieldsBeforeKind) if byte != 0 || count != 0 => false,
        _ => return Err(2),
    };
    if fields_fit {
        Ok(())
    } else {
        Err(3)
    }
}
