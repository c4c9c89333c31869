//! The countdown and its prescaler.

use crate::registers::{COUNTDOWN, CTR1, CTR2, CTR3, INTDE, INTDF};
use crate::{Chip, Reading};

/// Pulses from tick to tick, by bits 5 and 4 of CTR3.
#[inline]
pub fn tick_length(ctr3: u8) -> u32 {
    match ctr3 >> 4 & 3 {
        0 => 8,
        1 => 512,
        2 => 32_768,
        _ => 1_966_080,
    }
}

impl Chip {
    /// Counts one pulse if the countdown is enabled; else all stands still.
    #[inline]
    pub(crate) fn run_countdown(&mut self) {
        if self.regs[CTR2] & INTDE == 0 {
            return;
        }
        self.prescaler += 1;
        let length = tick_length(self.regs[CTR3]);
        if self.prescaler >= length {
            self.end_prescaling(length);
        }
    }

    /// Starts over with a tick, also from beyond the length.
    fn end_prescaling(&mut self, length: u32) {
        let beyond = self.prescaler - length;
        self.prescaler = match self.manner.reading {
            Reading::TickOnlyAtLength if beyond > 0 => return,
            Reading::TickKeepsRest => beyond,
            _ => 0,
        };
        if length != 32_768 || !self.reads(Reading::SecondsSourceIsClock) {
            self.tick();
        }
    }

    /// At zero a tick only reloads; elsewhere it takes one off.
    pub(crate) fn tick(&mut self) {
        if self.regs[COUNTDOWN] == 0 {
            if self.reads(Reading::ReloadZeroFires) && self.reload == 0 {
                self.reach_zero();
            }
            if !self.reads(Reading::CountsOnce) {
                self.regs[COUNTDOWN] = self.reload;
            }
            return;
        }
        self.regs[COUNTDOWN] -= 1;
        if self.regs[COUNTDOWN] == 0 {
            self.reach_zero();
        }
    }

    fn reach_zero(&mut self) {
        self.countdown_pulse = self.new_pulse(INTDF, self.countdown_pulse);
        self.regs[CTR1] |= INTDF;
        if self.reads(Reading::PeriodOfN) {
            self.regs[COUNTDOWN] = self.reload;
        }
    }
}
