//! The INT pin, the counters behind its pulses, and the free divider.

use crate::countdown::tick_length;
use crate::registers::{CTR1, CTR2, CTR3, FOBAT, IM, INTAE, INTAF, INTDE, INTDF, INTFE};
use crate::{Chip, Reading};

/// How long an alarm or a countdown zero holds the pin in pulse mode.
pub const PIN_PULSE: u16 = 8_192;

/// The divider starts over after this many pulses.
const DIVIDER_SPAN: u32 = 524_288;

/// Periods of the frequency output for FS 2 to 14.
const PERIODS: [u32; 13] = [
    8, 32, 512, 1_024, 2_048, 4_096, 8_192, 16_384, 32_768, 65_536, 131_072, 262_144, 524_288,
];

#[derive(Clone, Copy, Debug, PartialEq, Eq)]
pub enum Pin {
    H,
    L,
    /// Follows the crystal.
    X,
}

impl Pin {
    pub fn letter(self) -> u8 {
        match self {
            Pin::H => b'H',
            Pin::L => b'L',
            Pin::X => b'X',
        }
    }

    fn low_if(low: bool) -> Pin {
        if low {
            Pin::L
        } else {
            Pin::H
        }
    }
}

impl Chip {
    #[inline]
    pub(crate) fn run_divider(&mut self) {
        self.divider += 1;
        if self.divider == DIVIDER_SPAN {
            self.divider = 0;
        }
    }

    #[inline]
    pub(crate) fn run_pin_pulses(&mut self) {
        self.alarm_pulse = self.alarm_pulse.saturating_sub(1);
        self.countdown_pulse = self.countdown_pulse.saturating_sub(1);
    }

    /// The counter after an alarm or a zero, of which this much was left.
    pub(crate) fn new_pulse(&self, flag: u8, left: u16) -> u16 {
        let period = (u32::from(self.reload) + 1) * tick_length(self.regs[CTR3]);
        match self.manner.reading {
            Reading::PulseOneShort => PIN_PULSE - 1,
            Reading::PulseOneLong => PIN_PULSE + 1,
            Reading::PulseNeedsSource if !self.shows(flag) => left,
            Reading::PulseNeedsPulseMode if self.regs[CTR2] & IM == 0 => left,
            Reading::PulseNeedsClearFlag if self.regs[CTR1] & flag != 0 => left,
            Reading::PulseNeedsLongPeriod if flag == INTDF && period <= PIN_PULSE.into() => left,
            _ => PIN_PULSE,
        }
    }

    /// Is the pin's source the one with this flag?
    fn shows(&self, flag: u8) -> bool {
        let source = if flag == INTAF { 1 } else { 3 };
        self.pin_source() == source
    }

    /// The level as it stands now.
    pub fn pin(&self) -> Pin {
        match self.pin_source() {
            0 => Pin::H,
            1 => self.event_pin(INTAF, INTAE, self.alarm_pulse),
            2 => self.frequency_pin(),
            _ => self.event_pin(INTDF, INTDE, self.countdown_pulse),
        }
    }

    fn pin_source(&self) -> u8 {
        let held_high = self.regs[CTR2] & FOBAT != 0;
        match (self.manner.reading, self.regs[CTR2] >> 4 & 3) {
            (Reading::FobatHoldsPin, _) if held_high => 0,
            (Reading::SourceBitsTurned, source @ (1 | 2)) => 3 - source,
            (_, source) => source,
        }
    }

    /// Pulse mode looks at the enable and the pulse, level mode at the flag.
    fn event_pin(&self, flag: u8, enable: u8, pulse: u16) -> Pin {
        let flagged = self.regs[CTR1] & flag != 0;
        let enabled = self.regs[CTR2] & enable != 0;
        let pulsing = pulse > 0;
        let level_mode = self.regs[CTR2] & IM == 0;
        Pin::low_if(match self.manner.reading {
            Reading::EnableCutsLevel if level_mode => flagged && enabled,
            Reading::FlagCutsPulse if !level_mode => flagged && enabled && pulsing,
            Reading::PulseWithoutEnable if !level_mode => pulsing,
            _ if level_mode => flagged,
            _ => enabled && pulsing,
        })
    }

    fn frequency_pin(&self) -> Pin {
        if self.regs[CTR2] & INTFE == 0 && !self.reads(Reading::FrequencyWithoutEnable) {
            return Pin::H;
        }
        match self.regs[CTR3] & 15 {
            0 => Pin::H,
            1 => Pin::X,
            15 => Pin::low_if(self.first_half_of_second()),
            fs => Pin::low_if(self.first_half_of(PERIODS[usize::from(fs) - 2])),
        }
    }

    fn first_half_of_second(&self) -> bool {
        match self.manner.reading {
            Reading::OneHertzByDivider => self.first_half_of(32_768),
            Reading::OneHertzHalvesSecond => self.second_counter < self.present_length() / 2,
            _ => self.second_counter < 16_384,
        }
    }

    fn first_half_of(&self, period: u32) -> bool {
        let half = period / 2;
        match self.manner.reading {
            Reading::FrequencyHighFirst => self.divider % period >= half,
            Reading::FrequencyOneLate => (self.divider + period - 1) % period < half,
            _ => self.divider % period < half,
        }
    }
}
