//! When a state is well formed.

use crate::bus::{Phase, AGE_LIMIT};
use crate::countdown::tick_length;
use crate::pin::PIN_PULSE;
use crate::registers::{any_fixed_bit, COUNTDOWN, CTR1, CTR2, CTR3, RTCF, WRTC1, WRTC2, WRTC3};
use crate::{Chip, Reading};

/// The numbers of a state that have an upper bound.
#[derive(Clone, Copy)]
enum Number {
    Pointer,
    Age,
    SecondCounter,
    Count,
    Divider,
    Prescaler,
    AlarmPulse,
    CountdownPulse,
}

const NUMBERS: [Number; 8] = [
    Number::Pointer,
    Number::Age,
    Number::SecondCounter,
    Number::Count,
    Number::Divider,
    Number::Prescaler,
    Number::AlarmPulse,
    Number::CountdownPulse,
];

impl Chip {
    pub fn well_formed(&self) -> bool {
        self.bits_fit()
            && self.lock_bits_fit()
            && NUMBERS.iter().all(|n| self.value(*n) <= self.most(*n))
            && self.fits_also()
    }

    /// No fixed bit is set in a register or in a latched byte.
    fn bits_fit(&self) -> bool {
        let registers_fit = !any_fixed_bit(&self.regs);
        let latch_fits = !any_fixed_bit(&self.latch);
        match self.manner.reading {
            Reading::RegisterBitsUnjudged => latch_fits,
            Reading::LatchedBitsUnjudged => registers_fit,
            // They come to such states by themselves.
            Reading::StartBitsUnjudged | Reading::IllegalStepsOn | Reading::FixedBitsStored => true,
            _ => registers_fit && latch_fits,
        }
    }

    /// The later lock bits never stand without the first.
    fn lock_bits_fit(&self) -> bool {
        let first = self.regs[CTR2] & WRTC1 != 0;
        let second = self.regs[CTR1] & WRTC2 != 0;
        let third = self.regs[CTR1] & WRTC3 != 0;
        match self.manner.reading {
            Reading::SecondLockBitUnjudged => first || !third,
            Reading::ThirdLockBitUnjudged => first || !second,
            Reading::LockBitsRefusedAsPair => first || !(second && third),
            Reading::LockBitsInTurn => (first || !second) && (second || !third),
            Reading::LockBitsTogether => first == second && second == third,
            // They come to such states by themselves.
            Reading::LockBitsInAnyOrder | Reading::FirstLockBitAlone => true,
            _ => first || !(second || third),
        }
    }

    fn value(&self, number: Number) -> u32 {
        match number {
            Number::Pointer => self.pointer.into(),
            Number::Age => self.age().into(),
            Number::SecondCounter => self.second_counter,
            Number::Count => self.regs[COUNTDOWN].into(),
            Number::Divider => self.divider,
            Number::Prescaler => self.prescaler,
            Number::AlarmPulse => self.alarm_pulse.into(),
            Number::CountdownPulse => self.countdown_pulse.into(),
        }
    }

    /// A closed bus has none, and so nothing to be judged.
    fn age(&self) -> u16 {
        match self.phase {
            Phase::Closed => 0,
            Phase::Open { age, .. } => age,
        }
    }

    /// The bound of a number.
    fn most(&self, number: Number) -> u32 {
        let reading = self.manner.reading;
        let (most, unjudged) = match number {
            Number::Pointer => (31, Reading::PointerUnjudged),
            Number::Age => (u32::from(AGE_LIMIT) - 1, Reading::AgeUnjudged),
            Number::SecondCounter => (32_891, Reading::SecondCounterUnjudged),
            Number::Count => (self.reload.into(), Reading::CountUnjudged),
            Number::Divider => (524_287, Reading::DividerUnjudged),
            Number::Prescaler => (1_966_079, Reading::PrescalerUnjudged),
            Number::AlarmPulse => (PIN_PULSE.into(), Reading::AlarmPulseUnjudged),
            Number::CountdownPulse => (PIN_PULSE.into(), Reading::CountdownPulseUnjudged),
        };
        if reading == unjudged {
            return u32::MAX;
        }
        self.stray_most(number).unwrap_or(most)
    }

    /// Other bounds: of readings that are wrong about them, and of those that
    /// come to such states by themselves.
    fn stray_most(&self, number: Number) -> Option<u32> {
        Some(match (number, self.manner.reading) {
            (Number::Age, Reading::AgeToItsLimit | Reading::TimeOutLate) => AGE_LIMIT.into(),
            (Number::SecondCounter, Reading::SecondCounterUntrimmed) => 32_767,
            (Number::SecondCounter, Reading::SecondCounterByLength) => self.present_length() - 1,
            (Number::SecondCounter, Reading::EndOnlyAtLength) => u32::MAX,
            (Number::Count, Reading::CountSetsReloadOnly) => u32::MAX,
            (Number::Prescaler, Reading::PrescalerBySource) => tick_length(self.regs[CTR3]) - 1,
            (Number::Prescaler, Reading::TickOnlyAtLength) => u32::MAX,
            (Number::AlarmPulse | Number::CountdownPulse, reading) => match reading {
                Reading::PulseBoundOneShort => u32::from(PIN_PULSE) - 1,
                Reading::PulseOneLong => u32::from(PIN_PULSE) + 1,
                _ => return None,
            },
            _ => return None,
        })
    }

    /// Further conditions that only wrong readings know.
    fn fits_also(&self) -> bool {
        match self.manner.reading {
            Reading::ClosedPointerRefused => self.phase != Phase::Closed || self.pointer == 0,
            Reading::NoPowerFlagRefused => self.regs[CTR1] & RTCF != 0,
            Reading::IllegalTimeRefused => self.time_is_legal(),
            _ => true,
        }
    }
}
