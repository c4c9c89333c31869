//! Where wrong readings need more than a line: what they undo or add after a
//! write, a loss of power, a START or a read.

use crate::bus::{Phase, Stage};
use crate::registers::{
    ALARM_ENABLE, ALARM_SECONDS, ALARM_YEAR, COUNTDOWN, CTR1, CTR2, CTR3, INTAE, INTAF, INTDE,
    INTDF, MINUTES, RAM, RTCF, SECONDS, TRIM, USED, YEAR,
};
use crate::{Chip, Reading};

/// The alarm's time and its enable bits.
const ALARM: std::ops::RangeInclusive<usize> = 0x07..=0x0E;

impl Chip {
    #[inline]
    pub(crate) fn reads(&self, reading: Reading) -> bool {
        self.manner.reading == reading
    }

    /// After a data byte; `before` is the chip as it was.
    pub(crate) fn stray_after_write(&mut self, before: &Chip, at: usize, byte: u8) {
        match (before.lock_open(), self.lock_open()) {
            (true, true) => self.stray_after_store(before, at, byte),
            _ => self.stray_after_locked(at, byte),
        }
    }

    fn stray_after_store(&mut self, before: &Chip, at: usize, byte: u8) {
        match at {
            CTR1 => self.stray_after_flags(before, byte),
            CTR2 => self.stray_after_controls(before),
            ..=YEAR => self.stray_after_time(before, at),
            ALARM_SECONDS..=ALARM_YEAR => self.stray_after_alarm(),
            ALARM_ENABLE => self.stray_after_enable(before),
            CTR3 => self.stray_after_source(before),
            COUNTDOWN => self.stray_after_count(before),
            _ => {}
        }
        match self.manner.reading {
            Reading::FixedBitsStored => {
                self.regs[at] = self.regs[at] & USED[at] | byte & !USED[at];
            }
            Reading::PowerFlagClearsAtWrite => self.regs[CTR1] &= !RTCF,
            Reading::AlarmOnWrite => self.judge_alarm(before),
            _ => {}
        }
    }

    fn stray_after_flags(&mut self, before: &Chip, byte: u8) {
        let flags = INTAF | INTDF;
        self.regs[CTR1] = match self.manner.reading {
            Reading::FlagWrittenOneSets => self.regs[CTR1] | byte & flags,
            Reading::FlagWrittenOneClears => before.regs[CTR1] & !(byte & flags),
            Reading::PowerFlagWritable => self.regs[CTR1] & (byte | !RTCF),
            Reading::ClearedFlagEndsPulse => {
                return self.end_pulses(byte & INTAF == 0, byte & INTDF == 0);
            }
            _ => return,
        };
    }

    /// Ends the pin's pulses: the alarm's, the countdown's or both.
    pub(crate) fn end_pulses(&mut self, alarm: bool, countdown: bool) {
        if alarm {
            self.alarm_pulse = 0;
        }
        if countdown {
            self.countdown_pulse = 0;
        }
    }

    fn stray_after_controls(&mut self, before: &Chip) {
        let was_on = before.regs[CTR2] & INTDE != 0;
        let is_on = self.regs[CTR2] & INTDE != 0;
        match self.manner.reading {
            Reading::OffClearsPrescaler if !is_on => self.prescaler = 0,
            Reading::OnClearsPrescaler if is_on && !was_on => self.prescaler = 0,
            Reading::OffLoads if !is_on => self.regs[COUNTDOWN] = self.reload,
            Reading::EnableEndsPulse => {
                self.end_pulses(self.regs[CTR2] & INTAE == 0, !is_on);
            }
            Reading::OnLoads if is_on && !was_on => self.regs[COUNTDOWN] = self.reload,
            _ => {}
        }
    }

    fn stray_after_time(&mut self, before: &Chip, at: usize) {
        let same = self.regs[at] == before.regs[at];
        match (self.manner.reading, at) {
            (Reading::SecondsKeepCounter, _) => self.second_counter = before.second_counter,
            (Reading::SameSecondsKeepCounter, _) if same => {
                self.second_counter = before.second_counter;
            }
            (Reading::AnyTimeByteClearsCounter, MINUTES..) => self.second_counter = 0,
            (Reading::LengthFixedAtBegin, SECONDS) => self.remember_trim(),
            (Reading::SecondsClearDivider, SECONDS) => self.divider = 0,
            (Reading::SecondsClearPrescaler, SECONDS) => self.prescaler = 0,
            (Reading::TimeWriteLatched, _) => self.latch[at] = self.regs[at],
            (Reading::AlarmAfterTimeWrite, _) => self.manner.memory = 1,
            _ => {}
        }
    }

    fn stray_after_alarm(&mut self) {
        if self.reads(Reading::AlarmAfterFieldWrite) {
            self.manner.memory = 1;
        }
    }

    fn stray_after_enable(&mut self, before: &Chip) {
        match self.manner.reading {
            Reading::EnableKeepsFlag => self.regs[CTR1] = before.regs[CTR1],
            Reading::EnableClearsBothFlags => self.regs[CTR1] &= !INTDF,
            Reading::EnableCutsPulse => self.alarm_pulse = 0,
            Reading::AlarmAfterEnableWrite => self.manner.memory = 1,
            _ => {}
        }
    }

    fn stray_after_source(&mut self, before: &Chip) {
        let same = (self.regs[CTR3] ^ before.regs[CTR3]) & 0x30 == 0;
        match self.manner.reading {
            Reading::Ctr3KeepsPrescaler => self.prescaler = before.prescaler,
            Reading::SameSourceKeepsPrescaler if same => self.prescaler = before.prescaler,
            Reading::Ctr3ClearsDivider => self.divider = 0,
            _ => {}
        }
    }

    fn stray_after_count(&mut self, before: &Chip) {
        match self.manner.reading {
            Reading::CountKeepsPrescaler => self.prescaler = before.prescaler,
            Reading::CountSetsReloadOnly => self.regs[COUNTDOWN] = before.regs[COUNTDOWN],
            Reading::CountClearsFlag => self.regs[CTR1] &= !INTDF,
            _ => {}
        }
    }

    fn stray_after_locked(&mut self, at: usize, byte: u8) {
        match (self.manner.reading, at) {
            (Reading::LockedRamStored, RAM..) => self.regs[at] = byte,
            (Reading::LockedEnableClearsFlag, ALARM_ENABLE) => self.regs[CTR1] &= !INTAF,
            (Reading::LockedSecondsClearCounter, SECONDS) => self.second_counter = 0,
            _ => {}
        }
    }

    /// After a data byte that has taken the pointer to 00h.
    pub(crate) fn stray_after_write_wrap(&mut self) {
        match self.manner.reading {
            Reading::WriteWrapLatches => self.latch_time(),
            Reading::WriteWrapsToAlarm => self.pointer = 0x07,
            Reading::WriteStaysAtEnd => self.pointer = 0x1F,
            _ => {}
        }
    }

    /// After a loss of power; `before` is the chip as it was.
    pub(crate) fn stray_after_power_loss(&mut self, before: &Chip) {
        match self.manner.reading {
            Reading::PowerLossKeepsSecond => self.second_counter = before.second_counter,
            Reading::PowerLossKeepsDivider => self.divider = before.divider,
            Reading::PowerLossKeepsReload => self.reload = before.reload,
            Reading::PowerLossKeepsPrescaler => self.prescaler = before.prescaler,
            Reading::PowerLossKeepsLatch => self.latch = before.latch,
            Reading::PowerLossKeepsFlag => self.regs[CTR1] = before.regs[CTR1] & RTCF,
            Reading::PowerLossKeepsPulses => {
                self.alarm_pulse = before.alarm_pulse;
                self.countdown_pulse = before.countdown_pulse;
            }
            Reading::PowerLossKeepsTrim => self.regs[TRIM] = before.regs[TRIM],
            Reading::PowerLossKeepsAlarm => {
                self.regs[ALARM].copy_from_slice(&before.regs[ALARM]);
            }
            Reading::PowerLossKeepsTransfer => {
                self.phase = before.phase;
                self.pointer = before.pointer;
            }
            _ => {}
        }
    }

    /// For a length that is fixed from here on.
    fn remember_trim(&mut self) {
        self.manner.memory = self.regs[TRIM].into();
    }

    /// After the time has advanced; `before` is the chip as it was.
    pub(crate) fn stray_after_second(&mut self, before: &Chip) {
        let seconds_count = self.regs[CTR2] & INTDE != 0 && self.regs[CTR3] & 0x30 == 0x20;
        match self.manner.reading {
            Reading::LengthFixedAtBegin => self.remember_trim(),
            Reading::SecondsSourceIsClock if seconds_count => self.tick(),
            // What the next advance is told of this one.
            Reading::AlarmEdgeSaved => self.manner.memory = self.alarm_meets_time().into(),
            Reading::AlarmBeforeAdvance => self.manner.memory = before.alarm_meets_time().into(),
            Reading::AlarmEdgeByEnable => self.manner.memory = (self.regs[CTR2] & INTAE).into(),
            Reading::AlarmAfterTimeWrite
            | Reading::AlarmAfterFieldWrite
            | Reading::AlarmAfterEnableWrite => self.manner.memory = 0,
            _ => {}
        }
    }

    pub(crate) fn stray_after_start(&mut self) {
        let Phase::Open { age, saw_ctr1, .. } = &mut self.phase else {
            return;
        };
        match self.manner.reading {
            Reading::StartRestartsAge => *age = 0,
            Reading::MarkLostAtStart => *saw_ctr1 = false,
            Reading::StartClearsPointer => self.pointer = 0,
            Reading::LockTakenAtStart => self.manner.memory = self.lock_bits_set().into(),
            Reading::LatchedAtStart => self.latch_time(),
            // They remember what a reading phase has done so far.
            Reading::LatchedAtFirstRead
            | Reading::LiveAfterFirstByte
            | Reading::WrapLatchesLate => {
                self.manner.memory = 0;
            }
            _ => {}
        }
    }

    /// The two registers that change by themselves beside the time.
    pub(crate) fn stray_after_latching(&mut self) {
        if self.reads(Reading::AllLatched) {
            let (flags, count) = (self.regs[CTR1], self.regs[COUNTDOWN]);
            self.manner.memory = u16::from_le_bytes([flags, count]).into();
        }
    }

    /// Before a byte is read.
    pub(crate) fn stray_before_read(&mut self) {
        let again = self.manner.memory != 0;
        let latches = match self.manner.reading {
            Reading::LatchedAtFirstRead => !again,
            Reading::LiveAfterFirstByte | Reading::WrapLatchesLate => again,
            _ => return,
        };
        self.manner.memory = u32::from(!self.reads(Reading::WrapLatchesLate));
        if latches {
            self.latch_time();
        }
    }

    /// After a read in a phase that is not for reading.
    pub(crate) fn stray_after_idle_read(&mut self, last: bool) {
        match self.manner.reading {
            Reading::StrayNakDeafens if last => self.go_to(Stage::Deaf),
            Reading::StrayReadMarks if usize::from(self.pointer) == CTR1 => self.mark_ctr1(),
            Reading::StrayReadSteps if self.stage() == Some(Stage::Writing) => self.step_pointer(),
            _ => {}
        }
    }
}
