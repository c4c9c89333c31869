//! The alarm, judged only when the time has just advanced: it rings where a match
//! begins.

use crate::registers::{
    ALARM_DAY, ALARM_ENABLE, ALARM_HOURS, ALARM_MINUTES, ALARM_MONTH, ALARM_SECONDS,
    ALARM_WEEKDAYS, ALARM_YEAR, CTR1, CTR2, DAY, HOURS, INTAE, INTAF, MINUTES, MONTH, SECONDS,
    WEEKDAY, YEAR,
};
use crate::{Chip, Reading};

impl Chip {
    /// Rings if the alarm is on and its match begins; `before` is the chip just
    /// before the time advanced.
    pub(crate) fn judge_alarm(&mut self, before: &Chip) {
        let on = self.regs[CTR2] & INTAE != 0 || self.reads(Reading::AlarmWhileOff);
        let any = self.regs[ALARM_ENABLE] != 0;
        let judged = !self.reads(Reading::AlarmNeedsLegalTime) || self.time_is_legal();
        if on && any && judged {
            self.ring(before);
        }
    }

    /// Flag and pin pulse come together, where a match begins.
    fn ring(&mut self, before: &Chip) {
        let (met, meets) = (self.alarm_met(before), self.alarm_meets_now(before));
        let begins = meets && !met;
        let (flag, pulse) = match self.manner.reading {
            Reading::AlarmEverySecond => (meets, meets),
            Reading::AlarmPulseEveryMatch => (begins, meets),
            Reading::AlarmFlagEveryMatch => (meets, begins),
            Reading::AlarmAtMatchEnd => (met && !meets, met && !meets),
            _ => (begins, begins),
        };
        if pulse {
            self.alarm_pulse = self.new_pulse(INTAF, self.alarm_pulse);
        }
        if flag {
            self.regs[CTR1] |= INTAF;
        }
    }

    /// Do the enabled fields match after the advance?
    fn alarm_meets_now(&self, before: &Chip) -> bool {
        match self.manner.reading {
            Reading::AlarmBeforeAdvance => before.alarm_meets_time(),
            _ => self.alarm_meets_time(),
        }
    }

    /// Did they match just before it, with the alarm as it stands now?
    fn alarm_met(&self, before: &Chip) -> bool {
        let met = before.alarm_meets_time();
        let remembered = self.manner.memory != 0;
        match self.manner.reading {
            Reading::AlarmEdgeSaved | Reading::AlarmBeforeAdvance => remembered,
            Reading::AlarmEdgeByFlag => self.regs[CTR1] & INTAF != 0,
            Reading::AlarmEdgeByEnable => met && remembered,
            Reading::AlarmAfterTimeWrite
            | Reading::AlarmAfterFieldWrite
            | Reading::AlarmAfterEnableWrite => met && !remembered,
            Reading::AlarmAtFieldChange => !self.enabled_field_changed(before),
            Reading::AlarmIllegalNoMatch => met && before.time_is_legal(),
            _ => met,
        }
    }

    /// Each bit of 0Eh has the number of its time register.
    fn enabled_field_changed(&self, before: &Chip) -> bool {
        let changed = |at: usize| self.regs[at] != before.regs[at];
        (SECONDS..=YEAR).any(|at| self.regs[ALARM_ENABLE] >> at & 1 != 0 && changed(at))
    }

    /// Do all enabled fields match the time? With none enabled they do.
    pub fn alarm_meets_time(&self) -> bool {
        let enabled = |bit: u8| self.regs[ALARM_ENABLE] & (1 << bit) != 0;
        let same = |time: usize, alarm: usize| self.regs[time] == self.regs[alarm];
        (!enabled(0) || same(SECONDS, ALARM_SECONDS))
            && (!enabled(1) || same(MINUTES, ALARM_MINUTES))
            && (!enabled(2) || self.alarm_meets_hour())
            && self.alarm_meets_day(enabled(4), enabled(3))
            && (!enabled(5) || same(MONTH, ALARM_MONTH))
            && (!enabled(6) || same(YEAR, ALARM_YEAR))
    }

    /// The mode bit is left out; the afternoon bit is not.
    fn alarm_meets_hour(&self) -> bool {
        let compared = match self.manner.reading {
            Reading::AlarmDropsAfternoon => 0x1F,
            Reading::AlarmWithMode => 0xBF,
            _ => 0x3F,
        };
        (self.regs[HOURS] ^ self.regs[ALARM_HOURS]) & compared == 0
    }

    /// The day of the month goes before the day of the week.
    fn alarm_meets_day(&self, by_day: bool, by_weekday: bool) -> bool {
        let day = self.regs[DAY] == self.regs[ALARM_DAY];
        match (by_day, by_weekday) {
            (true, true) => match self.manner.reading {
                Reading::DayAndWeekday => day && self.alarm_meets_weekday(),
                Reading::WeekdayBeforeDay => self.alarm_meets_weekday(),
                _ => day,
            },
            (true, false) => day,
            (false, true) => self.alarm_meets_weekday(),
            (false, false) => true,
        }
    }

    fn alarm_meets_weekday(&self) -> bool {
        let (w, days) = (self.regs[WEEKDAY], self.regs[ALARM_WEEKDAYS]);
        if self.reads(Reading::WeekdayAsNumber) {
            return w == days;
        }
        w < 7 && days >> w & 1 != 0
    }
}
