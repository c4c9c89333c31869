//! How deep random files lead, as seen from outside.
//!
//! Files that run are run once more, pulse by pulse, and what happened is told
//! from the chip before and after each step.

use super::draws::Draws;
use super::files::{draw_file, pulse_count, sections};
use crate::file::owed::run_lent;
use crate::script::{decode_events, Event};
use crate::watch::{watch, Step};
use reference::registers::{
    ALARM_ENABLE, COUNTDOWN, CTR1, CTR2, CTR3, DAY, HOURS, IM, INTAE, INTAF, INTDF, MONTH, SECONDS,
    TRIM, YEAR,
};
use reference::{length_of_second, tick_length, Answer, Chip, Pin, Reading};

/// What is only counted here.
impl Step<'_> {
    fn sets(&self, flag: u8) -> bool {
        self.after.regs[CTR1] & flag & !self.before.regs[CTR1] != 0
    }

    fn clears(&self, flags: u8) -> bool {
        self.before.regs[CTR1] & flags & !self.after.regs[CTR1] != 0
    }

    fn rings_with(&self, bit: u8) -> bool {
        self.rings() && self.before.regs[ALARM_ENABLE] >> bit & 1 != 0
    }

    /// An alarm that is on matches on both sides of a second's end.
    fn match_lasts(&self) -> bool {
        let on = self.after.regs[CTR2] & INTAE != 0 && self.after.regs[ALARM_ENABLE] != 0;
        let both = self.before.alarm_meets_time() && self.after.alarm_meets_time();
        self.ends_second() && on && both
    }

    /// A flag goes that must not come back while the match lasts.
    fn clears_in_match(&self) -> bool {
        let matches = self.before.regs[ALARM_ENABLE] != 0 && self.before.alarm_meets_time();
        self.clears(INTAF) && matches
    }

    fn ticks(&self, length: u32) -> bool {
        self.goes_on(COUNTDOWN) && tick_length(self.before.regs[CTR3]) == length
    }

    /// What the second's length is before the step.
    fn length(&self) -> u32 {
        length_of_second(self.before.regs[SECONDS], self.before.regs[TRIM])
    }

    /// A read of the time gives what is no longer the time.
    fn reads_old_time(&self) -> bool {
        let at = usize::from(self.before.pointer);
        self.is_read() && at <= YEAR && self.answer != Answer::Byte(self.before.regs[at])
    }

    /// The wrap of a read takes another time than the one held.
    fn latches_anew(&self) -> bool {
        self.is_read() && self.before.latch != self.after.latch
    }

    fn lock_changes(&self, to_open: bool) -> bool {
        self.before.lock_open() != to_open && self.after.lock_open() == to_open
    }
}

/// Something that can happen in a step, by name.
type Happening = (&'static str, fn(&Step) -> bool);

const ALARMS: [Happening; 13] = [
    ("alarms", |s| s.rings()),
    ("alarm flags set", |s| s.sets(INTAF)),
    ("alarms with the flag set", |s| s.rings() && !s.sets(INTAF)),
    ("alarms by second", |s| s.rings_with(0)),
    ("alarms by minute", |s| s.rings_with(1)),
    ("alarms by hour", |s| s.rings_with(2)),
    ("alarms by weekday", |s| s.rings_with(3)),
    ("alarms by day", |s| s.rings_with(4)),
    ("alarms by month", |s| s.rings_with(5)),
    ("alarms by year", |s| s.rings_with(6)),
    ("seconds within a match", |s| s.match_lasts()),
    ("seconds within a match, the flag clear", |s| {
        s.match_lasts() && s.after.regs[CTR1] & INTAF == 0
    }),
    ("alarm flags cleared within a match", |s| {
        s.clears_in_match()
    }),
];

const STEPS: [Happening; 23] = [
    ("countdown flags set", |s| s.sets(INTDF)),
    ("ticks of 8", |s| s.ticks(8)),
    ("ticks of 512", |s| s.ticks(512)),
    ("ticks of 32768", |s| s.ticks(32_768)),
    ("reloads", |s| {
        s.goes_on(COUNTDOWN) && s.before.regs[COUNTDOWN] == 0
    }),
    ("flags cleared by a byte", |s| {
        s.is_data() && s.clears(INTAF | INTDF)
    }),
    ("flags cleared at STOP", |s| {
        s.event.kind == Event::STOP && s.clears(INTAF | INTDF)
    }),
    ("seconds ended", |s| s.ends_second()),
    ("trimmed seconds ended", |s| {
        s.ends_second() && s.length() != 32_768
    }),
    ("seconds ended beyond their length", |s| {
        s.ends_second() && s.before.second_counter >= s.length()
    }),
    ("hours stepped by halves", |s| {
        s.goes_on(HOURS) && s.after.regs[HOURS] & 0x80 == 0
    }),
    ("days stepped", |s| s.goes_on(DAY)),
    ("months stepped", |s| s.goes_on(MONTH)),
    ("years stepped", |s| s.goes_on(YEAR)),
    ("leap days reached", |s| {
        s.goes_on(DAY) && s.after.regs[DAY..=MONTH] == [0x29, 0x02]
    }),
    ("transfers timed out", |s| s.times_out()),
    ("reads of an old time", |s| s.reads_old_time()),
    ("wraps that latched anew", |s| s.latches_anew()),
    ("bytes while open", |s| s.is_data() && s.before.lock_open()),
    ("bytes while locked", |s| {
        s.is_data() && !s.before.lock_open()
    }),
    ("locks opened", |s| s.lock_changes(true)),
    ("locks closed", |s| s.lock_changes(false)),
    ("power losses", |s| s.event.kind == Event::POWER_LOSS),
];

/// Something that a line can show, by name.
type Showing = (&'static str, fn(&Chip) -> bool);

const LINES: [Showing; 6] = [
    ("lines L by the alarm's flag", |chip| low_by(chip, 1, 0)),
    ("lines L by the alarm's pulse", |chip| low_by(chip, 1, IM)),
    ("lines L by the countdown's flag", |chip| low_by(chip, 3, 0)),
    ("lines L by the countdown's pulse", |chip| {
        low_by(chip, 3, IM)
    }),
    ("lines L by the frequency", |chip| {
        low_by(chip, 2, 0) || low_by(chip, 2, IM)
    }),
    ("lines X", |chip| chip.pin() == Pin::X),
];

/// The pin is low, with this source and this mode.
fn low_by(chip: &Chip, source: u8, mode: u8) -> bool {
    let ctr2 = chip.regs[CTR2];
    chip.pin() == Pin::L && ctr2 >> 4 & 3 == source && ctr2 & IM == mode
}

/// How often each thing happened.
#[derive(Clone, Debug, Default)]
pub struct Depth {
    /// Files by the number of their refusal; those at 0 ran.
    refusals: [u64; 9],
    pulses: u64,
    ended_open: u64,
    alarms: [u64; ALARMS.len()],
    steps: [u64; STEPS.len()],
    lines: [u64; LINES.len()],
}

/// So many files from this number on.
pub fn depth(seed: u32, files: u32) -> Depth {
    let mut draws = Draws::from(seed);
    let mut depth = Depth::default();
    for _ in 0..files {
        let drawn = draw_file(&mut draws);
        let (run, _) = run_lent(&drawn.file, drawn.room, Reading::Right);
        depth.refusals[usize::from(run.refusal)] += 1;
        if run.refusal == 0 {
            depth.watch_file(&drawn.file);
        }
    }
    depth
}

/// Watching.
impl Depth {
    pub(super) fn watch_file(&mut self, file: &[u8]) {
        let (start_bytes, events) = sections(file);
        let mut chip = Chip::power_on(start_bytes).expect("judged start bytes");
        for event in decode_events(events) {
            self.watch_event(&mut chip, event);
            for (count, (_, shows)) in self.lines.iter_mut().zip(LINES) {
                *count += u64::from(shows(&chip));
            }
        }
        self.pulses += pulse_count(file);
        self.ended_open += u64::from(chip.lock_open());
    }

    fn watch_event(&mut self, chip: &mut Chip, event: Event) {
        watch(chip, event, |step| {
            if !step.is_pulse() || is_seen(step) {
                self.watch_step(step);
            }
        });
    }

    fn watch_step(&mut self, step: &Step) {
        let alarms = self.alarms.iter_mut().zip(ALARMS);
        for (count, (_, happens)) in alarms.chain(self.steps.iter_mut().zip(STEPS)) {
            *count += u64::from(happens(step));
        }
    }
}

/// Most pulses only count; the others change a register or the bus.
fn is_seen(step: &Step) -> bool {
    step.before.regs != step.after.regs || step.times_out()
}

/// Showing.
impl Depth {
    /// Everything that was counted, with its name.
    pub fn counts(&self) -> Vec<(String, u64)> {
        let refused = |number: usize| format!("files refused with {number}");
        let refusals = (1..).zip(&self.refusals[1..]);
        let alarms = ALARMS.iter().map(|(name, _)| name).zip(&self.alarms);
        let steps = STEPS.iter().map(|(name, _)| name).zip(&self.steps);
        let lines = LINES.iter().map(|(name, _)| name).zip(&self.lines);
        let mut counts = vec![
            ("files that ran".to_string(), self.refusals[0]),
            (
                "files that ended with the lock open".to_string(),
                self.ended_open,
            ),
            ("pulses".to_string(), self.pulses),
        ];
        counts.extend(refusals.map(|(number, count)| (refused(number), *count)));
        let named = alarms.chain(steps).chain(lines);
        counts.extend(named.map(|(name, count)| (name.to_string(), *count)));
        counts
    }

    /// A line for each count.
    pub fn text(&self) -> String {
        let counts = self.counts();
        let lines = counts
            .iter()
            .map(|(name, count)| format!("{count} {name}\n"));
        lines.collect()
    }
}
