//! Events with the chip before and after them, pulses one by one: what happened
//! is told from outside.

use crate::script::Event;
use reference::registers::COUNTDOWN;
use reference::{Answer, Chip, Phase, Stage, PIN_PULSE};

/// One event that is no pulses, or one pulse, with the chip around it.
pub struct Step<'a> {
    pub event: Event,
    pub answer: Answer,
    pub before: &'a Chip,
    pub after: &'a Chip,
}

/// Takes an event, and each of its pulses for itself; the last answer.
pub fn watch(chip: &mut Chip, event: Event, mut seen: impl FnMut(&Step)) -> Answer {
    let (times, count) = match event.count {
        0 => (1, 0),
        pulses => (pulses, 1),
    };
    let event = Event { count, ..event };
    let mut answer = Answer::None;
    for _ in 0..times {
        let before = chip.clone();
        answer = chip
            .step(event.kind, event.byte, count)
            .expect("a judged event");
        seen(&Step {
            event,
            answer,
            before: &before,
            after: chip,
        });
    }
    answer
}

fn is_open(chip: &Chip) -> bool {
    chip.phase != Phase::Closed
}

impl Step<'_> {
    pub fn is_pulse(&self) -> bool {
        self.event.kind == Event::PULSES
    }

    pub fn is_read(&self) -> bool {
        matches!(self.event.kind, Event::READ_ACK | Event::READ_NAK) && self.was_in(Stage::Reading)
    }

    pub fn is_data(&self) -> bool {
        self.event.kind == Event::BYTE && self.was_in(Stage::Writing)
    }

    fn was_in(&self, wanted: Stage) -> bool {
        matches!(self.before.phase, Phase::Open { stage, .. } if stage == wanted)
    }

    /// The register changes by itself.
    pub fn goes_on(&self, register: usize) -> bool {
        self.is_pulse() && self.before.regs[register] != self.after.regs[register]
    }

    /// Every other pulse leaves a counter of at least 1.
    pub fn ends_second(&self) -> bool {
        self.is_pulse() && self.after.second_counter == 0
    }

    /// Every other pulse leaves less of the alarm's pin pulse.
    pub fn rings(&self) -> bool {
        self.is_pulse() && self.after.alarm_pulse == PIN_PULSE
    }

    /// Nothing but a tick moves the count in a pulse.
    pub fn reaches_zero(&self) -> bool {
        self.goes_on(COUNTDOWN) && self.after.regs[COUNTDOWN] == 0
    }

    pub fn times_out(&self) -> bool {
        self.is_pulse() && is_open(self.before) && !is_open(self.after)
    }
}
