//! What happened in the pulses of one event.

use super::{number_text, pin_letter};
use crate::watch::Step;

/// An event shows so many zeros and so many changes of the pin; all are counted.
const MOST_SHOWN: u32 = 64;

/// The lines so far, and how often each thing has happened.
#[derive(Default)]
pub struct Moments {
    pulse: u32,
    seconds: u32,
    alarms: u32,
    zeros: u32,
    pins: u32,
    lines: String,
}

impl Moments {
    /// One more pulse, its moments in the order of its stages.
    pub fn take(&mut self, step: &Step) {
        self.pulse += 1;
        if step.times_out() {
            self.tell("timeout");
        }
        if step.reaches_zero() {
            self.take_zero();
        }
        if step.ends_second() {
            self.seconds += 1;
            self.tell(&format!("second {}", number_text(step.after.time())));
        }
        if step.rings() {
            self.alarms += 1;
            self.tell("alarm");
        }
        if step.before.pin() != step.after.pin() {
            self.take_pin(pin_letter(step.after));
        }
    }

    fn take_zero(&mut self) {
        self.zeros += 1;
        if self.zeros <= MOST_SHOWN {
            self.tell("zero");
        }
    }

    fn take_pin(&mut self, letter: char) {
        self.pins += 1;
        if self.pins <= MOST_SHOWN {
            self.tell(&format!("pin {letter}"));
        }
    }

    fn tell(&mut self, what: &str) {
        self.lines += &format!("pulse {} {what}\n", self.pulse);
    }

    /// All lines, and the counts behind them.
    pub fn text(&self) -> String {
        let Moments {
            seconds,
            alarms,
            zeros,
            pins,
            lines,
            ..
        } = self;
        format!("{lines}counts {seconds} {alarms} {zeros} {pins}\n")
    }
}
