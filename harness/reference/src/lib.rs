//! The SD2068 clock chip, pulse by pulse, written plainly from its rules.
//!
//! This is a second opinion: it shares no line with the model it is compared
//! with, and it prefers the obvious way over the clever one.

mod alarm;
mod bus;
mod calendar;
mod chip;
mod countdown;
mod file;
mod form;
mod lock;
mod number;
mod pin;
mod reading;
pub mod registers;
mod second;
mod state_form;
mod stray;
#[cfg(test)]
mod tests;

pub use bus::{Phase, Stage, AGE_LIMIT};
pub use chip::{check_event, Answer, Chip, START_BYTES};
pub use countdown::tick_length;
pub use file::{
    run_file, run_file_reading, FileRun, EVENT_BYTES, HEADER_BYTES, LINE_BYTES, LONGEST_FILE,
};
pub use number::{day_number, second_number, second_of_day, time_of_number};
pub use pin::{Pin, PIN_PULSE};
pub use reading::{Manner, Reading};
pub use second::length_of_second;
pub use state_form::STATE_BYTES;
