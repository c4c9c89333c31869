//! What a script file's run did, event by event, as plain lines.
//!
//! The state, the answer and the pin are the chip's; a deed is told from the
//! phase, the lock and the pointer that the event found, and a moment of a pulse
//! from the chip around it.

mod deed;
mod moments;
#[cfg(test)]
mod tests;

use crate::chance::files::sections;
use crate::file::owed::run_lent;
use crate::file::LARGEST_ROOM;
use crate::script::{decode_events, Event};
use crate::watch::watch;
use deed::{deed, Deed};
use moments::Moments;
use reference::registers::{DAY, HOURS, MINUTES, MONTH};
use reference::{second_number, Answer, Chip, Reading};

/// The lines of a file that runs, or the one line of a file that is refused.
pub fn facts(file: &[u8]) -> String {
    let (run, _) = run_lent(file, LARGEST_ROOM, Reading::Right);
    if run.refusal != 0 {
        return format!("refused {} {}\n", run.refusal, run.index);
    }
    let (start_bytes, events) = sections(file);
    let mut chip = Chip::power_on(start_bytes).expect("judged start bytes");
    let mut lines = start_line(&chip);
    for (index, event) in decode_events(events).into_iter().enumerate() {
        lines += &event_lines(&mut chip, index, event);
    }
    lines + &format!("end {}\n", run.count)
}

fn start_line(chip: &Chip) -> String {
    let state = hex(&chip.to_form());
    let number = number_text(chip.time());
    format!("start {state} {number} {}\n", pin_letter(chip))
}

/// The line of an event; before it those of its pulses, if it has some.
fn event_lines(chip: &mut Chip, index: usize, event: Event) -> String {
    let mut moments = Moments::default();
    let mut done = Deed::plain("passed");
    let answer = watch(chip, event, |step| {
        if step.is_pulse() {
            moments.take(step);
        } else {
            done = deed(step);
        }
    });
    let before = if event.kind == Event::PULSES {
        moments.text()
    } else {
        String::new()
    };
    before + &event_line(chip, index, event, answer, done)
}

fn event_line(chip: &Chip, index: usize, event: Event, answer: Answer, done: Deed) -> String {
    let Event { kind, byte, count } = event;
    let [first, second] = answer.text().map(char::from);
    let pin = pin_letter(chip);
    let (name, register) = (done.name, done.register_text());
    let (state, number) = (hex(&chip.to_form()), number_text(chip.time()));
    let (latched, id) = (number_text(chip.latch), hex(&id(chip.latch)));
    let event = format!("event {index} {kind} {byte:02X} {count} {first}{second} {pin}");
    format!("{event} {name} {register} {state} {number} {latched} {id}\n")
}

/// Month, day, hour without the mode, minute.
fn id(time: [u8; 7]) -> [u8; 4] {
    [time[MONTH], time[DAY], time[HOURS] & 0x7F, time[MINUTES]]
}

fn number_text(time: [u8; 7]) -> String {
    second_number(time).map_or("-".to_string(), |number| number.to_string())
}

fn pin_letter(chip: &Chip) -> char {
    char::from(chip.pin().letter())
}

fn hex(bytes: &[u8]) -> String {
    bytes.iter().map(|byte| format!("{byte:02X}")).collect()
}
