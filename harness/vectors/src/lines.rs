//! The output that an input owes, line by line.

use crate::file::owed::{run_lent, run_line};
use crate::file::Run;
use crate::script::{Event, Item, Script};
use reference::{Answer, Chip, Reading};

/// The output of all items, one after the other.
pub fn lines(items: &[Item]) -> Vec<u8> {
    lines_reading(items, Reading::Right)
}

/// The same where the rules are taken in another way.
pub fn lines_reading(items: &[Item], reading: Reading) -> Vec<u8> {
    let mut out = Vec::new();
    for item in items {
        item_lines(item, reading, &mut out);
    }
    out
}

fn item_lines(item: &Item, reading: Reading, out: &mut Vec<u8>) {
    match item {
        Item::PowerOn(script) => run(powered(script, reading, out), &script.events, out),
        Item::State(script) => run(script.chip(reading), &script.events, out),
        Item::File(run) => file_lines(run, reading, out),
    }
}

/// Power-on; if that is refused, all runs on from zero bytes.
fn powered(script: &Script, reading: Reading, out: &mut Vec<u8>) -> Chip {
    Chip::power_on_reading(&script.start_bytes, reading).unwrap_or_else(|number| {
        refusal_line(number, out);
        Chip::of_zeros(reading)
    })
}

fn run(mut chip: Chip, events: &[Event], out: &mut Vec<u8>) {
    let mut shown = false;
    for event in events {
        let result = chip.step_any(event.kind, event.byte, event.count);
        match result {
            Ok(answer) => answer_line(answer, &chip, out),
            Err(number) => refused_line(number, &chip, out),
        }
        shown = result.is_ok() && matches!(event.kind, Event::STOP | Event::POWER_LOSS);
        if shown {
            state_line(&chip, out);
        }
    }
    if !shown {
        state_line(&chip, out);
    }
}

/// What a run hands back, the state and the output with what stands behind it.
fn file_lines(run: &Run, reading: Reading, out: &mut Vec<u8>) {
    let (result, output) = run_lent(&run.file, run.room, reading);
    out.extend(run_line(&result).bytes());
    state_line(&result.chip, out);
    out.extend(output);
    out.push(b'\n');
}

fn answer_line(answer: Answer, chip: &Chip, out: &mut Vec<u8>) {
    out.extend(answer.text());
    out.extend([b' ', chip.pin().letter(), b'\n']);
}

/// A refused event too has an answer, which says nothing, and a pin.
fn refused_line(number: u8, chip: &Chip, out: &mut Vec<u8>) {
    out.extend(format!("refused {number} ").bytes());
    answer_line(Answer::None, chip, out);
}

/// A power-on that is refused answers nothing else.
fn refusal_line(number: u8, out: &mut Vec<u8>) {
    out.extend(format!("refused {number}\n").bytes());
}

fn state_line(chip: &Chip, out: &mut Vec<u8>) {
    for byte in chip.to_form() {
        out.extend(Answer::Byte(byte).text());
    }
    out.push(b'\n');
}
