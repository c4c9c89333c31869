//! What an item prints, taken apart for tests.

use crate::lines::lines;
use crate::script::{Event, Item};
use reference::{Chip, STATE_BYTES};
use std::slice::from_ref;

pub struct Printed {
    pub name: String,
    events: Vec<Event>,
    /// A line for each event.
    lines: Vec<String>,
    /// The states that were shown, in order.
    pub states: Vec<Chip>,
}

impl Printed {
    pub fn of(item: impl Into<Item>) -> Printed {
        let item = item.into();
        let text = String::from_utf8(lines(from_ref(&item))).expect("plain text");
        let is_state = |line: &&str| line.len() == 2 * STATE_BYTES;
        let (states, lines): (Vec<&str>, Vec<&str>) = text.lines().partition(is_state);
        assert_eq!(lines.len(), item.events().len(), "{}", item.name());
        Printed {
            name: item.name().to_string(),
            events: item.events().to_vec(),
            lines: lines.into_iter().map(String::from).collect(),
            states: states.into_iter().map(state_in).collect(),
        }
    }

    /// What the one of this name prints.
    pub fn among<T: Into<Item>>(items: Vec<T>, name: &str) -> Printed {
        let mut items = items.into_iter().map(T::into);
        let found = items.find(|item: &Item| item.name() == name);
        Printed::of(found.unwrap_or_else(|| panic!("no script {name}")))
    }

    /// All lines of the events, with commas between.
    pub fn text(&self) -> String {
        self.lines.join(", ")
    }

    /// The answers of all events, with blanks between.
    pub fn answers(&self) -> String {
        let answers: Vec<&str> = self.lines.iter().map(|line| &line[..2]).collect();
        answers.join(" ")
    }

    /// The bytes that were read.
    pub fn bytes_read(&self) -> Vec<u8> {
        let reads = self
            .with_events()
            .filter(|(event, _)| event.kind == Event::READ_ACK || event.kind == Event::READ_NAK);
        reads.map(|(_, line)| hex(&line[..2])).collect()
    }

    /// The pin after all events.
    pub fn pins(&self) -> String {
        self.lines.iter().map(|line| pin(line)).collect()
    }

    /// After each event of pulses, how many there were so far, and the pin.
    pub fn levels(&self) -> Vec<(u32, char)> {
        let mut passed = 0;
        let mut levels = Vec::new();
        for (event, line) in self.with_events() {
            if event.kind == Event::PULSES {
                passed += u32::from(event.count);
                levels.push((passed, pin(line)));
            }
        }
        levels
    }

    pub fn last(&self) -> &Chip {
        self.states.last().expect("a state is shown")
    }

    fn with_events(&self) -> impl Iterator<Item = (&Event, &String)> {
        self.events.iter().zip(&self.lines)
    }
}

/// The time as it lives.
pub fn time(chip: &Chip) -> [u8; 7] {
    std::array::from_fn(|at| chip.regs[at])
}

fn pin(line: &str) -> char {
    line.chars().last().expect("a line")
}

fn hex(digits: &str) -> u8 {
    u8::from_str_radix(digits, 16).expect("hex digits")
}

fn state_in(line: &str) -> Chip {
    let bytes = std::array::from_fn(|at| hex(&line[2 * at..][..2]));
    Chip::from_form(&bytes).expect("the form of a state")
}
