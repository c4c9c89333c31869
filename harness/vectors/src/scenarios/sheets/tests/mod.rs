//! What the sheets and the rules say about the output of these scripts.
//!
//! Each test runs the stored scripts of one part, and expects what is said
//! there: nothing here is taken from a printed output.

mod alarms;
mod countdown;
mod differs;
mod frequency;
mod hours;
mod lock;
mod pin;
mod power;
mod setting;
mod transfers;
mod trim;

use super::items;
use crate::scenarios::printed::{time, Printed};
use crate::script::encode;
use reference::{Chip, Phase, Stage};
use std::collections::HashSet;

const INTAF: u8 = 0x20;
const INTDF: u8 = 0x10;

/// What the stored script of this name prints.
fn printed(name: &str) -> Printed {
    Printed::among(items(), name)
}

/// The pin after each event of pulses.
fn pulse_pins(printed: &Printed) -> String {
    printed.levels().into_iter().map(|(_, pin)| pin).collect()
}

fn flag(chip: &Chip, flag: u8) -> bool {
    chip.regs[0x0F] & flag != 0
}

/// The stage of an open transfer.
fn stage(chip: &Chip) -> Option<Stage> {
    match chip.phase {
        Phase::Closed => None,
        Phase::Open { stage, .. } => Some(stage),
    }
}

/// Two scripts may not differ in their names only.
#[test]
fn no_script_is_there_twice() {
    let items = items();
    let different: HashSet<Vec<u8>> = items.chunks(1).map(encode).collect();
    assert_eq!(different.len(), items.len());
}
