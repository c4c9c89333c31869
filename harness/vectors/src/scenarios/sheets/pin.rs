//! The table of what the pin shows (003, 000).

use super::{
    ALARM_ON, BY_ALARM, BY_COUNTDOWN, BY_FREQUENCY, BY_NONE, COUNTDOWN_ON, FREQUENCY_ON,
    KEEP_FLAGS, NEW_CENTURY, SECOND,
};
use crate::script::Script;

pub fn scripts() -> Vec<Script> {
    vec![by_ints().named("003, 000: the pin by INTS, 001 differs at row 0")]
}

/// All interrupts.
const ENABLES: u8 = ALARM_ON | COUNTDOWN_ON | FREQUENCY_ON;

/// The byte for 0Fh that clears INTAF and leaves INTDF up.
const CLEAR_ALARM: u8 = KEEP_FLAGS & !0x20;

/// With both flags up, and again without INTAF, which tells row 1 from row 3.
fn by_ints() -> Script {
    let rung = Script::at(NEW_CENTURY)
        .unlock_with(&[BY_NONE | ENABLES, 0x02, 0x00, 0x01])
        .storing(0x07, &[0x01])
        .store(0x0E, &[0b0000_0001])
        .pulses(SECOND);
    each_row(each_row(rung).store(0x0F, &[CLEAR_ALARM]))
}

/// Each row for one period of 4,096 Hz, half by half.
fn each_row(script: Script) -> Script {
    let rows = [BY_NONE, BY_ALARM, BY_FREQUENCY, BY_COUNTDOWN];
    rows.into_iter().fold(script, |script, row| {
        script.store(0x10, &[row | ENABLES]).pulses(4).pulses(4)
    })
}
