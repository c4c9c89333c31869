//! Setting the time, and the calendar that 003 and 001 describe.

use super::{lock, EXAMPLE_TIME, NEW_CENTURY, SECOND};
use crate::script::Script;

pub fn scripts() -> Vec<Script> {
    vec![
        example().named("003, 001: setting 20 19 98 03 20 12 06"),
        with_trim_cleared().named("003: setting with the trim cleared"),
        month_ends().named("003, 001: the last day of each month"),
    ]
}

/// Amid a second that had begun before: the write of the seconds begins a new
/// one. Read back with the lock closed, which does not hinder reading.
fn example() -> Script {
    let script = Script::at(NEW_CENTURY)
        .pulses(20_000)
        .unlock()
        .store(0x00, &EXAMPLE_TIME);
    lock(script).fetch(0x00, 7).pulses_shown(SECOND).show()
}

/// 003 advises to write 0 to 12h along with the time: the second 20h then has
/// its plain length.
fn with_trim_cleared() -> Script {
    let script = Script::at(NEW_CENTURY)
        .unlock_with(&[0x80, 0x00, 0x29])
        .store(0x00, &EXAMPLE_TIME)
        .store(0x12, &[0x00]);
    lock(script).pulses_shown(SECOND).show()
}

/// The last second of each of these dates, and the date that comes next:
/// year, month and day.
pub const MONTH_ENDS: [([u8; 3], [u8; 3]); 20] = [
    ([0x05, 0x01, 0x31], [0x05, 0x02, 0x01]),
    ([0x05, 0x02, 0x28], [0x05, 0x03, 0x01]),
    ([0x05, 0x03, 0x31], [0x05, 0x04, 0x01]),
    ([0x05, 0x04, 0x30], [0x05, 0x05, 0x01]),
    ([0x05, 0x05, 0x31], [0x05, 0x06, 0x01]),
    ([0x05, 0x06, 0x30], [0x05, 0x07, 0x01]),
    ([0x05, 0x07, 0x31], [0x05, 0x08, 0x01]),
    ([0x05, 0x08, 0x31], [0x05, 0x09, 0x01]),
    ([0x05, 0x09, 0x30], [0x05, 0x10, 0x01]),
    ([0x05, 0x10, 0x31], [0x05, 0x11, 0x01]),
    ([0x05, 0x11, 0x30], [0x05, 0x12, 0x01]),
    ([0x05, 0x12, 0x31], [0x06, 0x01, 0x01]),
    // 2000 is a leap year, and the calendar goes up to 2099
    ([0x00, 0x02, 0x28], [0x00, 0x02, 0x29]),
    ([0x00, 0x02, 0x29], [0x00, 0x03, 0x01]),
    ([0x99, 0x12, 0x31], [0x00, 0x01, 0x01]),
    // a common leap year
    ([0x04, 0x02, 0x28], [0x04, 0x02, 0x29]),
    ([0x04, 0x02, 0x29], [0x04, 0x03, 0x01]),
    // of 12 and 96 the year is divisible by 4 and not the byte, of 10 the byte
    ([0x12, 0x02, 0x28], [0x12, 0x02, 0x29]),
    ([0x96, 0x02, 0x28], [0x96, 0x02, 0x29]),
    ([0x10, 0x02, 0x28], [0x10, 0x03, 0x01]),
];

/// The weekday goes round from 0, a Sunday, to 6, whatever the date.
fn month_ends() -> Script {
    let one = |script: Script, (weekday, (date, _)): (u8, ([u8; 3], _))| {
        let [year, month, day] = date;
        let time = [0x59, 0x59, 0xA3, weekday % 7, day, month, year];
        script.store(0x00, &time).pulses(SECOND).show()
    };
    let dates = (0..).zip(MONTH_ENDS);
    dates.fold(Script::at(NEW_CENTURY).unlock(), one)
}
