//! A time set, other traffic, and the time read back.
//!
//! Between the seconds byte and the last 65h lie as many pulses as one or two
//! seconds have, and the time is shown or read one pulse earlier as well.

#[cfg(test)]
mod tests;

use super::{NEW_CENTURY, SECOND};
use crate::script::Script;

pub fn scripts() -> Vec<Script> {
    vec![
        fixed_bits_sent().named("kept: fixed bits sent"),
        over_the_end().named("kept: over the pointer's end"),
        reads_while_setting().named("kept: reads while setting"),
        bytes_while_reading().named("kept: bytes while reading"),
        data_byte_65h().named("kept: data byte 65h"),
        on_into_the_alarm().named("kept: on into the alarm"),
    ]
}

/// Pulses before the setting, which begins a new second.
const BEFORE: u32 = 20_000;

/// With the lock open.
fn unlocked() -> Script {
    Script::at(NEW_CENTURY).pulses(BEFORE).unlock()
}

/// The same with this byte in 12h.
fn trimmed(trim: u8) -> Script {
    unlocked().store(0x12, &[trim])
}

/// START, 65h, so many reads from 00h on, STOP.
fn read_back(script: Script, count: usize) -> Script {
    script.start().write(&[0x65]).read(count).stop()
}

/// All of them in each byte but the year's, which has none. Second 00h is 40
/// pulses longer.
fn fixed_bits_sent() -> Script {
    let script = trimmed(0x15).store(0x00, &[0x80, 0x95, 0xE1, 0xFB, 0xE0, 0xF2, 0x06]);
    let script = read_back(script, 7).pulses_shown(SECOND + 40 + SECOND);
    read_back(script, 7)
}

/// From 1Fh on, two seconds before a leap day in 12-hour mode.
fn over_the_end() -> Script {
    let script = unlocked()
        .store(0x1F, &[0x77, 0x58, 0x59, 0x31, 0x02, 0x28, 0x02, 0x12])
        .fetch(0x1F, 1)
        .pulses_shown(2 * SECOND);
    read_back(script, 7)
}

/// One with ACK and one with NAK after START and after each byte. Noon comes a
/// second later, and its second 00h is 124 pulses shorter.
fn reads_while_setting() -> Script {
    let bytes = [0x64, 0x00, 0x59, 0x59, 0x11, 0x00, 0x15, 0x07, 0x18];
    let one = |script: Script, byte: u8| script.write(&[byte]).read(2);
    let script = bytes
        .into_iter()
        .fold(trimmed(0x42).start().read(2), one)
        .stop()
        .pulses_shown(SECOND + SECOND - 124);
    read_back(script, 7)
}

/// One before each read; the year ends between the 65h and the first of them.
fn bytes_while_reading() -> Script {
    let bytes = [0x65, 0x64, 0x00, 0x1F, 0x65, 0x80, 0xFF];
    let one = |script: Script, byte: u8| script.write(&[byte]).read_on(1);
    let script = unlocked()
        .store(0x00, &[0x58, 0x59, 0xA3, 0x04, 0x31, 0x12, 0x20])
        .pulses(2 * SECOND - 1)
        .start()
        .write(&[0x65])
        .pulses(1);
    let script = bytes.into_iter().fold(script, one).stop();
    read_back(script, 7)
}

/// Into 14h, with two reads after it; the address 65h comes in the next transfer.
fn data_byte_65h() -> Script {
    let script = unlocked()
        .store(0x00, &[0x59, 0x59, 0x29, 0x06, 0x30, 0x09, 0x23])
        .pulses_shown(SECOND)
        .storing(0x14, &[0x65])
        .read(2)
        .stop();
    read_back(script, 7)
}

/// A burst over the time and the alarm's fields, with pulses after the seconds
/// byte and after the year's.
fn on_into_the_alarm() -> Script {
    let script = unlocked()
        .storing(0x00, &[0x59])
        .pulses(1_000)
        .write(&[0x59, 0xA3, 0x05, 0x31, 0x05, 0x24])
        .pulses(2_000)
        .write(&[0x15, 0x30, 0x06, 0x3E, 0x02, 0x07, 0x25])
        .stop()
        .pulses_shown(SECOND - 3_000);
    read_back(script, 14)
}
