//! What the rules say about a time that is set and read back, worked out by hand.

use super::{scripts, BEFORE};
use crate::scenarios::printed::{time, Printed};
use reference::Chip;

/// What seven bytes from 00h on answer, with START, 64h, 00h and STOP.
const SETTING: &str = "-- AK AK AK AK AK AK AK AK AK --";

fn printed(name: &str) -> Printed {
    Printed::among(scripts(), name)
}

/// The last state but so many.
fn last_but(printed: &Printed, count: usize) -> &Chip {
    &printed.states[printed.states.len() - 1 - count]
}

/// The pulses since the seconds byte.
fn pulses(printed: &Printed) -> u32 {
    printed.levels().last().expect("pulses").0 - BEFORE
}

/// Bit 7 of 00h and 01h, bit 6 of 02h, bits 7 to 3 of 03h, bits 7 and 6 of 04h
/// and bits 7 to 5 of 05h read 0. With F 15h second 00h has 32,808 pulses.
#[test]
fn fixed_bits_are_not_kept() {
    let printed = printed("kept: fixed bits sent");
    assert!(printed.answers().contains(SETTING));
    let set = [0x00, 0x15, 0xA1, 0x03, 0x20, 0x12, 0x06];
    let two_on = [0x02, 0x15, 0xA1, 0x03, 0x20, 0x12, 0x06];
    assert_eq!(printed.bytes_read(), [set, two_on].concat());
    assert_eq!(last_but(&printed, 1).regs[0x00], 0x01);
    assert_eq!(pulses(&printed), 32_808 + 32_768);
}

/// After 1Fh the pointer is 00h. The day carries from 31h to 12h, and 2012 is a
/// leap year.
#[test]
fn a_time_is_set_over_the_end() {
    let printed = printed("kept: over the pointer's end");
    assert!(printed
        .answers()
        .contains(&SETTING.replacen("AK", "AK AK", 1)));
    let two_on = [0x00, 0x00, 0x12, 0x03, 0x29, 0x02, 0x12];
    assert_eq!(printed.bytes_read(), [&[0x77][..], &two_on].concat());
    let one_on = [0x59, 0x59, 0x31, 0x02, 0x28, 0x02, 0x12];
    assert_eq!(time(last_but(&printed, 1)), one_on);
    assert_eq!(pulses(&printed), 2 * 32_768);
}

/// FFh and no change, also with NAK. 11h goes to 32h, and with F 42h second 00h
/// has 32,644 pulses.
#[test]
fn reads_do_not_disturb_a_setting() {
    let printed = printed("kept: reads while setting");
    let setting = format!("-- FF FF {}--", "AK FF FF ".repeat(9));
    assert!(printed.answers().contains(&setting));
    let two_on = [0x01, 0x00, 0x32, 0x00, 0x15, 0x07, 0x18];
    assert_eq!(printed.bytes_read()[20..], two_on);
    let one_on = [0x00, 0x00, 0x32, 0x00, 0x15, 0x07, 0x18];
    assert_eq!(time(last_but(&printed, 1)), one_on);
    assert_eq!(pulses(&printed), 32_768 + 32_644);
}

/// NAK and no change, also by 65h: all reads show the time of the address.
#[test]
fn bytes_do_not_disturb_a_reading() {
    let printed = printed("kept: bytes while reading");
    let reading = "-- AK -- NK 59 NK 59 NK A3 NK 04 NK 31 NK 12 NK 20 --";
    assert!(printed.answers().contains(reading));
    let two_on = [0x00, 0x00, 0x80, 0x05, 0x01, 0x01, 0x21];
    assert_eq!(printed.bytes_read()[7..], two_on);
    assert_eq!(time(last_but(&printed, 1)), two_on);
    assert_eq!(pulses(&printed), 2 * 32_768);
}

/// A data byte is acknowledged and stored, and a read while writing is FFh; the
/// first 65h after START latches and reads.
#[test]
fn a_data_byte_65h_does_not_read() {
    let printed = printed("kept: data byte 65h");
    let reading = "-- AK AK AK FF FF -- -- AK 00 00 30 06 30 09 23 --";
    assert!(printed.answers().ends_with(reading));
    let set = [0x59, 0x59, 0x29, 0x06, 0x30, 0x09, 0x23];
    assert_eq!(time(last_but(&printed, 2)), set);
    let stored = last_but(&printed, 1);
    assert_eq!(stored.regs[0x14..0x16], [0x65, 0xA1]);
    assert_eq!(stored.latch, [0; 7]);
    assert_eq!(pulses(&printed), 32_768);
}

/// The pointer steps on into the alarm; pulses amid the burst count, and only
/// those before the seconds byte do not.
#[test]
fn a_burst_sets_time_and_alarm() {
    let printed = printed("kept: on into the alarm");
    let burst = "-- AK AK AK -- AK AK AK AK AK AK -- AK AK AK AK AK AK AK --";
    assert!(printed.answers().contains(burst));
    let one_on = [0x00, 0x00, 0x80, 0x06, 0x01, 0x06, 0x24];
    let alarm = [0x15, 0x30, 0x06, 0x3E, 0x02, 0x07, 0x25];
    assert_eq!(printed.bytes_read(), [one_on, alarm].concat());
    let set = [0x59, 0x59, 0xA3, 0x05, 0x31, 0x05, 0x24];
    assert_eq!(time(last_but(&printed, 1)), set);
    assert_eq!(pulses(&printed), 32_768);
}
