//! The half of the day: 9:15 in the morning and in the evening must never read alike.

use crate::board::{open, read_at, write_at, SECOND, TIME};

/// The hour and the minute that are read three seconds after 15 minutes past this hour was set.
fn read_back(hour: u8) -> [u8; 2] {
    let mut clock = open(TIME);
    write_at(
        &mut clock,
        0x00,
        &[0x00, 0x15, hour, 0x03, 0x20, 0x12, 0x06],
    );
    clock.pulses(3 * SECOND);
    let [seconds, minute, hour, ..]: [u8; 7] = read_at(&mut clock, 0x00);
    assert_eq!(seconds, 0x03);
    [hour, minute]
}

#[test]
fn in_12_hour_mode() {
    assert_eq!(read_back(0x09), [0x09, 0x15]);
    assert_eq!(read_back(0x29), [0x29, 0x15]);
}

#[test]
fn in_24_hour_mode() {
    assert_eq!(read_back(0x89), [0x89, 0x15]);
    assert_eq!(read_back(0xA1), [0xA1, 0x15]);
}
