//! What the tables promise: at one place a time and the alarm that is due after it.

use super::super::tables::{BYTES, TIME_AND_ALARM};
use reference::registers::{ALARM_ENABLE, ALARM_SECONDS, CTR1, CTR2, INTAE, INTAF, YEAR};
use reference::{Chip, START_BYTES};

/// Does the alarm of this place ring a second after its time?
fn rings(place: usize, enable: u8) -> bool {
    let column: Vec<u8> = BYTES.iter().map(|row| row[place]).collect();
    let mut bytes = [0; START_BYTES];
    bytes[..=YEAR].copy_from_slice(&column[..=YEAR]);
    let mut chip = Chip::power_on(&bytes).expect("a time without fixed bits");
    chip.regs[ALARM_SECONDS..TIME_AND_ALARM]
        .copy_from_slice(&column[ALARM_SECONDS..TIME_AND_ALARM]);
    chip.regs[ALARM_ENABLE] = enable;
    chip.regs[CTR2] = INTAE;
    assert!(chip.well_formed());
    chip.step(5, 0, 32_768).expect("pulses");
    chip.regs[CTR1] & INTAF != 0
}

/// All fields with the day, and those with the weekday.
#[test]
fn each_place_has_its_alarm() {
    for place in 0..16 {
        assert!(rings(place, 0x77), "{place}");
        assert!(rings(place, 0x6F), "{place}");
    }
}

/// Every second changes. All but the last six places reach a full hour, the first
/// nine a midnight, of which one is between two weekdays that both count, and
/// the first five a new year; the last place, all illegal, does all of this.
#[test]
fn each_field_begins_a_match_at_some() {
    let begins = [16, 11, 11, 9, 10, 6, 6];
    for (bit, owed) in begins.into_iter().enumerate() {
        let places = (0..16).filter(|place| rings(*place, 1 << bit));
        assert_eq!(places.count(), owed, "field {bit}");
    }
}
