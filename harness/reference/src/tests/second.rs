//! The length of a second and the moment it is judged.

use super::host::{Host, NEW_CENTURY};
use crate::length_of_second;
use crate::registers::{CTR2, INTDE, SECONDS, TRIM};

#[test]
fn every_trim_value_gives_its_change() {
    for f in 0..=127u8 {
        let change = match f {
            0 | 1 | 64 | 65 => 0,
            2..=63 => 2 * (i32::from(f) - 1),
            _ => 2 * (i32::from(f) - 128),
        };
        assert!((-124..=124).contains(&change));
        for seconds in [0x00, 0x20, 0x40] {
            let length = length_of_second(seconds, f);
            assert_eq!(length as i32, 32_768 + change);
        }
    }
}

#[test]
fn the_sheet_example_is_hexadecimal() {
    assert_eq!(length_of_second(0x00, 0x29), 32_848);
}

#[test]
fn only_three_seconds_bytes_are_trimmed() {
    for seconds in 0..=0x7F {
        let trimmed = matches!(seconds, 0x00 | 0x20 | 0x40);
        assert_eq!(length_of_second(seconds, 0x3F) != 32_768, trimmed);
    }
}

#[test]
fn a_trimmed_second_ends_at_its_length() {
    for (trim, length) in [(0x3F, 32_892), (0x42, 32_644)] {
        let mut host = Host::open();
        host.write(TRIM, &[trim]);
        host.pulses(length - 1);
        assert_eq!(host.reg(SECONDS), 0x00);
        host.pulses(1);
        assert_eq!(host.reg(SECONDS), 0x01);
        host.pulses(32_767);
        assert_eq!(host.reg(SECONDS), 0x01);
        host.pulses(1);
        assert_eq!(host.reg(SECONDS), 0x02);
    }
}

#[test]
fn a_second_cut_short_ends_at_the_next_pulse() {
    let mut host = Host::open();
    host.pulses(32_700);
    host.write(TRIM, &[0x42]);
    assert_eq!(host.reg(SECONDS), 0x00);
    host.pulses(1);
    assert_eq!(host.reg(SECONDS), 0x01);
    assert_eq!(host.chip.second_counter, 0);
}

#[test]
fn the_length_follows_a_later_trim() {
    let mut host = Host::open();
    host.pulses(32_767);
    host.write(TRIM, &[0x02]);
    host.pulses(2);
    assert_eq!(host.reg(SECONDS), 0x00);
    host.pulses(1);
    assert_eq!(host.reg(SECONDS), 0x01);
}

#[test]
fn writing_seconds_restarts_only_the_second() {
    let mut host = Host::open();
    host.write(CTR2, &[0x80 | INTDE]);
    host.pulses(5);
    host.write(SECONDS, &[0x00]);
    assert_eq!(host.chip.second_counter, 0);
    assert_eq!(host.chip.prescaler, 5);
    assert_eq!(host.chip.divider, 5);
}

#[test]
fn other_time_bytes_leave_the_second_running() {
    let mut host = Host::open();
    host.pulses(100);
    host.write(0x01, &[1, 2, 3, 4, 5, 6]);
    assert_eq!(host.chip.second_counter, 100);
}

#[test]
fn a_locked_seconds_write_changes_nothing() {
    let mut host = Host::fresh();
    host.pulses(100);
    host.write(SECONDS, &[0x30]);
    assert_eq!(host.chip.second_counter, 100);
    assert_eq!(host.time(), NEW_CENTURY);
}

#[test]
fn bus_events_take_no_time() {
    let mut host = Host::fresh();
    let before = host.chip.clone();
    host.begin_read(0x14);
    host.read_nak();
    host.stop();
    assert_eq!(host.chip.second_counter, before.second_counter);
    assert_eq!(host.chip.divider, before.divider);
}
