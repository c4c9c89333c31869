//! Each moment of a pulse, and how many are shown.

use super::{moments, text, TIME};
use crate::script::Script;

fn powered() -> Script {
    Script::at(TIME)
}

/// Unlocked at TIME, with these bytes from 10h on.
fn set(from_ctr2: &[u8]) -> Script {
    powered().unlock_with(from_ctr2)
}

/// The last second of a minute; the next minute rings, with this byte at 10h.
fn ringing(ctr2: u8) -> Script {
    powered()
        .unlock()
        .storing(0x08, &[0x20])
        .storing(0x0E, &[0x02, 0x84, ctr2])
        .storing(0x00, &[0x59])
        .stop()
}

/// The pulses whose lines end so.
fn shown(moments: &str, what: &str) -> Vec<u32> {
    let lines = moments.split(", ");
    let pulses = lines.filter_map(|line| line.strip_suffix(what)?.strip_prefix("pulse "));
    pulses.map(|k| k.parse().expect("a number")).collect()
}

#[test]
fn a_transfer_times_out_with_its_last_pulse() {
    let script = powered().start().pulses(16_383).pulses(2);
    let expected = "counts 0 0 0 0, pulse 1 timeout, counts 0 0 0 0";
    assert_eq!(moments(&script), expected);
    let repeated = powered().start().pulses(16_000).start().pulses(16_000);
    let expected = "counts 0 0 0 0, pulse 384 timeout, counts 0 0 0 0";
    assert_eq!(moments(&repeated), expected);
    let closed = powered().start().stop().pulses(16_384);
    assert_eq!(moments(&closed), "counts 0 0 0 0");
}

/// The count 2 is 0 after two ticks of 8 pulses, and again after three more.
#[test]
fn a_zero_comes_with_its_tick() {
    let script = set(&[0x84, 0x00, 0x00, 0x02]).pulses(15).pulses(25);
    let expected = "counts 0 0 0 0, pulse 1 zero, pulse 25 zero, counts 0 0 2 0";
    assert_eq!(moments(&script), expected);
}

#[test]
fn neither_a_reload_of_zero_nor_a_stopped_countdown_has_zeros() {
    let zero = set(&[0x84, 0x00, 0x00, 0x00]).pulses(1_000);
    assert_eq!(moments(&zero), "counts 0 0 0 0");
    let off = set(&[0x80, 0x00, 0x00, 0x01]).pulses(1_000);
    assert_eq!(moments(&off), "counts 0 0 0 0");
}

/// The trim 29h makes the second 20h longer by 80 pulses, and no other.
#[test]
fn seconds_have_their_lengths_and_numbers() {
    let script = set(&[0x80, 0x00, 0x29]).pulses(32_847).pulses(32_769);
    let expected = "counts 0 0 0 0, pulse 1 second 219953961, \
                    pulse 32769 second 219953962, counts 2 0 0 0";
    assert_eq!(moments(&script), expected);
}

/// Month 13h has no number; at the year's end it becomes a month again.
#[test]
fn a_second_of_no_time_has_no_number() {
    let script = Script::at([0x58, 0x59, 0xA3, 0x06, 0x31, 0x13, 0x05]);
    let script = script.pulses(32_768).pulses(32_768);
    let expected = "pulse 32768 second -, counts 1 0 0 0, \
                    pulse 32768 second 189388800, counts 1 0 0 0";
    assert_eq!(moments(&script), expected);
    let legal = Script::at([0x59, 0x59, 0xA3, 0x06, 0x31, 0x12, 0x99]);
    let expected = "pulse 32768 second 0, counts 1 0 0 0";
    assert_eq!(moments(&legal.pulses(32_768)), expected);
}

/// 40 seconds after TIME, and once more with the flag set.
#[test]
fn an_alarm_rings_where_it_is_on() {
    let again = |script: Script| {
        script
            .pulses(32_768)
            .store(0x00, &[0x59, 0x19])
            .pulses(32_768)
    };
    let one = "pulse 32768 second 219954000, pulse 32768 alarm, counts 1 1 0 0";
    assert_eq!(moments(&again(ringing(0x82))), format!("{one}, {one}"));
    let off = "pulse 32768 second 219954000, counts 1 0 0 0";
    assert_eq!(moments(&again(ringing(0x80))), format!("{off}, {off}"));
}

/// The minute has begun; its next second matches as well, the flag set or not.
#[test]
fn a_match_that_lasts_has_no_second_alarm() {
    let told = "pulse 32768 second 219954000, pulse 32768 alarm, counts 1 1 0 0, \
                pulse 32768 second 219954001, counts 1 0 0 0";
    let rung = || ringing(0x82).pulses(32_768);
    assert_eq!(moments(&rung().pulses(32_768)), told);
    assert_eq!(moments(&rung().store(0x0F, &[0x84]).pulses(32_768)), told);
}

/// As a level the pin stays low; as a pulse it is high again 8,192 pulses on.
#[test]
fn the_pin_changes_with_its_source() {
    let level = moments(&ringing(0x92).pulses(65_535));
    assert_eq!(shown(&level, " pin L"), [32_768]);
    assert_eq!(shown(&level, " pin H"), []);
    let pulse = moments(&ringing(0xD2).pulses(65_535));
    assert_eq!(shown(&pulse, " pin L"), [32_768]);
    assert_eq!(shown(&pulse, " pin H"), [32_768 + 8_192]);
    let crystal = set(&[0xA1, 0x01]).pulses(1_000);
    assert_eq!(moments(&crystal), "counts 0 0 0 0");
}

/// All of them at once, in the order of a pulse's stages.
#[test]
fn one_pulse_can_have_them_all() {
    let script = powered()
        .unlock()
        .storing(0x07, &[0x31])
        .storing(0x0E, &[0x01, 0x84, 0x96, 0x20, 0x00, 0x01])
        .storing(0x00, &[0x30])
        .stop()
        .pulses(16_384)
        .start()
        .pulses(16_384);
    let text = text(&script);
    let told: Vec<&str> = text.lines().rev().skip(2).take(6).collect();
    let expected = [
        "counts 1 1 1 1",
        "pulse 16384 pin L",
        "pulse 16384 alarm",
        "pulse 16384 second 219953971",
        "pulse 16384 zero",
        "pulse 16384 timeout",
    ];
    assert_eq!(told, expected);
}

/// The divider of FS 2 turns every four pulses.
#[test]
fn of_the_pin_64_changes_are_shown() {
    let turns = |pulses| moments(&set(&[0xA1, 0x02]).pulses(pulses));
    let full = turns(256);
    assert_eq!(full.matches(" pin ").count(), 64);
    assert!(full.starts_with("pulse 4 pin H, pulse 8 pin L, "));
    assert!(full.ends_with("pulse 256 pin L, counts 0 0 0 64"));
    let over = turns(264);
    assert_eq!(over, full.replace("0 0 0 64", "0 0 0 66"));
}

/// A count of 1 is 0 after 8 pulses and then every 16.
#[test]
fn of_the_zeros_64_are_shown() {
    let zeros = |script: Script| moments(&script.pulses(8 + 63 * 16).pulses(16));
    let told = zeros(set(&[0x84, 0x00, 0x00, 0x01]));
    let expected = "pulse 1016 zero, counts 0 0 64 0, pulse 16 zero, counts 0 0 1 0";
    assert!(told.ends_with(expected), "{told}");
    assert_eq!(shown(&told, " zero").len(), 65);
    let over = moments(&set(&[0x84, 0x00, 0x00, 0x01]).pulses(8 + 64 * 16));
    assert!(over.ends_with("pulse 1016 zero, counts 0 0 65 0"), "{over}");
    assert_eq!(shown(&over, " zero").len(), 64);
}

/// With both beyond what is shown, seconds still are.
#[test]
fn seconds_are_all_shown() {
    let script = set(&[0xA5, 0x02, 0x00, 0x01]).pulses(65_535).pulses(1);
    let told = moments(&script);
    let (first, second) = ("pulse 32768 second 219953961", "pulse 1 second 219953962");
    assert!(told.contains(first) && told.contains(second), "{told}");
    let counts = "counts 1 0 4096 16383, ";
    assert!(told.contains(counts), "{told}");
}
