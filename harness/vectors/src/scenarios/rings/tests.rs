//! What the rules say of a match that begins, lasts and ends.

use super::{items, ILLEGAL};
use crate::scenarios::printed::{time, Printed};
use reference::{Chip, PIN_PULSE};

const INTAF: u8 = 0x20;

fn printed(name: &str) -> Printed {
    Printed::among(items(), name)
}

/// The pin after each event of pulses.
fn pins(name: &str) -> String {
    let levels = printed(name).levels();
    levels.into_iter().map(|(_, pin)| pin).collect()
}

fn flagged(chip: &Chip) -> bool {
    chip.regs[0x0F] & INTAF != 0
}

/// Low for 8,192 pulses from 20:30:00 on, and never again in that minute, nor in
/// the next. 0Fh has its two lock bits and RTCF.
#[test]
fn a_minute_rings_once() {
    let name = "ring: a minute, once";
    assert_eq!(pins(name), "LLHHHH");
    let printed = printed(name);
    assert_eq!(printed.bytes_read(), [0x85]);
    assert!(printed.states.iter().all(|chip| !flagged(chip)));
    let times: Vec<[u8; 7]> = printed.states.iter().map(time).collect();
    assert_eq!(times[0][..2], [0x00, 0x30]);
    assert_eq!(times[1][..2], [0x59, 0x30]);
    assert_eq!(times[2][..2], [0x00, 0x31]);
}

/// A ring holds the pin as the second begins; a second later none does.
#[test]
fn each_field_alone_rings_once() {
    for bit in 0..7 {
        let name = format!("ring: field {bit} alone");
        assert_eq!(pins(&name), "LH", "{name}");
        assert!(flagged(printed(&name).last()), "{name}");
    }
}

/// Only the last second, before which the time is set back, begins a match.
#[test]
fn no_way_into_a_match_rings() {
    for (name, owed) in [
        ("ring: a time written into a match", "HHHHL"),
        ("ring: an alarm register written into a match", "HHL"),
        ("ring: 0Eh written inside a match", "HHHHHL"),
        ("ring: INTAE set inside a match", "HHHHL"),
    ] {
        assert_eq!(pins(name), owed, "{name}");
        assert_eq!(printed(name).last().alarm_pulse, PIN_PULSE, "{name}");
    }
}

/// Into Monday, into Tuesday, into Wednesday.
#[test]
fn two_weekdays_in_a_row_ring_on_the_first() {
    let name = "ring: Monday with Tuesday";
    assert_eq!(pins(name), "LHH");
    assert_eq!(printed(name).last().regs[0x03..0x05], [0x03, 0x13]);
}

/// At 20:30:00, at 20:31:00, and around 20:30:00 once more, all with INTAF set.
#[test]
fn a_match_that_begins_again_rings_again() {
    let name = "ring: a match that ends and begins again";
    assert_eq!(pins(name), "LHHL");
    let printed = printed(name);
    assert!(printed.states.iter().all(flagged));
    assert_eq!(printed.last().alarm_pulse, PIN_PULSE);
}

/// 7Ah is a match before and after; 5Ah is none with 00h, and its own ends.
#[test]
fn illegal_bytes_are_compared_as_they_stand() {
    for (at, (.., rings)) in ILLEGAL.into_iter().enumerate() {
        let owed = if rings { "L" } else { "H" };
        assert_eq!(pins(&format!("ring: illegal bytes {at}")), owed, "{at}");
    }
}

#[test]
fn a_state_needs_no_memory_of_a_match() {
    let printed = printed("ring: a state inside a match");
    let chip = printed.last();
    assert_eq!((chip.regs[0x00], chip.second_counter), (0x11, 0));
    assert!(!flagged(chip) && chip.alarm_pulse == 0);
}
