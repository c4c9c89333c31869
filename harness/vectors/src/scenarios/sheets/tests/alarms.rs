//! When the alarms ring, and when they do not.

use super::{flag, printed, pulse_pins, Printed, INTAF};
use crate::scenarios::sheets::alarms::{
    Chance, DAY_AND_WEEKDAY, FIRST_OF_MONTH, GAMES, HALF_PAST_EIGHT, MASKS, NEARER,
};

const SECOND: u32 = 32_768;

/// 250 ms.
const QUARTER: u32 = 8_192;

#[test]
fn second_20_rings_each_minute() {
    let printed = printed("003, 001: alarm example 1, second 20 of each minute");
    let first = 2 * SECOND;
    let second = first + 60 * SECOND;
    for (at, pin) in printed.levels() {
        let low = [first, second]
            .iter()
            .any(|r| (*r..r + QUARTER).contains(&at));
        assert_eq!(pin, if low { 'L' } else { 'H' }, "after {at}");
    }
    let seen: Vec<u32> = printed.levels().into_iter().map(|(at, _)| at).collect();
    for ring in [first, second] {
        let edges = [ring - 1, ring, ring + QUARTER - 1, ring + QUARTER];
        assert!(edges.iter().all(|edge| seen.contains(edge)));
    }
}

#[test]
fn second_20_is_when_it_rings() {
    let printed = printed("003, 001: alarm example 1, second 20 of each minute");
    let [.., first, second, _] = &printed.states[..] else {
        panic!("three states");
    };
    assert_eq!(first.regs[..2], [0x20, 0x00]);
    assert_eq!(second.regs[..2], [0x20, 0x01]);
    assert!(flag(first, INTAF) && flag(second, INTAF));
}

/// The pin around each chance: before it, at it, at the end of the 250 ms and
/// past them; and the flag.
fn check(printed: &Printed, chances: &[Chance], after_250_ms: char) {
    let pins = pulse_pins(printed);
    let shown = printed.states[2..].chunks_exact(3);
    assert!(shown.len() >= chances.len());
    for (n, ((_, rings), states)) in chances.iter().zip(shown).enumerate() {
        let expected = if *rings {
            format!("HLL{after_250_ms}")
        } else {
            "HHHH".to_string()
        };
        assert_eq!(pins[4 * n..][..4], expected, "chance {n}");
        assert!(!flag(&states[1], INTAF), "chance {n}");
        assert_eq!(flag(&states[2], INTAF), *rings, "chance {n}");
    }
}

#[test]
fn half_past_eight_on_three_weekdays() {
    let printed = printed("003, 001: alarm example 2, Mon Tue Fri 8:30:00");
    check(&printed, &HALF_PAST_EIGHT, 'H');
}

#[test]
fn half_past_eight_on_the_first() {
    let printed = printed("003, 001: alarm example 3, the 1st at 8:30:00");
    check(&printed, &FIRST_OF_MONTH, 'H');
}

/// With IM 0 the pin stays low as long as INTAF does: it rises with the byte
/// that clears the flag, and stays high.
#[test]
fn eight_in_the_evening_of_one_day() {
    let printed = printed("003, 001: alarm example 4, 2008-08-08 20h");
    check(&printed, &GAMES, 'L');
    assert!(printed.pins().ends_with("LLLHHH"));
    assert!(!flag(printed.last(), INTAF));
}

/// Low from eight on until the flag is cleared five seconds later, and high from
/// then on; 0Fh reads its two lock bits and RTCF.
#[test]
fn a_cleared_flag_stays_clear_up_to_nine() {
    let printed = printed("003, 001: alarm example 4 rings once");
    assert_eq!(pulse_pins(&printed), "LLLLHHH");
    assert_eq!(printed.bytes_read(), [0x85, 0x85]);
    let [.., cleared, six, _, last, nine] = &printed.states[..] else {
        panic!("states at the times that were read");
    };
    for (chip, at) in [
        (cleared, [0x05, 0x00, 0xA0]),
        (six, [0x06, 0x00, 0xA0]),
        (last, [0x59, 0x59, 0xA0]),
        (nine, [0x00, 0x00, 0xA1]),
    ] {
        assert_eq!(chip.regs[..3], at);
        assert!(!flag(chip, INTAF));
    }
}

#[test]
fn only_the_first_second_of_a_match_rings() {
    let printed = printed("003, 000, 001: the first second of a match rings");
    assert_eq!(pulse_pins(&printed), "LH");
    assert_eq!(printed.last().regs[..2], [0x01, 0x01]);
}

/// Before and at each midnight, into Sunday first.
#[test]
fn two_weekdays_in_one_byte() {
    let printed = printed("003, 000, 001: weekday alarm AW6 and AW1");
    assert_eq!(pulse_pins(&printed), "HHHLHHHHHHHHHL");
}

#[test]
fn the_day_goes_before_the_weekday() {
    let printed = printed("003, 000, 001: with day and weekday only the day");
    check(&printed, &DAY_AND_WEEKDAY, 'H');
}

/// The last flag stays at the first read, with ARST still 0, and goes with
/// the STOP of the second.
#[test]
fn the_flag_has_three_ways_to_go() {
    let printed = printed("003, 000, 001: ways to clear INTAF");
    assert_eq!(pulse_pins(&printed), "LLL");
    let shown: Vec<bool> = printed.states[2..].iter().map(|s| flag(s, INTAF)).collect();
    assert_eq!(shown, [false, false, true, true, false]);
    assert_eq!(printed.bytes_read(), [0xA5, 0xA5]);
}

#[test]
fn a_flag_cannot_be_set() {
    let printed = printed("002: a flag that is written 1 stays");
    let shown: Vec<bool> = printed.states[2..].iter().map(|s| flag(s, INTAF)).collect();
    assert_eq!(shown, [true, false, false]);
}

/// The pin at each of the times. Those that meet the day alone and the weekday
/// alone tell 17h from 0Fh.
#[test]
fn each_mask_compares_its_fields() {
    let printed = printed("002: which fields are compared, once per second differs");
    let pins = pulse_pins(&printed);
    let expected = ["LLLLLL", "HLLLLL", "HHLLLL", "HHHLHL", "HHHHLL", "HHHHHH"];
    assert_eq!(pins.len(), MASKS.len() * NEARER.len());
    for (n, (mask, expected)) in MASKS.into_iter().zip(expected).enumerate() {
        let at = n * NEARER.len();
        assert_eq!(pins[at..][..NEARER.len()], *expected, "{mask:02X}h");
    }
}
