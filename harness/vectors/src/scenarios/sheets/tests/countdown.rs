//! The zeros of the countdown.

use super::{flag, printed, pulse_pins, INTDF};
use crate::scenarios::sheets::countdown::TICKS;

/// The sources as the table has them: 4,096 Hz, 64 Hz, 1 Hz and 1/60 Hz.
#[test]
fn the_ticks_are_the_sources() {
    assert_eq!(TICKS, [32_768 / 4_096, 32_768 / 64, 32_768, 60 * 32_768]);
}

/// At the pulse before each zero, and at it; between them one tick to load.
fn check(name: &str, tick: u32, count: u8) {
    let printed = printed(name);
    let first = tick * u32::from(count);
    let zeros = [first, 2 * first + tick];
    for (at, pin) in printed.levels() {
        let low = zeros.contains(&at);
        assert_eq!(pin, if low { 'L' } else { 'H' }, "{name} {at}");
    }
    let seen: Vec<u32> = printed.levels().into_iter().map(|(at, _)| at).collect();
    for zero in zeros {
        assert!(seen.contains(&(zero - 1)) && seen.contains(&zero));
    }
    let counts: Vec<u8> = printed.states[2..].iter().map(|s| s.regs[0x13]).collect();
    assert_eq!(counts, [0, 0, 1, 0]);
}

#[test]
fn each_source_fires() {
    check(
        "003, 000: countdown at 4,096 Hz, 001 has 24 bits",
        TICKS[0],
        3,
    );
    check(
        "003, 000: countdown at 64 Hz, 001 has 1,024 Hz",
        TICKS[1],
        2,
    );
    check("003, 000: countdown at 1 Hz", TICKS[2], 2);
}

#[test]
fn a_minute_is_sixty_seconds() {
    let printed = printed("003, 000: countdown at 1/60 Hz");
    let pins = pulse_pins(&printed);
    assert!(pins.starts_with("HHH") && pins.ends_with("HL"));
    let [.., before, after] = &printed.states[..] else {
        panic!("two states");
    };
    assert_eq!((before.regs[0x13], flag(before, INTDF)), (1, false));
    assert_eq!((after.regs[0x13], flag(after, INTDF)), (0, true));
    assert_eq!(after.regs[..2], [0x00, 0x01]);
}

/// From zero to zero FFh takes the most that the sheets name, 256 ticks; the
/// first zero comes a tick earlier, for nothing is loaded before it.
#[test]
fn the_longest_count() {
    let name = "003, 000: 256 ticks, FFh at 4,096 Hz";
    check(name, TICKS[0], 0xFF);
    let levels = printed(name).levels();
    let low = levels.into_iter().filter(|(_, pin)| *pin == 'L');
    let zeros: Vec<u32> = low.map(|(at, _)| at).collect();
    assert_eq!(zeros, [255 * 8, 255 * 8 + 256 * 8]);
}

/// FFh needs 255 minutes down to 0 and one to be loaded: 256 in all.
#[test]
fn the_longest_period() {
    let minutes = [
        ("first", 0xFF, 0xFE),
        ("zero", 0x01, 0x00),
        ("load", 0x00, 0xFF),
    ];
    for (name, before, after) in minutes {
        let printed = printed(&format!("003, 000: 256 minutes, the {name}"));
        let counts: Vec<u8> = printed.states.iter().map(|s| s.regs[0x13]).collect();
        assert_eq!(counts, [before, after]);
        let prescalers: Vec<u32> = printed.states.iter().map(|s| s.prescaler).collect();
        assert_eq!(prescalers, [60 * 32_768 - 1, 0]);
        let fires = name == "zero";
        assert!(!flag(&printed.states[0], INTDF));
        assert_eq!(flag(printed.last(), INTDF), fires);
        assert_eq!(printed.pins(), if fires { "HHL" } else { "HHH" });
    }
}

#[test]
fn pulses_are_250_ms_long() {
    let printed = printed("003: countdown with pulses of 250 ms");
    let zeros = [32_768, 3 * 32_768];
    let edges = zeros
        .map(|at| [at - 1, at, at + 8_191, at + 8_192])
        .concat();
    let levels = printed.levels();
    let expected: Vec<(u32, char)> = edges.into_iter().zip("HLLHHLLH".chars()).collect();
    let seen: Vec<(u32, char)> = levels
        .into_iter()
        .filter(|l| expected.contains(l))
        .collect();
    assert_eq!(seen, expected);
}

#[test]
fn a_new_number_counts_from_its_start() {
    let printed = printed("003: a countdown that is set anew");
    assert_eq!(pulse_pins(&printed), "HHHL");
    assert_eq!((printed.last().reload, printed.last().regs[0x13]), (2, 0));
}
