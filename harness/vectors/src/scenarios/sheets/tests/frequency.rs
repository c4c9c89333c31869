//! The edges of each frequency.

use super::{printed, pulse_pins, Printed};
use crate::scenarios::sheets::frequency::PERIODS;

/// Low in the first half of each period and high in the second, with both
/// edges seen at the pulse and the one before, over two periods.
fn check(printed: &Printed, period: u32) {
    let levels = printed.levels();
    for (at, pin) in &levels {
        let low = at % period < period / 2;
        assert_eq!(*pin, if low { 'L' } else { 'H' }, "{} {at}", printed.name);
    }
    let seen: Vec<u32> = levels.into_iter().map(|(at, _)| at).collect();
    for half in 1..=4 {
        let edge = half * period / 2;
        assert!(seen.contains(&(edge - 1)) && seen.contains(&edge));
    }
}

/// The table's frequencies from FS 2 to FS 14: so many periods in so many
/// seconds.
const FREQUENCIES: [(u32, u32); 13] = [
    (4_096, 1),
    (1_024, 1),
    (64, 1),
    (32, 1),
    (16, 1),
    (8, 1),
    (4, 1),
    (2, 1),
    (1, 1),
    (1, 2),
    (1, 4),
    (1, 8),
    (1, 16),
];

#[test]
fn each_frequency_of_the_table() {
    for ((fs, period), (periods, seconds)) in PERIODS.into_iter().zip(FREQUENCIES) {
        assert_eq!(periods * period, seconds * 32_768);
        if fs != 10 {
            let name = format!("003, 000, 001: the frequency of FS {fs}");
            check(&printed(&name), period);
        }
    }
}

#[test]
fn one_hertz() {
    check(&printed("003, 001: the example of 1 Hz, FS 10"), 32_768);
}

/// 20,000 pulses after power-on the time is set: from then on there are halves,
/// and the falls are where 00h changes. The divider would have fallen earlier.
#[test]
fn one_second_falls_with_the_time() {
    let printed = printed("003, 000, 001: FS 15, 1 second");
    let edges = (1..=4).flat_map(|half| [half * 16_384 - 1, half * 16_384]);
    let after = edges.zip("LHHLLHHL".chars());
    let mut expected = vec![(20_000, 'H')];
    expected.extend(after.map(|(at, pin)| (20_000 + at, pin)));
    assert_eq!(printed.levels(), expected);
    let seconds: Vec<u8> = printed.states[1..].iter().map(|s| s.regs[0x00]).collect();
    assert_eq!(seconds, [0x00, 0x00, 0x01, 0x01, 0x02]);
}

#[test]
fn nothing_and_the_crystal() {
    let printed = printed("003, 000: FS 0 is nothing and FS 1 the crystal");
    assert_eq!(pulse_pins(&printed), "HXX");
    assert!(printed.pins().ends_with("XXXXHH"));
}

#[test]
fn the_trim_tells_1_second_from_1_hertz() {
    let second = printed("003, 001: FS 15 follows the trimmed second");
    let ends = [16_383, 16_384, 32_891, 32_892, 49_275, 49_276];
    let expected: Vec<(u32, char)> = ends.into_iter().zip("LHHLLH".chars()).collect();
    assert_eq!(second.levels(), expected);
    let hertz = printed("003: FS 10 does not follow the trim, 000 differs");
    assert_eq!(hertz.last().regs[0x12], 0x3F);
    check(&hertz, 32_768);
}
