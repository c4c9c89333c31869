//! The lengths of trimmed seconds.

use super::printed;
use crate::scenarios::sheets::trim::{CRYSTALS, SECONDS, TRIMS};

/// The sheets' two formulas, and their exception with the middle bits 0.
fn by_formula(trim: u8) -> u32 {
    let low = u32::from(trim & 0x3F);
    match trim {
        0x00 | 0x01 | 0x40 | 0x41 => 32_768,
        0x02..=0x3F => 32_768 + (low - 1) * 2,
        _ => 32_768 - ((low ^ 0x3F) + 1) * 2,
    }
}

#[test]
fn the_table_follows_the_formulas() {
    for (trim, length, name) in TRIMS {
        assert_eq!(length, by_formula(trim), "{name}");
    }
}

#[test]
fn each_second_ends_at_its_pulse() {
    for (_, length, name) in TRIMS {
        let printed = printed(name);
        let shown = printed.states[1..].chunks_exact(3);
        assert_eq!(shown.len(), SECONDS.len());
        for (seconds, states) in SECONDS.into_iter().zip(shown) {
            let length = if seconds == 0x01 { 32_768 } else { length };
            let [_, before, after] = states else {
                panic!("three states");
            };
            let counters = (before.second_counter, after.second_counter);
            assert_eq!(counters, (length - 1, 0), "{name}");
            let read = (before.regs[0x00], after.regs[0x00]);
            assert_eq!(read, (seconds, seconds + 1), "{name}");
        }
    }
}

/// The worked values: (32,770 - 32,768) x 10 + 1 = 21, and -60 in seven bits.
/// With them 20 seconds take as many pulses as the crystal makes meanwhile.
#[test]
fn each_crystal_keeps_time() {
    assert_eq!(CRYSTALS.map(|(trim, _)| trim), [21, 128 - 60]);
    for (_, hertz) in CRYSTALS {
        let printed = printed(&format!(
            "003, 000: 20 seconds of a crystal with {hertz} Hz"
        ));
        let [.., before, after] = &printed.states[..] else {
            panic!("two states");
        };
        assert_eq!((before.regs[0x00], after.regs[0x00]), (0x19, 0x20));
        assert_eq!(after.second_counter, 0);
        let pulses = printed.levels().last().map(|(at, _)| *at);
        assert_eq!(pulses, Some(20 * hertz));
    }
}
