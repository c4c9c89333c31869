//! The frequency output.

use super::{BY_ALARM, BY_FREQUENCY, FREQUENCY_ON, NEW_CENTURY};
use crate::script::Script;

/// Bit 3 of 10h.
const FOBAT: u8 = 0x08;

pub fn scripts() -> Vec<Script> {
    vec![
        every_choice().named("frequency: every choice"),
        one_hertz().named("frequency: one hertz"),
        free_divider().named("frequency: free divider"),
        fobat_is_only_stored().named("frequency: FOBAT is only stored"),
    ]
}

fn output(fs: u8) -> Script {
    Script::at(NEW_CENTURY).unlock_with(&[BY_FREQUENCY | FREQUENCY_ON, fs])
}

/// One power-on for all: each choice is taken one pulse before the choice
/// before it has run through its first period, and is then followed over its
/// own half up to the pulse before its end. Of FS 13 the half is seen; FS 14
/// runs along with the longest countdown.
fn every_choice() -> Script {
    let periods: [u32; 11] = [
        8, 32, 512, 1_024, 2_048, 4_096, 8_192, 16_384, 32_768, 65_536, 131_072,
    ];
    let mut script = output(0).storing(0x11, &[0x01]);
    let mut reached = 0;
    for (fs, period) in (2..).zip(periods) {
        let before_half = period / 2 - 1;
        script = script
            .storing(0x11, &[fs])
            .pulses(before_half - reached)
            .pulses(1)
            .pulses(before_half);
        reached = period - 1;
    }
    script.storing(0x11, &[0x0D]).pulses(1)
}

/// High while disabled; a write of the seconds starts the low half again,
/// and a trimmed second has its half at the same place.
fn one_hertz() -> Script {
    output(15)
        .pulses(16_383)
        .pulses(1)
        .storing(0x00, &[0x00])
        .storing(0x10, &[BY_FREQUENCY])
        .storing(0x10, &[BY_FREQUENCY | FREQUENCY_ON, 0x0F, 0x3F])
        .pulses(16_383)
        .pulses(1)
        .pulses(32_891 - 16_384)
        .pulses(1)
        .storing(0x11, &[0x01])
        .storing(0x10, &[BY_ALARM | FREQUENCY_ON])
}

/// Neither the seconds nor 11h nor trim and count restart the divider.
fn free_divider() -> Script {
    output(9)
        .pulses(8_000)
        .storing(0x00, &[0x00])
        .storing(0x11, &[0x09, 0x42, 0x01])
        .pulses(191)
        .pulses(1)
        .storing(0x00, &[0x00])
}

/// Under FOBAT the pin follows the crystal, and is low and high by turns, as
/// without it.
fn fobat_is_only_stored() -> Script {
    output(1)
        .storing(0x10, &[BY_FREQUENCY | FREQUENCY_ON | FOBAT])
        .storing(0x11, &[0x02])
        .pulses(4)
        .pulses(4)
        .fetch(0x10, 1)
}
