//! What the pin shows by INTS.

use super::{flag, printed, pulse_pins, INTAF, INTDF};

/// Rows 0 to 3: high, low by the alarm, high and low by the frequency, low by
/// the countdown; and without INTAF the second of them high.
#[test]
fn each_row_has_its_source() {
    let printed = printed("003, 000: the pin by INTS, 001 differs at row 0");
    let owed = ["H", "HH LL HL LL", "HH HH HL LL"].concat();
    assert_eq!(pulse_pins(&printed), owed.replace(' ', ""));
}

#[test]
fn the_flags_are_up_meanwhile() {
    let printed = printed("003, 000: the pin by INTS, 001 differs at row 0");
    let flags = printed
        .states
        .iter()
        .map(|s| (flag(s, INTAF), flag(s, INTDF)));
    let flags: Vec<(bool, bool)> = flags.collect();
    assert_eq!(flags[2..6], [(true, true); 4]);
    assert_eq!(flags[6..], [(false, true); 6]);
}
