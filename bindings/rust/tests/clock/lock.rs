//! The lock, rules 7.1 to 7.5.

use crate::board::{fresh, open, write_at, TIME};

#[test]
fn a_fresh_clock_is_locked() {
    let mut clock = fresh(TIME);
    let before = clock.registers();
    write_at(&mut clock, 0x00, &[0xFF; 15]);
    write_at(&mut clock, 0x11, &[0xFF; 15]);
    assert_eq!(clock.registers(), before);
}

#[test]
fn an_open_clock_stores_all_but_fixed_bits() {
    let mut clock = open(TIME);
    write_at(&mut clock, 0x00, &[0xFF; 15]);
    write_at(&mut clock, 0x11, &[0xFF; 15]);
    let mut stored = [0xFF; 32];
    // The bits that always read 0, rule 2.2.
    stored[..7].copy_from_slice(&[0x7F, 0x7F, 0xBF, 0x07, 0x3F, 0x1F, 0xFF]);
    stored[7..15].copy_from_slice(&[0x7F, 0x7F, 0x3F, 0x7F, 0x3F, 0x1F, 0xFF, 0x7F]);
    stored[0x0F..0x13].copy_from_slice(&[0x85, 0x80, 0xBF, 0x7F]);
    assert_eq!(clock.registers(), stored);
}

#[test]
fn a_0_for_wrtc1_closes_all_three_bits() {
    let mut clock = open(TIME);
    write_at(&mut clock, 0x10, &[0x02]);
    assert_eq!(clock.registers()[0x0F..0x11], [0x01, 0x00]);
    write_at(&mut clock, 0x00, &[0x59]);
    assert_eq!(clock.register(0x00), Some(0x20));
}
