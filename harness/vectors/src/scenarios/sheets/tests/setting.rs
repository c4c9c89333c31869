//! The time that is set, and the days of the months.

use super::{printed, time};
use crate::scenarios::sheets::setting::MONTH_ENDS;
use crate::scenarios::sheets::EXAMPLE_TIME;

#[test]
fn the_example_is_stored_and_read_back() {
    let printed = printed("003, 001: setting 20 19 98 03 20 12 06");
    let read = printed.bytes_read();
    assert_eq!(read, [0x20, 0x19, 0x98, 0x03, 0x20, 0x12, 0x06]);
    assert_eq!(read[2] & 0x7F, 0x18);
    let writing = "-- AK AK AK AK AK AK AK AK AK --";
    assert!(printed.answers().contains(writing));
}

#[test]
fn the_second_begins_with_the_write() {
    let printed = printed("003, 001: setting 20 19 98 03 20 12 06");
    let [.., before, after] = &printed.states[..] else {
        panic!("two states");
    };
    assert_eq!(time(before), EXAMPLE_TIME);
    assert_eq!(before.second_counter, 32_767);
    assert_eq!(time(after), [0x21, 0x19, 0x98, 0x03, 0x20, 0x12, 0x06]);
    assert_eq!((after.regs[0x0F], after.regs[0x10]), (0x01, 0x00));
}

#[test]
fn a_cleared_trim_leaves_the_second_20h_plain() {
    let printed = printed("003: setting with the trim cleared");
    let [.., before, after] = &printed.states[..] else {
        panic!("two states");
    };
    assert_eq!((before.regs[0x00], before.regs[0x12]), (0x20, 0x00));
    assert_eq!((after.regs[0x00], after.regs[0x12]), (0x21, 0x00));
}

#[test]
fn each_month_has_its_days() {
    let printed = printed("003, 001: the last day of each month");
    let after = printed.states[1..].chunks_exact(2).map(|pair| &pair[1]);
    assert_eq!(after.len(), MONTH_ENDS.len());
    for (n, (chip, (_, [year, month, day]))) in (0u8..).zip(after.zip(MONTH_ENDS)) {
        let weekday = (n % 7 + 1) % 7;
        let expected = [0x00, 0x00, 0x80, weekday, day, month, year];
        assert_eq!(time(chip), expected);
    }
}
