//! The rows of the table of hours.

use super::{printed, time};
use crate::scenarios::sheets::hours::HOURS;

/// Every hour goes over into the one of the next row, and the last of them
/// takes the day along.
fn check(name: &str, hours: [u8; 24]) {
    let printed = printed(name);
    let pairs = printed.states[1..].chunks_exact(2);
    assert_eq!(pairs.len(), 24);
    for (row, pair) in pairs.enumerate() {
        let next = hours[(row + 1) % 24];
        let (weekday, day) = if row == 23 { (4, 0x21) } else { (3, 0x20) };
        let last_second = [0x59, 0x59, hours[row], 3, 0x20, 0x12, 0x06];
        assert_eq!(time(&pair[0]), last_second);
        assert_eq!(time(&pair[1]), [0, 0, next, weekday, day, 0x12, 0x06]);
    }
}

#[test]
fn the_24_hour_column() {
    check(
        "003, 001: hours in 24-hour mode",
        HOURS.map(|(hour, _)| 0x80 | hour),
    );
}

#[test]
fn the_12_hour_column() {
    check(
        "003, 001: hours in 12-hour mode",
        HOURS.map(|(_, hour)| hour),
    );
}

/// The table's rows by arithmetic: BCD, and the afternoon in bit 5.
#[test]
fn the_table_is_as_printed() {
    let bcd = |n: u8| n / 10 * 16 + n % 10;
    for (n, row) in (0..).zip(HOURS) {
        let afternoon = if n < 12 { 0x00 } else { 0x20 };
        let twelve = if n % 12 == 0 { 12 } else { n % 12 };
        assert_eq!(row, (bcd(n), bcd(twelve) | afternoon));
    }
}
