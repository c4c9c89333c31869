//! What each order of lock bits opens and stores.

use super::{flag, items, printed, Printed, INTDF};
use crate::script::Item;

/// After each write and try: the lock bits WRTC1, WRTC2, WRTC3, and 14h.
fn steps(printed: &Printed, from: usize) -> String {
    let shown = printed.states[from..].chunks_exact(2).map(|pair| &pair[1]);
    let steps = shown.map(|chip| {
        let (ctr1, ctr2) = (chip.regs[0x0F], chip.regs[0x10]);
        let bits = [ctr2 >> 7, ctr1 >> 2 & 1, ctr1 >> 7];
        format!("{}{}{}/{:02X}", bits[0], bits[1], bits[2], chip.regs[0x14])
    });
    steps.collect::<Vec<String>>().join(" ")
}

/// Where WRTC1 comes first both orders open; else bits before it are lost.
#[test]
fn each_order_of_setting() {
    for (order, owed) in [
        ("123, as asked", "100/A0 110/A0 111/33"),
        ("132, as asked", "100/A0 101/A0 111/33"),
        ("213, not as asked", "000/A0 100/A0 101/A0"),
        ("231, not as asked", "000/A0 000/A0 100/A0"),
        ("312, not as asked", "000/A0 100/A0 110/A0"),
        ("321, not as asked", "000/A0 000/A0 100/A0"),
    ] {
        assert_eq!(steps(&in_order("setting", order), 0), owed, "{order}");
    }
}

/// Any first write locks; WRTC1 takes the others along, also when it comes
/// first and the sheets ask for it to come last.
#[test]
fn each_order_of_clearing() {
    for (order, owed) in [
        ("123, not as asked", "000/A0 000/A0 000/A0"),
        ("132, not as asked", "000/A0 000/A0 000/A0"),
        ("213, not as asked", "101/A0 000/A0 000/A0"),
        ("231, as asked", "101/A0 100/A0 000/A0"),
        ("312, not as asked", "110/A0 000/A0 000/A0"),
        ("321, as asked", "110/A0 100/A0 000/A0"),
    ] {
        assert_eq!(steps(&in_order("clearing", order), 1), owed, "{order}");
    }
}

/// The script of this order, which is written here as three digits.
fn in_order(what: &str, order: &str) -> Printed {
    let (digits, asked) = order.split_at(3);
    let bits: Vec<String> = digits.chars().map(|digit| format!("WRTC{digit}")).collect();
    printed(&format!("003, 000, 001: {what} {}{asked}", bits.join(", ")))
}

/// What each of the two writes leads to, after so many states.
#[test]
fn two_bits_in_one_byte() {
    for (writes, from, owed) in [
        ("10h = 80h, 0Fh = 84h, as asked", 0, "100/A0 111/22"),
        ("0Fh = 84h, 10h = 80h, not as asked", 0, "000/A0 100/A0"),
        ("0Fh = 00h, 10h = 00h, as asked", 1, "100/A0 000/A0"),
        ("10h = 00h, 0Fh = 00h, not as asked", 1, "000/A0 000/A0"),
    ] {
        let printed = printed(&format!("003, 000, 001: {writes}"));
        assert_eq!(steps(&printed, from), owed, "{writes}");
    }
}

#[test]
fn a_bit_that_was_lost_can_be_set_again() {
    let printed = printed("003, 000: WRTC2 set before WRTC1 and again with WRTC3");
    assert_eq!(steps(&printed, 0), "000/A0 100/A0 111/33");
}

#[test]
fn the_bytes_of_001_keep_flags() {
    let printed = printed("001: FFh to unlock and 7Bh to lock");
    let shown: Vec<[u8; 3]> = printed
        .states
        .iter()
        .map(|s| [s.regs[0x0F], s.regs[0x10], s.regs[0x14]])
        .collect();
    assert_eq!(shown[1], [0x85, 0x80, 0xA0]);
    assert_eq!(shown[3], [0x95, 0xB4, 0xA0]);
    assert_eq!(shown[4], [0x95, 0xB4, 0x11]);
    assert_eq!(shown[6], [0x11, 0xB4, 0x11]);
    assert_eq!(shown[7], [0x11, 0x34, 0x11]);
    assert!(flag(printed.last(), INTDF));
}

/// 72h for 10h and 04h for 0Fh lock, and the F2h after it finds it locked.
#[test]
fn a_missing_bit_locks_and_stores_nothing() {
    let printed = printed("003, 001: 0Fh and 10h written with a lock bit 0");
    let shown: Vec<[u8; 2]> = printed
        .states
        .iter()
        .map(|s| [s.regs[0x0F], s.regs[0x10]])
        .collect();
    let owed = [
        [0x85, 0x88],
        [0x01, 0x08],
        [0x85, 0x88],
        [0x05, 0x88],
        [0x05, 0x88],
    ];
    assert_eq!(shown, owed);
}

#[test]
fn all_orders_are_there() {
    let orders = items()
        .into_iter()
        .filter(|i| i.name().contains("ing WRTC"));
    let asked = |item: &Item| item.name().contains(", as asked");
    let (asked, others): (Vec<_>, Vec<_>) = orders.partition(asked);
    assert_eq!((asked.len(), others.len()), (4, 8));
}
