//! The registers after power-on.

use super::printed;
use crate::scenarios::sheets::EXAMPLE_TIME;

/// The tables have zeros from 07h to 13h, also for 0Fh; but RTCF tells of the
/// power-on, as 003's text and the rules have it. Time and RAM are as given.
fn defaults() -> Vec<u8> {
    let ram: Vec<u8> = (0xA0..=0xAB).collect();
    [&EXAMPLE_TIME[..], &[0; 8], &[0x01], &[0; 4], &ram].concat()
}

#[test]
fn all_registers_after_power_on() {
    let printed = printed("003, 000: registers after power-on, 0Fh differs");
    assert_eq!(printed.bytes_read(), defaults());
}

#[test]
fn all_registers_after_a_loss() {
    let printed = printed("003, 000: registers after power was lost, 0Fh differs");
    let [.., set, lost, _] = &printed.states[..] else {
        panic!("three states");
    };
    let alarm = [0x55, 0x55, 0x15, 0x55, 0x15, 0x15, 0x55, 0x55];
    assert_eq!(set.regs[0x07..0x0F], alarm);
    assert_eq!(set.regs[0x0F..0x14], [0x85, 0xFF, 0xBF, 0x7F, 0xFF]);
    assert_eq!(lost.regs[..], defaults());
    assert_eq!(printed.bytes_read(), defaults());
}
