//! The write lock.

use super::host::Host;
use crate::registers::{CTR1, CTR2, IM, INTAF, INTDF, RAM, RTCF, WRTC1, WRTC2, WRTC3};

/// Open, with both flags set by hand.
fn flagged() -> Host {
    let mut host = Host::open();
    host.chip.regs[CTR1] |= INTAF | INTDF;
    host
}

#[test]
fn locked_bytes_are_acknowledged_and_lost() {
    let mut host = Host::fresh();
    let before = host.chip.registers();
    host.begin_write(0, &[0x7F; 15]);
    assert_eq!(host.chip.pointer, 15);
    host.stop();
    host.write(0x11, &[0x7F; 15]);
    assert_eq!(host.chip.registers(), before);
}

#[test]
fn later_bits_wait_for_the_first() {
    let mut host = Host::fresh();
    host.write(CTR1, &[0xFF]);
    assert_eq!(host.reg(CTR1), RTCF);
    host.write(CTR2, &[WRTC1]);
    host.write(CTR1, &[WRTC3]);
    assert_eq!(host.reg(CTR1), RTCF | WRTC3);
    host.write(CTR1, &[WRTC2]);
    assert_eq!(host.reg(CTR1), RTCF | WRTC2);
    assert!(!host.chip.lock_open());
}

#[test]
fn a_half_open_lock_stores_only_the_first_bit() {
    let mut host = Host::fresh();
    host.write(CTR2, &[WRTC1]);
    host.write(CTR1, &[WRTC3]);
    host.write(CTR2, &[0xFF]);
    assert_eq!(host.reg(CTR2), WRTC1);
    host.write(RAM, &[0x55]);
    assert_eq!(host.reg(RAM), 0xA0);
}

#[test]
fn a_zero_first_bit_takes_the_others_along() {
    let mut host = flagged();
    host.write(CTR2, &[WRTC1 | IM]);
    host.write(CTR2, &[0x07]);
    assert_eq!(host.reg(CTR2), IM);
    assert_eq!(host.reg(CTR1), RTCF | INTAF | INTDF);
}

#[test]
fn a_zero_first_bit_works_when_half_open() {
    let mut host = Host::fresh();
    host.write(CTR2, &[WRTC1]);
    host.write(CTR1, &[WRTC3]);
    host.write(CTR2, &[0x00]);
    assert_eq!(host.reg(CTR1), RTCF);
    assert_eq!(host.reg(CTR2), 0);
}

#[test]
fn locking_and_unlocking_writes_clear_no_flag() {
    for locking in [0x80, 0x04, 0x00] {
        let mut host = flagged();
        host.write(CTR1, &[locking]);
        assert!(host.flag(INTAF) && host.flag(INTDF));
        host.write(CTR1, &[0x84]);
        assert!(host.chip.lock_open());
        assert!(host.flag(INTAF) && host.flag(INTDF));
    }
}

#[test]
fn flags_clear_by_zero_and_never_set() {
    for (byte, alarm, countdown) in [
        (0x84, false, false),
        (0xA4, true, false),
        (0x94, false, true),
        (0xB4, true, true),
    ] {
        let mut host = flagged();
        host.write(CTR1, &[byte]);
        assert_eq!((host.flag(INTAF), host.flag(INTDF)), (alarm, countdown));
        let mut bare = Host::open();
        bare.write(CTR1, &[byte]);
        assert!(!bare.flag(INTAF) && !bare.flag(INTDF));
    }
}

#[test]
fn the_new_state_holds_for_the_next_byte() {
    let mut host = Host::fresh();
    host.begin_write(CTR2, &[WRTC1]);
    host.begin_write(CTR1, &[0x84, 0xFB, 0x85]);
    host.stop();
    assert_eq!(host.reg(CTR2), 0xFB);
    assert_eq!(host.reg(0x11), 0x85);
    host.write(CTR1, &[0x04, 0x80, 0x00]);
    assert_eq!(host.reg(CTR2), 0xFB);
    assert_eq!(host.reg(0x11), 0x85);
}

#[test]
fn wrong_order_in_one_transfer_leaves_the_first_bit() {
    let mut host = Host::fresh();
    host.write(CTR1, &[0x84, 0x80]);
    assert_eq!(host.reg(CTR2), WRTC1);
    assert_eq!(host.reg(CTR1), RTCF);
    host.write(CTR1, &[0x84]);
    assert!(host.chip.lock_open());
}
