//! Power-on, power loss and fixed bits.

use super::host::{Host, NEW_CENTURY};
use crate::registers::{
    ALARM_ENABLE, COUNTDOWN, CTR1, CTR2, CTR3, INTAF, INTDE, INTDF, RAM, RTCF, TRIM, USED,
};
use crate::{Chip, Phase, Pin};

#[test]
fn start_bytes_fill_time_then_ram() {
    let bytes: Vec<u8> = (1..=19).collect();
    let regs = Chip::power_on(&bytes).unwrap().registers();
    assert_eq!(regs[..7], [1, 2, 3, 4, 5, 6, 7]);
    assert_eq!(regs[RAM..], [8, 9, 10, 11, 12, 13, 14, 15, 16, 17, 18, 19]);
}

#[test]
fn only_the_power_flag_is_set_between_time_and_ram() {
    let host = Host::fresh();
    for at in 0x07..RAM {
        assert_eq!(host.reg(at), u8::from(at == CTR1));
    }
}

#[test]
fn a_wrong_count_goes_before_a_fixed_bit() {
    assert_eq!(Chip::power_on(&[0xFF; 18]), Err(5));
    assert_eq!(Chip::power_on(&[0xFF; 20]), Err(5));
    assert_eq!(Chip::power_on(&[]), Err(5));
    assert_eq!(Chip::power_on(&[0xFF; 19]), Err(6));
}

#[test]
fn every_fixed_time_bit_is_refused_and_no_other() {
    for (at, used) in USED.into_iter().enumerate().take(7) {
        for bit in 0..8 {
            let mut bytes = [0; 19];
            bytes[at] = 1 << bit;
            let refused = Chip::power_on(&bytes) == Err(6);
            assert_eq!(refused, used & (1 << bit) == 0);
        }
    }
    let mut ram = [0xFF; 19];
    ram[..7].copy_from_slice(&NEW_CENTURY);
    assert!(Chip::power_on(&ram).is_ok());
}

#[test]
fn illegal_time_bytes_are_kept() {
    let odd = [0x7F, 0x6A, 0x00, 0x07, 0x00, 0x1F, 0xFF];
    let mut host = Host::at(odd);
    assert_eq!(host.time(), odd);
    host.lose_power();
    assert_eq!(host.time(), odd);
}

#[test]
fn stored_writes_drop_fixed_bits() {
    let mut host = Host::open();
    host.write(0, &[0xFF; 32]);
    for (at, used) in USED.into_iter().enumerate() {
        let expected = if at == CTR1 { 0x85 } else { used };
        assert_eq!(host.reg(at), expected);
    }
}

#[test]
fn power_loss_keeps_time_and_ram_only() {
    let mut host = Host::open();
    host.write(0x07, &[1, 2, 3, 4, 5, 6, 7, 8]);
    host.write(CTR3, &[0x83, 0x15, 1]);
    host.write(CTR2, &[0xF7]);
    host.pulses(40_000);
    let time = host.time();
    host.lose_power();
    let mut expected = Host::fresh().chip;
    expected.regs[..7].copy_from_slice(&time);
    assert_eq!(host.chip, expected);
}

#[test]
fn power_loss_restarts_the_second() {
    let mut host = Host::fresh();
    host.pulses(32_767);
    host.lose_power();
    host.pulses(32_767);
    assert_eq!(host.reg(0), 0x00);
    host.pulses(1);
    assert_eq!(host.reg(0), 0x01);
}

#[test]
fn power_loss_within_a_transfer_closes_it() {
    let mut host = Host::open();
    host.begin_read(0x14);
    host.read();
    host.lose_power();
    assert_eq!(host.chip.phase, Phase::Closed);
    assert_eq!(host.read(), 0xFF);
    host.stop();
    assert_eq!(host.reg(CTR1), RTCF);
    host.send(&[0x65]);
    assert_eq!(host.read(), 0x00);
    assert_eq!(host.pin(), Pin::H);
}

#[test]
fn nothing_clears_the_power_flag() {
    let mut host = Host::open();
    host.write(CTR1, &[0x84]);
    host.write(ALARM_ENABLE, &[0]);
    host.write(CTR3, &[0x80]);
    host.begin_read(CTR1);
    host.read_nak();
    host.stop();
    host.write(CTR2, &[0]);
    host.write(CTR1, &[0]);
    assert_eq!(host.reg(CTR1), RTCF);
}

#[test]
fn reload_is_gone_after_power_loss() {
    let mut host = Host::open();
    host.write(COUNTDOWN, &[2]);
    host.lose_power();
    host.unlock();
    host.write(CTR2, &[0x80 | INTDE]);
    host.pulses(100);
    assert_eq!(host.reg(COUNTDOWN), 0);
    assert!(!host.flag(INTDF) && !host.flag(INTAF));
    assert_eq!(host.reg(TRIM), 0);
}
