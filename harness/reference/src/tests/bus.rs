//! The bus.

use super::host::{Host, NEW_CENTURY};
use crate::registers::{ARST, COUNTDOWN, CTR1, CTR2, CTR3, INTAF, INTDE, INTDF, RAM, SECONDS};
use crate::{Answer, Phase, Stage};

/// Open, both flags set by hand, CTR3 as given.
fn flagged(ctr3: u8) -> Host {
    let mut host = Host::open();
    host.write(CTR3, &[ctr3]);
    host.chip.regs[CTR1] |= INTAF | INTDF;
    host
}

fn has_flags(host: &Host) -> bool {
    host.flag(INTAF) && host.flag(INTDF)
}

#[test]
fn the_worked_example() {
    let mut host = Host::at([0x20, 0x19, 0x98, 0x03, 0x20, 0x12, 0x06]);
    host.send(&[0x65]);
    assert_eq!(host.read(), 0x20);
    assert_eq!(host.read_nak(), 0x19);
    host.stop();
}

#[test]
fn answers_have_two_characters() {
    assert_eq!(&Answer::None.text(), b"--");
    assert_eq!(&Answer::Ack.text(), b"AK");
    assert_eq!(&Answer::Nak.text(), b"NK");
    assert_eq!(&Answer::Byte(0x0A).text(), b"0A");
    assert_eq!(&Answer::Byte(0xF9).text(), b"F9");
}

#[test]
fn a_start_without_stop_reads_on() {
    let mut host = Host::fresh();
    host.begin_read(RAM);
    assert_eq!(host.read(), 0xA0);
    assert_eq!(host.read_nak(), 0xA1);
    host.send(&[0x65]);
    assert_eq!(host.read(), 0xA2);
    host.stop();
    host.send(&[0x65]);
    assert_eq!(host.read(), NEW_CENTURY[SECONDS]);
}

#[test]
fn a_data_byte_steps_the_pointer() {
    let mut host = Host::open();
    host.begin_write(RAM, &[0x11, 0x22]);
    host.send(&[0x65]);
    assert_eq!(host.read(), 0xA2);
}

#[test]
fn a_refused_pointer_leaves_the_pointer() {
    let mut host = Host::fresh();
    host.send(&[0x64, RAM as u8]);
    host.send(&[0x64]);
    assert_eq!(host.byte(0x20), Answer::Nak);
    assert_eq!(host.byte(0x00), Answer::Nak);
    host.send(&[0x65]);
    assert_eq!(host.read(), 0xA0);
}

#[test]
fn every_pointer_byte_is_judged() {
    for byte in 0..=0xFF {
        let mut host = Host::fresh();
        host.send(&[0x64]);
        let good = host.byte(byte) == Answer::Ack;
        assert_eq!(good, byte < 0x20);
    }
}

#[test]
fn every_address_byte_is_judged() {
    for byte in 0..=0xFF {
        let mut host = Host::fresh();
        host.start();
        let good = host.byte(byte) == Answer::Ack;
        assert_eq!(good, byte == 0x64 || byte == 0x65);
        if !good {
            assert_eq!(host.byte(0x64), Answer::Nak);
            assert_eq!(host.read(), 0xFF);
            host.send(&[0x64]);
        }
    }
}

#[test]
fn the_read_address_elsewhere_is_an_ordinary_byte() {
    let mut host = Host::open();
    host.begin_write(RAM, &[0x65]);
    assert_eq!(host.reg(RAM), 0x65);
    host.send(&[0x64]);
    assert_eq!(host.byte(0x65), Answer::Nak);
}

#[test]
fn time_is_read_as_latched() {
    let mut host = Host::at([0x59, 0x59, 0xA3, 6, 0x31, 0x12, 0x99]);
    host.pulses(32_760);
    host.send(&[0x65]);
    assert_eq!(host.read(), 0x59);
    host.pulses(8);
    let rest: Vec<u8> = (0..6).map(|_| host.read()).collect();
    assert_eq!(rest, [0x59, 0xA3, 6, 0x31, 0x12, 0x99]);
    host.stop();
    host.send(&[0x65]);
    assert_eq!(host.read(), 0x00);
}

#[test]
fn the_latch_is_taken_at_the_address_byte() {
    let mut host = Host::fresh();
    host.pulses(32_760);
    host.start();
    host.pulses(8);
    assert_eq!(host.byte(0x65), Answer::Ack);
    assert_eq!(host.read(), 0x01);
}

#[test]
fn a_wrap_while_reading_latches_at_once() {
    for last in [false, true] {
        let mut host = Host::fresh();
        host.pulses(32_760);
        host.begin_read(0x1F);
        host.pulses(8);
        let byte = if last { host.read_nak() } else { host.read() };
        assert_eq!(byte, 0xAB);
        assert_eq!(host.chip.latch[0], 0x01);
        assert_eq!(host.chip.pointer, 0);
    }
}

#[test]
fn after_the_wrap_the_new_latch_stands() {
    let mut host = Host::fresh();
    host.pulses(32_760);
    host.begin_read(0x1F);
    host.read();
    host.pulses(8);
    assert_eq!(host.read(), 0x00);
    assert_eq!(host.reg(SECONDS), 0x01);
}

#[test]
fn a_wrap_while_writing_latches_nothing() {
    let mut host = Host::open();
    host.write(SECONDS, &[0x33]);
    host.begin_write(0x1F, &[0x55, 0x44]);
    assert_eq!(host.chip.latch, [0; 7]);
    assert_eq!(host.reg(SECONDS), 0x44);
    assert_eq!(host.chip.pointer, 1);
}

#[test]
fn a_stored_time_leaves_the_latch() {
    let mut host = Host::open();
    host.send(&[0x65]);
    let latch = host.chip.latch;
    host.write(0, &[0x12, 0x34, 0x85, 1, 0x02, 0x03, 0x04]);
    assert_eq!(host.chip.latch, latch);
}

#[test]
fn registers_past_the_time_are_live() {
    let mut host = Host::open();
    host.write(COUNTDOWN, &[1]);
    host.write(CTR2, &[0x80 | INTDE]);
    host.begin_read(CTR1);
    host.pulses(8);
    assert_eq!(host.read(), 0x95);
}

#[test]
fn bytes_in_other_phases_change_nothing() {
    let mut host = Host::fresh();
    assert_eq!(host.byte(0x64), Answer::Nak);
    host.begin_read(RAM);
    assert_eq!(host.byte(0x64), Answer::Nak);
    assert_eq!(host.read(), 0xA0);
    assert_eq!(host.read_nak(), 0xA1);
    let deaf = host.chip.clone();
    assert_eq!(host.byte(0x65), Answer::Nak);
    assert_eq!(host.chip, deaf);
}

#[test]
fn reads_in_other_phases_change_nothing() {
    let mut host = flagged(ARST);
    let prepare: [&[u8]; 3] = [&[], &[0x64], &[0x64, 0x0F]];
    for bytes in prepare {
        host.send(bytes);
        let before = host.chip.clone();
        assert_eq!(host.read(), 0xFF);
        assert_eq!(host.read_nak(), 0xFF);
        assert_eq!(host.chip, before);
        host.stop();
        assert_eq!(host.read_nak(), 0xFF);
        assert!(has_flags(&host));
    }
}

#[test]
fn stop_clears_the_flags_that_were_read() {
    for last in [false, true] {
        let mut host = flagged(ARST);
        host.begin_read(CTR1);
        let byte = if last { host.read_nak() } else { host.read() };
        assert_eq!(byte, 0xB5);
        assert!(has_flags(&host));
        host.stop();
        assert_eq!(host.reg(CTR1), 0x85);
    }
}

#[test]
fn without_arst_or_read_the_flags_stay() {
    let mut host = flagged(0);
    host.begin_read(CTR1);
    host.read();
    host.stop();
    assert!(has_flags(&host));
    let mut host = flagged(ARST);
    host.begin_read(CTR2);
    host.read();
    host.stop();
    host.stop();
    assert!(has_flags(&host));
}

#[test]
fn arst_counts_as_it_stands_at_stop() {
    for (before, after) in [(0, ARST), (ARST, 0)] {
        let mut host = flagged(before);
        host.begin_read(CTR1);
        host.read_nak();
        host.write(CTR3, &[after]);
        assert_eq!(has_flags(&host), after == 0);
    }
}

#[test]
fn the_mark_survives_starts_but_not_the_transfer() {
    let mut host = flagged(ARST);
    host.begin_read(CTR1);
    host.read_nak();
    host.start();
    assert_eq!(host.byte(0x00), Answer::Nak);
    host.stop();
    assert!(!has_flags(&host));
    host.chip.regs[CTR1] |= INTAF | INTDF;
    host.begin_read(CTR2);
    host.read_nak();
    host.stop();
    assert!(has_flags(&host));
}

#[test]
fn a_flag_raised_before_stop_clears_unread() {
    let mut host = Host::open();
    host.write(CTR3, &[ARST]);
    host.write(COUNTDOWN, &[1]);
    host.write(CTR2, &[0x80 | INTDE]);
    host.begin_read(CTR1);
    assert_eq!(host.read_nak(), 0x85);
    host.pulses(8);
    assert!(host.flag(INTDF));
    host.stop();
    assert!(!host.flag(INTDF));
}

#[test]
fn arst_works_under_a_closed_lock_and_keeps_the_pulses() {
    let mut host = flagged(ARST);
    host.chip.alarm_pulse = 77;
    host.write(CTR2, &[0x00]);
    host.begin_read(CTR1);
    host.read_nak();
    host.stop();
    assert_eq!(host.reg(CTR1), 0x01);
    assert_eq!(host.chip.alarm_pulse, 77);
}

#[test]
fn time_out_clears_no_flag_and_the_pointer() {
    let mut host = flagged(ARST);
    host.begin_read(CTR1);
    host.read();
    host.pulses(16_384);
    assert_eq!(host.chip.phase, Phase::Closed);
    assert_eq!(host.chip.pointer, 0);
    host.stop();
    assert!(has_flags(&host));
}

#[test]
fn a_repeated_start_does_not_renew_the_age() {
    let mut host = Host::fresh();
    host.start();
    assert_eq!(host.byte(0x01), Answer::Nak);
    host.pulses(16_000);
    host.send(&[0x65]);
    host.pulses(383);
    assert_eq!(host.read(), 0x00);
    host.pulses(1);
    assert_eq!(host.read(), 0xFF);
    host.send(&[0x65]);
    host.pulses(16_383);
    assert_ne!(host.read(), 0xFF);
}

#[test]
fn a_closed_bus_does_not_age() {
    let mut host = Host::fresh();
    host.pulses(20_000);
    host.send(&[0x65]);
    host.pulses(12_000);
    assert_eq!(host.read(), 0x00);
}

#[test]
fn stop_without_transfer_only_resets_the_pointer() {
    let mut host = flagged(ARST);
    host.chip.pointer = 9;
    let mut expected = host.chip.clone();
    expected.pointer = 0;
    host.stop();
    assert_eq!(host.chip, expected);
}

#[test]
fn deaf_keeps_the_transfer() {
    let mut host = Host::fresh();
    host.begin_read(RAM);
    host.pulses(10);
    host.read_nak();
    assert_eq!(
        host.chip.phase,
        Phase::Open {
            stage: Stage::Deaf,
            age: 10,
            saw_ctr1: false
        }
    );
    assert_eq!(host.read(), 0xFF);
    host.send(&[0x65]);
    assert_eq!(host.read(), 0xA1);
}

#[test]
fn the_closing_pulse_runs_its_other_stages() {
    let mut host = Host::open();
    host.pulses(32_768 - 16_384);
    host.write(COUNTDOWN, &[1]);
    host.write(CTR2, &[0x80 | INTDE]);
    host.start();
    host.pulses(16_384);
    assert_eq!(host.chip.phase, Phase::Closed);
    assert_eq!(host.reg(SECONDS), 0x01);
    assert!(host.flag(INTDF));
    assert_eq!(host.chip.divider, 32_768);
}
