//! What the alarm compares, and what clears its flag.

use super::host::Host;
use crate::registers::{
    ALARM_DAY, ALARM_ENABLE, ALARM_HOURS, ALARM_SECONDS, ALARM_WEEKDAYS, CTR1, CTR2, INTAE, INTAF,
    INTDF, SECONDS,
};
use crate::PIN_PULSE;

/// Nothing but the seconds changes a second later.
const TIME: [u8; 7] = [0x01, 0x02, 0x83, 4, 0x05, 0x06, 0x07];

/// What TIME meets then.
const MEETS: [u8; 7] = [0x02, 0x02, 0x03, 0x10, 0x05, 0x06, 0x07];

/// Every field changes a second later.
const CENTURY_END: [u8; 7] = [0x59, 0x59, 0xA3, 3, 0x31, 0x12, 0x99];

/// What CENTURY_END meets then, in each field and not before.
const MEETS_NEXT: [u8; 7] = [0x00, 0x00, 0x00, 0x10, 0x01, 0x01, 0x00];

/// Does the alarm ring one second after the century's end with these registers?
fn rings(alarm: [u8; 7], enable: u8) -> bool {
    rings_after(CENTURY_END, alarm, enable)
}

pub fn rings_after(time: [u8; 7], alarm: [u8; 7], enable: u8) -> bool {
    let mut host = Host::open_at(time);
    host.write(ALARM_SECONDS, &alarm);
    host.write(ALARM_ENABLE, &[enable]);
    host.write(CTR2, &[0x80 | INTAE]);
    host.second();
    assert_eq!(host.flag(INTAF), host.chip.alarm_pulse > 0);
    host.flag(INTAF)
}

/// A chip that rings at each second 02h and has just been set to TIME.
fn ringing() -> Host {
    let mut host = Host::open_at(TIME);
    host.write(ALARM_SECONDS, &[0x02]);
    host.write(ALARM_ENABLE, &[0x01]);
    host.write(CTR2, &[0x80 | INTAE]);
    host
}

#[test]
fn each_enabled_field_must_meet() {
    for enable in 1..=0x7F {
        assert!(rings(MEETS_NEXT, enable));
    }
    for bit in [0u8, 1, 2, 3, 4, 5, 6] {
        let mut alarm = MEETS_NEXT;
        alarm[usize::from(bit)] ^= 0x18;
        assert!(!rings(alarm, 1 << bit));
        let others = 0x7F & !(1 << bit) & !0x08;
        assert!(rings(alarm, others));
    }
}

/// One field that begins to meet is enough, whichever it is.
#[test]
fn one_enabled_field_must_not_have_met_before() {
    for bit in 0..7 {
        assert!(!rings_after(TIME, MEETS, 0x7E & 1 << bit));
        assert!(rings_after(TIME, MEETS, 0x01 | 1 << bit));
    }
}

#[test]
fn nothing_enabled_never_rings() {
    for (time, alarm) in [(TIME, MEETS), (CENTURY_END, MEETS_NEXT)] {
        assert!(!rings_after(time, alarm, 0x00));
        assert!(!rings_after(time, alarm, 0x80));
    }
}

#[test]
fn the_day_hides_the_weekday() {
    let mut alarm = MEETS_NEXT;
    alarm[3] = 0x00;
    assert!(rings(alarm, 0x18));
    assert!(!rings(alarm, 0x08));
    alarm[3] = 0x7F;
    assert!(rings(alarm, 0x18));
    alarm[ALARM_DAY - ALARM_SECONDS] = 0x06;
    assert!(!rings(alarm, 0x18));
    let mut minute_off = MEETS_NEXT;
    minute_off[1] = 0x03;
    assert!(!rings(minute_off, 0x1A));
}

/// The seconds begin the match; the weekday is held.
#[test]
fn weekdays_are_bits_and_seven_has_none() {
    for weekday in 0..8u8 {
        for bit in 0..8u8 {
            let mut time = TIME;
            time[3] = weekday;
            let mut alarm = MEETS;
            alarm[ALARM_WEEKDAYS - ALARM_SECONDS] = 1 << bit;
            let expected = weekday == bit && weekday != 7;
            assert_eq!(rings_after(time, alarm, 0x09), expected);
        }
    }
}

/// The seconds begin the match; the hour is held.
#[test]
fn hours_compare_the_afternoon_bit_but_not_the_mode() {
    let hour = |time: u8, alarm: u8| {
        let mut at = TIME;
        at[2] = time;
        let mut registers = MEETS;
        registers[ALARM_HOURS - ALARM_SECONDS] = alarm;
        rings_after(at, registers, 0x05)
    };
    assert!(hour(0x29, 0x29));
    assert!(!hour(0x29, 0x09));
    assert!(hour(0x12, 0x12));
    assert!(hour(0x92, 0x12));
    assert!(hour(0x92, 0x92));
}

#[test]
fn a_write_into_a_match_does_not_ring() {
    let mut host = ringing();
    host.write(SECONDS, &[0x02]);
    assert!(!host.flag(INTAF));
    host.write(ALARM_ENABLE, &[0x01]);
    host.pulses(32_767);
    assert!(!host.flag(INTAF));
    host.pulses(1);
    assert!(!host.flag(INTAF));
}

#[test]
fn an_alarm_switched_off_leaves_no_trace() {
    let mut host = ringing();
    host.write(CTR2, &[0x80]);
    host.second();
    host.write(CTR2, &[0x80 | INTAE]);
    assert!(!host.flag(INTAF));
    assert_eq!(host.chip.alarm_pulse, 0);
    host.pulses(32_767);
    assert!(!host.flag(INTAF));
}

#[test]
fn a_stored_enable_clears_the_flag_alone() {
    for value in [0x00, 0x01, 0xFF] {
        let mut host = ringing();
        host.second();
        host.chip.regs[CTR1] |= INTDF;
        host.write(ALARM_ENABLE, &[value]);
        assert!(!host.flag(INTAF));
        assert!(host.flag(INTDF));
        assert_eq!(host.chip.alarm_pulse, PIN_PULSE);
    }
}

#[test]
fn a_locked_enable_clears_nothing() {
    let mut host = ringing();
    host.write(CTR1, &[0x80]);
    host.second();
    host.write(ALARM_ENABLE, &[0x00]);
    assert!(host.flag(INTAF));
    assert_eq!(host.reg(ALARM_ENABLE), 0x01);
}

#[test]
fn other_alarm_writes_keep_the_flag() {
    let mut host = ringing();
    host.second();
    host.write(ALARM_SECONDS, &[0, 0, 0, 0, 0, 0, 0]);
    assert!(host.flag(INTAF));
}

#[test]
fn illegal_bytes_compare_as_they_stand() {
    let time = [0x01, 0x7A, 0x83, 4, 0x3F, 0x1F, 0xFA];
    let alarm = [0x02, 0x7A, 0x03, 0, 0x3F, 0x1F, 0xFA];
    assert!(rings_after(time, alarm, 0x77));
}
