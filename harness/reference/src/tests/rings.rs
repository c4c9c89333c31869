//! A match rings where it begins, and nowhere else.

use super::alarm::rings_after;
use super::host::Host;
use crate::registers::{
    ALARM_ENABLE, ALARM_MINUTES, ALARM_SECONDS, CTR1, CTR2, CTR3, INTAE, INTAF, MINUTES, SECONDS,
};
use crate::PIN_PULSE;

/// The controls with the alarm on and off.
const ON: u8 = 0x80 | INTAE;
const OFF: u8 = 0x80;

/// A second before 20:30, on Friday, 2008-08-08, in 24-hour mode.
const BEFORE: [u8; 7] = [0x59, 0x29, 0xA0, 5, 0x08, 0x08, 0x08];

/// In the middle of that minute.
const WITHIN: [u8; 7] = [0x10, 0x30, 0xA0, 5, 0x08, 0x08, 0x08];

/// A chip whose alarm is set for the minute 30h.
fn minute_alarm(time: [u8; 7]) -> Host {
    let mut host = Host::open_at(time);
    host.write(ALARM_MINUTES, &[0x30]);
    host.write(ALARM_ENABLE, &[0x02]);
    host.write(CTR2, &[ON]);
    host
}

/// A second that rings: the flag is set and the pin pulse whole.
fn rings(host: &mut Host) {
    host.second();
    assert!(host.flag(INTAF));
    assert_eq!(host.chip.alarm_pulse, PIN_PULSE);
}

/// Seconds of which none rings.
fn silent(host: &mut Host, seconds: u32) {
    for _ in 0..seconds {
        host.second();
        assert!(!host.flag(INTAF), "{:02X?}", host.time());
        assert_eq!(host.chip.alarm_pulse, 0);
    }
}

fn clear_flag(host: &mut Host) {
    host.write(CTR1, &[0x84]);
    assert!(!host.flag(INTAF));
}

/// Clears the flag and lets the pin pulse of the ring run out.
fn clear_and_let_go(host: &mut Host) {
    clear_flag(host);
    silent(host, 1);
}

#[test]
fn a_match_rings_once_where_it_begins() {
    let mut host = minute_alarm(BEFORE);
    host.pulses(32_767);
    assert!(!host.flag(INTAF));
    host.pulses(1);
    assert!(host.flag(INTAF));
    assert_eq!(host.chip.alarm_pulse, PIN_PULSE);
    clear_and_let_go(&mut host);
    silent(&mut host, 3);
}

/// The second after the last one of the match is no match and rings nothing.
#[test]
fn a_flag_cleared_inside_a_match_stays_clear_to_its_end() {
    let mut host = minute_alarm(BEFORE);
    rings(&mut host);
    clear_and_let_go(&mut host);
    silent(&mut host, 58);
    assert_eq!(host.time()[..2], [0x59, 0x30]);
    silent(&mut host, 2);
    assert_eq!(host.time()[..2], [0x01, 0x31]);
}

/// By 0Eh, and by a read of 0Fh with the STOP after it.
#[test]
fn no_other_way_to_clear_the_flag_lets_a_match_ring_again() {
    let mut by_enable = minute_alarm(BEFORE);
    rings(&mut by_enable);
    by_enable.write(ALARM_ENABLE, &[0x02]);
    silent(&mut by_enable, 3);
    let mut by_stop = minute_alarm(BEFORE);
    by_stop.write(CTR3, &[0x80]);
    rings(&mut by_stop);
    by_stop.begin_read(CTR1);
    by_stop.read_nak();
    by_stop.stop();
    silent(&mut by_stop, 3);
}

/// A flag that stays set hides nothing: the pulse runs out and stays so.
#[test]
fn the_pin_pulse_is_not_renewed_within_a_match() {
    let mut host = minute_alarm(BEFORE);
    rings(&mut host);
    host.pulses(u32::from(PIN_PULSE) - 1);
    assert_eq!(host.chip.alarm_pulse, 1);
    host.pulses(32_768 - u32::from(PIN_PULSE));
    for _ in 0..3 {
        host.pulses(1);
        assert_eq!(host.chip.alarm_pulse, 0);
        host.pulses(32_767);
    }
    assert!(host.flag(INTAF));
}

#[test]
fn a_set_flag_keeps_no_new_match_from_its_pulse() {
    let mut host = minute_alarm(BEFORE);
    rings(&mut host);
    host.pulses(10_000);
    host.write(SECONDS, &BEFORE);
    assert!(host.flag(INTAF));
    rings(&mut host);
}

#[test]
fn a_match_entered_by_a_time_write_rings_nothing() {
    let mut whole = minute_alarm(BEFORE);
    whole.write(SECONDS, &WITHIN);
    silent(&mut whole, 3);
    let mut minute_alone = minute_alarm(BEFORE);
    minute_alone.write(MINUTES, &[0x30]);
    silent(&mut minute_alone, 1);
}

/// Out of the match by a write, and into it again by the advance.
#[test]
fn a_time_written_to_just_before_a_match_rings() {
    let mut host = minute_alarm(WITHIN);
    silent(&mut host, 1);
    host.write(SECONDS, &BEFORE);
    rings(&mut host);
}

#[test]
fn a_match_entered_by_an_alarm_register_rings_nothing() {
    let mut host = minute_alarm(WITHIN);
    host.write(ALARM_MINUTES, &[0x31]);
    silent(&mut host, 2);
    host.write(ALARM_MINUTES, &[0x30]);
    silent(&mut host, 3);
}

/// From nothing, from other fields, and to the same ones again.
#[test]
fn a_match_entered_by_0e_rings_nothing() {
    for enable in [0x00, 0x01, 0x02] {
        let mut host = minute_alarm(WITHIN);
        host.write(ALARM_ENABLE, &[enable]);
        silent(&mut host, 2);
        host.write(ALARM_ENABLE, &[0x02]);
        silent(&mut host, 3);
    }
}

/// Off while it began, or off and on in the middle of it.
#[test]
fn an_alarm_switched_on_inside_a_match_rings_nothing() {
    for time in [BEFORE, WITHIN] {
        let mut host = minute_alarm(time);
        host.write(CTR2, &[OFF]);
        silent(&mut host, 2);
        host.write(CTR2, &[ON]);
        silent(&mut host, 3);
    }
}

/// The alarm as it stands at the advance is what counts, on both sides of it.
#[test]
fn an_alarm_set_just_before_its_match_rings() {
    let mut host = Host::open_at(BEFORE);
    host.pulses(32_767);
    host.write(ALARM_MINUTES, &[0x30]);
    host.write(ALARM_ENABLE, &[0x02]);
    host.write(CTR2, &[ON]);
    host.pulses(1);
    assert!(host.flag(INTAF));
    assert_eq!(host.chip.alarm_pulse, PIN_PULSE);
}

#[test]
fn seconds_alone_ring_once_in_each_minute() {
    let mut host = Host::open_at(BEFORE);
    host.write(ALARM_SECONDS, &[0x20]);
    host.write(ALARM_ENABLE, &[0x01]);
    host.write(CTR2, &[ON]);
    for minute in [0x30, 0x31, 0x32] {
        let seconds = if minute == 0x30 { 20 } else { 58 };
        silent(&mut host, seconds);
        rings(&mut host);
        assert_eq!(host.time()[..2], [0x20, minute]);
        clear_and_let_go(&mut host);
    }
}

/// Weekdays are held by their bits, Sunday's being the lowest: both days are
/// one match, which begins with the first.
#[test]
fn monday_with_tuesday_rings_at_the_midnight_into_monday_only() {
    for weekday in 0..7 {
        let eve = [0x59, 0x59, 0xA3, weekday, 0x08, 0x08, 0x08];
        let alarm = [0, 0, 0, 0b0000_0110, 0, 0, 0];
        let into = (weekday + 1) % 7;
        assert_eq!(rings_after(eve, alarm, 0x08), into == 1, "{into}");
    }
}

/// The four fields of the sheet's example: year, month, day and hour.
const GAMES: [u8; 7] = [0, 0, 0x20, 0, 0x08, 0x08, 0x08];

#[test]
fn the_games_ring_at_eight_in_the_evening_of_one_day() {
    let eve = [0x59, 0x59, 0x99, 5, 0x08, 0x08, 0x08];
    assert!(rings_after(eve, GAMES, 0x74));
    for (at, other) in [
        (2, 0x98),
        (2, 0xA0),
        (4, 0x07),
        (4, 0x09),
        (5, 0x07),
        (6, 0x09),
    ] {
        let mut time = eve;
        time[at] = other;
        assert!(!rings_after(time, GAMES, 0x74), "{time:02X?}");
    }
}

/// As a tester met it: the flag is cleared five seconds past eight.
#[test]
fn the_games_do_not_ring_again_before_nine() {
    let mut host = Host::open_at([0x59, 0x59, 0x99, 5, 0x08, 0x08, 0x08]);
    host.write(ALARM_SECONDS, &GAMES);
    host.write(ALARM_ENABLE, &[0x74]);
    host.write(CTR2, &[ON]);
    rings(&mut host);
    host.pulses(5 * 32_768);
    assert_eq!(host.time()[..3], [0x05, 0x00, 0xA0]);
    clear_flag(&mut host);
    silent(&mut host, 3_595);
    assert_eq!(host.time()[..3], [0x00, 0x00, 0xA1]);
    silent(&mut host, 1);
}

/// The minute 7Ah stays, so it is a match all along; the second 5Ah is none with
/// 00h, to which it steps, nor is it any more one with itself.
#[test]
fn illegal_bytes_before_the_advance_compare_as_they_stand() {
    let held = [0x10, 0x7A, 0xA0, 5, 0x08, 0x08, 0x08];
    let by = |time, at: usize, byte| {
        let mut alarm = [0; 7];
        alarm[at] = byte;
        rings_after(time, alarm, 1 << at)
    };
    assert!(!by(held, 1, 0x7A));
    assert!(by(held, 0, 0x11));
    let steps = [0x5A, 0x30, 0xA0, 5, 0x08, 0x08, 0x08];
    assert!(by(steps, 0, 0x00));
    assert!(!by(steps, 0, 0x5A));
}
