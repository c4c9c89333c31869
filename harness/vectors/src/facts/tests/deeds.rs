//! Each deed, and where it ends and another begins.

use super::{deeds_after, TIME};
use crate::script::Script;

fn deeds(script: Script) -> String {
    deeds_after(0, &script)
}

fn powered() -> Script {
    Script::at(TIME)
}

/// Unlocked, with these bytes from 10h on, and what more of it did.
fn unlocked(from_ctr2: &[u8], more: fn(Script) -> Script) -> String {
    let script = powered().unlock_with(from_ctr2);
    let skipped = script.events.len();
    deeds_after(skipped, &more(script))
}

#[test]
fn a_start_opens_or_repeats() {
    assert_eq!(deeds(powered().start().start()), "opened, repeated");
    let deaf = powered().start().write(&[0x66]).start();
    assert_eq!(deeds(deaf), "opened, elsewhere, repeated");
    let stopped = powered().start().stop().start();
    assert_eq!(deeds(stopped), "opened, closed, opened");
    let timed_out = powered().start().pulses(16_384).start();
    assert_eq!(deeds(timed_out), "opened, passed, opened");
    let in_time = powered().start().pulses(16_383).start();
    assert_eq!(deeds(in_time), "opened, passed, repeated");
    let powerless = powered().start().power_loss().start();
    assert_eq!(deeds(powerless), "opened, power-lost, opened");
}

#[test]
fn a_stop_with_nothing_open_is_idle() {
    assert_eq!(deeds(powered().stop().stop()), "idle, idle");
    let timed_out = powered().start().pulses(16_384).stop();
    assert_eq!(deeds(timed_out), "opened, passed, idle");
    let powerless = powered().start().power_loss().stop();
    assert_eq!(deeds(powerless), "opened, power-lost, idle");
}

const TO_CTR1: &str = "opened, to-write, pointed 0F, repeated, to-read, sent 0F";

/// Under ARST, whether a flag is set or not; with ACK, NAK and a new START.
#[test]
fn a_stop_clears_where_ctr1_was_read() {
    let with_nak = unlocked(&[0x80, 0x80], |s| s.fetch(0x0F, 1));
    assert_eq!(with_nak, format!("{TO_CTR1}, cleared"));
    let again = unlocked(&[0x80, 0x80], |s| {
        s.fetching(0x0F).read_on(1).start().stop()
    });
    assert_eq!(again, format!("{TO_CTR1}, repeated, cleared"));
    let late = unlocked(&[0x80], |s| {
        s.fetching(0x0F).read_on(1).storing(0x11, &[0x80]).stop()
    });
    let stores = "repeated, to-write, pointed 11, stored 11, cleared";
    assert_eq!(late, format!("{TO_CTR1}, {stores}"));
}

#[test]
fn a_stop_only_closes_without_arst_or_the_read() {
    let without = unlocked(&[0x80, 0x3F], |s| s.fetch(0x0F, 1));
    assert_eq!(without, format!("{TO_CTR1}, closed"));
    let unread = unlocked(&[0x80, 0x80], |s| s.fetch(0x10, 1));
    assert!(unread.ends_with("sent 10, closed"), "{unread}");
    let silent = unlocked(&[0x80, 0x80], |s| s.storing(0x0F, &[]).read_on(1).stop());
    assert!(silent.ends_with("pointed 0F, silent, closed"), "{silent}");
    let timed_out = unlocked(&[0x80, 0x80], |s| {
        s.fetching(0x0F).read_on(1).pulses(16_384).stop()
    });
    assert_eq!(timed_out, format!("{TO_CTR1}, passed, idle"));
    let next = unlocked(&[0x80, 0x80], |s| s.fetch(0x0F, 1).start().stop());
    assert_eq!(next, format!("{TO_CTR1}, cleared, opened, closed"));
}

#[test]
fn an_address_is_one_of_two() {
    for (byte, deed) in [
        (0x64, "to-write"),
        (0x65, "to-read"),
        (0x66, "elsewhere"),
        (0x00, "elsewhere"),
        (0xFF, "elsewhere"),
    ] {
        let script = powered().start().write(&[byte]);
        assert_eq!(deeds(script), format!("opened, {deed}"));
    }
}

#[test]
fn a_pointer_has_its_bounds() {
    for (byte, deed) in [
        (0x00, "pointed 00"),
        (0x1F, "pointed 1F"),
        (0x20, "beyond"),
        (0x65, "beyond"),
        (0xFF, "beyond"),
    ] {
        let script = powered().start().write(&[0x64, byte]);
        assert_eq!(deeds(script), format!("opened, to-write, {deed}"));
    }
}

#[test]
fn a_locked_byte_is_lost_and_the_pointer_goes_on() {
    let script = powered().storing(0x1F, &[1, 2]);
    let expected = "opened, to-write, pointed 1F, lost 1F, lost 00";
    assert_eq!(deeds(script), expected);
}

/// Neither the byte that opens the lock is stored nor the one that closes it.
#[test]
fn the_lock_is_open_before_and_after_a_stored_byte() {
    let opens = powered()
        .storing(0x10, &[0x80])
        .storing(0x0F, &[0x84, 0x80]);
    let expected = "opened, to-write, pointed 10, lost 10, \
                    repeated, to-write, pointed 0F, lost 0F, stored 10";
    assert_eq!(deeds(opens), expected);
    for (at, byte, deed) in [
        (0x0F, 0x84, "stored 0F"),
        (0x0F, 0xFF, "stored 0F"),
        (0x0F, 0x80, "lost 0F"),
        (0x0F, 0x04, "lost 0F"),
        (0x10, 0x80, "stored 10"),
        (0x10, 0x7F, "lost 10"),
        (0x13, 0x00, "stored 13"),
    ] {
        let script = powered().unlock();
        let skipped = script.events.len();
        let told = deeds_after(skipped, &script.storing(at, &[byte]));
        assert_eq!(told, format!("opened, to-write, pointed {at:02X}, {deed}"));
    }
}

#[test]
fn nobody_hears_a_byte_out_of_turn() {
    assert_eq!(deeds(powered().write(&[0x64])), "unheard");
    let reading = powered().start().write(&[0x65, 0x65]).read_on(1);
    assert_eq!(deeds(reading), "opened, to-read, unheard, latched 00");
    let deaf = powered().start().write(&[0x66, 0x64]);
    assert_eq!(deeds(deaf), "opened, elsewhere, unheard");
    let ended = powered().start().write(&[0x65]).read(1).write(&[0x64]);
    assert_eq!(deeds(ended), "opened, to-read, latched 00, unheard");
}

#[test]
fn a_read_goes_by_the_register() {
    let time = powered().fetching(0x06).read_on(2);
    assert!(deeds(time).ends_with("to-read, latched 06, sent 07"));
    let round = powered().fetching(0x1E).read_on(3);
    assert!(deeds(round).ends_with("to-read, sent 1E, renewed 1F, latched 00"));
    let last = powered().fetching(0x1F).read(1).read_on(1);
    assert!(deeds(last).ends_with("to-read, renewed 1F, silent"));
}

#[test]
fn a_read_out_of_turn_is_silent() {
    let script = powered().read(1).start().read_on(1).write(&[0x64]);
    let script = script.read_on(1).write(&[0x14]).read_on(1).write(&[0x00]);
    let expected = "silent, opened, silent, to-write, silent, pointed 14, silent, lost 14";
    assert_eq!(deeds(script), expected);
    let deaf = powered().start().write(&[0x00]).read(1);
    assert_eq!(deeds(deaf), "opened, elsewhere, silent");
}
