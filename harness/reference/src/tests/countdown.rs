//! The countdown and its prescaler.

use super::host::Host;
use crate::registers::{COUNTDOWN, CTR1, CTR2, CTR3, INTDE, INTDF};

/// Running, TDS and count as given.
fn running(tds: u8, count: u8) -> Host {
    let mut host = Host::open();
    host.write(CTR3, &[tds << 4]);
    host.write(COUNTDOWN, &[count]);
    host.write(CTR2, &[0x80 | INTDE]);
    host
}

/// Exactly at this pulse the flag comes.
fn fires_after(host: &mut Host, pulses: u32) -> bool {
    host.pulses(pulses - 1);
    let early = host.flag(INTDF);
    host.pulses(1);
    !early && host.flag(INTDF)
}

#[test]
fn each_source_has_its_tick() {
    for (tds, tick) in [(0, 8), (1, 512), (2, 32_768), (3, 1_966_080)] {
        assert!(fires_after(&mut running(tds, 1), tick));
    }
}

#[test]
fn the_period_is_one_tick_longer_than_the_count() {
    let mut host = running(0, 1);
    assert!(fires_after(&mut host, 8));
    host.write(CTR1, &[0x84]);
    assert!(fires_after(&mut host, 16));
    host.write(CTR1, &[0x84]);
    host.pulses(8);
    assert_eq!(host.reg(COUNTDOWN), 1);
}

#[test]
fn disabled_it_stands_still_and_goes_on() {
    let mut host = running(0, 2);
    host.pulses(13);
    host.write(CTR2, &[0x80]);
    host.pulses(100);
    assert_eq!(host.reg(COUNTDOWN), 1);
    host.write(CTR2, &[0x80 | INTDE]);
    assert_eq!(host.reg(COUNTDOWN), 1);
    assert!(fires_after(&mut host, 3));
}

#[test]
fn reload_zero_never_fires() {
    let mut host = running(0, 0);
    host.pulses(10_000);
    assert!(!host.flag(INTDF));
    assert_eq!(host.chip.countdown_pulse, 0);
}

#[test]
fn writing_zero_stops_it_and_keeps_the_flag() {
    let mut host = running(0, 1);
    host.pulses(8);
    host.write(COUNTDOWN, &[0]);
    assert!(host.flag(INTDF));
    host.write(CTR1, &[0x84]);
    host.pulses(1_000);
    assert!(!host.flag(INTDF));
}

#[test]
fn both_writes_clear_the_prescaler() {
    for (at, value) in [(CTR3, 0x00), (COUNTDOWN, 2)] {
        let mut host = running(0, 2);
        host.pulses(7);
        host.write(at, &[value]);
        assert!(fires_after(&mut host, 16));
    }
}

#[test]
fn a_control_write_keeps_the_count() {
    let mut host = running(0, 2);
    host.pulses(9);
    host.write(CTR3, &[0x10]);
    assert_eq!(host.reg(COUNTDOWN), 1);
    assert!(fires_after(&mut host, 512));
}

#[test]
fn both_writes_clear_it_while_disabled_too() {
    for (at, value) in [(CTR3, 0x00), (COUNTDOWN, 1)] {
        let mut host = running(0, 1);
        host.pulses(7);
        host.write(CTR2, &[0x80]);
        host.write(at, &[value]);
        host.write(CTR2, &[0x80 | INTDE]);
        assert!(fires_after(&mut host, 8));
    }
}

#[test]
fn locked_writes_do_not_touch_it() {
    let mut host = running(0, 2);
    host.pulses(7);
    host.write(CTR1, &[0x00]);
    host.write(COUNTDOWN, &[9]);
    host.write(CTR3, &[0x30]);
    assert!(fires_after(&mut host, 9));
}

#[test]
fn reading_shows_the_running_count() {
    let mut host = running(0, 9);
    host.begin_read(COUNTDOWN);
    host.pulses(8);
    assert_eq!(host.read(), 8);
}

#[test]
fn the_enable_may_be_switched_at_the_last_pulse() {
    let mut host = running(0, 1);
    host.pulses(7);
    host.write(CTR2, &[0x80]);
    host.write(CTR2, &[0x80 | INTDE]);
    assert!(fires_after(&mut host, 1));
}
