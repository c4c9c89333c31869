//! Events by their methods, by name and by number, and what they tell.

use tallowreed::{Answer, Clock, Event, Pin, Refusal, Wire};

use crate::board::{fresh, open, read_at, write_at, SECOND, TIME};

#[test]
fn a_method_does_what_its_event_does() {
    let mut clock = fresh(TIME);
    let mut stepped = clock.clone();
    let mut assert_as_after = |event, clock: &Clock| {
        stepped.step(event).unwrap();
        assert_eq!(clock.as_bytes(), stepped.as_bytes(), "{event:?}");
    };
    clock.start();
    assert_as_after(Event::Start, &clock);
    assert_eq!(clock.write(0x65), Wire::Ack);
    assert_as_after(Event::Byte(0x65), &clock);
    clock.pulses(300);
    assert_as_after(Event::Pulses(300), &clock);
    assert_eq!(clock.read(true), 0x20);
    assert_as_after(Event::ReadAck, &clock);
    assert_eq!(clock.read(false), 0x19);
    assert_as_after(Event::ReadNak, &clock);
    assert_eq!(clock.write(0x64), Wire::Nak);
    assert_as_after(Event::Byte(0x64), &clock);
    clock.stop();
    assert_as_after(Event::Stop, &clock);
    clock.power_loss();
    assert_as_after(Event::PowerLoss, &clock);
}

#[test]
fn a_step_tells_the_answer_and_the_pin() {
    let mut clock = fresh(TIME);
    let lines = [
        (Event::Start, Answer::Quiet, "-- H"),
        (Event::Byte(0x65), Answer::Ack, "AK H"),
        (Event::ReadAck, Answer::Byte(0x20), "20 H"),
        (Event::Byte(0x00), Answer::Nak, "NK H"),
        (Event::ReadNak, Answer::Byte(0x19), "19 H"),
        (Event::ReadNak, Answer::Byte(0xFF), "FF H"),
        (Event::Stop, Answer::Quiet, "-- H"),
    ];
    for (event, answer, line) in lines {
        let told = clock.step(event).unwrap();
        assert_eq!((told.answer, told.pin), (answer, Pin::High), "{event:?}");
        assert_eq!(told.to_string(), line);
    }
}

#[test]
fn pulses_of_any_number() {
    let mut clock = fresh(TIME);
    let before = clock.clone();
    clock.pulses(0);
    assert_eq!(clock, before);

    // Past 65,535, and two such events and a rest: 65,536 are two seconds, 131,072 four.
    clock.pulses(65_536);
    assert_eq!(clock.register(0x00), Some(0x22));
    clock.pulses(131_072);
    assert_eq!(clock.register(0x00), Some(0x26));

    // An hour and a second, and a pulse short of the next.
    let mut clock = fresh(TIME);
    clock.pulses(3_602 * SECOND - 1);
    assert_eq!(clock.registers()[..3], [0x21, 0x19, 0x99]);
    clock.pulses(1);
    assert_eq!(clock.registers()[..3], [0x22, 0x19, 0x99]);
}

#[test]
fn a_power_loss_keeps_the_time_and_the_ram() {
    let mut clock = open(TIME);
    write_at(&mut clock, 0x07, &[0x11; 7]);
    write_at(&mut clock, 0x12, &[0x15, 0x03, 0xA5]);
    clock.power_loss();
    let mut kept = [0; 32];
    kept[..7].copy_from_slice(&TIME);
    kept[0x0F] = 0x01;
    kept[0x14] = 0xA5;
    assert_eq!(clock.registers(), kept);
}

#[test]
fn the_pin_is_high_low_or_the_crystal() {
    let mut clock = open(TIME);
    assert_eq!(clock.pin(), Pin::High);
    // INTS 2 with INTFE, and FS 1: the crystal itself.
    write_at(&mut clock, 0x10, &[0xA1, 0x01]);
    assert_eq!(clock.pin(), Pin::Crystal);
    assert_eq!(clock.step(Event::Stop).unwrap().to_string(), "-- X");
    // FS 15: low for the first 16,384 pulses of a second, which the write to 00h begins.
    write_at(&mut clock, 0x11, &[0x0F]);
    write_at(&mut clock, 0x00, &[0x20]);
    assert_eq!(
        clock.step(Event::Pulses(16_383)).unwrap().to_string(),
        "-- L"
    );
    assert_eq!(clock.pin(), Pin::Low);
    assert_eq!(clock.step(Event::Pulses(1)).unwrap().pin, Pin::High);
}

#[test]
fn a_look_is_no_read() {
    let mut clock = fresh(TIME);
    clock.start();
    clock.write(0x65);
    clock.pulses(10);
    let before = clock.clone();
    for address in 0..=0xFF {
        let held = clock.registers().get(usize::from(address)).copied();
        assert_eq!(clock.register(address), held, "{address:02X}h");
        assert_eq!(clock.as_bytes(), before.as_bytes(), "{address:02X}h");
    }
    assert_eq!(clock.read(true), 0x20);
}

/// An event that is refused so, and leaves the clock as it is.
fn assert_refused(refusal: Refusal, kind: u8, byte: u8, count: u16) {
    let mut clock = open(TIME);
    clock.start();
    let before = clock.clone();
    let told = clock.step_raw(kind, byte, count);
    assert_eq!(told, Err(refusal), "{kind}, {byte}, {count}");
    assert_eq!(
        clock.as_bytes(),
        before.as_bytes(),
        "{kind}, {byte}, {count}"
    );
}

#[test]
fn a_refused_step_changes_nothing() {
    for kind in 7..=0xFF {
        assert_refused(Refusal::Kind, kind, 1, 1);
    }
    for kind in [0, 1, 3, 4, 6] {
        assert_refused(Refusal::Field, kind, 1, 0);
        assert_refused(Refusal::Field, kind, 0, 1);
    }
    assert_refused(Refusal::Field, 2, 0, 1);
    assert_refused(Refusal::Field, 5, 1, 1);
    assert_refused(Refusal::Field, 5, 0, 0);
    assert_eq!(fresh(TIME).step(Event::Pulses(0)), Err(Refusal::Field));
}

#[test]
fn the_time_is_latched_while_it_is_read() {
    let mut clock = fresh([0x59, 0x59, 0x98, 0x03, 0x20, 0x12, 0x06]);
    clock.pulses(SECOND - 1);
    clock.start();
    clock.write(0x65);
    assert_eq!(clock.read(true), 0x59);
    clock.pulses(1);
    assert_eq!(clock.registers()[..3], [0x00, 0x00, 0x99]);
    assert_eq!([clock.read(true), clock.read(true)], [0x59, 0x98]);
    clock.stop();
    assert_eq!(read_at(&mut clock, 0x00), [0x00, 0x00, 0x99]);
}
