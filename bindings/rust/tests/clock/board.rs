//! What the tests do with a clock: transfers whose every byte is acknowledged, and seconds.

use tallowreed::{Clock, Wire, START_SIZE};

pub const SECOND: u64 = 32_768;
pub const TIME: [u8; 7] = [0x20, 0x19, 0x98, 0x03, 0x20, 0x12, 0x06];

/// The start bytes with this time and an empty RAM.
pub fn start_bytes(time: [u8; 7]) -> [u8; START_SIZE] {
    let mut start = [0; START_SIZE];
    start[..7].copy_from_slice(&time);
    start
}

/// A clock just powered on.
pub fn fresh(time: [u8; 7]) -> Clock {
    Clock::power_on(&start_bytes(time)).unwrap()
}

/// A clock whose lock is open.
pub fn open(time: [u8; 7]) -> Clock {
    let mut clock = fresh(time);
    write_at(&mut clock, 0x10, &[0x80]);
    write_at(&mut clock, 0x0F, &[0x84]);
    clock
}

pub fn write_at(clock: &mut Clock, pointer: u8, data: &[u8]) {
    clock.start();
    send(clock, 0x64);
    send(clock, pointer);
    for &byte in data {
        send(clock, byte);
    }
    clock.stop();
}

/// As many bytes from a pointer on, the last of them not acknowledged.
pub fn read_at<const N: usize>(clock: &mut Clock, pointer: u8) -> [u8; N] {
    clock.start();
    send(clock, 0x64);
    send(clock, pointer);
    clock.start();
    send(clock, 0x65);
    let read = core::array::from_fn(|place| clock.read(place + 1 < N));
    clock.stop();
    read
}

fn send(clock: &mut Clock, byte: u8) {
    assert_eq!(clock.write(byte), Wire::Ack, "{byte:02X}h");
}
