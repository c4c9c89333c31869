//! A board with the clock on it: sets 9:15 in the morning and then 9:15 in the evening, lets five
//! seconds pass each time, and reads the time back as a boot does. Prints the month, the day, the
//! hour and the minute as the registers hold them: eight digits, which must differ.

use std::error::Error;

use tallowreed::{Clock, Wire, START_SIZE};

const WRITE_ADDRESS: u8 = 0x64;
const READ_ADDRESS: u8 = 0x65;
const SECOND: u64 = 32_768;

fn main() -> Result<(), Box<dyn Error>> {
    let mut clock = Clock::power_on(&[0; START_SIZE])?;
    unlock(&mut clock)?;
    // In 12-hour mode bit 5 of the hour is set from noon on.
    for hour in [0x09, 0x29] {
        // Wednesday, 20 December 2006.
        write_at(
            &mut clock,
            0x00,
            &[0x00, 0x15, hour, 0x03, 0x20, 0x12, 0x06],
        )?;
        clock.pulses(5 * SECOND);
        let [_, minute, hour, _, day, month, _] = read_time(&mut clock)?;
        println!("{month:02X}{day:02X}{hour:02X}{minute:02X}");
    }
    Ok(())
}

/// The lock opens in this order: WRTC1 in 10h, then WRTC2 and WRTC3 in 0Fh.
fn unlock(clock: &mut Clock) -> Result<(), Box<dyn Error>> {
    write_at(clock, 0x10, &[0x80])?;
    write_at(clock, 0x0F, &[0x84])
}

/// One transfer that writes from a pointer on.
fn write_at(clock: &mut Clock, pointer: u8, data: &[u8]) -> Result<(), Box<dyn Error>> {
    clock.start();
    send(clock, WRITE_ADDRESS)?;
    send(clock, pointer)?;
    for &byte in data {
        send(clock, byte)?;
    }
    clock.stop();
    Ok(())
}

/// One transfer that reads the seven bytes of the time, the last of them not acknowledged.
fn read_time(clock: &mut Clock) -> Result<[u8; 7], Box<dyn Error>> {
    clock.start();
    send(clock, READ_ADDRESS)?;
    let time = core::array::from_fn(|place| clock.read(place < 6));
    clock.stop();
    Ok(time)
}

fn send(clock: &mut Clock, byte: u8) -> Result<(), Box<dyn Error>> {
    match clock.write(byte) {
        Wire::Ack => Ok(()),
        Wire::Nak => Err(format!("the clock does not acknowledge {byte:02X}h").into()),
    }
}
