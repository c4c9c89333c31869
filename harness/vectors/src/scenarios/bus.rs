//! The bus: phases, pointer, latch, time-out and the flag reset at STOP.

use super::{AUTO_RESET, BY_COUNTDOWN, COUNTDOWN_ON, NEW_CENTURY, PULSE_MODE, SECOND};
use crate::script::Script;

pub fn scripts() -> Vec<Script> {
    vec![
        pointer_over_repeated_starts().named("bus: pointer over repeated starts"),
        age_runs_on().named("bus: age runs on"),
        time_out().named("bus: time out"),
        time_out_while_writing().named("bus: time out while writing"),
        latch_while_time_moves().named("bus: latch while time moves"),
        latch_at_the_address().named("bus: latch at the address"),
        wrap_while_reading().named("bus: wrap while reading"),
        nak_makes_deaf().named("bus: nak makes deaf"),
        refused_addresses().named("bus: refused addresses"),
        refused_pointers().named("bus: refused pointers"),
        other_phases().named("bus: other phases"),
        flags_reset().named("bus: flags reset"),
        reset_of_a_later_flag().named("bus: reset of a later flag"),
    ]
}

/// Turns to reading from where the transfer stands.
fn reading(script: Script) -> Script {
    script.start().write(&[0x65])
}

fn pointer_over_repeated_starts() -> Script {
    let script = Script::at(NEW_CENTURY).start().write(&[0x64, 0x14]);
    let script = reading(script).read(2);
    let script = reading(script).read_on(2).start().write(&[0x64, 0x1A]);
    let script = reading(script).read(1).stop();
    reading(script).read(1)
}

/// A repeated START does not renew the age, a new transfer does.
fn age_runs_on() -> Script {
    Script::at(NEW_CENTURY)
        .pulses(5)
        .start()
        .write(&[0x00])
        .pulses(16_000)
        .start()
        .write(&[0x65])
        .pulses(383)
        .read_on(1)
        .pulses(1)
        .read_on(1)
        .write(&[0x65])
        .start()
        .pulses(16_383)
        .write(&[0x65])
        .read(1)
}

/// The pointer is back at 00h after it.
fn time_out() -> Script {
    let script = Script::at(NEW_CENTURY)
        .fetching(0x14)
        .pulses(16_383)
        .read_on(2)
        .pulses(1)
        .read(2);
    reading(script).read_on(2).stop()
}

/// A write wraps to 00h just before the time-out; bytes after it are lost.
fn time_out_while_writing() -> Script {
    let script = Script::at(NEW_CENTURY)
        .unlock()
        .storing(0x1E, &[0x61])
        .pulses(16_383)
        .write(&[0x62, 0x25, 0x26])
        .pulses(1)
        .write(&[0x63]);
    reading(script).read(2)
}

fn latch_while_time_moves() -> Script {
    let script = Script::at([0x59, 0x59, 0xA3, 0x06, 0x31, 0x12, 0x99]).pulses(SECOND - 8);
    reading(script)
        .pulses(7)
        .read_on(1)
        .pulses(1)
        .read_on(6)
        .fetching(0x00)
        .read(3)
}

/// Neither START nor the first read takes the time.
fn latch_at_the_address() -> Script {
    Script::at(NEW_CENTURY)
        .pulses(SECOND - 1)
        .start()
        .pulses(1)
        .write(&[0x65])
        .read(1)
        .stop()
        .pulses(SECOND - 1)
        .start()
        .write(&[0x65])
        .pulses(1)
        .read(1)
}

/// Reading 1Fh takes the time; reading 00h after it takes none.
fn wrap_while_reading() -> Script {
    Script::at(NEW_CENTURY)
        .pulses(SECOND - 2)
        .fetching(0x1E)
        .read_on(1)
        .pulses(2)
        .read_on(2)
        .stop()
        .pulses(SECOND - 1)
        .fetching(0x1F)
        .read_on(1)
        .pulses(1)
        .read_on(1)
}

/// After the NAK only a START helps; the pointer has stepped.
fn nak_makes_deaf() -> Script {
    let script = Script::at(NEW_CENTURY)
        .fetching(0x14)
        .read(1)
        .read(2)
        .write(&[0x64, 0x65]);
    reading(script).read(1)
}

/// Deaf after each of them, and the pointer stays.
fn refused_addresses() -> Script {
    let refuse = |script: Script, address: u8| script.start().write(&[address, 0x64]);
    let script = Script::at(NEW_CENTURY).start().write(&[0x64, 0x15]);
    let script = [0x00, 0x63, 0x66, 0xE5].into_iter().fold(script, refuse);
    reading(script.read_on(1)).read(1)
}

fn refused_pointers() -> Script {
    let refuse = |script: Script, pointer: u8| script.start().write(&[0x64, pointer, 0x14]);
    let script = Script::at(NEW_CENTURY).start().write(&[0x64, 0x1F]);
    let script = [0x20, 0x65, 0x94].into_iter().fold(script, refuse);
    reading(script.read_on(1)).read(1)
}

/// Bytes and reads where none is awaited.
fn other_phases() -> Script {
    Script::at(NEW_CENTURY)
        .write(&[0x64])
        .read(2)
        .start()
        .read(2)
        .write(&[0x64])
        .read(2)
        .write(&[0x14])
        .read(2)
        .write(&[0x65])
        .start()
        .write(&[0x65, 0x64])
        .read(1)
        .write(&[0x00])
        .stop()
        .stop()
}

/// A running countdown: 8 pulses raise the flag, each 16 more raise it again.
fn running(controls: u8) -> Script {
    let controls = BY_COUNTDOWN | COUNTDOWN_ON | controls;
    Script::at(NEW_CENTURY).unlock_with(&[controls, AUTO_RESET, 0x00, 0x01])
}

/// At STOP and not before; not by reads beside 0Fh, not by FFh in its place,
/// not after a time-out; but under the lock as well. What 11h holds when STOP
/// comes counts. The time-out comes one pulse after a zero, so that its own
/// pulse raises no flag.
fn flags_reset() -> Script {
    running(0)
        .pulses(8)
        .fetching(0x0F)
        .read(1)
        .start()
        .write(&[0x00])
        .stop()
        .pulses(17)
        .fetch(0x10, 1)
        .start()
        .write(&[0x64, 0x0F])
        .read(1)
        .stop()
        .fetching(0x0E)
        .read_on(2)
        .pulses(16_384)
        .stop()
        .fetching(0x0F)
        .read_on(1)
        .storing(0x11, &[0x00])
        .stop()
        .fetching(0x0F)
        .read_on(1)
        .storing(0x11, &[AUTO_RESET])
        .stop()
        .pulses(16)
        .storing(0x10, &[0x00])
        .stop()
        .fetch(0x0E, 2)
}

/// A flag that comes after the read goes with the STOP; the pulse stays.
fn reset_of_a_later_flag() -> Script {
    running(PULSE_MODE)
        .fetching(0x0F)
        .read_on(1)
        .pulses(8)
        .stop()
}
