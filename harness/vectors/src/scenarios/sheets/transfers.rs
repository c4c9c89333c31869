//! Transfers as the sheets draw them, byte by byte, and the half second.

use super::{EXAMPLE_TIME, NEW_CENTURY, SECOND};
use crate::script::Script;

pub fn scripts() -> Vec<Script> {
    let mut scripts = vec![
        write_14h_15h().named("003, 000, 001: writing to 14h and 15h"),
        write_locked().named("003, 001: writing to 14h and 15h while locked"),
        read_07h_to_09h().named("003, 000, 001: reading method 1, 07h to 09h"),
        read_from_00h().named("003, 000, 001: reading method 2, from 00h"),
        other_addresses().named("003, 000, 001: device addresses"),
        over_the_end().named("003: after 1Fh comes 00h"),
        latched().named("003, 001: the time is latched and runs on"),
        latched_anew().named("002: reading over the end latches anew"),
        half_second_of_repeated_starts()
            .named("003, 000, 001: a repeated START and the half second"),
    ];
    for phase in PHASES {
        scripts.push(one_pulse_short(phase));
        scripts.push(half_a_second(phase));
    }
    scripts
}

/// START, 64h, 14h, two bytes, STOP.
fn write_14h_15h() -> Script {
    Script::at(NEW_CENTURY)
        .unlock()
        .start()
        .write(&[0x64, 0x14, 0x5A, 0xC3])
        .stop()
}

/// Acknowledged all the same, but without effect.
fn write_locked() -> Script {
    Script::at(NEW_CENTURY)
        .start()
        .write(&[0x64, 0x14, 0x5A, 0xC3])
        .stop()
}

/// START, 64h, 07h, START, 65h, two reads with ACK, one with NAK, STOP.
fn read_07h_to_09h() -> Script {
    Script::at(NEW_CENTURY)
        .unlock()
        .store(0x07, &[0x20, 0x30, 0x08])
        .start()
        .write(&[0x64, 0x07])
        .start()
        .write(&[0x65])
        .read(3)
        .stop()
}

/// START, 65h, reads with ACK, one with NAK, STOP. The transfer before has
/// left the pointer behind 14h, and its STOP has brought it back to 00h.
fn read_from_00h() -> Script {
    Script::at(EXAMPLE_TIME)
        .fetch(0x14, 1)
        .start()
        .write(&[0x65])
        .read(7)
        .stop()
}

/// 0110010 with either direction, and each of its seven bits turned over.
fn other_addresses() -> Script {
    let one = |script: Script, address: u8| script.start().write(&[address]).stop();
    let turned = (1..8).map(|bit| 0x64 ^ 1 << bit);
    [0x64, 0x65]
        .into_iter()
        .chain(turned)
        .fold(Script::at(NEW_CENTURY), one)
}

/// Writing and reading.
fn over_the_end() -> Script {
    Script::at(NEW_CENTURY)
        .unlock()
        .store(0x1E, &[0xE1, 0xE2, 0x31, 0x32])
        .fetch(0x1E, 4)
}

/// The second ends amid the reading; the next one of the same transfer has the
/// new time, and no STOP comes before the state is shown.
fn latched() -> Script {
    Script::at([0x59, 0x59, 0xA3, 0x00, 0x31, 0x12, 0x06])
        .pulses(SECOND - 1)
        .start()
        .write(&[0x65])
        .read_on(1)
        .pulses(1)
        .read(6)
        .fetching(0x00)
        .read_on(7)
}

/// The second ends after the address and before the read of 1Fh.
fn latched_anew() -> Script {
    Script::at([0x59, 0x59, 0xA3, 0x00, 0x31, 0x12, 0x06])
        .pulses(SECOND - 1)
        .fetching(0x1F)
        .pulses(1)
        .read(8)
        .stop()
}

/// It counts from the first START.
fn half_second_of_repeated_starts() -> Script {
    Script::at(NEW_CENTURY)
        .fetching(0x14)
        .pulses(10_000)
        .fetching(0x15)
        .pulses(6_383)
        .read_on(1)
        .pulses(1)
        .read_on(1)
}

/// How a transfer comes into an open phase, and a byte to try there: one that
/// is acknowledged, but while reading and deaf none is.
#[derive(Clone, Copy)]
pub struct OpenPhase {
    pub name: &'static str,
    /// What the bytes after START are.
    way: &'static [u8],
    next: u8,
}

pub const PHASES: [OpenPhase; 5] = [
    OpenPhase {
        name: "awaiting an address",
        way: &[],
        next: 0x64,
    },
    OpenPhase {
        name: "awaiting a pointer",
        way: &[0x64],
        next: 0x14,
    },
    OpenPhase {
        name: "writing",
        way: &[0x64, 0x14],
        next: 0x5A,
    },
    OpenPhase {
        name: "reading",
        way: &[0x65],
        next: 0x65,
    },
    OpenPhase {
        name: "deaf",
        way: &[0x66],
        next: 0x66,
    },
];

/// With the lock open, so that a data byte is stored.
fn aged(phase: OpenPhase) -> Script {
    Script::at(EXAMPLE_TIME)
        .unlock()
        .start()
        .write(phase.way)
        .pulses(16_383)
}

/// The next byte and a read show that the transfer goes on.
fn one_pulse_short(phase: OpenPhase) -> Script {
    let name = format!(
        "003, 000, 001: a pulse before the half second, {}",
        phase.name
    );
    aged(phase).write(&[phase.next]).read_on(1).named(&name)
}

/// The same byte and read come too late.
fn half_a_second(phase: OpenPhase) -> Script {
    let name = format!("003, 000, 001: the half second, {}", phase.name);
    aged(phase)
        .pulses(1)
        .write(&[phase.next])
        .read_on(1)
        .named(&name)
}
