//! Script files to try the script program with.

use super::placed::Placed;
use crate::script::Script;
use reference::START_BYTES;

/// An untrimmed second.
const SECOND: u32 = 32_768;

/// The script file of this name.
pub fn example(name: &str) -> Option<Vec<u8>> {
    example_script(name).map(|script| Placed::start_first(&script).finish())
}

pub fn example_script(name: &str) -> Option<Script> {
    match name {
        "read" => Some(read()),
        "boot" => Some(boot()),
        _ => None,
    }
}

/// Powered up at this time, with zeros in the RAM.
fn at(time: [u8; 7]) -> Script {
    let mut bytes = [0; START_BYTES];
    bytes[..7].copy_from_slice(&time);
    Script::from_bytes(bytes)
}

/// The first example of the repository's README.
fn read() -> Script {
    at([0x20, 0x19, 0x98, 0x03, 0x20, 0x12, 0x06])
        .start()
        .write(&[0x65])
        .read(2)
        .stop()
}

/// A host sets a quarter past nine in the evening, with 12-hour hours, does
/// other things for three seconds and then reads the time.
fn boot() -> Script {
    at([0x59, 0x14, 0x09, 0x04, 0x14, 0x03, 0x24])
        .unlock()
        .store(0x00, &[0x00, 0x15, 0x29, 0x04, 0x14, 0x03, 0x24])
        .pulses(SECOND)
        .store(0x14, &[0xA5])
        .pulses(SECOND)
        .store(0x10, &[0x00])
        .store(0x00, &[0x59])
        .pulses(SECOND)
        .start()
        .write(&[0x65])
        .read(7)
        .stop()
}
