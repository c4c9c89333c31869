//! Cases for the clock as C sees it, and what the model expects of each.
//!
//! They are written as a stream of records, numbers little-endian, of which the
//! first byte tells what each one is:
//!
//! - 1, a power-on: the number of start bytes as u16 and these bytes; the
//!   refusal and the 61 bytes of the state.
//! - 2, a state: its 61 bytes, an event (kind, byte, count as u16) and a
//!   register's address; what a step with the event tells as u32, the 61 bytes
//!   after it, and what the pin and the register of the first 61 tell, each as
//!   u32.
//! - 3, a run: the length of the file and of the output, each as u32, and the
//!   file; what the run tells as u64, the 61 bytes of the state, and the lines.
//! - 0, the end: how many records of the kinds 1, 2 and 3 there were, each as
//!   u32.
//!
//! The bytes of a state and what is told are as in `include/tallowreed.h`. A run
//! has five bytes of lines for each event that it counts.

mod contrasts;
mod damaged;
mod power;
mod record;
mod runs;
mod states;
#[cfg(test)]
mod tests;

use record::Record;

/// All records and their end.
pub fn stream() -> Vec<u8> {
    let power = power::cases();
    let states = [states::cases(), damaged::cases()].concat();
    let runs = runs::cases();
    let counts = [power.len(), states.len(), runs.len()];
    let mut out = Vec::new();
    write(&power, &mut out);
    write(&states, &mut out);
    write(&runs, &mut out);
    out.push(0);
    for count in counts {
        out.extend((count as u32).to_le_bytes());
    }
    out
}

fn write(cases: &[impl Record], out: &mut Vec<u8>) {
    for case in cases {
        case.write(out);
    }
}
