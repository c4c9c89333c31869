//! The real-time clock chip SD2068 for a board in Rust.
//!
//! A [`Clock`] is the chip as one value, and a board does to it what a board does: power, START,
//! bytes, reads, STOP and pulses of the crystal. Any bytes may be handed in as start bytes, a
//! state, an event or a script file: what is not good is refused with a [`Refusal`] and changes
//! nothing. The rules are in `docs/RULES.md` of the repository.
//!
//! ```
//! use tallowreed::{Clock, Refusal, Wire};
//!
//! // 18:19:20 in 24-hour mode, weekday 3, 20 December 2006, and an empty RAM.
//! let mut start = [0; tallowreed::START_SIZE];
//! start[..7].copy_from_slice(&[0x20, 0x19, 0x98, 0x03, 0x20, 0x12, 0x06]);
//! let mut clock = Clock::power_on(&start)?;
//!
//! clock.pulses(2 * 32_768); // two seconds
//! clock.start();
//! assert_eq!(clock.write(0x65), Wire::Ack); // the read address: the time is latched
//! assert_eq!(clock.read(true), 0x22);
//! assert_eq!(clock.read(false), 0x19);
//! clock.stop();
//! # Ok::<(), Refusal>(())
//! ```
//!
//! A clock is kept as bytes by [`Clock::as_bytes`] and comes back by [`Clock::from_bytes`]. Whole
//! script files are run by [`run`] and [`run_to_vec`].
//!
//! # What is linked
//!
//! The clock itself is in `libsd2068_abi.a`, whose functions are proved to follow the rules; this
//! package is a thin wrapper of them and is not proved. `tools/archive` writes the archive to
//! `target/staticlib` of the repository, where the build looks for it; the environment variable
//! `TALLOWREED_ARCHIVE_DIR` names another folder, by its whole path or as seen from this package.
//! The archive is for x86-64 Linux. `cargo check` needs none and works on every machine.

#![deny(missing_docs, unsafe_code)]
#![warn(clippy::all, clippy::pedantic)]

mod clock;
mod event;
mod refusal;
mod script;
#[allow(unsafe_code)]
mod sys;
mod told;

pub use clock::Clock;
pub use event::Event;
pub use refusal::Refusal;
pub use script::{run, run_to_vec, Refused, Run, LINE_SIZE, LONGEST_FILE, LONGEST_OUTPUT};
pub use told::{Answer, Pin, Told, Wire};

/// The bytes of a state. The length is the version: bytes of another length are no state here.
pub const STATE_SIZE: usize = 61;

/// The start bytes of a power-on: the seven of the time, then the twelve of the RAM.
pub const START_SIZE: usize = 19;

/// The registers of the chip, 00h to 1Fh.
pub const REGISTERS: usize = 32;

/// [`STATE_SIZE`] as the archive has it, to be compared. Where the two differ the archive is of
/// another version, and no clock can be made: a power-on and a script file are refused with
/// [`Refusal::OtherVersion`], and the bytes of a state with [`Refusal::State`].
///
/// ```
/// assert_eq!(tallowreed::state_size(), tallowreed::STATE_SIZE);
/// ```
#[must_use]
pub fn state_size() -> usize {
    sys::state_size()
}
