//! Whole script files.

use std::error::Error;
use std::fmt;

use crate::{sys, Clock, Refusal, START_SIZE, STATE_SIZE};

/// The bytes of a line in the output: the answer's two characters, a space, the pin's letter, a
/// newline.
pub const LINE_SIZE: usize = 5;

/// The bytes of the longest script file; a longer one is refused with [`Refusal::FileLong`].
pub const LONGEST_FILE: usize = 16_384;

/// The bytes of the longest output, 20,445. Beside its header and its start bytes a file of
/// [`LONGEST_FILE`] bytes has room for 4,089 events of four bytes, and each has a line. An output
/// of this size is never too short.
pub const LONGEST_OUTPUT: usize =
    (LONGEST_FILE - HEADER_SIZE - START_SIZE) / EVENT_SIZE * LINE_SIZE;

const HEADER_SIZE: usize = 8;
const EVENT_SIZE: usize = 4;

/// What a script file that has run hands back.
#[derive(Clone, Debug, PartialEq, Eq)]
pub struct Run {
    /// How many events have run: all that the file has.
    pub count: usize,
    /// The clock after the last of them.
    pub clock: Clock,
}

/// Why a script file has not run.
#[derive(Clone, Copy, Debug, PartialEq, Eq)]
pub struct Refused {
    /// The refusal.
    pub refusal: Refusal,
    /// The event that it is for, counted from 0, where it is [`Refusal::Kind`] or
    /// [`Refusal::Field`]; else 0.
    pub index: usize,
}

/// Runs a script file: from its start bytes through all its events, a line of [`LINE_SIZE`] bytes
/// in the output for each. Output past the lines stays as it is.
///
/// # Errors
///
/// The refusal, with the index of the event at fault where it is one's. Nothing has run then, and
/// the output stays as it is. Every file is refused with [`Refusal::OtherVersion`] where the archive
/// has states of another length, see [`state_size`](crate::state_size).
///
/// ```
/// # use tallowreed::{run, Refusal, Refused};
/// // One event, START, at 27; 19 start bytes at 8.
/// let mut file = vec![1, 0, 27, 0, 19, 0, 8, 0];
/// file.extend([0; 19]);
/// file.extend([0, 0, 0, 0]);
/// let mut output = *b"........";
/// let ran = run(&file, &mut output)?;
/// assert_eq!(ran.count, 1);
/// assert_eq!(&output, b"-- H\n...");
///
/// let refused = Refused { refusal: Refusal::OutputShort, index: 0 };
/// assert_eq!(run(&file, &mut []), Err(refused));
/// # Ok::<(), Refused>(())
/// ```
pub fn run(file: &[u8], output: &mut [u8]) -> Result<Run, Refused> {
    let mut state = [0; STATE_SIZE];
    let ran = sys::run(file, output, &mut state);
    let [refusal, index, count] = [0, 16, 32].map(|bits| (ran >> bits & 0xFFFF) as u16);
    match Refusal::check(refusal) {
        Ok(()) => Ok(Run {
            count: count.into(),
            clock: Clock::from_run(state),
        }),
        Err(refusal) => Err(Refused {
            refusal,
            index: index.into(),
        }),
    }
}

/// Runs a script file as [`run`] does, and hands back the lines beside what it tells.
///
/// # Errors
///
/// As [`run`]; the output is never too short, see [`LONGEST_OUTPUT`].
///
/// ```
/// # use tallowreed::{run_to_vec, Refusal};
/// let refused = run_to_vec(b"short").unwrap_err();
/// assert_eq!(refused.refusal, Refusal::FileShort);
/// ```
pub fn run_to_vec(file: &[u8]) -> Result<(Run, Vec<u8>), Refused> {
    let mut lines = vec![0; LONGEST_OUTPUT];
    let ran = run(file, &mut lines)?;
    lines.truncate(LINE_SIZE * ran.count);
    Ok((ran, lines))
}

impl fmt::Display for Refused {
    fn fmt(&self, f: &mut fmt::Formatter<'_>) -> fmt::Result {
        self.refusal.fmt(f)?;
        match self.refusal {
            Refusal::Kind | Refusal::Field => write!(f, ", at event {}", self.index),
            _ => Ok(()),
        }
    }
}

impl Error for Refused {}
