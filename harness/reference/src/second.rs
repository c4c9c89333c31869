//! How long a second is, and the counter that measures it.

use crate::bus::Phase;
use crate::registers::{SECONDS, TRIM};
use crate::{Chip, Reading};

/// No length is below this, so that most pulses need not ask for it.
const SHORTEST_SECOND: u32 = 32_640;

/// Pulses in the second that shows this seconds byte, under this trim byte.
pub fn length_of_second(seconds: u8, trim: u8) -> u32 {
    length_as_read(seconds, trim, Reading::Right)
}

fn length_as_read(seconds: u8, trim: u8, reading: Reading) -> u32 {
    let trimmed = match seconds {
        0x00 => true,
        0x20 | 0x40 => reading != Reading::TrimOnceAMinute,
        0x60 if reading == Reading::TrimAlsoAt60 => true,
        _ => reading == Reading::TrimInEverySecond,
    };
    if trimmed {
        trimmed_length(trim & 0x7F, reading)
    } else {
        32_768
    }
}

fn trimmed_length(f: u8, reading: Reading) -> u32 {
    let f = match reading {
        Reading::TrimInDecimal => f / 16 * 10 + f % 16,
        _ => f,
    };
    let first_subtracted = match reading {
        Reading::TrimFrom64 => 64,
        _ => 66,
    };
    let f = u32::from(f);
    match f {
        2..=63 => 32_768 + 2 * (f - 1),
        64..=127 if f >= first_subtracted => 32_768 - 2 * (128 - f),
        _ => 32_768,
    }
}

impl Chip {
    /// The length of the present second, by what the registers hold now.
    pub(crate) fn present_length(&self) -> u32 {
        let trim = match self.manner.reading {
            Reading::LengthFixedAtBegin => self.manner.memory as u8,
            _ => self.regs[TRIM],
        };
        length_as_read(self.regs[SECONDS], trim, self.manner.reading)
    }

    /// Counts one pulse; true if the present second ends with it.
    #[inline]
    pub(crate) fn second_ends(&mut self) -> bool {
        if self.reads(Reading::TransferHoldsClock) && self.phase != Phase::Closed {
            return false;
        }
        self.second_counter += 1;
        self.second_counter >= SHORTEST_SECOND && self.reaches_length()
    }

    /// Starts over if the counter has reached the length or is beyond it.
    fn reaches_length(&mut self) -> bool {
        let length = self.present_length();
        if self.second_counter < length {
            return false;
        }
        let beyond = self.second_counter - length;
        self.second_counter = match self.manner.reading {
            Reading::EndOnlyAtLength if beyond > 0 => return false,
            Reading::RestIsKept => beyond,
            _ => 0,
        };
        true
    }
}
