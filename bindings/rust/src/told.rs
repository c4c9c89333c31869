//! What the clock tells after an event.

use std::fmt;

use crate::Refusal;

/// What an event is told: the answer on the wire, and the pin after it.
///
/// Displayed, it is the event's line in the output of a script file, such as `AK H`, without the
/// newline.
#[derive(Clone, Copy, Debug, PartialEq, Eq, Hash)]
pub struct Told {
    /// What the wire answers.
    pub answer: Answer,
    /// The level of the interrupt pin after the event.
    pub pin: Pin,
}

/// What the wire answers to an event.
#[derive(Clone, Copy, Debug, PartialEq, Eq, Hash)]
pub enum Answer {
    /// Nothing: the event was neither a byte nor a read. Displayed as `--`.
    Quiet,
    /// The master's byte is acknowledged. Displayed as `AK`.
    Ack,
    /// The master's byte is not acknowledged. Displayed as `NK`.
    Nak,
    /// The byte that is read. Displayed as two hexadecimal digits.
    Byte(u8),
}

/// What the wire answers to a byte of the master.
#[derive(Clone, Copy, Debug, PartialEq, Eq, Hash)]
pub enum Wire {
    /// The byte is acknowledged.
    Ack,
    /// The byte is not acknowledged.
    Nak,
}

/// The level of the interrupt pin, displayed as its letter.
#[derive(Clone, Copy, Debug, PartialEq, Eq, Hash)]
pub enum Pin {
    /// High, `H`.
    High,
    /// Low, `L`.
    Low,
    /// The pin follows the crystal, `X`.
    Crystal,
}

impl Told {
    /// The four parts that the archive tells in one number: the refusal, the pin, the byte and the
    /// answer.
    pub(crate) fn check(told: u32) -> Result<Told, Refusal> {
        let [refusal, pin, byte, answer] = told.to_le_bytes();
        Refusal::check(u16::from(refusal))?;
        Ok(Told {
            answer: Answer::of(answer, byte),
            pin: Pin::of(pin),
        })
    }
}

impl Answer {
    fn of(number: u8, byte: u8) -> Answer {
        match number {
            0 => Answer::Quiet,
            1 => Answer::Ack,
            2 => Answer::Nak,
            3 => Answer::Byte(byte),
            _ => unreachable!("the archive tells no answer {number}"),
        }
    }
}

impl Pin {
    fn of(letter: u8) -> Pin {
        match letter {
            b'H' => Pin::High,
            b'L' => Pin::Low,
            b'X' => Pin::Crystal,
            _ => unreachable!("the archive tells no pin {letter}"),
        }
    }
}

impl fmt::Display for Told {
    fn fmt(&self, f: &mut fmt::Formatter<'_>) -> fmt::Result {
        write!(f, "{} {}", self.answer, self.pin)
    }
}

impl fmt::Display for Answer {
    fn fmt(&self, f: &mut fmt::Formatter<'_>) -> fmt::Result {
        match self {
            Answer::Quiet => f.write_str("--"),
            Answer::Ack => f.write_str("AK"),
            Answer::Nak => f.write_str("NK"),
            Answer::Byte(byte) => write!(f, "{byte:02X}"),
        }
    }
}

impl fmt::Display for Pin {
    fn fmt(&self, f: &mut fmt::Formatter<'_>) -> fmt::Result {
        f.write_str(match self {
            Pin::High => "H",
            Pin::Low => "L",
            Pin::Crystal => "X",
        })
    }
}
