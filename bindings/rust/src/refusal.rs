//! Why something is refused.

use std::error::Error;
use std::fmt;

/// Why a power-on, a state, an event or a script file is refused. What is refused has changed
/// nothing. The rules list the refusals 1 to 8.
///
/// ```
/// use tallowreed::{Clock, Refusal};
///
/// // There must be 19 start bytes.
/// let refusal = Clock::power_on(&[0; 18]).unwrap_err();
/// assert_eq!(refusal, Refusal::Section);
/// assert_eq!(refusal.number(), 5);
/// ```
#[derive(Clone, Copy, Debug, PartialEq, Eq, Hash)]
#[repr(u8)]
pub enum Refusal {
    /// 1: the bytes are not a well-formed state.
    State = 1,
    /// 2: there is no such kind of event.
    Kind = 2,
    /// 3: an event has a byte or a count that its kind does not use, or pulses are 0.
    Field = 3,
    /// 4: a script file is shorter than its header of 8 bytes.
    FileShort = 4,
    /// 5: there are not 19 start bytes, or a section of a script file is not where it can be.
    Section = 5,
    /// 6: a start byte of the time has a bit set that is always 0.
    Start = 6,
    /// 7: the output has not five bytes for each event.
    OutputShort = 7,
    /// 8: a script file is longer than 16,384 bytes.
    FileLong = 8,
    /// 255: the archive is of another version. It has states of another length, see
    /// [`state_size`](crate::state_size), or it refuses with a number that is none of these, which
    /// this package cannot tell the reason of. No row of the rules has the number 255.
    OtherVersion = 255,
}

impl Refusal {
    /// All refusals, in the order of their numbers.
    pub const ALL: [Refusal; 9] = [
        Refusal::State,
        Refusal::Kind,
        Refusal::Field,
        Refusal::FileShort,
        Refusal::Section,
        Refusal::Start,
        Refusal::OutputShort,
        Refusal::FileLong,
        Refusal::OtherVersion,
    ];

    /// The refusal's number: 1 to 8, as the script program prints it, or 255.
    #[must_use]
    pub fn number(self) -> u8 {
        self as u8
    }

    /// What the archive tells of a refusal: 0 for none, else its number.
    pub(crate) fn check(number: u16) -> Result<(), Refusal> {
        if number == 0 {
            return Ok(());
        }
        let mut all = Self::ALL.into_iter();
        let known = all.find(|refusal| u16::from(refusal.number()) == number);
        Err(known.unwrap_or(Refusal::OtherVersion))
    }
}

impl fmt::Display for Refusal {
    fn fmt(&self, f: &mut fmt::Formatter<'_>) -> fmt::Result {
        let reason = match self {
            Refusal::State => "the state is not well formed",
            Refusal::Kind => "there is no such kind of event",
            Refusal::Field => "a field that the event does not use is not 0, or pulses are 0",
            Refusal::FileShort => "the file is shorter than its header",
            Refusal::Section => "there are not 19 start bytes, or a section is not in its place",
            Refusal::Start => "a start byte of the time has a bit set that is always 0",
            Refusal::OutputShort => "the output is too short for the lines",
            Refusal::FileLong => "the file is longer than 16,384 bytes",
            Refusal::OtherVersion => "the archive is of another version",
        };
        write!(f, "refused {}: {reason}", self.number())
    }
}

impl Error for Refusal {}
