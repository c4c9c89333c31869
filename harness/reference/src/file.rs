//! Script files: the header, the two sections, the refusals and the run.
//!
//! Section bounds are judged byte by byte, with no sums of offsets to trust.

use crate::chip::check_as_read;
use crate::{Chip, Reading, START_BYTES};

/// A longer file is refused unseen.
pub const LONGEST_FILE: usize = 16_384;

/// Four words.
pub const HEADER_BYTES: usize = 8;

/// Kind, byte, and a word for the count.
pub const EVENT_BYTES: usize = 4;

/// Two characters, a space, the pin and a newline.
pub const LINE_BYTES: usize = 5;

/// What is handed back for a file, beside the output.
#[derive(Clone, Debug, PartialEq, Eq)]
pub struct FileRun {
    /// 0 if nothing was refused.
    pub refusal: u8,
    /// Where the refused event stands; 0 for all other refusals.
    pub index: usize,
    /// Events that have run.
    pub count: usize,
    pub chip: Chip,
}

/// A refusal's number, and the index of its event.
type Refused = (u8, usize);

struct Header {
    event_count: usize,
    events_at: usize,
    start_count: usize,
    start_at: usize,
}

/// Judges the whole file, and runs it only if nothing is refused.
pub fn run_file(file: &[u8], out: &mut [u8]) -> FileRun {
    run_file_reading(file, out, Reading::Right)
}

/// The same where files and chip are taken in another way.
pub fn run_file_reading(file: &[u8], out: &mut [u8], reading: Reading) -> FileRun {
    match judge(file, out.len(), reading) {
        Ok((chip, events)) => run(chip, events, out),
        Err(refused) => refuse(refused, out, reading),
    }
}

/// Nothing has run, and the output is as it was.
fn refuse((refusal, index): Refused, out: &mut [u8], reading: Reading) -> FileRun {
    if reading == Reading::RefusedRunClears {
        out.fill(0);
    }
    let count = match reading {
        Reading::RefusedRunCounts => index,
        _ => 0,
    };
    FileRun {
        refusal,
        index,
        count,
        chip: Chip::of_zeros(reading),
    }
}

/// The refusals in their order; past them, the chip and the events section.
fn judge(file: &[u8], room: usize, reading: Reading) -> Result<(Chip, &[u8]), Refused> {
    if reading != Reading::LengthLast {
        check_length(file, reading)?;
    }
    if file.len() < HEADER_BYTES {
        return Err((4, 0));
    }
    let header = Header::read(file, reading);
    if !header.fits(file.len(), reading) {
        return Err((5, 0));
    }
    let start_bytes = &file[header.start_at..][..START_BYTES];
    let events = &file[header.events_at..][..header.events_size(reading)];
    let check_room = || check_room(room, header.event_count, reading);
    if reading == Reading::EventsBeforeStart {
        check_events(events, reading)?;
    }
    let chip = Chip::power_on_reading(start_bytes, reading).map_err(|number| (number, 0))?;
    if reading == Reading::RoomBeforeEvents {
        check_room()?;
    }
    check_events(events, reading)?;
    check_room()?;
    check_length(file, reading)?;
    Ok((chip, events))
}

fn check_length(file: &[u8], reading: Reading) -> Result<(), Refused> {
    let longest = match reading {
        Reading::LongestRefused => LONGEST_FILE - 1,
        _ => LONGEST_FILE,
    };
    if file.len() > longest {
        return Err((8, 0));
    }
    Ok(())
}

fn check_room(room: usize, event_count: usize, reading: Reading) -> Result<(), Refused> {
    if room >= LINE_BYTES * event_count {
        return Ok(());
    }
    Err(match reading {
        Reading::RoomWithIndex => (7, room / LINE_BYTES),
        _ => (7, 0),
    })
}

impl Header {
    fn read(file: &[u8], reading: Reading) -> Header {
        let event_count = word(file, 0);
        let events_at = match reading {
            Reading::EmptySectionAnywhere if event_count == 0 => HEADER_BYTES,
            _ => word(file, 2),
        };
        Header {
            event_count,
            events_at,
            start_count: word(file, 4),
            start_at: word(file, 6),
        }
    }

    fn events_size(&self, reading: Reading) -> usize {
        let size = EVENT_BYTES * self.event_count;
        match reading {
            Reading::SizeInSixteenBits => size % 65_536,
            _ => size,
        }
    }

    /// Each byte may be taken once: by the header or by one section.
    fn fits(&self, length: usize, reading: Reading) -> bool {
        let mut taken = vec![false; length];
        (self.start_count == START_BYTES || reading == Reading::StartCountUnjudged)
            && (HEADER_BYTES..=length).contains(&self.events_at)
            && (HEADER_BYTES..=length).contains(&self.start_at)
            && take(&mut taken, 0, HEADER_BYTES)
            && take(&mut taken, self.start_at, START_BYTES)
            && take(&mut taken, self.events_at, self.events_size(reading))
            && self.fits_also(&taken, reading)
    }

    /// Further conditions that only wrong readings know.
    fn fits_also(&self, taken: &[bool], reading: Reading) -> bool {
        let start_end = self.start_at + START_BYTES;
        match reading {
            Reading::OffsetAtEndRefused => self.events_at < taken.len(),
            Reading::EmptySectionShares => {
                !(self.start_at + 1..start_end).contains(&self.events_at)
            }
            Reading::EventsMustFollow => self.events_at >= start_end,
            Reading::GapsRefused => taken.iter().all(|byte| *byte),
            _ => true,
        }
    }
}

fn word(bytes: &[u8], at: usize) -> usize {
    usize::from(bytes[at]) + 256 * usize::from(bytes[at + 1])
}

/// Takes so many bytes; false if one is not there or is taken already.
fn take(taken: &mut [bool], at: usize, size: usize) -> bool {
    for i in at..at + size {
        if i >= taken.len() || taken[i] {
            return false;
        }
        taken[i] = true;
    }
    true
}

fn fields(event: &[u8]) -> (u8, u8, u16) {
    (event[0], event[1], word(event, 2) as u16)
}

/// The first event at fault decides.
fn check_events(events: &[u8], reading: Reading) -> Result<(), Refused> {
    let first = usize::from(reading == Reading::IndexFromOne);
    let judged = events.chunks_exact(EVENT_BYTES).zip(first..);
    let mut faults = judged.filter_map(|(event, index)| {
        let (kind, byte, count) = fields(event);
        let number = check_as_read(kind, byte, count, reading).err()?;
        Some((number, index))
    });
    let decides = match reading {
        Reading::KindsBeforeFields => faults.min_by_key(|(number, _)| *number),
        _ => faults.next(),
    };
    decides.map_or(Ok(()), Err)
}

fn run(mut chip: Chip, events: &[u8], out: &mut [u8]) -> FileRun {
    let events = events.chunks_exact(EVENT_BYTES);
    let count = events.len();
    for (event, line) in events.zip(out.chunks_exact_mut(LINE_BYTES)) {
        let (kind, byte, count) = fields(event);
        let pin_before = chip.pin();
        let answer = chip.step(kind, byte, count).expect("a judged event");
        let pin = match chip.manner.reading {
            Reading::PinBeforeEvent => pin_before,
            _ => chip.pin(),
        };
        line[..2].copy_from_slice(&answer.text());
        line[2..].copy_from_slice(&[b' ', pin.letter(), b'\n']);
    }
    if chip.reads(Reading::RestOfOutputCleared) {
        out[LINE_BYTES * count..].fill(0);
    }
    FileRun {
        refusal: 0,
        index: 0,
        count,
        chip,
    }
}
