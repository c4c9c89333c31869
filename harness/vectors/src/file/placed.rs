//! A script file in the making.

use crate::script::{Event, Script};
use reference::{EVENT_BYTES, HEADER_BYTES, START_BYTES};

/// Stands in gaps; read as an event it has a bad kind.
pub const GAP: u8 = 0xEE;

/// The header words, and the bytes over which the header is laid at last.
#[derive(Clone, Debug, PartialEq, Eq)]
pub struct Placed {
    pub event_count: u16,
    pub events_at: u16,
    pub start_count: u16,
    pub start_at: u16,
    pub bytes: Vec<u8>,
}

/// An event as it stands in a file.
fn event_bytes(event: &Event) -> [u8; EVENT_BYTES] {
    let [low, high] = event.count.to_le_bytes();
    [event.kind, event.byte, low, high]
}

/// Placing.
impl Placed {
    /// Header, start bytes, events, and nothing between them.
    pub fn start_first(script: &Script) -> Placed {
        Placed::at(script, HEADER_BYTES, HEADER_BYTES + START_BYTES)
    }

    /// Header, events, start bytes, and nothing between them.
    pub fn events_first(script: &Script) -> Placed {
        let behind = HEADER_BYTES + EVENT_BYTES * script.events.len();
        Placed::at(script, behind, HEADER_BYTES)
    }

    /// At these offsets, whatever they are.
    pub fn at(script: &Script, start_at: usize, events_at: usize) -> Placed {
        Placed::over(vec![GAP; HEADER_BYTES], script, start_at, events_at)
    }

    /// Laid over bytes that show through in the gaps. Where sections share
    /// bytes, those of the events remain.
    pub fn over(bytes: Vec<u8>, script: &Script, start_at: usize, events_at: usize) -> Placed {
        let word = |number: usize| u16::try_from(number).expect("a word");
        let mut placed = Placed {
            event_count: word(script.events.len()),
            events_at: word(events_at),
            start_count: START_BYTES as u16,
            start_at: word(start_at),
            bytes,
        };
        placed.put(start_at, &script.start_bytes);
        for (index, event) in script.events.iter().enumerate() {
            placed.put(events_at + EVENT_BYTES * index, &event_bytes(event));
        }
        placed
    }

    /// Lays bytes at a place, up to which the file grows if it is shorter.
    fn put(&mut self, at: usize, bytes: &[u8]) {
        let end = at + bytes.len();
        if self.bytes.len() < end {
            self.bytes.resize(end, GAP);
        }
        self.bytes[at..end].copy_from_slice(bytes);
    }
}

/// Changes.
impl Placed {
    pub fn event_count(mut self, count: u16) -> Placed {
        self.event_count = count;
        self
    }

    pub fn events_at(mut self, at: usize) -> Placed {
        self.events_at = at as u16;
        self
    }

    pub fn start_count(mut self, count: u16) -> Placed {
        self.start_count = count;
        self
    }

    pub fn start_at(mut self, at: usize) -> Placed {
        self.start_at = at as u16;
        self
    }

    /// More bytes at the end, in no section.
    pub fn behind(mut self, bytes: &[u8]) -> Placed {
        self.bytes.extend(bytes);
        self
    }

    /// Cut or grown to this length.
    pub fn length(mut self, length: usize) -> Placed {
        self.bytes.resize(length, GAP);
        self
    }

    /// Without its last bytes.
    pub fn cut(self, count: usize) -> Placed {
        let length = self.bytes.len() - count;
        self.length(length)
    }

    /// The file: as much of the header as there is room for, and the rest.
    pub fn finish(mut self) -> Vec<u8> {
        let words = [
            self.event_count,
            self.events_at,
            self.start_count,
            self.start_at,
        ];
        let header = words.map(u16::to_le_bytes).concat();
        for (byte, value) in self.bytes.iter_mut().zip(header) {
            *byte = value;
        }
        self.bytes
    }
}
