//! Script files as test cases, and the output owed for them.

pub mod cases;
pub mod example;
pub mod owed;
pub mod placed;
#[cfg(test)]
mod tests;

use placed::Placed;
use reference::LINE_BYTES;

/// What a run is lent at most; the lines of every file fit.
pub const LARGEST_ROOM: usize = 20_472;

/// A script file, and the lengths of the outputs it is run with.
#[derive(Clone, Debug, PartialEq, Eq)]
pub struct Case {
    pub name: String,
    pub file: Vec<u8>,
    pub rooms: Vec<usize>,
}

impl Case {
    /// With exactly the room that the header's event count asks for.
    pub fn new(name: &str, placed: Placed) -> Case {
        let room = LINE_BYTES * usize::from(placed.event_count);
        Case::of_bytes(name, placed.finish(), &[room])
    }

    pub fn of_bytes(name: &str, file: Vec<u8>, rooms: &[usize]) -> Case {
        Case {
            name: name.to_string(),
            file,
            rooms: rooms.to_vec(),
        }
    }

    /// A run for each of its rooms.
    pub fn into_runs(self) -> Vec<Run> {
        let Case { file, rooms, .. } = self;
        let run = |room| Run {
            file: file.clone(),
            room,
        };
        rooms.into_iter().map(run).collect()
    }

    /// The same with other rooms.
    pub fn rooms(mut self, rooms: &[usize]) -> Case {
        self.rooms = rooms.to_vec();
        self
    }
}

/// A script file, and the room that its run is lent.
#[derive(Clone, Debug, PartialEq, Eq)]
pub struct Run {
    pub file: Vec<u8>,
    pub room: usize,
}

/// The argument words: a name and a room for each run.
pub fn words(cases: &[Case]) -> String {
    let mut words = String::new();
    for case in cases {
        for room in &case.rooms {
            words += &format!("{}\n{room}\n", case.name);
        }
    }
    words
}

/// The runs that argument words ask for, or nothing if they are no pairs.
pub fn runs(words: &str) -> Option<Vec<(&str, usize)>> {
    let words: Vec<&str> = words.split_whitespace().collect();
    let pairs = words.chunks(2).map(|pair| match pair {
        [name, room] => Some((*name, room.parse().ok()?)),
        _ => None,
    });
    pairs.collect()
}
