//! Runs of the stored files with several rooms, and of files by chance.

use crate::chance::draws::Draws;
use crate::chance::files::draw_file;
use crate::file::cases::stored_cases;
use crate::file::{Case, Run};
use reference::LINE_BYTES;

const RANDOM: usize = 300;

pub fn cases() -> Vec<Run> {
    let mut cases: Vec<Run> = stored_cases().iter().flat_map(with_rooms).collect();
    let mut draws = Draws::from(5);
    cases.extend((0..RANDOM).map(|_| draw_file(&mut draws)));
    cases
}

/// Each room of the case, and those about what the header's count asks for.
fn with_rooms(case: &Case) -> Vec<Run> {
    let word = case.file.first_chunk().unwrap_or(&[0, 0]);
    let needed = LINE_BYTES * usize::from(u16::from_le_bytes(*word));
    let mut rooms = case.rooms.clone();
    rooms.extend([0, needed.saturating_sub(1), needed, needed + 7]);
    rooms.sort_unstable();
    rooms.dedup();
    let run = |room| Run {
        file: case.file.clone(),
        room,
    };
    rooms.into_iter().map(run).collect()
}
