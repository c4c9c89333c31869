//! Sections wherever they may stand.

use super::{sample, SAMPLE_LENGTH, SAMPLE_ROOM};
use crate::file::placed::Placed;
use crate::file::Case;

pub fn cases() -> Vec<Case> {
    vec![
        Case::new("start-first", Placed::start_first(&sample())).rooms(&[
            SAMPLE_ROOM,
            SAMPLE_ROOM - 1,
            SAMPLE_ROOM + 1,
            SAMPLE_ROOM + 10,
            20,
            5,
            0,
        ]),
        Case::new("events-first", Placed::events_first(&sample())),
        Case::new("gaps-start-first", Placed::at(&sample(), 16, 48)),
        Case::new("gaps-events-first", Placed::at(&sample(), 52, 12)),
        Case::new("odd-offsets", Placed::at(&sample(), 9, 31)),
        Case::new("odd-offsets-turned", Placed::at(&sample(), 37, 11)),
        Case::new("start-far", Placed::at(&sample(), 0x0134, 8)),
        Case::new("events-far", Placed::at(&sample(), 8, 0x0134)),
        Case::new("both-far", Placed::at(&sample(), 0x0218, 0x0134)),
        bad_bytes_behind(),
        good_bytes_behind(),
        half_an_event_behind(),
        fewer_events(),
    ]
}

/// They look like a bad event, but belong to no section.
fn bad_bytes_behind() -> Case {
    let placed = Placed::start_first(&sample()).behind(&[7, 0, 0, 0, 1, 1, 1, 1]);
    Case::new("bad-bytes-behind", placed).rooms(&[SAMPLE_ROOM, SAMPLE_ROOM + 10])
}

/// They look like two more STARTs.
fn good_bytes_behind() -> Case {
    let placed = Placed::start_first(&sample()).behind(&[0; 8]);
    Case::new("good-bytes-behind", placed).rooms(&[SAMPLE_ROOM, SAMPLE_ROOM + 10])
}

fn half_an_event_behind() -> Case {
    Case::new(
        "half-an-event-behind",
        Placed::start_first(&sample()).length(SAMPLE_LENGTH + 2),
    )
}

/// The header asks for the first three events only.
fn fewer_events() -> Case {
    let placed = Placed::start_first(&sample()).event_count(3);
    Case::new("fewer-events", placed).rooms(&[15, 14, 25])
}
