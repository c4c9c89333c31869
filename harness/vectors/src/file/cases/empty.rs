//! Files without events, and files without even a header.

use super::{starts, SAMPLE_LENGTH};
use crate::file::placed::Placed;
use crate::file::Case;
use crate::script::Script;

pub fn cases() -> Vec<Case> {
    let mut cases = vec![
        Case::new("none", Placed::start_first(&none())).rooms(&[0, 1, 10]),
        Case::new("none-at-8", Placed::at(&none(), 8, 8)),
        Case::new("none-before-start", Placed::at(&none(), 12, 8)),
        Case::new("none-next-to-start", Placed::at(&none(), 12, 12)),
        Case::new("none-inside-start", Placed::at(&none(), 8, 17)),
        Case::new("none-at-last-start-byte", Placed::at(&none(), 8, 26)),
        Case::new("none-in-a-gap", Placed::at(&none(), 20, 10)),
        none_behind("none-before-the-end", SAMPLE_LENGTH - 1),
        none_behind("none-at-the-end", SAMPLE_LENGTH),
        none_behind("none-past-the-end", SAMPLE_LENGTH + 1),
        none_behind("none-far-away", 65_535),
        none_behind("none-at-7", 7),
        none_behind("none-at-0", 0),
        Case::new("none-count-18", Placed::at(&none(), 8, 27).start_count(18)),
        Case::new("none-with-cut-start", Placed::at(&none(), 8, 8).cut(1)),
        none_with_fixed_bit(),
    ];
    cases.extend(headless());
    cases
}

fn none() -> Script {
    Script::at([0x33, 0x22, 0x91, 0x02, 0x11, 0x10, 0x09])
}

/// At this offset of a file with bytes behind its start bytes.
fn none_behind(name: &str, at: usize) -> Case {
    let placed = Placed::start_first(&none()).length(SAMPLE_LENGTH);
    Case::new(name, placed.events_at(at))
}

fn none_with_fixed_bit() -> Case {
    let script = Script::at([0x00, 0x00, 0x40, 0x00, 0x00, 0x00, 0x00]);
    Case::new("none-with-fixed-bit", Placed::start_first(&script))
}

/// Cut within the header and right behind it.
fn headless() -> [Case; 7] {
    let cut = |name, length| Case::new(name, Placed::start_first(&starts(1)).length(length));
    [
        cut("nothing", 0),
        cut("one-byte", 1),
        cut("six-bytes", 6),
        cut("seven-bytes", 7),
        cut("eight-bytes", 8),
        Case::of_bytes("eight-zeros", vec![0; 8], &[0]),
        Case::of_bytes("header-of-nothing", vec![0, 0, 8, 0, 0, 0, 8, 0], &[0, 4]),
    ]
}
