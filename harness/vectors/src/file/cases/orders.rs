//! Two or more faults in one file: the earlier in the order is given.

use super::NEW_CENTURY;
use crate::file::placed::Placed;
use crate::file::Case;
use crate::script::Script;

/// One more than a file may have.
const TOO_LONG: usize = 16_385;

/// A time with a fixed bit of the month set.
const FIXED_BIT: [u8; 7] = [0x00, 0x00, 0x80, 0x06, 0x01, 0x21, 0x00];

pub fn cases() -> Vec<Case> {
    [
        too_long(),
        headless(),
        misplaced(),
        fixed_bit(),
        at_the_end(),
    ]
    .concat()
}

/// Five events, the fourth with this kind and byte, after this time.
fn script(time: [u8; 7], kind: u8, byte: u8) -> Script {
    Script::at(time)
        .start()
        .write(&[0x64, 0x00])
        .event(kind, byte, 0)
        .stop()
}

fn good() -> Script {
    script(NEW_CENTURY, 4, 0)
}

fn bad_kind() -> Script {
    script(NEW_CENTURY, 7, 0)
}

fn bad_field() -> Script {
    script(NEW_CENTURY, 4, 1)
}

fn bad_start() -> Script {
    script(FIXED_BIT, 4, 0)
}

fn tight(script: Script) -> Placed {
    Placed::start_first(&script)
}

fn too_long() -> Vec<Case> {
    let long = |name: &str, placed: Placed| Case::new(name, placed.length(TOO_LONG));
    vec![
        long("pair-8-5", tight(good()).start_count(18)),
        long("pair-8-6", tight(bad_start())),
        long("pair-8-2", tight(bad_kind())),
        long("pair-8-3", tight(bad_field())).rooms(&[25, 24]),
    ]
}

fn headless() -> Vec<Case> {
    let cut = |name: &str, placed: Placed| Case::new(name, placed.length(7));
    vec![
        cut("pair-4-5", tight(good()).start_count(18)),
        cut("pair-4-7", tight(good())).rooms(&[24, 0]),
    ]
}

/// A way to place a script, by name.
type Way = (&'static str, fn(&Script) -> Placed);

/// Row 5 in several ways, each with each later fault.
fn misplaced() -> Vec<Case> {
    let ways: [Way; 6] = [
        ("count", |script| Placed::at(script, 8, 30).start_count(20)),
        ("end", |script| Placed::start_first(script).cut(1)),
        ("start-end", |script| Placed::events_first(script).cut(1)),
        ("shared", |script| Placed::at(script, 9, 27)),
        ("start-shared", |script| Placed::at(script, 27, 8)),
        ("wrap", |s| Placed::start_first(s).event_count(5 + 16_384)),
    ];
    let mut cases = Vec::new();
    for (way, place) in ways {
        for (number, fault) in [(6, bad_start()), (2, bad_kind()), (3, bad_field())] {
            let name = format!("pair-5-{number}-{way}");
            cases.push(Case::new(&name, place(&fault)).rooms(&[25]));
        }
        let name = format!("pair-5-7-{way}");
        cases.push(Case::new(&name, place(&good())).rooms(&[24, 0]));
    }
    cases.push(offset_of_nothing());
    cases
}

/// No events, at a place where even none may be.
fn offset_of_nothing() -> Case {
    let placed = tight(bad_start()).event_count(0).events_at(7);
    Case::new("pair-5-6-offset", placed)
}

fn fixed_bit() -> Vec<Case> {
    vec![
        Case::new("pair-6-2", tight(script(FIXED_BIT, 7, 0))),
        Case::new("pair-6-3", tight(script(FIXED_BIT, 4, 1))),
        Case::new("pair-6-7", tight(bad_start())).rooms(&[24, 0]),
    ]
}

/// The room is judged last.
fn at_the_end() -> Vec<Case> {
    let everything = || tight(script(FIXED_BIT, 8, 1));
    let both = tight(script(NEW_CENTURY, 8, 1));
    vec![
        Case::new("pair-2-7", tight(bad_kind())).rooms(&[24, 0]),
        Case::new("pair-3-7", tight(bad_field())).rooms(&[24, 0]),
        Case::new("both-and-7", both).rooms(&[24, 19, 15, 0]),
        Case::new("all-from-6", everything()).rooms(&[0]),
        Case::new("all-from-5", everything().start_count(18)).rooms(&[0]),
        Case::new("all-from-4", everything().start_count(18).length(7)).rooms(&[0]),
    ]
}
