//! Events at fault, and events that only look so.

use super::{starts, NEW_CENTURY};
use crate::file::placed::Placed;
use crate::file::Case;
use crate::script::Script;

pub fn cases() -> Vec<Case> {
    [
        kinds(),
        fields(),
        places(),
        pairs_of_faults(),
        odd_but_fine(),
    ]
    .concat()
}

/// One odd event between a START and a STOP.
fn amid(name: &str, kind: u8, byte: u8, count: u16) -> Case {
    let script = Script::at(NEW_CENTURY)
        .start()
        .event(kind, byte, count)
        .stop();
    Case::new(name, Placed::start_first(&script))
}

fn kinds() -> Vec<Case> {
    let case = |kind: u8| amid(&format!("kind-{kind}"), kind, 0, 0);
    [7, 8, 9, 16, 64, 128, 133, 255].map(case).to_vec()
}

/// Each unused field of each kind, and no pulses.
fn fields() -> Vec<Case> {
    let mut cases = Vec::new();
    for kind in [0, 1, 2, 3, 4, 6] {
        if kind != 2 {
            cases.push(amid(&format!("kind-{kind}-byte"), kind, 0x65, 0));
        }
        cases.push(amid(&format!("kind-{kind}-count-low"), kind, 0, 1));
        cases.push(amid(&format!("kind-{kind}-count-high"), kind, 0, 0x8000));
    }
    cases.push(amid("kind-5-byte", 5, 0x80, 1));
    cases.push(amid("kind-5-none", 5, 0, 0));
    cases
}

/// So many good events with a fault in one place.
fn fault_at(name: &str, count: usize, at: usize, (kind, byte): (u8, u8)) -> Case {
    let mut script = starts(count);
    script.start_bytes[7] = 0xA7;
    script.events[at].kind = kind;
    script.events[at].byte = byte;
    Case::new(name, Placed::start_first(&script))
}

const BAD_KIND: (u8, u8) = (7, 0);
const BAD_FIELD: (u8, u8) = (3, 1);
const BAD_BOTH: (u8, u8) = (9, 9);

fn places() -> Vec<Case> {
    vec![
        fault_at("two-first", 7, 0, BAD_KIND),
        fault_at("two-middle", 7, 3, BAD_KIND),
        fault_at("two-last", 7, 6, BAD_KIND),
        fault_at("two-only", 1, 0, BAD_KIND),
        fault_at("two-late", 300, 299, BAD_KIND),
        fault_at("three-first", 7, 0, BAD_FIELD),
        fault_at("three-middle", 7, 3, BAD_FIELD),
        fault_at("three-last", 7, 6, BAD_FIELD),
        fault_at("three-only", 1, 0, BAD_FIELD),
        fault_at("three-late", 300, 256, BAD_FIELD),
        fault_at("two-and-three", 7, 2, BAD_BOTH),
        fault_at("two-and-three-last", 7, 6, BAD_BOTH),
    ]
}

fn pairs_of_faults() -> Vec<Case> {
    let pair = |name: &str, first: (u8, u8, u16), second: (u8, u8, u16)| {
        let script = Script::at(NEW_CENTURY)
            .pulses(9)
            .event(first.0, first.1, first.2)
            .start()
            .event(second.0, second.1, second.2)
            .stop();
        Case::new(name, Placed::events_first(&script))
    };
    vec![
        pair("two-then-three", (7, 0, 0), (1, 1, 0)),
        pair("three-then-two", (1, 1, 0), (7, 0, 0)),
        pair("two-then-two", (7, 0, 0), (8, 0, 0)),
        pair("three-then-three", (5, 0, 0), (0, 0, 1)),
        pair("both-then-three", (7, 1, 1), (6, 0, 1)),
        pair("three-then-both", (2, 0, 1), (255, 255, 65_535)),
    ]
}

/// Zero is a byte like any other, and any count of pulses but none is good.
fn odd_but_fine() -> Vec<Case> {
    vec![
        amid("byte-0", 2, 0, 0),
        amid("byte-255", 2, 255, 0),
        amid("one-pulse", 5, 0, 1),
        amid("pulses-256", 5, 0, 256),
    ]
}
