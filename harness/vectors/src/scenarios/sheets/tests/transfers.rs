//! Answers byte by byte, and the half second.

use super::{printed, stage, time};
use crate::scenarios::sheets::transfers::PHASES;
use crate::scenarios::sheets::EXAMPLE_TIME;
use reference::Stage;

#[test]
fn two_bytes_are_written() {
    let printed = printed("003, 000, 001: writing to 14h and 15h");
    assert!(printed.answers().ends_with("-- -- AK AK AK AK --"));
    assert_eq!(printed.last().regs[0x14..0x17], [0x5A, 0xC3, 0xA2]);
}

#[test]
fn locked_bytes_are_acknowledged_and_lost() {
    let printed = printed("003, 001: writing to 14h and 15h while locked");
    assert_eq!(printed.answers(), "-- AK AK AK AK --");
    assert_eq!(printed.last().regs[0x14..0x17], [0xA0, 0xA1, 0xA2]);
}

#[test]
fn three_bytes_are_read_from_07h() {
    let printed = printed("003, 000, 001: reading method 1, 07h to 09h");
    assert!(printed.answers().ends_with("-- -- AK AK -- AK 20 30 08 --"));
}

#[test]
fn the_time_is_read_at_once() {
    let printed = printed("003, 000, 001: reading method 2, from 00h");
    assert!(printed
        .answers()
        .ends_with("-- -- AK 20 19 98 03 20 12 06 --"));
}

#[test]
fn only_two_addresses_are_its_own() {
    let printed = printed("003, 000, 001: device addresses");
    let answers = printed.answers().replace("--", "").replace(' ', "");
    assert_eq!(answers, format!("{}{}", "AK".repeat(2), "NK".repeat(7)));
}

#[test]
fn the_pointer_goes_round() {
    let printed = printed("003: after 1Fh comes 00h");
    assert_eq!(printed.bytes_read(), [0xE1, 0xE2, 0x31, 0x32]);
    assert_eq!(printed.last().regs[..2], [0x31, 0x32]);
    assert_eq!(printed.last().regs[0x1E..], [0xE1, 0xE2]);
}

#[test]
fn a_reading_has_one_time() {
    let printed = printed("003, 001: the time is latched and runs on");
    let (old, new) = (
        [0x59, 0x59, 0xA3, 0x00, 0x31, 0x12, 0x06],
        [0x00, 0x00, 0x80, 0x01, 0x01, 0x01, 0x07],
    );
    assert_eq!(printed.bytes_read(), [old, new].concat());
    assert_eq!(stage(printed.last()), Some(Stage::Reading));
    assert_eq!(time(printed.last()), new);
    assert_eq!(printed.states.len(), 1);
}

#[test]
fn a_wrap_takes_the_new_time() {
    let printed = printed("002: reading over the end latches anew");
    let new = [0x00, 0x00, 0x80, 0x01, 0x01, 0x01, 0x07];
    assert_eq!(printed.bytes_read()[0], 0xAB);
    assert_eq!(printed.bytes_read()[1..], new);
}

#[test]
fn a_repeated_start_does_not_prolong() {
    let printed = printed("003, 000, 001: a repeated START and the half second");
    assert!(printed.answers().ends_with("-- A1 -- FF"));
    assert_eq!(stage(printed.last()), None);
}

/// What the byte and the read answer, where they lead, and what is in 14h: the
/// pulse before the half second each phase goes on as at any other time.
#[test]
fn each_phase_ends_at_the_half_second() {
    let open = [
        ("AK FF", Stage::Pointer, 0xA0),
        ("AK FF", Stage::Writing, 0xA0),
        ("AK FF", Stage::Writing, 0x5A),
        ("NK 20", Stage::Reading, 0xA0),
        ("NK FF", Stage::Deaf, 0xA0),
    ];
    for (phase, (answers, next, ram)) in PHASES.into_iter().zip(open) {
        let name = format!(
            "003, 000, 001: a pulse before the half second, {}",
            phase.name
        );
        let short = printed(&name);
        assert!(
            short.answers().ends_with(&format!("-- {answers}")),
            "{name}"
        );
        assert_eq!(stage(short.last()), Some(next), "{name}");
        assert_eq!(short.last().regs[0x14], ram, "{name}");
        let name = format!("003, 000, 001: the half second, {}", phase.name);
        let late = printed(&name);
        assert!(late.answers().ends_with("-- -- NK FF"), "{name}");
        assert_eq!(
            (stage(late.last()), late.last().pointer),
            (None, 0),
            "{name}"
        );
        assert_eq!(time(late.last()), EXAMPLE_TIME);
        assert_eq!(late.last().regs[0x14], 0xA0, "{name}");
    }
}
