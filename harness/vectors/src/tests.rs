//! Tests of the formats and of the stored items.

use crate::digest::Digest;
use crate::file::placed::Placed;
use crate::file::Run;
use crate::lines::{lines, lines_reading};
use crate::scenarios::{stored_items, stored_scripts};
use crate::script::{decode, encode, pulse_count, Item, Script};
use reference::{Phase, Reading, Stage};
use std::collections::{HashMap, HashSet};
use std::slice::from_ref;

fn text(item: impl Into<Item>) -> String {
    String::from_utf8(lines(&[item.into()])).expect("plain text")
}

/// Zero bytes from power-on, as a state line without its newline.
fn zero_state() -> String {
    format!("{}01{}", "00".repeat(15), "00".repeat(45))
}

#[test]
fn the_worked_example_comes_first() {
    let lines = text(stored_items()[0].clone());
    let (head, state) = lines.split_at(25);
    assert_eq!(head, "-- H\nAK H\n20 H\n19 H\n-- H\n");
    assert_eq!(state.len(), 123);
    assert!(state.starts_with("20199803201206"));
}

#[test]
fn a_script_without_events_shows_its_state() {
    let expected = format!("{}\n", zero_state());
    assert_eq!(text(Script::from_bytes([0; 19])), expected);
}

#[test]
fn a_state_line_shows_the_whole_state() {
    let digits: Vec<String> = (1..=61).map(|n| format!("{n:02X}")).collect();
    let mut bytes: [u8; 61] = std::array::from_fn(|at| at as u8 + 1);
    bytes[41] = 3;
    bytes[42] = 1;
    let line = digits.concat().replacen("292A2B2C", "2903012C", 1);
    assert_eq!(text(Script::from_bytes(bytes)), format!("{line}\n"));
}

#[test]
fn refused_start_bytes_run_on_from_zeros() {
    let script = Script::from_bytes([0xFF; 19]).event(7, 0, 0).stop();
    let zeros = zero_state();
    let expected = format!("refused 6\nrefused 2 -- H\n-- H\n{zeros}\n");
    assert_eq!(text(script), expected);
}

#[test]
fn a_badly_formed_state_stays() {
    let script = Script::handed_in([0; 7], |chip| chip.pointer = 32);
    let ram = "A0A1A2A3A4A5A6A7A8A9AAAB";
    let (before, after) = ("00".repeat(15), "00".repeat(20));
    let state = format!("{before}0100000000{ram}000000000000000020{after}");
    let expected = format!("{}{state}\n", "refused 1 -- H\n".repeat(3));
    assert_eq!(text(script.stop().event(9, 1, 1).power_loss()), expected);
}

#[test]
fn a_state_goes_on_where_it_stands() {
    let script = Script::handed_in([0; 7], |chip| {
        chip.pointer = 0x15;
        chip.phase = Phase::Open {
            stage: Stage::Reading,
            age: 16_383,
            saw_ctr1: false,
        };
    });
    let output = text(script.read_on(1).pulses(1).read_on(1));
    assert!(output.starts_with("A1 H\n-- H\nFF H\n"));
}

#[test]
fn states_are_shown_once_at_the_end() {
    let count = |script: Script| text(script).lines().filter(|l| l.len() == 122).count();
    let script = || Script::from_bytes([0; 19]);
    assert_eq!(count(script().stop()), 1);
    assert_eq!(count(script().stop().stop()), 2);
    assert_eq!(count(script().power_loss().start()), 2);
    assert_eq!(count(script().stop().event(1, 1, 0)), 2);
    assert_eq!(count(script().event(1, 1, 0)), 1);
}

/// A run of this script from power-on as a file, with so much room.
fn run(script: &Script, room: usize) -> Run {
    let file = Placed::start_first(script).finish();
    Run { file, room }
}

#[test]
fn a_file_shows_its_run_its_state_and_its_output() {
    let mut state = [0; 61];
    (state[0x0F], state[41]) = (0x01, 1);
    let state: String = state.map(|byte| format!("{byte:02X}")).concat();
    let script = Script::from_bytes([0; 19]).start();
    let expected = format!("refusal 0 index 0 count 1\n{state}\n-- H\n...........\n");
    assert_eq!(text(run(&script, 8)), expected);
}

/// Nothing is written, and the state is that of zero bytes.
#[test]
fn a_refused_file_leaves_its_output() {
    let good = Script::from_bytes([1; 19]).start().stop();
    let bad = good.clone().event(9, 0, 0);
    for (script, room, refused) in [
        (good, 9, "refusal 7 index 0"),
        (bad, 15, "refusal 2 index 2"),
    ] {
        let (zeros, dots) = (zero_state(), ".".repeat(room + 8));
        let expected = format!("{refused} count 0\n{zeros}\n{dots}\n");
        assert_eq!(text(run(&script, room)), expected);
    }
}

#[test]
fn the_input_form_is_exact() {
    let powered = Script::from_bytes([9; 19]).write(&[0x64]).pulses(0x0102);
    let mut state = [7; 61];
    state[41] = 1;
    state[42] = 0;
    let file = vec![11; 0x0304];
    let empty = Run {
        file: Vec::new(),
        room: 0,
    };
    let items = [
        powered.into(),
        Script::from_bytes(state).stop().into(),
        Run {
            file: file.clone(),
            room: 0x0506,
        }
        .into(),
        empty.into(),
    ];
    let expected = [
        &[0][..],
        &[9; 19],
        &[2, 0, 2, 0x64, 0, 0, 5, 0, 2, 1],
        &[1],
        &state,
        &[1, 0, 1, 0, 0, 0],
        &[2, 6, 5, 4, 3],
        &file,
        &[2, 0, 0, 0, 0],
    ];
    assert_eq!(encode(&items), expected.concat());
    assert_eq!(decode(&encode(&items)), items);
}

#[test]
fn the_stored_input_comes_back() {
    let bytes = encode(&stored_items());
    let items = decode(&bytes);
    assert_eq!(items.len(), stored_items().len());
    assert!(encode(&items) == bytes);
}

#[test]
fn cut_inputs_lose_their_last_item() {
    let state = Script::handed_in([0; 7], |_| {}).stop();
    for last in [
        Script::at([0; 7]).stop().into(),
        state.into(),
        run(&Script::at([0; 7]).stop(), 5).into(),
    ] {
        let whole = vec![Script::from_bytes([0; 19]).start().into()];
        let with_last = [whole.clone(), vec![last]].concat();
        let (short, long) = (encode(&whole).len(), encode(&with_last));
        assert_eq!(decode(&long), with_last);
        for length in short..long.len() {
            assert_eq!(decode(&long[..length]), whole);
        }
    }
}

#[test]
fn what_is_no_item_ends_the_input() {
    let whole = vec![Item::from(Script::from_bytes([0; 19]).start())];
    let more = encode(&whole);
    let mut no_state = [0; 61];
    no_state[41] = 6;
    let no_state = encode(&[Script::from_bytes(no_state).into()]);
    for end in [vec![3], vec![255], no_state] {
        assert_eq!(decode(&[more.clone(), end, more.clone()].concat()), whole);
    }
}

/// A wrong reading shows from power-on, from a state and in a file. The scripts
/// have the frequency on the pin, low at once.
#[test]
fn a_reading_goes_into_every_item() {
    let powered = Script::at([0; 7]).unlock_with(&[0xA1, 0x02]);
    let file = run(&powered, 5 * powered.events.len());
    let state = Script::handed_in([0; 7], |chip| {
        (chip.regs[0x10], chip.regs[0x11]) = (0xA1, 0x02);
    });
    for item in [powered.into(), state.start().into(), file.into()] {
        let items = [item];
        let wrong = lines_reading(&items, Reading::SourceBitsTurned);
        assert_ne!(wrong, lines(&items), "{items:?}");
        assert_eq!(lines_reading(&items, Reading::Right), lines(&items));
    }
}

#[test]
fn long_pulses_are_split() {
    let script = Script::from_bytes([0; 19]).pulses(131_071);
    let counts: Vec<u16> = script.events.iter().map(|e| e.count).collect();
    assert_eq!(counts, [65_535, 65_535, 1]);
}

#[test]
fn the_stored_scripts_are_not_too_long() {
    let items = stored_scripts();
    let events: usize = items.iter().map(|item| item.events().len()).sum();
    let pulses: u64 = items.iter().map(|item| pulse_count(item.events())).sum();
    println!("{} items, {events} events, {pulses} pulses", items.len());
    assert!(events < 8_000);
    assert!(pulses < 25_000_000);
}

#[test]
fn each_stored_script_has_a_name_of_its_own() {
    let items = stored_scripts();
    let names: Vec<&str> = items.iter().map(Item::name).collect();
    assert!(names.iter().all(|name| !name.is_empty()));
    let different: HashSet<&&str> = names.iter().collect();
    assert_eq!(different.len(), names.len());
}

#[test]
fn no_two_stored_items_have_the_same_bytes() {
    let items = stored_items();
    let mut names = HashMap::new();
    for item in &items {
        let bytes = encode(from_ref(item));
        if let Some(other) = names.insert(bytes, item.name()) {
            panic!("{} is {other} again", item.name());
        }
    }
}

/// They lie in the repository, and `rt ci` runs all of them.
#[test]
fn the_stored_input_and_output_are_small() {
    let items = stored_items();
    let (input, output) = (encode(&items).len(), lines(&items).len());
    println!("{input} bytes of input, {output} of output");
    assert!(input < 400_000 && output < 500_000);
}

/// 1, then 1000003 + 6, then 1000003 x 1000009 + 256 less 232 x 4294967291.
#[test]
fn a_digest_takes_figures_one_by_one() {
    let mut digest = Digest::default();
    assert_eq!(digest.value(), 0);
    let values = [0, 5, 255].map(|figure| {
        digest.take(figure);
        digest.value()
    });
    assert_eq!(values, [1, 1_000_009, 3_579_588_771]);
}
