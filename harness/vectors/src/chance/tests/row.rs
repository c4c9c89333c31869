//! Rows and their batches, and what comes of those that are compared.

use super::super::draws::Draws;
use super::super::files::{draw_file, pulse_count};
use super::super::row::{Kind, Row};
use super::super::steps::draw_step;
use super::refusals;
use crate::file::owed::run_lent;
use crate::file::Run;
use crate::scenarios::stored_by_chance;
use crate::script::Item;
use reference::Reading;

fn row(kind: Kind, x: u32, count: u32) -> Row {
    Row { kind, x, count }
}

fn items(row: Row) -> Vec<Item> {
    row.items().collect()
}

fn starts(row: Row, size: u32) -> Option<Vec<u32>> {
    row.starts(size).map(Iterator::collect)
}

#[test]
fn each_is_drawn_from_what_the_one_before_has_left() {
    let (mut files, mut steps) = (Draws::from(99), Draws::from(99));
    let drawn_files = [(); 30].map(|_| Item::from(draw_file(&mut files)));
    let drawn_steps = [(); 30].map(|_| Item::from(draw_step(&mut steps)));
    assert_eq!(items(row(Kind::Files, 99, 30)), drawn_files);
    assert_eq!(items(row(Kind::Steps, 99, 30)), drawn_steps);
}

#[test]
fn batches_make_up_their_row() {
    for kind in Kind::ALL {
        let whole = row(kind, 8, 60);
        for size in [1, 20, 60] {
            let starts = starts(whole, size).expect("whole batches");
            assert_eq!((starts[0], starts.len()), (8, 60 / size as usize));
            let batches = starts.into_iter().map(|x| items(row(kind, x, size)));
            assert_eq!(batches.collect::<Vec<_>>().concat(), items(whole));
        }
    }
}

#[test]
fn no_batch_is_cut() {
    for kind in Kind::ALL {
        for size in [0, 7, 61] {
            assert_eq!(starts(row(kind, 8, 60), size), None);
        }
        assert_eq!(starts(row(kind, 8, 0), 7), Some(Vec::new()));
        assert_eq!(starts(row(kind, 8, 0), 0), None);
    }
}

#[test]
fn kinds_are_found_by_name() {
    assert_eq!(Kind::named("files"), Some(Kind::Files));
    assert_eq!(Kind::named("steps"), Some(Kind::Steps));
    assert_eq!(Kind::named("step"), None);
}

/// The pulses of all files that run.
fn pulses_of(files: Row) -> u64 {
    let pulses = files.items().map(|item| match item {
        Item::File(Run { file, room }) if run_lent(&file, room, Reading::Right).0.refusal == 0 => {
            pulse_count(&file)
        }
        _ => 0,
    });
    pulses.sum()
}

/// The pulses bound the time that the programs compared may take.
#[test]
fn the_files_compared_are_counted() {
    let files = row(Kind::Files, 1, 20_000);
    let counts = [14_696, 0, 123, 404, 310, 2_252, 64, 2_046, 105];
    assert_eq!(refusals(files.items()), counts);
    assert_eq!(pulses_of(files), 497_070_376);
}

/// About half of them run; the others show each refusal of a step.
#[test]
fn the_steps_compared_are_counted() {
    let steps = row(Kind::Steps, 2, 20_000);
    let counts = [10_420, 7_664, 779, 1_137, 0, 0, 0, 0, 0];
    assert_eq!(refusals(steps.items()), counts);
}

/// Steps and then files, of each some that run.
#[test]
fn those_stored_are_counted() {
    let mut steps = stored_by_chance();
    let files = steps.split_off(200);
    assert_eq!(files.len(), 40);
    let [steps, files] = [steps, files].map(|items| refusals(items.into_iter()));
    assert_eq!(steps, [108, 72, 9, 11, 0, 0, 0, 0, 0]);
    assert_eq!(files, [30, 0, 1, 0, 1, 5, 0, 3, 0]);
}
