//! Tests of the stored cases, the examples and the output.

use super::cases::stored_cases;
use super::example::example;
use super::owed::{answer, owed, owed_for_run};
use super::placed::Placed;
use super::{runs, words, Case, LARGEST_ROOM};
use crate::script::Script;
use reference::{run_file, Reading};
use std::collections::{HashMap, HashSet};

/// The refusal numbers of all runs, and how often each comes up.
fn refusals(cases: &[Case]) -> HashMap<u8, usize> {
    let mut found = HashMap::new();
    for case in cases {
        for room in &case.rooms {
            let run = run_file(&case.file, &mut vec![0; *room]);
            *found.entry(run.refusal).or_insert(0) += 1;
        }
    }
    found
}

fn text(bytes: Vec<u8>) -> String {
    String::from_utf8(bytes).expect("plain text")
}

#[test]
fn the_file_form_is_exact() {
    let script = Script::from_bytes([9; 19]).write(&[0x64]).pulses(0x0102);
    let mut expected = vec![2, 0, 27, 0, 19, 0, 8, 0];
    expected.extend([9; 19]);
    expected.extend([2, 0x64, 0, 0, 5, 0, 2, 1]);
    assert_eq!(Placed::start_first(&script).finish(), expected);
}

#[test]
fn either_section_can_stand_first() {
    let script = Script::from_bytes([9; 19]).stop();
    let mut expected = vec![1, 0, 8, 0, 19, 0, 12, 0];
    expected.extend([1, 0, 0, 0]);
    expected.extend([9; 19]);
    assert_eq!(Placed::events_first(&script).finish(), expected);
    let gaps = Placed::at(&script, 9, 29).finish();
    assert_eq!(
        (gaps.len(), gaps[8], gaps[9], gaps[28]),
        (33, 0xEE, 9, 0xEE)
    );
}

#[test]
fn names_are_plain_and_stand_once() {
    let cases = stored_cases();
    let names: HashSet<&str> = cases.iter().map(|c| c.name.as_str()).collect();
    assert_eq!(names.len(), cases.len());
    let plain = |c: char| c.is_ascii_lowercase() || c.is_ascii_digit() || c == '-';
    assert!(names.iter().all(|name| name.chars().all(plain)));
    assert!(names.iter().all(|name| (1..=26).contains(&name.len())));
}

#[test]
fn words_ask_for_every_run_in_order() {
    let cases = stored_cases();
    let words = words(&cases);
    let files: HashMap<&str, &[u8]> = cases
        .iter()
        .map(|case| (case.name.as_str(), &case.file[..]))
        .collect();
    let mut out = Vec::new();
    for (name, room) in runs(&words).expect("pairs") {
        out.extend(owed_for_run(name, files[name], room, Reading::Right));
    }
    assert_eq!(out, owed(&cases));
    assert_eq!(words.lines().count(), words.split_whitespace().count());
}

#[test]
fn odd_words_are_no_runs() {
    assert_eq!(runs("a\n1\nb\n2\n"), Some(vec![("a", 1), ("b", 2)]));
    assert_eq!(runs(""), Some(vec![]));
    assert_eq!(runs("a\n1\nb\n"), None);
    assert_eq!(runs("a\nb\n"), None);
}

#[test]
fn the_stored_cases_are_not_too_large() {
    let cases = stored_cases();
    let data: usize = cases.iter().map(|case| case.file.len()).sum();
    let out = owed(&cases).len();
    println!("{} files, {data} bytes, {out} bytes owed", cases.len());
    assert!(data < 250_000 && out < 250_000);
    let mut rooms = cases.iter().flat_map(|case| &case.rooms);
    assert!(rooms.all(|room| *room <= LARGEST_ROOM));
}

#[test]
fn every_refusal_is_stored() {
    let found = refusals(&stored_cases());
    println!("{found:?}");
    for number in [0, 2, 3, 4, 5, 6, 7, 8] {
        assert!(found[&number] >= 8);
    }
    assert_eq!(found.len(), 8);
}

/// A pair's name gives its refusal first.
#[test]
fn pairs_give_the_refusal_they_name() {
    let cases = stored_cases();
    let pairs = cases.iter().filter(|case| case.name.starts_with("pair-"));
    let mut count = 0;
    for case in pairs {
        let number = case.name.as_bytes()[5] - b'0';
        let found = refusals(std::slice::from_ref(case));
        assert_eq!(found, HashMap::from([(number, case.rooms.len())]));
        count += 1;
    }
    assert!(count >= 30);
}

#[test]
fn a_run_is_shown_with_what_stands_behind_it() {
    let file = Placed::start_first(&Script::from_bytes([0; 19]).start()).finish();
    let zeros = format!("{}01{}", "00".repeat(15), "00".repeat(16));
    let shown = |room| text(owed_for_run("x", &file, room, Reading::Right));
    let good = "refusal 0 index 0 count 1";
    assert_eq!(shown(5), format!("x 5\n{good}\n{zeros}\n-- H\n........\n"));
    assert_eq!(shown(6), format!("x 6\n{good}\n{zeros}\n-- H\n.........\n"));
    let short = "refusal 7 index 0 count 0";
    assert_eq!(shown(4), format!("x 4\n{short}\n{zeros}\n............\n"));
}

#[test]
fn answers_are_lines_or_the_number_alone() {
    let script = Script::from_bytes([0; 19]).start();
    let bytes = |script: &Script| Placed::start_first(script).finish();
    assert_eq!(text(answer(&bytes(&script))), "-- H\n");
    let refused = script.event(1, 1, 0);
    assert_eq!(text(answer(&bytes(&refused))), "refused 3\n");
    let none = Script::from_bytes([0; 19]);
    assert_eq!(text(answer(&bytes(&none))), "");
    assert_eq!(text(answer(&[])), "refused 4\n");
    assert_eq!(text(answer(&[0; 16_385])), "refused 8\n");
}

#[test]
fn the_example_read_is_the_worked_one() {
    let file = example("read").expect("a known name");
    assert_eq!(text(answer(&file)), "-- H\nAK H\n20 H\n19 H\n-- H\n");
    assert_eq!(example("write"), None);
}

#[test]
fn the_example_boot_reads_the_evening_back() {
    let file = example("boot").expect("a known name");
    let lines = text(answer(&file));
    let read = "03 H\n15 H\n29 H\n04 H\n14 H\n03 H\n24 H\n-- H\n";
    assert!(lines.ends_with(read));
    assert!(lines.lines().count() < 60);
    assert!(!lines.contains("NK"));
}
