//! The program `random` as a whole: its parts must fit each other.

use std::process::{Command, Output};
use vectors::lines::lines;
use vectors::script::{decode, Item};

fn random(arguments: &str) -> Output {
    let program = env!("CARGO_BIN_EXE_random");
    let output = Command::new(program).args(arguments.split(' ')).output();
    output.expect("the program starts")
}

fn bytes(arguments: &str) -> Vec<u8> {
    let output = random(arguments);
    assert!(output.status.success(), "{arguments}");
    output.stdout
}

fn text_of(bytes: Vec<u8>) -> String {
    String::from_utf8(bytes).expect("plain text")
}

fn text(arguments: &str) -> String {
    text_of(bytes(arguments))
}

/// The items that these words write.
fn items(arguments: &str) -> Vec<Item> {
    decode(&bytes(arguments))
}

/// What is owed for the items is what is written as owed at once.
#[test]
fn items_and_lines_fit() {
    for kind in ["files", "steps"] {
        let items = items(&format!("items {kind} 5 60"));
        assert_eq!(items.len(), 60);
        let is_of_kind = |item: &Item| matches!(item, Item::File(_)) == (kind == "files");
        assert!(items.iter().all(is_of_kind));
        assert!(bytes(&format!("lines {kind} 5 60")) == lines(&items));
    }
}

/// Batches, each from where it starts, are the whole row.
#[test]
fn starts_are_where_batches_begin() {
    for kind in ["files", "steps"] {
        let starts = text(&format!("starts {kind} 5 60 20"));
        let starts: Vec<&str> = starts.lines().collect();
        assert_eq!((starts[0], starts.len()), ("5", 3));
        let batches = starts
            .iter()
            .map(|x| bytes(&format!("items {kind} {x} 20")));
        let batches: Vec<Vec<u8>> = batches.collect();
        assert!(batches.concat() == bytes(&format!("items {kind} 5 60")));
    }
}

#[test]
fn none_are_none() {
    for kind in ["files", "steps"] {
        for words in ["starts KIND 5 0 20", "items KIND 5 0", "lines KIND 5 0"] {
            assert_eq!(text(&words.replace("KIND", kind)), "");
        }
    }
}

/// The first draw from 5 is 3CEDh, which leaves 13 of sixteen: a built file.
#[test]
fn a_file_comes_with_its_room() {
    let output = random("file 5");
    let count = u16::from_le_bytes([output.stdout[0], output.stdout[1]]);
    assert!(count > 0 && output.stdout.len() > 4 * usize::from(count));
    assert!(output.stderr.starts_with(b"room "));
}

/// A file and a step that are written alone are those of a row of one.
#[test]
fn one_can_be_looked_at_alone() {
    for x in 0..40 {
        let file = random(&format!("file {x}"));
        let room = text_of(file.stderr);
        let [Item::File(run)] = &items(&format!("items files {x} 1"))[..] else {
            panic!("a file");
        };
        assert_eq!(room, format!("room {}\n", run.room));
        assert!(file.stdout == run.file);
        let step = bytes(&format!("step {x}"));
        assert_eq!(step, bytes(&format!("items steps {x} 1")));
        let [Item::State(script)] = &decode(&step)[..] else {
            panic!("a script from a state");
        };
        assert_eq!(script.events.len(), 1);
    }
}

#[test]
fn depth_tells_its_counts() {
    let counts = text("depth 5 20");
    assert!(counts.lines().any(|line| line.ends_with(" files that ran")));
}

#[test]
fn other_words_are_refused() {
    for words in [
        "starts files 5 50 0",
        "starts steps 5 50 20",
        "starts files 5 60",
        "starts digests 5 60 20",
        "items files 5",
        "items 5 60",
        "items steps 5 60 20",
        "items steps 5 4294967296",
        "lines files 4294967296 5",
        "lines files x 5",
        "files 5 60 20",
        "file",
        "file -1",
        "step x",
        "depth x 1",
    ] {
        assert_eq!(random(words).status.code(), Some(2), "{words}");
    }
}
