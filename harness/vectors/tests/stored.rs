//! Each stored file is what the programs write today.

use std::collections::BTreeSet;
use std::fs;
use std::path::{Path, PathBuf};
use std::process::Command;
use std::slice::from_ref;
use vectors::lines::lines;
use vectors::scenarios::stored_items;

const SD2068: &str = env!("CARGO_BIN_EXE_sd2068");
const SCRIPT: &str = env!("CARGO_BIN_EXE_script");
const FACTS: &str = env!("CARGO_BIN_EXE_facts");

/// The stored files, and the program and the words that write each.
const FILES: [(&str, &str, &[&str]); 9] = [
    ("crates/sd2068_vectors/stdin", SD2068, &["events"]),
    ("crates/sd2068_vectors/stdout", SD2068, &["lines"]),
    ("tests/files/args", SCRIPT, &["args"]),
    ("tests/files/runs", SCRIPT, &["lines"]),
    ("crates/clock/stdin", SCRIPT, &["example", "read"]),
    ("crates/explain/stdin", FACTS, &["script"]),
    ("crates/explain/stdout", FACTS, &["lines"]),
    ("examples/read.script", SCRIPT, &["example", "read"]),
    ("examples/boot.script", SCRIPT, &["example", "boot"]),
];

/// A folder that holds nothing but the files of `script files`.
const DATA: &str = "tests/files/data";

/// A path from the repository's root on.
fn stored(path: &str) -> PathBuf {
    Path::new(env!("CARGO_MANIFEST_DIR"))
        .join("../..")
        .join(path)
}

fn run(program: &str, words: &[&str]) -> Vec<u8> {
    let output = Command::new(program).args(words).output();
    let output = output.expect("the program starts");
    assert!(output.status.success(), "{program} {words:?}");
    output.stdout
}

/// A program's command line without its folder.
fn command(program: &str, words: &[&str]) -> String {
    let name = Path::new(program).file_stem().expect("a program's name");
    format!("{} {}", name.to_string_lossy(), words.join(" "))
}

/// The first item whose output is not the stored one.
fn first_that_differs(mut stored: &[u8]) -> Option<String> {
    for (at, item) in stored_items().iter().enumerate() {
        let Some(rest) = stored.strip_prefix(&lines(from_ref(item))[..]) else {
            return Some(format!("item {at} {}", item.name()));
        };
        stored = rest;
    }
    (!stored.is_empty()).then(|| "behind the last".to_string())
}

#[test]
fn the_files_are_up_to_date() {
    for (path, program, words) in FILES {
        let found = fs::read(stored(path)).unwrap_or_default();
        if found != run(program, words) {
            let command = command(program, words);
            panic!("{path} is not what `{command} > {path}` writes");
        }
    }
}

#[test]
fn the_items_print_what_is_stored() {
    let path = "crates/sd2068_vectors/stdout";
    let found = fs::read(stored(path)).expect("a stored output");
    assert_eq!(first_that_differs(&found), None, "{path}");
}

/// The names of a folder's files.
fn names(folder: &Path) -> BTreeSet<String> {
    let entries = fs::read_dir(folder).expect("a folder");
    let names = entries.map(|entry| entry.expect("a file").file_name());
    names
        .map(|name| name.into_string().expect("a plain name"))
        .collect()
}

#[test]
fn the_data_files_are_up_to_date() {
    let written = Path::new(env!("CARGO_TARGET_TMPDIR")).join("stored-data");
    if written.exists() {
        fs::remove_dir_all(&written).expect("an old folder goes");
    }
    run(SCRIPT, &["files", written.to_str().expect("a plain path")]);
    let anew = format!("empty {DATA} and write it anew with `script files {DATA}`");
    assert_eq!(names(&stored(DATA)), names(&written), "{anew}");
    for name in names(&written) {
        let same = fs::read(stored(DATA).join(&name)).ok() == fs::read(written.join(&name)).ok();
        assert!(same, "{DATA}/{name} is an old one: {anew}");
    }
}
