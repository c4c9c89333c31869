//! The program `script` as a whole: its parts must fit each other.

use std::fs;
use std::path::{Path, PathBuf};
use std::process::Command;

fn script(arguments: &[&str]) -> Vec<u8> {
    let program = env!("CARGO_BIN_EXE_script");
    let output = Command::new(program).args(arguments).output();
    let output = output.expect("the program starts");
    assert!(output.status.success(), "{arguments:?}");
    output.stdout
}

/// An empty folder for one test.
fn folder(name: &str) -> PathBuf {
    let path = Path::new(env!("CARGO_TARGET_TMPDIR")).join(name);
    if path.exists() {
        fs::remove_dir_all(&path).expect("an old folder goes");
    }
    fs::create_dir_all(&path).expect("a new folder comes");
    path
}

fn as_word(path: &Path) -> &str {
    path.to_str().expect("a plain path")
}

#[test]
fn files_args_and_lines_fit() {
    let folder = folder("stored");
    let (data, words) = (folder.join("data"), folder.join("args"));
    script(&["files", as_word(&data)]);
    fs::write(&words, script(&["args"])).expect("words are written");
    let from_files = script(&["lines", as_word(&data), as_word(&words)]);
    assert!(from_files == script(&["lines"]));
    let stored = fs::read_dir(&data).expect("a folder").count();
    let args = fs::read_to_string(&words).expect("words");
    let mut names: Vec<&str> = args.lines().step_by(2).collect();
    names.dedup();
    assert_eq!(names.len(), stored);
}

#[test]
fn an_example_can_be_answered() {
    let file = folder("example").join("read.script");
    fs::write(&file, script(&["example", "read"])).expect("a file is written");
    let answer = script(&["answer", as_word(&file)]);
    assert_eq!(answer, b"-- H\nAK H\n20 H\n19 H\n-- H\n");
}
