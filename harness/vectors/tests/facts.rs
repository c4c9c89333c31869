//! The program `facts` as a whole: its parts must fit each other.

use std::fs;
use std::path::Path;
use std::process::Command;

fn facts(arguments: &[&str]) -> (Option<i32>, Vec<u8>) {
    let program = env!("CARGO_BIN_EXE_facts");
    let output = Command::new(program).args(arguments).output();
    let output = output.expect("the program starts");
    (output.status.code(), output.stdout)
}

/// The facts of the file that it writes are those that it writes at once.
#[test]
fn the_script_and_its_lines_fit() {
    let path = Path::new(env!("CARGO_TARGET_TMPDIR")).join("explained.script");
    let (status, script) = facts(&["script"]);
    assert_eq!(status, Some(0));
    fs::write(&path, script).expect("a file is written");
    let lines = facts(&["lines", path.to_str().expect("a plain path")]);
    assert_eq!(lines.0, Some(0));
    assert!(lines.1.starts_with(b"start "));
    assert!(lines == facts(&["lines"]), "other lines are written");
}

#[test]
fn other_words_are_refused() {
    for words in [&[][..], &["lines", "a", "b"], &["deeds"]] {
        assert_eq!(facts(words), (Some(2), Vec::new()), "{words:?}");
    }
    assert_eq!(facts(&["lines", "no such file"]), (Some(1), Vec::new()));
}
