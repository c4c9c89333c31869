//! The program `boundary` as a whole.

use std::process::Command;
use vectors::boundary::stream;

fn boundary(arguments: &[&str]) -> (Option<i32>, Vec<u8>) {
    let program = env!("CARGO_BIN_EXE_boundary");
    let output = Command::new(program).args(arguments).output();
    let output = output.expect("the program starts");
    (output.status.code(), output.stdout)
}

#[test]
fn it_writes_the_stream() {
    let (status, written) = boundary(&[]);
    assert_eq!(status, Some(0));
    assert!(written == stream(), "another stream is written");
}

#[test]
fn words_are_refused() {
    assert_eq!(boundary(&["all"]), (Some(2), Vec::new()));
}
