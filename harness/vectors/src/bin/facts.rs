//! Writes what a script file's run did, and a script that shows all there is.

use std::fs;
use std::process::ExitCode;
use vectors::facts::facts;
use vectors::program::{run, Output};
use vectors::scenarios::explained;

const USAGE: &str = "usage: facts script | lines [FILE]";

fn main() -> ExitCode {
    run("facts", USAGE, output_for)
}

fn output_for(words: &[&str]) -> Output {
    let lines = |file: Vec<u8>| facts(&file).into_bytes();
    Some(match words {
        ["script"] => Ok(explained::file()),
        ["lines"] => Ok(lines(explained::file())),
        ["lines", file] => fs::read(file).map(lines),
        _ => return None,
    })
}
