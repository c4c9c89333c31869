//! Writes test input and the expected output for it.

use std::process::ExitCode;
use vectors::lines::lines;
use vectors::program::{run, Output};
use vectors::scenarios::stored_items;
use vectors::script::{decode, encode};

const USAGE: &str = "usage: sd2068 events | lines [FILE]";

fn main() -> ExitCode {
    run("sd2068", USAGE, output_for)
}

fn output_for(words: &[&str]) -> Output {
    Some(match words {
        ["events"] => Ok(encode(&stored_items())),
        ["lines"] => Ok(lines(&stored_items())),
        ["lines", file] => std::fs::read(file).map(|bytes| lines(&decode(&bytes))),
        _ => return None,
    })
}
