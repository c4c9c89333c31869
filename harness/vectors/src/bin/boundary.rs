//! Writes the cases for the clock as C sees it.

use std::process::ExitCode;
use vectors::boundary::stream;
use vectors::program::{run, Output};

const USAGE: &str = "usage: boundary";

fn main() -> ExitCode {
    run("boundary", USAGE, output_for)
}

fn output_for(words: &[&str]) -> Output {
    words.is_empty().then(|| Ok(stream()))
}
