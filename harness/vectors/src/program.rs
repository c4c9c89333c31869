//! What the programs have in common: words in, bytes or a complaint out.

use std::io::{stdout, BufWriter, Result, Write};
use std::iter::once;
use std::process::ExitCode;

/// What is to be written for these words, or nothing if they make no sense.
pub type Output = Option<Result<Vec<u8>>>;

/// Bytes to be written one behind the other, so that not all of them have to be
/// there at once.
pub type Pieces = Box<dyn Iterator<Item = Vec<u8>>>;

/// Writes what the program's words ask for, or says how it is used.
pub fn run(name: &str, usage: &str, output_for: fn(&[&str]) -> Output) -> ExitCode {
    run_in_pieces(name, usage, |words| {
        let output = output_for(words)?;
        Some(output.map(|bytes| Box::new(once(bytes)) as Pieces))
    })
}

/// The same for a program that writes piece by piece.
pub fn run_in_pieces(
    name: &str,
    usage: &str,
    output_for: impl Fn(&[&str]) -> Option<Result<Pieces>>,
) -> ExitCode {
    let arguments: Vec<String> = std::env::args().skip(1).collect();
    let words: Vec<&str> = arguments.iter().map(String::as_str).collect();
    let Some(output) = output_for(&words) else {
        eprintln!("{usage}");
        return ExitCode::from(2);
    };
    match output.and_then(write_all) {
        Ok(()) => ExitCode::SUCCESS,
        Err(error) => {
            eprintln!("{name}: {error}");
            ExitCode::FAILURE
        }
    }
}

fn write_all(pieces: Pieces) -> Result<()> {
    let mut out = BufWriter::new(stdout().lock());
    for piece in pieces {
        out.write_all(&piece)?;
    }
    out.flush()
}
