//! Writes random files and steps, what is owed for them, and how deep files
//! lead.

use std::iter::once;
use std::process::ExitCode;
use std::slice::from_ref;
use vectors::chance::depth::depth;
use vectors::chance::draws::Draws;
use vectors::chance::files::draw_file;
use vectors::chance::row::{Kind, Row};
use vectors::chance::steps::draw_step;
use vectors::lines::lines;
use vectors::program::{run_in_pieces, Pieces};
use vectors::script::encode;

const USAGE: &str = "usage: random starts files|steps SEED COUNT SIZE
       random items files|steps SEED COUNT
       random lines files|steps SEED COUNT
       random file X | step X | depth SEED FILES
COUNT is a multiple of SIZE";

fn main() -> ExitCode {
    run_in_pieces("random", USAGE, |words| Some(Ok(pieces_for(words)?)))
}

fn pieces_for(words: &[&str]) -> Option<Pieces> {
    let whole = |bytes: Vec<u8>| -> Pieces { Box::new(once(bytes)) };
    Some(match words {
        ["starts", kind, seed, count, size] => {
            let starts = row(kind, seed, count)?.starts(number(size)?)?;
            Box::new(starts.map(|x| format!("{x}\n").into_bytes()))
        }
        ["items", kind, seed, count] => {
            let items = row(kind, seed, count)?.items();
            Box::new(items.map(|item| encode(from_ref(&item))))
        }
        ["lines", kind, seed, count] => {
            let items = row(kind, seed, count)?.items();
            Box::new(items.map(|item| lines(from_ref(&item))))
        }
        ["file", x] => whole(file(number(x)?)),
        ["step", x] => whole(encode(&[draw_step(&mut Draws::from(number(x)?)).into()])),
        ["depth", seed, files] => {
            let depth = depth(number(seed)?, number(files)?);
            whole(depth.text().into_bytes())
        }
        _ => return None,
    })
}

fn number(word: &str) -> Option<u32> {
    word.parse().ok()
}

/// COUNT files or steps from SEED on.
fn row(kind: &str, seed: &str, count: &str) -> Option<Row> {
    Some(Row {
        kind: Kind::named(kind)?,
        x: number(seed)?,
        count: number(count)?,
    })
}

/// The file drawn from this number; its room goes to standard error.
fn file(x: u32) -> Vec<u8> {
    let drawn = draw_file(&mut Draws::from(x));
    eprintln!("room {}", drawn.room);
    drawn.file
}
