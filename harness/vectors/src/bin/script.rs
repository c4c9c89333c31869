//! Writes script files, and the output that programs owe for them.

use reference::Reading;
use std::fs;
use std::io::{Error, Result};
use std::path::Path;
use std::process::ExitCode;
use vectors::file::cases::stored_cases;
use vectors::file::example::example;
use vectors::file::owed::{answer, owed, owed_for_run};
use vectors::file::{runs, words, Case};
use vectors::program::{run, Output};

const USAGE: &str = "usage: script files DIR | args | lines [DIR ARGS] | answer FILE
       script example read | example boot";

fn main() -> ExitCode {
    run("script", USAGE, output_for)
}

fn output_for(arguments: &[&str]) -> Output {
    Some(match arguments {
        ["files", folder] => write_files(&stored_cases(), folder).map(|()| Vec::new()),
        ["args"] => Ok(words(&stored_cases()).into_bytes()),
        ["lines"] => Ok(owed(&stored_cases())),
        ["lines", folder, words] => lines_of_folder(folder, words),
        ["answer", file] => fs::read(file).map(|bytes| answer(&bytes)),
        ["example", name] => Ok(example(name)?),
        _ => return None,
    })
}

fn write_files(cases: &[Case], folder: &str) -> Result<()> {
    fs::create_dir_all(folder)?;
    for case in cases {
        fs::write(Path::new(folder).join(&case.name), &case.file)?;
    }
    Ok(())
}

fn lines_of_folder(folder: &str, words: &str) -> Result<Vec<u8>> {
    let words = fs::read_to_string(words)?;
    let runs = runs(&words).ok_or_else(|| Error::other("the words are no names and rooms"))?;
    let mut out = Vec::new();
    for (name, room) in runs {
        let file = fs::read(Path::new(folder).join(name))?;
        out.extend(owed_for_run(name, &file, room, Reading::Right));
    }
    Ok(out)
}
