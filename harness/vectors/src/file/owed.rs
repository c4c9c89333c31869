//! What programs owe for script files.

use super::{Case, LARGEST_ROOM};
use reference::{run_file, run_file_reading, Answer, FileRun, Reading};

/// The output is full of these beforehand.
const UNTOUCHED: u8 = b'.';

/// So many bytes stand behind the part that is lent.
const BEHIND: usize = 8;

/// The test program's output for all runs of these cases.
pub fn owed(cases: &[Case]) -> Vec<u8> {
    owed_reading(cases, Reading::Right)
}

/// The same where files and chip are taken in another way.
pub fn owed_reading(cases: &[Case], reading: Reading) -> Vec<u8> {
    let mut out = Vec::new();
    for case in cases {
        for room in &case.rooms {
            out.extend(owed_for_run(&case.name, &case.file, *room, reading));
        }
    }
    out
}

/// A run, and the output that it was lent with what stands behind it.
pub fn run_lent(file: &[u8], room: usize, reading: Reading) -> (FileRun, Vec<u8>) {
    let mut output = vec![UNTOUCHED; room + BEHIND];
    let run = run_file_reading(file, &mut output[..room], reading);
    (run, output)
}

/// The name, what is handed back, the registers, and the output with what
/// stands behind it.
pub fn owed_for_run(name: &str, file: &[u8], room: usize, reading: Reading) -> Vec<u8> {
    let (run, output) = run_lent(file, room, reading);
    let mut out = format!("{name} {room}\n").into_bytes();
    out.extend(run_line(&run).bytes());
    for byte in run.chip.registers() {
        out.extend(Answer::Byte(byte).text());
    }
    out.push(b'\n');
    out.extend(output);
    out.push(b'\n');
    out
}

/// What is handed back, but for the state.
pub fn run_line(run: &FileRun) -> String {
    let FileRun {
        refusal,
        index,
        count,
        ..
    } = run;
    format!("refusal {refusal} index {index} count {count}\n")
}

/// What the script program prints for a file.
pub fn answer(file: &[u8]) -> Vec<u8> {
    let mut output = [0; LARGEST_ROOM];
    let run = run_file(file, &mut output);
    if run.refusal == 0 {
        output[..reference::LINE_BYTES * run.count].to_vec()
    } else {
        format!("refused {}\n", run.refusal).into_bytes()
    }
}
