//! Script files, rules 9.1 to 9.5.

use tallowreed::{
    run, run_to_vec, Refusal, Refused, LINE_SIZE, LONGEST_FILE, LONGEST_OUTPUT, START_SIZE,
};

use crate::board::{fresh, start_bytes, TIME};

/// An event by its kind, byte and count.
pub type Fields = (u8, u8, u16);

pub const START: Fields = (0, 0, 0);
const STOP: Fields = (1, 0, 0);
const READ_ACK: Fields = (3, 0, 0);
const READ_NAK: Fields = (4, 0, 0);
const POWER_LOSS: Fields = (6, 0, 0);

/// The header, the start bytes, and behind them the events.
pub fn file(start: &[u8; START_SIZE], events: &[Fields]) -> Vec<u8> {
    let count = u16::try_from(events.len()).unwrap().to_le_bytes();
    let mut file = vec![count[0], count[1], 27, 0, 19, 0, 8, 0];
    file.extend(start);
    for (kind, byte, count) in events {
        file.extend([*kind, *byte]);
        file.extend(count.to_le_bytes());
    }
    file
}

fn refused(refusal: Refusal, index: usize) -> Result<(), Refused> {
    Err(Refused { refusal, index })
}

/// What becomes of a file with an output of this length, which stays if the file is refused.
fn outcome(file: &[u8], length: usize) -> Result<(), Refused> {
    let mut output = vec![b'.'; length];
    let ran = run(file, &mut output);
    assert!(ran.is_ok() || output.iter().all(|&byte| byte == b'.'));
    ran.map(|_| ())
}

#[test]
fn the_example_prints_its_five_lines() {
    let events = [START, (2, 0x65, 0), READ_ACK, READ_NAK, STOP];
    let (ran, lines) = run_to_vec(&file(&start_bytes(TIME), &events)).unwrap();
    assert_eq!(lines, b"-- H\nAK H\n20 H\n19 H\n-- H\n");
    assert_eq!(ran.count, 5);
    assert_eq!(ran.clock.registers(), fresh(TIME).registers());
}

#[test]
fn output_past_the_lines_stays() {
    let mut output = [b'.'; 13];
    let ran = run(&file(&start_bytes(TIME), &[START, STOP]), &mut output).unwrap();
    assert_eq!(&output, b"-- H\n-- H\n...");
    assert_eq!(ran.count, 2);
    assert_eq!(
        ran.clock,
        fresh(TIME),
        "nothing but the bus moved, and it is closed again"
    );
}

#[test]
fn no_events_make_no_line() {
    let (ran, lines) = run_to_vec(&file(&start_bytes(TIME), &[])).unwrap();
    assert_eq!((ran.count, lines), (0, vec![]));
    assert_eq!(ran.clock, fresh(TIME));
}

#[test]
fn the_whole_file_is_judged_in_its_order() {
    let good = file(&start_bytes(TIME), &[START]);
    assert_eq!(outcome(&good, 5), Ok(()));
    assert_eq!(outcome(&good, 4), refused(Refusal::OutputShort, 0));
    assert_eq!(outcome(&good[..30], 5), refused(Refusal::Section, 0));
    assert_eq!(outcome(&good[..7], 5), refused(Refusal::FileShort, 0));
    assert_eq!(outcome(&[], 0), refused(Refusal::FileShort, 0));
    assert_eq!(outcome(&[0; 8], 0), refused(Refusal::Section, 0));
    assert_eq!(
        outcome(&vec![0; LONGEST_FILE], 0),
        refused(Refusal::Section, 0)
    );
    assert_eq!(
        outcome(&vec![0; LONGEST_FILE + 1], 0),
        refused(Refusal::FileLong, 0)
    );
    let mut start = start_bytes(TIME);
    start[0] |= 0x80;
    assert_eq!(
        outcome(&file(&start, &[(7, 1, 1)]), 0),
        refused(Refusal::Start, 0)
    );
}

#[test]
fn the_first_event_at_fault_is_named() {
    let of = |events: &[Fields]| outcome(&file(&start_bytes(TIME), events), 0);
    assert_eq!(
        of(&[START, (7, 1, 1), (5, 0, 0)]),
        refused(Refusal::Kind, 1)
    );
    assert_eq!(
        of(&[START, STOP, (5, 0, 0), (7, 0, 0)]),
        refused(Refusal::Field, 2)
    );
    assert_eq!(of(&[(1, 1, 0)]), refused(Refusal::Field, 0));
}

#[test]
fn the_longest_output_is_enough_for_the_longest_file() {
    assert_eq!(LONGEST_OUTPUT, 20_445);
    let longest = file(&start_bytes(TIME), &[START; 4_089]);
    assert_eq!(longest.len(), 16_383);
    let (ran, lines) = run_to_vec(&longest).unwrap();
    assert_eq!(ran.count, 4_089);
    assert_eq!(lines, b"-- H\n".repeat(4_089));
}

#[test]
fn a_run_is_its_steps() {
    let events: [Fields; 16] = [
        START,
        (2, 0x64, 0),
        (2, 0x10, 0),
        (2, 0x80, 0),
        STOP,
        (5, 0, 65_535),
        START,
        (2, 0x66, 0),
        READ_ACK,
        START,
        (2, 0x65, 0),
        READ_ACK,
        (5, 0, 300),
        READ_NAK,
        POWER_LOSS,
        READ_NAK,
    ];
    let (ran, lines) = run_to_vec(&file(&start_bytes(TIME), &events)).unwrap();
    let mut clock = fresh(TIME);
    for (line, (kind, byte, count)) in lines.chunks(LINE_SIZE).zip(events) {
        let told = clock.step_raw(kind, byte, count).unwrap();
        assert_eq!(format!("{told}\n").as_bytes(), line);
    }
    assert_eq!(ran.count, 16);
    assert_eq!(ran.clock, clock);
}
