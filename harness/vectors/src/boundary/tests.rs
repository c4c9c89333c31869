//! What the stream holds, read back by hand and counted against the rules.

use super::contrasts::contrasts;
use super::record::{PowerOn, Record, State};
use super::{damaged, power, runs, states, stream};
use crate::chance::draws::Draws;
use crate::chance::files;
use crate::file::cases::stored_cases;
use crate::file::Run;
use crate::script::{pulse_count, Event, Script};
use reference::{check_event, STATE_BYTES};
use std::collections::{BTreeMap, BTreeSet};

fn record(case: impl Record) -> Vec<u8> {
    let mut out = Vec::new();
    case.write(&mut out);
    out
}

/// The state of 19 zero bytes: RTCF and nothing else.
fn zeros() -> [u8; STATE_BYTES] {
    let mut bytes = [0; STATE_BYTES];
    bytes[0x0F] = 0x01;
    bytes
}

/// The sheets' time, and no more than power leaves.
fn sample() -> [u8; STATE_BYTES] {
    let mut bytes = zeros();
    bytes[..7].copy_from_slice(&[0x20, 0x19, 0x98, 0x03, 0x20, 0x12, 0x06]);
    bytes
}

fn on(bytes: [u8; STATE_BYTES], (kind, byte, count): (u8, u8, u16), address: u8) -> State {
    State {
        bytes,
        event: Event { kind, byte, count },
        address,
    }
}

#[test]
fn power_on_records_are_exact() {
    let refused = |start: &[u8], number: u8| {
        let head = [&[1, start.len() as u8, 0], start, &[number]].concat();
        assert_eq!(
            record(PowerOn(start.to_vec())),
            [&head[..], &zeros()].concat()
        );
    };
    refused(&[], 5);
    refused(&[0xFF; 20], 5);
    refused(&[0xFF; 19], 6);
    let start: Vec<u8> = (1..20).collect();
    let mut state = zeros();
    state[..7].copy_from_slice(&start[..7]);
    state[0x14..0x20].copy_from_slice(&start[7..]);
    let owed = [&[1, 19, 0], &start[..], &[0], &state].concat();
    assert_eq!(record(PowerOn(start)), owed);
}

/// A record of a state from its parts.
fn state_record(case: &State, step: [u8; 4], after: [u8; 61], pin: [u8; 4], seen: [u8; 4]) {
    let Event { kind, byte, count } = case.event;
    let [low, high] = count.to_le_bytes();
    let given = [kind, byte, low, high, case.address];
    let owed = [&[2][..], &case.bytes, &given, &step, &after, &pin, &seen];
    assert_eq!(record(case.clone()), owed.concat());
}

#[test]
fn state_records_are_exact() {
    let mut reading = sample();
    reading[32..39].copy_from_slice(&[0x20, 0x19, 0x98, 0x03, 0x20, 0x12, 0x06]);
    reading[41] = 4;
    let mut after = reading;
    after[40] = 1;
    let (pin, seen) = ([0, b'H', 0, 0], [0, b'H', 0x98, 3]);
    let case = on(reading, (3, 0, 0), 0x02);
    state_record(&case, [0, b'H', 0x20, 3], after, pin, seen);
    let refused = on(reading, (7, 1, 1), 0x20);
    let beyond = [0, b'H', 0xFF, 3];
    state_record(&refused, [2, b'H', 0, 0], reading, pin, beyond);
    let mut awaiting = sample();
    awaiting[41] = 1;
    let mut deaf = awaiting;
    deaf[41] = 5;
    let case = on(awaiting, (2, 0x66, 0), 0x06);
    state_record(&case, [0, b'H', 0, 2], deaf, pin, [0, b'H', 0x06, 3]);
    let case = on(awaiting, (2, 0x65, 0), 0x06);
    after[40] = 0;
    state_record(&case, [0, b'H', 0, 1], after, pin, [0, b'H', 0x06, 3]);
}

#[test]
fn what_is_no_state_tells_nothing_else() {
    for (at, value) in [(0x00, 0x80), (40, 32), (41, 6), (42, 1), (43, 1), (56, 1)] {
        let mut bytes = sample();
        bytes[at] = value;
        let told = [1, 0, 0, 0];
        for event in [(0, 0, 0), (7, 0, 0), (5, 0, 0)] {
            state_record(&on(bytes, event, 0x14), told, bytes, told, told);
        }
    }
}

/// A record of a run of a file of 35 bytes from its parts.
fn run_record(file: &[u8], room: u8, told: [u8; 8], state: [u8; 61], lines: &[u8]) {
    let given = [3, 35, 0, 0, 0, room, 0, 0, 0];
    let owed = [&given, file, &told, &state, lines].concat();
    let run = Run {
        file: file.to_vec(),
        room: room.into(),
    };
    assert_eq!(record(run), owed);
}

#[test]
fn run_records_are_exact() {
    let mut file = vec![2, 0, 27, 0, 19, 0, 8, 0];
    file.extend([0; 19]);
    file.extend([0, 0, 0, 0, 2, 0x66, 0, 0]);
    let mut deaf = zeros();
    deaf[41] = 5;
    run_record(&file, 12, [0, 0, 0, 0, 2, 0, 0, 0], deaf, b"-- H\nNK H\n");
    run_record(&file, 9, [7, 0, 0, 0, 0, 0, 0, 0], zeros(), b"");
    file[33] = 1;
    run_record(&file, 0, [3, 0, 1, 0, 0, 0, 0, 0], zeros(), b"");
}

/// How many of these records have each value at a place, counted from the end.
fn values_at(records: &[Vec<u8>], from_end: usize) -> BTreeMap<u8, usize> {
    let mut found = BTreeMap::new();
    for record in records {
        *found.entry(record[record.len() - from_end]).or_insert(0) += 1;
    }
    found
}

fn records<T: Record + Clone>(cases: &[T]) -> Vec<Vec<u8>> {
    cases.iter().cloned().map(record).collect()
}

/// All lengths but 19, and the 13 fixed bits of the time alone.
#[test]
fn start_bytes_are_refused_and_taken() {
    let cases = power::cases();
    assert_eq!(cases.len(), 41 * 3 + 19 * 8 + 1_000);
    let found = values_at(&records(&cases[..41 * 3]), STATE_BYTES + 1);
    assert_eq!(found, BTreeMap::from([(0, 2), (5, 120), (6, 1)]));
    let found = values_at(&records(&cases[41 * 3..][..19 * 8]), STATE_BYTES + 1);
    assert_eq!(found, BTreeMap::from([(0, 139), (6, 13)]));
    let found = values_at(&records(&cases[41 * 3 + 19 * 8..]), STATE_BYTES + 1);
    assert!([0, 5, 6].iter().all(|number| found[number] >= 50));
}

/// How many values of each byte of the fresh state are good: two for each bit
/// that is not fixed, and for numbers those up to the bound.
#[rustfmt::skip]
const GOOD_VALUES: [usize; STATE_BYTES] = [
    128, 128, 128, 8, 64, 32, 256, 128, 128, 64, 128, 64, 32, 256, 128,
    // 0Fh has three bits that need no lock bit, and the count has no reload above it
    8, 256, 128, 128, 1,
    256, 256, 256, 256, 256, 256, 256, 256, 256, 256, 256, 256,
    128, 128, 128, 8, 64, 32, 256,
    // reload, pointer, phase; a closed bus has neither mark nor age
    256, 32, 6, 1, 1, 1,
    256, 33, 256, 33,
    256, 129, 1, 1,
    256, 256, 8, 1,
    256, 256, 30, 1,
];

#[test]
fn each_byte_is_damaged_in_every_way() {
    let cases = damaged::cases();
    assert_eq!(cases.len(), 8 * STATE_BYTES * 256);
    for (at, good) in GOOD_VALUES.into_iter().enumerate() {
        let of_byte = &cases[at * 256..][..256];
        let taken = of_byte.iter().filter(|case| case.chip().is_some());
        assert_eq!(taken.count(), good, "byte {at}");
        let values: BTreeSet<u8> = of_byte.iter().map(|case| case.bytes[at]).collect();
        assert_eq!(values.len(), 256);
    }
}

/// Where the count is FFh its reload can be nothing else, an open transfer can
/// be marked and have an age of up to 3FFFh, and three lock bits stand together.
#[test]
fn good_values_depend_on_the_other_bytes() {
    let cases = damaged::cases();
    let good = |state: usize, at: usize| {
        let of_byte = &cases[(state * STATE_BYTES + at) * 256..][..256];
        let taken = of_byte.iter().filter(|case| case.chip().is_some());
        taken.count()
    };
    let full = 1;
    assert_eq!(
        [0x10, 0x13, 39, 42].map(|at| good(full, at)),
        [128, 256, 1, 1]
    );
    // 807Bh, 7FFFFh and 1DFFFFh are the bounds, 2000h that of the pin pulses
    assert_eq!([45, 46, 49, 50].map(|at| good(full, at)), [1, 33, 124, 129]);
    assert_eq!([54, 55, 58, 59].map(|at| good(full, at)), [256, 8, 256, 30]);
    let awaiting_pointer = 3;
    let phase = [41, 42, 43, 44].map(|at| good(awaiting_pointer, at));
    assert_eq!(phase, [5, 2, 256, 64]);
}

/// The pin is high by no source, low by the countdown's pulse, the alarm's flag,
/// the countdown's flag and the first half of a period, high by no source again,
/// follows the crystal, and is low in the first half of a second.
#[test]
fn the_contrasts_differ() {
    let phases = contrasts().map(|bytes| bytes[41]);
    assert_eq!(phases, [0, 0, 1, 2, 3, 3, 4, 5]);
    let pins = contrasts().map(|bytes| {
        let record = record(on(bytes, (0, 0, 0), 0));
        char::from(record[record.len() - 7])
    });
    assert_eq!(pins, ['H', 'L', 'L', 'L', 'L', 'H', 'X', 'L']);
}

/// 7,996 events of scripts, each with one by chance; then on eight states every
/// kind with four fields, and seven kinds with ten bytes and eight counts.
#[test]
fn states_are_counted() {
    let cases = states::cases();
    let on_contrasts = 8 * (256 * 4 + 7 * 10 * 8);
    assert_eq!(cases.len(), 2 * 7_996 + on_contrasts + 20_000);
    let on_contrasts = &cases[2 * 7_996..][..on_contrasts];
    for bytes in contrasts() {
        let here = on_contrasts.iter().filter(|case| case.bytes == bytes);
        let seen: BTreeSet<(u8, u8)> = here.map(|case| (case.event.kind, case.address)).collect();
        assert!((0..=255).all(|number| seen.contains(&(number, number))));
    }
    for count in [0, 1, 65_535] {
        let pulses = (Event::PULSES, 0, count);
        let of_contrasts = contrasts().map(|bytes| on(bytes, pulses, 0));
        assert!(of_contrasts.iter().all(|case| on_contrasts.contains(case)));
    }
}

#[test]
fn steps_have_every_refusal_answer_and_pin() {
    let records = records(&states::cases());
    // what the step tells stands before 61 bytes and two more words
    let place = |part: usize| STATE_BYTES + 8 + 4 - part;
    let refused = values_at(&records, place(0));
    assert_eq!(refused.keys().copied().collect::<Vec<_>>(), [0, 1, 2, 3]);
    assert!(refused.values().all(|count| *count >= 1_000), "{refused:?}");
    let answers = values_at(&records, place(3));
    assert_eq!(answers.keys().copied().collect::<Vec<_>>(), [0, 1, 2, 3]);
    let pins = values_at(&records, place(1));
    let letters: Vec<u8> = pins.keys().copied().collect();
    assert_eq!(letters, [0, b'H', b'L', b'X']);
    assert_eq!(pins[&0], refused[&1]);
}

/// Each stored file has a room of nothing, one that just fails to hold the
/// lines, and one that holds them.
#[test]
fn runs_have_every_refusal_and_room() {
    let cases = runs::cases();
    let mut found = BTreeMap::new();
    for case in &cases {
        let record = record(case.clone());
        *found.entry(record[9 + case.file.len()]).or_insert(0) += 1;
    }
    assert_eq!(
        found.keys().copied().collect::<Vec<u8>>(),
        [0, 2, 3, 4, 5, 6, 7, 8]
    );
    assert!(found.values().all(|count| *count >= 20), "{found:?}");
    for case in stored_cases() {
        let rooms = cases.iter().filter(|run| run.file == case.file);
        let rooms: BTreeSet<usize> = rooms.map(|run| run.room).collect();
        assert!(rooms.is_superset(&case.rooms.into_iter().collect()));
        assert!(rooms.contains(&0) && rooms.len() >= 2);
        let [low, high] = *case.file.first_chunk().unwrap_or(&[0, 0]);
        let needed = 5 * (256 * usize::from(high) + usize::from(low));
        assert!(rooms.contains(&needed) && rooms.contains(&(needed + 7)));
        assert!(needed == 0 || rooms.contains(&(needed - 1)));
    }
}

fn is_taken(case: &State) -> bool {
    let Event { kind, byte, count } = case.event;
    case.chip().is_some() && check_event(kind, byte, count).is_ok()
}

#[test]
fn pulses_are_few_enough_for_an_emulator() {
    let all = [states::cases(), damaged::cases()].concat();
    let taken = all.iter().filter(|case| is_taken(case));
    let events: Vec<Event> = taken.map(|case| case.event).collect();
    let in_steps = pulse_count(&events);
    let in_runs: u64 = runs::cases().iter().map(pulses_run).sum();
    println!("{in_steps} pulses in steps and {in_runs} in runs");
    assert!(in_steps > 1_000_000 && in_runs > 1_000_000);
    assert!(in_steps + in_runs < 20_000_000);
}

fn pulses_run(run: &Run) -> u64 {
    let record = record(run.clone());
    match record[9 + run.file.len()] {
        0 => files::pulse_count(&run.file),
        _ => 0,
    }
}

/// The records one after the other, then a 0 and the three counts.
#[test]
fn the_stream_ends_in_its_counts() {
    let power = records(&power::cases());
    let states = records(&[states::cases(), damaged::cases()].concat());
    let runs = records(&runs::cases());
    let mut owed = [power.concat(), states.concat(), runs.concat(), vec![0]].concat();
    for count in [power.len(), states.len(), runs.len()] {
        owed.extend([count, count >> 8, count >> 16, count >> 24].map(|part| part as u8));
    }
    let stream = stream();
    assert!(stream == owed, "the stream is not its records");
    assert!(stream.len() < 60_000_000);
}

/// Two pulses before the end of a second the counter is 7FFEh.
#[test]
fn long_pulses_are_tried_at_their_end() {
    let cases = states::cases();
    let on_scripts = cases[..2 * 7_996].iter().step_by(2);
    let longest = on_scripts.filter(|case| case.event.byte == 0 && case.event.kind == 5);
    assert_eq!(longest.map(|case| case.event.count).max(), Some(2));
    let second = Script::at([0x59, 0x59, 0xA3, 0x06, 0x31, 0x12, 0x99]).pulses(32_768);
    let tried = states::reached(&second.into(), &mut Draws::from(0));
    assert_eq!(tried[0].bytes[49..53], [0xFE, 0x7F, 0, 0]);
    assert_eq!(tried[0].event.count, 2);
}
