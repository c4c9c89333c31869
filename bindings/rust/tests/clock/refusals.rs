//! The eight refusals of the rules, each met once, with its number and its words.

use std::error::Error;

use tallowreed::{run, Clock, Refusal, Refused, LONGEST_FILE};

use crate::board::{fresh, start_bytes, TIME};
use crate::script::{file, START};

fn of_file(file: &[u8], output: &mut [u8]) -> Refusal {
    run(file, output).unwrap_err().refusal
}

#[test]
fn each_is_met() {
    let mut fixed_bit = start_bytes(TIME);
    fixed_bit[5] |= 0x20; // of the month
    let met = [
        Clock::from_bytes(&[0xFF; 61]).unwrap_err(),
        fresh(TIME).step_raw(7, 0, 0).unwrap_err(),
        fresh(TIME).step_raw(5, 0, 0).unwrap_err(),
        of_file(&[0; 7], &mut []),
        Clock::power_on(&[0; 20]).unwrap_err(),
        Clock::power_on(&fixed_bit).unwrap_err(),
        of_file(&file(&start_bytes(TIME), &[START]), &mut [0; 4]),
        of_file(&vec![0; LONGEST_FILE + 1], &mut []),
    ];
    assert_eq!(met, Refusal::ALL[..8]);
    assert_eq!(met.map(Refusal::number), [1, 2, 3, 4, 5, 6, 7, 8]);
    // Met only with an archive of another version.
    assert_eq!(Refusal::ALL[8], Refusal::OtherVersion);
    assert_eq!(Refusal::OtherVersion.number(), 255);
}

#[test]
fn a_power_on_counts_its_bytes_before_it_looks_at_them() {
    for length in (0..40).filter(|&length| length != 19) {
        assert_eq!(
            Clock::power_on(&vec![0xFF; length]),
            Err(Refusal::Section),
            "{length}"
        );
    }
    assert_eq!(Clock::power_on(&[0xFF; 19]), Err(Refusal::Start));
    // The RAM has no fixed bits.
    let mut start = start_bytes(TIME);
    start[7..].fill(0xFF);
    assert_eq!(
        Clock::power_on(&start).unwrap().registers()[0x14..],
        [0xFF; 12]
    );
}

#[test]
fn words_begin_with_the_number() {
    let errors = Refusal::ALL.map(|refusal| -> Box<dyn Error> { refusal.into() });
    let words = errors.map(|error| error.to_string());
    for (number, words) in (1..=8).chain([255]).zip(&words) {
        assert!(words.starts_with(&format!("refused {number}: ")), "{words}");
        assert!(!words.contains('\n'));
    }
    let refused = |refusal| Refused { refusal, index: 17 }.to_string();
    assert!(refused(Refusal::Kind).ends_with(", at event 17"));
    assert!(refused(Refusal::Field).ends_with(", at event 17"));
    assert_eq!(refused(Refusal::FileLong), words[7]);
}
