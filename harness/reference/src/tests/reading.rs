//! The reading goes with the chip but is no part of its state.

use super::host::NEW_CENTURY;
use crate::{run_file_reading, Chip, Manner, Reading};

fn start_bytes() -> [u8; 19] {
    let mut bytes = [0; 19];
    bytes[..7].copy_from_slice(&NEW_CENTURY);
    bytes
}

fn chip_reading(reading: Reading) -> Chip {
    Chip::power_on_reading(&start_bytes(), reading).expect("legal start bytes")
}

#[test]
fn the_plain_functions_read_rightly() {
    let chip = Chip::power_on(&start_bytes()).expect("legal start bytes");
    assert!(chip.reads(Reading::Right));
    assert_eq!(Manner::default().reading, Reading::Right);
}

#[test]
fn comparisons_leave_the_reading_out() {
    let right = chip_reading(Reading::Right);
    let mut wrong = chip_reading(Reading::AlarmOnWrite);
    assert_eq!(wrong, right);
    assert!(wrong.well_formed());
    wrong.divider = 1;
    assert_ne!(wrong, right);
}

#[test]
fn a_power_loss_keeps_the_reading() {
    for reading in Reading::WRONG.iter().copied() {
        let mut chip = chip_reading(reading);
        chip.step(6, 0, 0).expect("a good event");
        assert!(chip.reads(reading));
    }
}

#[test]
fn a_refused_file_hands_back_the_reading() {
    let run = run_file_reading(&[], &mut [], Reading::TimeOutLate);
    assert_eq!(run.refusal, 4);
    assert!(run.chip.reads(Reading::TimeOutLate));
}

/// The same events, told apart by the reading alone.
#[test]
fn a_wrong_reading_departs_in_its_place() {
    let seconds_after = |reading| {
        let mut chip = chip_reading(reading);
        chip.step(0, 0, 0).expect("a START");
        chip.step(5, 0, 16_384).expect("pulses");
        chip.step(5, 0, 16_384).expect("pulses");
        chip.registers()[0]
    };
    assert_eq!(seconds_after(Reading::Right), 0x01);
    assert_eq!(seconds_after(Reading::AlarmOnWrite), 0x01);
    assert_eq!(seconds_after(Reading::TransferHoldsClock), 0x00);
}
