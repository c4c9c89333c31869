//! The rules where a sheet differs.

use super::{flag, printed, pulse_pins, stage, INTAF, INTDF};
use reference::Stage;

#[test]
fn the_clock_runs_on_in_a_transfer() {
    let printed = printed("000 differs: a transfer does not hold the clock");
    let chip = printed.last();
    assert_eq!(stage(chip), Some(Stage::Reading));
    assert_eq!((chip.regs[0x00], chip.second_counter), (0x01, 0));
}

#[test]
fn the_pulse_does_not_mind_the_flag() {
    let printed = printed("000 differs: INTAF does not end the pulse");
    assert_eq!(pulse_pins(&printed), "LLH");
    assert!(!flag(printed.last(), INTAF));
}

/// Low up to the data byte that clears INTAE, and high from then on.
#[test]
fn the_pulse_minds_the_enable() {
    let printed = printed("003, 001: INTAE ends the pulses, 000 differs");
    assert_eq!(pulse_pins(&printed), "LH");
    let high = "H".repeat(2 + 4 + 5 + 1);
    assert!(printed.pins().ends_with(&format!("LLLL{high}")));
    let shown: Vec<bool> = printed.states[2..].iter().map(|s| flag(s, INTAF)).collect();
    assert_eq!(shown, [true, false, false]);
    assert_eq!(printed.last().regs[0x00], 0x01);
}

#[test]
fn the_power_flag_stays_up() {
    let printed = printed("003, 001 differ: no write clears RTCF");
    let shown: Vec<u8> = printed.states.iter().map(|s| s.regs[0x0F]).collect();
    assert_eq!(shown, [0x01, 0x85, 0x85, 0x85]);
    assert_eq!(printed.last().regs[0x14], 0x01);
}

/// 12 pulses before, 50 in between that do not count, and 4 make two ticks.
#[test]
fn a_stopped_countdown_goes_on() {
    let printed = printed("003, 001 differ: INTDE 0 resets nothing");
    assert_eq!(pulse_pins(&printed), "HHHL");
    let stopped = &printed.states[1];
    assert_eq!((stopped.regs[0x13], stopped.prescaler), (1, 4));
    assert_eq!(printed.states[2].prescaler, 4);
    assert!(flag(printed.last(), INTDF));
}

#[test]
fn a_short_period_is_low_for_good() {
    let printed = printed("003, 001 differ: pulses for periods below 250 ms");
    assert_eq!(pulse_pins(&printed), "HLLL");
}

#[test]
fn flags_go_with_the_stop() {
    let printed = printed("003, 001 differ: ARST acts at STOP and not at the read");
    assert_eq!(printed.bytes_read(), [0x95, 0x95, 0x85]);
}

/// Neither stored at 14h nor anywhere else, and the transfer is deaf.
#[test]
fn a_pointer_is_five_bits_and_three_zeros() {
    let printed = printed("003, 000 differ: a pointer has no mode bits");
    let refused = ["-- AK NK NK"; 3].join(" ");
    assert!(printed.answers().ends_with(&refused));
    assert_eq!(stage(printed.last()), Some(Stage::Deaf));
    assert_eq!(printed.last().regs[0x14], 0xA0);
}

#[test]
fn only_reading_latches() {
    let both = [
        "002 differs: START and STOP latch nothing",
        "002 differs: a write that wraps latches nothing",
    ];
    for name in both {
        assert_eq!(printed(name).last().latch, [0; 7], "{name}");
    }
    assert_eq!(printed(both[1]).last().regs[..1], [0x33]);
}
