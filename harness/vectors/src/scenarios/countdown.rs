//! The countdown: sources, reload, prescaler and pin.

use super::{
    BY_COUNTDOWN, BY_FREQUENCY, CLEAR_FLAGS, COUNTDOWN_ON, FREQUENCY_ON, NEW_CENTURY, PULSE_MODE,
    SECOND,
};
use crate::script::Script;

const LEVEL: u8 = BY_COUNTDOWN | COUNTDOWN_ON;
const PULSE: u8 = BY_COUNTDOWN | COUNTDOWN_ON | PULSE_MODE;
const OFF: u8 = BY_COUNTDOWN;

pub fn scripts() -> Vec<Script> {
    vec![
        short_sources().named("countdown: short sources"),
        whole_seconds().named("countdown: whole seconds"),
        whole_minutes().named("countdown: whole minutes"),
        stopped_and_resumed().named("countdown: stopped and resumed"),
        prescaler_cleared().named("countdown: prescaler cleared"),
        source_changed().named("countdown: source changed"),
        pulse_mode().named("countdown: pulse mode"),
        pulse_renewed_as_it_ends().named("countdown: pulse renewed as it ends"),
        pulse_renewed_too_late().named("countdown: pulse renewed too late"),
    ]
}

/// Unlocked with the count set; the countdown starts at once if enabled.
fn countdown(controls: u8, tds: u8, count: u8) -> Script {
    Script::at(NEW_CENTURY).unlock_with(&[controls, tds << 4, 0x00, count])
}

/// Fires, reloads one tick later, and fires again; then with longer ticks.
/// The alarm's enable has no hold on this flag.
fn short_sources() -> Script {
    countdown(LEVEL, 0, 3)
        .pulses_shown(24)
        .store(0x0E, &[0x01])
        .store(0x0F, &[CLEAR_FLAGS])
        .pulses_shown(8)
        .fetching(0x13)
        .pulses(8)
        .read(1)
        .stop()
        .pulses_shown(16)
        .storing(0x0F, &[CLEAR_FLAGS, LEVEL, 0x10, 0x00, 0x02])
        .pulses(1_023)
        .pulses(1)
        .store(0x0F, &[CLEAR_FLAGS])
        .pulses(1_535)
        .pulses(1)
}

/// The countdown takes no part in the trimming.
fn whole_seconds() -> Script {
    Script::at(NEW_CENTURY)
        .unlock_with(&[LEVEL, 0x20, 0x3F, 0x01])
        .pulses_shown(SECOND)
}

/// The longest source, with the longest period on the pin meanwhile.
fn whole_minutes() -> Script {
    let controls = BY_FREQUENCY | FREQUENCY_ON | COUNTDOWN_ON;
    Script::at(NEW_CENTURY)
        .unlock_with(&[controls, 0x3E, 0x00, 0x01])
        .pulses(262_143)
        .pulses(1)
        .pulses(262_143)
        .pulses(1)
        .pulses_shown(1_966_080 - 524_288)
}

/// Off and on again it has lost neither a pulse nor the count; the level does
/// not mind the switch. The seconds do not touch the prescaler, but 11h clears
/// it, also while off.
fn stopped_and_resumed() -> Script {
    countdown(LEVEL, 0, 2)
        .pulses(13)
        .storing(0x00, &[0x00])
        .storing(0x10, &[OFF])
        .pulses(100)
        .store(0x10, &[LEVEL])
        .pulses(2)
        .pulses(1)
        .pulses(15)
        .storing(0x0F, &[CLEAR_FLAGS, OFF, 0x00])
        .storing(0x10, &[LEVEL])
        .pulses(15)
        .pulses(1)
        .storing(0x10, &[OFF])
}

/// By 11h and by 13h, each just before a tick. The zero stops it for good.
fn prescaler_cleared() -> Script {
    countdown(LEVEL, 0, 2)
        .pulses(15)
        .store(0x11, &[0x00])
        .pulses(7)
        .pulses(1)
        .storing(0x0F, &[CLEAR_FLAGS])
        .pulses(7)
        .store(0x13, &[0x01])
        .pulses(7)
        .pulses(1)
        .storing(0x13, &[0x00])
        .store(0x0F, &[CLEAR_FLAGS])
        .pulses(100)
}

/// Amid a tick, to a shorter source and to a longer one: the new tick has its
/// whole length.
fn source_changed() -> Script {
    countdown(LEVEL, 1, 1)
        .pulses(100)
        .store(0x11, &[0x00])
        .pulses(7)
        .pulses(1)
        .store(0x0F, &[CLEAR_FLAGS])
        .pulses(13)
        .store(0x11, &[0x10])
        .pulses(511)
        .pulses(1)
}

/// Cleared flag and switched-off countdown leave the pulse running.
fn pulse_mode() -> Script {
    countdown(PULSE, 1, 1)
        .pulses(511)
        .pulses(1)
        .storing(0x0F, &[CLEAR_FLAGS])
        .storing(0x10, &[OFF | PULSE_MODE])
        .pulses(8_000)
        .storing(0x13, &[0x00])
        .storing(0x10, &[PULSE])
        .pulses(191)
        .pulses(1)
}

/// Sixteen ticks of 512 are just the length of a pulse: no gap is seen.
fn pulse_renewed_as_it_ends() -> Script {
    countdown(PULSE, 1, 15)
        .pulses(7_680)
        .pulses(8_191)
        .pulses(1)
        .pulses(8_191)
}

/// One tick more leaves a gap of 512; the flag is set all the while.
fn pulse_renewed_too_late() -> Script {
    countdown(PULSE, 1, 16)
        .pulses(8_192)
        .pulses(8_191)
        .pulses(1)
        .pulses(511)
        .pulses(1)
}
