//! Loss of power.

use super::{ALARM_ON, BY_COUNTDOWN, BY_FREQUENCY, COUNTDOWN_ON, FREQUENCY_ON, PULSE_MODE, SECOND};
use crate::script::Script;

const TIME: [u8; 7] = [0x5A, 0x58, 0x31, 0x06, 0x28, 0x02, 0x24];

pub fn scripts() -> Vec<Script> {
    vec![
        within_a_read().named("power: within a read"),
        within_a_write().named("power: within a write"),
        after_settings().named("power: after settings"),
        second_and_divider().named("power: second and divider"),
    ]
}

fn within_a_read() -> Script {
    Script::at(TIME)
        .fetching(0x0F)
        .read_on(2)
        .power_loss()
        .read(2)
        .write(&[0x65])
        .stop()
        .start()
        .write(&[0x65])
        .read(2)
}

/// What was stored stays, what comes after is lost with the lock.
fn within_a_write() -> Script {
    Script::at(TIME)
        .unlock()
        .storing(0x14, &[0x81, 0x82])
        .power_loss()
        .write(&[0x83])
        .storing(0x14, &[0x84])
}

/// Alarm, controls, trim, count, reload, prescaler and pulse are gone.
fn after_settings() -> Script {
    let controls = BY_COUNTDOWN | COUNTDOWN_ON | ALARM_ON | PULSE_MODE;
    Script::at(TIME)
        .unlock_with(&[controls, 0x8F, 0x3F, 0x01])
        .storing(0x0D, &[0x07, 0x7F])
        .pulses(15)
        .power_loss()
        .unlock_with(&[controls])
        .pulses(100)
        .storing(0x13, &[0x01])
        .pulses(7)
        .pulses(1)
}

/// Both begin again with the power.
fn second_and_divider() -> Script {
    let controls = BY_FREQUENCY | FREQUENCY_ON;
    Script::at(TIME)
        .pulses(SECOND - 10)
        .power_loss()
        .unlock_with(&[controls, 0x0A])
        .pulses(16_383)
        .pulses(1)
        .pulses_shown(16_384)
}
