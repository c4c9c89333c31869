//! The countdown: its sources, its longest period, its output (003, 000). That
//! of 001 has 24 bits and other sources.

use super::{BY_COUNTDOWN, CLEAR_FLAGS, COUNTDOWN_ON, NEW_CENTURY, PULSE, PULSE_MODE, SECOND};
use crate::script::{Item, Script};
use reference::STATE_BYTES;

const LEVEL: u8 = BY_COUNTDOWN | COUNTDOWN_ON;

pub fn scripts() -> Vec<Script> {
    vec![
        twice(0, 3).named("003, 000: countdown at 4,096 Hz, 001 has 24 bits"),
        twice(1, 2).named("003, 000: countdown at 64 Hz, 001 has 1,024 Hz"),
        twice(2, 2).named("003, 000: countdown at 1 Hz"),
        twice(0, 0xFF).named("003, 000: 256 ticks, FFh at 4,096 Hz"),
        once_by_minutes().named("003, 000: countdown at 1/60 Hz"),
        pulses_of_250_ms().named("003: countdown with pulses of 250 ms"),
        configured_anew().named("003: a countdown that is set anew"),
    ]
}

/// Pulses from tick to tick by TDS, as the frequencies ask for.
pub const TICKS: [u32; 4] = [8, 512, 32_768, 1_966_080];

fn countdown(controls: u8, tds: u8, count: u8) -> Script {
    Script::at(NEW_CENTURY).unlock_with(&[controls, tds << 4, 0x00, count])
}

/// Low at the zero, high when the flag is cleared, low at the next zero; the
/// count is loaded in a tick of its own.
fn twice(tds: u8, count: u8) -> Script {
    let tick = TICKS[usize::from(tds)];
    let first = tick * u32::from(count);
    countdown(LEVEL, tds, count)
        .pulses_shown(first)
        .store(0x0F, &[CLEAR_FLAGS])
        .pulses_shown(tick)
        .pulses_shown(first)
        .show()
}

/// Only up to the first zero: what follows is told by the longest countdown.
fn once_by_minutes() -> Script {
    countdown(LEVEL, 3, 1).pulses_shown(TICKS[3]).show()
}

/// With IM 1, and a period of two seconds.
fn pulses_of_250_ms() -> Script {
    countdown(LEVEL | PULSE_MODE, 2, 1)
        .pulses(SECOND - 1)
        .pulses(1)
        .pulses(PULSE - 1)
        .pulses(1)
        .pulses(2 * SECOND - PULSE - 1)
        .pulses(1)
        .pulses(PULSE - 1)
        .pulses(1)
}

/// INTDE to 0, a new number, INTDE to 1.
fn configured_anew() -> Script {
    countdown(LEVEL, 0, 200)
        .pulses(20)
        .store(0x10, &[BY_COUNTDOWN])
        .store(0x13, &[0x02])
        .pulses(100)
        .store(0x10, &[LEVEL])
        .pulses_shown(16)
        .show()
}

/// The longest period, 256 minutes: FFh is counted down minute by minute and
/// loaded again in one more. Three of its minutes, each from shortly before.
pub fn longest() -> Vec<Item> {
    let minutes = [
        last_pulses_of_a_minute(0xFF).named("003, 000: 256 minutes, the first"),
        last_pulses_of_a_minute(0x01).named("003, 000: 256 minutes, the zero"),
        last_pulses_of_a_minute(0x00).named("003, 000: 256 minutes, the load"),
    ];
    minutes.map(Item::from).to_vec()
}

fn last_pulses_of_a_minute(count: u8) -> Script<STATE_BYTES> {
    Script::handed_in(NEW_CENTURY, |chip| {
        chip.regs[0x10] = LEVEL;
        chip.regs[0x11] = 0x30;
        chip.regs[0x13] = count;
        chip.reload = 0xFF;
        chip.prescaler = TICKS[3] - 3;
    })
    .pulses(2)
    .show()
    .pulses(1)
}
