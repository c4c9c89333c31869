//! The registers after power-on (the tables of 003, 000 and 001).

use super::{EXAMPLE_TIME, KEEP_FLAGS};
use crate::script::Script;

pub fn scripts() -> Vec<Script> {
    vec![
        defaults().named("003, 000: registers after power-on, 0Fh differs"),
        defaults_again().named("003, 000: registers after power was lost, 0Fh differs"),
    ]
}

/// All 32 registers, read in one transfer.
fn defaults() -> Script {
    Script::at(EXAMPLE_TIME).fetch(0x00, 32)
}

/// Everything was set before; time and RAM are not touched.
fn defaults_again() -> Script {
    Script::at(EXAMPLE_TIME)
        .unlock()
        .store(0x07, &[0x55; 8])
        .store(0x0F, &[KEEP_FLAGS, 0xFF, 0xBF, 0x7F, 0xFF])
        .power_loss()
        .fetch(0x00, 32)
}
