//! What an event did, and to which register.

use crate::script::Event;
use crate::watch::Step;
use reference::registers::{ARST, CTR3, YEAR};
use reference::{Chip, Phase, Stage};

/// What a deed is called, and the register that it concerns, if it does.
#[derive(Clone, Copy, Debug, PartialEq, Eq)]
pub struct Deed {
    pub name: &'static str,
    pub register: Option<u8>,
}

impl Deed {
    pub fn plain(name: &'static str) -> Deed {
        let register = None;
        Deed { name, register }
    }

    fn at(name: &'static str, register: u8) -> Deed {
        let register = Some(register);
        Deed { name, register }
    }

    pub fn register_text(self) -> String {
        self.register
            .map_or("--".to_string(), |register| format!("{register:02X}"))
    }
}

/// The deed of an event that is no pulses.
pub fn deed(step: &Step) -> Deed {
    match step.event.kind {
        Event::START => of_start(step.before),
        Event::STOP => of_stop(step.before),
        Event::BYTE => of_byte(step),
        Event::POWER_LOSS => Deed::plain("power-lost"),
        _ => of_read(step.before),
    }
}

fn of_start(before: &Chip) -> Deed {
    Deed::plain(match before.phase {
        Phase::Closed => "opened",
        Phase::Open { .. } => "repeated",
    })
}

fn of_stop(before: &Chip) -> Deed {
    let resets = before.regs[CTR3] & ARST != 0;
    Deed::plain(match before.phase {
        Phase::Closed => "idle",
        Phase::Open { saw_ctr1, .. } if saw_ctr1 && resets => "cleared",
        Phase::Open { .. } => "closed",
    })
}

fn of_byte(step: &Step) -> Deed {
    match stage(step.before) {
        Some(Stage::Address) => of_address(step.event.byte),
        Some(Stage::Pointer) => of_pointer(step.event.byte),
        Some(Stage::Writing) => of_data(step),
        Some(Stage::Reading | Stage::Deaf) | None => Deed::plain("unheard"),
    }
}

fn of_address(byte: u8) -> Deed {
    Deed::plain(match byte {
        0x64 => "to-write",
        0x65 => "to-read",
        _ => "elsewhere",
    })
}

fn of_pointer(byte: u8) -> Deed {
    if byte < 32 {
        Deed::at("pointed", byte)
    } else {
        Deed::plain("beyond")
    }
}

/// The lock has to be open before the byte and after it.
fn of_data(step: &Step) -> Deed {
    let stored = step.before.lock_open() && step.after.lock_open();
    let name = if stored { "stored" } else { "lost" };
    Deed::at(name, step.before.pointer)
}

fn of_read(before: &Chip) -> Deed {
    let at = before.pointer;
    match (stage(before), at) {
        (Some(Stage::Reading), 0x1F) => Deed::at("renewed", at),
        (Some(Stage::Reading), _) if usize::from(at) <= YEAR => Deed::at("latched", at),
        (Some(Stage::Reading), _) => Deed::at("sent", at),
        _ => Deed::plain("silent"),
    }
}

fn stage(chip: &Chip) -> Option<Stage> {
    match chip.phase {
        Phase::Closed => None,
        Phase::Open { stage, .. } => Some(stage),
    }
}
