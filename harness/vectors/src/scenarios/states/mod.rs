//! Scripts from states: the bounds of well-formed ones, and states that no
//! script comes to.

mod bounds;
#[cfg(test)]
mod tests;
mod unreached;

use super::{AUTO_RESET, BY_COUNTDOWN, COUNTDOWN_ON, NEW_CENTURY};
use crate::script::{Item, Script};
use reference::{Chip, STATE_BYTES};

pub fn items() -> Vec<Item> {
    let scripts = [bounds::scripts(), unreached::scripts()];
    scripts.concat().into_iter().map(Item::from).collect()
}

/// A fresh chip with this change, handed in.
fn changed(change: impl FnOnce(&mut Chip)) -> Script<STATE_BYTES> {
    Script::handed_in(NEW_CENTURY, change)
}
