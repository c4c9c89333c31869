//! Files or steps in a row, each drawn from the number that the one before has
//! left.

use super::draws::Draws;
use super::files::draw_file;
use super::steps::draw_step;
use crate::script::Item;

/// What is drawn.
#[derive(Clone, Copy, Debug, PartialEq, Eq)]
pub enum Kind {
    Files,
    Steps,
}

impl Kind {
    pub const ALL: [Kind; 2] = [Kind::Files, Kind::Steps];

    pub fn name(self) -> &'static str {
        match self {
            Kind::Files => "files",
            Kind::Steps => "steps",
        }
    }

    pub fn named(name: &str) -> Option<Kind> {
        Kind::ALL.into_iter().find(|kind| kind.name() == name)
    }

    fn draw(self, draws: &mut Draws) -> Item {
        match self {
            Kind::Files => draw_file(draws).into(),
            Kind::Steps => draw_step(draws).into(),
        }
    }
}

/// So many of a kind, one behind the other.
#[derive(Clone, Copy, Debug, PartialEq, Eq)]
pub struct Row {
    pub kind: Kind,
    /// The number that the first one is drawn from.
    pub x: u32,
    pub count: u32,
}

impl Row {
    /// Each is drawn when it is asked for, so a long row takes no more memory
    /// than a short one.
    pub fn items(self) -> impl Iterator<Item = Item> {
        let mut draws = Draws::from(self.x);
        (0..self.count).map(move |_| self.kind.draw(&mut draws))
    }

    /// The number that each batch of `size` is drawn from, as drawing alone can
    /// tell; nothing if the last batch would be smaller.
    pub fn starts(self, size: u32) -> Option<impl Iterator<Item = u32>> {
        let whole = self.count.checked_rem(size)? == 0;
        let mut draws = Draws::from(self.x);
        let start = move |_| {
            let x = draws.x();
            (0..size).for_each(|_| drop(self.kind.draw(&mut draws)));
            x
        };
        whole.then(|| (0..self.count / size).map(start))
    }
}
