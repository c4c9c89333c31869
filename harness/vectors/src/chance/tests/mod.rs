//! Tests of the random files and steps, part by part.

mod depth;
mod draws;
mod files;
mod moves;
mod row;
mod steps;
mod tables;

use super::draws::Draws;
use crate::lines::lines;
use crate::script::Item;
use std::slice::from_ref;

/// A draw that is wanted, and the limit it is drawn below.
type Wanted = (usize, usize);

/// So many numbers hold what the tests want.
const TRIES: u32 = 1 << 26;

/// Draws that begin with the wanted ones.
fn drawing(wanted: &[Wanted]) -> Draws {
    let fits = |x: &u32| {
        let mut draws = Draws::from(*x);
        wanted
            .iter()
            .all(|(value, limit)| draws.below(*limit) == *value)
    };
    Draws::from((0..TRIES).find(fits).expect("some number gives them"))
}

/// What is left of draws when so many are made.
fn after(mut draws: Draws, count: usize) -> Draws {
    for _ in 0..count {
        draws.draw();
    }
    draws
}

/// How many by the number of their refusal, as their lines tell; those at 0 ran.
pub fn refusals(items: impl Iterator<Item = Item>) -> [u32; 9] {
    let mut counts = [0; 9];
    for item in items {
        counts[refusal(&item)] += 1;
    }
    counts
}

/// A file's first line begins with `refusal N`, a refused step's is `refused N`.
fn refusal(item: &Item) -> usize {
    let owed = lines(from_ref(item));
    let number = owed.starts_with(b"refus").then(|| owed[8] - b'0');
    number.unwrap_or(0).into()
}
