//! The clock through this package, against what the rules say. Rules are cited as docs/RULES.md
//! numbers them.

mod board;
mod events;
mod hours;
mod lock;
mod marked;
mod refusals;
mod script;
mod state;
