//! Tests by part. `host` holds the helpers that drive the chip.

mod alarm;
mod bus;
mod calendar;
mod countdown;
mod file;
mod handed_in;
mod host;
mod lock;
mod marked;
mod number;
mod pin;
mod power;
mod random;
mod reading;
mod rings;
mod second;
mod state;
