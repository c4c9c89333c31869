//! Random files and steps.
//!
//! Each is settled by the number it is drawn from, down to the last draw: the
//! same number always gives the same file or step, and one in which two programs
//! differ can be drawn again alone.

pub mod depth;
pub mod draws;
pub mod files;
mod moves;
pub mod row;
pub mod steps;
mod tables;
#[cfg(test)]
mod tests;
