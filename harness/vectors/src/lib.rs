//! Test input for programs that run chip scripts, and the output they owe.

pub mod boundary;
pub mod chance;
pub mod digest;
pub mod facts;
pub mod file;
pub mod lines;
pub mod program;
pub mod scenarios;
pub mod script;
#[cfg(test)]
mod tests;
pub mod watch;
