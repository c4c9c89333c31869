//! The functions of `include/tallowreed.h`, and a safe one around each. All the unsafe code of the
//! package is here.
//!
//! The header asks that each pointer be to as many bytes as the length beside it says, and that
//! what is written to overlap nothing else that the call is given. Slices and references of Rust
//! are so, and that makes each call sound.

use core::ffi::{c_uchar, c_uint, c_ulong, c_ushort};

use crate::STATE_SIZE;

extern "C" {
    fn tallowreed_state_size() -> usize;

    fn tallowreed_power_on(
        start: *const c_uchar,
        start_length: usize,
        state: *mut c_uchar,
        state_length: usize,
    ) -> c_uchar;

    fn tallowreed_step(
        state: *mut c_uchar,
        state_length: usize,
        kind: c_uchar,
        byte: c_uchar,
        count: c_ushort,
    ) -> c_uint;

    fn tallowreed_pin(state: *const c_uchar, state_length: usize) -> c_uint;

    fn tallowreed_register(state: *const c_uchar, state_length: usize, address: c_uchar) -> c_uint;

    fn tallowreed_run(
        file: *const c_uchar,
        file_length: usize,
        output: *mut c_uchar,
        output_length: usize,
        state: *mut c_uchar,
        state_length: usize,
    ) -> c_ulong;
}

pub fn state_size() -> usize {
    // SAFETY: it takes nothing.
    unsafe { tallowreed_state_size() }
}

pub fn power_on(start: &[u8], state: &mut [u8; STATE_SIZE]) -> c_uchar {
    // SAFETY: two slices with their lengths, apart from each other.
    unsafe { tallowreed_power_on(start.as_ptr(), start.len(), state.as_mut_ptr(), state.len()) }
}

pub fn step(state: &mut [u8; STATE_SIZE], kind: u8, byte: u8, count: u16) -> c_uint {
    // SAFETY: one slice with its length.
    unsafe { tallowreed_step(state.as_mut_ptr(), state.len(), kind, byte, count) }
}

pub fn pin(state: &[u8; STATE_SIZE]) -> c_uint {
    // SAFETY: one slice with its length.
    unsafe { tallowreed_pin(state.as_ptr(), state.len()) }
}

pub fn register(state: &[u8; STATE_SIZE], address: u8) -> c_uint {
    // SAFETY: one slice with its length.
    unsafe { tallowreed_register(state.as_ptr(), state.len(), address) }
}

pub fn run(file: &[u8], output: &mut [u8], state: &mut [u8; STATE_SIZE]) -> c_ulong {
    // SAFETY: three slices with their lengths, apart from each other.
    unsafe {
        tallowreed_run(
            file.as_ptr(),
            file.len(),
            output.as_mut_ptr(),
            output.len(),
            state.as_mut_ptr(),
            state.len(),
        )
    }
}
