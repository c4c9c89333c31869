//! Start bytes: too few and too many, each bit alone, and by chance.

use super::record::PowerOn;
use crate::chance::draws::Draws;
use reference::START_BYTES;

/// One more than the most start bytes.
const LENGTHS: usize = 41;

const RANDOM: usize = 1_000;

pub fn cases() -> Vec<PowerOn> {
    [lengths(), single_bits(), random()].concat()
}

/// Every length, of bytes that pass and of bytes that do not.
fn lengths() -> Vec<PowerOn> {
    let of_length = |length| [0x00, 0x05, 0xFF].map(|byte| PowerOn(vec![byte; length]));
    (0..LENGTHS).flat_map(of_length).collect()
}

fn single_bits() -> Vec<PowerOn> {
    let one_bit = |bit: usize| {
        let mut bytes = vec![0; START_BYTES];
        bytes[bit / 8] = 1 << (bit % 8);
        PowerOn(bytes)
    };
    (0..8 * START_BYTES).map(one_bit).collect()
}

/// Time bytes of their rows, which seldom have a fixed bit set, and any RAM.
fn random() -> Vec<PowerOn> {
    let mut draws = Draws::from(3);
    let mut one = || {
        let mut bytes: Vec<u8> = (0..7).map(|row| draws.byte_of(row)).collect();
        let rest = if draws.below(8) == 0 {
            draws.below(LENGTHS - 7)
        } else {
            START_BYTES - 7
        };
        bytes.extend(draws.bytes_below(rest, 256));
        PowerOn(bytes)
    };
    (0..RANDOM).map(|_| one()).collect()
}
