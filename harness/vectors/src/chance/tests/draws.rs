//! Draws, against a row of numbers that is well known for this generator.

use super::super::draws::Draws;
use super::super::tables::{BYTES, LENGTHS};

/// 3C6EF35Fh, 47502932h, D1CCF6E9h, AAF95334h, 6252E503h, 9F2EC686h.
const FROM_ZERO: [u16; 6] = [0x3C6E, 0x4750, 0xD1CC, 0xAAF9, 0x6252, 0x9F2E];

#[test]
fn draws_are_the_high_halves() {
    let mut draws = Draws::from(0);
    assert_eq!(FROM_ZERO.map(|_| draws.draw()), FROM_ZERO);
    assert_eq!(draws.x(), 0x9F2E_C686);
}

#[test]
fn draws_go_on_from_where_they_were() {
    let mut draws = Draws::from(0xD1CC_F6E9);
    assert_eq!(draws.draw(), 0xAAF9);
}

/// 15,470 and 18,256 and 53,708.
#[test]
fn a_limit_takes_the_rest() {
    let mut draws = Draws::from(0);
    assert_eq!([16, 10, 256].map(|n| draws.below(n)), [14, 6, 204]);
    assert_eq!(draws.any_byte(), 0xF9);
    assert_eq!(draws.bytes_below(2, 8), [2, 6]);
}

/// 3C6Eh leaves 6 of eight and picks place 13; 4750h leaves none.
#[test]
fn a_row_gives_its_byte_or_any() {
    for (row, bytes) in BYTES.iter().enumerate() {
        let mut draws = Draws::from(0);
        assert_eq!(draws.byte_of(row), bytes[13]);
        assert_eq!(draws.byte_of(row), 0x47);
    }
}

/// 3C6h leaves 0 of seven and 6 of thirty-two; 4750h leaves none of sixteen.
#[test]
fn most_are_below_and_some_are_any() {
    for (limit, below) in [(7, 0), (32, 6)] {
        let mut draws = Draws::from(0);
        assert_eq!(draws.mostly_below(limit), below);
        assert_eq!(draws.mostly_below(limit), 0x47);
    }
}

/// 15,470 picks place 14, and 18,256 leaves 1 of five.
#[test]
fn lengths_stand_about_those_of_the_table() {
    let mut draws = Draws::from(0);
    assert_eq!(draws.length(), LENGTHS[14] - 1);
    assert_eq!(draws.x(), 0x4750_2932);
}
