//! Long random runs: the state stays well formed throughout.

use crate::Chip;

struct Noise(u32);

impl Noise {
    fn below(&mut self, limit: u32) -> u32 {
        self.0 = self.0.wrapping_mul(1_664_525).wrapping_add(1_013_904_223);
        ((u64::from(self.0) * u64::from(limit)) >> 32) as u32
    }

    fn byte(&mut self) -> u8 {
        self.below(256) as u8
    }
}

fn any_chip(noise: &mut Noise) -> Chip {
    loop {
        let bytes: Vec<u8> = (0..19).map(|_| noise.byte() & noise.byte()).collect();
        if let Ok(chip) = Chip::power_on(&bytes) {
            return chip;
        }
    }
}

/// A master byte that is often one the bus is waiting for.
fn likely_byte(noise: &mut Noise) -> u8 {
    match noise.below(6) {
        0 => 0x64,
        1 => 0x65,
        2 => 0x0F + noise.below(2) as u8,
        3 => 0x84,
        4 => noise.below(32) as u8,
        _ => noise.byte(),
    }
}

fn any_event(noise: &mut Noise) -> (u8, u8, u16) {
    match noise.below(20) {
        0..=3 => (0, 0, 0),
        4 => (1, 0, 0),
        5..=12 => (2, likely_byte(noise), 0),
        13..=14 => (3 + noise.below(2) as u8, 0, 0),
        15..=17 => (5, 0, 1 + noise.below(3_000) as u16),
        18 if noise.below(20) == 0 => (6, 0, 0),
        _ => (noise.byte() & 15, noise.byte() & 1, noise.byte().into()),
    }
}

#[test]
fn random_events_keep_the_state_well_formed() {
    let mut noise = Noise(7);
    for _ in 0..40 {
        let mut chip = any_chip(&mut noise);
        assert!(chip.well_formed());
        for _ in 0..1_000 {
            let (kind, byte, count) = any_event(&mut noise);
            let before = chip.clone();
            let refused = chip.step(kind, byte, count).is_err();
            assert!(chip.well_formed());
            assert!(!refused || chip == before);
        }
    }
}
