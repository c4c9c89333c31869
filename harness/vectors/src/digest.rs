//! One number for many figures, as the stored figures of the calendar have it.

/// A prime just below 2^32.
const MODULUS: u64 = 4_294_967_291;

const FACTOR: u64 = 1_000_003;

#[derive(Clone, Debug, Default, PartialEq, Eq)]
pub struct Digest(u64);

impl Digest {
    pub fn value(&self) -> u32 {
        self.0 as u32
    }

    /// Takes one figure; the one added tells figures of 0 from none.
    pub fn take(&mut self, figure: u64) {
        self.0 = (FACTOR * self.0 + figure + 1) % MODULUS;
    }

    pub fn take_bytes(&mut self, bytes: &[u8]) {
        for byte in bytes {
            self.take(u64::from(*byte));
        }
    }
}
