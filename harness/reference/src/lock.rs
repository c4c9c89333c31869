//! The write lock, and what a data byte does to a register.

use crate::registers::{
    ALARM_ENABLE, COUNTDOWN, CTR1, CTR2, CTR3, INTAF, INTDF, SECONDS, USED, WRTC1, WRTC2, WRTC3,
};
use crate::{Chip, Reading};

impl Chip {
    /// Open means that all three lock bits are 1.
    pub fn lock_open(&self) -> bool {
        if self.reads(Reading::LockTakenAtStart) {
            return self.manner.memory != 0;
        }
        self.lock_bits_set()
    }

    pub(crate) fn lock_bits_set(&self) -> bool {
        let first = self.regs[CTR2] & WRTC1 != 0;
        let others = self.regs[CTR1] & (WRTC2 | WRTC3);
        first && others == WRTC2 | WRTC3
    }

    pub(crate) fn write_register(&mut self, at: usize, byte: u8) {
        let before = self.clone();
        match at {
            CTR1 => self.write_ctr1(byte),
            CTR2 => self.write_ctr2(byte),
            _ if self.lock_open() => self.store(at, byte),
            _ => {}
        }
        self.stray_after_write(&before, at, byte);
    }

    /// Lock bits two and three obey only while the first is set.
    fn write_ctr1(&mut self, byte: u8) {
        let before = self.lock_open();
        if self.regs[CTR2] & WRTC1 != 0 || self.reads(Reading::LockBitsInAnyOrder) {
            if !self.reads(Reading::LockBitsOnlySet) {
                self.regs[CTR1] &= !(WRTC2 | WRTC3);
            }
            self.regs[CTR1] |= byte & (WRTC2 | WRTC3);
        }
        if self.other_bits_obey(before) {
            self.write_flags(byte);
        }
    }

    /// Flags can be cleared, never set; the power flag obeys nothing.
    fn write_flags(&mut self, byte: u8) {
        let cleared = !byte & (INTAF | INTDF);
        self.regs[CTR1] &= !cleared;
    }

    /// The first lock bit always obeys, and its 0 takes the others along.
    fn write_ctr2(&mut self, byte: u8) {
        let before = self.lock_open();
        self.regs[CTR2] = self.regs[CTR2] & !WRTC1 | byte & WRTC1;
        if byte & WRTC1 == 0 && !self.reads(Reading::FirstLockBitAlone) {
            self.regs[CTR1] &= !(WRTC2 | WRTC3);
        }
        if self.other_bits_obey(before) {
            self.regs[CTR2] = byte;
        }
    }

    /// Beside the lock bits a control byte counts if the lock was open before
    /// it and still is.
    fn other_bits_obey(&self, before: bool) -> bool {
        match self.manner.reading {
            Reading::OpeningWriteStores => self.lock_open(),
            Reading::ClosingWriteStores => before,
            _ => before && self.lock_open(),
        }
    }

    /// A write that the lock lets through, with what it sets off.
    fn store(&mut self, at: usize, byte: u8) {
        self.regs[at] = byte & USED[at];
        match at {
            SECONDS => self.second_counter = 0,
            ALARM_ENABLE => self.regs[CTR1] &= !INTAF,
            CTR3 => self.prescaler = 0,
            COUNTDOWN => {
                self.reload = byte;
                self.prescaler = 0;
            }
            _ => {}
        }
    }
}
