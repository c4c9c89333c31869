//! The two-wire bus, in whole bytes.

use crate::chip::Answer;
use crate::registers::{ARST, COUNTDOWN, CTR1, CTR2, CTR3, INTAF, INTDF, RTCF};
use crate::{Chip, Reading};

/// A transfer closes by itself at this age, in pulses.
pub const AGE_LIMIT: u16 = 16_384;

const ADDRESS_WRITE: u8 = 0x64;
const ADDRESS_READ: u8 = 0x65;
const IDLE_LINE: u8 = 0xFF;

#[derive(Clone, Copy, Debug, PartialEq, Eq)]
pub enum Phase {
    Closed,
    /// `saw_ctr1` tells that 0Fh was read in this transfer.
    Open {
        stage: Stage,
        age: u16,
        saw_ctr1: bool,
    },
}

#[derive(Clone, Copy, Debug, PartialEq, Eq)]
pub enum Stage {
    Address,
    Pointer,
    Writing,
    Reading,
    Deaf,
}

impl Chip {
    /// Closes the transfer for good and goes back to register 00h, unless this
    /// wrong reading keeps the pointer.
    fn close(&mut self, keeping: Reading) {
        self.phase = Phase::Closed;
        if !self.reads(keeping) {
            self.pointer = 0;
        }
    }

    #[inline]
    pub(crate) fn age_transfer(&mut self) {
        let Phase::Open { stage, age, .. } = &mut self.phase else {
            return;
        };
        let limit = match self.manner.reading {
            Reading::TimeOutEarly => AGE_LIMIT - 1,
            Reading::TimeOutLate => AGE_LIMIT + 1,
            Reading::DeafStaysYoung if *stage == Stage::Deaf => return,
            _ => AGE_LIMIT,
        };
        *age += 1;
        if *age >= limit {
            self.time_out();
        }
    }

    /// Unlike a STOP it leaves the flags alone.
    fn time_out(&mut self) {
        if self.reads(Reading::TimeOutClearsFlags) {
            self.stop();
        }
        self.close(Reading::TimeOutKeepsPointer);
    }

    pub(crate) fn stage(&self) -> Option<Stage> {
        match self.phase {
            Phase::Closed => None,
            Phase::Open { stage, .. } => Some(stage),
        }
    }

    /// Moves an open transfer on, keeping its age and mark.
    pub(crate) fn go_to(&mut self, next: Stage) {
        if let Phase::Open { stage, .. } = &mut self.phase {
            *stage = next;
        }
    }

    pub(crate) fn latch_time(&mut self) {
        self.latch = self.time();
        self.stray_after_latching();
    }

    pub(crate) fn start(&mut self) -> Answer {
        if self.phase == Phase::Closed {
            self.phase = Phase::Open {
                stage: Stage::Address,
                age: 0,
                saw_ctr1: false,
            };
            if self.reads(Reading::StartClearsClosedPointer) {
                self.pointer = 0;
            }
        }
        self.go_to(Stage::Address);
        self.stray_after_start();
        Answer::None
    }

    pub(crate) fn stop(&mut self) -> Answer {
        if self.stop_resets_flags() {
            self.reset_flags();
        }
        let idle = self.phase == Phase::Closed;
        if !(idle && self.reads(Reading::IdleStopKeepsPointer)) {
            self.close(Reading::StopKeepsPointer);
        }
        Answer::None
    }

    /// 0Fh was read in this transfer, and ARST is 1 now.
    fn stop_resets_flags(&self) -> bool {
        let Phase::Open { saw_ctr1, .. } = self.phase else {
            return false;
        };
        let arst = self.regs[CTR3] & ARST != 0;
        match self.manner.reading {
            Reading::StopClearsUnread => arst,
            Reading::StopClearsWithoutArst | Reading::ArstAtRead => saw_ctr1,
            Reading::StopObeysLock => saw_ctr1 && arst && self.lock_open(),
            Reading::FlagsClearAtRead => false,
            _ => saw_ctr1 && arst,
        }
    }

    fn reset_flags(&mut self) {
        let flags = match self.manner.reading {
            Reading::StopClearsSeenOnly => self.manner.memory as u8,
            Reading::StopClearsPowerFlag => INTAF | INTDF | RTCF,
            _ => INTAF | INTDF,
        };
        self.regs[CTR1] &= !flags;
        if self.reads(Reading::StopEndsPulses) {
            self.end_pulses(true, true);
        }
    }

    pub(crate) fn master_byte(&mut self, byte: u8) -> Answer {
        match self.stage() {
            Some(Stage::Address) => self.address_byte(byte),
            Some(Stage::Pointer) => self.pointer_byte(byte),
            Some(Stage::Writing) => self.data_byte(byte),
            Some(Stage::Reading) if self.reads(Reading::ByteEndsReading) => self.turn_deaf(),
            Some(Stage::Reading | Stage::Deaf) | None => Answer::Nak,
        }
    }

    fn address_byte(&mut self, byte: u8) -> Answer {
        match byte {
            ADDRESS_WRITE => {
                if self.reads(Reading::WriteAddressLatches) {
                    self.latch_time();
                }
                self.go_to(Stage::Pointer);
            }
            ADDRESS_READ => {
                self.latch_at_address();
                self.go_to(Stage::Reading);
            }
            _ if self.reads(Reading::RefusedAddressCloses) => {
                self.phase = Phase::Closed;
                return Answer::Nak;
            }
            _ => return self.turn_deaf(),
        }
        Answer::Ack
    }

    fn latch_at_address(&mut self) {
        match self.manner.reading {
            Reading::LatchedAtStart | Reading::LatchedAtFirstRead => {}
            _ => self.latch_time(),
        }
    }

    fn pointer_byte(&mut self, byte: u8) -> Answer {
        let refused = byte > 0x1F && !self.reads(Reading::PointerLowFiveBits);
        match self.manner.reading {
            Reading::RefusedPointerClears if refused => self.pointer = 0,
            Reading::RefusedPointerTaken => self.pointer = byte % 32,
            _ if refused => {}
            _ => self.pointer = byte % 32,
        }
        if refused {
            return self.turn_deaf();
        }
        self.go_to(Stage::Writing);
        Answer::Ack
    }

    fn turn_deaf(&mut self) -> Answer {
        self.go_to(Stage::Deaf);
        Answer::Nak
    }

    fn data_byte(&mut self, byte: u8) -> Answer {
        if byte == ADDRESS_READ && self.reads(Reading::ReadAddressAmidData) {
            return self.address_byte(byte);
        }
        let at = self.place();
        self.write_register(at, byte);
        let kept_out = !matches!(at, CTR1 | CTR2) && !self.lock_open();
        if !(kept_out && self.reads(Reading::LockedByteKeepsPointer)) {
            self.step_pointer();
        }
        if self.pointer == 0 {
            self.stray_after_write_wrap();
        }
        if kept_out && self.reads(Reading::LockedByteRefused) {
            return Answer::Nak;
        }
        Answer::Ack
    }

    /// The register under the pointer; there is one even if a wrong reading
    /// lets a pointer over 31 in.
    fn place(&self) -> usize {
        usize::from(self.pointer) % 32
    }

    pub(crate) fn step_pointer(&mut self) {
        self.pointer = self.pointer.wrapping_add(1) % 32;
        if let Phase::Open { age, .. } = &mut self.phase {
            if self.manner.reading == Reading::ByteRestartsAge {
                *age = 0;
            }
        }
    }

    /// A read; `last` is the master's NAK after it.
    pub(crate) fn read(&mut self, last: bool) -> Answer {
        if self.stage() != Some(Stage::Reading) {
            self.stray_after_idle_read(last);
            return Answer::Byte(IDLE_LINE);
        }
        let byte = self.take_byte(last);
        if !(last && self.reads(Reading::NakKeepsPointer)) {
            self.step_pointer();
            self.latch_at_wrap();
        }
        if last && !self.reads(Reading::NakKeepsReading) {
            self.go_to(Stage::Deaf);
        }
        Answer::Byte(byte)
    }

    /// The time is taken anew when reading comes round to 00h.
    fn latch_at_wrap(&mut self) {
        if self.pointer != 0 {
            return;
        }
        match self.manner.reading {
            Reading::WrapKeepsLatch => {}
            Reading::WrapLatchesLate => self.manner.memory = 1,
            _ => self.latch_time(),
        }
    }

    /// The byte under the pointer; the time comes from the latch.
    fn take_byte(&mut self, last: bool) -> u8 {
        self.stray_before_read();
        let at = self.place();
        let byte = match (self.manner.reading, at) {
            (Reading::CountReadsReload, COUNTDOWN) => self.reload,
            (Reading::AllLatched, CTR1) => self.manner.memory as u8,
            (Reading::AllLatched, COUNTDOWN) => (self.manner.memory >> 8) as u8,
            _ => self.latch.get(at).copied().unwrap_or(self.regs[at]),
        };
        if at == CTR1 && !(last && self.reads(Reading::MarkNeedsAck)) {
            self.mark_ctr1();
        }
        byte
    }

    pub(crate) fn mark_ctr1(&mut self) {
        let arst = self.regs[CTR3] & ARST != 0;
        let flags = self.regs[CTR1] & (INTAF | INTDF);
        match self.manner.reading {
            Reading::ArstAtRead | Reading::MarkNeedsArst if !arst => return,
            Reading::FlagsClearAtRead if arst => self.regs[CTR1] &= !flags,
            Reading::StopClearsSeenOnly => self.manner.memory = flags.into(),
            _ => {}
        }
        if let Phase::Open { saw_ctr1, .. } = &mut self.phase {
            *saw_ctr1 = true;
        }
    }
}
