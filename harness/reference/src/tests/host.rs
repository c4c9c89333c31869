//! A host on the bus, for tests: short ways to say what it does.

use crate::registers::{CTR1, CTR2};
use crate::{Answer, Chip, Pin};

pub struct Host {
    pub chip: Chip,
}

/// Saturday, 2000-01-01, 00:00:00, 24-hour.
pub const NEW_CENTURY: [u8; 7] = [0x00, 0x00, 0x80, 0x06, 0x01, 0x01, 0x00];

impl Host {
    /// A chip powered up with this time and counted RAM bytes.
    pub fn at(time: [u8; 7]) -> Host {
        let mut bytes = [0; 19];
        bytes[..7].copy_from_slice(&time);
        for (i, byte) in bytes[7..].iter_mut().enumerate() {
            *byte = 0xA0 + i as u8;
        }
        let chip = Chip::power_on(&bytes).expect("legal start bytes");
        Host { chip }
    }

    pub fn fresh() -> Host {
        Host::at(NEW_CENTURY)
    }

    /// Powered up and unlocked.
    pub fn open_at(time: [u8; 7]) -> Host {
        let mut host = Host::at(time);
        host.unlock();
        host
    }

    pub fn open() -> Host {
        Host::open_at(NEW_CENTURY)
    }

    fn event(&mut self, kind: u8, byte: u8, count: u16) -> Answer {
        let answer = self.chip.step(kind, byte, count).expect("a good event");
        assert!(self.chip.well_formed());
        answer
    }

    pub fn start(&mut self) {
        assert_eq!(self.event(0, 0, 0), Answer::None);
    }

    pub fn stop(&mut self) {
        assert_eq!(self.event(1, 0, 0), Answer::None);
    }

    pub fn byte(&mut self, byte: u8) -> Answer {
        self.event(2, byte, 0)
    }

    pub fn read(&mut self) -> u8 {
        as_byte(self.event(3, 0, 0))
    }

    pub fn read_nak(&mut self) -> u8 {
        as_byte(self.event(4, 0, 0))
    }

    pub fn pulses(&mut self, mut count: u32) {
        while count > 0 {
            let part = count.min(65_535);
            self.event(5, 0, part as u16);
            count -= part;
        }
    }

    pub fn lose_power(&mut self) {
        assert_eq!(self.event(6, 0, 0), Answer::None);
    }

    /// START and these bytes, all acknowledged.
    pub fn send(&mut self, bytes: &[u8]) {
        self.start();
        for byte in bytes {
            assert_eq!(self.byte(*byte), Answer::Ack);
        }
    }

    /// START, write address, pointer and data; no STOP.
    pub fn begin_write(&mut self, at: usize, data: &[u8]) {
        self.send(&[0x64, at as u8]);
        for byte in data {
            assert_eq!(self.byte(*byte), Answer::Ack);
        }
    }

    /// A whole writing transfer.
    pub fn write(&mut self, at: usize, data: &[u8]) {
        self.begin_write(at, data);
        self.stop();
    }

    /// Sets the pointer and turns to reading; no byte is read yet.
    pub fn begin_read(&mut self, at: usize) {
        self.send(&[0x64, at as u8]);
        self.send(&[0x65]);
    }

    pub fn unlock(&mut self) {
        self.write(CTR2, &[0x80]);
        self.write(CTR1, &[0x84]);
        assert!(self.chip.lock_open());
    }

    /// A register as it lives.
    pub fn reg(&self, at: usize) -> u8 {
        self.chip.registers()[at]
    }

    pub fn flag(&self, flag: u8) -> bool {
        self.reg(CTR1) & flag != 0
    }

    pub fn time(&self) -> [u8; 7] {
        let mut time = [0; 7];
        time.copy_from_slice(&self.chip.registers()[..7]);
        time
    }

    pub fn pin(&self) -> Pin {
        self.chip.pin()
    }

    /// Pulses up to the end of an untrimmed second that has just begun.
    pub fn second(&mut self) {
        self.pulses(32_768);
    }
}

fn as_byte(answer: Answer) -> u8 {
    match answer {
        Answer::Byte(byte) => byte,
        other => panic!("a read answered {other:?}"),
    }
}
