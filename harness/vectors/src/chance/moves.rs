//! Moves: what a host does with the chip, as rows of events.
//!
//! A move is a row of 16 items, a byte each, and most items append events:
//!
//! - 01h, 02h, 04h, 05h, 08h: START, STOP, a read with ACK, a read with NAK, a
//!   power loss,
//! - 03h: STOP, three times in four,
//! - 06h: pulses about a length at which something is due,
//! - 07h: one to eight pulses,
//! - 09h: none to seven reads with ACK,
//! - 0Ah: no event; one time in four the rest of the move is left out,
//! - 0Bh: one event of any kind, with a byte or pulses if the kind has them,
//! - 0Ch: fourteen master bytes, of one place in the rows 0 to 13: a time and an
//!   alarm for the second after it,
//! - 20h to 37h: a master byte of the rows 0 to 23,
//! - 40h to 43h: the master bytes 64h, 65h, 80h and 84h,
//! - 80h to 9Fh: the master bytes 00h to 1Fh.
//!
//! Every other item, and so the 00h at the end of most rows, stands for nothing.

use super::draws::Draws;
use super::tables::{ANY_BYTE_ROW, BYTES, MOVES, TIME_AND_ALARM};
use crate::script::Event;
use reference::EVENT_BYTES;

/// No event of a built file ends behind this byte.
const LAST_END: usize = 4_000;

/// The rows of bytes as items, from the first one on.
const FIRST_ROW: u8 = 0x20;
const LAST_ROW: u8 = 0x37;

/// An events section in the making.
pub struct Events {
    /// Where it begins in the file.
    pub at: usize,
    pub bytes: Vec<u8>,
}

impl Events {
    pub fn at(at: usize) -> Events {
        Events {
            at,
            bytes: Vec::new(),
        }
    }

    pub fn count(&self) -> usize {
        self.bytes.len() / EVENT_BYTES
    }

    /// Where the section ends in the file.
    pub fn end(&self) -> usize {
        self.at + self.bytes.len()
    }

    fn event(&mut self, kind: u8, byte: u8, count: u16) {
        if self.end() + EVENT_BYTES <= LAST_END {
            self.bytes.extend([kind, byte]);
            self.bytes.extend(count.to_le_bytes());
        }
    }

    fn plain(&mut self, kind: u8) {
        self.event(kind, 0, 0);
    }

    fn master_byte(&mut self, byte: u8) {
        self.event(Event::BYTE, byte, 0);
    }

    fn pulses(&mut self, count: u16) {
        self.event(Event::PULSES, 0, count);
    }
}

/// Moves and their items.
impl Events {
    /// The move with this number.
    pub fn make_move(&mut self, draws: &mut Draws, number: usize) {
        self.items(draws, &MOVES[number]);
    }

    pub fn items(&mut self, draws: &mut Draws, items: &[u8]) {
        for item in items {
            if *item == 0x0A {
                if draws.below(4) == 0 {
                    return;
                }
            } else {
                self.item(draws, *item);
            }
        }
    }

    fn item(&mut self, draws: &mut Draws, item: u8) {
        match item {
            0x01 => self.plain(Event::START),
            0x02 => self.plain(Event::STOP),
            0x03 => self.likely_stop(draws),
            0x04 => self.plain(Event::READ_ACK),
            0x05 => self.plain(Event::READ_NAK),
            0x06 => self.long_pulses(draws),
            0x07 => self.short_pulses(draws),
            0x08 => self.plain(Event::POWER_LOSS),
            0x09 => self.reads(draws),
            0x0B => self.out_of_place(draws),
            0x0C => self.time_and_alarm(draws),
            FIRST_ROW..=LAST_ROW => self.row_byte(draws, usize::from(item - FIRST_ROW)),
            0x40 => self.master_byte(0x64),
            0x41 => self.master_byte(0x65),
            0x42 => self.master_byte(0x80),
            0x43 => self.master_byte(0x84),
            0x80..=0x9F => self.master_byte(item - 0x80),
            _ => {}
        }
    }

    /// Some transfers are left open.
    fn likely_stop(&mut self, draws: &mut Draws) {
        if draws.below(4) != 0 {
            self.plain(Event::STOP);
        }
    }

    fn long_pulses(&mut self, draws: &mut Draws) {
        self.pulses(draws.length());
    }

    fn short_pulses(&mut self, draws: &mut Draws) {
        self.pulses(1 + draws.below(8) as u16);
    }

    fn reads(&mut self, draws: &mut Draws) {
        for _ in 0..draws.below(8) {
            self.plain(Event::READ_ACK);
        }
    }

    fn row_byte(&mut self, draws: &mut Draws, row: usize) {
        let byte = draws.byte_of(row);
        self.master_byte(byte);
    }

    fn time_and_alarm(&mut self, draws: &mut Draws) {
        let place = draws.below(16);
        for row in &BYTES[..TIME_AND_ALARM] {
            self.master_byte(row[place]);
        }
    }

    fn out_of_place(&mut self, draws: &mut Draws) {
        match draws.below(7) as u8 {
            Event::BYTE => self.row_byte(draws, ANY_BYTE_ROW),
            Event::PULSES => self.short_pulses(draws),
            kind => self.plain(kind),
        }
    }
}
