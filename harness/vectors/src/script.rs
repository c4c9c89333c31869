//! Scripts: what they start from and their events, how they are written down
//! in the scenarios, and how they stand in an input.

use crate::file::Run;
use reference::{Chip, Reading, EVENT_BYTES, START_BYTES, STATE_BYTES};

#[derive(Clone, Copy, Debug, PartialEq, Eq)]
pub struct Event {
    pub kind: u8,
    pub byte: u8,
    pub count: u16,
}

impl Event {
    pub const START: u8 = 0;
    pub const STOP: u8 = 1;
    pub const BYTE: u8 = 2;
    pub const READ_ACK: u8 = 3;
    pub const READ_NAK: u8 = 4;
    pub const PULSES: u8 = 5;
    pub const POWER_LOSS: u8 = 6;
}

/// All pulses of these events.
pub fn pulse_count(events: &[Event]) -> u64 {
    let pulses = events.iter().filter(|e| e.kind == Event::PULSES);
    pulses.map(|e| u64::from(e.count)).sum()
}

/// Starts at power-on, or with as many bytes as a state has, from that state.
#[derive(Clone, Debug, PartialEq, Eq)]
pub struct Script<const N: usize = START_BYTES> {
    /// Only for whoever reads a failed test; an input holds no names.
    pub name: String,
    pub start_bytes: [u8; N],
    pub events: Vec<Event>,
}

/// What an input is made of.
#[derive(Clone, Debug, PartialEq, Eq)]
pub enum Item {
    PowerOn(Script),
    State(Script<STATE_BYTES>),
    File(Run),
}

/// Starting.
impl Script {
    /// Powered up at this time; the RAM holds A0h and upwards.
    pub fn at(time: [u8; 7]) -> Script {
        let mut bytes = [0; START_BYTES];
        bytes[..7].copy_from_slice(&time);
        for (value, byte) in (0xA0..).zip(&mut bytes[7..]) {
            *byte = value;
        }
        Script::from_bytes(bytes)
    }
}

impl Script<STATE_BYTES> {
    /// From the state into which power-on at this time is changed.
    pub fn handed_in(time: [u8; 7], change: impl FnOnce(&mut Chip)) -> Self {
        let start_bytes = Script::at(time).start_bytes;
        let mut chip = Chip::power_on(&start_bytes).expect("no fixed bit is set");
        change(&mut chip);
        Script::from_bytes(chip.to_form())
    }

    /// A chip in the state that the script starts from.
    pub fn chip(&self, reading: Reading) -> Chip {
        let mut chip = Chip::from_form(&self.start_bytes).expect("the form of a state");
        chip.manner = reading.into();
        chip
    }
}

impl<const N: usize> Script<N> {
    pub fn from_bytes(start_bytes: [u8; N]) -> Self {
        Script {
            name: String::new(),
            start_bytes,
            events: Vec::new(),
        }
    }

    pub fn named(mut self, name: &str) -> Self {
        self.name = name.to_string();
        self
    }
}

/// Single events.
impl<const N: usize> Script<N> {
    pub fn event(mut self, kind: u8, byte: u8, count: u16) -> Self {
        self.events.push(Event { kind, byte, count });
        self
    }

    pub fn start(self) -> Self {
        self.event(Event::START, 0, 0)
    }

    pub fn stop(self) -> Self {
        self.event(Event::STOP, 0, 0)
    }

    /// Master bytes, whatever they mean in the present phase.
    pub fn write(self, bytes: &[u8]) -> Self {
        bytes
            .iter()
            .fold(self, |script, byte| script.event(Event::BYTE, *byte, 0))
    }

    /// Reads with ACK.
    pub fn read_on(self, count: usize) -> Self {
        (0..count).fold(self, |script, _| script.event(Event::READ_ACK, 0, 0))
    }

    /// Reads of which the last has NAK.
    pub fn read(self, count: usize) -> Self {
        self.read_on(count - 1).event(Event::READ_NAK, 0, 0)
    }

    /// Pulses, in as many events as they need.
    pub fn pulses(mut self, mut count: u32) -> Self {
        while count > 0 {
            let part = count.min(65_535);
            self = self.event(Event::PULSES, 0, part as u16);
            count -= part;
        }
        self
    }

    pub fn power_loss(self) -> Self {
        self.event(Event::POWER_LOSS, 0, 0)
    }
}

/// Whole transfers.
impl<const N: usize> Script<N> {
    /// START, write address, pointer and data, and no STOP.
    pub fn storing(self, at: u8, data: &[u8]) -> Self {
        self.start().write(&[0x64, at]).write(data)
    }

    pub fn store(self, at: u8, data: &[u8]) -> Self {
        self.storing(at, data).stop()
    }

    /// Sets the pointer and turns to reading, without a read.
    pub fn fetching(self, at: u8) -> Self {
        self.start().write(&[0x64, at]).start().write(&[0x65])
    }

    pub fn fetch(self, at: u8, count: usize) -> Self {
        self.fetching(at).read(count).stop()
    }

    /// Opens the lock and goes on writing from 10h in the same transfer.
    pub fn unlock_with(self, from_ctr2: &[u8]) -> Self {
        self.storing(0x10, &[0x80])
            .storing(0x0F, &[0x84])
            .write(from_ctr2)
            .stop()
    }

    pub fn unlock(self) -> Self {
        self.unlock_with(&[])
    }

    /// A STOP on a closed bus changes nothing and shows the state.
    pub fn show(self) -> Self {
        self.stop()
    }

    /// Shows the state just before the last of these pulses.
    pub fn pulses_shown(self, count: u32) -> Self {
        self.pulses(count - 1).show().pulses(1)
    }
}

impl Item {
    /// What the item is called.
    pub fn name(&self) -> &str {
        match self {
            Item::PowerOn(script) => &script.name,
            Item::State(script) => &script.name,
            Item::File(_) => "a script file",
        }
    }

    /// A script's events; those of a file stand in its bytes.
    pub fn events(&self) -> &[Event] {
        match self {
            Item::PowerOn(script) => &script.events,
            Item::State(script) => &script.events,
            Item::File(_) => &[],
        }
    }
}

impl From<Script> for Item {
    fn from(script: Script) -> Item {
        Item::PowerOn(script)
    }
}

impl From<Script<STATE_BYTES>> for Item {
    fn from(script: Script<STATE_BYTES>) -> Item {
        Item::State(script)
    }
}

impl From<Run> for Item {
    fn from(run: Run) -> Item {
        Item::File(run)
    }
}

// The byte that tells what an item is.
const FROM_POWER_ON: u8 = 0;
const FROM_STATE: u8 = 1;
const FILE: u8 = 2;

/// The items as they stand in an input.
pub fn encode(items: &[Item]) -> Vec<u8> {
    let mut bytes = Vec::new();
    for item in items {
        match item {
            Item::PowerOn(script) => encode_script(FROM_POWER_ON, script, &mut bytes),
            Item::State(script) => encode_script(FROM_STATE, script, &mut bytes),
            Item::File(run) => encode_run(run, &mut bytes),
        }
    }
    bytes
}

fn encode_script<const N: usize>(first: u8, script: &Script<N>, bytes: &mut Vec<u8>) {
    let count = u16::try_from(script.events.len()).expect("a short script");
    bytes.push(first);
    bytes.extend(script.start_bytes);
    bytes.extend(count.to_le_bytes());
    for event in &script.events {
        bytes.extend([event.kind, event.byte]);
        bytes.extend(event.count.to_le_bytes());
    }
}

fn encode_run(run: &Run, bytes: &mut Vec<u8>) {
    bytes.push(FILE);
    for number in [run.room, run.file.len()] {
        let number = u16::try_from(number).expect("a short file");
        bytes.extend(number.to_le_bytes());
    }
    bytes.extend(&run.file);
}

/// The whole items of an input; one that is cut off is left out.
pub fn decode(mut bytes: &[u8]) -> Vec<Item> {
    let mut items = Vec::new();
    while let Some((item, rest)) = decode_one(bytes) {
        items.push(item);
        bytes = rest;
    }
    items
}

/// Nothing at the end, and nothing where no item begins.
fn decode_one(bytes: &[u8]) -> Option<(Item, &[u8])> {
    let (first, rest) = bytes.split_first()?;
    match *first {
        FROM_POWER_ON => {
            let (script, rest) = decode_script::<START_BYTES>(rest)?;
            Some((script.into(), rest))
        }
        FROM_STATE => {
            let (script, rest) = decode_script::<STATE_BYTES>(rest)?;
            Chip::from_form(&script.start_bytes)?;
            Some((script.into(), rest))
        }
        FILE => {
            let (run, rest) = decode_run(rest)?;
            Some((run.into(), rest))
        }
        _ => None,
    }
}

fn decode_script<const N: usize>(bytes: &[u8]) -> Option<(Script<N>, &[u8])> {
    let (start_bytes, rest) = bytes.split_first_chunk()?;
    let (count, rest) = decode_number(rest)?;
    let (events, rest) = rest.split_at_checked(EVENT_BYTES * count)?;
    let mut script = Script::from_bytes(*start_bytes);
    script.events = decode_events(events);
    Some((script, rest))
}

fn decode_run(bytes: &[u8]) -> Option<(Run, &[u8])> {
    let (room, rest) = decode_number(bytes)?;
    let (length, rest) = decode_number(rest)?;
    let (file, rest) = rest.split_at_checked(length)?;
    let file = file.to_vec();
    Some((Run { file, room }, rest))
}

fn decode_number(bytes: &[u8]) -> Option<(usize, &[u8])> {
    let (number, rest) = bytes.split_first_chunk()?;
    Some((u16::from_le_bytes(*number).into(), rest))
}

/// Events as they stand in an input and in a file.
pub fn decode_events(bytes: &[u8]) -> Vec<Event> {
    let events = bytes.chunks_exact(EVENT_BYTES).map(|bytes| Event {
        kind: bytes[0],
        byte: bytes[1],
        count: u16::from_le_bytes([bytes[2], bytes[3]]),
    });
    events.collect()
}
