//! What can happen to the clock.

/// An event: what a master does on the bus, pulses of the crystal, or a loss of power.
#[derive(Clone, Copy, Debug, PartialEq, Eq, Hash)]
pub enum Event {
    /// START: the chip awaits its address.
    Start,
    /// STOP: the transfer ends.
    Stop,
    /// A byte from the master: an address, a pointer, or data.
    Byte(u8),
    /// A read that the master acknowledges, so that it can go on.
    ReadAck,
    /// A read that the master does not acknowledge: the last of a transfer.
    ReadNak,
    /// So many pulses of the crystal, 32,768 to an untrimmed second. 0 of them are refused with
    /// [`Refusal::Field`](crate::Refusal::Field).
    Pulses(u16),
    /// The power is lost and comes back: the time and the RAM are kept, everything else begins
    /// anew.
    PowerLoss,
}

impl Event {
    /// The kind, the byte and the count of the event.
    pub(crate) fn fields(self) -> (u8, u8, u16) {
        match self {
            Event::Start => (0, 0, 0),
            Event::Stop => (1, 0, 0),
            Event::Byte(byte) => (2, byte, 0),
            Event::ReadAck => (3, 0, 0),
            Event::ReadNak => (4, 0, 0),
            Event::Pulses(count) => (5, 0, count),
            Event::PowerLoss => (6, 0, 0),
        }
    }
}
