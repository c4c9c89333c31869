//! The clock as one value.

use std::fmt;

use crate::{sys, Answer, Event, Pin, Refusal, Told, Wire, REGISTERS, STATE_SIZE};

/// A clock chip: its registers and all that is inside it, as the bytes of a state.
///
/// A clock always holds a well-formed state: it comes from a power-on, from bytes that were looked
/// at, or from a clock by events, which keep a state well formed. So nothing that is done with a
/// clock can be refused for its state, and what takes only good events, such as
/// [`start`](Clock::start), hands back no `Result`.
///
/// Clocks are equal if they have the same state, and then all that follows is the same too.
#[derive(Clone, PartialEq, Eq)]
pub struct Clock {
    state: [u8; STATE_SIZE],
}

/// Making a clock, and taking it apart.
impl Clock {
    /// Power-on from [`START_SIZE`](crate::START_SIZE) start bytes: the time, registers 00h to 06h,
    /// then the RAM, 14h to 1Fh.
    ///
    /// # Errors
    ///
    /// [`Refusal::Section`] if there are not 19 start bytes, else [`Refusal::Start`] if a byte of
    /// the time has a bit set that is always 0. In C a refused power-on hands back the state of 19
    /// zero bytes beside the refusal; here there is none, and `Clock::power_on(&[0; 19])` makes it.
    /// [`Refusal::OtherVersion`] means that another archive is linked than this package is for.
    ///
    /// ```
    /// # use tallowreed::{Clock, Refusal};
    /// // 18:19:20 in 24-hour mode, weekday 3, 20 December 2006, and an empty RAM.
    /// let mut start = [0; 19];
    /// start[..7].copy_from_slice(&[0x20, 0x19, 0x98, 0x03, 0x20, 0x12, 0x06]);
    /// let clock = Clock::power_on(&start)?;
    /// assert_eq!(clock.registers()[..7], start[..7]);
    ///
    /// start[0] = 0x80;
    /// assert_eq!(Clock::power_on(&start), Err(Refusal::Start));
    /// # Ok::<(), Refusal>(())
    /// ```
    pub fn power_on(start: &[u8]) -> Result<Clock, Refusal> {
        let mut state = [0; STATE_SIZE];
        Refusal::check(u16::from(sys::power_on(start, &mut state)))?;
        Ok(Clock { state })
    }

    /// The clock with this state, as [`as_bytes`](Clock::as_bytes) has shown it.
    ///
    /// # Errors
    ///
    /// [`Refusal::State`] if the bytes are not exactly a state that the rules allow, or not
    /// [`STATE_SIZE`] of them.
    ///
    /// ```
    /// # use tallowreed::{Clock, Refusal};
    /// let mut clock = Clock::power_on(&[0; 19])?;
    /// clock.start();
    /// let mut kept = Clock::from_bytes(clock.as_bytes())?;
    /// clock.write(0x64);
    /// kept.write(0x64);
    /// assert_eq!(kept, clock);
    ///
    /// let mut damaged = *clock.as_bytes();
    /// damaged[40] = 32; // the pointer, which goes to 31
    /// assert_eq!(Clock::from_bytes(&damaged), Err(Refusal::State));
    /// # Ok::<(), Refusal>(())
    /// ```
    pub fn from_bytes(bytes: &[u8]) -> Result<Clock, Refusal> {
        let state = bytes.try_into().map_err(|_| Refusal::State)?;
        // Every look at a state judges it first; the pin is the smallest.
        Told::check(sys::pin(&state))?;
        Ok(Clock { state })
    }

    /// For [`run`](crate::run): the last state of a file that was not refused, which is well
    /// formed.
    pub(crate) fn from_run(state: [u8; STATE_SIZE]) -> Clock {
        Clock { state }
    }

    /// The bytes of the state, to be kept. What stands where is in `include/tallowreed.h`.
    #[must_use]
    pub fn as_bytes(&self) -> &[u8; STATE_SIZE] {
        &self.state
    }
}

/// Looking at a clock, without the bus and without a change.
impl Clock {
    /// All registers as they stand, 00h to 1Fh.
    #[must_use]
    pub fn registers(&self) -> [u8; REGISTERS] {
        core::array::from_fn(|address| self.state[address])
    }

    /// The register at an address as it stands; none over 1Fh.
    ///
    /// ```
    /// # use tallowreed::{Clock, Refusal};
    /// let clock = Clock::power_on(&[0; 19])?;
    /// assert_eq!(clock.register(0x0F), Some(0x01)); // the power was lost
    /// assert_eq!(clock.register(0x20), None);
    /// # Ok::<(), Refusal>(())
    /// ```
    #[must_use]
    pub fn register(&self, address: u8) -> Option<u8> {
        (usize::from(address) < REGISTERS)
            .then(|| byte_of(taken(sys::register(&self.state, address))))
    }

    /// The level of the interrupt pin.
    #[must_use]
    pub fn pin(&self) -> Pin {
        taken(sys::pin(&self.state)).pin
    }
}

/// What happens to a clock.
impl Clock {
    /// START, which awaits an address: 64h to write or 65h to read.
    pub fn start(&mut self) {
        self.take(Event::Start);
    }

    /// STOP, which ends the transfer.
    pub fn stop(&mut self) {
        self.take(Event::Stop);
    }

    /// A byte from the master: an address, then a pointer, then data.
    ///
    /// ```
    /// # use tallowreed::{Clock, Refusal, Wire};
    /// let mut clock = Clock::power_on(&[0; 19])?;
    /// clock.start();
    /// assert_eq!(clock.write(0x64), Wire::Ack);
    /// assert_eq!(clock.write(0x20), Wire::Nak); // a pointer goes to 1Fh
    /// # Ok::<(), Refusal>(())
    /// ```
    pub fn write(&mut self, byte: u8) -> Wire {
        match self.take(Event::Byte(byte)).answer {
            Answer::Ack => Wire::Ack,
            Answer::Nak => Wire::Nak,
            other => unreachable!("a byte is acknowledged or not, and the archive tells {other:?}"),
        }
    }

    /// A read, which the master acknowledges if it wants to go on. Where the chip does not read,
    /// all bits of the byte are set.
    ///
    /// ```
    /// # use tallowreed::{Clock, Refusal};
    /// # let mut start = [0; 19];
    /// # start[..7].copy_from_slice(&[0x20, 0x19, 0x98, 0x03, 0x20, 0x12, 0x06]);
    /// let mut clock = Clock::power_on(&start)?;
    /// clock.start();
    /// clock.write(0x65);
    /// assert_eq!(clock.read(true), 0x20); // the seconds
    /// assert_eq!(clock.read(false), 0x19); // the minutes
    /// assert_eq!(clock.read(true), 0xFF); // deaf since it was not acknowledged
    /// clock.stop();
    /// # Ok::<(), Refusal>(())
    /// ```
    pub fn read(&mut self, ack: bool) -> u8 {
        byte_of(self.take(if ack { Event::ReadAck } else { Event::ReadNak }))
    }

    /// Any number of pulses of the crystal, 32,768 to an untrimmed second. They are made one by
    /// one, in events of at most 65,535, so they take time in proportion; 0 make no event.
    ///
    /// ```
    /// # use tallowreed::{Clock, Refusal};
    /// let mut clock = Clock::power_on(&[0; 19])?;
    /// clock.pulses(59 * 32_768);
    /// assert_eq!(clock.register(0x00), Some(0x59));
    /// # Ok::<(), Refusal>(())
    /// ```
    pub fn pulses(&mut self, n: u64) {
        let mut left = n;
        while left > 0 {
            let count = u16::try_from(left).unwrap_or(u16::MAX);
            self.take(Event::Pulses(count));
            left -= u64::from(count);
        }
    }

    /// The power is lost and comes back: the time and the RAM are kept, everything else begins
    /// anew.
    pub fn power_loss(&mut self) {
        self.take(Event::PowerLoss);
    }

    /// One event, told as a bench sees it.
    ///
    /// # Errors
    ///
    /// [`Refusal::Field`] for 0 pulses, and the clock stays as it is. No other event is refused.
    ///
    /// ```
    /// # use tallowreed::{Answer, Clock, Event, Pin, Refusal, Told};
    /// let mut clock = Clock::power_on(&[0; 19])?;
    /// clock.step(Event::Start)?;
    /// let told = clock.step(Event::Byte(0x65))?;
    /// assert_eq!(told, Told { answer: Answer::Ack, pin: Pin::High });
    /// assert_eq!(told.to_string(), "AK H");
    /// assert_eq!(clock.step(Event::Pulses(0)), Err(Refusal::Field));
    /// # Ok::<(), Refusal>(())
    /// ```
    pub fn step(&mut self, event: Event) -> Result<Told, Refusal> {
        let (kind, byte, count) = event.fields();
        self.step_raw(kind, byte, count)
    }

    /// One event by its numbers, for a bench that feeds anything: kinds 0 to 6 are the events in
    /// [`Event`]'s order.
    ///
    /// # Errors
    ///
    /// [`Refusal::Kind`] for a kind over 6, else [`Refusal::Field`] for a byte or a count that the
    /// kind does not use and for 0 pulses. The clock stays as it is.
    ///
    /// ```
    /// # use tallowreed::{Clock, Refusal};
    /// let mut clock = Clock::power_on(&[0; 19])?;
    /// assert_eq!(clock.step_raw(9, 0, 0), Err(Refusal::Kind));
    /// assert_eq!(clock.step_raw(0, 1, 0), Err(Refusal::Field)); // START has no byte
    /// # Ok::<(), Refusal>(())
    /// ```
    pub fn step_raw(&mut self, kind: u8, byte: u8, count: u16) -> Result<Told, Refusal> {
        Told::check(sys::step(&mut self.state, kind, byte, count))
    }

    /// An event that is not refused: its fields are good, as is the state.
    fn take(&mut self, event: Event) -> Told {
        self.step(event)
            .expect("a good event on a well-formed state is not refused")
    }
}

/// What is told of a clock's state, which is well formed.
fn taken(told: u32) -> Told {
    Told::check(told).expect("a well-formed state is not refused")
}

/// The byte that is read, on the bus or without it: both are always answered with one.
fn byte_of(told: Told) -> u8 {
    match told.answer {
        Answer::Byte(byte) => byte,
        other => unreachable!("a read is answered with a byte, and the archive tells {other:?}"),
    }
}

/// The registers in hexadecimal; the rest of the state is in [`Clock::as_bytes`].
impl fmt::Debug for Clock {
    fn fmt(&self, f: &mut fmt::Formatter<'_>) -> fmt::Result {
        f.debug_struct("Clock")
            .field("registers", &format_args!("{:02X?}", self.registers()))
            .finish_non_exhaustive()
    }
}
