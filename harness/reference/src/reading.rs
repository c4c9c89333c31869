//! The right reading of the rules, and wrong ones that look right.
//!
//! A chip made with a wrong reading departs from the rules in one place. The
//! stored vectors are worth their name if each of these chips fails them.

/// The enum and its list from one table, so that neither lacks a reading.
macro_rules! readings {
    ($($(#[$what:meta])* $name:ident,)*) => {
        /// How the rules are taken.
        #[derive(Clone, Copy, Debug, Default, PartialEq, Eq)]
        pub enum Reading {
            /// As they are meant.
            #[default]
            Right,
            $($(#[$what])* $name,)*
        }

        impl Reading {
            /// All but the right one.
            pub const WRONG: &'static [Reading] = &[$(Reading::$name,)*];
        }
    };
}

readings! {
    // Power

    /// Fixed bits are judged in all start bytes, as if they were 00h to 12h.
    AllStartBytesJudged,
    /// A fixed bit in the start bytes is let in.
    StartBitsUnjudged,
    /// Start bytes that are no date and time are refused.
    IllegalStartRefused,
    /// The second counter counts as time and outlives a power loss.
    PowerLossKeepsSecond,
    /// The free divider outlives a power loss.
    PowerLossKeepsDivider,
    /// The transfer and its pointer outlive a power loss.
    PowerLossKeepsTransfer,
    /// The reload outlives a power loss.
    PowerLossKeepsReload,
    /// The prescaler outlives a power loss.
    PowerLossKeepsPrescaler,
    /// The latched bytes outlive a power loss.
    PowerLossKeepsLatch,
    /// The pin's pulses outlive a power loss.
    PowerLossKeepsPulses,
    /// The alarm registers outlive a power loss.
    PowerLossKeepsAlarm,
    /// The trim outlives a power loss.
    PowerLossKeepsTrim,
    /// Only the first power-on sets RTCF.
    PowerLossKeepsFlag,

    // The second

    /// The digits of 12h are taken for a decimal number.
    TrimInDecimal,
    /// The subtraction begins with F = 64, as -128.
    TrimFrom64,
    /// Every second is trimmed.
    TrimInEverySecond,
    /// Only second 00h is trimmed.
    TrimOnceAMinute,
    /// The illegal second 60h is trimmed as well.
    TrimAlsoAt60,
    /// A second keeps the length that it begins with.
    LengthFixedAtBegin,
    /// A counter beyond the length does not end the second.
    EndOnlyAtLength,
    /// What the counter is beyond the length goes into the next second.
    RestIsKept,
    /// An open transfer holds the clock.
    TransferHoldsClock,

    // The calendar

    /// The year's byte is divided by 4, not its number.
    LeapByByte,
    /// The year 00 ends a century and is not leap.
    CenturyNotLeap,
    /// An illegal year can be leap by its digits.
    IllegalYearLeap,
    /// Stepping a 12-hour hour loses bit 5.
    HourDropsAfternoon,
    /// The halves of the day turn after twelve o'clock.
    HalvesTurnLate,
    /// 00h is midnight in 12-hour mode.
    HourZeroIsMidnight,
    /// An illegal 24-hour hour falls back to 12-hour mode.
    IllegalHourLosesMode,
    /// An illegal field, but for 12-hour hours, counts up like any number.
    IllegalStepsOn,
    /// An illegal field, but for 12-hour hours, takes its first value without a
    /// carry.
    IllegalWithoutCarry,
    /// An illegal month has 30 days.
    IllegalMonthShort,
    /// A day above its month's last runs on to 31.
    DayAboveMonthSteps,
    /// Day and month 00 step to 01 without a carry.
    ZeroStepsToOne,
    /// Weekdays run from 1 to 7.
    WeekdayOneToSeven,
    /// The weekday follows from the date.
    WeekdayFromDate,

    // The alarm

    /// A match that begins with a write rings, too.
    AlarmOnWrite,
    /// The alarm is judged before the time advances, and so rings a second late.
    AlarmBeforeAdvance,
    /// Every second of a match rings.
    AlarmEverySecond,
    /// A match rings where it ends.
    AlarmAtMatchEnd,
    /// Only the flag waits for a match to begin: each second of it pulses the pin.
    AlarmPulseEveryMatch,
    /// Only the pin pulse waits for a match to begin: each second of it flags.
    AlarmFlagEveryMatch,
    /// The match before is what the last advance found.
    AlarmEdgeSaved,
    /// A match rings in each second that finds INTAF 0.
    AlarmEdgeByFlag,
    /// There was no match before if INTAE was 0 at the last advance.
    AlarmEdgeByEnable,
    /// A time register stored inside a match lets it ring.
    AlarmAfterTimeWrite,
    /// An alarm register stored inside a match lets it ring.
    AlarmAfterFieldWrite,
    /// 0Eh stored inside a match lets it ring.
    AlarmAfterEnableWrite,
    /// A match rings again if an enabled field changes within it.
    AlarmAtFieldChange,
    /// Illegal times are no match before.
    AlarmIllegalNoMatch,
    /// INTAE only lets the alarm through to the pin.
    AlarmWhileOff,
    /// Illegal times ring no alarm.
    AlarmNeedsLegalTime,
    /// Day and weekday must both match if both are enabled.
    DayAndWeekday,
    /// The weekday goes before the day.
    WeekdayBeforeDay,
    /// 0Ah holds the number of a weekday.
    WeekdayAsNumber,
    /// The alarm's hour loses bit 5.
    AlarmDropsAfternoon,
    /// The mode bit is compared with the alarm's hour.
    AlarmWithMode,

    // The countdown

    /// A prescaler beyond the tick's length does not tick.
    TickOnlyAtLength,
    /// What the prescaler is beyond the tick's length goes into the next tick.
    TickKeepsRest,
    /// Writing INTDE 0 clears the prescaler.
    OffClearsPrescaler,
    /// Setting INTDE clears the prescaler.
    OnClearsPrescaler,
    /// Writing INTDE 0 loads the reload.
    OffLoads,
    /// Setting INTDE loads the reload.
    OnLoads,
    /// The count is loaded with the zero, not a tick later.
    PeriodOfN,
    /// A reload of 0 fires with each tick.
    ReloadZeroFires,
    /// The count stays at 0.
    CountsOnce,
    /// 13h reads the reload.
    CountReadsReload,
    /// The source of seconds is the clock's own second.
    SecondsSourceIsClock,

    // The pin

    /// A cleared enable bit ends the level.
    EnableCutsLevel,
    /// A cleared flag ends the pulse.
    FlagCutsPulse,
    /// A flag that is written 0 has its pulse ended for good.
    ClearedFlagEndsPulse,
    /// A cleared enable bit ends the pulse for good.
    EnableEndsPulse,
    /// Pulse mode does not ask for the enable bit.
    PulseWithoutEnable,
    /// A pulse starts only if the flag was clear.
    PulseNeedsClearFlag,
    /// A pulse starts only while the pin shows its source.
    PulseNeedsSource,
    /// A pulse starts only under IM 1.
    PulseNeedsPulseMode,
    /// A countdown that fires again within a pulse starts none.
    PulseNeedsLongPeriod,
    /// The firing pulse counts as the first of the 8,192.
    PulseOneShort,
    /// The pulse begins with the next crystal pulse but has all 8,192 then.
    PulseOneLong,
    /// The frequency is high in the first half.
    FrequencyHighFirst,
    /// Each half comes a pulse late, as if the divider began at -1.
    FrequencyOneLate,
    /// INTFE plays no part.
    FrequencyWithoutEnable,
    /// FS 15 is one more period of the divider.
    OneHertzByDivider,
    /// FS 15 is low for half of a trimmed second.
    OneHertzHalvesSecond,
    /// FOBAT holds the pin high.
    FobatHoldsPin,
    /// INTS1 and INTS0 change places.
    SourceBitsTurned,

    // Stored writes

    /// Fixed bits are stored like others.
    FixedBitsStored,
    /// Setting the seconds does not restart the second.
    SecondsKeepCounter,
    /// A time byte that is written shows in the latch.
    TimeWriteLatched,
    /// Writing the same seconds again does not restart the second.
    SameSecondsKeepCounter,
    /// Setting any time byte restarts the second.
    AnyTimeByteClearsCounter,
    /// Setting the seconds clears the divider, too.
    SecondsClearDivider,
    /// Setting the seconds clears the prescaler, too.
    SecondsClearPrescaler,
    /// 0Eh leaves INTAF.
    EnableKeepsFlag,
    /// 0Eh clears INTDF, too.
    EnableClearsBothFlags,
    /// 0Eh ends the pin's pulse, too.
    EnableCutsPulse,
    /// 11h leaves the prescaler.
    Ctr3KeepsPrescaler,
    /// 11h clears the prescaler only with a new source.
    SameSourceKeepsPrescaler,
    /// 11h clears the divider, too.
    Ctr3ClearsDivider,
    /// 13h leaves the prescaler.
    CountKeepsPrescaler,
    /// 13h sets the reload and leaves the running count.
    CountSetsReloadOnly,
    /// 13h clears INTDF.
    CountClearsFlag,

    // The lock

    /// The RAM can always be written.
    LockedRamStored,
    /// A locked 0Eh clears INTAF.
    LockedEnableClearsFlag,
    /// A locked 00h restarts the second.
    LockedSecondsClearCounter,
    /// A byte that the lock keeps out is not acknowledged.
    LockedByteRefused,
    /// A byte that the lock keeps out does not step the pointer.
    LockedByteKeepsPointer,
    /// The write that opens the lock has its other bits stored.
    OpeningWriteStores,
    /// The write that closes the lock has its other bits stored.
    ClosingWriteStores,
    /// The lock counts as it stands at START.
    LockTakenAtStart,
    /// WRTC2 and WRTC3 can be set before WRTC1.
    LockBitsInAnyOrder,
    /// WRTC2 and WRTC3 can be set but not cleared at 0Fh.
    LockBitsOnlySet,
    /// Clearing WRTC1 leaves the other two.
    FirstLockBitAlone,
    /// A flag written 1 is set.
    FlagWrittenOneSets,
    /// A flag written 1 is cleared, and one written 0 stays.
    FlagWrittenOneClears,
    /// RTCF can be cleared as the other flags can.
    PowerFlagWritable,
    /// The first write past the open lock clears RTCF.
    PowerFlagClearsAtWrite,

    // The bus

    /// A repeated START restarts the age.
    StartRestartsAge,
    /// Each byte read or written restarts the age.
    ByteRestartsAge,
    /// A transfer closes one pulse early.
    TimeOutEarly,
    /// A transfer closes one pulse late.
    TimeOutLate,
    /// The time-out clears flags as STOP does.
    TimeOutClearsFlags,
    /// The time-out leaves the pointer.
    TimeOutKeepsPointer,
    /// A deaf transfer does not age.
    DeafStaysYoung,
    /// STOP leaves the pointer.
    StopKeepsPointer,
    /// STOP leaves the pointer if no transfer is open.
    IdleStopKeepsPointer,
    /// Any START takes the pointer back to 0.
    StartClearsPointer,
    /// A START that opens a transfer takes the pointer back to 0.
    StartClearsClosedPointer,
    /// STOP clears the flags whether 0Fh was read or not.
    StopClearsUnread,
    /// STOP clears the flags whatever ARST is.
    StopClearsWithoutArst,
    /// STOP clears RTCF with the flags.
    StopClearsPowerFlag,
    /// The lock keeps STOP from clearing flags.
    StopObeysLock,
    /// STOP ends the pin's pulses with the flags.
    StopEndsPulses,
    /// STOP clears only flags that were 1 when 0Fh was read.
    StopClearsSeenOnly,
    /// ARST counts as it stands when 0Fh is read.
    ArstAtRead,
    /// The flags clear when 0Fh is read.
    FlagsClearAtRead,
    /// A repeated START forgets that 0Fh was read.
    MarkLostAtStart,
    /// A read of 0Fh with NAK does not count.
    MarkNeedsAck,
    /// ARST must be 1 both when 0Fh is read and at STOP.
    MarkNeedsArst,
    /// A pointer byte counts by its low five bits.
    PointerLowFiveBits,
    /// A refused pointer byte still sets the pointer.
    RefusedPointerTaken,
    /// A refused pointer byte takes the pointer back to 0.
    RefusedPointerClears,
    /// A refused address closes the transfer.
    RefusedAddressCloses,
    /// The time is latched at 64h, too.
    WriteAddressLatches,
    /// The time is latched at START.
    LatchedAtStart,
    /// The time is latched at the first read.
    LatchedAtFirstRead,
    /// After the first byte the time is read live.
    LiveAfterFirstByte,
    /// Flags and count are latched with the time.
    AllLatched,
    /// The wrap to 00h leaves the latch.
    WrapKeepsLatch,
    /// A wrap to 00h while writing latches the time, too.
    WriteWrapLatches,
    /// After 1Fh a write goes on at 07h.
    WriteWrapsToAlarm,
    /// A write to 1Fh leaves the pointer there.
    WriteStaysAtEnd,
    /// A data byte 65h turns to reading, as the address does.
    ReadAddressAmidData,
    /// After a wrap the time is latched when 00h is read.
    WrapLatchesLate,
    /// A read with NAK does not step the pointer.
    NakKeepsPointer,
    /// After a read with NAK the reading goes on.
    NakKeepsReading,
    /// A master byte ends the reading.
    ByteEndsReading,
    /// A read with NAK makes deaf in any open phase.
    StrayNakDeafens,
    /// A read in any phase marks 0Fh as read.
    StrayReadMarks,
    /// A read while writing steps the pointer.
    StrayReadSteps,

    // States handed in

    /// Fixed bits are not judged in the registers.
    RegisterBitsUnjudged,
    /// Fixed bits are not judged in the latched bytes.
    LatchedBitsUnjudged,
    /// WRTC2 may stand without WRTC1.
    SecondLockBitUnjudged,
    /// WRTC3 may stand without WRTC1.
    ThirdLockBitUnjudged,
    /// WRTC2 and WRTC3 are refused only both together without WRTC1.
    LockBitsRefusedAsPair,
    /// Each lock bit may stand only with the one before it.
    LockBitsInTurn,
    /// The lock bits may stand only all together.
    LockBitsTogether,
    /// Any pointer is let in.
    PointerUnjudged,
    /// On a closed bus any pointer but 0 is refused.
    ClosedPointerRefused,
    /// Any age is let in.
    AgeUnjudged,
    /// The age at which a transfer closes is let in.
    AgeToItsLimit,
    /// Any second counter is let in.
    SecondCounterUnjudged,
    /// The second counter must lie within an untrimmed second.
    SecondCounterUntrimmed,
    /// The second counter must lie within the present second.
    SecondCounterByLength,
    /// Any count is let in.
    CountUnjudged,
    /// Any divider is let in.
    DividerUnjudged,
    /// Any prescaler is let in.
    PrescalerUnjudged,
    /// The prescaler must lie within the present tick's length.
    PrescalerBySource,
    /// Any pin pulse of the alarm is let in.
    AlarmPulseUnjudged,
    /// Any pin pulse of the countdown is let in.
    CountdownPulseUnjudged,
    /// A pin pulse of 8,192 is refused.
    PulseBoundOneShort,
    /// A state without RTCF is refused.
    NoPowerFlagRefused,
    /// A state whose time is no date and time is refused.
    IllegalTimeRefused,
    /// Refusals of the event go before that of the state.
    EventBeforeState,
    /// A bad kind goes before a bad state, and that before bad fields.
    KindBeforeState,
    /// A refused state is given up for that of zero bytes.
    RefusedStateLost,

    // Events and script files

    /// A master byte of 0 is refused as missing.
    ZeroByteRefused,
    /// No pulses are fine.
    NoPulsesFine,
    /// Unused fields may hold anything.
    FieldsUnjudged,
    /// The fields are judged before the kind.
    FieldsBeforeKind,
    /// An event of bad kind goes before any event with a bad field.
    KindsBeforeFields,
    /// Events are counted from 1.
    IndexFromOne,
    /// Refusal 7 gives the first event without room.
    RoomWithIndex,
    /// The room is judged before the events.
    RoomBeforeEvents,
    /// The events are judged before the start bytes.
    EventsBeforeStart,
    /// The file's length is judged last.
    LengthLast,
    /// 16,384 bytes are too many.
    LongestRefused,
    /// The start byte count is taken for 19 whatever it is.
    StartCountUnjudged,
    /// An offset at the very end is past it.
    OffsetAtEndRefused,
    /// An empty section may not lie within the other.
    EmptySectionShares,
    /// An empty section may lie anywhere.
    EmptySectionAnywhere,
    /// The events may not stand before the start bytes.
    EventsMustFollow,
    /// There may be no bytes outside the sections.
    GapsRefused,
    /// A section's size is taken in sixteen bits.
    SizeInSixteenBits,
    /// A refused run clears the output.
    RefusedRunClears,
    /// A refused run counts the events before the fault.
    RefusedRunCounts,
    /// A refused run hands back a state without RTCF.
    RefusedStateZero,
    /// A run clears what it does not need of the output.
    RestOfOutputCleared,
    /// A line shows the pin as it was before the event.
    PinBeforeEvent,
}

impl Reading {
    pub fn name(self) -> String {
        format!("{self:?}")
    }
}

/// What a chip holds of its reading. It is no part of the chip's state, so any
/// two of them are equal.
#[derive(Clone, Copy, Debug, Default)]
pub struct Manner {
    pub(crate) reading: Reading,
    /// What some wrong readings must remember, each its own thing.
    pub(crate) memory: u32,
}

impl PartialEq for Manner {
    fn eq(&self, _: &Manner) -> bool {
        true
    }
}

impl Eq for Manner {}

impl From<Reading> for Manner {
    fn from(reading: Reading) -> Manner {
        Manner { reading, memory: 0 }
    }
}
