"""Names of the registers and of their bits (docs/RULES.md, rules 2.1 to 2.6)."""

from typing import NamedTuple, Tuple

TIME = ("seconds", "minutes", "hours", "weekday", "day", "month", "year")
NAMES = (
    *TIME,
    *(f"alarm {name}" for name in TIME),
    "alarm enable", "CTR1", "CTR2", "CTR3", "trim", "countdown",
    *["RAM"] * 12,
)
HOURS, WEEKDAY = 0x02, 0x03
ALARM_WEEKDAY, ALARM_ENABLE, CTR1, CTR2, CTR3, TRIM, COUNTDOWN = 0x0A, 0x0E, 0x0F, 0x10, 0x11, 0x12, 0x13


class Field(NamedTuple):
    """A group of bits, by its lowest and its width; values that have a name of their own."""

    name: str
    lowest: int
    width: int = 1
    values: Tuple[str, ...] = ()

    def of(self, byte):
        return byte >> self.lowest & (1 << self.width) - 1

    def shown(self, byte):
        value = self.of(byte)
        return f"{self.name} {value} ({self.values[value]})" if self.values else f"{self.name} {value}"


INTAF, INTDF = Field("INTAF", 5), Field("INTDF", 4)
WRTC1, WRTC2, WRTC3 = Field("WRTC1", 7), Field("WRTC2", 2), Field("WRTC3", 7)

FIELDS = {
    CTR1: (WRTC3, INTAF, INTDF, WRTC2, Field("RTCF", 0)),
    CTR2: (
        WRTC1,
        Field("IM", 6, values=("level", "pulse")),
        Field("INTS", 4, 2, ("nothing", "alarm", "frequency", "countdown")),
        Field("FOBAT", 3),
        Field("INTDE", 2),
        Field("INTAE", 1),
        Field("INTFE", 0),
    ),
    CTR3: (Field("ARST", 7), Field("TDS", 4, 2), Field("FS", 0, 4)),
}


def named(register):
    """A register as prose has it: `10h CTR2`."""
    return f"{register:02X}h {NAMES[register]}"


def bits_of(byte, names):
    """The names of the bits that are set, from bit 0 on."""
    return ", ".join(name for at, name in enumerate(names) if byte >> at & 1)


def hours_worded(byte):
    if byte & 0x80:
        return "24-hour mode"
    return "12-hour mode, PM" if byte & 0x20 else "12-hour mode, AM"


def worded(register, byte):
    """What the bits of a register's byte say, as far as they have names; of fields those that are not 0."""
    if register in FIELDS:
        return ", ".join(field.shown(byte) for field in FIELDS[register] if field.of(byte)) or "all bits 0"
    if register == HOURS:
        return hours_worded(byte)
    if register == ALARM_WEEKDAY:
        return f"weekdays {bits_of(byte, '01234567')}" if byte else "no weekday"
    if register == ALARM_ENABLE:
        return f"enables {bits_of(byte, TIME)}" if byte else "enables nothing"
    return {TRIM: f"F {byte}", COUNTDOWN: f"count {byte}"}.get(register, "")


def changed(register, before, after):
    """What became of a register, field by field where it has any: a list of words, empty where it is the same."""
    if register in FIELDS:
        pairs = [(field, field.of(before), field.of(after)) for field in FIELDS[register]]
        return [f"{field.name} {old} to {new}" for field, old, new in pairs if old != new]
    return [f"{named(register)} {before:02X}h to {after:02X}h"] if before != after else []


def lock_is_open(state):
    """Whether all three lock bits are set (rule 7.1)."""
    return bool(WRTC1.of(state[CTR2]) and WRTC2.of(state[CTR1]) and WRTC3.of(state[CTR1]))
