"""Names of registers, pins, clocks and requests, the numbers given back, event words and answers."""
from __future__ import annotations

from typing import FrozenSet, Optional, Union

#: Registers by name: their addresses.
REGISTERS = {
    name: number
    for number, name in enumerate(
        "PT0 PT1 PT2DIR PT2 PT3 MDCON HVCON HCNTL HCNTH VCNTL VCNTH SYNCON ENDAC AD0 AD1 IEX IRQX CLRFLG CLRWDT IIADR IIDAT IISTS BT BTCON "
        "DACH0 DACH1 DACH2 DACH3 DACH4 DACH5 DACH6 DACH7 DACH8 DACH9 DACH10 DACH11 DACH12 DACH13".split()
    )
}
#: Pins by name.
PINS = {f"P{port}{bit}": 8 * port + bit for port in range(3) for bit in range(8) if (port, bit) != (1, 7)}
PINS.update(SDA=24, SCL=25, HSYNCI=26, VSYNCI=27, RESET=28)
#: Clocks by name: of 8 microseconds, the base timer's two, the watchdog's.
CLOCKS = {"8us": 0, "base0": 1, "base1": 2, "watchdog": 3}
#: Found polarities by name.
POLARITIES = {"H": 0, "V": 1}
#: The six sources of interrupts, in the order of their bits from 0.
SOURCES = "VERADS"
#: By which of its addresses a chip was called.
OUTCOMES = (None, "A0", "II ADR", "both")
#: The numbers that calls give back, with their meanings.
MEANINGS = {
    0: "done",
    1: "no event: kind not 1 to 5, or a bit of the zero field",
    2: "no register, pin, clock or polarity has that number",
    3: "a byte or level that this place does not take",
    4: "a read or write while RESET is low",
    5: "a read of a write-only register",
    6: "a write to a read-only register",
    7: "fewer places than answers",
    8: "the state is ill formed",
    10: "a block of fewer than 512 bytes",
    11: "the sum of a block is wrong",
    12: "not the block that is due",
    13: "a word count above 126",
    14: "an unused word is not zero",
    15: "an area of another length",
    16: "more than 126 words for a block",
    17: "a block's area that is not of 512 bytes",
    20: "an opcode that is not documented",
    21: "an access where nothing is mapped, or a write to ROM",
    22: "the image has another length than 24,576 bytes",
    23: "a chip that is neither the NT6861 nor the NT6862",
    30: "EDID: not 128 bytes",
    31: "EDID: the header",
    32: "EDID: neither version 1.3 nor 1.4",
    33: "EDID: the sum",
    34: "EDID 1.3: bits 6 to 1 of a digital byte 20",
    35: "EDID 1.4: the reserved depth",
    36: "EDID 1.4: an undefined interface",
    40: "what a value change dump does not have",
    41: "time goes back",
    42: "a 33rd variable",
    43: "no room for the next word",
    44: "a time above 64 bits in ps",
}


class Refused(ValueError):
    """A call was refused: `number` and `meaning`, and where it has one the `place` of what is refused.

    >>> Refused(5)
    Refused(5, 'a read of a write-only register')
    """

    def __init__(self, number: int, meaning: Optional[str] = None, place: Optional[int] = None) -> None:
        self.number = number
        self.meaning = MEANINGS[number] if meaning is None else meaning
        self.place = place
        super().__init__(number, self.meaning)

    def __str__(self) -> str:
        return f"{self.number}: {self.meaning}" + ("" if self.place is None else f", at {self.place}")


def _number(name: Union[int, str], names: dict, what: str) -> int:
    if isinstance(name, int):
        if not 0 <= name < 256:
            raise ValueError(f"{what} {name} is no byte")
        return name
    for known in (name, name.upper(), name.lower()):
        if known in names:
            return names[known]
    raise KeyError(f"no {what} is called {name}")


def _byte(value: int) -> int:
    if not 0 <= value < 256:
        raise ValueError(f"{value} is no byte")
    return value


def read_word(register: Union[int, str]) -> int:
    """The event word of a read, by the register's name or address.

    >>> f"{read_word('IRQX'):08X}"
    '01001000'
    """
    return 0x01000000 | _number(register, REGISTERS, "register") << 8


def write_word(register: Union[int, str], byte: int) -> int:
    """The event word of a write.

    >>> f"{write_word('IEX', 0x3F):08X}"
    '02000F3F'
    """
    return 0x02000000 | _number(register, REGISTERS, "register") << 8 | _byte(byte)


def pin_word(pin: Union[int, str], level: int) -> int:
    """The event word of a level at a pin.

    >>> f"{pin_word('VSYNCI', 0):08X}"
    '03001B00'
    """
    return 0x03000000 | _number(pin, PINS, "pin") << 8 | _byte(level)


def clock_word(clock: Union[int, str] = "8us") -> int:
    """The event word of a clock: '8us', 'base0', 'base1' or 'watchdog'.

    >>> f"{clock_word('watchdog'):08X}"
    '04000300'
    """
    return 0x04000000 | _number(clock, CLOCKS, "clock") << 8


def polarity_word(sync: Union[int, str], level: int) -> int:
    """The event word of a polarity found, of H or V.

    >>> f"{polarity_word('V', 1):08X}"
    '05000101'
    """
    return 0x05000000 | _number(sync, POLARITIES, "sync") << 8 | _byte(level)


def word(text: str) -> int:
    """The event word of a line of text, as `nt6861 words` takes it.

    >>> [f"{word(line):08X}" for line in ('write IEX 01', 'pin VSYNCI 0', 'clock 8us', 'read IRQX', '02001101')]
    ['02000F01', '03001B00', '04000000', '01001000', '02001101']
    """
    parts = text.split("#")[0].split()
    kind = parts[0].lower() if parts else ""
    try:
        if kind == "read" and len(parts) == 2:
            return read_word(_named(parts[1], REGISTERS))
        if kind == "write" and len(parts) == 3:
            return write_word(_named(parts[1], REGISTERS), int(parts[2], 16))
        if kind == "pin" and len(parts) == 3:
            return pin_word(_named(parts[1], PINS), int(parts[2], 16))
        if kind == "clock" and len(parts) == 2:
            return clock_word(_named(parts[1], CLOCKS))
        if kind == "polarity" and len(parts) == 3:
            return polarity_word(_named(parts[1], POLARITIES), int(parts[2], 16))
        if len(parts) == 1 and len(kind) == 8:
            return int(kind, 16)
    except (KeyError, ValueError) as error:
        raise ValueError(f"'{text}' is no event: {error}") from None
    raise ValueError(f"'{text}' is no event")


def _named(text: str, names: dict) -> Union[int, str]:
    known = any(form in names for form in (text, text.upper(), text.lower()))
    return text if known else int(text, 16)


def letters(bits: int) -> FrozenSet[str]:
    """The sources of these bits.

    >>> sorted(letters(0x28))
    ['A', 'S']
    """
    return frozenset(source for place, source in enumerate(SOURCES) if bits >> place & 1)


class Answer(int):
    """An answer word, which is a number with parts.

    >>> answer = Answer(0x02000100)
    >>> answer.number, answer.meaning, sorted(answer.requests)
    (2, 'no register, pin, clock or polarity has that number', ['V'])
    >>> Answer(0x3C)
    Answer(0x0000003C)
    """

    @property
    def number(self) -> int:
        """0, or the number of the refusal"""
        return self >> 24

    @property
    def meaning(self) -> str:
        return MEANINGS[self.number]

    @property
    def watchdog_reset(self) -> bool:
        return bool(self >> 16 & 1)

    @property
    def requests(self) -> FrozenSet[str]:
        """the requests after the event, as letters"""
        return letters(self >> 8)

    @property
    def byte(self) -> int:
        """the byte of a read"""
        return self & 0xFF

    def check(self) -> "Answer":
        """The answer itself; Refused where the event was refused.

        >>> Answer(0x05000000).check()
        Traceback (most recent call last):
        nt6861.names.Refused: 5: a read of a write-only register
        """
        if self.number:
            raise Refused(self.number)
        return self

    def __repr__(self) -> str:
        return f"Answer(0x{int(self):08X})"
