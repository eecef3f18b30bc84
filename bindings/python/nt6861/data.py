"""Checks and readers: EDID blocks, value change dumps, bus changes, why a request line is up, recordings, rates, the NT6862's counters."""
from __future__ import annotations

import ctypes
from array import array
from typing import Any, Dict, Iterable, List, NamedTuple, Optional, Tuple, Union

from . import names
from ._lent import lent, places_for
from ._library import library
from .chip import AREA, Chip
from .names import Refused


def edid(block: Any, check: bool = True) -> int:
    """0 where an EDID base block is accepted; else Refused with the number of the first rule that it breaks, or with check=False that number.

    >>> block = bytearray(128)
    >>> block[1:7], block[18], block[19] = b'\\xff' * 6, 1, 3
    >>> block[127] = -sum(block) % 256
    >>> edid(block)
    0
    >>> edid(block[:127])
    Traceback (most recent call last):
    nt6861.names.Refused: 30: EDID: not 128 bytes
    >>> block[127] ^= 1
    >>> edid(block, check=False)
    33
    """
    pointer, length, _ = lent(block, 1)
    number = library.nt6861_edid(pointer, length)
    if number and check:
        raise Refused(number)
    return number


class RefusedDump(Refused):
    """A dump is refused at a byte, `place`; `words` has those before it."""

    words: array


def vcd(dump: Any) -> array:
    """The event words of a value change dump.

    >>> dump = b'$timescale 1 us $end $var wire 1 ! SCL $end $enddefinitions $end #0 0! #8 1!'
    >>> [f'{word:08X}' for word in vcd(dump)]
    ['03001900', '04000000', '03001901']
    >>> vcd(dump + b' #1')
    Traceback (most recent call last):
    nt6861.data.RefusedDump: 41: time goes back, at 77
    """
    pointer, size, _ = lent(dump, 1)
    words = array("I")
    cursor, told = (ctypes.c_uint64 * 8)(), (ctypes.c_uint64 * 2)()
    room = 1 << 16
    while True:
        piece = places_for(room, 4)
        number = library.nt6861_vcd_more(pointer, size, ctypes.byref(ctypes.c_uint32.from_buffer(piece)), room, cursor, 8, told, 2)
        words += piece if told[0] == room else piece[: told[0]]
        if number != 43:
            break
        room = min(2 * room, 1 << 22)
    if number:
        refusal = RefusedDump(number, place=told[1])
        refusal.words = words
        raise refusal
    return words


class Address(NamedTuple):
    """an address byte on the bus, and by which of the chip's own it is: None, 'A0', 'II ADR' or 'both'"""

    byte: int
    outcome: Optional[str]


def addresses(changes: Any, ii_adr: int) -> List[Address]:
    """The addresses in a list of changes of SCL and SDA, from both lines high, for a chip that is idle in DDC2B with `ii_adr` in II ADR. A change is a
    pair, ('SDA', 0), or a number, its line above and its level below.

    >>> bits = [('SDA', 0)]
    >>> for place in range(7, -1, -1):
    ...     bits += [('SCL', 0), ('SDA', 0xA0 >> place & 1), ('SCL', 1)]
    >>> addresses(bits + [('SCL', 0)], 0x6E)
    [Address(byte=160, outcome='A0')]
    """
    if isinstance(changes, (list, tuple)):
        changes = [change if isinstance(change, int) else names.PINS[change[0]] << 8 | change[1] for change in changes]
    pointer, length, _ = lent(changes, 2)
    room = length // 16 + 1
    found, count = (ctypes.c_uint16 * room)(), ctypes.c_size_t()
    number = library.nt6861_addresses(ii_adr, pointer, length, found, room, ctypes.byref(count))
    if number:
        raise Refused(number)
    return [Address(one >> 8, names.OUTCOMES[one & 3]) for one in found[: count.value]]


class Reason(NamedTuple):
    """what took a flag up, and the place of its word; None where the flag was up at the start"""

    what: str
    place: Optional[int]


_REASONS = (
    "", "already-set", "vsync-rise", "p16-rise", "timer", "matched-address a0", "matched-address ii-adr", "matched-address both", "ninth-clock",
    "ddc1-load", "scl-fall",
)


def why(words: Any, chip: Optional[Chip] = None) -> Dict[str, Reason]:
    """Of each source whose request line is up after the words, why. They go to a fresh chip or to a copy of `chip`, which stays as it is.

    >>> why([0x02000F01, 0x03001B00, 0x03001B01])
    {'V': Reason(what='vsync-rise', place=2)}
    """
    pointer, count, _ = lent(words, 4)
    told = (ctypes.c_uint64 * 12)()
    area = (ctypes.c_uint8 * AREA).from_buffer_copy((chip or Chip()).state)
    number = library.nt6861_why(area, AREA, pointer, count, told)
    if number:
        raise Refused(number)
    up = [(source, told[2 * place], told[2 * place + 1]) for place, source in enumerate(names.SOURCES)]
    return {source: Reason(_REASONS[code], None if code == 1 else place) for source, code, place in up if code}


#: Bytes of a block of a recording, and the words that it holds at most.
BLOCK, BLOCK_WORDS = 512, 126


def record(words: Any) -> bytes:
    """Words as a recording: blocks of 512 bytes.

    >>> len(record(range(127)))
    1024
    """
    pointer, count, start = lent(words, 4)
    blocks = (count + BLOCK_WORDS - 1) // BLOCK_WORDS
    if blocks > 1 << 16:
        raise Refused(12, "a recording has at most 65,536 blocks")
    made = bytearray(BLOCK * blocks)
    for number in range(blocks):
        area = (ctypes.c_uint8 * BLOCK).from_buffer(made, BLOCK * number)
        first = ctypes.cast(start + 4 * BLOCK_WORDS * number, ctypes.POINTER(ctypes.c_uint32))
        library.nt6861_write_block(number, first, min(BLOCK_WORDS, count - BLOCK_WORDS * number), area, BLOCK)
    return bytes(made)


def recording(data: Any) -> array:
    """The words of a recording. A bad block is Refused, with its number from 0 as `place`.

    >>> list(recording(record([1, 2, 3])))
    [1, 2, 3]
    >>> recording(record([1, 2, 3])[:-1])
    Traceback (most recent call last):
    nt6861.names.Refused: 10: a block of fewer than 512 bytes, at 0
    """
    data = bytes(data)
    words, piece, count = array("I"), (ctypes.c_uint32 * BLOCK_WORDS)(), ctypes.c_size_t()
    for number, start in enumerate(range(0, len(data), BLOCK)):
        pointer, length, _ = lent(data[start : start + BLOCK], 1)
        refused = library.nt6861_read_block(number, pointer, length, piece, BLOCK_WORDS, ctypes.byref(count))
        if refused:
            raise Refused(refused, place=number)
        words.extend(piece[: count.value])
    return words


def field_rate(v: int) -> Optional[float]:
    """The field rate in Hz by the latch of VCNT; None where there is none.

    >>> field_rate(2000)
    62.5
    """
    return library.nt6861_field_rate(v) or None


def interval_rate(h: int) -> Optional[float]:
    """The line rate in Hz at HSEL 0, by the latch of HCNT; None where there is none.

    >>> interval_rate(0) is None
    True
    """
    return library.nt6861_interval_rate(h) or None


def line_rate(h: int, v: int) -> Optional[float]:
    """The line rate in Hz at HSEL 1, by the latches of HCNT and VCNT; None where there is none."""
    return library.nt6861_line_rate(h, v) or None


class Counters6862:
    """The sync counters of the NT6862, or of the NT6861, by themselves: twelve numbers, in `state`.

    >>> counters = Counters6862(6862)
    >>> counters.clock(2000)
    >>> counters.v(0)
    >>> counters.v(1)
    >>> counters.field_rate
    62.5
    >>> Counters6862(6863)
    Traceback (most recent call last):
    nt6861.names.Refused: 23: a chip that is neither the NT6861 nor the NT6862
    """

    def __init__(self, chip: int = 6862) -> None:
        self._state = (ctypes.c_uint16 * 12)()
        self._call(0, chip)

    def _call(self, call: int, value: int) -> None:
        number = library.nt6862_counters(self._state, 12, call, value)
        if number:
            raise Refused(number)

    @property
    def state(self) -> Tuple[int, ...]:
        return tuple(self._state)

    @state.setter
    def state(self, numbers: Iterable[int]) -> None:
        offered = (ctypes.c_uint16 * 12)(*numbers)
        if library.nt6862_field_rate(offered, 12) == -8.0:
            raise Refused(8)
        self._state = offered

    def h(self, level: int) -> None:
        self._call(1, level)

    def v(self, level: int) -> None:
        self._call(2, level)

    def clock(self, count: int = 1) -> None:
        self._call(3, count)

    def enhsel(self, bit: int) -> None:
        self._call(4, bit)

    def hsel(self, bit: int) -> None:
        self._call(5, bit)

    def clear_h(self) -> None:
        self._call(6, 0)

    def clear_v(self) -> None:
        self._call(7, 0)

    @property
    def field_rate(self) -> Optional[float]:
        """in Hz; None where nothing is latched or VCNT is in overflow"""
        rate = library.nt6862_field_rate(self._state, 12)
        return rate if rate > 0 else None
