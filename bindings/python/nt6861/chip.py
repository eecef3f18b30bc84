"""A chip that a program keeps."""
from __future__ import annotations

import ctypes
from array import array
from typing import Any, FrozenSet, NamedTuple, Optional, Union

from . import names
from ._lent import lent, lent_out, places_for
from ._library import library
from .names import Answer, Refused

#: The bytes of a chip (docs/STATE.md).
AREA = 128


class Rates(NamedTuple):
    """field and line rate in Hz; None where nothing is latched or a counter is in overflow"""

    field: Optional[float]
    line: Optional[float]


class Lines(NamedTuple):
    """the levels of SDA and SCL, and which of them the chip pulls"""

    sda: int
    scl: int
    pulls_sda: bool
    pulls_scl: bool


class Chip:
    """An NT6861. A new one is fresh: reset values, all outside levels 1. With `state` it goes on from there.

    >>> chip = Chip()
    >>> chip.write('IEX', 1)
    Answer(0x00000000)
    >>> chip.pin('VSYNCI', 0)
    Answer(0x00000000)
    >>> chip.pin('VSYNCI', 1).requests
    frozenset({'V'})
    >>> chip.read('IRQX'), set(chip.requests)
    (1, {'V'})
    >>> chip.read('CLRFLG')
    Traceback (most recent call last):
    nt6861.names.Refused: 5: a read of a write-only register
    >>> later = Chip(chip.state)
    >>> later == chip, later.read('IRQX')
    (True, 1)
    """

    __slots__ = ("_area",)

    def __init__(self, state: Any = None) -> None:
        self._area = (ctypes.c_uint8 * AREA)()
        library.nt6861_fresh(self._area, AREA)
        if state is not None:
            self.state = state

    # ---- the state

    @property
    def state(self) -> bytes:
        """The 128 bytes of the chip, to store and to go on from. Bytes that are no chip's are refused, and the chip stays as it was.

        >>> chip = Chip()
        >>> kept = chip.state
        >>> chip.state = kept[:127]
        Traceback (most recent call last):
        nt6861.names.Refused: 15: an area of another length
        >>> chip.state = kept[:40] + b'1' + kept[41:]
        Traceback (most recent call last):
        nt6861.names.Refused: 8: the state is ill formed
        >>> chip.state == kept
        True
        """
        return bytes(self._area)

    @state.setter
    def state(self, state: Any) -> None:
        state = bytes(state)
        if len(state) != AREA:
            raise Refused(15)
        area = (ctypes.c_uint8 * AREA).from_buffer_copy(state)
        number = library.nt6861_hold(area, AREA) >> 24
        if number:
            raise Refused(number)
        ctypes.memmove(self._area, area, AREA)

    def copy(self) -> "Chip":
        """Another chip in the same state."""
        return Chip(self.state)

    __copy__ = copy

    def __deepcopy__(self, memo: Any) -> "Chip":
        return self.copy()

    def __reduce__(self) -> Any:
        return (Chip, (self.state,))

    def __eq__(self, other: object) -> bool:
        return self.state == other.state if isinstance(other, Chip) else NotImplemented

    __hash__ = None  # type: ignore[assignment]

    # ---- words

    def step(self, word: Union[int, str]) -> Answer:
        """The answer to one event word, or to a line of text; a refusal is an answer too, and leaves the chip as it was.

        >>> Chip().step('write 26 00').number
        2
        >>> Chip().step(0x01000600)
        Answer(0x0000003C)
        """
        return Answer(library.nt6861_step(self._area, AREA, names.word(word) if isinstance(word, str) else word))

    def run(self, words: Any, answers: Any = None) -> Any:
        """The answers to many words in one call, as an array of numbers. An array, a memoryview or bytes (four a word, the lowest first) goes to the
        call as it is; `answers`, where it is given, is where they are written to.

        >>> [f'{answer:08X}' for answer in Chip().run([0x02000F01, 0x03001B00, 0x03001B01, 0x01001000])]
        ['00000000', '00000000', '00000100', '00000101']
        """
        read = lent(words, 4)
        if answers is None:
            answers = places_for(read[1], 4)
        number = library.nt6861_run(self._area, AREA, read[0], read[1], *lent_out(answers, 4, read))
        if number:
            raise Refused(number)
        return answers

    # ---- events by name; Refused where one is refused

    def read(self, register: Union[int, str]) -> int:
        """The byte of a register, as the processor reads it."""
        return self.step(names.read_word(register)).check().byte

    def write(self, register: Union[int, str], byte: int) -> Answer:
        """Writes a byte to a register."""
        return self.step(names.write_word(register, byte)).check()

    def pin(self, pin: Union[int, str], level: int) -> Answer:
        """Sets the outside level of a pin."""
        return self.step(names.pin_word(pin, level)).check()

    def clock(self, clock: Union[int, str] = "8us", count: int = 1) -> Answer:
        """Gives a clock, `count` times; the answer to the last.

        >>> chip = Chip()
        >>> chip.clock('watchdog', 63).watchdog_reset, chip.clock('watchdog').watchdog_reset
        (False, True)
        """
        if count < 1:
            raise ValueError("a count of at least 1 is expected")
        answers = self.run(array("I", [names.clock_word(clock)]) * count)
        return Answer(answers[-1]).check()

    def polarity(self, sync: Union[int, str], level: int) -> Answer:
        """Says which polarity was found on H or V."""
        return self.step(names.polarity_word(sync, level)).check()

    # ---- to look at

    @property
    def requests(self) -> FrozenSet[str]:
        """The sources whose request lines are up: letters of V, E, R, A, D, S."""
        # a word that is no event is answered with the requests, and moves nothing
        return self.step(0).requests

    @property
    def hold(self) -> int:
        """For how many clocks of 8 microseconds the chip has held SCL low; 0 too where it does not hold it."""
        return library.nt6861_hold(self._area, AREA) & 0xFFFF

    @property
    def lines(self) -> Lines:
        """The levels of the bus lines as the outside and the chip leave them, and which of them the chip pulls.

        >>> Chip().lines
        Lines(sda=1, scl=1, pulls_sda=False, pulls_scl=False)
        """
        bits = library.nt6861_lines(self._area, AREA)
        return Lines(bits & 1, bits >> 1 & 1, bool(bits & 4), bool(bits & 8))

    @property
    def address(self) -> Optional[str]:
        """By which of its addresses the chip was called in the transfer under way: None, 'A0', 'II ADR' or 'both'."""
        return names.OUTCOMES[library.nt6861_outcome(self._area, AREA) & 3]

    @property
    def rates(self) -> Rates:
        """The field rate and the line rate.

        >>> Chip().rates
        Rates(field=None, line=None)
        """
        hertz = ctypes.c_double()
        return Rates(*(hertz.value if library.nt6861_rate(self._area, AREA, which, ctypes.byref(hertz)) == 0 else None for which in (0, 1)))

    def __repr__(self) -> str:
        return f"<Chip requests {''.join(s for s in names.SOURCES if s in self.requests) or 'none'}, address {self.address}, hold {self.hold}>"


def replay(words: Any, answers: Any = None) -> Any:
    """The answers of a fresh chip to words, in one call.

    >>> list(replay([0x01000600]))
    [60]
    """
    read = lent(words, 4)
    if answers is None:
        answers = places_for(read[1], 4)
    number = library.nt6861_replay(read[0], read[1], *lent_out(answers, 4, read))
    if number:
        raise Refused(number)
    return answers
