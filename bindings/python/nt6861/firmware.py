"""A firmware image on the proved 6502 and chip."""
from __future__ import annotations

import ctypes
import re
from array import array
from typing import Any, Callable, Dict, Iterable, NamedTuple, Optional, Sequence, Union

from . import names
from ._lent import lent, places_for
from ._library import library
from .chip import AREA, Chip
from .names import Answer, Refused

#: Where ROM begins, how long it is, and where the vectors of reset and interrupt stand.
ROM_START, ROM_BYTES, RESET_VECTOR, SERVICE_VECTOR = 0xA000, 24576, 0xFFFC, 0xFFFE


class Cpu(NamedTuple):
    """the registers, and the cycles since the last clock of 8 microseconds"""

    a: int
    x: int
    y: int
    s: int
    p: int
    pc: int
    over: int


class Run(NamedTuple):
    """what a run gives: 0 or the number of the instruction's refusal, instructions carried out, events given, and their answers"""

    number: int
    counted: int
    given: int
    answers: Sequence[int]


class RefusedInstruction(Refused):
    """An instruction is refused; the machine stands before it. `run` tells how far it came, `place` is the PC."""

    run: Run


def events_of(text: str) -> array:
    """A list of events as text, a line `NUMBER WORD` each (images/README.md), for Firmware.run.

    >>> [hex(event) for event in events_of('100 01000000 # PT0 is read')]
    ['0x6401000000']
    """
    made = array("Q")
    for line in text.split("\n"):
        parts = line.split("#")[0].split()
        if parts:
            if len(parts) != 2 or len(parts[1]) != 8:
                raise ValueError(f"'{line}' is not NUMBER WORD")
            made.append(int(parts[0]) << 32 | int(parts[1], 16))
    return made


def symbols_of(text: str) -> Dict[str, int]:
    """The addresses of names, from a label file of ld65 (-Ln) or a listing of ca65 with absolute addresses.

    >>> symbols_of('al 00A01A .wait')
    {'wait': 40986}
    >>> symbols_of('00A01A  1  A9 55        wait:   lda     #CLEAR')
    {'wait': 40986}
    """
    found = re.findall(r"^al ([0-9A-Fa-f]{6}) \.(\S+)", text, re.M)
    found += re.findall(r"^([0-9A-F]{6})  \d+  .{12} ([A-Za-z_]\w*):", text, re.M)
    return {name: int(address, 16) for address, name in found}


def _packed(events: Any) -> Any:
    if isinstance(events, (array, memoryview, bytes, bytearray)):
        return events
    return array("Q", (number << 32 | (names.word(word) if isinstance(word, str) else word) for number, word in events))


class Firmware:
    """An image of 24,576 bytes from power up, with its CPU, its RAM and its chip.

    >>> machine = Firmware(bytes([0xA9, 0x2A, 0x85, 0x80]) + bytes(24572 - 4) + bytes([0x00, 0xA0, 0, 0]))
    >>> machine.run(2).counted
    2
    >>> machine.cpu.a, machine.ram[0x80 - 0x80], hex(machine.cpu.pc)
    (42, 42, '0xa004')
    """

    def __init__(self, rom: Any, chip: Optional[Chip] = None, symbols: Union[None, str, Dict[str, int]] = None) -> None:
        rom = bytes(rom)
        if len(rom) != ROM_BYTES:
            raise Refused(22)
        self._rom = (ctypes.c_uint8 * ROM_BYTES).from_buffer_copy(rom)
        self._cpu, self._ram = (ctypes.c_uint8 * 8)(), (ctypes.c_uint8 * 256)()
        self._counts = (ctypes.c_uint32 * 2)()
        #: names of addresses, for `until` and `where`
        self.symbols: Dict[str, int] = symbols_of(symbols) if isinstance(symbols, str) else dict(symbols or {})
        #: the chip, to look at and to give words to
        self.chip = chip if chip is not None else Chip()
        start, self._service = (rom[at - ROM_START] | rom[at - ROM_START + 1] << 8 for at in (RESET_VECTOR, SERVICE_VECTOR))
        self.cpu = Cpu(0, 0, 0, 0xFF, 0x04, start, 0)

    @property
    def cpu(self) -> Cpu:
        """The registers, to look at and to set."""
        a, x, y, s, p, low, high, over = self._cpu
        return Cpu(a, x, y, s, p, high << 8 | low, over)

    @cpu.setter
    def cpu(self, cpu: Cpu) -> None:
        if not 0 <= cpu.over < 32:
            raise ValueError("the cycles since the last clock are 0 to 31")
        self._cpu[:] = [cpu.a, cpu.x, cpu.y, cpu.s, cpu.p, cpu.pc & 0xFF, cpu.pc >> 8, cpu.over]

    @property
    def ram(self) -> memoryview:
        """The 256 bytes of RAM, from 0080 on, to look at and to write to."""
        return memoryview(self._ram).cast("B")

    def run(self, count: int, events: Any = (), check: bool = True) -> Run:
        """Carries out `count` instructions. An event is a pair, the number of the instruction that it precedes, from 0 in each run, and its word or its line of
        text; a long list may be an array of such pairs in 64 bits (`events_of`). Where an instruction is refused, RefusedInstruction, or with check=False the Run.
        """
        self._counts[:] = [0, 0]
        pointer, listed, _ = lent(_packed(events), 8)
        answers = places_for(listed, 4)
        places = ctypes.byref(ctypes.c_uint32.from_buffer(answers)) if listed else None
        number = library.nt6861_firmware(
            self._cpu, 8, self._ram, 256, self._rom, ROM_BYTES, self.chip._area, AREA, pointer, listed, places, listed, count, self._counts, 2
        )
        counted, given = self._counts
        done = Run(number, counted, given, answers[:given])
        if number and check:
            refusal = RefusedInstruction(number, place=self.cpu.pc)
            refusal.run = done
            raise refusal
        return done

    def step(self, events: Iterable[Union[int, str]] = ()) -> Sequence[Answer]:
        """Gives these words, then carries out one instruction; the answers."""
        return [Answer(answer) for answer in self.run(1, [(0, word) for word in events]).answers]

    def until(
        self, pc: Union[None, int, str, Iterable[Union[int, str]]] = None, when: Optional[Callable[["Firmware"], bool]] = None,
        events: Any = (), limit: int = 1_000_000,
    ) -> int:
        """Goes on, an instruction at a time, until PC is at an address or name (one of several), or until `when` of the machine holds; at least one instruction. An
        interrupt and the first instruction of its service are one step: there it stops behind that instruction. How many there were; TimeoutError after `limit` of
        them. Events as for `run`.
        """
        wanted = [pc] if isinstance(pc, (int, str)) else list(pc or ())
        places = {self.symbols[place] if isinstance(place, str) else place for place in wanted}
        waiting = array("Q", bytes(_packed(events)))
        given = 0
        for counted in range(1, limit + 1):
            due = []
            while given < len(waiting) and waiting[given] >> 32 < counted:
                due.append(waiting[given] & 0xFFFFFFFF)
                given += 1
            before = self.cpu
            self.step(due)
            if self.cpu.pc in places or (self._service in places and self._interrupted(before)) or (when is not None and when(self)):
                return counted
        raise TimeoutError(f"not reached in {limit} instructions; at {self.where()}")

    def _interrupted(self, before: Cpu) -> bool:
        """an interrupt was taken in the step from these registers: I has gone up by no instruction of its own (SEI, PLP, BRK, RTI), and PC was pushed"""
        if before.p & 4 or not self.cpu.p & 4:
            return False
        opcode = self._rom[before.pc - ROM_START] if before.pc >= ROM_START else 0
        high, low = self._ram[(0x80 + before.s) % 256], self._ram[(0x7F + before.s) % 256]
        return opcode not in (0x00, 0x28, 0x40, 0x78) and high << 8 | low == before.pc

    def where(self, address: Optional[int] = None) -> str:
        """An address, or PC, by the nearest name before it.

        >>> Firmware(bytes(24576), symbols={'null': 0}).where(3)
        'null+3'
        """
        address = self.cpu.pc if address is None else address
        before = [(place, name) for name, place in self.symbols.items() if place <= address]
        if not before:
            return f"{address:04X}"
        place, name = max(before)
        return name if place == address else f"{name}+{address - place}"
