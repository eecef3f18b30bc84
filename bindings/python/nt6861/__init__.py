"""The proved model of the NT6861 monitor microcontroller, for tests and tools in Python.

>>> from nt6861 import Chip
>>> chip = Chip()
>>> chip.write('IEX', 1)
Answer(0x00000000)
>>> chip.pin('VSYNCI', 0), chip.pin('VSYNCI', 1)
(Answer(0x00000000), Answer(0x00000100))
>>> set(chip.requests)
{'V'}

Chip: a chip that steps, runs lists of words, and is stored as 128 bytes. Firmware: an image on the 6502 beside a chip. edid, vcd, addresses, why,
record, recording, rates of latches, Counters6862. Refusals are exceptions, Refused, with number and meaning. The calls are those of libnt6861.
"""
from ._library import VERSION, library
from .chip import AREA, Chip, Lines, Rates, replay
from .data import (
    Address, Counters6862, Reason, RefusedDump, addresses, edid, field_rate, interval_rate, line_rate, record, recording, vcd, why,
)
from .firmware import Cpu, Firmware, RefusedInstruction, Run, events_of, symbols_of
from .names import (
    CLOCKS, MEANINGS, PINS, REGISTERS, SOURCES, Answer, Refused, clock_word, letters, pin_word, polarity_word, read_word, word, write_word,
)

__version__ = ".".join(str(part) for part in VERSION.to_bytes(3, "big"))
__all__ = [
    "AREA", "Address", "Answer", "CLOCKS", "Chip", "Counters6862", "Cpu", "Firmware", "Lines", "MEANINGS", "PINS", "REGISTERS", "Rates", "Reason", "Refused",
    "RefusedDump", "RefusedInstruction", "Run", "SOURCES", "VERSION", "addresses", "clock_word", "edid", "events_of", "field_rate", "interval_rate",
    "letters", "library", "line_rate", "pin_word", "polarity_word", "read_word", "record", "recording", "replay", "symbols_of", "vcd", "why", "word",
    "write_word",
]
