#!/usr/bin/env python3
"""A chip that a program keeps: it is made, stepped, stored in a file, read back and stepped on. Usage: chip.py FILE

The module is in bindings/python; ./nt6861 library makes its library:
    PYTHONPATH=bindings/python python3 examples/chip.py target/chip.bin
"""
import pathlib
import sys

from nt6861 import Chip, Refused, pin_word, write_word

OUTCOMES = (None, "A0", "II ADR", "both")


def told(what, chip):
    print(f"{what}: hold {chip.hold:08X}, outcome {OUTCOMES.index(chip.address):08X}")


def refused(what, state):
    try:
        Chip(state)
    except Refused as refusal:
        print(f"{what}: {refusal.number << 24:08X}")


path = pathlib.Path(sys.argv[1])
chip = Chip()

# every request enabled, DDC2B on, START, address A0H, the acknowledge: the chip holds SCL
words = [write_word("IEX", 0x3F), write_word("MDCON", 0), write_word("IISTS", 0), pin_word("SDA", 0)]
for bit in reversed(range(8)):
    words += [pin_word("SCL", 0), pin_word("SDA", 0xA0 >> bit & 1), pin_word("SCL", 1)]
words += [pin_word("SCL", 0), pin_word("SCL", 1), pin_word("SCL", 0)]
answers = chip.run(words)
print(f"run: 0, last answer {answers[-1]:08X}")
told("addressed", chip)

path.write_bytes(chip.state)
back = Chip(path.read_bytes())

# the chip from the file goes on: two clocks of 8 µs, then II DAT lets go
print(f"step: {back.clock('8us'):08X}")
print(f"step: {back.clock('8us'):08X}")
told("two clocks later", back)
print(f"step: {back.write('IIDAT', 0):08X}")
told("let go", back)
print(f"field rate: {0 if back.rates.field else 1:08X}")

# refusals: a short area, a spare byte that is not zero
refused("short area", back.state[:127])
refused("spare byte", back.state[:40] + b"\1" + back.state[41:])
