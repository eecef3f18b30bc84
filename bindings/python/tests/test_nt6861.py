"""Tests of the module: python3 -m unittest discover -s bindings/python/tests, or from a folder that it is installed into."""
import contextlib
import copy
import doctest
import importlib
import io
import os
import pathlib
import pickle
import random
import re
import unittest
import warnings
from array import array

import nt6861
from nt6861 import Chip, Firmware, Refused

HERE = pathlib.Path(__file__).resolve()
# the top of the repository; or share/nt6861 of an installation, which has images and examples too
TOP = HERE.parents[3] if (HERE.parents[3] / "include").exists() else HERE.parents[2]
HEADER = next((path for path in (TOP / "include/nt6861.h", TOP / "../../include/nt6861.h") if path.exists()), None)


def start_and_address(byte):
    """the words of a START, an address and its ninth clock"""
    made = [nt6861.pin_word("SDA", 0)]
    for place in range(7, -1, -1):
        made += [nt6861.pin_word("SCL", 0), nt6861.pin_word("SDA", byte >> place & 1), nt6861.pin_word("SCL", 1)]
    return made + [nt6861.pin_word("SCL", 0), nt6861.pin_word("SCL", 1), nt6861.pin_word("SCL", 0)]


DDC2B = [nt6861.word(line) for line in ("write IEX 3F", "write MDCON 00", "write IISTS 00")]


def generated(seed, count):
    dice = random.Random(seed)
    kinds = (
        lambda: 0x01000000 | dice.randrange(40) << 8,
        lambda: 0x02000000 | dice.randrange(40) << 8 | dice.randrange(256),
        lambda: 0x03000000 | dice.randrange(30) << 8 | dice.randrange(2),
        lambda: 0x03000000 | dice.randrange(24, 28) << 8 | dice.randrange(2),
        lambda: 0x04000000 | dice.randrange(5) << 8,
        lambda: dice.randrange(1 << 32),
    )
    return [dice.choice(kinds)() for _ in range(count)]


class Names(unittest.TestCase):
    def setUp(self):
        if HEADER is None:
            self.skipTest("there is no include/nt6861.h")
        self.named = {name: int(number, 0) for name, number in re.findall(r"(NT686[12]_\w+) = (\w+)", HEADER.read_text())}

    def test_names_are_those_of_the_header(self):
        ours = {f"NT6861_{name}": number for name, number in nt6861.REGISTERS.items()}
        ours |= {f"NT6861_PIN_{name}": number for name, number in nt6861.PINS.items()}
        ours |= {f"NT6861_CLOCK_{name}": number for name, number in zip(("PERIOD", "BASE0", "BASE1", "WATCHDOG"), nt6861.CLOCKS.values())}
        ours |= {f"NT6861_REQUEST_{name}": 1 << place for place, name in enumerate(nt6861.SOURCES)}
        self.assertEqual(len(ours), 38 + 28 + 4 + 6)
        for name, number in ours.items():
            self.assertEqual(self.named.get(name), number, name)

    def test_numbers_are_those_of_the_header(self):
        text = HEADER.read_text().split("enum nt6861_number")[1].split("};")[0]
        self.assertEqual({int(number) for number in re.findall(r" = (\d+)", text)}, set(nt6861.MEANINGS))

    def test_calls_are_those_of_the_header(self):
        text = re.sub(r"#define.*", "", re.sub(r"/\*.*?\*/", "", HEADER.read_text(), flags=re.S))
        declared = set(re.findall(r"\b(nt686[12]_\w+)\(", text))
        self.assertGreater(len(declared), 20)
        self.assertEqual(declared, set(importlib.import_module("nt6861._library")._CALLS))

    def test_version_is_the_header_s(self):
        version = int(re.search(r"#define NT6861_VERSION (\w+)", HEADER.read_text())[1], 16)
        self.assertEqual((nt6861.VERSION, nt6861.library.nt6861_version()), (version, version))


class TheChip(unittest.TestCase):
    def test_worked_case(self):
        chip = Chip()
        chip.write("IEX", 1)
        chip.pin("VSYNCI", 0)
        chip.pin("VSYNCI", 1)
        self.assertEqual(chip.requests, {"V"})
        self.assertEqual(chip.read("IRQX"), 1)
        chip.write("CLRFLG", 1)
        self.assertEqual(chip.requests, frozenset())

    def test_hold_and_address(self):
        chip = Chip()
        chip.run(DDC2B + start_and_address(0xA0))
        self.assertEqual((chip.address, chip.hold, chip.requests), ("A0", 0, {"A", "D", "S"}))
        self.assertEqual((chip.lines.scl, chip.lines.pulls_scl), (0, True))
        chip.clock("8us", 2)
        self.assertEqual(chip.hold, 2)
        chip.write("IIDAT", 0)
        self.assertEqual(chip.hold, 0)

    def test_run_is_step_by_step(self):
        words = generated(1, 5000)
        one, many, fresh = Chip(), Chip(), nt6861.replay(words)
        answers = many.run(words)
        self.assertEqual([one.step(word) for word in words], list(answers))
        self.assertEqual(fresh, answers)
        self.assertEqual(one, many)

    def test_forms_of_lists(self):
        words = array("I", generated(2, 1000))
        expected = Chip().run(words)
        self.assertEqual(len(set(expected)) > 10, True)
        for form in (list(words), tuple(words), iter(words), memoryview(words), words.tobytes(), bytearray(words.tobytes()), memoryview(b"x" + words.tobytes())[1:]):
            self.assertEqual(Chip().run(form), expected)
        for form in (array("f", [1.0]), b"123", array("H", [1]), memoryview(words)[::2]):
            with self.assertRaises(ValueError):
                Chip().run(form)
        self.assertEqual(len(Chip().run([])), 0)

    def test_lent_answers(self):
        words, answers = array("I", generated(3, 100)), array("I", [7] * 120)
        self.assertIs(Chip().run(words, answers), answers)
        self.assertEqual((answers[:100], answers[100:]), (Chip().run(words), array("I", [7] * 20)))
        with self.assertRaises(Refused) as caught:
            Chip().run(words, array("I", [0] * 99))
        self.assertEqual(caught.exception.number, 7)
        with self.assertRaises(ValueError):
            Chip().run(words, words)
        with self.assertRaises(TypeError):
            Chip().run(words, words.tobytes())

    def test_state(self):
        chip = Chip()
        chip.run(DDC2B + start_and_address(0xA0))
        for other in (Chip(chip.state), chip.copy(), copy.deepcopy(chip), pickle.loads(pickle.dumps(chip))):
            self.assertEqual(other, chip)
            other.clock()
            self.assertNotEqual(other, chip)
        kept = chip.state
        for bad, number in ((kept[:127], 15), (kept + b"\0", 15), (b"", 15), (bytes(40) + b"\1" + bytes(87), 8)):
            with self.assertRaises(Refused) as caught:
                chip.state = bad
            self.assertEqual((caught.exception.number, chip.state), (number, kept))

    def test_refusals(self):
        chip = Chip()
        for number, refused in (
            (2, lambda: chip.write(0x26, 0)), (3, lambda: chip.pin("SDA", 2)), (5, lambda: chip.read("CLRFLG")), (6, lambda: chip.write("IRQX", 0)),
        ):
            kept = chip.state
            with self.assertRaises(Refused) as caught:
                refused()
            self.assertEqual((caught.exception.number, chip.state), (number, kept))
        chip.pin("RESET", 0)
        with self.assertRaises(Refused) as caught:
            chip.read("PT0")
        self.assertEqual((caught.exception.number, caught.exception.meaning), (4, nt6861.MEANINGS[4]))
        self.assertEqual(chip.step(0xFFFFFFFF).number, 1)
        for wrong in (lambda: chip.read("NONE"), lambda: chip.pin("SDL", 0)):
            self.assertRaises(KeyError, wrong)
        for wrong in (lambda: chip.write("IEX", 256), lambda: chip.read(-1), lambda: chip.step("write IEX"), lambda: chip.clock("8us", 0)):
            self.assertRaises(ValueError, wrong)

    def test_rates(self):
        chip = Chip()
        chip.pin("VSYNCI", 0)
        chip.pin("VSYNCI", 1)
        chip.clock("8us", 2000)
        chip.pin("VSYNCI", 0)
        chip.pin("VSYNCI", 1)
        self.assertEqual(chip.rates.field, nt6861.field_rate(2000))
        self.assertEqual(nt6861.field_rate(2000), 62.5)


class TheFirmware(unittest.TestCase):
    def setUp(self):
        images = TOP / "images"
        self.rom = (images / "recall.rom").read_bytes()
        self.symbols = (images / "recall.lst").read_text()
        self.own = nt6861.events_of((images / "recall-own.events").read_text())

    def test_recall(self):
        machine = Firmware(self.rom, symbols=self.symbols)
        run = machine.run(2187, self.own)
        self.assertEqual((run.number, run.counted, run.given, run.answers[-1]), (0, 2187, 74, 0xFF))
        cpu = machine.cpu
        self.assertEqual((cpu.a, cpu.x, cpu.s, cpu.pc, cpu.over), (0x55, 0xFF, 0xFF, 0xA026, 7))
        self.assertEqual(machine.where(), "on")

    def test_until_a_name(self):
        machine = Firmware(self.rom, symbols=self.symbols)
        machine.until("wait")
        self.assertEqual(machine.where(), "wait")
        events = [(event >> 32, event & 0xFFFFFFFF) for event in self.own]
        machine = Firmware(self.rom, symbols=self.symbols)
        before = machine.until("service", events=self.own, limit=5000)
        again = Firmware(self.rom)
        again.run(before, events)
        self.assertEqual((machine.cpu, machine.chip, bytes(machine.ram)), (again.cpu, again.chip, bytes(again.ram)))
        with self.assertRaises(TimeoutError):
            Firmware(self.rom, symbols=self.symbols).until("service", limit=100)
        self.assertEqual(Firmware(self.rom).until(when=lambda machine: machine.cpu.x == 0xFF), 3)

    def test_one_by_one_is_one_run(self):
        events = [(event >> 32, event & 0xFFFFFFFF) for event in self.own]
        one, many = Firmware(self.rom), Firmware(self.rom)
        answers = []
        for number in range(600):
            answers += one.step([word for at, word in events if at == number])
        run = many.run(600, [event for event in events if event[0] < 600])
        self.assertEqual((one.cpu, one.chip, bytes(one.ram), answers), (many.cpu, many.chip, bytes(many.ram), list(run.answers)))

    def test_refused_instruction(self):
        machine = Firmware(self.rom)
        machine.cpu = machine.cpu._replace(pc=0x0200)
        with self.assertRaises(nt6861.RefusedInstruction) as caught:
            machine.run(10, [(0, "read PT0")])
        self.assertEqual((caught.exception.number, caught.exception.place, caught.exception.run.given), (21, 0x0200, 1))
        self.assertEqual(machine.run(10, check=False).number, 21)
        for wrong in (b"", self.rom[1:], self.rom + b"\0"):
            with self.assertRaises(Refused) as caught:
                Firmware(wrong)
            self.assertEqual(caught.exception.number, 22)


class TheReaders(unittest.TestCase):
    def test_edid(self):
        block = (TOP / "images/edid.bin").read_bytes()
        self.assertEqual(nt6861.edid(block), 0)
        for place in range(128):
            wrong = bytearray(block)
            wrong[place] ^= 1
            self.assertNotEqual(nt6861.edid(wrong, check=False), 0)

    def test_vcd_in_pieces(self):
        head = b"$timescale 1 us $end $var wire 1 ! SCL $end $enddefinitions $end #0 0! "
        words = nt6861.vcd(head + b"#8000000 1!")
        self.assertEqual((len(words), words[0], set(words[1:-1]), words[-1]), (1_000_002, 0x03001900, {0x04000000}, 0x03001901))
        with self.assertRaises(nt6861.RefusedDump) as caught:
            nt6861.vcd(head + b"#80 1! ?")
        self.assertEqual((caught.exception.number, len(caught.exception.words), caught.exception.place), (40, 12, len(head) + 7))

    def test_addresses(self):
        changes = [(word >> 8 & 255, word & 255) for word in start_and_address(0x50)]
        found = nt6861.addresses([line << 8 | level for line, level in changes], 0x6E)
        self.assertEqual(found, [(0x50, None)])
        with self.assertRaises(Refused) as caught:
            nt6861.addresses([0x1A00], 0x6E)
        self.assertEqual(caught.exception.number, 2)

    def test_why(self):
        words = DDC2B + start_and_address(0xA0)
        self.assertEqual(nt6861.why(words)["A"].what, "matched-address a0")
        chip = Chip()
        chip.run(words)
        self.assertEqual(nt6861.why([], chip)["A"], ("already-set", None))
        self.assertEqual(set(nt6861.why(words)), chip.requests)

    def test_recordings(self):
        for count in (0, 1, 126, 127, 1000):
            words = array("I", generated(4, count))
            kept = nt6861.record(words)
            self.assertEqual((len(kept) % 512, nt6861.recording(kept)), (0, words))
        broken = bytearray(nt6861.record(range(300)))
        broken[600] ^= 1
        with self.assertRaises(Refused) as caught:
            nt6861.recording(broken)
        self.assertEqual((caught.exception.number, caught.exception.place), (11, 1))

    def test_counters(self):
        with self.assertRaises(Refused) as caught:
            nt6861.Counters6862(6861).enhsel(1)
        self.assertEqual(caught.exception.number, 2)
        counters = nt6861.Counters6862()
        counters.state = nt6861.Counters6862(6861).state
        self.assertEqual(counters.state[0], 6861)
        with self.assertRaises(Refused):
            counters.state = [9] * 12


class Docs(unittest.TestCase):
    def test_examples_in_the_docstrings(self):
        tried = 0
        for name in ("nt6861", "nt6861.names", "nt6861.chip", "nt6861.data", "nt6861.firmware"):
            result = doctest.testmod(importlib.import_module(name))
            self.assertEqual(result.failed, 0, name)
            tried += result.attempted
        self.assertGreater(tried, 60)

    def test_readme(self):
        code = re.search(r"```python\n(.*?)```", (HERE.parents[1] / "README.md").read_text(), re.S)[1]
        # in the folder that has images and examples
        here, printed = os.getcwd(), io.StringIO()
        os.chdir(TOP)
        try:
            with contextlib.redirect_stdout(printed), warnings.catch_warnings():
                warnings.simplefilter("ignore", ResourceWarning)
                exec(compile(code, "README.md", "exec"), {})
        finally:
            os.chdir(here)
        self.assertEqual(printed.getvalue().split("\n")[-2], "5 a read of a write-only register")


if __name__ == "__main__":
    unittest.main()
