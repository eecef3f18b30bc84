#!/usr/bin/env python3
"""words.py: holds docs/WORDS.md to the tables in the code, and runs its examples.

Registers: address, name, reset value, write and read column are those of `registers::TABLE`; each bit that the code names stands in
its register's row with its number. Pins and clocks have the numbers of `events`. Every word with a pin or an address of the tables
is taken, and every other one refused with 2. The names of include/nt6861.h have the numbers of the code. Each block of words and answers is run by target/bin/vectors from a fresh chip.
"""
import pathlib
import re
import subprocess
import sys
import tempfile

PAGE = pathlib.Path("docs/WORDS.md").read_text()
REGISTERS = pathlib.Path("crates/registers/src/lib.rt").read_text()
EVENTS = pathlib.Path("crates/events/src/lib.rt").read_text()
PROGRAM = pathlib.Path("target/bin/vectors").resolve()
complaints = []


def table(section, first):
    """the rows of the table in a section whose first column has this name"""
    text = PAGE.split(f"\n## {section}\n")[1].split("\n## ")[0]
    rows = [[cell.strip() for cell in line.strip().strip("|").split("|")] for line in text.split("\n") if line.startswith("|")]
    start = next(i for i, row in enumerate(rows) if row[0] == first)
    end = next((i for i in range(start + 2, len(rows)) if set("".join(rows[i])) <= set("-")), len(rows) + 1)
    return rows[start + 2:end - 1 if end <= len(rows) else end]


def agree(what, page, code):
    if page != code:
        complaints.append(f"{what}: the page has {page}, the code {code}")


def check_registers():
    """gives the addresses of the table"""
    body = REGISTERS.split("const TABLE: [u32; 38] = [")[1].split("\n];")[0]
    packed = re.findall(r"0x(\w\w)_(\w\w)_(\w\w)_(\w\w), // (\w\w) (\w+)", body)
    agree("addresses beside the rows of the code", [row[4] for row in packed], [f"{number:02X}" for number in range(38)])
    code = [(name, reset, write, read, int(taken, 16) > 1, int(taken, 16) % 2 == 1) for reset, write, read, taken, _, name in packed]
    rows = table("Registers", "address")
    agree("number of registers", len(rows), len(code))
    for number, (row, (name, reset, write, read, writable, readable)) in enumerate(zip(rows, code)):
        shown = [f"{number:02X}", name, reset.upper(), write.upper() if writable else "refused", read.upper() if readable else "refused"]
        agree(f"register {number:02X}", row[:5], shown)
    meaning = {row[1]: row[5] for row in rows}
    owners, asked = [], 0
    for line in REGISTERS.split("const TABLE")[0].split("\n"):
        if owner := re.search(r"Those of (.*):", line):
            owners = re.findall(r"[A-Z0-9]+", owner[1])
        if owners and (bit := re.match(r"pub const (\w+): u8 = (\d);", line)):
            name = {"MD12": "MD1/2", "CLRHOV": "HCNTOV", "CLRVOV": "VCNTOV"}.get(bit[1], re.sub(r"^INT(.)$", r"\1", bit[1]))
            for owner in owners:
                asked += 1
                if not re.search(rf"\b{bit[2]} {re.escape(name)}(?!\w)", meaning[owner]):
                    complaints.append(f"register {owner}: the row does not say that bit {bit[2]} is {name}")
    agree("named bits", asked >= 20, True)
    return {int(row[0], 16) for row in rows}


def check_pins():
    """gives the numbers of the table"""
    numbers, names = set(), {}
    for decimal, hexadecimal, pin in table("Pins", "number"):
        ends = [int(n) for n in decimal.split(" to ")]
        agree(f"pin {decimal}", hexadecimal, " to ".join(f"{n:02X}" for n in ends))
        numbers |= set(range(ends[0], ends[-1] + 1))
        names[re.match(r"\w+", pin)[0]] = ends[0]
    constants = EVENTS.split("PERIOD")[0]
    for name, number in re.findall(r"pub const (\w+): u8 = (\d+);", constants):
        agree(f"pin {name}", names.get(name), int(number))
    return numbers


def check_clocks():
    code = re.findall(r"pub const (PERIOD|BASE0|BASE1|WATCHDOG): u8 = (\d+);", EVENTS)
    words = {"PERIOD": "8 µs", "BASE0": "base clock for TBS 0", "BASE1": "base clock for TBS 1", "WATCHDOG": "watchdog"}
    rows = {number: text for number, text in table("Clocks", "number")}
    agree("number of clocks", len(rows), len(code))
    for name, number in code:
        if not rows.get(number, "").startswith(words[name]):
            complaints.append(f"clock {number}: the page has '{rows.get(number)}', the code {name}")


def check_header():
    """gives how many names include/nt6861.h has: registers, pins, clocks and bits of requests with the numbers of the code"""
    header = pathlib.Path("include/nt6861.h").read_text()
    named = {name: int(number, 0) for name, number in re.findall(r"NT6861_(\w+) = (\w+)", header)}
    code = dict(re.findall(r"^pub const (\w+): u8 = (\w+);", REGISTERS.split("// Bits that a rule names")[0], re.M))
    code |= {f"DACH{n}": str(0x18 + n) for n in range(14)}
    pins = dict(re.findall(r"^pub const (\w+): u8 = (\d+);", EVENTS.split("PERIOD")[0], re.M))
    code |= {f"PIN_{name}": number for name, number in pins.items()}
    code |= {f"PIN_P{port}{bit}": str(8 * port + bit) for port in range(3) for bit in range(8) if (port, bit) != (1, 7)}
    code |= {f"CLOCK_{name}": number for name, number in re.findall(r"pub const (PERIOD|BASE0|BASE1|WATCHDOG): u8 = (\d+);", EVENTS)}
    bits = dict(re.findall(r"^pub const INT(\w): u8 = (\d);", REGISTERS, re.M))
    code |= {f"REQUEST_{name}": str(1 << int(number)) for name, number in bits.items()}
    for name, number in code.items():
        agree(f"NT6861_{name} of include/nt6861.h", named.get(name), int(number, 0))
    given = {int(number) for number in re.findall(r"NT686[12]_\w+ = (\d+)", header.split("enum nt6861_number")[1].split("};")[0])}
    rows = {int(number) for number in re.findall(r"^\| (\d+) \|", pathlib.Path("docs/NUMBERS.md").read_text(), re.M)}
    agree("numbers of include/nt6861.h beside docs/NUMBERS.md", sorted(given), sorted(rows))
    version = re.search(r"#define NT6861_VERSION 0x(\w+)", header)
    proved = re.search(r"^const VERSION: u32 = 0x([0-9a-f_]+);", pathlib.Path("crates/chip_capi/src/lib.rt").read_text(), re.M)
    agree("NT6861_VERSION of include/nt6861.h beside chip_capi", version and int(version[1], 16), proved and int(proved[1].replace("_", ""), 16))
    return len(code) + len(given)


def run(name, text):
    with tempfile.TemporaryDirectory() as folder:
        pathlib.Path(folder, "block.txt").write_text(text)
        done = subprocess.run([PROGRAM, "block.txt"], cwd=folder, capture_output=True, text=True)
    if done.stderr or not re.fullmatch(r"block\.txt: words \d+\n", done.stdout):
        complaints.append(f"{name}: {done.stdout.strip().removeprefix('block.txt: ')}{done.stderr.strip()}")


def taken(kind, b, numbers):
    """a listing: each A of the numbers is taken by the kind, each other one refused with 2"""
    return "".join(f"{kind:02X}00{a:02X}{b:02X} {'00000000' if a in numbers else '02000000'}\n" for a in range(256))


def main():
    addresses = check_registers()
    pins = check_pins()
    check_clocks()
    names = check_header()
    readable = {int(row[0], 16) for row in table("Registers", "address") if row[4] != "refused"}
    run("pins", taken(3, 1, pins))
    run("clocks", taken(4, 0, {0, 1, 2, 3}))
    run("polarities", taken(5, 0, {0, 1}))
    given = ["00" if a in readable else "05" if a in addresses else "02" for a in range(256)]
    run("registers", "".join(f"0100{a:02X}00 {n}000000\n" for a, n in enumerate(given) if n != "00"))
    blocks = re.findall(r"^```listing\n(.*?)^```$", PAGE, re.M | re.S)
    for number, block in enumerate(blocks, 1):
        run(f"block {number}", block)
    kinds = [row[0] for row in table("A word", "kind")]
    agree("kinds", kinds, ["1", "2", "3", "4", "5"])
    agree("sources", [row[:2] for row in table("An answer", "bit")], [[str(5 - i), s] for i, s in enumerate("SDARE" + "V")])
    agree("numbers", [row[0] for row in table("Numbers", "number")], [str(n) for n in range(9)])
    for text in complaints:
        print(f"words: {text}")
    if complaints:
        sys.exit(1)
    print(f"words: docs/WORDS.md agrees with the code: {len(addresses)} registers, {len(pins)} pins, 4 clocks, {len(blocks)} blocks of words run; {names} names of include/nt6861.h have the numbers of the code")


main()
