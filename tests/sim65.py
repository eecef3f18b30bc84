#!/usr/bin/env python3
"""sim65.py PROGRAMS [COMMAND ...]: compares a core with sim65, the 6502 simulator of cc65.

Each of so many programs carries out 330 random instructions, each from random registers and memory, and folds A, X, Y, P, S and the
bytes in memory into a sum. COMMAND, by default the independent model's `model firmware`, runs the program and prints its trace, as
images/README.md says; the sum that it ends with is then put into the program, and sim65 must end with the same one, and after as
many cycles. It needs cc65 and is not part of the gate.

All documented opcodes are tried but BRK, CLI and TXS. Left out or allowed for is where sim65 of cc65 2.19 does otherwise:
    ROL abs,X (3E) ends it as an illegal opcode;
    SBC in decimal mode is wrong: 80 - 00 gives 20, 00 - 99 leaves C set;
    a branch to another page is told by the page of the branch and not by that of the instruction behind it;
    N, V and Z in decimal mode, which the data sheet leaves open, are not compared.
"""
import pathlib
import random
import re
import struct
import subprocess
import sys
import tempfile

TESTS = 330
PAGE0, PAGE1 = 0xC8, 0x0110  # the operands in memory
POINTER, OTHER = 0xD0, 0xD2

SOURCE = """
        .org    $A000
start:  sei
        cld
        ldx     #$7F
        txs
        lda     #0
        ldx     #3
zero:   sta     $E0,x
        dex
        bpl     zero
        jmp     tests
sub:    rts
fold:   ldx     #6
next:   asl     $E0
        rol     $E1
        rol     $E2
        rol     $E3
        lda     $E0
        adc     #0
        eor     $C0,x
        sta     $E0
        dex
        bpl     next
        rts
tests:
{tests}
        lda     $E0
        eor     $E3
        ldx     $E1
        ldy     $E2
.ifdef SUM_A
        cmp     #SUM_A
        bne     bad
        cpx     #SUM_X
        bne     bad
        cpy     #SUM_Y
        bne     bad
        lda     #0
        jmp     $FFF9           ; sim65 ends here, with A as its status
bad:    lda     #1
        jmp     $FFF9
.else
stop:   jmp     stop
.endif
        .segment "VECTORS"
        .org    $FFFA
        .addr   start, start, start
"""
# cmp, bne, cpx, bne, cpy, bne, lda of the end in sim65
END_CYCLES = 14


def put(byte, *places):
    return [f"lda #${byte:02X}"] + [f"sta a:${place:04X}" for place in places]


def operand(r, op, x, y):
    """one of the eight modes of the accumulator's instructions, and what must be stored before"""
    indirect = PAGE1 - y
    return r.choice([
        (f"{op} #${r.randrange(256):02X}", []),
        (f"{op} ${PAGE0:02X}", []),
        (f"{op} ${(PAGE0 - x) & 255:02X},x", []),
        (f"{op} a:${PAGE0:04X}", []),
        (f"{op} a:${PAGE1 - x:04X},x", []),
        (f"{op} a:${PAGE1 - y:04X},y", []),
        (f"{op} (${(POINTER - x) & 255:02X},x)", put(PAGE1 & 255, POINTER) + put(PAGE1 >> 8, POINTER + 1)),
        (f"{op} (${OTHER:02X}),y", put(indirect & 255, OTHER) + put(indirect >> 8, OTHER + 1)),
    ])


def jump(r, n):
    kind = r.randrange(4)
    if kind == 0:
        return [f"jmp j{n}", "inx", f"j{n}:"], []
    if kind == 1:
        return ["jmp ($0120)", "inx", f"j{n}:"], [f"lda #<j{n}", "sta $0120", f"lda #>j{n}", "sta $0121"]
    if kind == 2:
        return ["jsr sub"], []
    flags = r.randrange(256) | 4
    return [f"lda #>j{n}", "pha", f"lda #<j{n}", "pha", f"lda #${flags:02X}", "pha", "rti", "inx", f"j{n}:"], []


def branch(r, n):
    op = r.choice(["bcc", "bcs", "beq", "bne", "bmi", "bpl", "bvc", "bvs"])
    if r.randrange(2):
        return [f"{op} j{n}", "iny", f"j{n}:"]
    return [f"jmp k{n}", f"l{n}: inx", f"jmp j{n}", f"k{n}: {op} l{n}", "iny", f"j{n}:"]


def instruction(r, n, x, y):
    """lines, and lines before"""
    page0x, page0y = f"${(PAGE0 - x) & 255:02X},x", f"${(PAGE0 - y) & 255:02X},y"
    page1x, page1y = f"a:${PAGE1 - x:04X},x", f"a:${PAGE1 - y:04X},y"
    plain, byte = ["$C8", "a:$0110"], f"#${r.randrange(256):02X}"
    kind = r.randrange(10)
    if kind < 4:
        line, before = operand(r, r.choice(["adc", "and", "cmp", "eor", "lda", "ora", "sbc"]), x, y)
        return [line], before
    if kind == 4:
        line, before = operand(r, "sta", x, y)
        stores = ["stx " + m for m in plain + [page0y]] + ["sty " + m for m in plain + [page0x]]
        return ([line], before) if "#" not in line and r.randrange(2) else ([r.choice(stores)], [])
    if kind == 5:
        op = r.choice(["asl", "lsr", "rol", "ror", "inc", "dec"])
        modes = plain + [page0x] + ([] if op == "rol" else [page1x]) + ([] if op in ("inc", "dec") else ["a"])
        return [f"{op} {r.choice(modes)}"], []
    if kind == 6:
        lines = ["tax", "tay", "txa", "tya", "tsx", "inx", "iny", "dex", "dey", "clc", "sec", "cld", "sed", "clv", "nop", "sei"]
        return r.choice([[line] for line in lines] + [["pha", "pla"], ["php", "plp"], ["php", "pla"], ["ora #4", "pha", "plp"]]), []
    if kind == 7:
        modes = {"cpx": [byte], "cpy": [byte], "bit": [], "ldx": [byte, page0y, page1y], "ldy": [byte, page0x, page1x]}
        op = r.choice(sorted(modes))
        return [f"{op} {r.choice(plain + modes[op])}"], []
    return (branch(r, n), []) if kind == 8 else jump(r, n)


def test(r, n):
    a, x, y, memory = (r.randrange(256) for _ in range(4))
    flags = r.randrange(256) & 0xC3 | 4 | (8 if r.random() < 0.35 else 0)
    lines, before = instruction(r, n, x, y)
    shown = 0xFF
    if flags & 8 and lines[0][:3] == "sbc":
        flags &= ~8
    if flags & 8 and lines[0][:3] == "adc":
        digits = lambda: r.randrange(10) * 16 + r.randrange(10)
        a, memory, shown = digits(), digits(), 0x3D
        lines = [re.sub(r"#\$..", f"#${digits():02X}", lines[0])]
    around = before + put(memory, PAGE0, PAGE1) + [f"lda #${flags:02X}", "pha", f"lda #${a:02X}", f"ldx #${x:02X}", f"ldy #${y:02X}", "plp"]
    after = ["php", "cld", "sta $C0", "pla", f"and #${shown:02X}", "sta $C3", "stx $C1", "sty $C2", "tsx", "stx $C4"]
    return around + lines + after + ["lda $C8", "sta $C5", "lda $0110", "sta $C6", "jsr fold"]


def assemble(folder, name, sums):
    symbols = [part for key, byte in sums.items() for part in ("-D", f"SUM_{key}=${byte:02X}")]
    subprocess.run(["ca65", "--cpu", "6502", *symbols, "-o", folder / "o", folder / "s"], check=True)
    subprocess.run(["ld65", "-C", "images/nt6861.cfg", "-o", folder / name, folder / "o"], check=True)
    return (folder / name).read_bytes()


def traced(command, image):
    """registers at the end, cycles up to it, and by how much sim65 counts its branches otherwise"""
    trace = subprocess.run([*command, "-t", image, "60000"], capture_output=True, text=True, check=True).stdout
    cycles = other = over = 0
    for line in trace.splitlines():
        m = re.fullmatch(r"\d+ (\w{4}) (\w\w) A=(\w\w) X=(\w\w) Y=(\w\w) S=\w\w P=\w\w PC=(\w{4}) over=(\w\w)", line)
        if m is None:
            sys.exit(f"sim65: the program ends early: {line}")
        at, opcode, to, now = int(m[1], 16), int(m[2], 16), int(m[6], 16), int(m[7], 16)
        if at == to:
            return {"A": int(m[3], 16), "X": int(m[4], 16), "Y": int(m[5], 16)}, cycles, other
        cycles, over = cycles + (now - over) % 32, now
        if opcode & 0x1F == 0x10 and to != at + 2:
            other += (to >> 8 != at >> 8) - (to >> 8 != at + 2 >> 8)
    sys.exit("sim65: the program has no end")


def main(programs, command):
    folder = pathlib.Path(tempfile.mkdtemp())
    total = 0
    for seed in range(programs):
        r = random.Random(seed)
        tests = "\n".join(line if line.endswith(":") else f"        {line}" if ":" not in line.split()[0] else line for n in range(TESTS) for line in test(r, n))
        (folder / "s").write_text(SOURCE.format(tests=tests))
        assemble(folder, "rom", {})
        sums, cycles, other = traced(command, folder / "rom")
        code = assemble(folder, "sim", sums)
        (folder / "bin").write_bytes(b"sim65\x02\x00\x00" + struct.pack("<HH", 0xA000, 0xA000) + code[:0x5F00])
        done = subprocess.run(["sim65", "-c", folder / "bin"], capture_output=True, text=True)
        told = re.search(r"(\d+) cycles", done.stdout + done.stderr)
        if done.returncode != 0 or told is None or int(told[1]) != cycles + other + END_CYCLES:
            sys.exit(f"sim65: program {seed} differs: status {done.returncode}, {done.stdout}{done.stderr}, here {cycles + other + END_CYCLES} cycles")
        total += cycles
    print(f"sim65 agrees: {programs} programs, {programs * TESTS} instructions from random registers, {total} cycles")


if len(sys.argv) < 2:
    sys.exit(__doc__)
main(int(sys.argv[1]), sys.argv[2:] or ["target/cargo/release/model", "firmware"])
