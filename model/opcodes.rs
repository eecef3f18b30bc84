//! The 151 documented opcodes of the 6502, written down as its instruction table has them: by
//! mnemonic, with addressing mode, opcode and base cycles. The table of 256 entries is made of it.

use Mode::*;
use Op::*;

/// Addressing modes.
#[derive(Clone, Copy, PartialEq, Eq, Debug)]
pub enum Mode {
    Implied,
    Accumulator,
    Immediate,
    ZeroPage,
    ZeroPageX,
    ZeroPageY,
    Absolute,
    AbsoluteX,
    AbsoluteY,
    /// JMP alone.
    Indirect,
    /// (zp,X)
    IndexedIndirect,
    /// (zp),Y
    IndirectIndexed,
    Relative,
    /// Of the 105 opcodes that no table has.
    Undocumented,
}

impl Mode {
    /// Bytes of an instruction in this mode; 0 for an undocumented one, of which nothing is known.
    pub const fn length(self) -> u8 {
        match self {
            Undocumented => 0,
            Implied | Accumulator => 1,
            Absolute | AbsoluteX | AbsoluteY | Indirect => 3,
            _ => 2,
        }
    }
}

/// The 56 instructions.
#[derive(Clone, Copy, PartialEq, Eq, Debug)]
#[rustfmt::skip]
pub enum Op {
    Adc, And, Asl, Bcc, Bcs, Beq, Bit, Bmi, Bne, Bpl, Brk, Bvc, Bvs, Clc, Cld, Cli, Clv, Cmp, Cpx,
    Cpy, Dec, Dex, Dey, Eor, Inc, Inx, Iny, Jmp, Jsr, Lda, Ldx, Ldy, Lsr, Nop, Ora, Pha, Php, Pla,
    Plp, Rol, Ror, Rti, Rts, Sbc, Sec, Sed, Sei, Sta, Stx, Sty, Tax, Tay, Tsx, Txa, Txs, Tya,
    /// Of an undocumented opcode.
    Unknown,
}

/// An entry of the table of 256.
#[derive(Clone, Copy, PartialEq, Eq, Debug)]
pub struct Row {
    pub op: Op,
    pub mode: Mode,
    pub length: u8,
    pub cycles: u8,
    /// A crossed page costs a cycle: the asterisk of the instruction table.
    pub crossing: bool,
}

/// Mode, opcode, base cycles.
type Form = (Mode, u8, u8);

/// The eight forms that the accumulator's instructions have, by the opcode of (zp,X). Stores have
/// no immediate form and take the longer time of each indexed one.
const fn accumulator(first: u8, store: bool) -> [Form; 8] {
    let longer = store as u8;
    [
        (IndexedIndirect, first, 6),
        (ZeroPage, first + 0x04, 3),
        (Immediate, first + 0x08, 2),
        (Absolute, first + 0x0C, 4),
        (IndirectIndexed, first + 0x10, 5 + longer),
        (ZeroPageX, first + 0x14, 4),
        (AbsoluteY, first + 0x18, 4 + longer),
        (AbsoluteX, first + 0x1C, 4 + longer),
    ]
}

/// Those of the shifts and rotations, by the opcode of their zero page form.
const fn shift(first: u8) -> [Form; 5] {
    [
        (ZeroPage, first, 5),
        (Accumulator, first + 0x04, 2),
        (Absolute, first + 0x08, 6),
        (ZeroPageX, first + 0x10, 6),
        (AbsoluteX, first + 0x18, 7),
    ]
}

/// Those of INC and DEC.
const fn count(first: u8) -> [Form; 4] {
    [
        (ZeroPage, first, 5),
        (Absolute, first + 0x08, 6),
        (ZeroPageX, first + 0x10, 6),
        (AbsoluteX, first + 0x18, 7),
    ]
}

#[rustfmt::skip]
const INSTRUCTIONS: [(Op, &[Form]); 56] = [
    (Adc, &accumulator(0x61, false)),
    (And, &accumulator(0x21, false)),
    (Asl, &shift(0x06)),
    (Bcc, &[(Relative, 0x90, 2)]),
    (Bcs, &[(Relative, 0xB0, 2)]),
    (Beq, &[(Relative, 0xF0, 2)]),
    (Bit, &[(ZeroPage, 0x24, 3), (Absolute, 0x2C, 4)]),
    (Bmi, &[(Relative, 0x30, 2)]),
    (Bne, &[(Relative, 0xD0, 2)]),
    (Bpl, &[(Relative, 0x10, 2)]),
    (Brk, &[(Implied, 0x00, 7)]),
    (Bvc, &[(Relative, 0x50, 2)]),
    (Bvs, &[(Relative, 0x70, 2)]),
    (Clc, &[(Implied, 0x18, 2)]),
    (Cld, &[(Implied, 0xD8, 2)]),
    (Cli, &[(Implied, 0x58, 2)]),
    (Clv, &[(Implied, 0xB8, 2)]),
    (Cmp, &accumulator(0xC1, false)),
    (Cpx, &[(Immediate, 0xE0, 2), (ZeroPage, 0xE4, 3), (Absolute, 0xEC, 4)]),
    (Cpy, &[(Immediate, 0xC0, 2), (ZeroPage, 0xC4, 3), (Absolute, 0xCC, 4)]),
    (Dec, &count(0xC6)),
    (Dex, &[(Implied, 0xCA, 2)]),
    (Dey, &[(Implied, 0x88, 2)]),
    (Eor, &accumulator(0x41, false)),
    (Inc, &count(0xE6)),
    (Inx, &[(Implied, 0xE8, 2)]),
    (Iny, &[(Implied, 0xC8, 2)]),
    (Jmp, &[(Absolute, 0x4C, 3), (Indirect, 0x6C, 5)]),
    (Jsr, &[(Absolute, 0x20, 6)]),
    (Lda, &accumulator(0xA1, false)),
    (Ldx, &[(Immediate, 0xA2, 2), (ZeroPage, 0xA6, 3), (Absolute, 0xAE, 4), (ZeroPageY, 0xB6, 4), (AbsoluteY, 0xBE, 4)]),
    (Ldy, &[(Immediate, 0xA0, 2), (ZeroPage, 0xA4, 3), (Absolute, 0xAC, 4), (ZeroPageX, 0xB4, 4), (AbsoluteX, 0xBC, 4)]),
    (Lsr, &shift(0x46)),
    (Nop, &[(Implied, 0xEA, 2)]),
    (Ora, &accumulator(0x01, false)),
    (Pha, &[(Implied, 0x48, 3)]),
    (Php, &[(Implied, 0x08, 3)]),
    (Pla, &[(Implied, 0x68, 4)]),
    (Plp, &[(Implied, 0x28, 4)]),
    (Rol, &shift(0x26)),
    (Ror, &shift(0x66)),
    (Rti, &[(Implied, 0x40, 6)]),
    (Rts, &[(Implied, 0x60, 6)]),
    (Sbc, &accumulator(0xE1, false)),
    (Sec, &[(Implied, 0x38, 2)]),
    (Sed, &[(Implied, 0xF8, 2)]),
    (Sei, &[(Implied, 0x78, 2)]),
    (Sta, &accumulator(0x81, true)),
    (Stx, &[(ZeroPage, 0x86, 3), (Absolute, 0x8E, 4), (ZeroPageY, 0x96, 4)]),
    (Sty, &[(ZeroPage, 0x84, 3), (Absolute, 0x8C, 4), (ZeroPageX, 0x94, 4)]),
    (Tax, &[(Implied, 0xAA, 2)]),
    (Tay, &[(Implied, 0xA8, 2)]),
    (Tsx, &[(Implied, 0xBA, 2)]),
    (Txa, &[(Implied, 0x8A, 2)]),
    (Txs, &[(Implied, 0x9A, 2)]),
    (Tya, &[(Implied, 0x98, 2)]),
];

/// Instructions that take a byte from memory and put none there.
const fn reads(op: Op) -> bool {
    matches!(
        op,
        Adc | And | Bit | Cmp | Cpx | Cpy | Eor | Lda | Ldx | Ldy | Ora | Sbc
    )
}

pub const TABLE: [Row; 256] = table();

const fn table() -> [Row; 256] {
    let mut rows = [Row {
        op: Unknown,
        mode: Undocumented,
        length: 0,
        cycles: 0,
        crossing: false,
    }; 256];
    let mut instruction = 0;
    while instruction < INSTRUCTIONS.len() {
        let (op, forms) = INSTRUCTIONS[instruction];
        let mut form = 0;
        while form < forms.len() {
            let (mode, opcode, cycles) = forms[form];
            // No store to an immediate operand.
            if !(matches!(op, Sta) && matches!(mode, Immediate)) {
                rows[opcode as usize] = Row {
                    op,
                    mode,
                    length: mode.length(),
                    cycles,
                    crossing: reads(op) && matches!(mode, AbsoluteX | AbsoluteY | IndirectIndexed),
                };
            }
            form += 1;
        }
        instruction += 1;
    }
    rows
}
