//! The 6502 of the NT6861 with its RAM and ROM, around the independent chip (Wish 5).
//!
//! Written from the wish, its readings in docs/DECISIONS.md and the 6502's instruction table. An
//! instruction works on a copy of the registers and stores to memory last, so a refused one leaves
//! everything as it was; JSR, which reads once more after it pushed, looks beforehand whether that
//! read will be refused.

use crate::chip::{pin, Chip};
use crate::opcodes::{Mode, Op, TABLE};

/// Bits of P; 5 and 4 exist only on the stack.
pub mod p {
    pub const C: u8 = 0x01;
    pub const Z: u8 = 0x02;
    pub const I: u8 = 0x04;
    pub const D: u8 = 0x08;
    pub const B: u8 = 0x10;
    pub const UNUSED: u8 = 0x20;
    pub const V: u8 = 0x40;
    pub const N: u8 = 0x80;
    /// Those that the register has.
    pub const ALL: u8 = N | V | D | I | Z | C;
}

/// Numbers beside those of the chip.
pub mod number {
    pub const SHORT_ANSWERS: u8 = 7;
    pub const ILL_FORMED: u8 = 8;
    pub const UNDOCUMENTED: u8 = 20;
    pub const UNMAPPED: u8 = 21;
    pub const ROM_LENGTH: u8 = 22;
}

pub const RAM_SIZE: usize = 256;
pub const ROM_SIZE: usize = 24_576;
const ROM_START: u16 = 0xA000;
const RESET_VECTOR: u16 = 0xFFFC;
const INTERRUPT_VECTOR: u16 = 0xFFFE;
const INTERRUPT_CYCLES: u8 = 7;
/// CPU cycles in 8 µs.
const CLOCK_CYCLES: u8 = 32;

#[derive(Clone, Copy, PartialEq, Eq, Debug, Default)]
pub struct Cpu {
    pub a: u8,
    pub x: u8,
    pub y: u8,
    pub s: u8,
    pub p: u8,
    pub pc: u16,
    /// Cycles since the last 8 µs clock that cycles completed, 0 to 31.
    pub over: u8,
}

impl Cpu {
    /// After a reset, with what the sheet leaves open at zero and its default stack pointer.
    pub fn after_power_up(rom: &[u8; ROM_SIZE]) -> Cpu {
        Cpu {
            s: 0xFF,
            p: p::I,
            pc: vector(rom, RESET_VECTOR),
            ..Cpu::default()
        }
    }

    fn flag(&self, flag: u8) -> bool {
        self.p & flag != 0
    }

    fn put(&mut self, flag: u8, set: bool) {
        self.p = if set { self.p | flag } else { self.p & !flag };
    }

    /// N and Z of a byte, which is given back.
    fn result(&mut self, byte: u8) -> u8 {
        self.p = self.p & !(p::N | p::Z) | byte & p::N | if byte == 0 { p::Z } else { 0 };
        byte
    }

    fn compare(&mut self, register: u8, byte: u8) {
        self.put(p::C, register >= byte);
        self.result(register.wrapping_sub(byte));
    }

    /// A + byte + C. N, V and Z are those of the binary sum in decimal mode too.
    fn add(&mut self, byte: u8) {
        let carry = self.p & p::C;
        let wide = self.a as u16 + byte as u16 + carry as u16;
        let sum = self.result(wide as u8);
        self.put(p::V, (self.a ^ sum) & (byte ^ sum) & 0x80 != 0);
        if self.flag(p::D) {
            let (low, carry) = decimal_sum(self.a & 0x0F, byte & 0x0F, carry);
            let (high, carry) = decimal_sum(self.a >> 4, byte >> 4, carry);
            self.a = high << 4 | low;
            self.put(p::C, carry == 1);
        } else {
            self.a = sum;
            self.put(p::C, wide > 0xFF);
        }
    }

    /// A - byte - (1 - C). Likewise.
    fn subtract(&mut self, byte: u8) {
        let borrow = 1 - (self.p & p::C);
        let wide = self.a as i16 - byte as i16 - borrow as i16;
        let difference = self.result(wide as u8);
        self.put(p::V, (self.a ^ byte) & (self.a ^ difference) & 0x80 != 0);
        if self.flag(p::D) {
            let (low, borrow) = decimal_difference(self.a & 0x0F, byte & 0x0F, borrow);
            let (high, borrow) = decimal_difference(self.a >> 4, byte >> 4, borrow);
            self.a = high << 4 | low;
            self.put(p::C, borrow == 0);
        } else {
            self.a = difference;
            self.put(p::C, wide >= 0);
        }
    }

    /// What a shift, rotation, INC or DEC makes of a byte.
    fn modified(&mut self, op: Op, byte: u8) -> u8 {
        let carry = self.p & p::C;
        let made = match op {
            Op::Asl => byte << 1,
            Op::Rol => byte << 1 | carry,
            Op::Lsr => byte >> 1,
            Op::Ror => byte >> 1 | carry << 7,
            Op::Inc => byte.wrapping_add(1),
            _ => byte.wrapping_sub(1),
        };
        match op {
            Op::Asl | Op::Rol => self.put(p::C, byte & 0x80 != 0),
            Op::Lsr | Op::Ror => self.put(p::C, byte & 0x01 != 0),
            _ => {}
        }
        self.result(made)
    }
}

/// A digit and its carry.
fn decimal_sum(a: u8, b: u8, carry: u8) -> (u8, u8) {
    let sum = a + b + carry;
    if sum > 9 {
        ((sum + 6) & 0x0F, 1)
    } else {
        (sum, 0)
    }
}

/// A digit and its borrow.
fn decimal_difference(a: u8, b: u8, borrow: u8) -> (u8, u8) {
    let difference = a as i8 - b as i8 - borrow as i8;
    if difference < 0 {
        ((difference - 6) as u8 & 0x0F, 1)
    } else {
        (difference as u8, 0)
    }
}

fn vector(rom: &[u8; ROM_SIZE], address: u16) -> u16 {
    let place = (address - ROM_START) as usize;
    u16::from_le_bytes([rom[place], rom[place + 1]])
}

/// What a watcher of a run is told, in the order of happening. Nothing is done by default.
pub trait Watch {
    /// A listed event was given before this instruction and answered.
    fn event(&mut self, _instruction: u32, _word: u32, _answer: u32) {}
    /// An interrupt was taken before this instruction; the registers after it.
    fn interrupt(&mut self, _instruction: u32, _cpu: &Cpu) {}
    /// This instruction was carried out: its address, its opcode (none while RESET is low), the
    /// registers after it.
    fn instruction(&mut self, _instruction: u32, _pc: u16, _opcode: Option<u8>, _cpu: &Cpu) {}
    /// The CPU read a byte at an address.
    fn read(&mut self, _address: u16, _byte: u8) {}
    /// The CPU wrote a byte to an address.
    fn written(&mut self, _address: u16, _byte: u8) {}
    /// CPU cycles completed a clock of 8 µs.
    fn clock(&mut self) {}
}

/// Watches nothing.
impl Watch for () {}

/// CPU, memory and chip, between two instructions.
pub struct Machine<'a, W: Watch> {
    pub cpu: Cpu,
    pub ram: &'a mut [u8; RAM_SIZE],
    pub rom: &'a [u8; ROM_SIZE],
    pub chip: &'a mut Chip,
    /// Instructions carried out so far.
    pub counted: u32,
    /// 8 µs clocks that cycles completed.
    pub clocks: u64,
    pub watch: W,
}

/// The number of a refusal.
type Refused = u8;

/// Memory.
impl<W: Watch> Machine<'_, W> {
    fn look(&self, address: u16) -> Result<u8, Refused> {
        match address {
            0x0000..=0x0025 => self
                .chip
                .read(address as u8)
                .ok_or(crate::chip::refusal::WRITE_ONLY),
            0x0080..=0x017F => Ok(self.ram[address as usize - 0x0080]),
            0x0180..=0x01FF => Ok(self.ram[address as usize - 0x0180]),
            0xA000..=0xFFFF => Ok(self.rom[(address - ROM_START) as usize]),
            _ => Err(number::UNMAPPED),
        }
    }

    fn read(&mut self, address: u16) -> Result<u8, Refused> {
        let byte = self.look(address)?;
        self.watch.read(address, byte);
        Ok(byte)
    }

    fn write(&mut self, address: u16, byte: u8) -> Result<(), Refused> {
        match address {
            0x0000..=0x0025 => self.chip.write(address as u8, byte)?,
            0x0080..=0x017F => self.ram[address as usize - 0x0080] = byte,
            0x0180..=0x01FF => self.ram[address as usize - 0x0180] = byte,
            _ => return Err(number::UNMAPPED),
        }
        self.watch.written(address, byte);
        Ok(())
    }

    /// Low byte first; the high byte at the next address of the same page.
    fn read_pointer(&mut self, address: u16) -> Result<u16, Refused> {
        let [page, place] = address.to_be_bytes();
        let low = self.read(address)?;
        let high = self.read(u16::from_be_bytes([page, place.wrapping_add(1)]))?;
        Ok(u16::from_le_bytes([low, high]))
    }

    /// Page 1 is RAM from end to end, so that neither a push nor a pull is refused.
    fn push(&mut self, byte: u8, cpu: &mut Cpu) {
        let address = 0x0100 | cpu.s as u16;
        // 0100..017F is the upper half of RAM, 0180..01FF the lower half again.
        self.ram[(cpu.s ^ 0x80) as usize] = byte;
        self.watch.written(address, byte);
        cpu.s = cpu.s.wrapping_sub(1);
    }

    fn pull(&mut self, cpu: &mut Cpu) -> u8 {
        cpu.s = cpu.s.wrapping_add(1);
        let byte = self.ram[(cpu.s ^ 0x80) as usize];
        self.watch.read(0x0100 | cpu.s as u16, byte);
        byte
    }

    fn push_address(&mut self, address: u16, cpu: &mut Cpu) {
        let [high, low] = address.to_be_bytes();
        self.push(high, cpu);
        self.push(low, cpu);
    }

    fn pull_address(&mut self, cpu: &mut Cpu) -> u16 {
        let low = self.pull(cpu);
        let high = self.pull(cpu);
        u16::from_le_bytes([low, high])
    }

    fn read_vector(&mut self, address: u16) -> u16 {
        let to = vector(self.rom, address);
        let [low, high] = to.to_le_bytes();
        self.watch.read(address, low);
        self.watch.read(address + 1, high);
        to
    }
}

/// Events, interrupts and time.
impl<W: Watch> Machine<'_, W> {
    /// Gives a word to the chip before the next instruction. A reset of the chip resets the CPU.
    pub fn give(&mut self, word: u32) -> u32 {
        let reset_was_high = self.chip.level(pin::RESET);
        let answer = self.chip.step(word);
        let by_pin = reset_was_high && !self.chip.level(pin::RESET);
        let by_watchdog = answer >> 16 & 1 == 1;
        if by_pin || by_watchdog {
            self.cpu.p |= p::I;
            self.cpu.pc = self.read_vector(RESET_VECTOR);
        }
        self.watch.event(self.counted, word, answer);
        answer
    }

    fn pass(&mut self, cycles: u8) {
        self.cpu.over += cycles;
        if self.cpu.over >= CLOCK_CYCLES {
            self.cpu.over -= CLOCK_CYCLES;
            self.chip.sync_clock();
            self.watch.clock();
            self.clocks += 1;
        }
    }

    /// CPU cycles since the beginning, in whole clocks and those over.
    pub fn cycles(&self) -> u64 {
        self.clocks * CLOCK_CYCLES as u64 + self.cpu.over as u64
    }

    fn interrupt(&mut self) {
        let mut cpu = self.cpu;
        self.push_address(cpu.pc, &mut cpu);
        self.push(cpu.p | p::UNUSED, &mut cpu);
        cpu.p |= p::I;
        cpu.pc = self.read_vector(INTERRUPT_VECTOR);
        self.cpu = cpu;
        self.pass(INTERRUPT_CYCLES);
        self.watch.interrupt(self.counted, &self.cpu);
    }

    /// What follows the events of an instruction: an interrupt where one is due, and the
    /// instruction.
    pub fn turn(&mut self) -> Result<(), Refused> {
        let pc = self.cpu.pc;
        if !self.chip.level(pin::RESET) {
            self.watch.instruction(self.counted, pc, None, &self.cpu);
            self.counted += 1;
            return Ok(());
        }
        if self.chip.requests() != 0 && !self.cpu.flag(p::I) {
            self.interrupt();
        }
        let pc = self.cpu.pc;
        let opcode = self.instruction()?;
        self.watch
            .instruction(self.counted, pc, Some(opcode), &self.cpu);
        self.counted += 1;
        Ok(())
    }
}

/// Instructions.
impl<W: Watch> Machine<'_, W> {
    /// Carries out the instruction at PC and gives its opcode, or leaves all as it was.
    fn instruction(&mut self) -> Result<u8, Refused> {
        let at = self.cpu.pc;
        let opcode = self.read(at)?;
        let row = TABLE[opcode as usize];
        let mut cycles = row.cycles;
        let mut cpu = self.cpu;
        cpu.pc = at.wrapping_add(row.length as u16);

        // The address that the instruction works on; for a branch where it would go.
        let first = at.wrapping_add(1);
        let second = at.wrapping_add(2);
        let place = match row.mode {
            Mode::Undocumented => return Err(number::UNDOCUMENTED),
            Mode::Implied | Mode::Accumulator => 0,
            Mode::Immediate => first,
            Mode::ZeroPage => self.read(first)? as u16,
            Mode::ZeroPageX => self.read(first)?.wrapping_add(cpu.x) as u16,
            Mode::ZeroPageY => self.read(first)?.wrapping_add(cpu.y) as u16,
            Mode::Absolute if row.op == Op::Jsr => self.jsr(&mut cpu, first, second)?,
            Mode::Absolute => self.read_operand(first, second)?,
            Mode::AbsoluteX => {
                let base = self.read_operand(first, second)?;
                cycles += (row.crossing && crosses(base, cpu.x)) as u8;
                base.wrapping_add(cpu.x as u16)
            }
            Mode::AbsoluteY => {
                let base = self.read_operand(first, second)?;
                cycles += (row.crossing && crosses(base, cpu.y)) as u8;
                base.wrapping_add(cpu.y as u16)
            }
            Mode::Indirect => {
                let pointer = self.read_operand(first, second)?;
                self.read_pointer(pointer)?
            }
            Mode::IndexedIndirect => {
                let pointer = self.read(first)?.wrapping_add(cpu.x);
                self.read_pointer(pointer as u16)?
            }
            Mode::IndirectIndexed => {
                let pointer = self.read(first)?;
                let base = self.read_pointer(pointer as u16)?;
                cycles += (row.crossing && crosses(base, cpu.y)) as u8;
                base.wrapping_add(cpu.y as u16)
            }
            Mode::Relative => {
                let offset = self.read(first)? as i8;
                cpu.pc.wrapping_add(offset as u16)
            }
        };

        match row.op {
            Op::Lda => cpu.a = cpu.result(self.read(place)?),
            Op::Ldx => cpu.x = cpu.result(self.read(place)?),
            Op::Ldy => cpu.y = cpu.result(self.read(place)?),
            Op::Sta => self.write(place, cpu.a)?,
            Op::Stx => self.write(place, cpu.x)?,
            Op::Sty => self.write(place, cpu.y)?,
            Op::Adc => cpu.add(self.read(place)?),
            Op::Sbc => cpu.subtract(self.read(place)?),
            Op::And => cpu.a = cpu.result(cpu.a & self.read(place)?),
            Op::Ora => cpu.a = cpu.result(cpu.a | self.read(place)?),
            Op::Eor => cpu.a = cpu.result(cpu.a ^ self.read(place)?),
            Op::Cmp => cpu.compare(cpu.a, self.read(place)?),
            Op::Cpx => cpu.compare(cpu.x, self.read(place)?),
            Op::Cpy => cpu.compare(cpu.y, self.read(place)?),
            Op::Bit => {
                let byte = self.read(place)?;
                cpu.put(p::Z, cpu.a & byte == 0);
                cpu.put(p::N, byte & 0x80 != 0);
                cpu.put(p::V, byte & 0x40 != 0);
            }

            Op::Asl | Op::Lsr | Op::Rol | Op::Ror if row.mode == Mode::Accumulator => {
                cpu.a = cpu.modified(row.op, cpu.a);
            }
            Op::Asl | Op::Lsr | Op::Rol | Op::Ror | Op::Inc | Op::Dec => {
                let byte = self.read(place)?;
                let byte = cpu.modified(row.op, byte);
                self.write(place, byte)?;
            }
            Op::Inx => cpu.x = cpu.result(cpu.x.wrapping_add(1)),
            Op::Iny => cpu.y = cpu.result(cpu.y.wrapping_add(1)),
            Op::Dex => cpu.x = cpu.result(cpu.x.wrapping_sub(1)),
            Op::Dey => cpu.y = cpu.result(cpu.y.wrapping_sub(1)),

            Op::Tax => cpu.x = cpu.result(cpu.a),
            Op::Tay => cpu.y = cpu.result(cpu.a),
            Op::Tsx => cpu.x = cpu.result(cpu.s),
            Op::Txa => cpu.a = cpu.result(cpu.x),
            Op::Tya => cpu.a = cpu.result(cpu.y),
            Op::Txs => cpu.s = cpu.x,

            Op::Clc => cpu.put(p::C, false),
            Op::Sec => cpu.put(p::C, true),
            Op::Cli => cpu.put(p::I, false),
            Op::Sei => cpu.put(p::I, true),
            Op::Cld => cpu.put(p::D, false),
            Op::Sed => cpu.put(p::D, true),
            Op::Clv => cpu.put(p::V, false),

            Op::Bcc => branch(&mut cpu, place, p::C, false, &mut cycles),
            Op::Bcs => branch(&mut cpu, place, p::C, true, &mut cycles),
            Op::Bne => branch(&mut cpu, place, p::Z, false, &mut cycles),
            Op::Beq => branch(&mut cpu, place, p::Z, true, &mut cycles),
            Op::Bpl => branch(&mut cpu, place, p::N, false, &mut cycles),
            Op::Bmi => branch(&mut cpu, place, p::N, true, &mut cycles),
            Op::Bvc => branch(&mut cpu, place, p::V, false, &mut cycles),
            Op::Bvs => branch(&mut cpu, place, p::V, true, &mut cycles),

            Op::Jmp | Op::Jsr => cpu.pc = place,
            Op::Rts => cpu.pc = self.pull_address(&mut cpu).wrapping_add(1),
            Op::Rti => {
                cpu.p = self.pull(&mut cpu) & p::ALL;
                cpu.pc = self.pull_address(&mut cpu);
            }
            Op::Brk => {
                self.push_address(second, &mut cpu);
                self.push(cpu.p | p::UNUSED | p::B, &mut cpu);
                cpu.p |= p::I;
                cpu.pc = self.read_vector(INTERRUPT_VECTOR);
            }
            Op::Pha => self.push(cpu.a, &mut cpu),
            Op::Php => self.push(cpu.p | p::UNUSED | p::B, &mut cpu),
            Op::Pla => {
                let byte = self.pull(&mut cpu);
                cpu.a = cpu.result(byte);
            }
            Op::Plp => cpu.p = self.pull(&mut cpu) & p::ALL,
            Op::Nop | Op::Unknown => {}
        }
        self.cpu = cpu;
        self.pass(cycles);
        Ok(opcode)
    }

    fn read_operand(&mut self, first: u16, second: u16) -> Result<u16, Refused> {
        let low = self.read(first)?;
        let high = self.read(second)?;
        Ok(u16::from_le_bytes([low, high]))
    }

    /// The low byte, the two pushes, then the high byte, which may have just been pushed. What is
    /// there does not make a read be refused, so this is known before the pushes.
    fn jsr(&mut self, cpu: &mut Cpu, first: u16, second: u16) -> Result<u16, Refused> {
        let low = self.read(first)?;
        self.look(second)?;
        self.push_address(second, cpu);
        let high = self.read(second)?;
        Ok(u16::from_le_bytes([low, high]))
    }
}

/// Indexing leaves the page of the base.
fn crosses(base: u16, index: u8) -> bool {
    base.wrapping_add(index as u16) >> 8 != base >> 8
}

/// PC already points behind the branch.
fn branch(cpu: &mut Cpu, to: u16, flag: u8, set: bool, cycles: &mut u8) {
    if cpu.flag(flag) == set {
        *cycles += if to >> 8 == cpu.pc >> 8 { 1 } else { 2 };
        cpu.pc = to;
    }
}

/// A listed event: the number of the instruction that it precedes, and its word.
#[derive(Clone, Copy, PartialEq, Eq, Debug)]
pub struct Listed {
    pub number: u32,
    pub word: u32,
}

/// What a run tells beside the state.
#[derive(Clone, Copy, PartialEq, Eq, Debug, Default)]
pub struct Told {
    /// 0, or that of a refusal.
    pub number: u8,
    /// Instructions carried out.
    pub counted: u32,
    /// Events given.
    pub given: u32,
}

/// Runs so many instructions, or up to a refused one.
#[allow(clippy::too_many_arguments)]
pub fn run(
    cpu: &mut Cpu,
    ram: &mut [u8; RAM_SIZE],
    rom: &[u8],
    chip: &mut Chip,
    events: &[Listed],
    answers: &mut [u32],
    instructions: u32,
) -> Told {
    run_watched(cpu, ram, rom, chip, events, answers, instructions, ()).0
}

/// The same, with every happening told; gives the watcher back.
#[allow(clippy::too_many_arguments)]
pub fn run_watched<W: Watch>(
    cpu: &mut Cpu,
    ram: &mut [u8; RAM_SIZE],
    rom: &[u8],
    chip: &mut Chip,
    events: &[Listed],
    answers: &mut [u32],
    instructions: u32,
    watch: W,
) -> (Told, W) {
    let refused = |number| Told {
        number,
        ..Told::default()
    };
    if cpu.over >= CLOCK_CYCLES || !chip.well_formed() {
        return (refused(number::ILL_FORMED), watch);
    }
    let Ok(rom) = rom.try_into() else {
        return (refused(number::ROM_LENGTH), watch);
    };
    if answers.len() < events.len() {
        return (refused(number::SHORT_ANSWERS), watch);
    }
    cpu.p &= p::ALL;
    let mut machine = Machine {
        cpu: *cpu,
        ram,
        rom,
        chip,
        counted: 0,
        clocks: 0,
        watch,
    };
    let mut given = 0;
    let mut number = 0;
    while machine.counted < instructions {
        while given < events.len() && events[given].number <= machine.counted {
            answers[given] = machine.give(events[given].word);
            given += 1;
        }
        if let Err(refusal) = machine.turn() {
            number = refusal;
            break;
        }
    }
    *cpu = machine.cpu;
    let told = Told {
        number,
        counted: machine.counted,
        given: given as u32,
    };
    (told, machine.watch)
}
