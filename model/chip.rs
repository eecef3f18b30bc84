//! The peripherals of the NT6861 as a plain program.
//!
//! Written from document 01, the wishes of document 02 that touch the chip, and the readings in
//! docs/DECISIONS.md. It shares nothing with the proved code: no source, no tables, no layout of
//! the state. It exists to be compared with it.
//!
//! Control bits are kept as named booleans and put together only when a register is read. The pull
//! on each bus line is stored, and an edge is whatever changes the line, found by looking at the
//! line before and after.

/// Interrupt flags, as placed in IRQX, IEX and CLRFLG.
pub mod flag {
    pub const V: u8 = 0x01;
    pub const E: u8 = 0x02;
    pub const R: u8 = 0x04;
    pub const A: u8 = 0x08;
    pub const D: u8 = 0x10;
    pub const S: u8 = 0x20;
    pub const ALL: u8 = 0x3F;
}

/// Pins that do more than carry a port bit, by event number.
pub mod pin {
    pub const P16: u8 = 14;
    pub const SDA: u8 = 24;
    pub const SCL: u8 = 25;
    pub const HSYNCI: u8 = 26;
    pub const VSYNCI: u8 = 27;
    pub const RESET: u8 = 28;
}

/// Refusal numbers.
pub mod refusal {
    pub const NOT_AN_EVENT: u8 = 1;
    pub const NO_SUCH_PLACE: u8 = 2;
    pub const BAD_OPERAND: u8 = 3;
    pub const IN_RESET: u8 = 4;
    pub const WRITE_ONLY: u8 = 5;
    pub const READ_ONLY: u8 = 6;
}

#[derive(Clone, Copy, PartialEq, Eq, Debug)]
pub enum Event {
    Read {
        register: u8,
    },
    Write {
        register: u8,
        byte: u8,
    },
    Pin {
        pin: u8,
        level: bool,
    },
    /// One period of 8 µs.
    SyncClock,
    /// The base clock for this value of TBS.
    BaseClock {
        tbs: bool,
    },
    WatchdogClock,
    HPolarity(bool),
    VPolarity(bool),
}

/// Takes a word apart; refusals 1, 2 and 3 are settled here, without the chip.
pub fn decode(word: u32) -> Result<Event, u8> {
    let [kind, gap, a, b] = word.to_be_bytes();
    if gap != 0 || kind == 0 || kind > 5 {
        return Err(refusal::NOT_AN_EVENT);
    }
    let place_exists = match kind {
        1 | 2 => a <= 0x25,
        3 => a <= pin::RESET && a != 15,
        4 => a <= 3,
        _ => a <= 1,
    };
    if !place_exists {
        return Err(refusal::NO_SUCH_PLACE);
    }
    let greatest_operand = match kind {
        1 | 4 => 0,
        2 => 0xFF,
        _ => 1,
    };
    if b > greatest_operand {
        return Err(refusal::BAD_OPERAND);
    }
    Ok(match (kind, a) {
        (1, _) => Event::Read { register: a },
        (2, _) => Event::Write {
            register: a,
            byte: b,
        },
        (3, _) => Event::Pin {
            pin: a,
            level: b == 1,
        },
        (4, 0) => Event::SyncClock,
        (4, 1) => Event::BaseClock { tbs: false },
        (4, 2) => Event::BaseClock { tbs: true },
        (4, _) => Event::WatchdogClock,
        (_, 0) => Event::HPolarity(b == 1),
        (_, _) => Event::VPolarity(b == 1),
    })
}

/// A 12-bit counter with its latch and overflow bit.
#[derive(Clone, Copy, PartialEq, Eq, Debug, Default)]
pub struct Counter {
    pub count: u16,
    pub latch: u16,
    pub overflow: bool,
}

impl Counter {
    pub const TOP: u16 = 4095;

    fn step(&mut self) {
        if self.overflow {
            return;
        }
        if self.count == Self::TOP {
            self.overflow = true;
        } else {
            self.count += 1;
        }
    }

    /// End of a measured span: keep the count, begin again.
    fn take(&mut self) {
        if !self.overflow {
            self.latch = self.count;
            self.count = 0;
        }
    }

    fn clear_overflow(&mut self) {
        self.overflow = false;
        self.count = 0;
    }
}

/// Where a DDC2B transfer stands.
#[derive(Clone, Copy, PartialEq, Eq, Debug)]
pub enum Phase {
    Idle,
    /// Another slave is spoken to.
    Ignoring,
    /// A byte comes in, `bits` of it so far. With eight bits, the SDA pull tells whether the fall
    /// that begins the acknowledge has come.
    Incoming {
        address: bool,
        bits: u8,
        byte: u8,
    },
    /// A data byte is in, TXAK was 1 at its eighth fall, and SDA stays the master's until the
    /// ninth. An address is never refused so.
    NotAcknowledged,
    /// A byte goes out. `rest` has the bit now on SDA on top; after eight falls SDA is the
    /// master's, and `acked` tells that its level was taken.
    Outgoing {
        rest: u8,
        falls: u8,
        acked: bool,
    },
    /// Waiting for II DAT, SCL stretched.
    Held,
}

/// Which of the chip's two addresses a first byte was equal to, the direction left out.
#[derive(Clone, Copy, PartialEq, Eq, Debug)]
pub enum Outcome {
    None,
    A0,
    IiAdr,
    Both,
}

#[derive(Clone, Copy, PartialEq, Eq, Debug)]
pub struct Chip {
    /// Outside level of pin n in bit n.
    pub levels: u32,

    // Ports
    pub pt0: u8,
    pub pt1: u8,
    pub pt2dir: u8,
    pub pt2: u8,
    pub pt3: u8,
    pub syncon: u8,
    pub endac: u8,
    pub dach: [u8; 14],

    // MDCON
    pub insen: bool,
    pub hsel: bool,
    pub sc: bool,
    pub md: bool,

    // HVCON, without the overflow bits
    pub hpoli: bool,
    pub vpoli: bool,
    pub hpolo: bool,
    pub vpolo: bool,

    // Interrupts
    pub iex: u8,
    pub irqx: u8,

    // Base timer and watchdog
    pub bt: u8,
    pub tbs: bool,
    pub enbt: bool,
    pub watchdog: u8,

    // Sync counters
    pub hcnt: Counter,
    pub vcnt: Counter,
    pub interval: u16,

    // Bus registers
    pub iiadr: u8,
    pub iidat: u8,
    pub start: bool,
    pub stop: bool,
    pub enddc: bool,
    pub trx: bool,
    pub rxak: bool,
    pub txak: bool,

    // Bus engine
    pub phase: Phase,
    /// Of the current transfer's address; None where there is none that matched.
    pub compared: Outcome,
    pub pull_sda: bool,
    pub pull_scl: bool,
    /// 8 µs clocks since SCL was taken low, as far as 16 bits go; 0 while it is not held.
    pub held_clocks: u16,
    pub shift: u8,
    pub edges_left: u8,
    /// The whole byte that goes out, or that came in and was not acknowledged; 0 at other times.
    pub moving: u8,
}

/// What a step that was not refused gives back.
#[derive(Default)]
struct Done {
    byte: u8,
    watchdog_reset: bool,
}

fn byte_of(bits: [bool; 8]) -> u8 {
    bits.iter().fold(0, |byte, &bit| byte << 1 | bit as u8)
}

fn bit(byte: u8, place: u32) -> bool {
    byte >> place & 1 == 1
}

impl Chip {
    pub fn fresh() -> Chip {
        Chip::after_reset(u32::MAX)
    }

    fn after_reset(levels: u32) -> Chip {
        Chip {
            levels,
            pt0: 0xFF,
            pt1: 0x3F,
            pt2dir: 0xFF,
            pt2: 0xFF,
            pt3: 0x03,
            syncon: 0xFF,
            endac: 0xFF,
            dach: [0x80; 14],
            insen: false,
            hsel: true,
            sc: true,
            md: true,
            hpoli: true,
            vpoli: true,
            hpolo: true,
            vpolo: true,
            iex: 0,
            irqx: 0,
            bt: 0,
            tbs: true,
            enbt: true,
            watchdog: 0,
            hcnt: Counter::default(),
            vcnt: Counter::default(),
            interval: 0,
            iiadr: 0xFF,
            iidat: 0,
            start: false,
            stop: false,
            enddc: true,
            trx: false,
            rxak: false,
            txak: false,
            phase: Phase::Idle,
            compared: Outcome::None,
            pull_sda: false,
            pull_scl: false,
            held_clocks: 0,
            shift: 0xFF,
            edges_left: 9,
            moving: 0,
        }
    }

    fn reset(&mut self) {
        *self = Chip::after_reset(self.levels);
    }

    /// What document 01 calls well formed, with Wishes 2, 9 and 12, in this model's terms.
    pub fn well_formed(&self) -> bool {
        let counts = self.hcnt.count <= 4095
            && self.hcnt.latch <= 4095
            && self.vcnt.count <= 4095
            && self.vcnt.latch <= 4095
            && self.interval <= 1023
            && self.watchdog <= 63
            && self.edges_left <= 9;
        let reserved = self.pt1 & 0xC0 == 0
            && self.pt3 & 0xFC == 0
            && self.syncon & 0x20 == 0x20
            && self.iex & 0xC0 == 0
            && self.irqx & 0xC0 == 0
            && self.iiadr & 0x01 == 0x01;
        let mode = (self.ddc2b() || self.phase == Phase::Idle)
            && (self.ddc1() || self.edges_left == 9)
            && (self.edges_left < 9 || self.shift == 0xFF);
        let sda_as_said = match self.phase {
            Phase::Idle if self.ddc1() => self.pull_sda == (self.shift & 0x80 == 0),
            Phase::Incoming { bits: 8, .. } => true,
            Phase::Incoming { bits, byte, .. } => {
                bits < 8 && u32::from(byte) < 1 << bits && !self.pull_sda
            }
            Phase::Outgoing { rest, falls, acked } => {
                falls <= 8
                    && (falls == 8 || !acked)
                    && self.pull_sda == (falls < 8 && rest & 0x80 == 0)
            }
            _ => !self.pull_sda,
        };
        let held = self.phase == Phase::Held;
        let count = held || self.held_clocks == 0;
        let matched = match self.phase {
            Phase::Idle | Phase::Ignoring => false,
            Phase::Incoming { address, bits, .. } => !address || bits == 8,
            Phase::NotAcknowledged | Phase::Outgoing { .. } | Phase::Held => true,
        };
        let outcome = matched == (self.outcome() != Outcome::None);
        counts && reserved && mode && sda_as_said && self.pull_scl == held && count && outcome
    }

    pub fn requests(&self) -> u8 {
        self.irqx & self.iex
    }

    pub fn level(&self, pin: u8) -> bool {
        self.levels >> pin & 1 == 1
    }

    /// One word in, one answer out.
    pub fn step(&mut self, word: u32) -> u32 {
        let (number, done) = match decode(word).and_then(|event| self.apply(event)) {
            Ok(done) => (0, done),
            Err(number) => (number, Done::default()),
        };
        if !matches!(self.phase, Phase::Outgoing { .. } | Phase::NotAcknowledged) {
            self.moving = 0;
        }
        u32::from_be_bytes([
            number,
            done.watchdog_reset as u8,
            self.requests(),
            done.byte,
        ])
    }

    /// The answer to bytes that don't fill a word.
    pub fn answer_to_leftover(&self) -> u32 {
        u32::from_be_bytes([refusal::NOT_AN_EVENT, 0, self.requests(), 0])
    }

    fn apply(&mut self, event: Event) -> Result<Done, u8> {
        let running = self.level(pin::RESET);
        let mut done = Done::default();
        match event {
            Event::Read { .. } | Event::Write { .. } if !running => {
                return Err(refusal::IN_RESET);
            }
            Event::Read { register } => {
                done.byte = self.read(register).ok_or(refusal::WRITE_ONLY)?;
            }
            Event::Write { register, byte } => self.write(register, byte)?,
            Event::Pin { pin, level } => self.set_pin(pin, level),
            _ if !running => {}
            Event::SyncClock => self.sync_clock(),
            Event::BaseClock { tbs } => self.base_clock(tbs),
            Event::WatchdogClock => done.watchdog_reset = self.watchdog_clock(),
            Event::HPolarity(found) => self.hpoli = found,
            Event::VPolarity(found) => self.vpoli = found,
        }
        Ok(done)
    }
}

/// Registers.
impl Chip {
    /// None for a register that only takes writes.
    pub fn read(&self, register: u8) -> Option<u8> {
        Some(match register {
            0x00 => self.read_pt0(),
            0x01 => self.read_pt1(),
            0x03 => self.read_pt2(),
            0x04 => self.read_pt3(),
            0x05 => byte_of([false, false, false, false, false, false, self.sc, self.md]),
            0x06 => byte_of([
                self.hcnt.overflow,
                self.vcnt.overflow,
                self.level(pin::HSYNCI),
                self.level(pin::VSYNCI),
                self.hpoli,
                self.vpoli,
                false,
                false,
            ]),
            0x07 => self.hcnt.latch as u8,
            0x08 => (self.hcnt.latch >> 8) as u8,
            0x09 => self.vcnt.latch as u8,
            0x0A => (self.vcnt.latch >> 8) as u8,
            0x0D => 0xC0,
            0x0E => 0x00,
            0x10 => self.irqx,
            0x14 => self.iidat,
            0x15 => byte_of([
                false, false, self.start, self.stop, self.enddc, self.trx, self.rxak, false,
            ]),
            0x18..=0x25 => self.dach[register as usize - 0x18],
            _ => return None,
        })
    }

    /// The number of a refusal for a register that only takes reads.
    pub fn write(&mut self, register: u8, byte: u8) -> Result<(), u8> {
        match register {
            0x00 => self.pt0 = byte,
            0x01 => self.pt1 = byte & 0x3F,
            0x02 => self.pt2dir = byte,
            0x03 => self.pt2 = byte,
            0x04 => self.pt3 = byte & 0x03,
            0x05 => self.write_mdcon(byte),
            0x06 => {
                self.hpolo = bit(byte, 1);
                self.vpolo = bit(byte, 0);
            }
            0x0B => self.syncon = byte | 0x20,
            0x0C => self.endac = byte,
            0x0D => {}
            0x0F => self.iex = byte & flag::ALL,
            0x11 => self.write_clrflg(byte),
            0x12 => {
                if byte == 0x55 {
                    self.watchdog = 0;
                }
            }
            0x13 => self.iiadr = byte | 0x01,
            0x14 => self.write_iidat(byte),
            0x15 => self.write_iists(byte),
            0x16 => self.bt = byte,
            0x17 => {
                self.tbs = bit(byte, 1);
                self.enbt = bit(byte, 0);
            }
            0x18..=0x25 => self.dach[register as usize - 0x18] = byte,
            _ => return Err(refusal::READ_ONLY),
        }
        Ok(())
    }

    fn write_mdcon(&mut self, byte: u8) {
        self.insen = bit(byte, 3);
        self.sc = bit(byte, 1);

        let hsel = bit(byte, 2);
        if self.hsel && !hsel {
            self.hcnt.count = 0;
            self.interval = 0;
        }
        self.hsel = hsel;

        let md = bit(byte, 0);
        if md != self.md {
            self.md = md;
            if self.ddc_on() {
                self.restart_bus();
            }
        }
    }

    fn write_clrflg(&mut self, byte: u8) {
        self.irqx &= !byte;
        if bit(byte, 7) {
            self.hcnt.clear_overflow();
        }
        if bit(byte, 6) {
            self.vcnt.clear_overflow();
        }
    }

    fn write_iists(&mut self, byte: u8) {
        self.start &= bit(byte, 5);
        self.stop &= bit(byte, 4);
        self.trx = bit(byte, 2);
        self.txak = bit(byte, 0);
        let enddc = bit(byte, 3);
        if enddc != self.enddc {
            self.enddc = enddc;
            self.restart_bus();
        }
    }
}

/// Ports. A pin given away to another part reads as its latch.
impl Chip {
    fn read_pt0(&self) -> u8 {
        let env = bit(self.syncon, 0);
        let enh = bit(self.syncon, 1);
        let given_away = !self.endac & 0x3F | (!env as u8) << 6 | (!enh as u8) << 7;
        self.pt0 & (self.levels as u8 | given_away)
    }

    fn read_pt1(&self) -> u8 {
        let enad1 = bit(self.endac, 7);
        let enad0 = bit(self.endac, 6);
        let enhalf = bit(self.syncon, 6);
        let given_away = byte_of([false, false, false, false, !enhalf, !enhalf, !enad1, !enad0]);
        let levels = (self.levels >> 8) as u8;
        self.pt1 & (levels | given_away) & 0x3F | levels & 0x40
    }

    fn read_pt2(&self) -> u8 {
        let levels = (self.levels >> 16) as u8;
        self.pt2 & self.pt2dir | levels & !self.pt2dir
    }

    fn read_pt3(&self) -> u8 {
        if self.ddc_on() {
            self.pt3
        } else {
            self.pt3 & (self.levels >> 24) as u8
        }
    }
}

/// Clocks and pins.
impl Chip {
    pub fn sync_clock(&mut self) {
        if self.phase == Phase::Held {
            self.held_clocks = self.held_clocks.saturating_add(1);
        }
        self.vcnt.step();
        if !self.hsel {
            self.interval += 1;
            if self.interval == 1024 {
                self.interval = 0;
                self.hcnt.take();
            }
        }
    }

    fn base_clock(&mut self, tbs: bool) {
        if self.enbt || tbs != self.tbs {
            return;
        }
        self.bt = self.bt.wrapping_add(1);
        if self.bt == 0 {
            self.irqx |= flag::R;
        }
    }

    /// True when this clock resets the chip.
    fn watchdog_clock(&mut self) -> bool {
        self.watchdog += 1;
        let due = self.watchdog == 64;
        if due {
            self.reset();
        }
        due
    }

    fn set_pin(&mut self, which: u8, level: bool) {
        if self.level(which) == level {
            return;
        }
        let scl_before = self.scl();
        let sda_before = self.sda();
        self.levels ^= 1 << which;

        if which == pin::RESET && !level {
            self.reset();
        }
        // The return of RESET is no cause for anything, nor is a pin moved in reset.
        if which == pin::RESET || !self.level(pin::RESET) {
            return;
        }
        match which {
            pin::P16 if level => self.irqx |= flag::E,
            pin::HSYNCI if level => self.hcnt.step(),
            pin::VSYNCI if level => self.vsync_rise(),
            pin::SCL if self.ddc_on() => match (scl_before, self.scl()) {
                (true, false) => self.scl_fall(),
                (false, true) => self.scl_rise(),
                _ => {}
            },
            pin::SDA if self.ddc2b() && self.scl() => match (sda_before, self.sda()) {
                (true, false) => self.start_seen(),
                (false, true) => self.stop_seen(),
                _ => {}
            },
            _ => {}
        }
    }

    fn vsync_rise(&mut self) {
        self.irqx |= flag::V;
        self.vcnt.take();
        if self.hsel {
            self.hcnt.take();
        }
        if self.ddc1() {
            self.ddc1_clock();
        }
    }
}

/// The bus.
impl Chip {
    pub fn ddc_on(&self) -> bool {
        !self.enddc
    }

    pub fn ddc1(&self) -> bool {
        self.ddc_on() && self.md
    }

    pub fn ddc2b(&self) -> bool {
        self.ddc_on() && !self.md
    }

    /// The SCL wire.
    pub fn scl(&self) -> bool {
        self.level(pin::SCL) && !self.pull_scl
    }

    /// The SDA wire.
    pub fn sda(&self) -> bool {
        self.level(pin::SDA) && !self.pull_sda
    }

    /// Both lines as they are reported: SDA and SCL in bits 0 and 1, and that the chip pulls them in bits 2 and 3. With DDC off
    /// the pins are P30 and P31, and a 0 in the latch pulls.
    pub fn lines(&self) -> u32 {
        let (sda, scl) = if self.ddc_on() {
            (self.pull_sda, self.pull_scl)
        } else {
            (!bit(self.pt3, 0), !bit(self.pt3, 1))
        };
        let levels = [self.level(pin::SDA) && !sda, self.level(pin::SCL) && !scl, sda, scl];
        levels.iter().rev().fold(0, |word, &level| word << 1 | level as u32)
    }

    /// For how many 8 µs clocks SCL has been held; None while it is not.
    pub fn hold(&self) -> Option<u16> {
        (self.phase == Phase::Held).then_some(self.held_clocks)
    }

    /// What the address of the current transfer was compared equal to.
    pub fn outcome(&self) -> Outcome {
        self.compared
    }

    /// A change of mode; the wires may move with it, and that is no edge.
    fn restart_bus(&mut self) {
        self.pull_sda = false;
        self.pull_scl = false;
        self.held_clocks = 0;
        self.phase = Phase::Idle;
        self.compared = Outcome::None;
        self.shift = 0xFF;
        self.edges_left = 9;
    }

    fn ddc1_clock(&mut self) {
        if self.edges_left > 0 {
            self.edges_left -= 1;
            self.shift = self.shift << 1 | 1;
        } else {
            self.shift = self.iidat;
            self.irqx |= flag::D;
            self.edges_left = 8;
        }
        self.pull_sda = !bit(self.shift, 7);
    }

    fn start_seen(&mut self) {
        self.start = true;
        self.compared = Outcome::None;
        self.pull_sda = false;
        self.phase = Phase::Incoming {
            address: true,
            bits: 0,
            byte: 0,
        };
    }

    fn stop_seen(&mut self) {
        self.stop = true;
        self.compared = Outcome::None;
        self.pull_sda = false;
        self.phase = Phase::Idle;
    }

    fn compare(&self, byte: u8) -> Outcome {
        match (byte >> 1 == 0xA0 >> 1, byte >> 1 == self.iiadr >> 1) {
            (false, false) => Outcome::None,
            (true, false) => Outcome::A0,
            (false, true) => Outcome::IiAdr,
            (true, true) => Outcome::Both,
        }
    }

    fn scl_rise(&mut self) {
        let sda = self.sda();
        match &mut self.phase {
            Phase::Incoming {
                address,
                bits,
                byte,
            } if *bits < 8 => {
                *byte = *byte << 1 | sda as u8;
                *bits += 1;
                if *bits == 8 {
                    let (address, byte) = (*address, *byte);
                    self.byte_in(address, byte);
                }
            }
            Phase::Outgoing {
                falls: 8, acked, ..
            } if !*acked => {
                *acked = true;
                self.rxak = sda;
            }
            _ => {}
        }
    }

    fn byte_in(&mut self, address: bool, byte: u8) {
        self.iidat = byte;
        if address {
            self.compared = self.compare(byte);
            if self.compared == Outcome::None {
                self.phase = Phase::Ignoring;
            } else {
                self.irqx |= flag::A;
            }
        }
    }

    fn scl_fall(&mut self) {
        self.irqx |= flag::S;
        if self.md {
            self.md = false;
            self.restart_bus();
            return;
        }
        match &mut self.phase {
            Phase::Incoming { bits: 8, .. } if self.pull_sda => self.take_scl(),
            Phase::Incoming {
                bits: 8,
                address: false,
                byte,
            } if self.txak => {
                self.moving = *byte;
                self.phase = Phase::NotAcknowledged;
            }
            Phase::Incoming { bits: 8, .. } => self.pull_sda = true,
            Phase::NotAcknowledged => self.take_scl(),
            Phase::Outgoing { acked: true, .. } => self.take_scl(),
            Phase::Outgoing { rest, falls, .. } if *falls < 8 => {
                *rest <<= 1;
                *falls += 1;
                self.pull_sda = *falls < 8 && !bit(*rest, 7);
            }
            _ => {}
        }
    }

    /// The ninth fall of a byte.
    fn take_scl(&mut self) {
        self.irqx |= flag::D;
        self.pull_sda = false;
        self.pull_scl = true;
        self.held_clocks = 0;
        self.phase = Phase::Held;
    }

    fn write_iidat(&mut self, byte: u8) {
        self.iidat = byte;
        if self.phase != Phase::Held {
            return;
        }
        // SDA first, while SCL is still low; then SCL.
        if self.trx {
            self.moving = byte;
            self.phase = Phase::Outgoing {
                rest: byte,
                falls: 0,
                acked: false,
            };
            self.pull_sda = !bit(byte, 7);
        } else {
            self.phase = Phase::Incoming {
                address: false,
                bits: 0,
                byte: 0,
            };
        }
        self.pull_scl = false;
        self.held_clocks = 0;
        if self.scl() {
            self.scl_rise();
        }
    }
}
