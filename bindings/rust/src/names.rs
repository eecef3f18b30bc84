//! Names of registers, pins, clocks and requests, event words, and the numbers of refusals.

use core::fmt;

/// Major, minor and patch, each in a byte, as NT6861_VERSION of include/nt6861.h.
pub const VERSION: u32 = 0x01_00_00;

macro_rules! names {
    ($(#[$doc:meta])* $module:ident: $($name:ident = $number:expr),* $(,)?) => {
        $(#[$doc])*
        #[allow(missing_docs)]
        pub mod $module {
            $(pub const $name: u8 = $number;)*
            /// Every name with its number.
            pub const ALL: &[(&str, u8)] = &[$((stringify!($name), $name)),*];
        }
    };
}

names! {
    /// Registers by address.
    register: PT0 = 0x00, PT1 = 0x01, PT2DIR = 0x02, PT2 = 0x03, PT3 = 0x04, MDCON = 0x05, HVCON = 0x06, HCNTL = 0x07, HCNTH = 0x08,
    VCNTL = 0x09, VCNTH = 0x0a, SYNCON = 0x0b, ENDAC = 0x0c, AD0 = 0x0d, AD1 = 0x0e, IEX = 0x0f, IRQX = 0x10, CLRFLG = 0x11,
    CLRWDT = 0x12, IIADR = 0x13, IIDAT = 0x14, IISTS = 0x15, BT = 0x16, BTCON = 0x17, DACH0 = 0x18, DACH1 = 0x19, DACH2 = 0x1a,
    DACH3 = 0x1b, DACH4 = 0x1c, DACH5 = 0x1d, DACH6 = 0x1e, DACH7 = 0x1f, DACH8 = 0x20, DACH9 = 0x21, DACH10 = 0x22,
    DACH11 = 0x23, DACH12 = 0x24, DACH13 = 0x25,
}

names! {
    /// Pins; P30 is SDA, P31 is SCL.
    pin: P00 = 0, P01 = 1, P02 = 2, P03 = 3, P04 = 4, P05 = 5, P06 = 6, P07 = 7, P10 = 8, P11 = 9, P12 = 10, P13 = 11, P14 = 12, P15 = 13,
    P16 = 14, P20 = 16, P21 = 17, P22 = 18, P23 = 19, P24 = 20, P25 = 21, P26 = 22, P27 = 23, SDA = 24, SCL = 25, HSYNCI = 26,
    VSYNCI = 27, RESET = 28,
}

names! {
    /// Clocks: of 8 µs, the base timer's two, the watchdog's.
    clock: PERIOD = 0, BASE0 = 1, BASE1 = 2, WATCHDOG = 3,
}

names! {
    /// Requests, flags of IRQX and enables of IEX: a bit for each source.
    requests: V = 0x01, E = 0x02, R = 0x04, A = 0x08, D = 0x10, S = 0x20,
}

/// Event words.
pub mod word {
    const fn of(kind: u32, a: u8, b: u8) -> u32 {
        kind << 24 | (a as u32) << 8 | b as u32
    }
    /// A read of a register.
    pub const fn read(register: u8) -> u32 {
        of(1, register, 0)
    }
    /// A write to a register.
    pub const fn write(register: u8, byte: u8) -> u32 {
        of(2, register, byte)
    }
    /// A level at a pin.
    pub const fn pin(pin: u8, level: u8) -> u32 {
        of(3, pin, level)
    }
    /// A clock.
    pub const fn clock(clock: u8) -> u32 {
        of(4, clock, 0)
    }
    /// A polarity found on H (0) or V (1).
    pub const fn polarity(sync: u8, level: u8) -> u32 {
        of(5, sync, level)
    }
}

/// A call was refused, for the reason that its number stands for.
///
/// ```
/// let refusal = nt6861::Chip::new().read(nt6861::register::CLRFLG).unwrap_err();
/// assert_eq!((refusal.number(), refusal.meaning()), (5, "a read of a write-only register"));
/// ```
#[derive(Clone, Copy, Debug, PartialEq, Eq, Hash)]
pub struct Refusal(u8);

impl Refusal {
    /// Nothing for 0.
    pub(crate) fn of(number: u8) -> Result<(), Refusal> {
        if number == 0 {
            Ok(())
        } else {
            Err(Refusal(number))
        }
    }

    /// Its number, of docs/NUMBERS.md.
    pub fn number(self) -> u8 {
        self.0
    }

    /// Its meaning.
    pub fn meaning(self) -> &'static str {
        match self.0 {
            1 => "no event: kind not 1 to 5, or a bit of the zero field",
            2 => "no register, pin, clock or polarity has that number",
            3 => "a byte or level that this place does not take",
            4 => "a read or write while RESET is low",
            5 => "a read of a write-only register",
            6 => "a write to a read-only register",
            7 => "fewer places than answers",
            8 => "the state is ill formed",
            10 => "a block of fewer than 512 bytes",
            11 => "the sum of a block is wrong",
            12 => "not the block that is due",
            13 => "a word count above 126",
            14 => "an unused word is not zero",
            15 => "an area of another length",
            16 => "more than 126 words for a block",
            17 => "a block's area that is not of 512 bytes",
            20 => "an opcode that is not documented",
            21 => "an access where nothing is mapped, or a write to ROM",
            22 => "the image has another length than 24,576 bytes",
            23 => "a chip that is neither the NT6861 nor the NT6862",
            30 => "EDID: not 128 bytes",
            31 => "EDID: the header",
            32 => "EDID: neither version 1.3 nor 1.4",
            33 => "EDID: the sum",
            34 => "EDID 1.3: bits 6 to 1 of a digital byte 20",
            35 => "EDID 1.4: the reserved depth",
            36 => "EDID 1.4: an undefined interface",
            40 => "what a value change dump does not have",
            41 => "time goes back",
            42 => "a 33rd variable",
            43 => "no room for the next word",
            44 => "a time above 64 bits in ps",
            _ => "a number without a meaning",
        }
    }
}

impl fmt::Display for Refusal {
    fn fmt(&self, f: &mut fmt::Formatter<'_>) -> fmt::Result {
        write!(f, "{}: {}", self.0, self.meaning())
    }
}

impl core::error::Error for Refusal {}
