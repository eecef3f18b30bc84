//! The acts of a host beside the firmware, as a text that people write: one act a line, `#` begins a comment.
//!
//! ```text
//! at 2ms                    nothing more until this time since power up
//! wait 5us                  nothing for so long
//! scl 100kHz                the rate of SCL from here on, at first 100kHz
//! timeout 20ms              for how long the host waits while SCL is held before it gives up, at first 20ms
//! START                     a START; `repeated START` within a transfer
//! write A0 10 20            bytes that must be acknowledged
//! write 42 10 nack          bytes of which none may be acknowledged; `any`: whatever comes
//! read A1 16                an address that must be acknowledged, then 16 bytes; all but the last are acknowledged
//! STOP
//! expect 4E 54              the next bytes of what was read or shown last, or sent by DDC1
//! hsync 31.5kHz             pulses at HSYNCI from here on; `hsync off`
//! vsync 60Hz                pulses at VSYNCI from here on; `vsync off`
//! vsync 25kHz 1161          so many pulses, SDA read after each rise: what DDC1 sends
//! pin P16 0                 an outside level at a pin
//! reset                     RESET low for 10us
//! watchdog 7.8125ms         the watchdog's clock from here on, at first 128Hz; `watchdog off`
//! base off                  the base timer's clocks do not come from here on; `base on`, as at first
//! show DACH0                a read of this register beside the run
//! ```
//!
//! A time has a unit, s, ms, us or ns; a rate is in Hz, kHz or MHz, or a period. Bytes are two hex digits.

/// Picoseconds.
pub type Time = u64;

pub const US: Time = 1_000_000;
/// The longest time that an act may name: 1,000 s.
pub const LONGEST: Time = 1_000_000_000_000_000;
/// Bytes that one act may read, and pulses that one may give.
pub const MOST: u64 = 1_000_000;

#[derive(Clone, Copy, PartialEq, Eq, Debug)]
pub enum Acknowledge {
    All,
    None,
    Any,
}

#[derive(Clone, PartialEq, Eq, Debug)]
pub enum Act {
    At(Time),
    Wait(Time),
    /// The period.
    Scl(Time),
    Timeout(Time),
    Start,
    RepeatedStart,
    Write(Vec<u8>, Acknowledge),
    Read(u8, u64),
    Stop,
    Expect(Vec<u8>),
    Hsync(Option<Time>),
    Vsync(Option<Time>),
    Pulses(Time, u64),
    Pin(u8, bool),
    Reset,
    Watchdog(Option<Time>),
    Base(bool),
    Show(u8),
}

/// An act with its line, counted from 1, and its words.
#[derive(Clone, PartialEq, Eq, Debug)]
pub struct Line {
    pub number: usize,
    pub text: String,
    pub act: Act,
}

/// Registers by address.
pub const REGISTERS: [&str; 38] = [
    "PT0", "PT1", "PT2DIR", "PT2", "PT3", "MDCON", "HVCON", "HCNTL", "HCNTH", "VCNTL", "VCNTH", "SYNCON", "ENDAC", "AD0", "AD1",
    "IEX", "IRQX", "CLRFLG", "CLRWDT", "IIADR", "IIDAT", "IISTS", "BT", "BTCON", "DACH0", "DACH1", "DACH2", "DACH3", "DACH4",
    "DACH5", "DACH6", "DACH7", "DACH8", "DACH9", "DACH10", "DACH11", "DACH12", "DACH13",
];

pub const SDA: u8 = 24;
pub const SCL: u8 = 25;
pub const HSYNCI: u8 = 26;
pub const VSYNCI: u8 = 27;
pub const RESET: u8 = 28;

/// P00 to P07, P10 to P16, P20 to P27, and the named ones.
fn pin(name: &str) -> Option<u8> {
    match name {
        "SDA" => Some(SDA),
        "SCL" => Some(SCL),
        "HSYNCI" => Some(HSYNCI),
        "VSYNCI" => Some(VSYNCI),
        "RESET" => Some(RESET),
        _ => match name.as_bytes() {
            [b'P', port @ b'0'..=b'2', place @ b'0'..=b'7'] if name != "P17" => Some((port - b'0') * 8 + place - b'0'),
            _ => None,
        },
    }
}

/// An event word as text: `SCL 1`, `read PT0`.
pub fn event_text(word: u32) -> String {
    let [kind, _, place, byte] = word.to_be_bytes();
    let register = || REGISTERS.get(place as usize).copied().unwrap_or("");
    match (kind, place) {
        (1, _) => format!("read {}", register()),
        (3, 24..=28) => format!("{} {byte}", ["SDA", "SCL", "HSYNCI", "VSYNCI", "RESET"][place as usize - 24]),
        (3, _) => format!("P{}{} {byte}", place / 8, place % 8),
        (4, 0) => "clock of 8 us".to_string(),
        (4, 3) => "clock of the watchdog".to_string(),
        (4, _) => "clock of the base timer".to_string(),
        _ => format!("{word:08X}"),
    }
}

/// A number with at most one point, in parts of which `scale` make one; None where it has more digits than that, or is too great.
fn scaled(digits: &str, scale: u64) -> Option<u64> {
    let (whole, part) = digits.split_once('.').unwrap_or((digits, ""));
    if whole.is_empty() || digits.ends_with('.') || whole.len() > 12 || part.len() > 12 {
        return None;
    }
    let mut value: u128 = 0;
    for byte in whole.bytes().chain(part.bytes()) {
        value = value * 10 + (byte as char).to_digit(10)? as u128;
    }
    let value = value * scale as u128;
    let down = 10u128.pow(part.len() as u32);
    (value % down == 0).then_some(value / down).and_then(|value| u64::try_from(value).ok())
}

/// The number and its unit.
fn parted(text: &str) -> (&str, &str) {
    let end = text.find(|letter: char| !letter.is_ascii_digit() && letter != '.').unwrap_or(text.len());
    text.split_at(end)
}

pub fn time(text: &str) -> Option<Time> {
    let (digits, unit) = parted(text);
    let scale = match unit {
        "s" => 1_000_000_000_000,
        "ms" => 1_000_000_000,
        "us" | "µs" => US,
        "ns" => 1_000,
        _ => return None,
    };
    scaled(digits, scale).filter(|&time| time <= LONGEST)
}

/// The period of a rate, to the nearest picosecond; or a time that is the period.
fn period(text: &str) -> Option<Time> {
    let (digits, unit) = parted(text);
    let millihertz = match unit {
        "Hz" => scaled(digits, 1_000)?,
        "kHz" => scaled(digits, 1_000_000)?,
        "MHz" => scaled(digits, 1_000_000_000)?,
        _ => return time(text).filter(|&time| time >= US / 2),
    };
    let picoseconds = 1_000_000_000_000_000u64;
    (millihertz > 0)
        .then(|| (picoseconds + millihertz / 2) / millihertz)
        .filter(|period| (US / 2..=LONGEST).contains(period))
}

fn byte(text: &str) -> Option<u8> {
    match text.as_bytes() {
        [a, b] if a.is_ascii_hexdigit() && b.is_ascii_hexdigit() => u8::from_str_radix(text, 16).ok(),
        _ => None,
    }
}

fn count(text: &str) -> Result<u64, String> {
    let digits = !text.is_empty() && text.len() <= 7 && text.bytes().all(|byte| byte.is_ascii_digit());
    let number = if digits { text.parse().unwrap_or(0) } else { 0 };
    (1..=MOST).contains(&number).then_some(number).ok_or(format!("{text}: not a count from 1 to {MOST}"))
}

fn bytes(texts: &[&str]) -> Result<Vec<u8>, String> {
    if texts.is_empty() {
        return Err("no byte".to_string());
    }
    texts.iter().map(|text| byte(text).ok_or(format!("{text}: not a byte of two hex digits"))).collect()
}

fn a_time(text: &str) -> Result<Time, String> {
    time(text).ok_or(format!("{text}: not a time, as 5us or 2.5ms, up to 1000s"))
}

fn a_rate(text: &str) -> Result<Time, String> {
    period(text).ok_or(format!("{text}: not a rate, as 31.5kHz, up to 2MHz"))
}

fn level(text: &str) -> Result<bool, String> {
    match text {
        "0" => Ok(false),
        "1" => Ok(true),
        _ => Err(format!("{text}: not a level, 0 or 1")),
    }
}

fn register(text: &str) -> Result<u8, String> {
    let named = REGISTERS.iter().position(|name| *name == text).map(|place| place as u8);
    named.ok_or(format!("{text}: no register"))
}

fn written(words: &[&str]) -> Result<Act, String> {
    let (texts, acknowledge) = match words.split_last() {
        Some((&"nack", texts)) => (texts, Acknowledge::None),
        Some((&"any", texts)) => (texts, Acknowledge::Any),
        _ => (words, Acknowledge::All),
    };
    Ok(Act::Write(bytes(texts)?, acknowledge))
}

fn act(words: &[&str]) -> Result<Act, String> {
    Ok(match *words {
        ["at", text] => Act::At(a_time(text)?),
        ["wait", text] => Act::Wait(a_time(text)?),
        ["scl", text] => Act::Scl(a_rate(text)?),
        ["timeout", text] => Act::Timeout(a_time(text)?),
        ["START"] => Act::Start,
        ["repeated", "START"] => Act::RepeatedStart,
        ["STOP"] => Act::Stop,
        ["write", ref texts @ ..] => written(texts)?,
        ["read", address, number] => Act::Read(bytes(&[address])?[0], count(number)?),
        ["expect", ref texts @ ..] => Act::Expect(bytes(texts)?),
        ["hsync", "off"] => Act::Hsync(None),
        ["hsync", text] => Act::Hsync(Some(a_rate(text)?)),
        ["vsync", "off"] => Act::Vsync(None),
        ["vsync", text] => Act::Vsync(Some(a_rate(text)?)),
        ["vsync", text, number] => Act::Pulses(a_rate(text)?, count(number)?),
        ["pin", name, text] => Act::Pin(pin(name).ok_or(format!("{name}: no pin"))?, level(text)?),
        ["reset"] => Act::Reset,
        ["watchdog", "off"] => Act::Watchdog(None),
        ["watchdog", text] => Act::Watchdog(Some(a_rate(text)?)),
        ["base", "on"] => Act::Base(true),
        ["base", "off"] => Act::Base(false),
        ["show", name] => Act::Show(register(name)?),
        _ => return Err("no such act".to_string()),
    })
}

/// What a transfer is at when an act comes, for acts that stand in the wrong place.
fn in_place(act: &Act, transfer: bool) -> Result<bool, String> {
    match (act, transfer) {
        (Act::Start, true) => Err("within a transfer a START is a `repeated START`".to_string()),
        (Act::RepeatedStart | Act::Stop | Act::Write(..) | Act::Read(..), false) => Err("no transfer has begun".to_string()),
        (Act::Start, false) => Ok(true),
        (Act::Stop, true) => Ok(false),
        (_, transfer) => Ok(transfer),
    }
}

/// The acts of a text, or its first malformed line, counted from 1, and what is wrong with it.
pub fn acts(text: &str) -> Result<Vec<Line>, (usize, String)> {
    let mut lines = Vec::new();
    let mut transfer = false;
    for (place, line) in text.split('\n').enumerate() {
        let code = line.split('#').next().unwrap_or("").trim();
        if code.is_empty() {
            continue;
        }
        let words: Vec<&str> = code.split_whitespace().collect();
        let told = |why: String| (place + 1, format!("{code}: {why}"));
        let act = act(&words).map_err(told)?;
        transfer = in_place(&act, transfer).map_err(told)?;
        lines.push(Line { number: place + 1, text: words.join(" "), act });
    }
    Ok(lines)
}
