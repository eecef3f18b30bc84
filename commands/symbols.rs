//! Labels of an image, from ld65's label file (-Ln) or debug file (--dbgfile) or from ca65's listing, and instructions as text.

use crate::acts::REGISTERS;
use crate::opcodes::{Mode, TABLE};
use std::collections::BTreeMap;

/// Labels of the ROM by address.
#[derive(Default)]
pub struct Labels {
    names: BTreeMap<u16, String>,
}

const ROM_START: u16 = 0xA000;

/// A line `al 00A000 .name` of ld65's label file (-Ln).
fn label_line(words: &[&str]) -> Option<(u32, String)> {
    match words {
        ["al", address, name] => {
            let digits = (1..=6).contains(&address.len()) && address.bytes().all(|byte| byte.is_ascii_hexdigit());
            let name = name.strip_prefix('.').filter(|name| !name.is_empty())?;
            digits.then(|| u32::from_str_radix(address, 16).ok())?.map(|address| (address, name.to_string()))
        }
        _ => None,
    }
}

/// A line `sym id=..,name="main",..,val=0xA000,..,type=lab` of ld65's debug file (--dbgfile); None where it has no label.
fn debug_line(line: &str) -> Option<(u32, String)> {
    let fields = line.strip_prefix("sym")?.trim_start();
    let field = |name: &str| fields.split(',').find_map(|field| field.strip_prefix(name)?.strip_prefix('='));
    (field("type")? == "lab").then_some(())?;
    let name = field("name")?.trim_matches('"').to_string();
    let value = field("val")?.strip_prefix("0x")?;
    u32::from_str_radix(value, 16).ok().map(|value| (value, name))
}

/// The column of a listing at which the source begins.
const SOURCE: usize = 24;

/// A line `00A007  1  BD 9F A0     copy:   lda     edid,x` of ca65's listing: None where it is none, and no label where it has none or its
/// address is not final.
fn listing_line(line: &str) -> Option<Option<(u32, String)>> {
    if ["ca65 ", "Main file", "Current file"].iter().any(|heading| line.starts_with(heading)) {
        return Some(None);
    }
    let address = u32::from_str_radix(line.get(..6)?, 16).ok()?;
    let relocatable = match line.get(6..8)? {
        "  " => false,
        "r " => true,
        _ => return None,
    };
    line.get(8..9)?.parse::<u8>().ok()?;
    let source = line.get(SOURCE..).unwrap_or("");
    let end = source.find(|letter: char| !letter.is_ascii_alphanumeric() && letter != '_').unwrap_or(0);
    let is_label = end > 0 && !source.starts_with(|letter: char| letter.is_ascii_digit()) && source[end..].starts_with(':');
    Some((is_label && !relocatable).then(|| (address, source[..end].to_string())))
}

#[derive(Clone, Copy)]
enum Form {
    LabelFile,
    DebugFile,
    Listing,
}

impl Labels {
    /// The labels of a file, or its first malformed line, counted from 1.
    pub fn parse(text: &str) -> Result<Labels, usize> {
        let first = text.lines().next().unwrap_or("");
        let form = match () {
            _ if first.starts_with("version\t") => Form::DebugFile,
            _ if listing_line(first).is_some() => Form::Listing,
            _ => Form::LabelFile,
        };
        let mut labels = Labels::default();
        for (place, line) in text.lines().enumerate().filter(|(_, line)| !line.trim().is_empty()) {
            let found = match form {
                Form::DebugFile => debug_line(line),
                Form::Listing => listing_line(line).ok_or(place + 1)?,
                Form::LabelFile => Some(label_line(&line.split_whitespace().collect::<Vec<_>>()).ok_or(place + 1)?),
            };
            if let Some((address, name)) = found.filter(|(address, _)| (ROM_START as u32..=0xFFFF).contains(address)) {
                labels.names.entry(address as u16).or_insert(name);
            }
        }
        Ok(labels)
    }

    /// The address of a label, or of four hex digits.
    pub fn address(&self, text: &str) -> Option<u16> {
        let named = self.names.iter().find(|(_, name)| *name == text).map(|(address, _)| *address);
        let digits = text.len() == 4 && text.bytes().all(|byte| byte.is_ascii_hexdigit());
        named.or_else(|| digits.then(|| u16::from_str_radix(text, 16).ok()).flatten())
    }

    /// `main+3`, where there is a label at or before the address.
    pub fn place(&self, address: u16) -> Option<String> {
        let (at, name) = self.names.range(..=address).next_back()?;
        let offset = address - at;
        Some(if offset == 0 { name.clone() } else { format!("{name}+{offset}") })
    }

    fn operand(&self, address: u16) -> String {
        match (REGISTERS.get(address as usize), self.names.get(&address)) {
            (Some(name), _) => name.to_string(),
            (None, Some(name)) => name.clone(),
            (None, None) if address < 0x0100 => format!("{address:02X}"),
            (None, None) => format!("{address:04X}"),
        }
    }

    /// The instruction at an address: mnemonic and operand, with the names of registers and labels.
    pub fn instruction(&self, address: u16, memory: impl Fn(u16) -> Option<u8>) -> String {
        let byte = |place: u16| memory(address.wrapping_add(place)).unwrap_or(0);
        let Some(opcode) = memory(address) else {
            return "nothing is mapped".to_string();
        };
        let row = TABLE[opcode as usize];
        let name = format!("{:?}", row.op).to_uppercase();
        let short = byte(1);
        let long = u16::from_le_bytes([short, byte(2)]);
        match row.mode {
            Mode::Undocumented => format!("{opcode:02X}, no documented opcode"),
            Mode::Implied => name,
            Mode::Accumulator => format!("{name} A"),
            Mode::Immediate => format!("{name} #{short:02X}"),
            Mode::ZeroPage => format!("{name} {}", self.operand(short as u16)),
            Mode::ZeroPageX => format!("{name} {},X", self.operand(short as u16)),
            Mode::ZeroPageY => format!("{name} {},Y", self.operand(short as u16)),
            Mode::Absolute => format!("{name} {}", self.operand(long)),
            Mode::AbsoluteX => format!("{name} {},X", self.operand(long)),
            Mode::AbsoluteY => format!("{name} {},Y", self.operand(long)),
            Mode::Indirect => format!("{name} ({})", self.operand(long)),
            Mode::IndexedIndirect => format!("{name} ({},X)", self.operand(short as u16)),
            Mode::IndirectIndexed => format!("{name} ({}),Y", self.operand(short as u16)),
            Mode::Relative => format!("{name} {}", self.operand(address.wrapping_add(2).wrapping_add(short as i8 as u16))),
        }
    }
}
