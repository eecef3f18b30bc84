//! A replay as a value change dump, by a plain writer: the independent model steps, and what differs is printed.

use crate::chip::{pin, Chip};
use crate::core6502::{Cpu, Listed, Machine, Watch, RAM_SIZE, ROM_SIZE};
use crate::state;
use std::io::{self, Write};

/// Name, code and width, in the order of the dump's header; the first four are pins.
pub const VARIABLES: [(&str, char, usize); 20] = [
    ("SDA", 'a', 1),
    ("SCL", 'b', 1),
    ("HSYNCI", 'c', 1),
    ("VSYNCI", 'd', 1),
    ("RESET", 'A', 1),
    ("P16", 'B', 1),
    ("SCL_line", 'C', 1),
    ("SDA_line", 'D', 1),
    ("REQ_V", 'E', 1),
    ("REQ_E", 'F', 1),
    ("REQ_R", 'G', 1),
    ("REQ_A", 'H', 1),
    ("REQ_D", 'I', 1),
    ("REQ_S", 'J', 1),
    ("IRQX", 'K', 8),
    ("II_STS", 'L', 8),
    ("II_DAT", 'M', 8),
    ("HCNT", 'N', 12),
    ("VCNT", 'O', 12),
    ("PHASE", 'P', 3),
];

const PINS: usize = 4;
const CLOCK: u32 = 0x0400_0000;

/// What the variables show of a chip.
fn shown(chip: &Chip) -> [u16; 20] {
    let stored = state::write(chip);
    let request = |k: u8| (chip.requests() >> k & 1) as u16;
    let status = [chip.start, chip.stop, chip.enddc, chip.trx, chip.rxak, chip.txak];
    let status = status.iter().fold(0, |byte, &bit| byte << 1 | bit as u16);
    [
        chip.level(pin::SDA) as u16,
        chip.level(pin::SCL) as u16,
        chip.level(pin::HSYNCI) as u16,
        chip.level(pin::VSYNCI) as u16,
        chip.level(pin::RESET) as u16,
        chip.level(pin::P16) as u16,
        chip.scl() as u16,
        chip.sda() as u16,
        request(0),
        request(1),
        request(2),
        request(3),
        request(4),
        request(5),
        chip.irqx as u16,
        status,
        chip.iidat as u16,
        chip.hcnt.latch,
        chip.vcnt.latch,
        stored[22] as u16,
    ]
}

/// The pin that a word gives a level, as the index of its variable, and the level.
fn given(word: u32) -> Option<(usize, u32)> {
    let (kind, a, b) = (word >> 24, word >> 8 & 0xFFFF, word & 0xFF);
    (kind == 3 && (24..28).contains(&a) && b < 2).then(|| (a as usize - 24, b))
}

fn change(out: &mut impl Write, value: u16, variable: usize) -> io::Result<()> {
    let (_, code, width) = VARIABLES[variable];
    if width == 1 {
        writeln!(out, "{value}{code}")
    } else {
        writeln!(out, "b{value:0width$b} {code}")
    }
}

/// The dump of a replay from a chip.
pub fn dump(chip: &mut Chip, words: impl Iterator<Item = u32>, out: &mut impl Write) -> io::Result<()> {
    writeln!(out, "$timescale 1 ns $end\n$scope module NT6861 $end")?;
    for (name, code, width) in VARIABLES {
        writeln!(out, "$var wire {width} {code} {name} $end")?;
    }
    writeln!(out, "$upscope $end\n$enddefinitions $end\n#0")?;
    let mut told = shown(chip);
    for (variable, value) in told.iter().enumerate() {
        if variable < PINS {
            writeln!(out, "b{value} {}", VARIABLES[variable].1)?;
        } else {
            change(out, *value, variable)?;
        }
    }
    let (mut clocks, mut since) = (0u64, 0u64);
    for word in words {
        chip.step(word);
        (clocks, since) = if word == CLOCK { (clocks + 1, 0) } else { (clocks, (since + 1).min(7999)) };
        let now = shown(chip);
        let pin = given(word);
        if pin.is_some() || told[PINS..] != now[PINS..] {
            writeln!(out, "#{}", clocks * 8000 + since)?;
            if let Some((variable, level)) = pin {
                change(out, level as u16, variable)?;
            }
            for variable in PINS..VARIABLES.len() {
                if told[variable] != now[variable] {
                    change(out, now[variable], variable)?;
                }
            }
            told = now;
        }
    }
    writeln!(out, "#{}", clocks * 8000 + since)
}

/// The words of a list that a dump gives back: the 8 µs clocks and the levels of the four pins.
pub fn kept(words: impl Iterator<Item = u32>) -> impl Iterator<Item = u32> {
    words.filter(|&word| word == CLOCK || given(word).is_some())
}

/// The words that a firmware run gives the chip: accesses of the CPU, clocks, and listed events.
#[derive(Default)]
struct Words(Vec<u32>);

impl Words {
    fn access(&mut self, kind: u8, address: u16, byte: u8) {
        if address <= 0x25 {
            self.0.push(u32::from_be_bytes([kind, 0, address as u8, byte]));
        }
    }
}

impl Watch for Words {
    fn event(&mut self, _instruction: u32, word: u32, _answer: u32) {
        self.0.push(word);
    }

    fn read(&mut self, address: u16, _byte: u8) {
        self.access(1, address, 0);
    }

    fn written(&mut self, address: u16, byte: u8) {
        self.access(2, address, byte);
    }

    fn clock(&mut self) {
        self.0.push(CLOCK);
    }
}

/// All words that the chip is given in a run of so many instructions from power up.
pub fn words_of_run(rom: &[u8; ROM_SIZE], count: u32, events: &[Listed]) -> Vec<u32> {
    let mut ram = [0; RAM_SIZE];
    let mut chip = Chip::fresh();
    let mut machine = Machine {
        cpu: Cpu::after_power_up(rom),
        ram: &mut ram,
        rom,
        chip: &mut chip,
        counted: 0,
        clocks: 0,
        watch: Words::default(),
    };
    let mut given = 0;
    while machine.counted < count {
        while given < events.len() && events[given].number <= machine.counted {
            machine.give(events[given].word);
            given += 1;
        }
        if machine.turn().is_err() {
            break;
        }
    }
    machine.watch.0
}

#[cfg(test)]
mod tests {
    use super::*;

    fn text(words: &[u32]) -> String {
        let mut out = Vec::new();
        dump(&mut Chip::fresh(), words.iter().copied(), &mut out).unwrap();
        String::from_utf8(out).unwrap().split("$enddefinitions $end\n").nth(1).unwrap().to_string()
    }

    #[test]
    fn begins_with_every_level_and_ends_with_the_last_time() {
        let body = text(&[]);
        assert!(body.starts_with("#0\nb1 a\nb1 b\nb1 c\nb1 d\n1A\n1B\n1C\n1D\n0E\n"));
        assert!(body.ends_with("b000 P\n#0\n"));
    }

    #[test]
    fn tells_a_pin_at_its_time_and_nothing_for_a_clock_alone() {
        let body = text(&[CLOCK, 0x0300_1900, CLOCK, CLOCK]);
        assert!(body.ends_with("#8001\n0b\n0C\n#24000\n"));
    }

    #[test]
    fn keeps_clocks_and_pins() {
        let words = [CLOCK, 0x0300_1901, 0x0300_1C00, 0x0300_1902, 0x0100_0000, 0x0300_1B00];
        assert_eq!(kept(words.into_iter()).collect::<Vec<_>>(), [CLOCK, 0x0300_1901, 0x0300_1B00]);
    }
}
