//! The proved firmware call, linked from its static library, beside the independent core: every opcode from random states, all
//! decimal inputs, every refusal, random programs with events, resets and interrupts, and the stored images with their hosts.
//! Number, counts, CPU, RAM, the chip's bytes and all answer places are compared. Usage: firmware_compare [SEED [ROUNDS]], or
//! firmware_compare bench, for instructions a second of both; firmware_compare instructions IMAGE LIST COUNT makes one call.

mod area;

use nt6861_model::chip::{pin, Chip};
use nt6861_model::core6502::{p, run, run_watched, Cpu, Listed, Told, Watch, RAM_SIZE, ROM_SIZE};
use nt6861_model::firmware::{self, parse_events};
use nt6861_model::host::{ddc1_bytes, Monitor};
use nt6861_model::programs::{self, Random};
use std::process::exit;

#[link(name = "firmware_capi", kind = "static")]
extern "C" {
    // A slice passes as a pointer and a length.
    fn nt6861_firmware(
        cpu: *mut u8,
        cpu_length: usize,
        ram: *mut u8,
        ram_length: usize,
        rom: *const u8,
        rom_length: usize,
        area: *mut u8,
        area_length: usize,
        events: *const u64,
        events_length: usize,
        answers: *mut u32,
        answers_length: usize,
        instructions: u32,
        counts: *mut u32,
        counts_length: usize,
    ) -> u8;
}

/// What the call is lent, by its own lengths.
#[derive(Clone, PartialEq, Debug)]
struct Lent {
    cpu: Vec<u8>,
    ram: Vec<u8>,
    area: Vec<u8>,
    answers: Vec<u32>,
    counts: Vec<u32>,
}

fn call(lent: &mut Lent, rom: &[u8], events: &[u64], instructions: u32) -> u8 {
    unsafe {
        nt6861_firmware(
            lent.cpu.as_mut_ptr(),
            lent.cpu.len(),
            lent.ram.as_mut_ptr(),
            lent.ram.len(),
            rom.as_ptr(),
            rom.len(),
            lent.area.as_mut_ptr(),
            lent.area.len(),
            events.as_ptr(),
            events.len(),
            lent.answers.as_mut_ptr(),
            lent.answers.len(),
            instructions,
            lent.counts.as_mut_ptr(),
            lent.counts.len(),
        )
    }
}

fn cpu_bytes(cpu: &Cpu) -> [u8; 8] {
    let [low, high] = cpu.pc.to_le_bytes();
    [cpu.a, cpu.x, cpu.y, cpu.s, cpu.p, low, high, cpu.over]
}

fn packed(events: &[Listed]) -> Vec<u64> {
    let pack = |listed: &Listed| (listed.number as u64) << 32 | listed.word as u64;
    events.iter().map(pack).collect()
}

/// In answer places that are not written to.
const UNTOUCHED: u32 = 0x5A5A_1234;

/// A run from some state, the same for both sides.
#[derive(Clone)]
struct Case<'a> {
    cpu: Cpu,
    ram: [u8; RAM_SIZE],
    rom: &'a [u8],
    chip: Chip,
    events: &'a [Listed],
    places: usize,
    instructions: u32,
    /// Bits 5 and 4 of P as lent; they count for nothing.
    spare: u8,
}

#[derive(Default)]
struct Seen {
    cases: usize,
    instructions: u64,
    interrupts: u64,
    events: u64,
    pin_resets: u64,
    watchdog_resets: u64,
    numbers: [u64; 23],
}

/// Counts what a run has in it.
#[derive(Default)]
struct Tally {
    interrupts: u64,
    pin_resets: u64,
    watchdog_resets: u64,
    /// RESET's level; only its fall resets.
    reset: bool,
}

impl Watch for Tally {
    fn interrupt(&mut self, _instruction: u32, _cpu: &Cpu) {
        self.interrupts += 1;
    }

    fn event(&mut self, _instruction: u32, word: u32, answer: u32) {
        self.watchdog_resets += u64::from(answer >> 16 & 1);
        let [level, ..] = word.to_le_bytes();
        if level < 2 && word >> 8 == 0x03_0000 | pin::RESET as u32 {
            self.pin_resets += u64::from(self.reset && level == 0);
            self.reset = level == 1;
        }
    }
}

fn differ(what: &str, case: &Case, ours: &Lent, theirs: &Lent, numbers: (u8, u8)) -> ! {
    println!("firmware: {what} differs (proved, model): number {} {}", numbers.0, numbers.1);
    println!("  from {:02X?} over {} instructions", case.cpu, case.instructions);
    let at = |place: u16| case.rom.get((place as usize).wrapping_sub(0xA000)).copied();
    let code: Vec<Option<u8>> = (0..3).map(|place| at(case.cpu.pc.wrapping_add(place))).collect();
    println!("  code {code:02X?}");
    println!("  cpu {:02X?} {:02X?}", ours.cpu, theirs.cpu);
    println!("  counts {:?} {:?}", ours.counts, theirs.counts);
    for (name, ours, theirs) in [("ram", &ours.ram, &theirs.ram), ("chip", &ours.area, &theirs.area)] {
        for (place, (our, their)) in ours.iter().zip(theirs).enumerate() {
            if our != their {
                println!("  {name} {place:02X}: {our:02X} {their:02X}");
            }
        }
    }
    for (place, (our, their)) in ours.answers.iter().zip(&theirs.answers).enumerate() {
        if our != their {
            println!("  answer {place}: {our:08X} {their:08X}, word {:08X}", case.events[place].word);
        }
    }
    exit(1);
}

/// Runs a case on both sides and compares all that they leave. Gives that.
fn compare(what: &str, case: &Case, seen: &mut Seen) -> (u8, Cpu, [u8; RAM_SIZE], Chip) {
    let mut lent = Lent {
        cpu: cpu_bytes(&case.cpu).to_vec(),
        ram: case.ram.to_vec(),
        area: area::written(&case.chip).to_vec(),
        answers: vec![UNTOUCHED; case.places],
        counts: vec![7, 7],
    };
    lent.cpu[4] |= case.spare;
    let number = call(&mut lent, case.rom, &packed(case.events), case.instructions);

    let (mut cpu, mut ram, mut chip) = (case.cpu, case.ram, case.chip);
    let mut answers = vec![UNTOUCHED; case.places];
    let (told, tally) = run_watched(
        &mut cpu,
        &mut ram,
        case.rom,
        &mut chip,
        case.events,
        &mut answers,
        case.instructions,
        Tally {
            reset: case.chip.level(pin::RESET),
            ..Tally::default()
        },
    );
    let expected = Lent {
        cpu: cpu_bytes(&cpu).to_vec(),
        ram: ram.to_vec(),
        area: area::written(&chip).to_vec(),
        answers,
        counts: vec![told.counted, told.given],
    };
    if number != told.number || lent != expected {
        differ(what, case, &lent, &expected, (number, told.number));
    }
    let back = area::read(&lent.area[..].try_into().expect("128 bytes"));
    // The byte going out is kept by the model while none does: two chips are the same where their bytes are.
    if back.as_ref().map(area::written) != Some(area::written(&chip)) {
        println!("firmware: {what}: the chip's bytes are read as {back:?}, not {chip:?}");
        exit(1);
    }
    seen.cases += 1;
    seen.instructions += told.counted as u64;
    seen.events += told.given as u64;
    seen.interrupts += tally.interrupts;
    seen.pin_resets += tally.pin_resets;
    seen.watchdog_resets += tally.watchdog_resets;
    seen.numbers[told.number as usize] += 1;
    (number, cpu, ram, chip)
}

/// Places from which an instruction runs into another part of memory, beside any of ROM.
const EDGES: [u16; 16] = [
    0x0000, 0x0001, 0x0018, 0x0023, 0x0024, 0x0025, 0x0080, 0x017E, 0x017F, 0x01FD, 0x01FE, 0x01FF, 0x9FFE, 0x9FFF, 0xFFFE, 0xFFFF,
];

/// Every opcode at a place in ROM, RAM or among the registers, with operands of every sort.
fn opcodes(random: &mut Random, rounds: u32, seen: &mut Seen) {
    let mut rom: Vec<u8> = (0..ROM_SIZE).map(|_| random.byte()).collect();
    for opcode in 0..=0xFFu8 {
        for round in 0..rounds {
            let mut chip = programs::chip(random);
            let mut ram = programs::ram(random);
            let pc = match random.below(4) {
                0 => EDGES[random.below(EDGES.len() as u32) as usize],
                1 => 0x0080 + random.below(0x180) as u16,
                _ => 0xA000 + random.below(0x6000) as u16,
            };
            // A pointer in page zero into ROM or RAM, for half of the cases.
            let pointer = 0x80 | random.byte();
            let to = if random.once_in(2) { 0xA000 + random.below(0x6000) as u16 } else { random.below(0x220) as u16 };
            if random.once_in(2) && pointer < 0xFF {
                ram[pointer as usize - 0x80..][..2].copy_from_slice(&to.to_le_bytes());
            }
            let operand: [u8; 2] = match random.below(6) {
                0 => [random.byte() & 0x3F, 0],
                1 => [pointer, 0],
                2 => to.to_le_bytes(),
                3 => [random.byte(), random.below(3) as u8],
                4 => [0xFF, random.byte()],
                _ => [random.byte(), random.byte()],
            };
            for (place, byte) in [opcode, operand[0], operand[1]].into_iter().enumerate() {
                match pc.wrapping_add(place as u16) {
                    address @ 0xA000..=0xFFFF => rom[address as usize - 0xA000] = byte,
                    address @ 0x0080..=0x017F => ram[address as usize - 0x80] = byte,
                    address @ 0x0180..=0x01FF => ram[address as usize - 0x180] = byte,
                    address @ 0x0000..=0x0025 => {
                        // A refused write leaves what is there.
                        let _ = chip.write(address as u8, byte);
                    }
                    _ => {}
                }
            }
            let mut cpu = programs::cpu(random, pc);
            if random.once_in(4) {
                // The stack over the code.
                cpu.s = (pc as u8).wrapping_add(random.below(5) as u8);
            }
            if random.once_in(2) {
                // An index that brings the operand to a pointer or a register.
                cpu.x = pointer.wrapping_sub(operand[0]);
                cpu.y = random.below(0x28) as u8;
            }
            let case = Case {
                cpu,
                ram,
                rom: &rom,
                chip,
                events: &[],
                places: 0,
                instructions: 1 + round % 2,
                spare: random.byte() & 0x30,
            };
            compare(&format!("opcode {opcode:02X}"), &case, seen);
        }
    }
}

/// ADC and SBC of any two bytes and carry, binary and decimal.
fn arithmetic(seen: &mut Seen) {
    let mut rom = vec![0xEA; ROM_SIZE];
    for (opcode, decimal) in [(0x69, p::D), (0xE9, p::D), (0x69, 0), (0xE9, 0)] {
        rom[0] = opcode;
        for byte in 0..=0xFF {
            rom[1] = byte;
            for operand in 0..0x200u32 {
                let mut cpu = Cpu {
                    a: operand as u8,
                    p: decimal | if operand > 0xFF { p::C } else { 0 },
                    pc: 0xA000,
                    ..Cpu::default()
                };
                // N, V and Z must not stay as they were.
                cpu.p |= (operand as u8 & 1) * (p::N | p::V | p::Z);
                let case = Case {
                    cpu,
                    ram: [0; RAM_SIZE],
                    rom: &rom,
                    chip: Chip::fresh(),
                    events: &[],
                    places: 0,
                    instructions: 1,
                    spare: 0,
                };
                compare(&format!("{opcode:02X} {byte:02X}"), &case, seen);
            }
        }
    }
}

/// Programs with events; a run is cut into parts too, each from where the one before ended.
fn random_programs(random: &mut Random, rounds: u32, seen: &mut Seen) {
    for round in 0..rounds {
        let rom = programs::rom(random);
        let count = random.below(400) as usize;
        let events = programs::events(random, count);
        let start = programs::begin(random, &rom);
        let case = Case {
            cpu: programs::cpu(random, start),
            ram: programs::ram(random),
            rom: &rom[..],
            chip: programs::chip(random),
            events: &events,
            places: events.len() + random.below(3) as usize,
            instructions: random.below(3000),
            spare: random.byte() & 0x30,
        };
        let whole = compare(&format!("program {round}"), &case, seen);

        let mut parts = case.clone();
        let mut left = case.instructions;
        let mut rest = events.clone();
        let mut end = whole.clone();
        while left > 0 {
            let n = (1 + random.below(900)).min(left);
            let list = std::mem::take(&mut rest);
            let (mut cpu, mut ram, mut chip) = (parts.cpu, parts.ram, parts.chip);
            let mut answers = vec![0; list.len()];
            let told: Told = run(&mut cpu, &mut ram, &rom[..], &mut chip, &list, &mut answers, n);
            let part = Case {
                events: &list,
                places: list.len(),
                instructions: n,
                ..parts.clone()
            };
            end = compare(&format!("program {round}, a part"), &part, seen);
            if end.0 != 0 {
                break;
            }
            (parts.cpu, parts.ram, parts.chip) = (end.1, end.2, end.3);
            rest = list[told.given as usize..]
                .iter()
                .map(|listed| Listed {
                    number: listed.number.saturating_sub(n),
                    word: listed.word,
                })
                .collect();
            left -= n;
        }
        if case.instructions > 0 && end != whole {
            println!("firmware: program {round}: a run of its parts ends elsewhere");
            exit(1);
        }
    }
}

/// 15, 8, 22 and 7 in this order, with nothing touched.
fn refusals(seen: &mut Seen) -> usize {
    let rom = vec![0xEA; ROM_SIZE + 1];
    let mut tried = 0;
    let lengths: [(usize, [usize; 4]); 4] = [
        (8, [0, 7, 9, 128]),
        (256, [0, 255, 257, 512]),
        (128, [0, 127, 129, 256]),
        (2, [0, 1, 3, 8]),
    ];
    // For each of the four areas: its length, or another. Then the state, the ROM and the places.
    for wrong in 0..5usize.pow(4) {
        let choice = |area: usize| match wrong / 5usize.pow(area as u32) % 5 {
            0 => lengths[area].0,
            other => lengths[area].1[other - 1],
        };
        for (over, broken) in [(0, false), (31, false), (32, false), (255, false), (3, true)] {
            for rom_length in [ROM_SIZE, 0, ROM_SIZE - 1, ROM_SIZE + 1] {
                for places in [3, 2, 0] {
                    for instructions in [0, 4] {
                        let any_wrong = wrong != 0;
                        // One choice for the rest where a length is wrong: 15 comes before all else.
                        if any_wrong && (over == 255 || rom_length == 0 || places == 0) {
                            continue;
                        }
                        let mut lent = Lent {
                            cpu: vec![0x01; choice(0)],
                            ram: vec![0xEA; choice(1)],
                            area: vec![0; choice(2)],
                            answers: vec![UNTOUCHED; places],
                            counts: vec![0; choice(3)],
                        };
                        let chip = area::written(&Chip::fresh());
                        for (place, byte) in lent.area.iter_mut().enumerate() {
                            *byte = if broken { 0xFF } else { chip[place % 128] };
                        }
                        if let Some(last) = lent.cpu.get_mut(7) {
                            *last = over;
                        }
                        // P with bits 5 and 4 set, which a run would clear.
                        if let Some(flags) = lent.cpu.get_mut(4) {
                            *flags = 0x31;
                        }
                        let events = [0x0000_0000_0400_0000, 0x0000_0001_0400_0000, 0x0000_0009_0400_0000];
                        let before = lent.clone();
                        let number = call(&mut lent, &rom[..rom_length], &events, instructions);
                        let expected = match () {
                            _ if any_wrong => 15,
                            _ if over > 31 || broken => 8,
                            _ if rom_length != ROM_SIZE => 22,
                            _ if places < 3 => 7,
                            _ => 0,
                        };
                        // PC 0101H is RAM with NOPs.
                        let untouched = lent == before;
                        if number != expected || (expected != 0 && !untouched) {
                            println!(
                                "firmware: refusals: number {number}, not {expected}; untouched {untouched}; lengths {:?}, over {over}",
                                (lent.cpu.len(), lent.ram.len(), lent.area.len(), lent.counts.len(), rom_length, places)
                            );
                            exit(1);
                        }
                        tried += 1;
                        seen.cases += 1;
                    }
                }
            }
        }
    }
    tried
}

fn file(name: &str) -> Vec<u8> {
    let path = format!("{}/images/{name}", env!("CARGO_MANIFEST_DIR"));
    std::fs::read(&path).expect(&path)
}

/// The stored runs: image, event list, instructions.
fn runs() -> Vec<(String, String, u32)> {
    String::from_utf8(file("runs.txt"))
        .expect("text")
        .lines()
        .filter(|line| !line.starts_with('#'))
        .map(|line| {
            let parts: Vec<&str> = line.split(' ').collect();
            (parts[0].into(), parts[1].into(), parts[2].parse().expect("a number"))
        })
        .collect()
}

fn image(name: &str) -> [u8; ROM_SIZE] {
    file(&format!("{name}.rom"))[..].try_into().expect("24,576 bytes")
}

fn listed(name: &str) -> Vec<Listed> {
    parse_events(&file(&format!("{name}.events"))).expect("a list")
}

fn stored(seen: &mut Seen) {
    for (name, list, count) in runs() {
        let rom = image(&name);
        let events = listed(&list);
        let case = Case {
            cpu: Cpu::after_power_up(&rom),
            ram: [0; RAM_SIZE],
            rom: &rom,
            chip: Chip::fresh(),
            events: &events,
            places: events.len(),
            instructions: count,
            spare: 0,
        };
        compare(&list, &case, seen);
        let ended = firmware::run(&rom, count, &events);
        assert_eq!(ended.told.number, 0);
    }
}

/// The proved core alone, an instruction at a time, with the lines read from its bytes after each: what a host reads is the block.
fn hosts() {
    let block = file("edid.bin");
    for (name, list, count) in runs() {
        if name != "ddc2b" && name != "ddc1" {
            continue;
        }
        let rom = image(&name);
        let events = listed(&list);
        let mut lent = Lent {
            cpu: cpu_bytes(&Cpu::after_power_up(&rom)).to_vec(),
            ram: vec![0; RAM_SIZE],
            area: area::written(&Chip::fresh()).to_vec(),
            answers: Vec::new(),
            counts: vec![0, 0],
        };
        let mut monitor = Monitor::default();
        let mut levels = Vec::new();
        let mut given = 0;
        let mut vsync = true;
        for number in 0..count {
            let due: Vec<u64> = events[given..]
                .iter()
                .take_while(|listed| listed.number <= number)
                .map(|listed| listed.word as u64)
                .collect();
            given += due.len();
            lent.answers.resize(due.len(), 0);
            assert_eq!(call(&mut lent, &rom, &due, 1), 0);
            assert_eq!(lent.counts, [1, due.len() as u32]);
            let chip = area::read(&lent.area[..].try_into().expect("128 bytes")).expect("well formed");
            monitor.look(chip.scl(), chip.sda());
            let rises = !vsync && chip.level(pin::VSYNCI);
            vsync = chip.level(pin::VSYNCI);
            if rises {
                levels.push(chip.sda());
            }
        }
        let read = if name == "ddc2b" { Some(monitor.read) } else { ddc1_bytes(&levels) };
        if read.as_deref() != Some(&block[..]) {
            println!("firmware: {name}: the host reads {read:02X?}");
            exit(1);
        }
    }
}

/// Of this thread, as the kernel counts it; other work beside it does not.
fn processor_seconds() -> f64 {
    let told = std::fs::read_to_string("/proc/thread-self/schedstat").expect("schedstat");
    let nanoseconds = told.split_whitespace().next().and_then(|number| number.parse::<f64>().ok());
    nanoseconds.expect("nanoseconds") / 1e9
}

/// Million instructions a second, in runs of ten million instructions.
fn rate(count: u32, run: &dyn Fn(u32) -> u32) -> f64 {
    let times = 10_000_000 / count + 1;
    let begin = processor_seconds();
    let counted: u64 = (0..times).map(|_| run(count) as u64).sum();
    counted as f64 / (processor_seconds() - begin) / 1e6
}

/// The best of nine turns of each.
fn rates(count: u32, proved: &dyn Fn(u32) -> u32, model: &dyn Fn(u32) -> u32) -> (f64, f64) {
    let turns = (0..9).map(|_| (rate(count, proved), rate(count, model)));
    turns.fold((0.0, 0.0), |best, turn| (turn.0.max(best.0), turn.1.max(best.1)))
}

/// What a call from power up is lent.
fn powered_up(rom: &[u8; ROM_SIZE], places: usize) -> Lent {
    Lent {
        cpu: cpu_bytes(&Cpu::after_power_up(rom)).to_vec(),
        ram: vec![0; RAM_SIZE],
        area: area::written(&Chip::fresh()).to_vec(),
        answers: vec![0; places],
        counts: vec![0, 0],
    }
}

/// One call and nothing else, for a count of its machine instructions; LIST `none` has no events.
fn counted(name: &str, list: &str, count: u32) {
    let rom = image(name);
    let words = if list == "none" { Vec::new() } else { packed(&listed(list)) };
    assert_eq!(call(&mut powered_up(&rom, words.len()), &rom, &words, count), 0);
}

fn bench() {
    println!("image, events, events for a hundred instructions, proved and model in million instructions a second of processor time, ratio");
    for (name, list, count) in runs() {
        let rom = image(&name);
        let events = listed(&list);
        for (events, count) in [(&[][..], 10_000_000), (&events[..], count)] {
            let words = packed(events);
            let start = powered_up(&rom, events.len());
            let run_proved = |count| {
                let mut lent = start.clone();
                assert_eq!(call(&mut lent, &rom, &words, count), 0);
                lent.counts[0]
            };
            let run_model = |count| firmware::run(&rom, count, events).told.counted;
            let (proved, model) = rates(count, &run_proved, &run_model);
            let list = if events.is_empty() { "none" } else { &list };
            let hundred = 100.0 * events.len() as f64 / count as f64;
            println!("{name}, {list}, {hundred:.0}, {proved:.0}, {model:.0}, {:.2}", proved / model);
        }
    }
}

fn main() {
    let arguments: Vec<String> = std::env::args().skip(1).collect();
    if arguments.first().is_some_and(|argument| argument == "bench") {
        bench();
        return;
    }
    if let [call, name, list, count] = &arguments[..] {
        assert_eq!(call, "instructions");
        return counted(name, list, count.parse().expect("a number"));
    }
    let number = |place: usize, default: u64| match arguments.get(place) {
        Some(text) => text.parse().expect("a number"),
        None => default,
    };
    let mut random = Random::new(number(0, 1));
    let rounds = number(1, 400) as u32;
    let mut seen = Seen::default();
    opcodes(&mut random, rounds, &mut seen);
    let states = seen.cases;
    arithmetic(&mut seen);
    random_programs(&mut random, rounds, &mut seen);
    stored(&mut seen);
    hosts();
    let tried = refusals(&mut seen);
    for number in [0, 5, 6, 20, 21] {
        assert!(seen.numbers[number] > 50, "number {number} comes too seldom: {:?}", seen.numbers);
    }
    let resets = [seen.pin_resets, seen.watchdog_resets];
    assert!(seen.interrupts > 500 && resets.iter().all(|&count| count > 100), "{} interrupts, {resets:?} resets", seen.interrupts);
    println!(
        "firmware agrees: {states} states for 256 opcodes, all operands of ADC and SBC, {tried} refusals before a run, {rounds} programs and {} stored runs",
        runs().len()
    );
    println!(
        "firmware agrees: in all {} instructions, {} events, {} interrupts, {} resets by the pin and {} by the watchdog; the block is read by DDC2B and DDC1",
        seen.instructions, seen.events, seen.interrupts, seen.pin_resets, seen.watchdog_resets
    );
}
