//! The stored images with their hosts, and the texts of runs.

use crate::core6502::{Listed, ROM_SIZE};
use crate::firmware::{parse_events, print, print_trace, run, Malformed};
use crate::host::{ddc1_bytes, host, monitor};
use crate::symbols::Labels;
use crate::{edid, opcodes};

fn file(name: &str) -> Vec<u8> {
    let path = format!("{}/images/{name}", env!("CARGO_MANIFEST_DIR"));
    std::fs::read(&path).expect(&path)
}

fn image(name: &str) -> [u8; ROM_SIZE] {
    file(&format!("{name}.rom"))[..]
        .try_into()
        .expect("24,576 bytes")
}

fn listed(name: &str) -> Vec<Listed> {
    parse_events(&file(&format!("{name}.events"))).expect("a list")
}

fn text(name: &str) -> String {
    String::from_utf8(file(name)).expect("text")
}

/// Image, event list, instructions.
fn runs() -> Vec<(String, String, u32)> {
    text("runs.txt")
        .lines()
        .filter(|line| !line.starts_with('#'))
        .map(|line| {
            let parts: Vec<&str> = line.split(' ').collect();
            (parts[0].into(), parts[1].into(), parts[2].parse().unwrap())
        })
        .collect()
}

fn count(list: &str) -> u32 {
    runs().iter().find(|run| run.1 == list).expect(list).2
}

/// The bytes that the listed reads of a run gave, in order.
fn shown(name: &str, list: &str) -> Vec<u8> {
    let events = listed(list);
    let ended = run(&image(name), count(list), &events);
    assert_eq!(ended.told.number, 0);
    assert_eq!(ended.told.given as usize, events.len());
    events
        .iter()
        .zip(&ended.answers)
        .filter(|(listed, _)| listed.word >> 24 == 1)
        .map(|(_, &answer)| answer as u8)
        .collect()
}

#[test]
fn lists_are_what_the_descriptions_make() {
    let runs = runs();
    for (name, list, count) in &runs {
        let hosted = host(&image(name), &text(&format!("{list}.host"))).expect(list);
        assert!(hosted.text == text(&format!("{list}.events")), "{list}");
        assert_eq!(hosted.instructions, *count, "{list}");
        assert_eq!(hosted.events, listed(list), "{list}");
        // No event but the host's own is refused, and the watchdog resets nothing.
        let ended = run(&image(name), *count, &hosted.events);
        assert_eq!(ended.told.number, 0);
        assert!(ended.answers.iter().all(|answer| answer >> 16 == 0));
    }
    assert_eq!(runs.len(), 8);
}

#[test]
fn ddc2b_serves_the_block() {
    let block = file("edid.bin");
    assert_eq!(edid::number(&block), 0);
    let hosted = host(&image("ddc2b"), &text("ddc2b.host")).expect("ddc2b");
    assert_eq!(hosted.received, block);
    // The stored list again, read from the lines.
    let (bus, _) = monitor(&image("ddc2b"), count("ddc2b"), &listed("ddc2b"));
    assert_eq!(bus.read, block);
    let lines: Vec<&str> = bus.text.lines().collect();
    assert_eq!(lines[..2], ["START 42- 17- STOP", "START A0+ 00+"]);
    assert!(lines[2].starts_with("START A1+ 00+ FF+ FF+"));
    assert!(lines[2].ends_with("00+ 89- STOP"));
    assert_eq!(lines.len(), 3);
}

#[test]
fn ddc2b_serves_parts_at_other_speeds() {
    // From an offset, over the end of the block, at 400 kHz and slowly.
    let block = file("edid.bin");
    for rate in ["400kHz", "5.5us", "45us"] {
        let description = format!(
            "scl {rate}\nat 750us\nSTART\nwrite A0 7E\nrepeated START\nread A1 5\nSTOP\n\
             START\nread A1 1\nSTOP\nSTART\nwrite A0 10 55\nSTOP\nSTART\n\
             read A1 2\nSTOP"
        );
        let hosted = host(&image("ddc2b"), &description).expect("ddc2b");
        let places = [0x7E, 0x7F, 0, 1, 2, 3, 0x10, 0x11];
        let expected: Vec<u8> = places.iter().map(|&place| block[place]).collect();
        assert_eq!(hosted.received, expected, "{rate}");
    }
}

#[test]
fn ddc1_sends_the_block() {
    let block = file("edid.bin");
    let hosted = host(&image("ddc1"), &text("ddc1.host")).expect("ddc1");
    assert_eq!(ddc1_bytes(&hosted.levels), Some(block.clone()));
    let (_, levels) = monitor(&image("ddc1"), count("ddc1"), &listed("ddc1"));
    assert_eq!(ddc1_bytes(&levels), Some(block));
}

#[test]
fn arithmetic_is_right() {
    let shown = shown("arithmetic", "arithmetic");
    let passes = u16::from_le_bytes([shown[8], shown[9]]);
    let mut seed = 0u16;
    let mut next = || {
        seed = seed.wrapping_mul(5).wrapping_add(12345);
        seed
    };
    let mut product = 0;
    for _ in 0..passes {
        let a = next() | 1;
        product = a as u32 * next() as u32;
    }
    let digits = format!("{:06}", product & 0xFFFF);
    let decimal = u32::from_str_radix(&digits, 16).unwrap();
    assert!(passes > 10);
    assert_eq!(shown[..4], product.to_le_bytes());
    assert_eq!(shown[4..7], decimal.to_le_bytes()[..3]);
    assert_eq!(shown[7], 0);
}

#[test]
fn sort_is_right() {
    let shown = shown("sort", "sort");
    let passes = u16::from_le_bytes([shown[5], shown[6]]);
    let mut seed = 0u8;
    let mut list = Vec::new();
    for _ in 0..passes {
        list.clear();
        for _ in 0..100 {
            seed = seed.wrapping_mul(5).wrapping_add(17);
            list.push(seed);
        }
    }
    list.sort_unstable();
    let sum = list.iter().fold(0u8, |sum, &byte| sum.wrapping_add(byte));
    assert!(passes > 1);
    assert_eq!(shown[..5], [list[0], list[99], list[49], sum, 0]);
}

#[test]
fn crc_is_right() {
    let shown = shown("crc", "crc");
    let crc = |bytes: &[u8]| {
        bytes.iter().fold(0xFFFFu16, |crc, &byte| {
            (0..8).fold(crc ^ (byte as u16) << 8, |crc, _| {
                crc << 1 ^ if crc & 0x8000 != 0 { 0x1021 } else { 0 }
            })
        })
    };
    assert_eq!(crc(b"123456789"), 0x29B1);
    assert_eq!(shown[..2], 0x29B1u16.to_le_bytes());
    assert_eq!(shown[2..4], crc(&image("crc")[..1024]).to_le_bytes());
    assert!(shown[4] > 0);
}

// The recall: what docs/RECALL.md says of the two runs.

#[test]
fn a_foreign_transfer_does_not_end_the_wait() {
    assert_eq!(shown("recall", "recall-foreign"), [0xFE, 0xFE]);
    let (bus, _) = monitor(
        &image("recall"),
        count("recall-foreign"),
        &listed("recall-foreign"),
    );
    assert_eq!(bus.text, "START 42- 10- 20- STOP\n");
    // Nor does any other foreign address, nor more time.
    for address in (0..=0xFFu8).filter(|address| ![0xA0, 0xFE].contains(&(address & 0xFE))) {
        let description = format!(
            "at 100us\nSTART\nwrite {address:02X} 00 nack\nSTOP\nwait 500us\nshow PT0"
        );
        let hosted = host(&image("recall"), &description).expect("recall");
        let ended = run(&image("recall"), hosted.instructions + 1, &hosted.events);
        assert_eq!(ended.answers.last(), Some(&0x0000_00FE), "{address:02X}");
    }
}

#[test]
fn one_to_the_monitor_does() {
    assert_eq!(shown("recall", "recall-own"), [0xFE, 0xFF]);
    let (bus, _) = monitor(&image("recall"), count("recall-own"), &listed("recall-own"));
    assert_eq!(bus.text, "START A0+ 10+ 20+ STOP\n");
}

// Texts.

#[test]
fn lists_of_events() {
    let one = |number, word| Listed { number, word };
    for (text, events) in [
        ("", vec![]),
        ("\n \t\r\n# 1 2\n", vec![]),
        ("0 00000000", vec![one(0, 0)]),
        (
            "12 0300180a # SDA\n\t007\t0300180A \r\n",
            vec![one(12, 0x0300_180A), one(7, 0x0300_180A)],
        ),
        ("4294967295 FFFFFFFF#", vec![one(u32::MAX, u32::MAX)]),
        ("5 00000001\n3 00000002", vec![one(5, 1), one(3, 2)]),
    ] {
        assert_eq!(parse_events(text.as_bytes()), Ok(events), "{text:?}");
    }
    for (text, line) in [
        ("1", 1),
        ("0 00000000\n\n1 #2", 3),
        ("1 1234567", 1),
        ("1 123456789", 1),
        ("1 1234567G", 1),
        ("1 +1234567", 1),
        ("1 00000000 2", 1),
        ("x 00000000", 1),
        ("-1 00000000", 1),
        ("+1 00000000", 1),
        ("4294967296 00000000", 1),
        ("1\u{a0}00000000", 1),
        ("1,00000000", 1),
        ("0 00000000\n1 0000 0000\nx", 2),
    ] {
        let bad = Err(Malformed { line });
        assert_eq!(parse_events(text.as_bytes()), bad, "{text:?}");
    }
}

/// An image with this code at A000, and an RTI at B000 for interrupts.
fn small(code: &[u8]) -> [u8; ROM_SIZE] {
    let mut rom = [0xFF; ROM_SIZE];
    rom[..code.len()].copy_from_slice(code);
    rom[0x1000] = 0x40;
    rom[ROM_SIZE - 4..].copy_from_slice(&[0x00, 0xA0, 0x00, 0xB0]);
    rom
}

#[test]
fn printed_runs() {
    // LDA #01, STA IEX, CLI, NOP; a field begins before the NOP.
    let rom = small(&[0xA9, 0x01, 0x85, 0x0F, 0x58, 0xEA]);
    let events = parse_events(b"3 03001B00\n3 03001B01\n6 0300FF00\n9 03001C00").unwrap();
    let printed = print(&rom, 4, &events);
    assert_eq!(
        printed,
        "00000000\n00000100\nnumber 0 counted 4 given 2 \
         A=01 X=00 Y=00 S=FF P=00 PC=A005 over=14\n"
    );
    let trace = print_trace(&rom, 4, &events);
    assert_eq!(
        trace,
        "0 A000 A9 A=01 X=00 Y=00 S=FF P=04 PC=A002 over=02\n\
         1 A002 85 A=01 X=00 Y=00 S=FF P=04 PC=A004 over=05\n\
         2 A004 58 A=01 X=00 Y=00 S=FF P=00 PC=A005 over=07\n\
         3 event 03001B00 00000000\n\
         3 event 03001B01 00000100\n\
         3 interrupt A=01 X=00 Y=00 S=FC P=04 PC=B000 over=0E\n\
         3 B000 40 A=01 X=00 Y=00 S=FF P=00 PC=A005 over=14\n\
         number 0 counted 4 given 2 A=01 X=00 Y=00 S=FF P=00 PC=A005 over=14\n"
    );
}

#[test]
fn printed_reset_and_refusal() {
    let rom = small(&[0xE8, 0x02]);
    let events = parse_events(b"1 03001C00\n2 03001C01\n3 01002600\n4 01000000").unwrap();
    assert_eq!(
        print_trace(&rom, 9, &events),
        "0 A000 E8 A=00 X=01 Y=00 S=FF P=04 PC=A001 over=02\n\
         1 event 03001C00 00000000\n\
         1 A000 -- A=00 X=01 Y=00 S=FF P=04 PC=A000 over=02\n\
         2 event 03001C01 00000000\n\
         2 A000 E8 A=00 X=02 Y=00 S=FF P=04 PC=A001 over=04\n\
         3 event 01002600 02000000\n\
         number 20 counted 3 given 3 A=00 X=02 Y=00 S=FF P=04 PC=A001 over=04\n"
    );
    assert_eq!(
        print(&rom, 0, &events),
        "number 0 counted 0 given 0 A=00 X=00 Y=00 S=FF P=04 PC=A000 over=00\n"
    );
}

#[test]
fn descriptions_that_go_wrong() {
    for (description, why) in [
        ("START\nsing", "line 2: sing: no such act"),
        ("\n# STOP\nSTOP", "line 3: STOP: no transfer has begun"),
        (
            "START\nSTART",
            "line 2: START: within a transfer a START is a `repeated START`",
        ),
        ("wait x", "line 1: wait x: x: not a time, as 5us or 2.5ms, up to 1000s"),
        ("scl 3MHz", "line 1: scl 3MHz: 3MHz: not a rate, as 31.5kHz, up to 2MHz"),
        ("START\nwrite 1", "line 2: write 1: 1: not a byte of two hex digits"),
        ("START\nread A1 0", "line 2: read A1 0: 0: not a count from 1 to 1000000"),
        ("pin P17 0", "line 1: pin P17 0: P17: no pin"),
        ("show DACH14", "line 1: show DACH14: DACH14: no register"),
        // Nothing is set up yet: nobody answers.
        ("START\nwrite A0", "line 2: write A0: A0 is not acknowledged"),
        (
            "at 750us\nSTART\nwrite A0 nack",
            "line 3: write A0 nack: A0 is acknowledged",
        ),
        ("wait 10us\nat 5us", "line 2: at 5us: it is 10.00 us already"),
        ("show DACH0\nexpect 00", "line 2: expect 00: 80 came"),
    ] {
        let told = host(&image("ddc2b"), description).err();
        assert_eq!(told.as_deref(), Some(why));
    }
    // Firmware that never lets SCL go: DDC2B is on, and then it waits.
    let rom = small(&[
        0xA9, 0x06, 0x85, 0x05, 0xA9, 0x00, 0x85, 0x15, 0x4C, 0x08, 0xA0,
    ]);
    let told = host(&rom, "at 25us\nSTART\nwrite A0 00").err();
    let why = "line 3: write A0 00: SCL is still held after 20000.00 us";
    assert_eq!(told.as_deref(), Some(why));
}

#[test]
fn images_are_documented_opcodes_and_vectors() {
    for (name, _, _) in runs() {
        let rom = image(&name);
        assert_eq!(rom[ROM_SIZE - 4..ROM_SIZE - 2], [0x00, 0xA0], "{name}");
        assert_ne!(opcodes::TABLE[rom[0] as usize].op, opcodes::Op::Unknown);
    }
}

#[test]
fn labels_of_three_forms() {
    let label_file = "al 00A000 .reset\n\nal 000080 .offset\nal 00A032 .service\n";
    let debug_file = "version\tmajor=2,minor=0\nsym\tid=0,name=\"reset\",addrsize=absolute,scope=0,def=1,val=0xA000,seg=0,type=lab\n\
                      sym\tid=1,name=\"offset\",addrsize=zeropage,scope=0,def=2,val=0x80,type=equ\n\
                      sym\tid=2,name=\"service\",addrsize=absolute,scope=0,def=3,val=0xA032,seg=0,type=lab\n";
    let rom = image("ddc2b");
    let memory = |address: u16| rom.get(address.wrapping_sub(0xA000) as usize).copied();
    for text in [label_file, debug_file, &text("ddc2b.lst")] {
        let labels = Labels::parse(text).expect("labels");
        assert_eq!(labels.address("service"), Some(0xA032));
        assert_eq!(labels.address("A07F"), Some(0xA07F));
        assert_eq!(labels.address("offset"), None);
        assert_eq!(labels.place(0xA033).as_deref(), Some("service+1"));
        assert_eq!(labels.place(0x9FFF), None);
        assert_eq!(labels.instruction(0xA018, memory), "STA MDCON");
        assert_eq!(labels.instruction(0xA00A, memory), "STA 0100,X");
    }
    let listing = Labels::parse(&text("ddc2b.lst")).expect("labels");
    assert_eq!(listing.instruction(0xA00E, memory), "BPL copy");
    assert_eq!(listing.instruction(0xA02F, memory), "JMP loop");
    for (text, line) in [
        ("al 00A000 .reset\nal A0G0 .x\n", 2),
        ("al 00A000 reset\n", 1),
        ("al 00A000\n", 1),
        ("00A000  1  78           reset:  sei\nnothing\n", 2),
    ] {
        assert_eq!(Labels::parse(text).err(), Some(line), "{text}");
    }
}
