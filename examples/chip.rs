//! A chip that a program keeps: it is made, stepped, stored in a file, read back and stepped on. Usage: chip_example FILE

#[path = "../tests/nt6861.rs"]
#[allow(dead_code)]
mod nt6861;

fn pin(number: u32, level: u32) -> u32 {
    0x0300_0000 | number << 8 | level
}

fn told(what: &str, chip: &[u8]) {
    println!("{what}: hold {:08X}, outcome {:08X}", nt6861::hold(chip), nt6861::outcome(chip));
}

fn main() {
    let path = std::env::args().nth(1).expect("a file");
    let mut chip = [0u8; 128];
    assert_eq!(nt6861::fresh(&mut chip), 0);

    // every request enabled, DDC2B on, START, address A0H, the acknowledge: the chip holds SCL
    let mut words = vec![0x0200_0F3F, 0x0200_0500, 0x0200_1500, pin(24, 0)];
    for bit in (0..8).rev() {
        words.extend([pin(25, 0), pin(24, 0xA0 >> bit & 1), pin(25, 1)]);
    }
    words.extend([pin(25, 0), pin(25, 1), pin(25, 0)]);
    let mut answers = [0; 64];
    let number = nt6861::run(&mut chip, &words, &mut answers);
    println!("run: {number}, last answer {:08X}", answers[words.len() - 1]);
    told("addressed", &chip);

    std::fs::write(&path, chip).expect("the file is written");
    let mut back = std::fs::read(&path).expect("the file is read");

    // the chip from the file goes on: two clocks of 8 µs, then II DAT lets go
    println!("step: {:08X}", nt6861::step(&mut back, 0x0400_0000));
    println!("step: {:08X}", nt6861::step(&mut back, 0x0400_0000));
    told("two clocks later", &back);
    println!("step: {:08X}", nt6861::step(&mut back, 0x0200_1400));
    told("let go", &back);
    println!("field rate: {:08X}", nt6861::rate(&back, 0, 0.0).0);

    // refusals: a short area, a spare byte that is not zero
    println!("short area: {:08X}", nt6861::step(&mut back[..127], 0x0400_0000));
    back[40] = 1;
    println!("spare byte: {:08X}", nt6861::step(&mut back, 0x0400_0000));
}
