//! The calls of include/nt6861.h, each behind a safe function. This is the only file with `unsafe`.
//!
//! Why each is sound: a slice passes as its pointer and its length, and a reference as a pointer to one element; Rust keeps what is lent as `&mut` apart
//! from all else, and aligned. The library is proved to read and write within what is lent, whatever it holds, and to keep nothing of it.

mod c {
    extern "C" {
        pub fn nt6861_version() -> u32;
        pub fn nt6861_fresh(area: *mut u8, length: usize) -> u8;
        pub fn nt6861_step(area: *mut u8, length: usize, word: u32) -> u32;
        pub fn nt6861_run(area: *mut u8, length: usize, words: *const u32, count: usize, answers: *mut u32, places: usize) -> u8;
        pub fn nt6861_replay(words: *const u32, count: usize, answers: *mut u32, places: usize) -> u8;
        pub fn nt6861_hold(area: *const u8, length: usize) -> u32;
        pub fn nt6861_lines(area: *const u8, length: usize) -> u32;
        pub fn nt6861_outcome(area: *const u8, length: usize) -> u32;
        pub fn nt6861_rate(area: *const u8, length: usize, which: u32, hertz: *mut f64) -> u32;
        pub fn nt6861_edid(block: *const u8, length: usize) -> u8;
        pub fn nt6861_vcd_more(
            file: *const u8, size: usize, words: *mut u32, room: usize, cursor: *mut u64, numbers: usize, told: *mut u64, places: usize,
        ) -> u8;
        pub fn nt6862_counters(state: *mut u16, length: usize, call: u32, value: u32) -> u8;
        pub fn nt6862_field_rate(state: *const u16, length: usize) -> f64;
        pub fn nt6861_read_block(number: u32, bytes: *const u8, length: usize, words: *mut u32, places: usize, count: *mut usize) -> u8;
        pub fn nt6861_write_block(number: u16, words: *const u32, count: usize, area: *mut u8, length: usize) -> u8;
        pub fn nt6861_addresses(ii_adr: u8, changes: *const u16, length: usize, found: *mut u16, places: usize, count: *mut usize) -> u8;
        pub fn nt6861_why(area: *const u8, length: usize, words: *const u32, count: usize, told: *mut u64) -> u8;
        pub fn nt6861_firmware(
            cpu: *mut u8, cpu_length: usize, ram: *mut u8, ram_length: usize, rom: *const u8, rom_length: usize, area: *mut u8, length: usize,
            events: *const u64, listed: usize, answers: *mut u32, places: usize, instructions: u32, counts: *mut u32, counts_length: usize,
        ) -> u8;
        pub fn nt6861_field_rate(v: u16) -> f64;
        pub fn nt6861_interval_rate(h: u16) -> f64;
        pub fn nt6861_line_rate(h: u16, v: u16) -> f64;
    }
}

pub fn version() -> u32 {
    // SAFETY: it takes nothing.
    unsafe { c::nt6861_version() }
}

pub fn fresh(area: &mut [u8]) -> u8 {
    // SAFETY: one slice, lent to be written.
    unsafe { c::nt6861_fresh(area.as_mut_ptr(), area.len()) }
}

pub fn step(area: &mut [u8], word: u32) -> u32 {
    // SAFETY: one slice, lent to be written.
    unsafe { c::nt6861_step(area.as_mut_ptr(), area.len(), word) }
}

pub fn run(area: &mut [u8], words: &[u32], answers: &mut [u32]) -> u8 {
    // SAFETY: three slices; those that are written are lent as `&mut` and so apart.
    unsafe { c::nt6861_run(area.as_mut_ptr(), area.len(), words.as_ptr(), words.len(), answers.as_mut_ptr(), answers.len()) }
}

pub fn replay(words: &[u32], answers: &mut [u32]) -> u8 {
    // SAFETY: two slices; the one that is written is lent as `&mut`.
    unsafe { c::nt6861_replay(words.as_ptr(), words.len(), answers.as_mut_ptr(), answers.len()) }
}

pub fn hold(area: &[u8]) -> u32 {
    // SAFETY: one slice, read alone.
    unsafe { c::nt6861_hold(area.as_ptr(), area.len()) }
}

pub fn lines(area: &[u8]) -> u32 {
    // SAFETY: one slice, read alone.
    unsafe { c::nt6861_lines(area.as_ptr(), area.len()) }
}

pub fn outcome(area: &[u8]) -> u32 {
    // SAFETY: one slice, read alone.
    unsafe { c::nt6861_outcome(area.as_ptr(), area.len()) }
}

pub fn rate(area: &[u8], which: u32, hertz: &mut f64) -> u32 {
    // SAFETY: a slice that is read, and one number that is written, lent as `&mut`.
    unsafe { c::nt6861_rate(area.as_ptr(), area.len(), which, hertz) }
}

pub fn edid(block: &[u8]) -> u8 {
    // SAFETY: one slice, read alone.
    unsafe { c::nt6861_edid(block.as_ptr(), block.len()) }
}

pub fn vcd_more(file: &[u8], words: &mut [u32], cursor: &mut [u64; 8], told: &mut [u64; 2]) -> u8 {
    // SAFETY: four slices; those that are written are lent as `&mut`.
    unsafe { c::nt6861_vcd_more(file.as_ptr(), file.len(), words.as_mut_ptr(), words.len(), cursor.as_mut_ptr(), 8, told.as_mut_ptr(), 2) }
}

pub fn counters(state: &mut [u16; 12], call: u32, value: u32) -> u8 {
    // SAFETY: one slice, lent to be written.
    unsafe { c::nt6862_counters(state.as_mut_ptr(), 12, call, value) }
}

pub fn counters_field_rate(state: &[u16; 12]) -> f64 {
    // SAFETY: one slice, read alone.
    unsafe { c::nt6862_field_rate(state.as_ptr(), 12) }
}

pub fn read_block(number: u32, bytes: &[u8], words: &mut [u32], count: &mut usize) -> u8 {
    // SAFETY: two slices and a number; those that are written are lent as `&mut`.
    unsafe { c::nt6861_read_block(number, bytes.as_ptr(), bytes.len(), words.as_mut_ptr(), words.len(), count) }
}

pub fn write_block(number: u16, words: &[u32], area: &mut [u8]) -> u8 {
    // SAFETY: two slices; the one that is written is lent as `&mut`.
    unsafe { c::nt6861_write_block(number, words.as_ptr(), words.len(), area.as_mut_ptr(), area.len()) }
}

pub fn addresses(ii_adr: u8, changes: &[u16], found: &mut [u16], count: &mut usize) -> u8 {
    // SAFETY: two slices and a number; those that are written are lent as `&mut`.
    unsafe { c::nt6861_addresses(ii_adr, changes.as_ptr(), changes.len(), found.as_mut_ptr(), found.len(), count) }
}

pub fn why(area: &[u8], words: &[u32], told: &mut [u64; 12]) -> u8 {
    // SAFETY: two slices that are read, and twelve places, as many as the call writes, lent as `&mut`.
    unsafe { c::nt6861_why(area.as_ptr(), area.len(), words.as_ptr(), words.len(), told.as_mut_ptr()) }
}

/// CPU, RAM and chip of a machine, which a run writes.
pub struct Lent<'a> {
    pub cpu: &'a mut [u8; 8],
    pub ram: &'a mut [u8; 256],
    pub area: &'a mut [u8],
}

pub fn firmware(lent: Lent, rom: &[u8], events: &[u64], answers: &mut [u32], instructions: u32, counts: &mut [u32; 2]) -> u8 {
    let Lent { cpu, ram, area } = lent;
    // SAFETY: seven slices; those that are written are lent as `&mut` and so apart.
    unsafe {
        c::nt6861_firmware(
            cpu.as_mut_ptr(), 8, ram.as_mut_ptr(), 256, rom.as_ptr(), rom.len(), area.as_mut_ptr(), area.len(), events.as_ptr(), events.len(),
            answers.as_mut_ptr(), answers.len(), instructions, counts.as_mut_ptr(), 2,
        )
    }
}

pub fn field_rate(v: u16) -> f64 {
    // SAFETY: it takes a number.
    unsafe { c::nt6861_field_rate(v) }
}

pub fn interval_rate(h: u16) -> f64 {
    // SAFETY: it takes a number.
    unsafe { c::nt6861_interval_rate(h) }
}

pub fn line_rate(h: u16, v: u16) -> f64 {
    // SAFETY: it takes numbers.
    unsafe { c::nt6861_line_rate(h, v) }
}
