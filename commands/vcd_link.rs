//! The proved reader of value change dumps, as its C interface has it (include/nt6861.h).

#[link(name = "vcd_capi", kind = "static")]
extern "C" {
    fn nt6861_vcd(file: *const u8, size: usize, words: *mut u32, room: usize, told: *mut u64, places: usize) -> u8;
    fn nt6861_vcd_more(
        file: *const u8,
        size: usize,
        words: *mut u32,
        room: usize,
        cursor: *mut u64,
        numbers: usize,
        told: *mut u64,
        places: usize,
    ) -> u8;
}

/// The whole file: the number, and the words written with the place of the refusal.
pub fn whole(file: &[u8], words: &mut [u32]) -> (u8, [u64; 2]) {
    let mut told = [0; 2];
    // A slice passes as a pointer and a length.
    let number = unsafe { nt6861_vcd(file.as_ptr(), file.len(), words.as_mut_ptr(), words.len(), told.as_mut_ptr(), 2) };
    (number, told)
}

/// The words from a cursor on, which begins as zeros.
pub fn more(file: &[u8], words: &mut [u32], cursor: &mut [u64; 8]) -> (u8, [u64; 2]) {
    let mut told = [0; 2];
    let number = unsafe {
        nt6861_vcd_more(file.as_ptr(), file.len(), words.as_mut_ptr(), words.len(), cursor.as_mut_ptr(), 8, told.as_mut_ptr(), 2)
    };
    (number, told)
}

/// 15 where told or the cursor has another length, and nothing is touched.
pub fn check_lengths() {
    let mut words = [7u32; 4];
    let mut told = [9u64; 3];
    let mut cursor = [5u64; 9];
    let file = b"$enddefinitions $end";
    for places in [0, 1, 3] {
        let number = unsafe { nt6861_vcd(file.as_ptr(), file.len(), words.as_mut_ptr(), 4, told.as_mut_ptr(), places) };
        assert_eq!((number, words, told), (15, [7; 4], [9; 3]));
        let number = unsafe {
            nt6861_vcd_more(file.as_ptr(), file.len(), words.as_mut_ptr(), 4, cursor.as_mut_ptr(), 8, told.as_mut_ptr(), places)
        };
        assert_eq!((number, words, told, cursor), (15, [7; 4], [9; 3], [5; 9]));
    }
    for numbers in [0, 7, 9] {
        let number = unsafe {
            nt6861_vcd_more(file.as_ptr(), file.len(), words.as_mut_ptr(), 4, cursor.as_mut_ptr(), numbers, told.as_mut_ptr(), 2)
        };
        assert_eq!((number, words, told, cursor), (15, [7; 4], [9; 3], [5; 9]));
    }
}
