//! The proved reading of the bus, as its C interface has it (include/nt6861.h).

#[link(name = "addresses_capi", kind = "static")]
extern "C" {
    fn nt6861_addresses(
        own: u8,
        changes: *const u16,
        changes_length: usize,
        found: *mut u16,
        found_length: usize,
        count: *mut usize,
    ) -> u8;
}

/// The number given back; with 0, how many addresses stand at the start of the places.
pub fn addresses(own: u8, changes: &[u16], found: &mut [u16], count: &mut usize) -> u8 {
    // A slice passes as a pointer and a length.
    unsafe { nt6861_addresses(own, changes.as_ptr(), changes.len(), found.as_mut_ptr(), found.len(), count) }
}
