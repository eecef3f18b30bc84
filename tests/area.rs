//! A chip of the independent model as the 128 bytes of the C interface, by its own reading of docs/STATE.md (model/state.rs).

use nt6861_model::chip::Chip;
use nt6861_model::state;

/// The bytes that a well formed chip is written as.
pub fn written(chip: &Chip) -> [u8; state::SIZE] {
    state::write(chip)
}

/// The chip that is written as these bytes, if there is one.
pub fn read(bytes: &[u8; state::SIZE]) -> Option<Chip> {
    state::read(bytes).ok()
}
