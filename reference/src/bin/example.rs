//! The Rust example over the naive version in the place of the library: prints
//! what `examples/expected` has.
//!
//! ```text
//! cargo run --release -p slopeboard-reference --bin example > examples/expected
//! ```

/// The names of the Rust crate, for the naive version.
mod slopeboard {
    pub use slopeboard_reference::limits::{MINUTES, MOST_SHORT_TURNS, NUMBERS_PER_TURN};
    pub use slopeboard_reference::naive::listing as list;
    pub use slopeboard_reference::naive::*;

    pub type Refusal = u8;

    pub const MOST_SHEET_BYTES: usize = 4007;
    pub const MOST_TEXT_BYTES: usize = 4096;

    pub const fn board_bytes(turns: usize) -> usize {
        15 + map_bytes(turns) + 4 * turns
    }

    pub const fn map_bytes(turns: usize) -> usize {
        turns.div_ceil(8)
    }

    pub fn open(board: &[u8]) -> Result<(), Refusal> {
        match slopeboard_reference::naive::open(board) {
            0 => Ok(()),
            refusal => Err(refusal),
        }
    }
}

include!("../../../bindings/rust/examples/shift.rs");
