//! The worked shift of the description: two groomers, three slopes, four turns.

use crate::boards::Draft;
use crate::gen::{self, Rng, Row, Shift};

/// Its turns.
pub const TURNS: [Row; 4] = [
    [1, 1, 0, 60, 100, 0],
    [2, 1, 30, 60, 150, 0],
    [1, 2, 0, 120, 80, 0],
    [3, 2, 120, 60, 90, 0],
];

/// Its sheet.
pub const SHEET: [u8; 39] = [
    0x47, 0x52, 0x4D, 0x02, 0x03, 0x00, 0x04, 0x1F, 0x01, 0x01, 0x00, 0x00, 0x00, 0x3C, 0x00, 0x64,
    0x15, 0x02, 0x00, 0x1E, 0x00, 0x96, 0x1F, 0x01, 0x02, 0x00, 0x00, 0x00, 0x78, 0x00, 0x50, 0x1D,
    0x03, 0x00, 0x78, 0x00, 0x3C, 0x00, 0x5A,
];

/// Its board.
pub const BOARD: [u8; 28] = [
    0x47, 0x52, 0x42, 0x00, 0x04, 0x00, 0x03, 0x00, 0x00, 0x00, 0xF0, 0x00, 0x00, 0x00, 0xF0, 0x0A,
    0x00, 0x00, 0x00, 0x64, 0x00, 0x01, 0x00, 0x32, 0x00, 0x03, 0x00, 0x5A,
];

/// The bytes with others from a place on.
pub fn with(bytes: &[u8], place: usize, others: &[u8]) -> Vec<u8> {
    let mut bytes = bytes.to_vec();
    bytes[place..place + others.len()].copy_from_slice(others);
    bytes
}

/// A board of four turns with these choices, sums and steps.
pub fn board_with(map: u8, [tally, worth]: [u32; 2], steps: &[(u16, u16)]) -> Vec<u8> {
    let draft = Draft {
        chosen: (0..4).map(|turn| map >> turn & 1 == 1).collect(),
        steps: steps.to_vec(),
        tally,
        worth,
    };
    draft.bytes()
}

/// The sheet of these turns with no field that could be left out.
pub fn sheet_of(groomers: u8, slopes: u8, turns: &[Row]) -> Vec<u8> {
    let shift = Shift {
        groomers,
        slopes,
        turns: turns.to_vec(),
    };
    gen::encode(&mut Rng::new(0), &shift, 0).bytes
}
