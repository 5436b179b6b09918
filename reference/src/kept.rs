//! Seeded kept forms, right ones and faulty ones. Made from the records of an
//! encoded shift, without either version.

use crate::gen::{self, Encoded, Rng, Shift, HEADER_LEN};

/// Bytes of the fields by bit.
const WIDTHS: [usize; 6] = [1, 1, 2, 2, 2, 1];

/// The kept form of a shift. Its values need not be such that anyone takes
/// them. Fields that a record could leave out are there in so many of a hundred
/// cases.
pub fn encode(rng: &mut Rng, shift: &Shift, redundant: u32) -> Vec<u8> {
    by_column(&gen::encode(rng, shift, redundant))
}

/// The records' maps, then their fields, column by column.
fn by_column(sheet: &Encoded) -> Vec<u8> {
    let mut maps = Vec::new();
    let mut columns: [Vec<u8>; 6] = Default::default();
    for &place in &sheet.maps {
        let map = sheet.bytes[place];
        maps.push(map);
        let mut at = place + 1;
        for (field, width) in WIDTHS.into_iter().enumerate() {
            if map >> field & 1 == 1 {
                columns[field].extend(&sheet.bytes[at..at + width]);
                at += width;
            }
        }
    }
    let mut kept = b"GRC".to_vec();
    kept.extend(&sheet.bytes[3..HEADER_LEN]);
    kept.extend(maps);
    kept.extend(columns.concat());
    kept
}

/// How many kinds of fault there are.
pub const FAULTS: u32 = 9;

/// A kept form of the shift, which has turns, with a fault of this kind. Some
/// come out unharmed.
pub fn with_fault(rng: &mut Rng, shift: &Shift, kind: u32) -> Vec<u8> {
    let mut kept = match kind {
        0 | 1 => {
            let shift = gen::bounded(rng, shift);
            encode(rng, &shift, 20)
        }
        _ => encode(rng, shift, 20),
    };
    let turns = shift.turns.len() as u32;
    match kind {
        0 => {}
        // A wrong value, and a length that is wrong, too.
        1 | 2 => change_length(rng, &mut kept),
        // A map with an unknown bit, whatever else is wrong.
        3 => {
            let place = HEADER_LEN + rng.below(turns) as usize;
            kept[place] |= rng.pick(&[0x40, 0x80, 0xC0]);
            if rng.percent(50) {
                change_length(rng, &mut kept);
            }
        }
        // A first map that lacks a field.
        4 => kept[HEADER_LEN] = rng.pick(&[0, 0x0F, 0x1E, 0x2F, 0x3E, 0x5F]),
        // Any map: the columns no longer have the length that it says.
        5 => {
            let place = HEADER_LEN + rng.below(turns) as usize;
            kept[place] ^= 1 << rng.below(8);
        }
        // Cut among the maps or in the header.
        6 => kept.truncate(rng.below(HEADER_LEN as u32 + turns + 1) as usize),
        7 => {
            let place = rng.below(HEADER_LEN as u32) as usize;
            kept[place] = rng.pick(&[0, 1, 2, 16, 17, 67, 77, 120, 121, 144, 145, 255]);
        }
        _ => {
            let place = rng.below(kept.len() as u32) as usize;
            kept[place] ^= rng.between(1, 255) as u8;
        }
    }
    kept
}

/// Cuts some bytes off, or puts some behind.
fn change_length(rng: &mut Rng, kept: &mut Vec<u8>) {
    let by = rng.pick(&[1, 1, 2, 9]);
    match rng.percent(50) {
        true => kept.truncate(kept.len().saturating_sub(by)),
        false => kept.extend((0..by).map(|_| rng.below(256) as u8)),
    }
}

/// The kept form under marks that are close to the right one.
pub fn wrong_marks(kept: &[u8]) -> Vec<Vec<u8>> {
    let marks = [b"GRM", b"GRB", b"GRE", b"grc", b"GCR", b"HRC", b"\0\0\0"];
    gen::under_marks(kept, &marks)
}
