//! The shift sheet's writer.

use super::refusal;
use super::sheet::{HEADER_LEN, MAGIC, MOST_LEN};
use super::turns::{judge_counts, Turn};
use crate::limits::{MOST_TURNS, NUMBERS_PER_TURN};

/// Writes the sheet of a table's turns, sorted by their values, and gives its
/// length.
pub fn write(groomers: u32, slopes: u32, table: &[u16], out: &mut [u8]) -> Result<usize, u8> {
    if !table.len().is_multiple_of(NUMBERS_PER_TURN) {
        return Err(refusal::PARTIAL_TURN);
    }
    judge_counts(groomers, slopes)?;
    let count = table.len() / NUMBERS_PER_TURN;
    if count > MOST_TURNS {
        return Err(refusal::TOO_MANY_TURNS);
    }
    let mut keys = [0; MOST_TURNS];
    let keys = &mut keys[..count];
    for (key, row) in keys.iter_mut().zip(table.chunks_exact(NUMBERS_PER_TURN)) {
        let turn = Turn::of(row);
        turn.judge(groomers, slopes)?;
        *key = key_of(&turn);
    }
    // Both counts have been judged, so they fit a byte.
    write_keys(groomers as u8, slopes as u8, keys, out)
}

/// Writes the sheet of the turns with these keys, which come in any order.
pub fn write_keys(groomers: u8, slopes: u8, keys: &mut [u64], out: &mut [u8]) -> Result<usize, u8> {
    keys.sort_unstable();
    let mut sheet = [0; MOST_LEN];
    let len = put(groomers, slopes, keys, &mut sheet);
    let place = out.get_mut(..len).ok_or(refusal::BUFFER_TOO_SMALL)?;
    place.copy_from_slice(&sheet[..len]);
    Ok(len)
}

/// All values of a judged turn in one number, the slope highest, so that the
/// numbers have the order of the turns. The start, which is below 960, and the
/// groomer share two bytes, so that the driver has room: from the top, slope
/// 8 bits, groomer 6, start 10, length 16, worth 16, driver 8.
pub fn key_of(turn: &Turn) -> u64 {
    u64::from(turn.slope) << 56
        | u64::from(turn.groomer) << 50
        | u64::from(turn.start) << 40
        | u64::from(turn.length) << 24
        | u64::from(turn.worth) << 8
        | u64::from(turn.driver)
}

/// Where each field stands in a key: how far to shift it down, its bits, and
/// the bytes that it takes in a record.
const PLACES: [(u32, u64, usize); NUMBERS_PER_TURN] = [
    (56, 0xFF, 1),
    (50, 0x3F, 1),
    (40, 0x3FF, 2),
    (24, 0xFFFF, 2),
    (8, 0xFFFF, 2),
    (0, 0xFF, 1),
];

/// Writes the sheet at the front of the array and gives its length.
fn put(groomers: u8, slopes: u8, keys: &[u64], sheet: &mut [u8; MOST_LEN]) -> usize {
    sheet[..3].copy_from_slice(&MAGIC);
    sheet[3] = groomers;
    sheet[4] = slopes;
    sheet[5..7].copy_from_slice(&(keys.len() as u16).to_be_bytes());
    let mut at = HEADER_LEN;
    let Some(first) = keys.first() else {
        return at;
    };
    // Nothing stands before the first record: every field differs, the driver
    // from 0.
    let mut before = !first & !0xFF;
    for &key in keys {
        at += put_record(key, before, &mut sheet[at..]);
        before = key;
    }
    at
}

/// Writes one record and gives its length.
fn put_record(key: u64, before: u64, place: &mut [u8]) -> usize {
    let differs = key ^ before;
    let mut map = 0;
    let mut at = 1;
    for (field, (shift, bits, width)) in PLACES.into_iter().enumerate() {
        if differs >> shift & bits != 0 {
            map |= 1 << field;
            let value = ((key >> shift & bits) as u16).to_be_bytes();
            place[at..at + width].copy_from_slice(&value[2 - width..]);
            at += width;
        }
    }
    place[0] = map;
    at
}
