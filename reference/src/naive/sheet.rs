//! The sheet: reading and writing.

use super::turns::{judge_counts, judge_turn, turns_of, Turn};
use super::{bit, lend, number};

/// How many bytes each field has: slope, groomer, start, length, worth, driver.
pub const WIDTHS: [usize; 6] = [1, 1, 2, 2, 2, 1];

/// What an accepted sheet says.
pub struct Sheet {
    pub groomers: u32,
    pub slopes: u32,
    pub turns: Vec<Turn>,
}

/// The counts of an accepted sheet.
#[derive(Clone, Copy, Debug, PartialEq, Eq)]
pub struct Counts {
    pub groomers: u32,
    pub slopes: u32,
    pub turns: u32,
}

/// How many turns a reader takes, and its refusal of a sheet that has more.
#[derive(Clone, Copy)]
pub struct Limit {
    pub turns: u32,
    pub refusal: u8,
}

/// The limit of sheets.
pub const LIMIT: Limit = Limit {
    turns: 400,
    refusal: 4,
};

/// The limit of the short reader.
pub const SHORT_LIMIT: Limit = Limit {
    turns: 96,
    refusal: 20,
};

/// Goes by the bytes of a sheet, from the first to the last: refusals 1 to 10
/// and 19.
pub fn accept(bytes: &[u8]) -> Result<Sheet, u8> {
    accept_within(bytes, LIMIT)
}

/// The same with another limit.
pub fn accept_within(bytes: &[u8], limit: Limit) -> Result<Sheet, u8> {
    if bytes.len() < 7 {
        return Err(1);
    }
    if bytes[0..3] != [0x47, 0x52, 0x4D] {
        return Err(2);
    }
    let (groomers, slopes) = (number(&bytes[3..4]), number(&bytes[4..5]));
    judge_counts(groomers, slopes)?;
    let count = number(&bytes[5..7]);
    if count > limit.turns {
        return Err(limit.refusal);
    }
    let mut turns = Vec::new();
    let mut rest = &bytes[7..];
    for _ in 0..count {
        let (turn, behind) = record(rest, turns.last())?;
        judge_turn(&turn, groomers, slopes)?;
        turns.push(turn);
        rest = behind;
    }
    if !rest.is_empty() {
        return Err(10);
    }
    Ok(Sheet {
        groomers,
        slopes,
        turns,
    })
}

/// The record at the front, whose values are not judged yet, and the bytes
/// behind it: refusals 1 and 5.
pub fn record<'a>(bytes: &'a [u8], before: Option<&Turn>) -> Result<(Turn, &'a [u8]), u8> {
    if bytes.is_empty() {
        return Err(1);
    }
    let map = bytes[0];
    if bit(map, 6) || bit(map, 7) {
        return Err(5);
    }
    if before.is_none() && map != 0x1F && map != 0x3F {
        return Err(5);
    }
    // What the map leaves out is as in the record before. The first record can
    // leave out the driver alone, which is 0 then.
    let mut values = before.map_or([0; 6], Turn::values);
    let mut place = 1;
    for field in 0..6 {
        if bit(map, field) {
            let end = place + WIDTHS[field];
            if bytes.len() < end {
                return Err(1);
            }
            values[field] = number(&bytes[place..end]);
            place = end;
        }
    }
    Ok((Turn::new(values), &bytes[place..]))
}

/// Reads a sheet into a turn table.
pub fn read(sheet: &[u8], table: &mut [u16]) -> Result<Counts, u8> {
    read_within(sheet, table, LIMIT)
}

/// Reads a sheet of up to 96 turns into a turn table.
pub fn read_short(sheet: &[u8], table: &mut [u16]) -> Result<Counts, u8> {
    read_within(sheet, table, SHORT_LIMIT)
}

/// Reads a sheet within a limit into a turn table.
pub fn read_within(sheet: &[u8], table: &mut [u16], limit: Limit) -> Result<Counts, u8> {
    let sheet = accept_within(sheet, limit)?;
    let turns = sheet.turns.len();
    if table.len() < 6 * turns {
        return Err(11);
    }
    for turn in 0..turns {
        for field in 0..6 {
            table[6 * turn + field] = sheet.turns[turn].values()[field] as u16;
        }
    }
    Ok(Counts {
        groomers: sheet.groomers,
        slopes: sheet.slopes,
        turns: turns as u32,
    })
}

/// Writes the turns of a table as a sheet and gives its length. They are
/// judged as the table has them, and written by their values.
pub fn write(groomers: u32, slopes: u32, table: &[u16], out: &mut [u8]) -> Result<usize, u8> {
    if !table.len().is_multiple_of(6) {
        return Err(18);
    }
    judge_counts(groomers, slopes)?;
    if table.len() / 6 > 400 {
        return Err(4);
    }
    let turns = turns_of(table);
    for turn in &turns {
        judge_turn(turn, groomers, slopes)?;
    }
    lend(&shortest(groomers, slopes, &in_order(&turns)), out)
}

/// The turns by slope, those of one slope by groomer, then by start, by length,
/// by worth and by driver, the least first each time. None is lost and none is
/// added.
fn in_order(turns: &[Turn]) -> Vec<Turn> {
    let mut turns = turns.to_vec();
    turns.sort_by_key(Turn::values);
    turns
}

/// The sheet of these turns as they stand, in which a bit stands only where
/// the value differs from the one before. The first record has every bit, but
/// that of the driver only if the turn names one.
fn shortest(groomers: u32, slopes: u32, turns: &[Turn]) -> Vec<u8> {
    let mut bytes = vec![0x47, 0x52, 0x4D];
    put(&mut bytes, groomers, 1);
    put(&mut bytes, slopes, 1);
    put(&mut bytes, turns.len() as u32, 2);
    for turn in 0..turns.len() {
        let values = turns[turn].values();
        let mut map = 0;
        let mut fields = Vec::new();
        for field in 0..6 {
            let is_written = match turn {
                0 => field < 5 || values[field] != 0,
                _ => values[field] != turns[turn - 1].values()[field],
            };
            if is_written {
                map |= 1 << field;
                put(&mut fields, values[field], WIDTHS[field]);
            }
        }
        bytes.push(map);
        bytes.extend(fields);
    }
    bytes
}

/// Adds a number of so many bytes, high byte first.
pub fn put(bytes: &mut Vec<u8>, number: u32, width: usize) {
    for place in (0..width).rev() {
        bytes.push((number >> (8 * place)) as u8);
    }
}
