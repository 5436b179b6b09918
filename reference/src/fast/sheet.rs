//! The shift sheet's reader.

use super::refusal;
use super::turns::{judge_counts, Turn};
use crate::limits::{MOST_SHORT_TURNS, MOST_TURNS, NUMBERS_PER_TURN};

pub const MAGIC: [u8; 3] = *b"GRM";
pub const HEADER_LEN: usize = 7;
/// Bytes of the longest sheet: a map and nine bytes for each turn.
pub const MOST_LEN: usize = HEADER_LEN + 10 * MOST_TURNS;

const HAS_SLOPE: u8 = 1;
const HAS_GROOMER: u8 = 1 << 1;
const HAS_START: u8 = 1 << 2;
const HAS_LENGTH: u8 = 1 << 3;
const HAS_WORTH: u8 = 1 << 4;
const HAS_DRIVER: u8 = 1 << 5;
const ALL_FIELDS: u8 = 0x3F;
/// The fields of two bytes; the others have one.
const WIDE_FIELDS: u8 = HAS_START | HAS_LENGTH | HAS_WORTH;

/// The three counts at the head of a sheet.
#[derive(Clone, Copy, Debug, PartialEq, Eq)]
pub struct Header {
    pub groomers: u16,
    pub slopes: u16,
    pub turns: u16,
}

/// Room for the turns of any accepted sheet.
pub type TurnArray = [Turn; MOST_TURNS];

pub fn no_turns() -> TurnArray {
    [Turn::default(); MOST_TURNS]
}

/// Reads a sheet into a turn table. The table is written only on success, and
/// only as far as the turns go.
pub fn read(sheet: &[u8], table: &mut [u16]) -> Result<Header, u8> {
    let mut turns = no_turns();
    let header = parse(sheet, &mut turns)?;
    put_table(header, &turns, table)
}

/// Reads a sheet of at most [`MOST_SHORT_TURNS`] turns into a turn table.
pub fn read_short(sheet: &[u8], table: &mut [u16]) -> Result<Header, u8> {
    let mut turns = [Turn::default(); MOST_SHORT_TURNS];
    let header = parse_within(sheet, &mut turns, refusal::TOO_MANY_FOR_SHORT)?;
    put_table(header, &turns, table)
}

fn put_table(header: Header, turns: &[Turn], table: &mut [u16]) -> Result<Header, u8> {
    let count = usize::from(header.turns);
    if table.len() < count * NUMBERS_PER_TURN {
        return Err(refusal::BUFFER_TOO_SMALL);
    }
    for (place, turn) in table
        .chunks_exact_mut(NUMBERS_PER_TURN)
        .zip(&turns[..count])
    {
        place.copy_from_slice(&turn.fields());
    }
    Ok(header)
}

/// Goes through all bytes of a sheet and leaves its turns in the array.
pub fn parse(sheet: &[u8], turns: &mut TurnArray) -> Result<Header, u8> {
    parse_within(sheet, turns, refusal::TOO_MANY_TURNS)
}

/// The same with room for fewer turns, and a refusal of more.
fn parse_within(sheet: &[u8], turns: &mut [Turn], too_many: u8) -> Result<Header, u8> {
    let (header, mut rest) = parse_header(sheet, MAGIC)?;
    if usize::from(header.turns) > turns.len() {
        return Err(too_many);
    }
    let groomers = u32::from(header.groomers);
    let slopes = u32::from(header.slopes);
    let mut previous = None;
    for place in &mut turns[..usize::from(header.turns)] {
        let (turn, later) = parse_record(rest, previous)?;
        turn.judge(groomers, slopes)?;
        *place = turn;
        previous = Some(turn);
        rest = later;
    }
    if rest.is_empty() {
        Ok(header)
    } else {
        Err(refusal::TRAILING_BYTES)
    }
}

/// Takes the header off the bytes, which open with this mark.
pub fn parse_header(sheet: &[u8], magic: [u8; 3]) -> Result<(Header, &[u8]), u8> {
    if sheet.len() < HEADER_LEN {
        return Err(refusal::TRUNCATED);
    }
    let (bytes, rest) = sheet.split_at(HEADER_LEN);
    if bytes[..3] != magic {
        return Err(refusal::BAD_MAGIC);
    }
    let header = Header {
        groomers: u16::from(bytes[3]),
        slopes: u16::from(bytes[4]),
        turns: u16::from_be_bytes([bytes[5], bytes[6]]),
    };
    judge_counts(u32::from(header.groomers), u32::from(header.slopes))?;
    Ok((header, rest))
}

/// Takes one record off the bytes. The whole record must be there before any
/// of its values counts, so the values are judged by the caller.
pub fn parse_record(bytes: &[u8], previous: Option<Turn>) -> Result<(Turn, &[u8]), u8> {
    let (&map, after) = bytes.split_first().ok_or(refusal::TRUNCATED)?;
    if !map_fits(map, previous.is_none()) {
        return Err(refusal::BAD_MAP);
    }
    let size = fields_len(map);
    if after.len() < size {
        return Err(refusal::TRUNCATED);
    }
    let (fields, rest) = after.split_at(size);
    Ok((resolve(map, fields, previous.unwrap_or_default()), rest))
}

/// Whether a record, the first or a later one, can have this map.
pub fn map_fits(map: u8, first: bool) -> bool {
    match first {
        true => map | HAS_DRIVER == ALL_FIELDS,
        false => map & !ALL_FIELDS == 0,
    }
}

/// Bytes of the fields that a map announces.
pub fn fields_len(map: u8) -> usize {
    (map.count_ones() + (map & WIDE_FIELDS).count_ones()) as usize
}

/// Completes the turn before with the fields that the record brings.
fn resolve(map: u8, fields: &[u8], previous: Turn) -> Turn {
    let mut turn = previous;
    let mut at = 0;
    if map & HAS_SLOPE != 0 {
        turn.slope = u16::from(fields[at]);
        at += 1;
    }
    if map & HAS_GROOMER != 0 {
        turn.groomer = u16::from(fields[at]);
        at += 1;
    }
    if map & HAS_START != 0 {
        turn.start = u16::from_be_bytes([fields[at], fields[at + 1]]);
        at += 2;
    }
    if map & HAS_LENGTH != 0 {
        turn.length = u16::from_be_bytes([fields[at], fields[at + 1]]);
        at += 2;
    }
    if map & HAS_WORTH != 0 {
        turn.worth = u16::from_be_bytes([fields[at], fields[at + 1]]);
        at += 2;
    }
    if map & HAS_DRIVER != 0 {
        turn.driver = u16::from(fields[at]);
    }
    turn
}
