//! The library's entries, each with a buffer that is large enough.

use crate::sheet::{Sheet, Turn};
use slopeboard::{ChargeRefined, Counts, Improved, Refined, Refusal, Standing};

/// The turns of a sheet, and its counts.
pub fn read(bytes: &[u8]) -> Result<Sheet, Refusal> {
    let mut table = [0; slopeboard::NUMBERS_PER_TURN * slopeboard::MOST_TURNS];
    let Counts {
        groomers,
        slopes,
        turns,
    } = slopeboard::read(bytes, &mut table)?;
    let rows = table.chunks_exact(slopeboard::NUMBERS_PER_TURN);
    Ok(Sheet {
        groomers,
        slopes,
        turns: rows.take(turns.into()).map(Turn::from_row).collect(),
    })
}

/// The sheet of these turns, in the writer's order.
pub fn write(groomers: u32, slopes: u32, turns: &[Turn]) -> Result<Vec<u8>, Refusal> {
    let table: Vec<u16> = turns.iter().flat_map(Turn::row).collect();
    filled(slopeboard::MOST_SHEET_BYTES, |room| {
        slopeboard::write(groomers, slopes, &table, room)
    })
}

pub fn draw(seed: u64, groomers: u32, slopes: u32, turns: u32) -> Result<Vec<u8>, Refusal> {
    filled(slopeboard::MOST_SHEET_BYTES, |room| {
        slopeboard::draw(seed, groomers, slopes, turns, room)
    })
}

pub fn keep(sheet: &[u8]) -> Result<Vec<u8>, Refusal> {
    filled(slopeboard::MOST_SHEET_BYTES, |room| {
        slopeboard::keep(sheet, room)
    })
}

pub fn restore(kept: &[u8]) -> Result<Vec<u8>, Refusal> {
    filled(slopeboard::MOST_SHEET_BYTES, |room| {
        slopeboard::restore(kept, room)
    })
}

pub fn plan(sheet: &[u8]) -> Result<Vec<u8>, Refusal> {
    let most = slopeboard::board_bytes(slopeboard::MOST_TURNS);
    filled(most, |room| slopeboard::plan(sheet, room))
}

/// The drivers' listing.
pub fn list(sheet: &[u8]) -> Result<String, Refusal> {
    let text = filled(slopeboard::MOST_TEXT_BYTES, |room| {
        slopeboard::list(sheet, room)
    })?;
    Ok(String::from_utf8_lossy(&text).into_owned())
}

/// How many groomers do all turns, and a groomer for each of so many turns.
pub fn assign(sheet: &[u8], turns: usize) -> Result<(u16, Vec<u16>), Refusal> {
    let mut places = vec![0; turns];
    let groomers = slopeboard::assign(sheet, &mut places)?;
    Ok((groomers, places))
}

/// The best worth and a choice map that earns it, of so many turns.
pub fn best(sheet: &[u8], turns: usize) -> Result<(u32, Vec<u8>), Refusal> {
    let mut map = vec![0; slopeboard::map_bytes(turns)];
    let worth = slopeboard::best(sheet, &mut map)?;
    Ok((worth, map))
}

/// What the search found, and its choice map, of so many turns.
pub fn improve(sheet: &[u8], turns: usize, visits: u64) -> Result<(Improved, Vec<u8>), Refusal> {
    let mut map = vec![0; slopeboard::map_bytes(turns)];
    let improved = slopeboard::improve(sheet, visits, &mut map)?;
    Ok((improved, map))
}

/// What the rounds came to, the board and so many prices.
pub fn refine(
    sheet: &[u8],
    numbers: usize,
    rounds: u32,
) -> Result<(Refined, Vec<u8>, Vec<u16>), Refusal> {
    let mut board = vec![0; slopeboard::board_bytes(slopeboard::MOST_TURNS)];
    let mut prices = vec![0; numbers];
    let refined = slopeboard::refine(sheet, rounds, &mut board, &mut prices)?;
    board.truncate(refined.bytes);
    Ok((refined, board, prices))
}

/// The standing of each groomer.
pub fn play(sheet: &[u8], board: &[u8], delays: &[u16]) -> Result<Vec<Standing>, Refusal> {
    let nothing = Standing {
        working: 0,
        driving: 0,
        standing: 0,
        turn: slopeboard::NO_TURN,
    };
    let mut list = vec![nothing; slopeboard::MOST_GROOMERS];
    let groomers = slopeboard::play(sheet, board, delays, &mut list)?;
    list.truncate(groomers.into());
    Ok(list)
}

/// The worth of a hall's plan, and its choice map, of at most so many windows.
pub fn charge(sheet: &[u8], windows: usize) -> Result<(u32, Vec<u8>), Refusal> {
    let mut map = vec![0; slopeboard::map_bytes(windows)];
    let worth = slopeboard::charge(sheet, &mut map)?;
    Ok((worth, map))
}

/// What the rounds for a hall of at most so many windows came to, the choice map
/// and the prices.
pub fn charge_refine(
    sheet: &[u8],
    windows: usize,
    rounds: u32,
) -> Result<(ChargeRefined, Vec<u8>, Vec<u16>), Refusal> {
    let mut map = vec![0; slopeboard::map_bytes(windows)];
    let mut prices = vec![0; slopeboard::MINUTES];
    let refined = slopeboard::charge_refine(sheet, rounds, &mut map, &mut prices)?;
    Ok((refined, map, prices))
}

/// The bytes that a call wrote.
fn filled(
    most: usize,
    call: impl FnOnce(&mut [u8]) -> Result<usize, Refusal>,
) -> Result<Vec<u8>, Refusal> {
    let mut bytes = vec![0; most];
    let length = call(&mut bytes)?;
    bytes.truncate(length);
    Ok(bytes)
}
