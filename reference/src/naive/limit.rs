//! A limit by prices: whatever the prices are, no set of turns in which no two
//! conflict is worth more.

use super::best::{by_end, shown, table};
use super::sheet::{accept, Sheet};
use super::turns::{too_close_on_driver, Turn};

/// What a list of prices shows.
pub struct Look {
    pub limit: u32,
    /// The numbers of the turns in the best sets of all groomers: the relaxed
    /// set.
    pub relaxed: Vec<usize>,
}

/// The limit at these prices. After the sheet's refusals 26 for a list of any
/// other length.
pub fn limit(sheet: &[u8], prices: &[u16]) -> Result<u32, u8> {
    let sheet = accept(sheet)?;
    if prices.len() != numbers(&sheet) {
        return Err(26);
    }
    Ok(look(&sheet, prices).limit)
}

/// How many prices a list has: the slopes' come first, then the turns'.
pub fn numbers(sheet: &Sheet) -> usize {
    sheet.slopes as usize + sheet.turns.len()
}

/// Whether the turn pays the price at this place of a list: that of its slope,
/// or that of a turn which it pays for its driver.
pub fn pays(sheet: &Sheet, turn: usize, place: usize) -> bool {
    let slopes = sheet.slopes as usize;
    if place < slopes {
        return sheet.turns[turn].slope as usize == place + 1;
    }
    pays_for_driver(&sheet.turns, turn, place - slopes)
}

/// Whether the turn names a driver, the other is itself or conflicts with it by
/// driver, and the other's end is not after its own.
pub fn pays_for_driver(turns: &[Turn], turn: usize, other: usize) -> bool {
    let (a, b) = (&turns[turn], &turns[other]);
    let is_own = a.driver != 0 && turn == other;
    (is_own || too_close_on_driver(a, b)) && b.end() <= a.end()
}

/// What the turn pays in all.
pub fn paid(sheet: &Sheet, prices: &[u16], turn: usize) -> u32 {
    let mut sum = 0;
    for place in 0..prices.len() {
        if pays(sheet, turn, place) {
            sum += u32::from(prices[place]);
        }
    }
    sum
}

/// What the turn counts for: its worth without what it pays, and never less
/// than 0.
pub fn counts_for(sheet: &Sheet, prices: &[u16], turn: usize) -> u32 {
    let (worth, paid) = (sheet.turns[turn].worth, paid(sheet, prices, turn));
    match worth > paid {
        true => worth - paid,
        false => 0,
    }
}

/// Whether the price at this place is one of a turn without a driver, which
/// nobody pays and which is no part of the limit.
pub fn counts_nowhere(sheet: &Sheet, place: usize) -> bool {
    let slopes = sheet.slopes as usize;
    place >= slopes && sheet.turns[place - slopes].driver == 0
}

/// Looks at the prices: all of them but those that count nowhere are summed up, and to the
/// sum comes what each groomer's best set counts for. The table is that of the
/// best worth, with the counts in the place of worths.
pub fn look(sheet: &Sheet, prices: &[u16]) -> Look {
    let mut limit = 0;
    for place in 0..prices.len() {
        if !counts_nowhere(sheet, place) {
            limit += u32::from(prices[place]);
        }
    }
    let mut counted = sheet.turns.clone();
    for turn in 0..counted.len() {
        counted[turn].worth = counts_for(sheet, prices, turn);
    }
    let mut relaxed = Vec::new();
    for groomer in 1..=sheet.groomers {
        let round = by_end(&counted, groomer);
        let table = table(&counted, &round);
        limit += table[round.len()];
        relaxed.extend(shown(&counted, &round, &table));
    }
    Look { limit, relaxed }
}
