//! How many groomers it takes to do all turns of a sheet, whatever groomers
//! and slopes the sheet names, and which of them does which turn.

use super::sheet::accept;
use super::turns::{too_close, Turn};

/// Writes a groomer's number at each turn's place and gives how many groomers
/// are used. 11 if there are fewer places than turns.
pub fn assign(sheet: &[u8], places: &mut [u16]) -> Result<u16, u8> {
    let turns = accept(sheet)?.turns;
    if places.len() < turns.len() {
        return Err(11);
    }
    let groomers = assigned(&turns);
    places[..turns.len()].copy_from_slice(&groomers);
    Ok(used(&groomers))
}

/// The groomer of each turn. Numbers are given out in the order of the starts,
/// of equal ones the lower turn first. A turn gets the first of 1, 2, 3, .. of
/// whose turns so far none is too close to it.
pub fn assigned(turns: &[Turn]) -> Vec<u16> {
    let mut groomers: Vec<Option<u16>> = vec![None; turns.len()];
    for turn in by_start(turns) {
        let mut groomer = 1;
        while !leaves_ten_minutes(turns, &groomers, turn, groomer) {
            groomer += 1;
        }
        groomers[turn] = Some(groomer);
    }
    groomers.into_iter().flatten().collect()
}

/// The turn numbers by start, those with one start by turn number.
fn by_start(turns: &[Turn]) -> Vec<usize> {
    let mut numbers: Vec<usize> = (0..turns.len()).collect();
    numbers.sort_by_key(|&turn| (turns[turn].start, turn));
    numbers
}

/// Whether no turn that this groomer has already is too close to the turn.
fn leaves_ten_minutes(turns: &[Turn], groomers: &[Option<u16>], turn: usize, groomer: u16) -> bool {
    for other in 0..turns.len() {
        if groomers[other] == Some(groomer) && too_close(&turns[turn], &turns[other]) {
            return false;
        }
    }
    true
}

/// How many different groomers there are.
pub fn used(groomers: &[u16]) -> u16 {
    let mut seen: Vec<u16> = Vec::new();
    for &groomer in groomers {
        if !seen.contains(&groomer) {
            seen.push(groomer);
        }
    }
    seen.len() as u16
}

/// How many turns are under way at once where most are, if every turn lasted
/// ten minutes more.
pub fn most_at_once(turns: &[Turn]) -> u16 {
    let longer = |turn: &Turn| Turn {
        length: turn.length + 10,
        ..*turn
    };
    let longer: Vec<Turn> = turns.iter().map(longer).collect();
    let mut most = 0;
    for minute in 0..960 + 10 {
        let together = longer.iter().filter(|turn| turn.holds(minute)).count();
        most = most.max(together as u16);
    }
    most
}
