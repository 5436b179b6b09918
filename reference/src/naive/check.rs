//! The check of a board against a sheet.

use super::board::opened;
use super::ceiling::ceiling;
use super::planning::{fits, is_open, take, tally, worth, worths};
use super::sheet::accept;
use super::turns::{conflict, same_driver, Turn};

/// What a board that passes has: its tally and worth, and its steps' ceiling.
#[derive(Clone, Copy, Debug, PartialEq, Eq)]
pub struct Sums {
    pub tally: u32,
    pub worth: u32,
    pub ceiling: u32,
}

/// Checks a board against a sheet: the sheet's refusals, then 12 to 17, in
/// their order.
pub fn check(sheet: &[u8], board: &[u8]) -> Result<Sums, u8> {
    let turns = accept(sheet)?.turns;
    let board = opened(board)?;
    if board.chosen.len() != turns.len() {
        return Err(12);
    }
    check_choice(&turns, &board.chosen)?;
    check_steps(&turns, &board.steps)?;
    let tally_is_right = board.tally == tally(&board.steps);
    let worth_is_right = board.worth == worth(&turns, &board.chosen);
    if !tally_is_right || !worth_is_right || board.worth < board.tally {
        return Err(17);
    }
    Ok(Sums {
        tally: board.tally as u32,
        worth: board.worth as u32,
        ceiling: ceiling(&turns, &board.steps) as u32,
    })
}

/// Refusals 13, two chosen turns that conflict, and 14, an unchosen turn that
/// conflicts with none chosen.
fn check_choice(turns: &[Turn], chosen: &[bool]) -> Result<(), u8> {
    for a in 0..turns.len() {
        for b in 0..turns.len() {
            if chosen[a] && chosen[b] && conflict(turns, a, b) {
                return Err(13);
            }
        }
    }
    for turn in 0..turns.len() {
        if !chosen[turn] && fits(turns, chosen, turn) {
            return Err(14);
        }
    }
    Ok(())
}

/// Refusals 15, a step that is not right, and 16, a turn that all the steps
/// leave open.
fn check_steps(turns: &[Turn], steps: &[(usize, i64)]) -> Result<(), u8> {
    let mut left = worths(turns);
    for &(turn, amount) in steps {
        if !is_right(turns, &left, turn, amount) {
            return Err(15);
        }
        take(turns, &mut left, turn, amount);
    }
    if (0..turns.len()).any(|turn| is_open(&left, turn)) {
        return Err(16);
    }
    Ok(())
}

/// Whether a step is right where it stands: the sheet has its turn, something
/// is left of that turn and the amount is all of it, and of what is open
/// nothing of the same groomer or driver ends sooner.
fn is_right(turns: &[Turn], left: &[i64], turn: usize, amount: i64) -> bool {
    if turn >= turns.len() || !is_open(left, turn) || amount != left[turn] {
        return false;
    }
    for other in 0..turns.len() {
        let (a, b) = (&turns[other], &turns[turn]);
        let of_groomer_or_driver = a.groomer == b.groomer || same_driver(a, b);
        if is_open(left, other) && of_groomer_or_driver && a.end() < b.end() {
            return false;
        }
    }
    true
}
