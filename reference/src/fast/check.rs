//! The check of a board against its sheet.

use super::board::{each_step, is_marked, view, Step};
use super::columns::Columns;
use super::refusal;
use super::sheet::{no_turns, parse};
use super::turns::{Selection, Turn};

/// The sums of a board that passed.
#[derive(Clone, Copy, Debug, PartialEq, Eq)]
pub struct Sums {
    pub tally: u32,
    pub worth: u32,
    pub ceiling: u32,
}

/// Checks a board against a sheet.
pub fn check(sheet: &[u8], board: &[u8]) -> Result<Sums, u8> {
    let mut turns = no_turns();
    let header = parse(sheet, &mut turns)?;
    let turns = &turns[..usize::from(header.turns)];
    let board = view(board).ok_or(refusal::MALFORMED_BOARD)?;
    if board.turns != turns.len() {
        return Err(refusal::MALFORMED_BOARD);
    }
    let worth = check_choice(turns, board.map)?;
    let (tally, ceiling) = check_steps(turns, board.steps)?;
    if board.tally != tally || board.worth != worth || worth < tally {
        return Err(refusal::WRONG_SUMS);
    }
    Ok(Sums {
        tally,
        worth,
        ceiling,
    })
}

/// Checks that the chosen turns get along and that no other would fit in.
/// Gives their worth.
fn check_choice(turns: &[Turn], map: &[u8]) -> Result<u32, u8> {
    let mut selection = Selection::new();
    for (number, turn) in turns.iter().enumerate() {
        if is_marked(map, number) && !selection.add(turn) {
            return Err(refusal::CHOSEN_CONFLICT);
        }
    }
    for (number, turn) in turns.iter().enumerate() {
        if !is_marked(map, number) && selection.fits(turn) {
            return Err(refusal::NOT_MAXIMAL);
        }
    }
    Ok(selection.worth())
}

/// Follows the steps, checks each and that none is missing. Gives their tally
/// and their ceiling.
fn check_steps(turns: &[Turn], steps: &[u8]) -> Result<(u32, u32), u8> {
    let mut columns = Columns::new(turns);
    let places = columns.places();
    let (mut tally, mut ceiling) = (0, 0);
    let mut from = 0;
    for Step { turn, amount } in each_step(steps) {
        from = columns.first_open(from);
        let place = places[..turns.len()].get(usize::from(turn));
        let at = usize::from(*place.ok_or(refusal::WRONG_STEP)?);
        let left = columns.residual(at);
        if left <= 0 || left != i32::from(amount) || columns.is_any_earlier(from, at) {
            return Err(refusal::WRONG_STEP);
        }
        tally += u32::from(amount);
        ceiling += columns.charge::<true>(from, at, left) * u32::from(amount);
    }
    if columns.first_open(from) < turns.len() {
        return Err(refusal::TURN_LEFT_OPEN);
    }
    Ok((tally, ceiling))
}
