//! The drivers' listing.

use std::fmt::Write;

use super::board::{board_len, is_marked, view};
use super::plan::plan_turns;
use super::refusal;
use super::sheet::{no_turns, parse};
use super::turns::Turn;

/// Writes the listing of a sheet's plan as text and gives its length.
pub fn listing(sheet: &[u8], out: &mut [u8]) -> Result<usize, u8> {
    let mut turns = no_turns();
    let header = parse(sheet, &mut turns)?;
    let text = text(header.groomers, &turns[..usize::from(header.turns)]);
    let Some(place) = out.get_mut(..text.len()) else {
        return Err(refusal::BUFFER_TOO_SMALL);
    };
    place.copy_from_slice(text.as_bytes());
    Ok(text.len())
}

fn text(groomers: u16, turns: &[Turn]) -> String {
    let mut bytes = vec![0; board_len(turns.len(), turns.len())];
    let (len, ceiling) = plan_turns::<true>(turns, &mut bytes);
    let board = view(&bytes[..len]).expect("the planner writes well-formed boards");
    let mut text = String::new();
    for groomer in 1..=groomers {
        put_line(&mut text, format_args!("groomer {groomer}"));
        for turn in round_of(groomer, turns, board.map) {
            put_turn(&mut text, &turn);
        }
    }
    let (worth, tally) = (board.worth, board.tally);
    put_line(
        &mut text,
        format_args!("worth {worth} tally {tally} ceiling {ceiling}"),
    );
    text
}

/// A groomer's chosen turns by start. No two starts are equal, since the
/// chosen turns of a groomer never overlap.
fn round_of(groomer: u16, turns: &[Turn], map: &[u8]) -> Vec<Turn> {
    let mut round: Vec<Turn> = turns
        .iter()
        .enumerate()
        .filter(|(number, turn)| is_marked(map, *number) && turn.groomer == groomer)
        .map(|(_, turn)| *turn)
        .collect();
    round.sort_unstable_by_key(|turn| turn.start);
    round
}

fn put_turn(text: &mut String, turn: &Turn) {
    let (start, end) = (turn.start, turn.end());
    let (slope, worth) = (turn.slope, turn.worth);
    put_line(
        text,
        format_args!("{start}-{end} slope {slope} worth {worth}"),
    );
}

fn put_line(text: &mut String, line: std::fmt::Arguments) {
    writeln!(text, "{line}").expect("a string takes all text");
}
