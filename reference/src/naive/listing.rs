//! The drivers' listing.

use super::ceiling::ceiling;
use super::lend;
use super::planning::planned;
use super::sheet::{accept, Sheet};

/// Plans the turns of a sheet, writes the listing of that board as text and
/// gives its length.
pub fn listing(sheet: &[u8], out: &mut [u8]) -> Result<usize, u8> {
    let sheet = accept(sheet)?;
    lend(text(&sheet).as_bytes(), out)
}

/// The line that stands in place of a listing if the sheet is refused.
pub fn refused_line(number: u8) -> String {
    format!("refused {number}\n")
}

/// Each groomer by number, below it its chosen turns by start; then the sums.
fn text(sheet: &Sheet) -> String {
    let board = planned(&sheet.turns);
    let mut text = String::new();
    for groomer in 1..=sheet.groomers {
        text += &format!("groomer {groomer}\n");
        let mut round = Vec::new();
        for (turn, chosen) in sheet.turns.iter().zip(&board.chosen) {
            if *chosen && turn.groomer == groomer {
                round.push(turn);
            }
        }
        round.sort_by_key(|turn| turn.start);
        for turn in round {
            let (start, end) = (turn.start, turn.end());
            let (slope, worth) = (turn.slope, turn.worth);
            text += &format!("{start}-{end} slope {slope} worth {worth}\n");
        }
    }
    let (worth, tally) = (board.worth, board.tally);
    let ceiling = ceiling(&sheet.turns, &board.steps);
    text += &format!("worth {worth} tally {tally} ceiling {ceiling}\n");
    text
}
