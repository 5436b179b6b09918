//! The board: its bytes, and opening it.

use super::sheet::put;
use super::{bit, number};

/// What a board says. It has a choice for each turn.
#[derive(Clone, Debug, PartialEq, Eq)]
pub struct Board {
    pub tally: i64,
    pub worth: i64,
    pub chosen: Vec<bool>,
    /// Each step's turn number and amount.
    pub steps: Vec<(usize, i64)>,
}

impl Board {
    /// The board as bytes. Its numbers are small enough for their places.
    pub fn bytes(&self) -> Vec<u8> {
        let n = self.chosen.len();
        let mut bytes = vec![0x47, 0x52, 0x42];
        put(&mut bytes, n as u32, 2);
        put(&mut bytes, self.steps.len() as u32, 2);
        put(&mut bytes, self.tally as u32, 4);
        put(&mut bytes, self.worth as u32, 4);
        bytes.extend(choice_map(&self.chosen));
        for &(turn, amount) in &self.steps {
            put(&mut bytes, turn as u32, 2);
            put(&mut bytes, amount as u32, 2);
        }
        bytes
    }
}

/// The choice map of these turns.
pub fn choice_map(chosen: &[bool]) -> Vec<u8> {
    let mut map = vec![0; chosen.len().div_ceil(8)];
    for turn in 0..chosen.len() {
        if chosen[turn] {
            map[turn / 8] |= 1 << (turn % 8);
        }
    }
    map
}

/// Opens a board by its own count of turns: refusal 12.
pub fn opened(bytes: &[u8]) -> Result<Board, u8> {
    if bytes.len() < 15 || bytes[0..3] != [0x47, 0x52, 0x42] {
        return Err(12);
    }
    let n = number(&bytes[3..5]) as usize;
    let m = number(&bytes[5..7]) as usize;
    if m > n || bytes.len() != 15 + n.div_ceil(8) + 4 * m {
        return Err(12);
    }
    let (map, steps) = bytes[15..].split_at(n.div_ceil(8));
    let stands = |turn: usize| bit(map[turn / 8], turn % 8);
    if (n..8 * map.len()).any(stands) {
        return Err(12);
    }
    let step = |step: &[u8]| (number(&step[0..2]) as usize, number(&step[2..4]).into());
    Ok(Board {
        tally: number(&bytes[7..11]).into(),
        worth: number(&bytes[11..15]).into(),
        chosen: (0..n).map(stands).collect(),
        steps: steps.chunks(4).map(step).collect(),
    })
}

/// Whether the bytes are a board: 0, else 12.
pub fn open(board: &[u8]) -> u8 {
    match opened(board) {
        Ok(_) => 0,
        Err(refusal) => refusal,
    }
}

/// The part of a board's bytes that its steps are; empty on 12.
pub fn steps(board: &[u8]) -> &[u8] {
    match opened(board) {
        Ok(opened) => &board[15 + opened.chosen.len().div_ceil(8)..],
        Err(_) => &[],
    }
}

/// How many turns are chosen: as many as the choice map has ones.
pub fn count(board: &[u8]) -> Result<u32, u8> {
    let board = opened(board)?;
    let mut ones = 0;
    for chosen in board.chosen {
        if chosen {
            ones += 1;
        }
    }
    Ok(ones)
}

/// Whether the turn with this number is chosen; not so on 12, nor where the
/// board has no such turn.
pub fn is_chosen(board: &[u8], turn: usize) -> bool {
    match opened(board) {
        Ok(board) => turn < board.chosen.len() && board.chosen[turn],
        Err(_) => false,
    }
}
