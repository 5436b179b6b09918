//! A board played with delays, in two ways: by the turns, as fast as
//! can be, and minute by minute over the caller's list, for a bench of like
//! with like.

use super::board::{is_marked, view};
use super::check::check;
use super::refusal;
use super::sheet::{no_turns, parse};
use super::turns::Turn;
use crate::limits::{DRIVE_OVER, LAST_END, MOST_DELAY, MOST_GROOMERS, MOST_SLOPES, NO_TURN};

/// What a groomer has done, and the turn in its hand.
#[derive(Clone, Copy, Debug, Default, PartialEq, Eq)]
#[repr(C)]
pub struct Standing {
    pub working: u16,
    pub driving: u16,
    pub standing: u16,
    pub turn: u16,
}

/// A board ready to be played: its chosen turns by groomer and start.
struct Game {
    groomers: usize,
    /// One turn a slope can be chosen.
    rounds: [Work; MOST_SLOPES as usize],
    count: usize,
}

/// A chosen turn.
#[derive(Clone, Copy, Default)]
struct Work {
    /// The groomer, the start and the turn's number, from the top.
    key: u32,
    /// Length and delay together.
    minutes: u32,
}

impl Work {
    fn new(number: usize, turn: &Turn, delay: u16) -> Work {
        Work {
            key: u32::from(turn.groomer) << 24 | u32::from(turn.start) << 12 | number as u32,
            minutes: u32::from(turn.length) + u32::from(delay),
        }
    }

    fn groomer(&self) -> usize {
        (self.key >> 24) as usize - 1
    }

    fn start(&self) -> u32 {
        self.key >> 12 & 0xFFF
    }

    fn turn(&self) -> u16 {
        (self.key & 0xFFF) as u16
    }
}

impl Game {
    /// Judges all that is given.
    fn new(sheet: &[u8], board: &[u8], delays: &[u16], places: usize) -> Result<Game, u8> {
        check(sheet, board)?;
        let mut turns = no_turns();
        let header = parse(sheet, &mut turns)?;
        let turns = &turns[..usize::from(header.turns)];
        let board = view(board).ok_or(refusal::MALFORMED_BOARD)?;
        if delays.len() != turns.len() || delays.iter().any(|&delay| delay > MOST_DELAY) {
            return Err(refusal::BAD_DELAYS);
        }
        let groomers = usize::from(header.groomers);
        if places < groomers {
            return Err(refusal::BUFFER_TOO_SMALL);
        }
        let mut game = Game {
            groomers,
            rounds: [Work::default(); MOST_SLOPES as usize],
            count: 0,
        };
        for (number, (turn, &delay)) in turns.iter().zip(delays).enumerate() {
            if is_marked(board.map, number) {
                game.rounds[game.count] = Work::new(number, turn, delay);
                game.count += 1;
            }
        }
        game.rounds[..game.count].sort_unstable_by_key(|work| work.key);
        Ok(game)
    }

    fn rounds(&self) -> &[Work] {
        &self.rounds[..self.count]
    }
}

/// The standing of a groomer with no minute played.
const FRESH: Standing = Standing {
    working: 0,
    driving: 0,
    standing: 0,
    turn: NO_TURN,
};

/// Writes the standing of each groomer after the last minute and gives how many
/// groomers there are.
pub fn play(sheet: &[u8], board: &[u8], delays: &[u16], list: &mut [Standing]) -> Result<u16, u8> {
    let game = Game::new(sheet, board, delays, list.len())?;
    let list = &mut list[..game.groomers];
    list.fill(Standing {
        standing: LAST_END as u16,
        ..FRESH
    });
    // By groomer, the first minute in which its next turn can begin.
    let mut free = [0; MOST_GROOMERS as usize];
    for work in game.rounds() {
        let standing = &mut list[work.groomer()];
        let from = work.start().max(free[work.groomer()]);
        let until = from + work.minutes;
        free[work.groomer()] = until + DRIVE_OVER;
        let working = until.min(LAST_END) - from.min(LAST_END);
        let driving = (until + DRIVE_OVER).min(LAST_END) - until.min(LAST_END);
        standing.working += working as u16;
        standing.driving += driving as u16;
        standing.standing -= (working + driving) as u16;
        if from < LAST_END && until >= LAST_END {
            standing.turn = work.turn();
        }
    }
    Ok(game.groomers as u16)
}

/// Where a groomer is in its round.
#[derive(Clone, Copy, Default)]
struct Place {
    /// Its next turn, and the end of its round.
    next: usize,
    end: usize,
    /// Minutes that are left of the turn in hand, and then of driving over.
    work: u32,
    drive: u32,
}

/// The same, minute by minute: a step takes each groomer's standing one minute
/// further.
pub fn play_by_minute(
    sheet: &[u8],
    board: &[u8],
    delays: &[u16],
    list: &mut [Standing],
) -> Result<u16, u8> {
    let game = Game::new(sheet, board, delays, list.len())?;
    let rounds = game.rounds();
    let list = &mut list[..game.groomers];
    list.fill(FRESH);
    let mut places = [Place::default(); MOST_GROOMERS as usize];
    for (groomer, place) in places[..game.groomers].iter_mut().enumerate() {
        place.next = rounds.partition_point(|work| work.groomer() < groomer);
        place.end = rounds.partition_point(|work| work.groomer() <= groomer);
    }
    for minute in 0..LAST_END {
        for (standing, place) in list.iter_mut().zip(&mut places) {
            *standing = step(*standing, place, rounds, minute);
        }
    }
    Ok(game.groomers as u16)
}

/// One minute of one groomer.
fn step(standing: Standing, place: &mut Place, rounds: &[Work], minute: u32) -> Standing {
    let mut after = standing;
    if place.work == 0 && place.drive == 0 {
        let is_due = |work: &&Work| work.start() <= minute;
        if let Some(work) = rounds[place.next..place.end].first().filter(is_due) {
            after.turn = work.turn();
            place.work = work.minutes;
            place.drive = DRIVE_OVER;
            place.next += 1;
        }
    }
    if place.work > 0 {
        place.work -= 1;
        after.working += 1;
    } else if place.drive > 0 {
        place.drive -= 1;
        after.driving += 1;
        after.turn = NO_TURN;
    } else {
        after.standing += 1;
        after.turn = NO_TURN;
    }
    after
}
