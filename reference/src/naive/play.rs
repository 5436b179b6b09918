//! A shift played minute by minute, with turns that take longer than planned.

use super::board::opened;
use super::check;
use super::sheet::accept;
use super::turns::Turn;

/// What a groomer has done up to the minute last played.
#[derive(Clone, Copy, Debug, Default, PartialEq, Eq)]
pub struct Standing {
    pub working: u16,
    pub driving: u16,
    pub standing: u16,
    /// The turn worked in that minute; 65,535 if none was.
    pub turn: u16,
}

/// A turn as it comes to be worked: from a minute on, and no more in the minute
/// named last.
#[derive(Clone, Copy, Debug, PartialEq, Eq)]
pub struct Span {
    pub turn: usize,
    pub from: u32,
    pub until: u32,
}

/// Plays a board that passes the check, each turn with its delay, writes the
/// standing of each groomer and gives how many groomers there are. After the
/// check's refusals 24 for the delays, then 11 if there are fewer places than
/// groomers.
pub fn play(sheet: &[u8], board: &[u8], delays: &[u16], list: &mut [Standing]) -> Result<u16, u8> {
    check(sheet, board)?;
    let sheet = accept(sheet)?;
    let chosen = opened(board)?.chosen;
    if delays.len() != sheet.turns.len() || delays.iter().any(|&delay| delay > 120) {
        return Err(24);
    }
    if list.len() < sheet.groomers as usize {
        return Err(11);
    }
    for groomer in 1..=sheet.groomers {
        let spans = spans(&sheet.turns, &chosen, delays, groomer);
        list[groomer as usize - 1] = played(&spans);
    }
    Ok(sheet.groomers as u16)
}

/// When a groomer works on each of its chosen turns, in the order of their
/// starts: never before the start, nor before ten minutes have gone since the
/// turn before was done; as long as the turn's length and its delay together.
pub fn spans(turns: &[Turn], chosen: &[bool], delays: &[u16], groomer: u32) -> Vec<Span> {
    let mut round: Vec<usize> = (0..turns.len()).collect();
    round.retain(|&turn| chosen[turn] && turns[turn].groomer == groomer);
    round.sort_by_key(|&turn| turns[turn].start);
    let mut spans: Vec<Span> = Vec::new();
    for turn in round {
        let mut from = turns[turn].start;
        if let Some(before) = spans.last() {
            from = from.max(before.until + 10);
        }
        let until = from + turns[turn].length + u32::from(delays[turn]);
        spans.push(Span { turn, from, until });
    }
    spans
}

/// Minutes 0 to 959. In each the groomer works; or it drives over, which every
/// turn is followed by for ten minutes; or it stands.
pub fn played(spans: &[Span]) -> Standing {
    let mut list = Standing {
        working: 0,
        driving: 0,
        standing: 0,
        turn: 65_535,
    };
    for minute in 0..960 {
        let worked = |span: &&Span| span.from <= minute && minute < span.until;
        let driven = |span: &Span| span.until <= minute && minute < span.until + 10;
        list.turn = 65_535;
        if let Some(span) = spans.iter().find(worked) {
            list.working += 1;
            list.turn = span.turn as u16;
        } else if spans.iter().any(driven) {
            list.driving += 1;
        } else {
            list.standing += 1;
        }
    }
    list
}
