//! The best worth on a sheet with one turn a slope and no drivers.

use slopeboard_reference::gen::{self, Rng, Shift};
use slopeboard_reference::naive::best::by_end;
use slopeboard_reference::naive::{self, sheet::accept, turns::Turn};
use slopeboard_reference::shapes;

use crate::bytes::Lent;
use crate::foreign::{self, BestAnswer};
use crate::placed::Placed;
use crate::report::{show, Report};
use crate::sheets;

/// How many sheets are drawn on which there is a best worth to find.
const SIMPLE_SHEETS: u32 = 60_000;

/// How many of them have a slope twice, or a driver.
const OTHER_SHEETS: u32 = 4000;

/// Compares the two versions on all sheets.
pub fn run(seed: u64) -> bool {
    let mut rng = Rng::new(seed);
    let mut run = Run {
        report: Report::new("best"),
        lent: Lent::default(),
        placed: Placed::default(),
    };
    for round in 0..SIMPLE_SHEETS {
        let shift = simple(&mut rng, round);
        let sheet = gen::encode(&mut rng, &shift, 10).bytes;
        run.rooms(&mut rng, &sheet);
    }
    for round in 0..OTHER_SHEETS {
        let shift = simple(&mut rng, round);
        run.spoilt(&mut rng, &shift);
    }
    sheets::refused(&mut rng, &mut |rng: &mut Rng, sheet: &[u8]| {
        run.rooms(rng, sheet)
    });
    sheets::edges(&mut rng, &mut |rng: &mut Rng, sheet: &[u8]| {
        run.rooms(rng, sheet)
    });
    run.report.finish((1..=11).chain([19, 21]))
}

/// A shift with one turn a slope and no drivers: mostly few turns, at times
/// many.
fn simple(rng: &mut Rng, round: u32) -> Shift {
    let shift = match round % 40 {
        0 => {
            let turns = rng.between(60, 160).min(120) as usize;
            shapes::shift(rng, round / 40 % shapes::SHAPES, turns)
        }
        1..20 => shapes::small(rng, 16),
        _ => {
            let turns = rng.below(20) as usize;
            shapes::shift(rng, round % shapes::SHAPES, turns)
        }
    };
    shapes::simple(rng, &shift)
}

struct Run {
    report: Report,
    lent: Lent<u8>,
    placed: Placed,
}

impl Run {
    /// The sheet with just the map's bytes, and if it is accepted also with a
    /// byte less or more.
    fn rooms(&mut self, rng: &mut Rng, sheet: &[u8]) {
        let bytes = gen::turns_claimed(sheet).div_ceil(8);
        if self.case(rng, sheet, bytes) {
            let room = rng.pick(&[bytes.saturating_sub(1), bytes + 1, bytes + 1, 50]);
            self.case(rng, sheet, room);
        }
    }

    /// The sheet with a slope that comes twice, with a driver, and with both.
    fn spoilt(&mut self, rng: &mut Rng, shift: &Shift) {
        let turns = shift.turns.len() as u32;
        if turns < 2 {
            return;
        }
        for kind in 1..4 {
            let mut shift = shift.clone();
            let places = rng.shuffled(shift.turns.len());
            if kind & 1 != 0 {
                shift.turns[places[0]][0] = shift.turns[places[1]][0];
            }
            if kind & 2 != 0 {
                shift.turns[places[0]][5] = rng.pick(&[1, 2, 39, 40]);
            }
            let sheet = gen::encode(rng, &shift, 10).bytes;
            let room = rng.below(16) as usize;
            self.case(rng, &sheet, room);
        }
    }

    fn case(&mut self, rng: &mut Rng, sheet: &[u8], room: usize) -> bool {
        self.placed.put(rng, sheet);
        let sheet = self.placed.input();
        let ours = |map: &mut [u8]| answer(naive::best(sheet, map));
        let theirs = |map: &mut [u8]| foreign::best(sheet, map);
        let (report, calls) = (&mut self.report, (ours, theirs));
        let answer = self.lent.compare(rng, report, calls, room, sheet);
        if answer.refusal == 0 {
            let accepted = accept(sheet).unwrap_or_else(|_| unreachable!("it was taken"));
            let bytes = accepted.turns.len().div_ceil(8);
            compare_plan(report, sheet, self.lent.written(bytes), answer.worth);
            note_properties(report, &accepted.turns, self.lent.written(bytes));
        }
        answer.refusal == 0
    }
}

/// The library's own board of the sheet must be worth as much.
fn compare_plan(report: &mut Report, sheet: &[u8], map: &[u8], worth: u32) {
    let mut board = [0; 15 + 15 + 480];
    let bytes = foreign::plan(sheet, &mut board).bytes as usize;
    let planned = u32::from_be_bytes([board[11], board[12], board[13], board[14]]);
    if bytes == 0 || planned != worth {
        report.differs(|| format!("{worth}, planned {planned}: {}", show(sheet, 0)));
    }
    let same = board[15..15 + map.len()] == *map;
    report.property("the planned board's map", same);
}

/// The judge's result in the form that the library gives.
fn answer(result: Result<u32, u8>) -> BestAnswer {
    let (refusal, worth) = result.map_or_else(|number| (number, 0), |worth| (0, worth));
    BestAnswer { refusal, worth }
}

/// Notes which of the shapes that must occur this sheet has.
fn note_properties(report: &mut Report, turns: &[Turn], map: &[u8]) {
    report.property("no turns", turns.is_empty());
    report.property("over 100 turns", turns.len() > 100);
    report.property("120 turns", turns.len() == 120);
    let chosen = |turn: &usize| map[turn / 8] >> (turn % 8) & 1 == 1;
    let left_out = (0..turns.len()).any(|turn| !chosen(&turn));
    report.property("a turn left out", left_out);
    let round = by_end(turns, 1);
    report.property("several turns of a groomer", round.len() > 1);
    let one_end = round
        .windows(2)
        .any(|two| turns[two[0]].end() == turns[two[1]].end());
    report.property("turns of a groomer with one end", one_end);
    let worths = round.windows(2).any(|two| {
        turns[two[0]].worth == turns[two[1]].worth && chosen(&two[0]) && !chosen(&two[1])
    });
    report.property("the later end left out of two equal worths", worths);
}
