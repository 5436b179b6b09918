//! The search for a better choice than the planned one.

use slopeboard_reference::gen::{self, Rng, Shift};
use slopeboard_reference::naive::{self, Improved};
use slopeboard_reference::shapes;

use crate::bytes::Lent;
use crate::foreign::{self, ImproveAnswer};
use crate::placed::Placed;
use crate::report::Report;
use crate::sheets;

/// How many sheets are drawn that can be searched whole.
const SMALL_SHEETS: u32 = 24_000;

/// How many are drawn on which only the first visits can be made.
const LARGE_SHEETS: u32 = 3000;

/// How many have more turns than can be searched.
const TOO_LARGE: u32 = 1200;

/// Compares the two versions on all sheets.
pub fn run(seed: u64) -> bool {
    let mut rng = Rng::new(seed);
    let mut run = Run {
        report: Report::new("improve"),
        lent: Lent::default(),
        placed: Placed::default(),
    };
    for round in 0..SMALL_SHEETS {
        let shift = small(&mut rng, round);
        let sheet = gen::encode(&mut rng, &shift, 10).bytes;
        run.limits(&mut rng, &sheet);
    }
    for round in 0..LARGE_SHEETS {
        let turns = rng.pick(&[20, 33, 48, 60, 63, 64, 64]);
        let shift = shapes::shift(&mut rng, round % shapes::SHAPES, turns);
        let sheet = gen::encode(&mut rng, &shift, 10).bytes;
        let visits = rng.below(400).into();
        run.rooms(&mut rng, &sheet, visits);
    }
    for round in 0..TOO_LARGE {
        let turns = rng.pick(&[65, 65, 66, 72, 80, 96, 128]);
        let shift = shapes::shift(&mut rng, round % shapes::SHAPES, turns);
        let sheet = gen::encode(&mut rng, &shift, 10).bytes;
        let (visits, room) = (rng.pick(&[0, 9, u64::MAX]), rng.pick(&[0, 8, 9, 16]));
        run.case(&mut rng, &sheet, visits, room);
    }
    let few = |rng: &mut Rng| u64::from(rng.below(200));
    sheets::refused(&mut rng, &mut |rng: &mut Rng, sheet: &[u8]| {
        let visits = few(rng);
        run.rooms(rng, sheet, visits)
    });
    sheets::edges(&mut rng, &mut |rng: &mut Rng, sheet: &[u8]| {
        let visits = few(rng);
        run.rooms(rng, sheet, visits)
    });
    run.report.finish((1..=11).chain([19, 22]))
}

/// A shift with few turns, many of which conflict.
fn small(rng: &mut Rng, round: u32) -> Shift {
    match round % 4 {
        0 => shapes::crossed(rng, 6),
        1 | 2 => shapes::small(rng, 9),
        _ => {
            let turns = rng.below(10) as usize;
            shapes::shift(rng, round / 4 % shapes::SHAPES, turns)
        }
    }
}

struct Run {
    report: Report,
    lent: Lent<u8>,
    placed: Placed,
}

impl Run {
    /// The sheet with all visits that it takes, with just as many, one less,
    /// and some.
    fn limits(&mut self, rng: &mut Rng, sheet: &[u8]) {
        let room = gen::turns_claimed(sheet).div_ceil(8);
        let whole = self.case(rng, sheet, u64::MAX, room).visits;
        let some = rng.below(whole as u32 + 1).into();
        for visits in [whole, whole.saturating_sub(1), some] {
            let answer = self.case(rng, sheet, visits, room + 1);
            self.note_limit(answer, visits, whole);
        }
    }

    /// Notes how the limit went with the visits of the whole search.
    fn note_limit(&mut self, answer: ImproveAnswer, visits: u64, whole: u64) {
        let report = &mut self.report;
        report.property("just as many visits as it takes", visits == whole);
        report.property("a visit too few", visits + 1 == whole);
        report.property("no visit allowed", visits == 0 && whole > 0);
        report.property("stopped", !answer.whole);
    }

    /// The sheet with just the map's bytes, and if it is accepted also with a
    /// byte less or more.
    fn rooms(&mut self, rng: &mut Rng, sheet: &[u8], visits: u64) {
        let bytes = gen::turns_claimed(sheet).div_ceil(8);
        if self.case(rng, sheet, visits, bytes).refusal == 0 {
            let room = rng.pick(&[bytes.saturating_sub(1), bytes + 1, bytes + 1, 50]);
            self.case(rng, sheet, visits, room);
        }
    }

    fn case(&mut self, rng: &mut Rng, sheet: &[u8], visits: u64, room: usize) -> ImproveAnswer {
        self.placed.put(rng, sheet);
        let sheet = self.placed.input();
        let ours = |map: &mut [u8]| answer(naive::improve(sheet, visits, map));
        let theirs = |map: &mut [u8]| foreign::improve(sheet, visits, map);
        let (report, calls) = (&mut self.report, (ours, theirs));
        let answer = self.lent.compare(rng, report, calls, room, sheet);
        if answer.refusal == 0 {
            let turns = gen::turns_claimed(sheet);
            report.property("no turns", turns == 0);
            report.property("64 turns", turns == 64);
            report.property("a worth at the ceiling", answer.above == 0);
            report.property("a worth below the ceiling", answer.above > 0);
            note_better(report, sheet, answer);
        }
        answer
    }
}

/// Notes whether something better than the plan was found.
fn note_better(report: &mut Report, sheet: &[u8], answer: ImproveAnswer) {
    let mut board = [0; 15 + 8 + 256];
    naive::plan(sheet, &mut board).expect("the sheet was searched");
    let planned = u32::from_be_bytes([board[11], board[12], board[13], board[14]]);
    report.property("better than planned", answer.worth > planned);
    let half_way = answer.worth > planned && !answer.whole;
    report.property("better than planned, and stopped", half_way);
}

/// The judge's result in the form that the library gives.
fn answer(result: Result<Improved, u8>) -> ImproveAnswer {
    let (refusal, found) = match result {
        Ok(found) => (0, found),
        Err(number) => (number, Improved::default()),
    };
    ImproveAnswer {
        refusal,
        whole: found.whole,
        worth: found.worth,
        above: found.above,
        visits: found.visits,
    }
}
