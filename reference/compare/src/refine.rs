//! A better board by rounds.

use slopeboard_reference::fast;
use slopeboard_reference::gen::{self, Rng};
use slopeboard_reference::naive::{self, any_driver, sheet::accept, Refined};

use crate::bytes::Lent;
use crate::foreign::{self, RefineAnswer};
use crate::placed::Placed;
use crate::report::Report;
use crate::sheets;

/// Compares the two versions on all sheets.
pub fn run(seed: u64) -> bool {
    let mut rng = Rng::new(seed);
    let mut run = Run {
        report: Report::new("refine"),
        boards: Lent::default(),
        prices: Lent::default(),
        placed: Placed::default(),
    };
    sheets::each(&mut rng, |rng, sheet| run.rooms(rng, sheet));
    run.report.finish((1..=11).chain([19]))
}

struct Run {
    report: Report,
    boards: Lent<u8>,
    prices: Lent<u16>,
    placed: Placed,
}

impl Run {
    /// The sheet with places just large enough, and if it is accepted also with
    /// other rounds and other places, some of them too few.
    fn rooms(&mut self, rng: &mut Rng, sheet: &[u8]) {
        let turns = gen::turns_claimed(sheet);
        let slopes = usize::from(sheet.get(4).copied().unwrap_or(0));
        let wanted = [slopeboard::board_bytes(turns), slopes + turns];
        let rounds = rounds(rng, turns);
        if !self.case(rng, sheet, rounds, wanted) {
            return;
        }
        let [bytes, numbers] = wanted;
        let rooms = match rng.below(8) {
            0 => [bytes - 1, numbers],
            1 => [bytes, numbers - 1],
            2 => [
                rng.below(bytes as u32) as usize,
                rng.below(numbers as u32) as usize,
            ],
            _ => [
                bytes + rng.below(9) as usize,
                numbers + rng.below(9) as usize,
            ],
        };
        let more = rounds + rng.below(3);
        self.case(rng, sheet, more, rooms);
    }

    fn case(&mut self, rng: &mut Rng, sheet: &[u8], rounds: u32, rooms: [usize; 2]) -> bool {
        self.placed.put(rng, sheet);
        let sheet = self.placed.input();
        let ours = |board: &mut [u8], prices: &mut [u16]| {
            answer(naive::refine(sheet, rounds, board, prices))
        };
        let theirs =
            |board: &mut [u8], prices: &mut [u16]| foreign::refine(sheet, rounds, board, prices);
        let (boards, prices) = (&mut self.boards, &mut self.prices);
        let report = &mut self.report;
        let answer = boards.compare_with(prices, rng, report, (ours, theirs), rooms, sheet);
        if answer.refusal == 0 {
            note_properties(report, sheet, rounds, answer, prices);
        }
        answer.refusal == 0
    }
}

/// So many that the judge is done soon.
fn rounds(rng: &mut Rng, turns: usize) -> u32 {
    match turns {
        0..=19 => rng.pick(&[0, 1, 2, 3, 5, 9, 20]),
        20..=99 => rng.pick(&[0, 1, 3, 8]),
        _ => rng.below(3),
    }
}

/// Notes which of the courses that must occur this one took.
fn note_properties(
    report: &mut Report,
    sheet: &[u8],
    rounds: u32,
    answer: RefineAnswer,
    prices: &Lent<u16>,
) {
    let sheet_read = accept(sheet).unwrap_or_else(|_| unreachable!("the sheet was accepted"));
    let turns = &sheet_read.turns;
    let mut board = vec![0; slopeboard::board_bytes(turns.len())];
    fast::plan(sheet, &mut board).expect("the sheet was accepted");
    let planned = u32::from_be_bytes([board[11], board[12], board[13], board[14]]);
    let better = answer.worth > planned;
    let slopes = sheet_read.slopes as usize;
    let list = prices.written(slopes + turns.len());
    report.property("no turns", turns.is_empty());
    report.property("a sheet with a driver", any_driver(turns));
    report.property("no round allowed", rounds == 0 && !turns.is_empty());
    report.property(
        "better than planned without a round",
        better && answer.rounds == 0,
    );
    report.property("better than planned by rounds", better && answer.rounds > 0);
    let met = answer.worth == answer.limit;
    report.property(
        "worth and limit meet after rounds",
        met && answer.rounds > 0,
    );
    report.property(
        "they meet before the rounds are used up",
        answer.rounds < rounds,
    );
    report.property("all rounds made, and they do not meet", !met && rounds > 0);
    report.property(
        "a slope with a price",
        list[..slopes].iter().any(|&price| price > 0),
    );
    report.property(
        "a turn with a price",
        list[slopes..].iter().any(|&price| price > 0),
    );
    report.property("the greatest price", list.contains(&60_000));
}

/// The judge's result in the form that the library gives.
fn answer(result: Result<Refined, u8>) -> RefineAnswer {
    let (refusal, found) = match result {
        Ok(found) => (0, found),
        Err(number) => (number, Refined::default()),
    };
    RefineAnswer {
        refusal,
        bytes: found.bytes as u32,
        worth: found.worth,
        limit: found.limit,
        rounds: found.rounds,
    }
}
