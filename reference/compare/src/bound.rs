//! What a board that passes promises: on small sheets without drivers, no
//! choice of turns without a conflict is worth more than twice its tally, and
//! none is worth more than the board where no slope has two turns. With
//! drivers the factors are 3 and, where no slope has two turns, 2.
//! And none is worth more than the ceiling, which keeps to these bounds itself.
//! Tried out on every choice; the judge's check and planner have no part in it.

use slopeboard_reference::boards;
use slopeboard_reference::gen::{self, Rng};
use slopeboard_reference::naive::turns::turns_of;
use slopeboard_reference::naive::{any_driver, best_worth, one_turn_a_slope, times_the_tally};
use slopeboard_reference::shapes;

use crate::foreign::{self, CheckAnswer};
use crate::report::{show, Report};
use crate::sheets;

const SHEETS: u32 = 9000;

/// Tries the promise on many boards, right ones and others.
pub fn run(seed: u64) -> bool {
    let mut run = Run {
        rng: Rng::new(seed),
        report: Report::new("bound"),
    };
    for _ in 0..SHEETS {
        run.sheet();
    }
    run.report.finish([])
}

struct Run {
    rng: Rng,
    report: Report,
}

/// The most that a choice without a conflict is worth, how many times the
/// tally it can be, and what kind of sheet it is.
#[derive(Clone, Copy)]
struct Best {
    worth: u32,
    times: u32,
    one_a_slope: bool,
    drivers: bool,
}

impl Run {
    fn sheet(&mut self) {
        let mut shift = match self.rng.percent(20) {
            true => shapes::crossed(&mut self.rng, 6),
            false => shapes::small(&mut self.rng, 10),
        };
        if self.rng.percent(25) {
            shift = shapes::one_turn_a_slope(&shift);
        }
        let turns = &shift.turns;
        let sheet = gen::encode(&mut self.rng, &shift, 20).bytes;
        let all = turns_of(&turns.concat());
        sheets::note_minutes_apart(&mut self.report, &all);
        let best = Best {
            worth: best_worth(&all),
            times: times_the_tally(&all),
            one_a_slope: one_turn_a_slope(&all),
            drivers: any_driver(&all),
        };
        for round in 0..10 {
            let board = if round % 2 == 0 {
                boards::right(&mut self.rng, turns)
            } else {
                boards::full(&mut self.rng, turns)
            };
            let passes = self.board(&sheet, &board.bytes(), best);
            // Right boards always pass, full ones if they are worth enough.
            let right = board.worth >= board.tally;
            if passes != right {
                let text = || format!("a right board is refused: {}", show(&sheet, 0));
                self.report.differs(text);
            }
            if round % 2 == 0 {
                let kind = self.rng.below(boards::FAULTS);
                let bytes = boards::with_fault(&mut self.rng, turns, &board, kind);
                self.board(&sheet, &bytes, best);
            }
        }
        self.plan(&sheet, best);
    }

    /// The library's own board of the sheet must pass.
    fn plan(&mut self, sheet: &[u8], best: Best) {
        let mut board = [0; 64];
        let answer = foreign::plan(sheet, &mut board);
        let passes = self.board(sheet, &board[..answer.bytes as usize], best);
        self.report.property("planned boards that pass", passes);
        if !passes {
            let text = || format!("the planner's board is refused: {}", show(sheet, 0));
            self.report.differs(text);
        }
    }

    /// Holds a board that passes to the promise, by its own bytes.
    fn board(&mut self, sheet: &[u8], board: &[u8], best: Best) -> bool {
        let answer = foreign::check(sheet, board);
        self.report.count(answer.refusal);
        if answer.refusal != 0 {
            return false;
        }
        let sum = |place: usize| {
            board[place..place + 4]
                .iter()
                .fold(0, |sum, &byte| sum << 8 | u32::from(byte))
        };
        let (tally, worth) = (sum(7), sum(11));
        let same = (answer.tally, answer.worth) == (tally, worth);
        let most = best.worth;
        let holds = tally <= worth && worth <= most && most <= best.times * tally;
        let exact = !best.one_a_slope || best.drivers || most <= worth;
        self.report
            .property("best worth above the tally", most > tally);
        let exact_ones = best.one_a_slope && !best.drivers;
        self.report
            .property("best worth where no slope has two turns", exact_ones);
        let over = best.drivers && most > 2 * tally;
        self.report
            .property("best worth over twice the tally", over);
        let over = best.drivers && best.one_a_slope && most > worth;
        self.report
            .property("best worth above the board's, one turn a slope", over);
        if !same || !holds || !exact || !self.ceiling(&answer, best) {
            let text = || format!("{answer:?}, best {most}: {}", show(sheet, 0));
            self.report.differs(text);
        }
        true
    }

    /// Whether the ceiling of a board that passes is one, and is where it may
    /// be.
    fn ceiling(&mut self, answer: &CheckAnswer, best: Best) -> bool {
        let (tally, ceiling) = (answer.tally, answer.ceiling);
        let reached = best.worth == ceiling && ceiling > tally;
        self.report.property("best worth at the ceiling", reached);
        let twice = best.one_a_slope || !best.drivers;
        let most = if twice { 2 * tally } else { 3 * tally };
        let exact = best.one_a_slope && !best.drivers;
        let at_tally = !exact || ceiling == tally;
        best.worth <= ceiling && tally <= ceiling && ceiling <= most && at_tally
    }
}
