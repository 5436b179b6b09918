//! Checking a board against a sheet.

use slopeboard_reference::boards::{self, planned, Draft, Order};
use slopeboard_reference::gen::{self, Rng, Shift};
use slopeboard_reference::naive::{self, Sums};
use slopeboard_reference::worked::{board_with, SHEET, TURNS};
use slopeboard_reference::{handmade, shapes};

use crate::foreign::{self, CheckAnswer};
use crate::placed::Placed;
use crate::report::{show, Report};

/// Compares the two checks on all pairs of sheet and board.
pub fn run(seed: u64) -> bool {
    let mut run = Run {
        rng: Rng::new(seed),
        report: Report::new("check"),
        sheet: Placed::default(),
        board: Placed::default(),
    };
    run.planned_boards();
    run.other_right_boards();
    run.example();
    run.example_with_other_sums();
    run.sheets_by_hand();
    run.faults();
    run.changed_bytes();
    run.orders_and_choices();
    run.refused_sheets();
    run.boards_of_other_sheets();
    run.report.finish((1..=10).chain(12..=17).chain([19]))
}

/// Steps for the worked example.
const OTHER_STEPS: [&[(u16, u16)]; 20] = [
    &[(0, 100), (3, 90), (1, 50)],
    &[(2, 80), (0, 20), (1, 130), (3, 10)],
    &[(2, 80), (0, 20), (1, 130), (3, 90)],
    &[(2, 80), (0, 20), (3, 10), (1, 130)],
    &[(2, 80), (3, 10), (0, 20), (1, 130)],
    &[(2, 80), (0, 20), (3, 90), (1, 130)],
    &[(2, 80), (3, 90), (0, 20), (1, 130)],
    &[(3, 90), (0, 100), (1, 50)],
    &[(1, 50), (0, 100), (3, 90)],
    &[(1, 150), (2, 80), (3, 90)],
    &[],
    &[(0, 100)],
    &[(0, 100), (1, 50)],
    &[(0, 100), (1, 50), (3, 90), (3, 0)],
    &[(0, 100), (1, 50), (1, 50), (3, 90)],
    &[(0, 100), (2, 65_516), (1, 50), (3, 90)],
    &[(0, 100), (1, 90), (3, 50)],
    &[(0, 100), (2, 50), (2, 90)],
    &[(0, 99), (1, 51), (3, 90)],
    &[(0, 100), (1, 50), (4, 90)],
];

struct Run {
    rng: Rng,
    report: Report,
    sheet: Placed,
    board: Placed,
}

impl Run {
    fn sheet_of(&mut self, shape: u32, turns: usize) -> (Shift, Vec<u8>) {
        let shift = shapes::shift(&mut self.rng, shape, turns);
        let sheet = gen::encode(&mut self.rng, &shift, 10).bytes;
        (shift, sheet)
    }

    /// A number of turns: mostly few, seldom many.
    fn turn_count(&mut self) -> usize {
        match self.rng.below(200) {
            0 => self.rng.between(100, 400) as usize,
            1..=9 => self.rng.between(20, 100) as usize,
            _ => self.rng.below(20) as usize,
        }
    }

    fn planned_boards(&mut self) {
        for round in 0..30_000 {
            let turns = self.turn_count();
            let (_, sheet) = self.sheet_of(round % shapes::SHAPES, turns);
            let board = planned(&sheet);
            self.case(&sheet, &board);
        }
        for round in 0..40 {
            let (_, sheet) = self.sheet_of(round % shapes::SHAPES, 400);
            let board = planned(&sheet);
            self.case(&sheet, &board);
        }
    }

    /// Boards that the planner would not make and that keep the rules.
    fn other_right_boards(&mut self) {
        for round in 0..25_000 {
            let turns = self.turn_count();
            let (shift, sheet) = self.sheet_of(round % shapes::SHAPES, turns);
            let draft = boards::right(&mut self.rng, &shift.turns);
            let board = draft.bytes();
            let passes = self.case(&sheet, &board) == 0;
            self.report.property("right boards that pass", passes);
            let other = passes && turns > 0 && board != planned(&sheet);
            self.report
                .property("right boards not the planner's", other);
            let by_number = boards::steps(&mut self.rng, &shift.turns, Order::ByNumber);
            let other = other && draft.steps == by_number;
            self.report
                .property("right boards with equal ends by number", other);
            let named = shift.turns.iter().any(|turn| turn[5] > 0);
            self.report
                .property("right boards with drivers", passes && named);
            let full = boards::full(&mut self.rng, &shift.turns).bytes();
            let passes = self.case(&sheet, &full) == 0;
            self.report.property("full choices that pass", passes);
            self.report.property("full choices too small", !passes);
        }
    }

    /// The worked example under every choice and every list of steps with
    /// right amounts that is short enough.
    fn example(&mut self) {
        let named = [(2, 80), (0, 20), (1, 130), (3, 10)];
        let chosen = vec![false, true, false, true];
        let board = Draft::new(&TURNS, chosen, named.to_vec());
        let passes = self.case(&SHEET, &board.bytes()) == 0;
        if !passes || (board.tally, board.worth) != (240, 240) {
            let text = || "the example's other order must pass".to_string();
            self.report.differs(text);
        }
        for round in 0..640 {
            let order = [Order::Planned, Order::ByNumber, Order::Allowed, Order::Free][round % 4];
            let steps = boards::steps(&mut self.rng, &TURNS, order);
            let chosen = (0..4).map(|turn| round >> turn & 1 != 0).collect();
            let board = Draft::new(&TURNS, chosen, steps);
            self.case(&SHEET, &board.bytes());
        }
    }

    /// The worked example under every choice, with the worth that it has and
    /// others; then under other steps: right orders, wrong ones and made-up ones,
    /// each with its own tally and with the right one.
    fn example_with_other_sums(&mut self) {
        let steps = [(0, 100), (1, 50), (3, 90)];
        for map in 0..16 {
            let chosen = (0..4).filter(|turn| map >> turn & 1 != 0);
            let worth: u32 = chosen.map(|turn| u32::from(TURNS[turn][4])).sum();
            for worth in [worth, worth + 1, 240, 320] {
                self.case(&SHEET, &board_with(map, [240, worth], &steps));
            }
        }
        for steps in OTHER_STEPS {
            let tally = steps.iter().map(|step| u32::from(step.1)).sum();
            for (map, worth) in [(0x0A, 240), (0x0E, 320), (0x09, 190)] {
                for tally in [tally, 240] {
                    self.case(&SHEET, &board_with(map, [tally, worth], steps));
                }
            }
        }
    }

    /// Sheets made by hand, with steps in the planner's order, by number, in
    /// orders that are allowed and in others; if they have two turns, also under
    /// every choice and both amounts that the second step can have.
    fn sheets_by_hand(&mut self) {
        for shift in handmade::shifts() {
            let turns = &shift.turns;
            let sheet = gen::encode(&mut self.rng, &shift, 0).bytes;
            for order in [Order::Planned, Order::ByNumber, Order::Allowed, Order::Free] {
                let steps = boards::steps(&mut self.rng, turns, order);
                let back = steps.iter().rev().map(|step| usize::from(step.0));
                let chosen = boards::choose(turns, back.chain(0..turns.len()));
                self.case(&sheet, &Draft::new(turns, chosen, steps).bytes());
            }
            let full = boards::full(&mut self.rng, turns).bytes();
            self.case(&sheet, &full);
            let &[a, b] = &turns[..] else { continue };
            let first = u16::from(a[2] > b[2]);
            let amount = [a, b][usize::from(first)][4];
            let other = [b, a][usize::from(first)][4];
            for (amounts, map) in (0..8).map(|round| (round / 4, round % 4)) {
                let second = [other, other.saturating_sub(amount)][amounts];
                let chosen = [0, 1].map(|turn| map >> turn & 1 == 1).to_vec();
                let steps = vec![(first, amount), (1 - first, second)];
                self.case(&sheet, &Draft::new(turns, chosen, steps).bytes());
            }
        }
    }

    /// Every kind of fault on right boards.
    fn faults(&mut self) {
        for round in 0..32_400 {
            let turns = self.turn_count();
            let shape = self.rng.below(shapes::SHAPES);
            let (shift, sheet) = self.sheet_of(shape, turns);
            let board = boards::right(&mut self.rng, &shift.turns);
            let kind = round % boards::FAULTS;
            let bytes = boards::with_fault(&mut self.rng, &shift.turns, &board, kind);
            self.case(&sheet, &bytes);
        }
    }

    /// Every byte of several boards, changed in several ways; every length.
    fn changed_bytes(&mut self) {
        for (shape, turns) in [(0, 0), (0, 1), (1, 4), (8, 8), (5, 9), (2, 16)] {
            let (_, sheet) = self.sheet_of(shape, turns);
            let board = planned(&sheet);
            for place in 0..board.len() {
                for change in [1, 2, 3, 4, 8, 16, 32, 64, 128, 255] {
                    let mut board = board.clone();
                    board[place] ^= change;
                    self.case(&sheet, &board);
                }
            }
            for excess in [1, 4, 8, 0x1_0000] {
                let mut board = board.clone();
                board.resize(board.len() + excess, 0);
                self.case(&sheet, &board);
            }
            for len in 0..board.len() {
                let (cut, behind) = board.split_at(len);
                self.sheet.put(&mut self.rng, &sheet);
                self.board.put_before(&mut self.rng, cut, behind);
                self.compare();
            }
        }
    }

    /// Steps with right amounts in any order, under any choice that fits.
    fn orders_and_choices(&mut self) {
        for round in 0..5000 {
            let turns = self.rng.between(1, 10) as usize;
            let (shift, sheet) = self.sheet_of(round % shapes::SHAPES, turns);
            let mut board = boards::right(&mut self.rng, &shift.turns);
            board.steps = boards::steps(&mut self.rng, &shift.turns, Order::Free);
            board.add_up(&shift.turns);
            self.case(&sheet, &board.bytes());
            let some = self.rng.shuffled(turns);
            let some = some.into_iter().take(turns / 2);
            board.chosen = boards::choose(&shift.turns, some);
            board.add_up(&shift.turns);
            self.case(&sheet, &board.bytes());
        }
    }

    /// The sheet is judged first, and by all of its own order.
    fn refused_sheets(&mut self) {
        for _ in 0..3000 {
            let turns = self.rng.between(1, 8) as usize;
            let (shift, sheet) = self.sheet_of(0, turns);
            let board = planned(&sheet);
            let board = &board[..board.len() - self.rng.pick(&[0, 0, 1])];
            let cut = self.rng.below(sheet.len() as u32) as usize;
            let mut overfull = sheet.clone();
            let count: u16 = self.rng.pick(&[401, 401, 402, 657, 65_535]);
            overfull[5..7].copy_from_slice(&count.to_be_bytes());
            for sheet in [
                overfull,
                gen::damaged(&mut self.rng, &sheet),
                gen::with_bound(&mut self.rng, &shift),
                gen::with_faults(&mut self.rng, &shift, 1),
                gen::trailing(&mut self.rng, &sheet),
                sheet[..cut].to_vec(),
            ] {
                self.case(&sheet, board);
            }
            let marks = gen::wrong_marks(&sheet);
            let mark = self.rng.below(marks.len() as u32) as usize;
            self.case(&marks[mark], board);
        }
    }

    /// Right boards, but for other sheets: with as many turns, or one more.
    fn boards_of_other_sheets(&mut self) {
        for round in 0..2500 {
            let turns = self.rng.between(1, 20) as usize;
            let shape = round % shapes::SHAPES;
            let (_, sheet) = self.sheet_of(shape, turns);
            for other in [turns, turns + 1, turns - 1] {
                let (_, other) = self.sheet_of(shape, other);
                self.case(&sheet, &planned(&other));
            }
        }
    }

    fn case(&mut self, sheet: &[u8], board: &[u8]) -> u8 {
        self.sheet.put(&mut self.rng, sheet);
        self.board.put(&mut self.rng, board);
        self.compare()
    }

    /// Compares the two checks on what has been placed and gives the
    /// judge's refusal.
    fn compare(&mut self) -> u8 {
        let (sheet, board) = (self.sheet.input(), self.board.input());
        let ours = answer(naive::check(sheet, board));
        let theirs = foreign::check(sheet, board);
        self.report.count(ours.refusal);
        note_ceiling(&mut self.report, &ours);
        if ours != theirs {
            let text = || {
                let (sheet, board) = (show(sheet, 0), show(board, 0));
                format!("{ours:?} but {theirs:?}: {sheet}\n  board: {board}")
            };
            self.report.differs(text);
        }
        ours.refusal
    }
}

/// Notes where the ceiling of a board that passes is.
fn note_ceiling(report: &mut Report, sums: &CheckAnswer) {
    let (tally, ceiling) = (sums.tally, sums.ceiling);
    let some = tally > 0;
    report.property("a ceiling of the tally itself", some && ceiling == tally);
    let between = ceiling > tally && ceiling < 2 * tally;
    report.property("a ceiling between the tally and twice it", between);
    report.property("a ceiling above twice the tally", ceiling > 2 * tally);
}

/// The judge's result in the form that the library gives.
fn answer(result: Result<Sums, u8>) -> CheckAnswer {
    let (refusal, [tally, worth, ceiling]) = match result {
        Ok(sums) => (0, [sums.tally, sums.worth, sums.ceiling]),
        Err(number) => (number, [0; 3]),
    };
    CheckAnswer {
        refusal,
        tally,
        worth,
        ceiling,
    }
}
