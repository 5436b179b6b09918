//! Planning a board.

use slopeboard_reference::gen::{self, Rng};
use slopeboard_reference::naive::planning::{earliest, pick, take, touched, worths};
use slopeboard_reference::naive::turns::{too_close_on_driver, too_close_on_groomer, Turn};
use slopeboard_reference::naive::{self, any_driver, sheet::accept};

use crate::bytes::{answer, Lent};
use crate::foreign;
use crate::placed::Placed;
use crate::report::Report;
use crate::sheets;

/// Compares the two planners on all sheets.
pub fn run(seed: u64) -> bool {
    let mut rng = Rng::new(seed);
    let mut run = Run {
        report: Report::new("plan"),
        lent: Lent::default(),
        placed: Placed::default(),
    };
    sheets::each(&mut rng, |rng, sheet| run.rooms(rng, sheet));
    run.report.finish((1..=11).chain([19]))
}

struct Run {
    report: Report,
    lent: Lent<u8>,
    placed: Placed,
}

impl Run {
    /// The sheet with the room that is asked for, and if it is accepted also
    /// with one byte less or more.
    fn rooms(&mut self, rng: &mut Rng, sheet: &[u8]) {
        let turns = gen::turns_claimed(sheet);
        let wanted = 15 + turns.div_ceil(8) + 4 * turns;
        if self.case(rng, sheet, wanted) {
            let other = rng.pick(&[wanted - 1, wanted + 1, wanted + 1, wanted + 9]);
            self.case(rng, sheet, other);
        }
    }

    fn case(&mut self, rng: &mut Rng, sheet: &[u8], room: usize) -> bool {
        self.placed.put(rng, sheet);
        let sheet = self.placed.input();
        let ours = |out: &mut [u8]| answer(naive::plan(sheet, out));
        let theirs = |out: &mut [u8]| foreign::plan(sheet, out);
        let (report, calls) = (&mut self.report, (ours, theirs));
        let answer = self.lent.compare(rng, report, calls, room, sheet);
        if answer.refusal == 0 {
            note_properties(report, self.lent.written(answer.bytes as usize));
            let accepted = accept(sheet).unwrap_or_else(|_| unreachable!("the sheet was planned"));
            sheets::note_minutes_apart(report, &accepted.turns);
            note_ties(report, &accepted.turns);
            note_drivers(report, &accepted.turns);
        }
        answer.refusal == 0
    }
}

/// Most turns for which the steps are gone through once more.
const FEW_TURNS: usize = 40;

/// Notes how a step was picked from several turns with the earliest end.
fn note_ties(report: &mut Report, turns: &[Turn]) {
    if turns.len() > FEW_TURNS {
        return;
    }
    let (mut by_rest, mut by_number, mut by_change) = (false, false, false);
    let mut left = worths(turns);
    while let Some(j) = pick(turns, &left) {
        for other in earliest(turns, &left) {
            by_rest |= other < j;
            by_number |= other > j && left[other] == left[j];
            by_change |= turns[other].worth > turns[j].worth;
        }
        let amount = left[j];
        take(turns, &mut left, j, amount);
    }
    report.property("a richer turn before a lower number", by_rest);
    report.property("the lowest number of equally rich turns", by_number);
    report.property("a turn of less worth of which more remains", by_change);
}

/// Notes by which of its fields a step touched a turn.
fn note_drivers(report: &mut Report, turns: &[Turn]) {
    report.property("planned with drivers", any_driver(turns));
    report.property("planned without drivers", !any_driver(turns));
    if turns.len() > FEW_TURNS {
        return;
    }
    let (mut by_driver, mut by_all) = (false, false);
    let mut left = worths(turns);
    while let Some(j) = pick(turns, &left) {
        for other in touched(turns, &left, j)
            .into_iter()
            .filter(|&other| other != j)
        {
            let (a, b) = (&turns[other], &turns[j]);
            let others = [a.slope == b.slope, too_close_on_groomer(a, b)];
            by_driver |= others == [false; 2];
            by_all |= others == [true; 2] && too_close_on_driver(a, b);
        }
        let amount = left[j];
        take(turns, &mut left, j, amount);
    }
    report.property("a step that touches a turn by driver alone", by_driver);
    report.property("a step that touches a turn in all three ways", by_all);
}

/// Notes which of the shapes that must occur this board has.
fn note_properties(report: &mut Report, board: &[u8]) {
    let number = |place: usize| usize::from(u16::from_be_bytes([board[place], board[place + 1]]));
    let (turns, steps) = (number(3), number(5));
    report.property("planned with 0 turns", turns == 0);
    report.property("planned with a step a turn", turns > 0 && steps == turns);
    report.property("planned with fewer steps than turns", steps < turns);
    report.property("planned with over 100 turns", turns > 100);
    let sum = |place: usize| &board[place..place + 4];
    report.property("planned with worth above tally", sum(7) < sum(11));
}
