//! Groomers for all turns of a sheet.

use slopeboard_reference::gen::{self, Rng, Shift};
use slopeboard_reference::naive::partition::most_at_once;
use slopeboard_reference::naive::{self, sheet::accept, turns::Turn};

use crate::bytes::Lent;
use crate::foreign::{self, AssignAnswer};
use crate::placed::Placed;
use crate::report::{show, Report};
use crate::sheets;

/// How many sheets with turns close to each other are compared.
const CLOSE_SHEETS: u32 = 6000;

/// How many sheets with most turns at once are compared.
const LONG_SHEETS: u32 = 210;

/// Turns of a sheet among which pairs are looked for.
const FEW_TURNS: usize = 60;

/// Compares the two versions on all sheets.
pub fn run(seed: u64) -> bool {
    let mut rng = Rng::new(seed);
    let mut run = Run {
        report: Report::new("assign"),
        lent: Lent::default(),
        placed: Placed::default(),
    };
    sheets::each(&mut rng, |rng, sheet| run.rooms(rng, sheet));
    for _ in 0..CLOSE_SHEETS {
        let (last, longest) = (rng.pick(&[30, 60, 120]), rng.pick(&[2, 12, 30]));
        let turns = rng.below(24);
        let sheet = sheet(&mut rng, turns, last, [1, longest]);
        run.rooms(&mut rng, &sheet);
    }
    for _ in 0..LONG_SHEETS {
        let turns = rng.between(265, 300);
        let sheet = sheet(&mut rng, turns, 100, [95, 800]);
        run.rooms(&mut rng, &sheet);
    }
    run.report.finish((1..=11).chain([19]))
}

/// A sheet with so many turns that start within so many minutes, on any slopes
/// with any groomers and drivers. The lengths are the shortest and the longest.
fn sheet(rng: &mut Rng, turns: u32, minutes: u32, lengths: [u32; 2]) -> Vec<u8> {
    let turn = |rng: &mut Rng| {
        [
            rng.between(1, 120) as u16,
            rng.between(1, 16) as u16,
            rng.below(minutes) as u16,
            rng.between(lengths[0], lengths[1]) as u16,
            rng.between(1, 60_000) as u16,
            rng.below(41) as u16,
        ]
    };
    let shift = Shift {
        groomers: 16,
        slopes: 120,
        turns: (0..turns).map(|_| turn(rng)).collect(),
    };
    gen::encode(rng, &shift, 10).bytes
}

struct Run {
    report: Report,
    lent: Lent<u16>,
    placed: Placed,
}

impl Run {
    /// The sheet with a place for each turn, and if it is accepted also with
    /// fewer places or more.
    fn rooms(&mut self, rng: &mut Rng, sheet: &[u8]) {
        let turns = gen::turns_claimed(sheet);
        if self.case(rng, sheet, turns) {
            let fewer = rng.below(turns as u32 + 1) as usize;
            let other = [
                turns.saturating_sub(1),
                fewer,
                turns + 1,
                turns + 1,
                turns + 9,
            ];
            let room = rng.pick(&other);
            self.case(rng, sheet, room);
        }
    }

    fn case(&mut self, rng: &mut Rng, sheet: &[u8], room: usize) -> bool {
        self.placed.put(rng, sheet);
        let sheet = self.placed.input();
        let ours = |places: &mut [u16]| answer(naive::assign(sheet, places));
        let theirs = |places: &mut [u16]| foreign::assign(sheet, places);
        let (report, calls) = (&mut self.report, (ours, theirs));
        let answer = self.lent.compare(rng, report, calls, room, sheet);
        if answer.refusal == 0 {
            let accepted = accept(sheet).unwrap_or_else(|_| unreachable!("it was assigned"));
            let turns = &accepted.turns;
            if most_at_once(turns) != answer.groomers {
                report.differs(|| format!("not the most at once: {}", show(sheet, room)));
            }
            note_properties(report, turns, self.lent.written(turns.len()));
        }
        answer.refusal == 0
    }
}

/// The judge's result in the form that the library gives.
fn answer(result: Result<u16, u8>) -> AssignAnswer {
    let (refusal, groomers) = result.map_or_else(|number| (number, 0), |groomers| (0, groomers));
    AssignAnswer { refusal, groomers }
}

/// Notes which of the shapes that must occur this assignment has.
fn note_properties(report: &mut Report, turns: &[Turn], groomers: &[u16]) {
    let (count, most) = (turns.len(), groomers.iter().max().copied().unwrap_or(0));
    report.property("assigned with 0 turns", count == 0);
    report.property("assigned with over 100 turns", count > 100);
    report.property("over 16 groomers", most > 16);
    report.property("over 255 groomers", most > 255);
    let all = count > 1 && usize::from(most) == count;
    report.property("a groomer for each of several turns", all);
    report.property("one groomer for several turns", count > 1 && most == 1);
    let again = |minutes: u32| {
        let pairs = || turns.iter().zip(groomers).take(FEW_TURNS);
        pairs()
            .any(|(a, one)| pairs().any(|(b, other)| a.start == b.end() + minutes && one == other))
    };
    report.property("a groomer again after 10 minutes", again(10));
    report.property("a groomer again after 11 minutes", again(11));
    let starts = || turns.iter().take(FEW_TURNS);
    let soon = |a: &Turn| starts().any(|b| a.start == b.end() + 9);
    report.property("a start 9 minutes after an end", starts().any(soon));
    let falls = turns.windows(2).any(|two| two[0].start > two[1].start);
    report.property("starts that do not rise", falls);
}
