//! Planning a charging hall, and the charging sheets that every entry for halls
//! is compared on.

use slopeboard_reference::gen::{self, Rng};
use slopeboard_reference::halls;
use slopeboard_reference::naive::charge::{accept_hall, kind, planned, Kind};
use slopeboard_reference::naive::{self, planning};

use crate::bytes::Lent;
use crate::foreign::{self, ChargeAnswer};
use crate::placed::Placed;
use crate::report::Report;

/// Compares the two versions on all halls.
pub fn run(seed: u64) -> bool {
    let mut rng = Rng::new(seed);
    let mut run = Run {
        report: Report::new("charge"),
        lent: Lent::default(),
        placed: Placed::default(),
    };
    each(&mut rng, |rng, sheet| run.rooms(rng, sheet));
    run.lengths(&mut rng);
    run.report.finish((1..=6).chain(8..=11).chain([25]))
}

/// Hands every charging sheet to the function: more than half of them accepted
/// ones.
pub fn each(rng: &mut Rng, mut run: impl FnMut(&mut Rng, &[u8])) {
    shaped(rng, &mut run);
    small(rng, &mut run);
    faulty(rng, &mut run);
    edges(rng, &mut run);
}

/// Halls of every shape: mostly few windows, at times many.
fn shaped(rng: &mut Rng, run: &mut impl FnMut(&mut Rng, &[u8])) {
    for round in 0..20_000 {
        let windows = match round % 400 {
            0 | 1 => rng.between(61, 300),
            2..=20 => rng.between(16, 60),
            _ => rng.below(16),
        };
        let hall = halls::hall(rng, round % halls::SHAPES, windows as usize);
        let sheet = halls::encode(rng, &hall, 10).bytes;
        run(rng, &sheet);
    }
    for _ in 0..140 {
        let windows = rng.between(61, 400) as usize;
        let hall = halls::usual(rng, windows);
        let sheet = halls::encode(rng, &hall, 0).bytes;
        run(rng, &sheet);
    }
}

/// Few windows in few minutes; of both kinds, and of large ones alone.
fn small(rng: &mut Rng, run: &mut impl FnMut(&mut Rng, &[u8])) {
    for round in 0..20_000 {
        let hall = match round % 3 {
            0 => halls::large(rng, 14),
            _ => halls::small(rng, 12),
        };
        let sheet = halls::encode(rng, &hall, 10).bytes;
        run(rng, &sheet);
    }
}

/// Every kind of fault.
fn faulty(rng: &mut Rng, run: &mut impl FnMut(&mut Rng, &[u8])) {
    for round in 0..30_000 {
        let windows = rng.between(1, 8) as usize;
        let shape = rng.below(halls::SHAPES);
        let hall = halls::hall(rng, shape, windows);
        let sheet = halls::with_fault(rng, &hall, round % halls::FAULTS);
        run(rng, &sheet);
    }
}

/// Headers at their bounds, marks, and every length of some sheets.
fn edges(rng: &mut Rng, run: &mut impl FnMut(&mut Rng, &[u8])) {
    for units in 0..=50 {
        for vehicles in [0, 1, 2, 59, 60, 61, 255] {
            for windows in [0, 1] {
                run(rng, &[b'G', b'R', b'E', units, vehicles, 0, windows]);
                run(rng, &[b'G', b'R', b'E', units, vehicles, 1, 0x90 + windows]);
            }
        }
    }
    for round in 0..100 {
        let windows = rng.between(1, 8) as usize;
        let hall = halls::hall(rng, round % halls::SHAPES, windows);
        let sheet = halls::encode(rng, &hall, 10).bytes;
        for sheet in halls::wrong_marks(&sheet) {
            run(rng, &sheet);
        }
        for len in 0..sheet.len() {
            run(rng, &sheet[..len]);
        }
    }
}

struct Run {
    report: Report,
    lent: Lent<u8>,
    placed: Placed,
}

impl Run {
    /// Every length of some sheets, with their own bytes behind.
    fn lengths(&mut self, rng: &mut Rng) {
        for round in 0..100 {
            let windows = rng.between(1, 8) as usize;
            let hall = halls::hall(rng, round % halls::SHAPES, windows);
            let sheet = halls::encode(rng, &hall, 10).bytes;
            for len in 0..sheet.len() {
                let (cut, behind) = sheet.split_at(len);
                self.placed.put_before(rng, cut, behind);
                self.compare(rng, 1);
            }
        }
    }

    /// The sheet with just the map's bytes, and if it is accepted also with a
    /// byte less or more.
    fn rooms(&mut self, rng: &mut Rng, sheet: &[u8]) {
        self.placed.put(rng, sheet);
        let bytes = gen::turns_claimed(sheet).div_ceil(8);
        if self.compare(rng, bytes) {
            self.note_properties();
            let less = bytes.saturating_sub(1);
            let room = rng.pick(&[less, bytes + 1, bytes + 1, 50]);
            self.compare(rng, room);
        }
    }

    /// Compares the two versions on what has been placed.
    fn compare(&mut self, rng: &mut Rng, room: usize) -> bool {
        let sheet = self.placed.input();
        let ours = |map: &mut [u8]| answer(naive::charge(sheet, map));
        let theirs = |map: &mut [u8]| foreign::charge(sheet, map);
        let report = &mut self.report;
        let answer = self.lent.compare(rng, report, (ours, theirs), room, sheet);
        answer.refusal == 0
    }

    /// Notes which of the shapes that must occur this hall has.
    fn note_properties(&mut self) {
        let hall = accept_hall(self.placed.input());
        let hall = hall.unwrap_or_else(|_| unreachable!("the hall was planned"));
        let report = &mut self.report;
        let windows = hall.windows.len();
        report.property("no windows", windows == 0);
        report.property("over 60 windows", windows > 60);
        let half = |window: usize| 2 * hall.windows[window].groomer == hall.units;
        report.property("a draw of half the units", (0..windows).any(half));
        let full = |window: usize| hall.windows[window].groomer == hall.units;
        report.property("a draw of all the units", (0..windows).any(full));
        let of = |of: Kind| (0..windows).any(|window| kind(&hall, window) == of);
        report.property("both kinds", of(Kind::Small) && of(Kind::Large));
        if windows > 60 {
            return;
        }
        let plans = [Kind::Small, Kind::Large].map(|of| planned(&hall, of));
        let worths = plans
            .each_ref()
            .map(|plan| planning::worth(&hall.windows, &plan.chosen));
        let some = windows > 0;
        report.property("the small draws", worths[0] > worths[1]);
        report.property("the large draws", worths[0] < worths[1]);
        report.property("plans of one worth", some && worths[0] == worths[1]);
        for (plan, name) in plans.iter().zip([
            "small draws with a step not chosen",
            "large draws with a step not chosen",
        ]) {
            let left_out = plan.steps.iter().any(|&(j, _)| !plan.chosen[j]);
            report.property(name, left_out);
        }
        for (plan, name) in plans.iter().zip([
            "small draws with a window filled in",
            "large draws with a window filled in",
        ]) {
            let filled = |window: usize| {
                plan.chosen[window] && !plan.steps.iter().any(|&(j, _)| j == window)
            };
            report.property(name, (0..windows).any(filled));
        }
    }
}

/// The judge's result in the form that the library gives.
fn answer(result: Result<u32, u8>) -> ChargeAnswer {
    let (refusal, worth) = result.map_or_else(|number| (number, 0), |worth| (0, worth));
    ChargeAnswer { refusal, worth }
}
