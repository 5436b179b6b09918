//! The kept form of a sheet, and the sheet of a kept form.

use slopeboard_reference::gen::{self, Rng};
use slopeboard_reference::{kept, naive, shapes};

use crate::bytes::{answer, Lent};
use crate::foreign::{self, WriteAnswer};
use crate::placed::Placed;
use crate::report::{show, Report};
use crate::sheets;

/// Compares the two versions of keeping on all sheets.
pub fn run(seed: u64) -> bool {
    let mut rng = Rng::new(seed);
    let mut run = Run::new("keep", naive::keep, [foreign::keep, foreign::restore]);
    sheets::each(&mut rng, |rng, sheet| run.rooms(rng, sheet));
    run.report.finish((1..=11).chain([19]))
}

/// Compares the two versions of restoring on all kept forms.
pub fn run_restore(seed: u64) -> bool {
    let mut rng = Rng::new(seed);
    let ways = [foreign::restore, foreign::keep];
    let mut run = Run::new("restore", naive::restore, ways);
    run.shaped(&mut rng);
    run.faulty(&mut rng);
    run.edges(&mut rng);
    run.report.finish((1..=11).chain([19]))
}

/// One of the two, as the judge has it.
type Ours = fn(&[u8], &mut [u8]) -> Result<usize, u8>;

/// One of the two, as the library has it.
type Theirs = fn(&[u8], &mut [u8]) -> WriteAnswer;

struct Run {
    report: Report,
    lent: Lent<u8>,
    placed: Placed,
    ours: Ours,
    theirs: Theirs,
    /// The library's way back.
    back: Theirs,
}

impl Run {
    fn new(name: &'static str, ours: Ours, [theirs, back]: [Theirs; 2]) -> Run {
        Run {
            report: Report::new(name),
            lent: Lent::default(),
            placed: Placed::default(),
            ours,
            theirs,
            back,
        }
    }

    /// Kept forms of every shape.
    fn shaped(&mut self, rng: &mut Rng) {
        for round in 0..33_000 {
            let shift = sheets::of_any_size(rng, round);
            let redundant = rng.pick(&[0, 10, 100]);
            let kept = kept::encode(rng, &shift, redundant);
            self.rooms(rng, &kept);
        }
        for round in 0..220 {
            let shift = shapes::shift(rng, round % shapes::SHAPES, 400);
            let kept = kept::encode(rng, &shift, 10);
            self.rooms(rng, &kept);
        }
    }

    /// Every kind of fault, in shifts with one bound and without.
    fn faulty(&mut self, rng: &mut Rng) {
        for round in 0..32_000 {
            let turns = rng.between(1, 12) as usize;
            let mut shift = gen::shift(rng, turns);
            if round % 3 == 0 {
                shift = gen::bounded(rng, &shift);
            }
            let kept = kept::with_fault(rng, &shift, round % kept::FAULTS);
            self.rooms(rng, &kept);
        }
    }

    /// Headers at their bounds, marks, every length of some kept forms.
    fn edges(&mut self, rng: &mut Rng) {
        for groomers in 0..=17 {
            for slopes in [0, 1, 2, 119, 120, 121, 255] {
                for turns in [0, 1] {
                    self.rooms(rng, &[b'G', b'R', b'C', groomers, slopes, 0, turns]);
                    self.rooms(rng, &[b'G', b'R', b'C', groomers, slopes, 1, 0x90 + turns]);
                }
            }
        }
        for _ in 0..100 {
            let turns = rng.between(1, 10) as usize;
            let shift = gen::shift(rng, turns);
            let kept = kept::encode(rng, &shift, 10);
            for kept in kept::wrong_marks(&kept) {
                self.rooms(rng, &kept);
            }
            for excess in 1..5 {
                self.rooms(rng, &[&kept[..], &vec![1; excess]].concat());
            }
            for len in 0..kept.len() {
                let (cut, behind) = kept.split_at(len);
                self.placed.put_before(rng, cut, behind);
                self.compare(rng, len);
            }
        }
    }

    /// The bytes with as much room, and if they are accepted also with a byte
    /// less or more.
    fn rooms(&mut self, rng: &mut Rng, bytes: &[u8]) {
        self.placed.put(rng, bytes);
        if self.compare(rng, bytes.len()) {
            let len = bytes.len();
            let room = rng.pick(&[len - 1, len + 1, len + 1, len + 9]);
            self.compare(rng, room);
        }
    }

    /// Compares the two versions on what has been placed, and the way back
    /// with where it came from.
    fn compare(&mut self, rng: &mut Rng, room: usize) -> bool {
        let bytes = self.placed.input();
        let ours = |out: &mut [u8]| answer((self.ours)(bytes, out));
        let theirs = |out: &mut [u8]| (self.theirs)(bytes, out);
        let (report, calls) = (&mut self.report, (ours, theirs));
        let answer = self.lent.compare(rng, report, calls, room, bytes);
        if answer.refusal != 0 {
            return false;
        }
        let turns = gen::turns_claimed(bytes);
        report.property("no turns", turns == 0);
        report.property("over 100 turns", turns > 100);
        let written = self.lent.written(answer.bytes as usize);
        let mut again = vec![0; bytes.len()];
        let returned = (self.back)(written, &mut again);
        if returned != answer || again != bytes {
            report.differs(|| format!("{returned:?} on the way back: {}", show(bytes, room)));
        }
        true
    }
}
