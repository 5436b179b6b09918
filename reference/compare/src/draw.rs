//! Sheets drawn from a seed.

use slopeboard_reference::gen::Rng;
use slopeboard_reference::naive;

use crate::bytes::{answer, Lent};
use crate::foreign;
use crate::report::Report;

/// The first seed that is too large.
const MODULUS: u64 = 2_147_483_647;

/// Seeds at, under and over their bounds. The last ones would be right if they
/// were cut to fewer bits.
const SEEDS: [u64; 14] = [
    0,
    1,
    2,
    16_807,
    MODULUS - 2,
    MODULUS - 1,
    MODULUS,
    MODULUS + 1,
    1 << 31,
    1 << 32,
    (1 << 32) + 1,
    (1 << 32) + MODULUS - 1,
    1 << 63,
    u64::MAX,
];

/// Counts at their bounds and far beyond what a byte or two hold.
const COUNTS: [u32; 13] = [
    0,
    1,
    2,
    15,
    16,
    17,
    120,
    121,
    256,
    257,
    65_536,
    65_537,
    u32::MAX,
];

/// Numbers of turns at their bound and far beyond.
const TURNS: [u32; 7] = [0, 1, 400, 401, 65_536, 65_937, u32::MAX];

/// Compares the two versions on all inputs.
pub fn run(seed: u64) -> bool {
    let mut run = Run {
        rng: Rng::new(seed),
        report: Report::new("draw"),
        lent: Lent::default(),
    };
    run.drawn_sheets();
    run.largest();
    run.bounds();
    run.report.finish([3, 4, 11, 23])
}

struct Run {
    rng: Rng,
    report: Report,
    lent: Lent<u8>,
}

impl Run {
    /// Any seed that is taken, at times the least or the greatest.
    fn seed(&mut self) -> u64 {
        match self.rng.below(50) {
            0 => self.rng.pick(&[1, MODULUS - 1]),
            _ => 1 + self.rng.draw() % (MODULUS - 1),
        }
    }

    /// Any seed and counts that are allowed, with more room than needed, then
    /// with just enough, a byte more or a byte less.
    fn drawn_sheets(&mut self) {
        for round in 0..70_000 {
            let seed = self.seed();
            let most = if round % 50 == 0 { 400 } else { 24 };
            let turns = self.rng.between(0, most);
            let counts = [self.rng.between(1, 16), self.rng.between(1, 120), turns];
            let len = self.case(seed, counts, 7 + 9 * turns as usize);
            let room = self.rng.pick(&[len, len, len + 1, len - 1]);
            self.case(seed, counts, room);
        }
    }

    fn largest(&mut self) {
        for _ in 0..300 {
            let seed = self.seed();
            let len = self.case(seed, [16, 120, 400], 4007);
            self.case(seed, [16, 120, 400], len - 1);
        }
    }

    /// Every mixture of seeds and counts at their bounds.
    fn bounds(&mut self) {
        for seed in SEEDS {
            for groomers in COUNTS {
                for slopes in COUNTS {
                    for turns in TURNS {
                        let room = self.rng.pick(&[0, 6, 7, 15, 16, 17, 4007]);
                        self.case(seed, [groomers, slopes, turns], room);
                    }
                }
            }
        }
    }

    /// Compares the two versions on one input and gives the bytes written.
    fn case(&mut self, seed: u64, counts: [u32; 3], room: usize) -> usize {
        let [groomers, slopes, turns] = counts;
        let mut show = seed.to_be_bytes().to_vec();
        show.extend(counts.iter().flat_map(|count| count.to_be_bytes()));
        let ours = |out: &mut [u8]| answer(naive::draw(seed, groomers, slopes, turns, out));
        let theirs = |out: &mut [u8]| foreign::draw(seed, groomers, slopes, turns, out);
        let (rng, report) = (&mut self.rng, &mut self.report);
        let answer = self.lent.compare(rng, report, (ours, theirs), room, &show);
        if answer.refusal == 0 {
            let report = &mut self.report;
            report.property("drawn with 0 turns", turns == 0);
            report.property("drawn with 400 turns", turns == 400);
            let full = answer.bytes as usize == room;
            report.property("drawn into exact room", full);
            let least = seed == 1 || seed == MODULUS - 1;
            report.property("the least seed or the greatest", least);
        }
        answer.bytes as usize
    }
}
