//! The hall's limit by prices.

use slopeboard_reference::gen::Rng;
use slopeboard_reference::naive;
use slopeboard_reference::prices;

use crate::charge;
use crate::foreign::{self, LimitAnswer};
use crate::placed::Placed;
use crate::report::{show, Report};

/// How many prices a list has.
const PRICES: usize = slopeboard::MINUTES;

/// Compares the two versions on all halls, with prices of every kind.
pub fn run(seed: u64) -> bool {
    let mut rng = Rng::new(seed);
    let mut run = Run {
        report: Report::new("charge_limit"),
        placed: Placed::default(),
    };
    charge::each(&mut rng, |rng, sheet| run.lists(rng, sheet));
    run.report.finish((1..=6).chain(8..=10).chain([25, 26]))
}

struct Run {
    report: Report,
    placed: Placed,
}

impl Run {
    /// The sheet with a list of prices of the wanted length, and if it is
    /// accepted also with another such list, and at times with one of another
    /// length.
    fn lists(&mut self, rng: &mut Rng, sheet: &[u8]) {
        if !self.case(rng, sheet, PRICES) {
            return;
        }
        self.case(rng, sheet, PRICES);
        if rng.percent(10) {
            let other = prices::wrong_count(rng, PRICES);
            self.case(rng, sheet, other);
        }
    }

    fn case(&mut self, rng: &mut Rng, sheet: &[u8], count: usize) -> bool {
        let kind = rng.below(prices::KINDS);
        let scale = rng.pick(&[4, 40, 400, 4000, 60_000]);
        let list = prices::list(rng, kind, count, scale);
        self.placed.put(rng, sheet);
        let sheet = self.placed.input();
        let ours = match naive::charge_limit(sheet, &list) {
            Ok(limit) => LimitAnswer { refusal: 0, limit },
            Err(refusal) => LimitAnswer { refusal, limit: 0 },
        };
        let theirs = foreign::charge_limit(sheet, &list);
        self.report.count(ours.refusal);
        if ours != theirs {
            let text = || format!("{ours:?} {theirs:?} {list:?} {}", show(sheet, count));
            self.report.differs(text);
        }
        if ours.refusal == 0 {
            let sum: u64 = list.iter().map(|&price| u64::from(price)).sum();
            let product = u64::from(sheet[3]) * sum;
            self.report
                .property("a product above 31 bits", product >> 31 > 0);
            let whole = product / 16;
            self.report
                .property("all pay for nothing", u64::from(ours.limit) == whole);
            self.report
                .property("some count", u64::from(ours.limit) > whole);
        }
        ours.refusal == 0
    }
}
