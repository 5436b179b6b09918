//! The limit by prices.

use slopeboard_reference::gen::{self, Rng};
use slopeboard_reference::naive::{self, any_driver, sheet::accept};
use slopeboard_reference::prices;

use crate::foreign::{self, LimitAnswer};
use crate::placed::Placed;
use crate::report::{show, Report};
use crate::sheets;

/// Compares the two versions on all sheets, with prices of every kind.
pub fn run(seed: u64) -> bool {
    let mut rng = Rng::new(seed);
    let mut run = Run {
        report: Report::new("limit"),
        placed: Placed::default(),
    };
    sheets::each(&mut rng, |rng, sheet| run.lists(rng, sheet));
    run.report.finish((1..=10).chain([19, 26]))
}

struct Run {
    report: Report,
    placed: Placed,
}

impl Run {
    /// The sheet with a list of prices of the wanted length, and if it is
    /// accepted also with another such list, and at times with one of another
    /// length.
    fn lists(&mut self, rng: &mut Rng, sheet: &[u8]) {
        let slopes = usize::from(sheet.get(4).copied().unwrap_or(0));
        let wanted = slopes + gen::turns_claimed(sheet);
        if !self.case(rng, sheet, wanted) {
            return;
        }
        self.case(rng, sheet, wanted);
        if rng.percent(20) {
            let other = prices::wrong_count(rng, wanted);
            self.case(rng, sheet, other);
        }
    }

    fn case(&mut self, rng: &mut Rng, sheet: &[u8], count: usize) -> bool {
        let kind = rng.below(prices::KINDS);
        let scale = rng.pick(&[10, 300, 60_000]);
        let list = prices::list(rng, kind, count, scale);
        self.placed.put(rng, sheet);
        let sheet = self.placed.input();
        let ours = match naive::limit(sheet, &list) {
            Ok(limit) => LimitAnswer { refusal: 0, limit },
            Err(refusal) => LimitAnswer { refusal, limit: 0 },
        };
        let theirs = foreign::limit(sheet, &list);
        self.report.count(ours.refusal);
        if ours != theirs {
            let text = || format!("{ours:?} {theirs:?} {list:?} {}", show(sheet, count));
            self.report.differs(text);
        }
        if ours.refusal == 0 {
            let turns = accept(sheet).unwrap_or_else(|_| unreachable!("the sheet was accepted"));
            self.report
                .property("a sheet with a driver", any_driver(&turns.turns));
        }
        ours.refusal == 0
    }
}
