//! A better choice of windows by rounds.

use slopeboard_reference::fast;
use slopeboard_reference::gen::{self, Rng};
use slopeboard_reference::naive::{self, ChargeRefined};

use crate::bytes::Lent;
use crate::charge;
use crate::foreign::{self, ChargeRefineAnswer};
use crate::placed::Placed;
use crate::report::Report;

/// How many prices a list has.
const PRICES: usize = slopeboard::MINUTES;

/// The bytes of some 20 windows.
const SHORT: usize = 200;

/// Compares the two versions on all halls but many of the large ones, on which
/// the judge is slow.
pub fn run(seed: u64) -> bool {
    let mut rng = Rng::new(seed);
    let mut run = Run {
        report: Report::new("charge_refine"),
        maps: Lent::default(),
        prices: Lent::default(),
        placed: Placed::default(),
    };
    charge::each(&mut rng, |rng, sheet| {
        if sheet.len() <= SHORT || rng.percent(5) {
            run.rooms(rng, sheet);
        }
    });
    run.report.finish((1..=6).chain(8..=11).chain([25]))
}

struct Run {
    report: Report,
    maps: Lent<u8>,
    prices: Lent<u16>,
    placed: Placed,
}

impl Run {
    /// The sheet with places just large enough, and if it is accepted also with
    /// other rounds and other places, some of them too few.
    fn rooms(&mut self, rng: &mut Rng, sheet: &[u8]) {
        let bytes = gen::turns_claimed(sheet).div_ceil(8);
        let rounds = rng.pick(&[0, 1, 2, 4]);
        if !self.case(rng, sheet, rounds, [bytes, PRICES]) {
            return;
        }
        let rooms = match rng.below(6) {
            0 => [bytes.saturating_sub(1), PRICES],
            1 => [bytes, PRICES - 1],
            2 => [0, rng.below(PRICES as u32) as usize],
            _ => [bytes + 1, PRICES + rng.below(9) as usize],
        };
        let more = rounds + rng.below(3);
        self.case(rng, sheet, more, rooms);
    }

    fn case(&mut self, rng: &mut Rng, sheet: &[u8], rounds: u32, rooms: [usize; 2]) -> bool {
        self.placed.put(rng, sheet);
        let sheet = self.placed.input();
        let ours = |map: &mut [u8], prices: &mut [u16]| {
            answer(naive::charge_refine(sheet, rounds, map, prices))
        };
        let theirs =
            |map: &mut [u8], prices: &mut [u16]| foreign::charge_refine(sheet, rounds, map, prices);
        let (maps, prices) = (&mut self.maps, &mut self.prices);
        let report = &mut self.report;
        let answer = maps.compare_with(prices, rng, report, (ours, theirs), rooms, sheet);
        if answer.refusal == 0 {
            let windows = gen::turns_claimed(sheet);
            let priced = prices.written(PRICES).iter().any(|&price| price > 0);
            note_properties(report, sheet, rounds, answer, windows, priced);
        }
        answer.refusal == 0
    }
}

/// Notes which of the courses that must occur this one took.
fn note_properties(
    report: &mut Report,
    sheet: &[u8],
    rounds: u32,
    answer: ChargeRefineAnswer,
    windows: usize,
    priced: bool,
) {
    report.property("no windows", windows == 0);
    report.property("no round allowed", rounds == 0 && windows > 0);
    report.property("a minute with a price", priced);
    let met = answer.worth == answer.limit;
    report.property(
        "worth and limit meet after rounds",
        met && answer.rounds > 0,
    );
    report.property(
        "they meet before the rounds are used up",
        answer.rounds < rounds,
    );
    report.property("all rounds made, and they do not meet", !met && rounds > 0);
    let mut map = vec![0; windows.div_ceil(8)];
    let planned = fast::charge(sheet, &mut map).expect("the hall was accepted");
    let better = answer.worth > planned;
    report.property(
        "better than planned without a round",
        better && answer.rounds == 0,
    );
    report.property("better than planned by rounds", better && answer.rounds > 0);
}

/// The judge's result in the form that the library gives.
fn answer(result: Result<ChargeRefined, u8>) -> ChargeRefineAnswer {
    let (refusal, found) = match result {
        Ok(found) => (0, found),
        Err(number) => (number, ChargeRefined::default()),
    };
    ChargeRefineAnswer {
        refusal,
        worth: found.worth,
        limit: found.limit,
        rounds: found.rounds,
    }
}
