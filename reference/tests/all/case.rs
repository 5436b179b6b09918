//! A shift or a hall, and what weights, mending and the search make of it in
//! both versions, which must agree in every answer and every place.

use crate::both::{planned, sums, BYTE_KEPT};
use slopeboard_reference::gen::{self, Rng, Shift};
use slopeboard_reference::halls::{self, Hall};
use slopeboard_reference::naive::board::opened;
use slopeboard_reference::naive::charge::{accept_hall, better_plan, is_allowed};
use slopeboard_reference::naive::planning::worth;
use slopeboard_reference::naive::sheet::accept;
use slopeboard_reference::naive::turns::Turn;
use slopeboard_reference::{fast, naive, shapes};

/// What an untouched price holds.
pub const PRICE_KEPT: u16 = 0xA5A5;

pub enum Case {
    Shift(Vec<u8>),
    Hall(Vec<u8>),
}

/// What is asked for: rounds without mending, with it, or the search as well.
#[derive(Clone, Copy)]
pub enum Ask {
    Weighed(u32),
    Mended(u32),
    Solved(u32, u32),
}

/// What comes back. Rounds alone make no looks and search nothing.
#[derive(Clone, Debug, Default, PartialEq, Eq)]
pub struct Outcome {
    /// Those of a board.
    bytes: usize,
    pub worth: u32,
    pub limit: u32,
    pub rounds: u32,
    pub looks: u32,
    pub whole: bool,
    pub prices: Vec<u16>,
    /// The board, or the choice map.
    pub written: Vec<u8>,
}

/// An outcome of these fields of what an entry gave.
macro_rules! outcome {
    ($found:expr, $($field:ident)*) => {{
        let found = $found.unwrap();
        Outcome { $($field: found.$field,)* ..Outcome::default() }
    }};
}

/// What an entry of this version gives.
macro_rules! answer {
    ($version:ident, $case:expr, $ask:expr, $out:expr, $prices:expr) => {
        match ($case, $ask) {
            (Case::Shift(sheet), Ask::Weighed(rounds)) => {
                let found = $version::weights::refine(sheet, rounds, $out, $prices);
                outcome!(found, bytes worth limit rounds)
            }
            (Case::Shift(sheet), Ask::Mended(rounds)) => {
                let found = $version::mending::refine(sheet, rounds, $out, $prices);
                outcome!(found, bytes worth limit rounds)
            }
            (Case::Shift(sheet), Ask::Solved(rounds, looks)) => {
                let found = $version::solve(sheet, rounds, looks, $out, $prices);
                outcome!(found, bytes worth limit rounds looks whole)
            }
            (Case::Hall(sheet), Ask::Weighed(rounds)) => {
                let found = $version::weights::charge_refine(sheet, rounds, $out, $prices);
                outcome!(found, worth limit rounds)
            }
            (Case::Hall(sheet), Ask::Mended(rounds)) => {
                let found = $version::mending::charge_refine(sheet, rounds, $out, $prices);
                outcome!(found, worth limit rounds)
            }
            (Case::Hall(sheet), Ask::Solved(rounds, looks)) => {
                let found = $version::charge_solve(sheet, rounds, looks, $out, $prices);
                outcome!(found, worth limit rounds looks whole)
            }
        }
    };
}

impl Case {
    pub fn shift(shift: &Shift) -> Case {
        Case::Shift(gen::encode(&mut Rng::new(0), shift, 0).bytes)
    }

    pub fn hall(hall: &Hall) -> Case {
        Case::Hall(halls::encode(&mut Rng::new(0), hall, 0).bytes)
    }

    /// A shift or a hall with at most ten turns, for trying every set. Half of
    /// them have round worths.
    pub fn small(rng: &mut Rng) -> Case {
        let kind = rng.below(6);
        let mut hall = match kind {
            0 => halls::large(rng, 9),
            _ => halls::small(rng, 10),
        };
        let mut shift = match kind {
            2 => shapes::crossed(rng, 6),
            _ => shapes::small(rng, 10),
        };
        if rng.percent(50) {
            let step = rng.pick(&[1, 7, 10, 50, 6000]);
            let turns = hall.windows.iter_mut().chain(&mut shift.turns);
            turns.for_each(|turn| turn[4] = step * rng.between(1, 10) as u16);
        }
        match kind {
            0 | 1 => Case::hall(&hall),
            _ => Case::shift(&shift),
        }
    }

    pub fn sheet(&self) -> &[u8] {
        let (Case::Shift(sheet) | Case::Hall(sheet)) = self;
        sheet
    }

    pub fn turns(&self) -> Vec<Turn> {
        match self {
            Case::Shift(sheet) => accept(sheet).unwrap_or_else(|_| unreachable!()).turns,
            Case::Hall(sheet) => {
                accept_hall(sheet)
                    .unwrap_or_else(|_| unreachable!())
                    .windows
            }
        }
    }

    /// How many prices a list has.
    pub fn prices(&self) -> usize {
        match self {
            Case::Shift(sheet) => usize::from(sheet[4]) + self.turns().len(),
            Case::Hall(_) => 960,
        }
    }

    /// Whether these turns can stand together.
    pub fn is_allowed(&self, chosen: &[bool]) -> bool {
        match self {
            Case::Shift(_) => {
                let turns = self.turns();
                let members = || (0..turns.len()).filter(|&turn| chosen[turn]);
                let fits = |turn| naive::planning::fits(&turns, chosen, turn);
                members().all(fits)
            }
            Case::Hall(sheet) => {
                let hall = accept_hall(sheet).unwrap_or_else(|_| unreachable!());
                is_allowed(&hall, chosen)
            }
        }
    }

    /// Whether no turn could be added to these.
    pub fn is_full(&self, chosen: &[bool]) -> bool {
        (0..chosen.len()).all(|turn| {
            let mut with = chosen.to_vec();
            with[turn] = true;
            chosen[turn] || !self.is_allowed(&with)
        })
    }

    /// The most that an allowed set is worth; every set is tried.
    pub fn best(&self) -> u32 {
        let turns = self.turns();
        let mut best = 0;
        for set in 0..1u32 << turns.len() {
            let chosen: Vec<bool> = (0..turns.len()).map(|turn| set >> turn & 1 == 1).collect();
            let worth = worth(&turns, &chosen) as u32;
            if worth > best && self.is_allowed(&chosen) {
                best = worth;
            }
        }
        best
    }

    pub fn limit(&self, list: &[u16]) -> u32 {
        let (limit, fast) = match self {
            Case::Shift(sheet) => (
                naive::weights::limit(sheet, list),
                fast::weights::limit(sheet, list),
            ),
            Case::Hall(sheet) => (
                naive::weights::charge_limit(sheet, list),
                fast::weights::charge_limit(sheet, list),
            ),
        };
        assert_eq!(fast, limit, "{:?}", self.sheet());
        limit.unwrap()
    }

    /// What both versions give, with what is promised of it: the board passes
    /// and has the planned steps; the set is allowed, worth as much as is said
    /// and no less than the plan. The places are lent longer than they need be,
    /// and nothing after that is touched.
    pub fn ask(&self, ask: Ask) -> Outcome {
        let outcome = self.asked(|out, prices| answer!(naive, self, ask, out, prices));
        let fast = self.asked(|out, prices| answer!(fast, self, ask, out, prices));
        assert_eq!(fast, outcome, "{:?}", self.sheet());
        let chosen = self.chosen(&outcome);
        assert!(self.is_allowed(&chosen));
        assert_eq!(worth(&self.turns(), &chosen), outcome.worth.into());
        assert!(outcome.worth <= outcome.limit);
        match self {
            Case::Shift(sheet) => {
                let plan = planned(sheet);
                let (before, passed) = (sums(sheet, &plan), sums(sheet, &outcome.written));
                let (before, passed) = (before.unwrap(), passed.unwrap());
                assert_eq!(before.tally, passed.tally);
                assert_eq!(naive::steps(&plan), naive::steps(&outcome.written));
                assert!(before.worth < passed.worth || plan == outcome.written);
            }
            Case::Hall(sheet) => {
                let plan = better_plan(&accept_hall(sheet).unwrap_or_else(|_| unreachable!()));
                assert!(worth(&self.turns(), &plan) < outcome.worth.into() || plan == chosen);
            }
        }
        outcome
    }

    /// The turns that an outcome has chosen.
    pub fn chosen(&self, outcome: &Outcome) -> Vec<bool> {
        let map = &outcome.written;
        match self {
            Case::Shift(_) => opened(map).unwrap().chosen,
            Case::Hall(_) => {
                let n = self.turns().len();
                assert_eq!(map.len(), n.div_ceil(8));
                let stands = |turn| map[turn / 8] >> (turn % 8) & 1 == 1;
                assert!(!(n..8 * map.len()).any(stands));
                (0..n).map(stands).collect()
            }
        }
    }

    /// Bytes of the first place that is lent.
    pub fn bytes(&self) -> usize {
        let n = self.turns().len();
        match self {
            Case::Shift(_) => 15 + n.div_ceil(8) + 4 * n,
            Case::Hall(_) => n.div_ceil(8),
        }
    }

    fn asked(&self, call: impl Fn(&mut [u8], &mut [u16]) -> Outcome) -> Outcome {
        let mut out = vec![BYTE_KEPT; self.bytes() + 1];
        let mut prices = vec![PRICE_KEPT; self.prices() + 1];
        let mut outcome = call(&mut out, &mut prices);
        let end = match self {
            Case::Shift(_) => outcome.bytes,
            Case::Hall(_) => self.bytes(),
        };
        assert!(out[end..].iter().all(|&byte| byte == BYTE_KEPT));
        assert_eq!(prices.pop(), Some(PRICE_KEPT));
        out.truncate(end);
        (outcome.written, outcome.prices) = (out, prices);
        outcome
    }
}
