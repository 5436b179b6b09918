//! What weights, mending and the search for the best board go by. They are the
//! same for a shift and for a charging hall, whose windows are turns here.

use super::charge::Hall;
use super::limit::Look;
use super::planning;
use super::sheet::Sheet;
use super::turns::Turn;
use super::{charge_limit, charge_refine, limit, refine};

pub trait Rule {
    fn turns(&self) -> &[Turn];

    /// Whether the turn can be chosen beside those that are chosen.
    fn fits(&self, chosen: &[bool], turn: usize) -> bool;

    /// How many prices a list has.
    fn prices(&self) -> usize;

    /// A look at the prices with these weights in the place of worths. Its
    /// limit is still in weights: all prices and all best counts together.
    fn look(&self, weights: &[u32], prices: &[u16]) -> Look;

    /// The prices after a round.
    fn moved(&self, prices: &[u16], relaxed: &[usize], change: u32) -> Vec<u16>;

    /// Which part of the greatest weight the first change is.
    fn part(&self) -> u32;
}

impl Rule for Sheet {
    fn turns(&self) -> &[Turn] {
        &self.turns
    }

    fn fits(&self, chosen: &[bool], turn: usize) -> bool {
        planning::fits(&self.turns, chosen, turn)
    }

    fn prices(&self) -> usize {
        limit::numbers(self)
    }

    fn look(&self, weights: &[u32], prices: &[u16]) -> Look {
        let weighed = Sheet {
            turns: with_weights(&self.turns, weights),
            ..*self
        };
        limit::look(&weighed, prices)
    }

    fn moved(&self, prices: &[u16], relaxed: &[usize], change: u32) -> Vec<u16> {
        refine::moved(self, prices, relaxed, change)
    }

    fn part(&self) -> u32 {
        4
    }
}

impl Rule for Hall {
    fn turns(&self) -> &[Turn] {
        &self.windows
    }

    /// The chosen windows are allowed. So only the vehicle and the minutes of
    /// this one can be against it.
    fn fits(&self, chosen: &[bool], turn: usize) -> bool {
        let window = &self.windows[turn];
        let mut others = Vec::new();
        for (other, &chosen) in chosen.iter().enumerate() {
            if chosen && other != turn {
                others.push(&self.windows[other]);
            }
        }
        let is_second = others.iter().any(|other| other.slope == window.slope);
        !is_second
            && (window.start..window.end()).all(|minute| {
                let drawing = others.iter().filter(|other| other.holds(minute));
                let drawn: u32 = drawing.map(|other| other.groomer).sum();
                drawn + window.groomer <= self.units
            })
    }

    fn prices(&self) -> usize {
        960
    }

    fn look(&self, weights: &[u32], prices: &[u16]) -> Look {
        let weighed = Hall {
            windows: with_weights(&self.windows, weights),
            ..*self
        };
        charge_limit::look(&weighed, prices)
    }

    fn moved(&self, prices: &[u16], relaxed: &[usize], change: u32) -> Vec<u16> {
        charge_refine::moved(self, prices, relaxed, change)
    }

    fn part(&self) -> u32 {
        8
    }
}

/// The turns with their weights in the place of their worths.
fn with_weights(turns: &[Turn], weights: &[u32]) -> Vec<Turn> {
    let weighed = |(turn, &weight): (&Turn, &u32)| Turn {
        worth: weight,
        ..*turn
    };
    turns.iter().zip(weights).map(weighed).collect()
}
