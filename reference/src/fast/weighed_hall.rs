//! A charging hall with weights for worths.

use super::charge::Selection;
use super::charge_limit::{self, Taken};
use super::charge_refine::Hall;
use super::ranks::{add, close, each, first_from, lowest, remove, unite, Ranks, Set, WORDS};
use super::rule::{greatest, weighed, Choice, Rule};
use super::sheet::TurnArray;
use super::turns::Turn;
use super::weights::Scale;
use crate::limits::{MINUTES, MOST_TURNS};

/// A hall's windows, and prices on their way.
pub struct WeighedHall<'a> {
    hall: Hall<'a>,
    scale: Scale,
    weighed: TurnArray,
    /// The same, but 0 for those that are left out.
    counted: TurnArray,
    /// By rank, the ranks that share a minute with it.
    together: [Set; MOST_TURNS],
    now: [u16; MINUTES],
    taken: Taken,
}

impl WeighedHall<'_> {
    pub fn new(windows: &[Turn], units: u32) -> WeighedHall<'_> {
        let (scale, weighed) = weighed(windows);
        let hall = Hall::new(windows, units);
        WeighedHall {
            together: close(windows, &hall.ranks, 0),
            hall,
            scale,
            weighed,
            counted: weighed,
            now: [0; MINUTES],
            taken: Taken::none(),
        }
    }

    fn window(&self, rank: usize) -> &Turn {
        &self.hall.windows[self.hall.ranks.number(rank)]
    }

    fn vehicle(&self, rank: usize) -> &Set {
        &self.hall.vehicles[usize::from(self.window(rank).slope)]
    }

    /// Takes one out and others in, wherever that is worth more. Since the
    /// choice is full, and stays so, what fits after a window has gone out is of
    /// its vehicle, or of one without a window and shares a minute with it.
    fn mend(&self, choice: &mut Choice, selection: &mut Selection) {
        let mut busy = [0; WORDS];
        for rank in each(&choice.set) {
            unite(&mut busy, self.vehicle(rank));
        }
        let mut visited = 0;
        while let Some(rank) = first_from(&choice.set, visited) {
            visited = rank + 1;
            let own = self.vehicle(rank);
            let mut free = self.together[rank];
            remove(&mut free, &busy);
            unite(&mut free, own);
            free[rank / 64] ^= 1 << (rank % 64);
            if !self.can_gain(rank, &free) {
                continue;
            }
            selection.take_out(self.window(rank));
            let mut others = [0; WORDS];
            for word in 0..WORDS {
                while let Some(other) = lowest(word, &free, &free) {
                    if selection.add(self.window(other)) {
                        add(&mut others, other);
                        remove(&mut free, self.vehicle(other));
                    } else {
                        free[word] ^= 1 << (other % 64);
                    }
                }
            }
            if selection.worth() > choice.worth {
                choice.exchange(rank, &others);
                choice.worth = selection.worth();
                remove(&mut busy, own);
                for other in each(&others) {
                    unite(&mut busy, self.vehicle(other));
                }
            } else {
                for other in each(&others) {
                    selection.take_out(self.window(other));
                }
                selection.put(self.window(rank));
            }
        }
    }

    /// Whether as many as these could be worth more than the one, if all were
    /// worth as much as the first.
    fn can_gain(&self, rank: usize, free: &Set) -> bool {
        let count: u32 = free.iter().map(|word| word.count_ones()).sum();
        let first = first_from(free, 0);
        first
            .is_some_and(|first| count * self.hall.ranks.worth(first) > self.hall.ranks.worth(rank))
    }
}

impl Rule for WeighedHall<'_> {
    type Prices = [u16; MINUTES];

    const PART: u32 = 8;

    fn ranks(&self) -> &Ranks {
        &self.hall.ranks
    }

    fn greatest(&self) -> u32 {
        greatest(&self.weighed)
    }

    fn prices(&self) -> &Self::Prices {
        &self.now
    }

    fn set_prices(&mut self, prices: &Self::Prices) {
        self.now = *prices;
    }

    fn look(&mut self) -> (u32, Set) {
        let counted = &self.counted[..self.hall.windows.len()];
        let (sum, taken) = charge_limit::look(counted, self.hall.units, &self.now);
        self.taken = taken;
        let mut set = [0; WORDS];
        for number in self.taken.numbers() {
            add(&mut set, self.hall.ranks.rank(number));
        }
        (self.scale.limit(sum), set)
    }

    fn choose<const MENDS: bool>(&self, taken: &Set, relaxed: &Set) -> Choice {
        let mut free = self.hall.all;
        let mut selection = Selection::new(self.hall.units);
        let mut choice = Choice::NONE;
        for set in [taken, relaxed, &self.hall.all] {
            for word in 0..WORDS {
                while let Some(rank) = lowest(word, set, &free) {
                    if selection.add(self.window(rank)) {
                        add(&mut choice.set, rank);
                        remove(&mut free, self.vehicle(rank));
                    } else {
                        // What does not fit now never will.
                        free[word] ^= 1 << (rank % 64);
                    }
                }
            }
        }
        choice.worth = selection.worth();
        if MENDS {
            self.mend(&mut choice, &mut selection);
        }
        choice
    }

    fn round(&mut self, change: u32) {
        self.hall.round(&self.taken, change, &mut self.now);
    }

    fn leave_out(&mut self, out: &Set) {
        self.counted = self.weighed;
        for rank in each(out) {
            self.counted[self.hall.ranks.number(rank)].worth = 0;
        }
    }

    fn blocked(&self, taken: &Set) -> Set {
        let mut selection = Selection::new(self.hall.units);
        for rank in each(taken) {
            selection.put(self.window(rank));
        }
        let mut blocked = self.hall.all;
        remove(&mut blocked, taken);
        for rank in each(&self.hall.all) {
            if selection.fits(self.window(rank)) {
                blocked[rank / 64] &= !(1 << (rank % 64));
            }
        }
        blocked
    }
}
