//! A better set of windows for the charging hall, and a limit close above it, by
//! rounds in which prices move.

use super::board::map_len;
use super::charge::{parse, planned, Selection};
use super::charge_limit::{look, Taken};
use super::ranks::{add, lowest, next_change, remove, Ranks, Set, WORDS};
use super::refusal;
use super::sheet::no_turns;
use super::turns::Turn;
use crate::limits::{MINUTES, MOST_VEHICLES};

/// What the rounds came to, beside choice map and prices.
#[derive(Clone, Copy, Debug, PartialEq, Eq)]
pub struct ChargeRefined {
    pub worth: u32,
    pub limit: u32,
    pub rounds: u32,
}

/// Makes up to so many rounds, writes the best set's choice map and the prices
/// of the lowest limit.
pub fn charge_refine(
    sheet: &[u8],
    rounds: u32,
    map: &mut [u8],
    prices: &mut [u16],
) -> Result<ChargeRefined, u8> {
    let mut windows = no_turns();
    let (units, count) = parse(sheet, &mut windows)?;
    let windows = &windows[..count];
    let map = map.get_mut(..map_len(count));
    let map = map.ok_or(refusal::BUFFER_TOO_SMALL)?;
    let prices: &mut [u16; MINUTES] = match prices.get_mut(..MINUTES).map(TryInto::try_into) {
        Some(Ok(prices)) => prices,
        _ => return Err(refusal::BUFFER_TOO_SMALL),
    };
    let plan = planned(windows, units);
    let hall = Hall::new(windows, units);
    let mut worth = plan.worth;
    let mut best = None;
    let mut now = [0; MINUTES];
    let mut limit = u32::MAX;
    let mut change = hall.ranks.greatest().div_ceil(8);
    let mut made = 0;
    loop {
        let (seen, taken) = look(windows, units, &now);
        if seen < limit {
            limit = seen;
            *prices = now;
        }
        let (choice, choice_worth) = hall.choose(&taken);
        if choice_worth > worth {
            worth = choice_worth;
            best = Some(choice);
        }
        if limit == worth || made == rounds {
            break;
        }
        hall.round(&taken, change, &mut now);
        change = next_change(change);
        made += 1;
    }
    match best {
        Some(best) => hall.ranks.put_map(&best, map),
        None => map.copy_from_slice(&plan.map[..map.len()]),
    }
    Ok(ChargeRefined {
        worth,
        limit,
        rounds: made,
    })
}

/// What no price changes.
pub struct Hall<'a> {
    pub windows: &'a [Turn],
    pub units: u32,
    pub ranks: Ranks,
    pub all: Set,
    /// By vehicle, the ranks of its windows.
    pub vehicles: [Set; MOST_VEHICLES as usize + 1],
}

impl Hall<'_> {
    pub fn new(windows: &[Turn], units: u32) -> Hall<'_> {
        let ranks = Ranks::new(windows);
        let mut vehicles = [[0; WORDS]; MOST_VEHICLES as usize + 1];
        for (number, window) in windows.iter().enumerate() {
            add(&mut vehicles[usize::from(window.slope)], ranks.rank(number));
        }
        Hall {
            windows,
            units,
            all: ranks.all(),
            ranks,
            vehicles,
        }
    }

    /// The choice from the windows taken, by rank, and its worth.
    fn choose(&self, taken: &Taken) -> (Set, u32) {
        let mut first = [0; WORDS];
        for number in taken.numbers() {
            add(&mut first, self.ranks.rank(number));
        }
        let mut free = self.all;
        let mut chosen = [0; WORDS];
        let mut selection = Selection::new(self.units);
        for set in [&first, &self.all] {
            for word in 0..WORDS {
                while let Some(rank) = lowest(word, set, &free) {
                    let window = &self.windows[self.ranks.number(rank)];
                    if selection.add(window) {
                        add(&mut chosen, rank);
                        remove(&mut free, &self.vehicles[usize::from(window.slope)]);
                    } else {
                        // What does not fit now never will.
                        free[word] ^= 1 << (rank % 64);
                    }
                }
            }
        }
        (chosen, selection.worth())
    }

    /// Moves the prices by what the windows taken draw. From one start or end
    /// to the next all minutes move alike.
    pub fn round(&self, taken: &Taken, change: u32, prices: &mut [u16; MINUTES]) {
        const POINTS: usize = (MINUTES + 1).div_ceil(64);
        // By minute, how much more is drawn than in the minute before.
        let mut more = [0i32; MINUTES + 1];
        let mut points = [0u64; POINTS];
        for number in taken.numbers() {
            let window = &self.windows[number];
            let (start, end) = (usize::from(window.start), window.end() as usize);
            more[start] += i32::from(window.groomer);
            more[end] -= i32::from(window.groomer);
            points[start / 64] |= 1 << (start % 64);
            points[end / 64] |= 1 << (end % 64);
        }
        points[MINUTES / 64] |= 1 << (MINUTES % 64);
        let (mut from, mut drawn) = (0, 0);
        for (word, mut bits) in points.into_iter().enumerate() {
            while bits != 0 {
                let to = 64 * word + bits.trailing_zeros() as usize;
                bits &= bits - 1;
                self.shift(&mut prices[from..to], drawn as u32, change);
                drawn += more[to];
                from = to;
            }
        }
    }

    /// Moves the prices of minutes in which so much is drawn.
    fn shift(&self, prices: &mut [u16], drawn: u32, change: u32) {
        let units = self.units;
        let part = |rest: u32| u16::try_from(rest).unwrap_or(u16::MAX);
        if drawn > units {
            let rise = part((change * (drawn - units)).div_ceil(units));
            for price in prices {
                *price = price.saturating_add(rise);
            }
        } else {
            let fall = part(change * (units - drawn) / units);
            for price in prices {
                *price = price.saturating_sub(fall);
            }
        }
    }
}
