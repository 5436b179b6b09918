//! A better set of windows than the charging hall's plan, and a limit close
//! above it, by rounds in which prices move.

use super::board::choice_map;
use super::charge::{accept_hall, better_plan, is_allowed, Hall};
use super::charge_limit::look;
use super::lend;
use super::planning::worth;
use super::refine::{by_worth, first_change, next_change};

/// What the rounds came to, beside the choice map and the prices.
#[derive(Clone, Copy, Debug, Default, PartialEq, Eq)]
pub struct ChargeRefined {
    /// What the windows of the map are worth.
    pub worth: u32,
    /// The lowest limit seen, which is that of the written prices.
    pub limit: u32,
    /// How many rounds were made.
    pub rounds: u32,
}

/// Makes at most so many rounds, writes the choice map of the best set and the
/// prices of the lowest limit, and gives what they came to. After the charging
/// sheet's refusals 11 if either place is too short.
pub fn charge_refine(
    sheet: &[u8],
    rounds: u32,
    map: &mut [u8],
    prices: &mut [u16],
) -> Result<ChargeRefined, u8> {
    let hall = accept_hall(sheet)?;
    if map.len() < hall.windows.len().div_ceil(8) || prices.len() < 960 {
        return Err(11);
    }
    let mut now = vec![0; 960];
    let mut change = first_change(&hall.windows, 8);
    let mut best = better_plan(&hall);
    let mut made = 0;
    let mut kept_limit = None;
    let mut kept_prices = Vec::new();
    let limit = loop {
        let seen = look(&hall, &now);
        let limit = match kept_limit {
            Some(kept) if kept <= seen.limit => kept,
            _ => {
                kept_prices = now.clone();
                seen.limit
            }
        };
        kept_limit = Some(limit);
        let choice = choice(&hall, &seen.relaxed);
        if worth(&hall.windows, &choice) > worth(&hall.windows, &best) {
            best = choice;
        }
        if i64::from(limit) == worth(&hall.windows, &best) || made == rounds {
            break limit;
        }
        now = moved(&hall, &now, &seen.relaxed, change);
        change = next_change(change);
        made += 1;
    };
    prices[..960].copy_from_slice(&kept_prices);
    lend(&choice_map(&best), map)?;
    Ok(ChargeRefined {
        worth: worth(&hall.windows, &best) as u32,
        limit,
        rounds: made,
    })
}

/// The choice made from a relaxed set: its windows by worth and then all
/// windows by worth, each of them if the set with it is still allowed.
pub fn choice(hall: &Hall, relaxed: &[usize]) -> Vec<bool> {
    let all: Vec<usize> = (0..hall.windows.len()).collect();
    let mut chosen = vec![false; hall.windows.len()];
    for numbers in [relaxed, &all] {
        for window in by_worth(&hall.windows, numbers) {
            let mut with = chosen.clone();
            with[window] = true;
            if is_allowed(hall, &with) {
                chosen = with;
            }
        }
    }
    chosen
}

/// The prices after a round, each moved by what the relaxed windows draw in its
/// minute: up if that is above the units, else down.
pub fn moved(hall: &Hall, prices: &[u16], relaxed: &[usize], change: u32) -> Vec<u16> {
    let mut moved = prices.to_vec();
    for minute in 0..960 {
        let mut drawn = 0;
        for &window in relaxed {
            if hall.windows[window].holds(minute as u32) {
                drawn += hall.windows[window].groomer;
            }
        }
        moved[minute] = moved_price(prices[minute].into(), drawn, hall.units, change) as u16;
    }
    moved
}

/// The price of a minute in which so much is drawn, after a round with this
/// change.
fn moved_price(price: u32, drawn: u32, units: u32, change: u32) -> u32 {
    if drawn > units {
        let rise = (change * (drawn - units)).div_ceil(units);
        return (price + rise).min(65_535);
    }
    let fall = change * (units - drawn) / units;
    match price > fall {
        true => price - fall,
        false => 0,
    }
}
