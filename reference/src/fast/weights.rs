//! Limits and rounds with weights for worths.

use super::board::{board_len, map_len, put_choice, view};
use super::charge::{self, planned};
use super::charge_limit::look;
use super::limit::limit_at;
use super::plan::plan_turns;
use super::refine::Prices;
use super::refusal;
use super::rule::{rounds, Found, Rule};
use super::sheet::{no_turns, parse};
use super::turns::Turn;
use super::weighed_hall::WeighedHall;
use super::weighed_shift::WeighedShift;
use super::{ChargeRefined, Refined};
use crate::limits::{MINUTES, MOST_WORTH};

/// What leads from worths to weights and back.
#[derive(Clone, Copy)]
pub struct Scale {
    divisor: u32,
    factor: u32,
}

impl Scale {
    pub fn of(turns: &[Turn]) -> Scale {
        let worths = || turns.iter().map(|turn| u32::from(turn.worth));
        let Some(greatest) = worths().max() else {
            return Scale {
                divisor: 1,
                factor: 1,
            };
        };
        let divisor = worths().fold(0, common_divisor);
        Scale {
            divisor,
            factor: u32::from(MOST_WORTH) / (greatest / divisor),
        }
    }

    /// The limit that a sum of prices and counts comes to.
    pub fn limit(&self, sum: u32) -> u32 {
        sum / self.factor * self.divisor
    }

    /// Puts weights in the place of worths.
    pub fn weigh(&self, turns: &mut [Turn]) {
        for turn in turns {
            // At most 60,000.
            turn.worth = (u32::from(turn.worth) / self.divisor * self.factor) as u16;
        }
    }
}

fn common_divisor(mut a: u32, mut b: u32) -> u32 {
    while b != 0 {
        (a, b) = (b, a % b);
    }
    a
}

/// The limit of a sheet at these prices.
pub fn limit(sheet: &[u8], prices: &[u16]) -> Result<u32, u8> {
    let mut turns = no_turns();
    let header = parse(sheet, &mut turns)?;
    let turns = &mut turns[..usize::from(header.turns)];
    let slopes = usize::from(header.slopes);
    if prices.len() != slopes + turns.len() {
        return Err(refusal::BAD_PRICES);
    }
    let scale = Scale::of(turns);
    scale.weigh(turns);
    Ok(scale.limit(limit_at(turns, slopes, prices)))
}

/// The limit of a charging sheet at these prices.
pub fn charge_limit(sheet: &[u8], prices: &[u16]) -> Result<u32, u8> {
    let mut windows = no_turns();
    let (units, count) = charge::parse(sheet, &mut windows)?;
    let Ok(prices) = prices.try_into() else {
        return Err(refusal::BAD_PRICES);
    };
    let windows = &mut windows[..count];
    let scale = Scale::of(windows);
    scale.weigh(windows);
    Ok(scale.limit(look(windows, units, prices).0))
}

/// A better board and a limit by rounds with weights.
pub fn refine(
    sheet: &[u8],
    most: u32,
    board: &mut [u8],
    prices: &mut [u16],
) -> Result<Refined, u8> {
    let (bytes, found) = on_sheet(sheet, board, prices, |shift, worth| {
        rounds::<_, false>(shift, worth, most)
    })?;
    Ok(refined(bytes, &found))
}

/// A better set of windows and a limit by rounds with weights.
pub fn charge_refine(
    sheet: &[u8],
    most: u32,
    map: &mut [u8],
    prices: &mut [u16],
) -> Result<ChargeRefined, u8> {
    let found = on_hall(sheet, map, prices, |hall, worth| {
        rounds::<_, false>(hall, worth, most)
    })?;
    Ok(charge_refined(&found))
}

pub fn refined<P>(bytes: usize, found: &Found<P>) -> Refined {
    Refined {
        bytes,
        worth: found.worth,
        limit: found.limit,
        rounds: found.rounds,
    }
}

pub fn charge_refined<P>(found: &Found<P>) -> ChargeRefined {
    ChargeRefined {
        worth: found.worth,
        limit: found.limit,
        rounds: found.rounds,
    }
}

/// Plans a sheet, hands it over with the plan's worth, writes what is found,
/// and gives the board's length as well.
pub fn on_sheet(
    sheet: &[u8],
    board: &mut [u8],
    prices: &mut [u16],
    find: impl FnOnce(&mut WeighedShift, u32) -> Found<Prices>,
) -> Result<(usize, Found<Prices>), u8> {
    let mut turns = no_turns();
    let header = parse(sheet, &mut turns)?;
    let turns = &turns[..usize::from(header.turns)];
    let slopes = usize::from(header.slopes);
    let prices = prices.get_mut(..slopes + turns.len());
    let prices = prices.ok_or(refusal::BUFFER_TOO_SMALL)?;
    if board.len() < board_len(turns.len(), turns.len()) {
        return Err(refusal::BUFFER_TOO_SMALL);
    }
    let (bytes, _) = plan_turns::<false>(turns, board);
    let planned = view(&board[..bytes]).expect("the planner writes well-formed boards");
    let mut shift = WeighedShift::new(turns, slopes);
    let found = find(&mut shift, planned.worth);
    if let Some(best) = &found.best {
        put_choice(board, found.worth, |map| shift.ranks().put_map(best, map));
    }
    shift.put(&found.prices, prices);
    Ok((bytes, found))
}

/// Plans a hall, hands it over with the plan's worth, and writes what is found.
pub fn on_hall(
    sheet: &[u8],
    map: &mut [u8],
    prices: &mut [u16],
    find: impl FnOnce(&mut WeighedHall, u32) -> Found<[u16; MINUTES]>,
) -> Result<Found<[u16; MINUTES]>, u8> {
    let mut windows = no_turns();
    let (units, count) = charge::parse(sheet, &mut windows)?;
    let windows = &windows[..count];
    let map = map.get_mut(..map_len(count));
    let map = map.ok_or(refusal::BUFFER_TOO_SMALL)?;
    let prices = prices.get_mut(..MINUTES);
    let prices = prices.ok_or(refusal::BUFFER_TOO_SMALL)?;
    let plan = planned(windows, units);
    let mut hall = WeighedHall::new(windows, units);
    let found = find(&mut hall, plan.worth);
    match &found.best {
        Some(best) => hall.ranks().put_map(best, map),
        None => map.copy_from_slice(&plan.map[..map.len()]),
    }
    prices.copy_from_slice(&found.prices);
    Ok(found)
}
