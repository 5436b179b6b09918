//! The charging hall's limit by prices.

use super::charge::parse;
use super::refusal;
use super::sheet::no_turns;
use super::turns::Turn;
use crate::limits::{MINUTES, MOST_TURNS, MOST_VEHICLES};

/// Prices are parts of this kind.
const PARTS: u32 = 16;

/// The limit of a charging sheet at these prices.
pub fn charge_limit(sheet: &[u8], prices: &[u16]) -> Result<u32, u8> {
    let mut windows = no_turns();
    let (units, count) = parse(sheet, &mut windows)?;
    let Ok(prices) = prices.try_into() else {
        return Err(refusal::BAD_PRICES);
    };
    Ok(look(&windows[..count], units, prices).0)
}

/// By vehicle, what its best window counts for, and then how far the window's
/// number is below the greatest number there could be: of equal counts the
/// lowest number is the most.
pub struct Taken([u32; VEHICLES]);

/// As many as a power of two, so that a remainder spares a test of the index.
const VEHICLES: usize = (MOST_VEHICLES as usize + 1).next_power_of_two();

/// One more than the greatest number there could be.
const NUMBERS: u32 = MOST_TURNS.next_power_of_two() as u32;

impl Taken {
    pub fn none() -> Taken {
        Taken([0; VEHICLES])
    }

    /// The numbers of the windows taken.
    pub fn numbers(&self) -> impl Iterator<Item = usize> + '_ {
        let some = self.0.iter().filter(|&&key| key >= NUMBERS);
        some.map(|key| (NUMBERS - 1 - key % NUMBERS) as usize)
    }

    fn counts(&self) -> u32 {
        self.0.iter().map(|key| key / NUMBERS).sum()
    }
}

/// The limit at these prices, and the windows taken.
pub fn look(windows: &[Turn], units: u32, prices: &[u16; MINUTES]) -> (u32, Taken) {
    // By minute, the sum of the prices before it.
    let mut sums = [0; (MINUTES + 1).next_power_of_two()];
    let places = sums.len();
    let mut sum = 0;
    for (minute, &price) in prices.iter().enumerate() {
        sum += u32::from(price);
        sums[minute + 1] = sum;
    }
    let mut taken = Taken::none();
    for (number, window) in (0..).zip(windows) {
        let end = usize::from(window.start + window.length) % places;
        let minutes = sums[end] - sums[usize::from(window.start) % places];
        let paid = u32::from(window.groomer) * minutes / PARTS;
        let counts = u32::from(window.worth).saturating_sub(paid);
        let most = &mut taken.0[usize::from(window.slope) % VEHICLES];
        *most = (*most).max(counts * NUMBERS + (NUMBERS - 1 - number));
    }
    // The product fits 32 bits: at most 48 units, 960 minutes, 65,535 each.
    (units * sum / PARTS + taken.counts(), taken)
}
