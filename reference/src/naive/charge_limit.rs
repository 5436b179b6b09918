//! The charging hall's limit by prices: whatever the prices are, no allowed set
//! is worth more.

use super::charge::{accept_hall, Hall};
use super::limit::Look;

/// The limit at these prices, one for each minute. After the charging sheet's
/// refusals 26 if they are not 960.
pub fn charge_limit(sheet: &[u8], prices: &[u16]) -> Result<u32, u8> {
    let hall = accept_hall(sheet)?;
    if prices.len() != 960 {
        return Err(26);
    }
    Ok(look(&hall, prices).limit)
}

/// What the window pays. The prices are sixteenths, and what is left of a whole
/// one is given away.
pub fn paid(hall: &Hall, prices: &[u16], window: usize) -> u32 {
    let window = &hall.windows[window];
    let mut sum = 0;
    for minute in 0..960 {
        if window.holds(minute) {
            sum += u32::from(prices[minute as usize]);
        }
    }
    window.groomer * sum / 16
}

/// What the window counts for: its worth without what it pays, and never less
/// than 0.
pub fn counts_for(hall: &Hall, prices: &[u16], window: usize) -> u32 {
    let (worth, paid) = (hall.windows[window].worth, paid(hall, prices, window));
    match worth > paid {
        true => worth - paid,
        false => 0,
    }
}

/// Looks at the prices. Each vehicle takes the window that counts for the most,
/// the first of equal ones, and none that counts for nothing. The limit is what
/// these come to, and what all units cost over all minutes.
pub fn look(hall: &Hall, prices: &[u16]) -> Look {
    let mut sum = 0;
    for &price in prices {
        sum += u32::from(price);
    }
    // Up to 48 * 960 * 65,535, which 32 bits without a sign can hold.
    let mut limit = hall.units * sum / 16;
    let mut relaxed = Vec::new();
    for vehicle in 1..=60 {
        let mut most = 0;
        let mut taken = None;
        for window in 0..hall.windows.len() {
            if hall.windows[window].slope != vehicle {
                continue;
            }
            let counts = counts_for(hall, prices, window);
            if counts > most {
                most = counts;
                taken = Some(window);
            }
        }
        limit += most;
        relaxed.extend(taken);
    }
    Look { limit, relaxed }
}
