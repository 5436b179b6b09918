//! Seeded lists of prices.

use crate::gen::Rng;

/// How many kinds of list there are.
pub const KINDS: u32 = 8;

/// A list of this kind with so many prices. The scale is what a usual price is
/// about as much as.
pub fn list(rng: &mut Rng, kind: u32, count: usize, scale: u32) -> Vec<u16> {
    let scale = scale.clamp(1, 65_535);
    let price = |_| match kind {
        0 => 0,
        1 => 65_535,
        2 => rng.below(65_536) as u16,
        3 => rng.between(0, scale) as u16,
        4 => rng.between(0, scale.div_ceil(4)) as u16,
        // Few that are not 0, and some of these too much for anyone.
        5 => match rng.below(10) {
            0 => 65_535,
            1 | 2 => rng.between(1, scale) as u16,
            _ => 0,
        },
        6 => rng.pick(&[0, 1, 2, 3]),
        _ => match rng.below(3) {
            0 => 0,
            1 => rng.between(0, scale) as u16,
            _ => rng.pick(&[1, 60_000, 60_001, 65_534, 65_535]),
        },
    };
    (0..count).map(price).collect()
}

/// A count that is not the wanted one.
pub fn wrong_count(rng: &mut Rng, wanted: usize) -> usize {
    let counts = [
        0,
        wanted / 2,
        wanted.saturating_sub(1),
        wanted + 1,
        2 * wanted + 3,
    ];
    match rng.pick(&counts) {
        count if count == wanted => wanted + 1,
        count => count,
    }
}
