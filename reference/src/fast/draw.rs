//! Sheets drawn from a seed.

use super::refusal;
use super::turns::{judge_counts, Turn};
use super::write::{key_of, write_keys};
use crate::limits::{MOST_SEED, MOST_TURNS, MOST_WORTH};

/// One less than a power of two, so that a remainder takes no division.
const MODULUS: u32 = (1 << 31) - 1;
const FACTOR: u64 = 16_807;

/// Starts are below this: the longest turn, begun in the last of them, ends
/// before the shift does.
const STARTS: u32 = 841;

/// Writes the sheet of the turns drawn from a seed and gives its length.
pub fn draw(
    seed: u64,
    groomers: u32,
    slopes: u32,
    turns: u32,
    out: &mut [u8],
) -> Result<usize, u8> {
    if !(1..=MOST_SEED).contains(&seed) {
        return Err(refusal::BAD_SEED);
    }
    judge_counts(groomers, slopes)?;
    if turns as usize > MOST_TURNS {
        return Err(refusal::TOO_MANY_TURNS);
    }
    let mut draws = Draws(seed as u32);
    let mut keys = [0; MOST_TURNS];
    let keys = &mut keys[..turns as usize];
    for key in keys.iter_mut() {
        *key = key_of(&Turn {
            slope: 1 + draws.below(slopes),
            groomer: 1 + draws.below(groomers),
            start: draws.below(STARTS),
            length: length_of(draws.below(100)),
            worth: 1 + draws.below(u32::from(MOST_WORTH)),
            driver: 0,
        });
    }
    // Both counts have been judged, so they fit a byte.
    write_keys(groomers as u8, slopes as u8, keys, out)
}

fn length_of(percent: u16) -> u16 {
    match percent {
        0..40 => 30,
        40..70 => 45,
        70..90 => 60,
        _ => 90,
    }
}

/// The generator's last number.
struct Draws(u32);

impl Draws {
    /// The remainder of the next draw; no bound is above 65,536.
    fn below(&mut self, bound: u32) -> u16 {
        let product = FACTOR * u64::from(self.0);
        // Two to the power of 31 counts as one. The sum is below twice the
        // modulus, and never 0, nor can it come to the modulus itself.
        let sum = (product & u64::from(MODULUS)) as u32 + (product >> 31) as u32;
        self.0 = if sum > MODULUS { sum - MODULUS } else { sum };
        (self.0 % bound) as u16
    }
}
