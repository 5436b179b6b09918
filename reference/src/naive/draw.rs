//! Sheets drawn from a seed: the same seed gives the same sheet on every box.

use super::sheet::write;
use super::turns::judge_counts;

/// The modulus of the generator, which is a prime.
const MODULUS: u64 = 2_147_483_647;

/// The number that the generator gives after this one.
pub fn next(number: u64) -> u64 {
    16_807 * number % MODULUS
}

/// How long a turn is, by the draw for its length.
pub fn length_of(draw: u64) -> u64 {
    match draw % 100 {
        0..=39 => 30,
        40..=69 => 45,
        70..=89 => 60,
        _ => 90,
    }
}

/// A turn table of so many turns. The first draw is the number after the seed;
/// each turn takes five, in the order of the table, and names no driver.
pub fn drawn(seed: u64, groomers: u32, slopes: u32, turns: u32) -> Vec<u16> {
    let mut number = seed;
    let mut draw = || {
        number = next(number);
        number
    };
    let mut table = Vec::new();
    for _ in 0..turns {
        let slope = 1 + draw() % u64::from(slopes);
        let groomer = 1 + draw() % u64::from(groomers);
        let start = draw() % 841;
        let length = length_of(draw());
        let worth = 1 + draw() % 60_000;
        let driver = 0;
        for value in [slope, groomer, start, length, worth, driver] {
            table.push(value as u16);
        }
    }
    table
}

/// Writes the sheet of the turns drawn from a seed and gives its length. 23 for
/// a seed that the generator does not take, then 3 and 4 for the counts, then
/// 11.
pub fn draw(
    seed: u64,
    groomers: u32,
    slopes: u32,
    turns: u32,
    out: &mut [u8],
) -> Result<usize, u8> {
    if seed == 0 || seed >= MODULUS {
        return Err(23);
    }
    judge_counts(groomers, slopes)?;
    if turns > 400 {
        return Err(4);
    }
    write(groomers, slopes, &drawn(seed, groomers, slopes, turns), out)
}
