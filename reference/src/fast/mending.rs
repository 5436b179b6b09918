//! Rounds with weights in which each choice is mended.

use super::rule::rounds;
use super::weights::{charge_refined, on_hall, on_sheet, refined};
use super::{ChargeRefined, Refined};

/// A better board and a limit by rounds.
pub fn refine(
    sheet: &[u8],
    most: u32,
    board: &mut [u8],
    prices: &mut [u16],
) -> Result<Refined, u8> {
    let (bytes, found) = on_sheet(sheet, board, prices, |shift, worth| {
        rounds::<_, true>(shift, worth, most)
    })?;
    Ok(refined(bytes, &found))
}

/// A better set of windows and a limit by rounds.
pub fn charge_refine(
    sheet: &[u8],
    most: u32,
    map: &mut [u8],
    prices: &mut [u16],
) -> Result<ChargeRefined, u8> {
    let found = on_hall(sheet, map, prices, |hall, worth| {
        rounds::<_, true>(hall, worth, most)
    })?;
    Ok(charge_refined(&found))
}
