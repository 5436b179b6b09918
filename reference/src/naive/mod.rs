//! The judge: the rules as they are worded, in their order, with nothing done
//! for speed. Turns are a list, every search goes through all of it, minutes
//! are looked at one by one, and nothing is kept that can be found again. So
//! it can be read beside the description of sheets, boards and rules, a file
//! for each part of it. The numbers in it are the description's own; an error
//! is the number of a refusal.

pub mod best;
pub mod board;
pub mod ceiling;
pub mod charge;
pub mod charge_limit;
pub mod charge_refine;
mod check;
pub mod draw;
mod improve;
pub mod keep;
pub mod limit;
mod listing;
pub mod mending;
pub mod partition;
pub mod planning;
pub mod play;
pub mod refine;
pub mod rule;
mod sets;
pub mod sheet;
pub mod solving;
pub mod turns;
pub mod weights;

pub use best::best;
pub use board::{count, is_chosen, open, steps};
pub use charge::charge;
pub use charge_limit::charge_limit;
pub use charge_refine::{charge_refine, ChargeRefined};
pub use check::{check, Sums};
pub use draw::draw;
pub use improve::{improve, Improved};
pub use keep::{keep, restore};
pub use limit::limit;
pub use listing::{listing, refused_line};
pub use partition::assign;
pub use planning::plan;
pub use play::{play, Standing};
pub use refine::{refine, Refined};
pub use sets::{any_driver, best_worth, one_turn_a_slope, times_the_tally};
pub use sheet::{read, read_short, write, Counts};
pub use solving::{charge_solve, solve, ChargeSolved, Solved};

/// Copies the bytes to the front of the lent ones and gives their number; 11
/// if there are too few lent.
fn lend(bytes: &[u8], out: &mut [u8]) -> Result<usize, u8> {
    if out.len() < bytes.len() {
        return Err(11);
    }
    out[..bytes.len()].copy_from_slice(bytes);
    Ok(bytes.len())
}

/// The number that these bytes make up, high byte first.
fn number(bytes: &[u8]) -> u32 {
    let mut number = 0;
    for &byte in bytes {
        number = 256 * number + u32::from(byte);
    }
    number
}

/// Whether this bit of a byte stands, bit 0 being the lowest.
fn bit(byte: u8, place: usize) -> bool {
    byte >> place & 1 == 1
}
