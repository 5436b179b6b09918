//! The baseline of the bench: reading, writing, planning, checking, listing,
//! assigning, the best worth, the search for a better choice, drawing, the
//! kept form, playing a shift, the charging hall, and limits and better boards
//! by prices, made to be fast. It judges nothing; the tests hold it to
//! [`crate::naive`].

mod best;
mod board;
mod charge;
mod charge_limit;
mod charge_refine;
mod check;
mod columns;
mod draw;
mod improve;
mod keep;
mod limit;
mod listing;
pub mod mending;
mod partition;
mod plan;
mod play;
mod ranks;
mod refine;
mod refusal;
mod rule;
mod sheet;
mod solving;
mod turns;
mod weighed_hall;
mod weighed_shift;
pub mod weights;
mod write;

pub use best::best;
pub use charge::charge;
pub use charge_limit::charge_limit;
pub use charge_refine::{charge_refine, ChargeRefined};
pub use check::{check, Sums};
pub use draw::draw;
pub use improve::{improve, Improved};
pub use keep::{keep, restore};
pub use limit::limit;
pub use listing::listing;
pub use partition::assign;
pub use plan::{plan, plan_without_list};
pub use play::{play, play_by_minute, Standing};
pub use refine::{refine, Refined};
pub use sheet::{read, read_short, Header};
pub use solving::{charge_solve, solve, ChargeSolved, Solved};
pub use write::write;
