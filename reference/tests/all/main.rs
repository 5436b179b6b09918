//! Tests of the two versions, alone and side by side.

mod best;
mod boards;
mod both;
mod brute;
mod case;
mod cases;
mod ceiling;
mod charge;
mod charge_prices;
mod draw;
mod drivers;
mod driving_over;
mod improve;
mod keep;
mod limit;
mod mending;
mod partition;
mod play;
mod quality;
mod refine;
mod short;
mod solving;
mod ties;
mod weights;
mod writing;
