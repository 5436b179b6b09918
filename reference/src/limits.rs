//! The limits of sheets, for the seeded inputs and the fast version. The
//! naive version has them where they are looked at.

pub const MOST_GROOMERS: u32 = 16;
pub const MOST_SLOPES: u32 = 120;
pub const MOST_TURNS: usize = 400;
/// Turns that the short reader takes.
pub const MOST_SHORT_TURNS: usize = 96;
/// Turns of a sheet that the search for a better choice takes.
pub const MOST_SEARCHED_TURNS: usize = 64;
pub const LAST_END: u32 = 960;
/// Minutes of a shift; a hall's list has a price for each.
pub const MINUTES: usize = 960;
pub const MOST_WORTH: u16 = 60_000;

/// Minutes that a groomer needs from the end of a turn to its next start.
pub const DRIVE_OVER: u32 = 10;

/// The longest delay of a turn, in minutes.
pub const MOST_DELAY: u16 = 120;

/// The turn in hand of a groomer that works on none.
pub const NO_TURN: u16 = 65_535;

/// The greatest seed that sheets are drawn from; the least is 1.
pub const MOST_SEED: u64 = 2_147_483_646;

/// Units and vehicles of a charging hall.
pub const MOST_UNITS: u16 = 48;
pub const MOST_VEHICLES: u16 = 60;

/// Numbers that a turn takes in a turn table.
pub const NUMBERS_PER_TURN: usize = 6;

/// The highest number of a driver; 0 is none.
pub const MOST_DRIVER: u16 = 40;
