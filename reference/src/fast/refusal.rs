//! Refusal numbers. The values are fixed by the format; 0 means no refusal.

/// The input stops inside the header, or where a record must still come.
pub const TRUNCATED: u8 = 1;
/// The sheet does not open with GRM.
pub const BAD_MAGIC: u8 = 2;
/// The number of groomers or slopes is out of range.
pub const BAD_COUNTS: u8 = 3;
/// The sheet has over 400 turns.
pub const TOO_MANY_TURNS: u8 = 4;
/// A record's map has an unknown bit, or the first record lacks a field.
pub const BAD_MAP: u8 = 5;
/// A turn's slope is not one of the sheet's.
pub const BAD_SLOPE: u8 = 6;
/// A turn's groomer is not one of the sheet's.
pub const BAD_GROOMER: u8 = 7;
/// A turn is empty or ends after minute 960.
pub const BAD_TIME: u8 = 8;
/// A turn's worth is out of range.
pub const BAD_WORTH: u8 = 9;
/// Something follows the last record.
pub const TRAILING_BYTES: u8 = 10;
/// The caller's buffer cannot take the answer.
pub const BUFFER_TOO_SMALL: u8 = 11;
/// The board's bytes do not have the shape of a board (for this sheet).
pub const MALFORMED_BOARD: u8 = 12;
/// Two chosen turns are in conflict.
pub const CHOSEN_CONFLICT: u8 = 13;
/// A turn could still be added to the chosen ones.
pub const NOT_MAXIMAL: u8 = 14;
/// A step names a wrong turn or a wrong amount, or comes too early.
pub const WRONG_STEP: u8 = 15;
/// The steps leave a turn open.
pub const TURN_LEFT_OPEN: u8 = 16;
/// The board's tally or worth is wrong, or the worth is less than the tally.
pub const WRONG_SUMS: u8 = 17;
/// A turn table does not consist of whole turns.
pub const PARTIAL_TURN: u8 = 18;
/// A turn's driver is above 40.
pub const BAD_DRIVER: u8 = 19;
/// The sheet has over 96 turns, which are too many for the short reader.
pub const TOO_MANY_FOR_SHORT: u8 = 20;
/// A slope has two turns, or a turn names a driver.
pub const NOT_SINGLE_TURNS: u8 = 21;
/// The sheet has over 64 turns, which are too many to search.
pub const TOO_MANY_TO_SEARCH: u8 = 22;
/// The generator does not take the seed.
pub const BAD_SEED: u8 = 23;
/// The delays are not one for each turn, or one is above 120.
pub const BAD_DELAYS: u8 = 24;
/// A window's draw is 0 or above the units.
pub const BAD_DRAW: u8 = 25;

pub const BAD_PRICES: u8 = 26;
