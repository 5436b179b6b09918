//! The refusals and their numbers.

use core::error::Error;
use core::fmt;

/// Why the library refused. The number of each is fixed.
#[derive(Clone, Copy, Debug, PartialEq, Eq)]
#[repr(u8)]
pub enum Refusal {
    /// The sheet ends inside its header, or before a record is whole.
    Truncated = 1,
    /// The sheet does not open with GRM, the kept form with GRC or the charging
    /// sheet with GRE.
    BadMagic = 2,
    /// Groomers outside 1 to 16, or slopes outside 1 to 120; in a charging sheet
    /// units outside 1 to 48, or vehicles outside 1 to 60.
    BadCounts = 3,
    /// More than 400 turns.
    TooManyTurns = 4,
    /// A map is above 3F, or the first is neither 1F nor 3F; in a charging sheet
    /// a map is above 1F, or the first is not 1F.
    BadMap = 5,
    /// A turn's slope, or a window's vehicle, is 0 or above the count.
    BadSlope = 6,
    /// A turn's groomer is 0 or above the count.
    BadGroomer = 7,
    /// A turn has length 0 or ends after minute 960.
    BadTime = 8,
    /// A turn's worth is 0 or above 60,000.
    BadWorth = 9,
    /// The sheet goes on after its last record.
    TrailingBytes = 10,
    /// A buffer is shorter than the function asks.
    BufferTooSmall = 11,
    /// The bytes are not those of a board (for this sheet).
    MalformedBoard = 12,
    /// Two chosen turns conflict.
    ChosenConflict = 13,
    /// A turn could be chosen in addition.
    NotMaximal = 14,
    /// A step is not right at its place.
    WrongStep = 15,
    /// The steps leave a turn open.
    TurnLeftOpen = 16,
    /// Tally or worth is not its sum, or the worth is below the tally.
    WrongSums = 17,
    /// A turn table's length is no multiple of six.
    PartialTurn = 18,
    /// A turn's driver is above 40.
    BadDriver = 19,
    /// More than 96 turns, which are too many for the short reader.
    TooManyForShort = 20,
    /// A slope has two turns, or a turn names a driver.
    NotSingleTurns = 21,
    /// More than 64 turns, which are too many to search.
    TooManyToSearch = 22,
    /// The seed is 0, or 2,147,483,647 or above.
    BadSeed = 23,
    /// The delays are not one for each turn, or one is above 120.
    BadDelays = 24,
    /// A window's draw is 0 or above the hall's units.
    BadDraw = 25,
    /// The price list has not one number for each slope and each turn; for a
    /// hall, not one for each minute.
    BadPrices = 26,
    /// A number above 26. The library of this version gives none; that of another
    /// might.
    Unknown = u8::MAX,
}

/// By number, from 1.
const ALL: [Refusal; 26] = [
    Refusal::Truncated,
    Refusal::BadMagic,
    Refusal::BadCounts,
    Refusal::TooManyTurns,
    Refusal::BadMap,
    Refusal::BadSlope,
    Refusal::BadGroomer,
    Refusal::BadTime,
    Refusal::BadWorth,
    Refusal::TrailingBytes,
    Refusal::BufferTooSmall,
    Refusal::MalformedBoard,
    Refusal::ChosenConflict,
    Refusal::NotMaximal,
    Refusal::WrongStep,
    Refusal::TurnLeftOpen,
    Refusal::WrongSums,
    Refusal::PartialTurn,
    Refusal::BadDriver,
    Refusal::TooManyForShort,
    Refusal::NotSingleTurns,
    Refusal::TooManyToSearch,
    Refusal::BadSeed,
    Refusal::BadDelays,
    Refusal::BadDraw,
    Refusal::BadPrices,
];

impl Refusal {
    /// Its number in the header.
    pub fn number(self) -> u8 {
        self as u8
    }

    /// The refusal with this number; none for 0 and for numbers above 26.
    pub fn from_number(number: u8) -> Option<Refusal> {
        let place = usize::from(number).checked_sub(1)?;
        ALL.get(place).copied()
    }
}

/// A number of the library as a result.
pub(crate) fn none(number: u8) -> Result<(), Refusal> {
    if number == 0 {
        return Ok(());
    }
    Err(Refusal::from_number(number).unwrap_or(Refusal::Unknown))
}

impl fmt::Display for Refusal {
    fn fmt(&self, out: &mut fmt::Formatter) -> fmt::Result {
        write!(out, "refused {} ({self:?})", self.number())
    }
}

impl Error for Refusal {}
