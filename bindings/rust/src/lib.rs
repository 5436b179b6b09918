//! Safe functions over the C interface of the slope board library.
//!
//! The library reads and writes shift sheets, plans boards, opens and checks
//! them, writes the drivers' listing, assigns groomers where all turns must be
//! done, works out the best worth where each slope has one turn, looks for a
//! better choice than the planned one, draws sheets from a seed, writes sheets
//! by column and back, plays a board with delays, plans a charging hall, works
//! out by prices what no set of turns without a conflict can be worth more than,
//! makes better boards by rounds in which prices move, and does both for the
//! hall. A second reader takes at most 96 turns. Every buffer is the caller's: on
//! a refusal it holds what it held before, and on success so do its places past
//! the last one written. The order in which refusals are looked for is in
//! `include/slopeboard.h`.
//!
//! To build, the environment variable `SLOPEBOARD_LIB_DIR` names the folder of
//! `libslopeboard.a`, an archive for x86-64. A relative name is sought from this
//! package's folder, then from each folder above it. Nothing here needs an
//! operating system or a heap, and nothing panics; how much stack each function
//! needs is in the header, too.

#![no_std]
#![deny(missing_docs)]

pub mod raw;
mod refusal;

pub use raw::Standing;
pub use refusal::Refusal;

/// The number of this interface, as `SLOPEBOARD_VERSION` in the header: each
/// change that a caller can see raises it.
pub const VERSION: u32 = 19;

/// Numbers that a turn takes in a turn table: slope, groomer, start, length,
/// worth, driver. Driver 0 is none.
pub const NUMBERS_PER_TURN: usize = 6;
/// Turns that a sheet has at most.
pub const MOST_TURNS: usize = 400;
/// Turns that [`read_short`] takes at most.
pub const MOST_SHORT_TURNS: usize = 96;
/// Turns of a sheet that [`improve`] takes at most.
pub const MOST_SEARCHED_TURNS: usize = 64;
/// The greatest seed that [`draw`] takes; the least is 1.
pub const MOST_SEED: u64 = 2_147_483_646;
/// Groomers that a sheet has at most.
pub const MOST_GROOMERS: usize = 16;
/// Slopes that a sheet has at most.
pub const MOST_SLOPES: usize = 120;
/// The highest number of a driver.
pub const MOST_DRIVER: u16 = 40;
/// The longest delay that [`play`] takes, in minutes.
pub const MOST_DELAY: u16 = 120;
/// The turn in hand of a groomer that works on none.
pub const NO_TURN: u16 = 65_535;
/// Units that a charging hall has at most.
pub const MOST_UNITS: usize = 48;
/// Vehicles that a charging hall has at most.
pub const MOST_VEHICLES: usize = 60;
/// Minutes of a shift. A hall's list has a price for each.
pub const MINUTES: usize = 960;
/// Prices that a list of any sheet has at most: one for each slope, then one for
/// each turn.
pub const MOST_PRICES: usize = MOST_SLOPES + MOST_TURNS;
/// Bytes that hold any sheet, and any kept form of one.
pub const MOST_SHEET_BYTES: usize = 7 + 10 * MOST_TURNS;
/// Bytes that hold any listing: no listing has more than 3,823.
pub const MOST_TEXT_BYTES: usize = 4096;

/// Bytes that [`plan`] and [`refine`] ask for, for a sheet of so many turns.
pub const fn board_bytes(turns: usize) -> usize {
    15 + turns.div_ceil(8) + 4 * turns
}

/// Bytes of a choice map of so many turns.
pub const fn map_bytes(turns: usize) -> usize {
    turns.div_ceil(8)
}

/// The counts in the header of a sheet.
#[derive(Clone, Copy, Debug, PartialEq, Eq)]
pub struct Counts {
    /// Groomers, numbered from 1.
    pub groomers: u16,
    /// Slopes, numbered from 1.
    pub slopes: u16,
    /// Turns, numbered from 0 in the order of the sheet.
    pub turns: u16,
}

/// The sums of a board that passed. No set of the sheet's turns without a
/// conflict is worth more than the ceiling. The ceiling is at most three times
/// the tally, and at most twice on a sheet that names no driver. Two turns
/// conflict if one slope is named by both, or one groomer or one driver (other
/// than 0) by both with fewer than ten free minutes between.
#[derive(Clone, Copy, Debug, PartialEq, Eq)]
pub struct Sums {
    /// The amounts of all steps together.
    pub tally: u32,
    /// What the chosen turns are worth together.
    pub worth: u32,
    /// The amounts of all steps, each counted once, twice or three times.
    pub ceiling: u32,
}

/// What the search for a better choice found.
#[derive(Clone, Copy, Debug, PartialEq, Eq)]
pub struct Improved {
    /// What the turns in the map are worth.
    pub worth: u32,
    /// How far the ceiling of the planned board is above that.
    pub above: u32,
    /// How many visits were made: a turn counts each time that it is visited.
    pub visits: u64,
    /// Whether the whole search ran: no set of the sheet's turns without a
    /// conflict is then worth more.
    pub whole: bool,
}

/// What the rounds came to.
#[derive(Clone, Copy, Debug, PartialEq, Eq)]
pub struct Refined {
    /// How many bytes the board has.
    pub bytes: usize,
    /// What the board's chosen turns are worth.
    pub worth: u32,
    /// The limit at the written prices. No set of the sheet's turns without a
    /// conflict is worth more; so, if it is the worth, no board is.
    pub limit: u32,
    /// How many rounds were made.
    pub rounds: u32,
}

/// What the rounds for a hall came to.
#[derive(Clone, Copy, Debug, PartialEq, Eq)]
pub struct ChargeRefined {
    /// What the windows in the map are worth.
    pub worth: u32,
    /// The limit at the written prices. No allowed set of windows is worth more;
    /// so, if it is the worth, none is worth more than those in the map.
    pub limit: u32,
    /// How many rounds were made.
    pub rounds: u32,
}

// SAFETY, for each call below: a slice gives a pointer to as many elements as
// its length says, aligned for their type; what is borrowed to be written
// overlaps nothing else; and the library keeps no pointer.

/// Reads a sheet into a turn table, which needs [`NUMBERS_PER_TURN`] places
/// a turn.
pub fn read(sheet: &[u8], table: &mut [u16]) -> Result<Counts, Refusal> {
    let (table, table_len) = (table.as_mut_ptr(), table.len());
    counts(unsafe { raw::slopeboard_read(sheet.as_ptr(), sheet.len(), table, table_len) })
}

/// Reads a sheet of at most [`MOST_SHORT_TURNS`] turns just as [`read`] does,
/// and refuses every other.
pub fn read_short(sheet: &[u8], table: &mut [u16]) -> Result<Counts, Refusal> {
    let (table, table_len) = (table.as_mut_ptr(), table.len());
    counts(unsafe { raw::slopeboard_read_short(sheet.as_ptr(), sheet.len(), table, table_len) })
}

/// Writes the shortest sheet with these counts and the turns of the table,
/// sorted by slope, groomer, start, length, worth and driver, and gives its
/// length.
pub fn write(
    groomers: u32,
    slopes: u32,
    table: &[u16],
    sheet: &mut [u8],
) -> Result<usize, Refusal> {
    let (table, table_len) = (table.as_ptr(), table.len());
    let (sheet, sheet_len) = (sheet.as_mut_ptr(), sheet.len());
    length(unsafe { raw::slopeboard_write(groomers, slopes, table, table_len, sheet, sheet_len) })
}

/// Plans the turns of a sheet, writes the board and gives its length. The
/// room asked for is [`board_bytes`] of the sheet's turns.
pub fn plan(sheet: &[u8], board: &mut [u8]) -> Result<usize, Refusal> {
    let (board, board_len) = (board.as_mut_ptr(), board.len());
    length(unsafe { raw::slopeboard_plan(sheet.as_ptr(), sheet.len(), board, board_len) })
}

/// Finds out whether the bytes have the shape of a board.
pub fn open(board: &[u8]) -> Result<(), Refusal> {
    refusal::none(unsafe { raw::slopeboard_open(board.as_ptr(), board.len()) })
}

/// The part of a board's own bytes that holds its steps, four bytes each;
/// empty if the board does not open.
pub fn steps(board: &[u8]) -> &[u8] {
    let part = unsafe { raw::slopeboard_steps(board.as_ptr(), board.len()) };
    let steps = board
        .get(part.start..)
        .and_then(|rest| rest.get(..part.length));
    steps.unwrap_or_default()
}

/// How many turns are chosen in a board.
pub fn count(board: &[u8]) -> Result<u32, Refusal> {
    let answer = unsafe { raw::slopeboard_count(board.as_ptr(), board.len()) };
    refusal::none(answer.refusal)?;
    Ok(answer.turns)
}

/// Whether the turn with this number is chosen in a board. It is not if the
/// board does not open, nor if the board has no turn with this number.
pub fn is_chosen(board: &[u8], turn: usize) -> bool {
    unsafe { raw::slopeboard_is_chosen(board.as_ptr(), board.len(), turn) }
}

/// Checks a board, whoever made it, against a sheet.
pub fn check(sheet: &[u8], board: &[u8]) -> Result<Sums, Refusal> {
    let (board, board_len) = (board.as_ptr(), board.len());
    let answer = unsafe { raw::slopeboard_check(sheet.as_ptr(), sheet.len(), board, board_len) };
    refusal::none(answer.refusal)?;
    Ok(Sums {
        tally: answer.tally,
        worth: answer.worth,
        ceiling: answer.ceiling,
    })
}

/// Plans the turns of a sheet, writes the drivers' listing of that board, in
/// ASCII, and gives its length. [`MOST_TEXT_BYTES`] are enough for it.
pub fn list(sheet: &[u8], text: &mut [u8]) -> Result<usize, Refusal> {
    let (text, text_len) = (text.as_mut_ptr(), text.len());
    length(unsafe { raw::slopeboard_list(sheet.as_ptr(), sheet.len(), text, text_len) })
}

/// Assigns groomers to all turns of a sheet, whatever groomers, drivers and
/// slopes it names, so that each groomer has ten minutes between its turns. Writes the
/// groomer of each turn, from 1, at the turn's place, and gives how many
/// groomers there are: no assignment has fewer. Asks for a place a turn.
pub fn assign(sheet: &[u8], places: &mut [u16]) -> Result<u16, Refusal> {
    let (places, places_len) = (places.as_mut_ptr(), places.len());
    let answer = unsafe { raw::slopeboard_assign(sheet.as_ptr(), sheet.len(), places, places_len) };
    refusal::none(answer.refusal)?;
    Ok(answer.groomers)
}

/// Works out the best worth on a sheet on which no slope has two turns and no
/// turn names a driver, and refuses every other. Writes the choice map of a set
/// that earns it, which is the map of the board that [`plan`] writes, and gives
/// the worth: no set of the sheet's turns without a conflict is worth more.
/// Asks for [`map_bytes`] of the sheet's turns.
pub fn best(sheet: &[u8], map: &mut [u8]) -> Result<u32, Refusal> {
    let (map, map_len) = (map.as_mut_ptr(), map.len());
    let answer = unsafe { raw::slopeboard_best(sheet.as_ptr(), sheet.len(), map, map_len) };
    refusal::none(answer.refusal)?;
    Ok(answer.worth)
}

/// Starts from the board that [`plan`] writes and searches through the sets of
/// the sheet's turns without a conflict, with at most so many visits, for one
/// that is worth more. Writes the choice map of the best found. More visits
/// never find less. Asks for [`map_bytes`] of the sheet's turns.
pub fn improve(sheet: &[u8], visits: u64, map: &mut [u8]) -> Result<Improved, Refusal> {
    let (map, map_len) = (map.as_mut_ptr(), map.len());
    let answer =
        unsafe { raw::slopeboard_improve(sheet.as_ptr(), sheet.len(), visits, map, map_len) };
    refusal::none(answer.refusal)?;
    Ok(Improved {
        worth: answer.worth,
        above: answer.above,
        visits: answer.visits,
        whole: answer.whole,
    })
}

/// Draws so many turns from a seed, for so many groomers and slopes, writes the
/// sheet that [`write()`] makes of them and gives its length. The same numbers
/// give the same sheet everywhere. No turn names a driver.
pub fn draw(
    seed: u64,
    groomers: u32,
    slopes: u32,
    turns: u32,
    sheet: &mut [u8],
) -> Result<usize, Refusal> {
    let (sheet, sheet_len) = (sheet.as_mut_ptr(), sheet.len());
    length(unsafe { raw::slopeboard_draw(seed, groomers, slopes, turns, sheet, sheet_len) })
}

/// Writes the kept form of a sheet, which has its fields column by column, and
/// gives its length, which is the sheet's.
pub fn keep(sheet: &[u8], kept: &mut [u8]) -> Result<usize, Refusal> {
    let (kept, kept_len) = (kept.as_mut_ptr(), kept.len());
    length(unsafe { raw::slopeboard_keep(sheet.as_ptr(), sheet.len(), kept, kept_len) })
}

/// Writes the sheet of a kept form, byte for byte the one that was kept, and
/// gives its length.
pub fn restore(kept: &[u8], sheet: &mut [u8]) -> Result<usize, Refusal> {
    let (sheet, sheet_len) = (sheet.as_mut_ptr(), sheet.len());
    length(unsafe { raw::slopeboard_restore(kept.as_ptr(), kept.len(), sheet, sheet_len) })
}

/// Plays minutes 0 to 959 of a board that passes the check, each turn taking as
/// many minutes longer as its delay says. A chosen turn begins as soon as it
/// may: not before its start, and not before ten minutes have gone since the
/// groomer's last turn ended. Writes how many minutes each groomer worked, drove
/// over and stood, and the turn that it worked on in the last minute,
/// [`NO_TURN`] if on none. Gives the number of groomers, and asks for a place
/// for each, and for a delay for each turn.
pub fn play(
    sheet: &[u8],
    board: &[u8],
    delays: &[u16],
    list: &mut [Standing],
) -> Result<u16, Refusal> {
    let (list, list_len) = (list.as_mut_ptr(), list.len());
    let answer = unsafe {
        raw::slopeboard_play(
            sheet.as_ptr(),
            sheet.len(),
            board.as_ptr(),
            board.len(),
            delays.as_ptr(),
            delays.len(),
            list,
            list_len,
        )
    };
    refusal::none(answer.refusal)?;
    Ok(answer.groomers)
}

/// Plans the windows of a charging sheet, those with more than half of the
/// units apart from the others, writes the choice map of the plan that is worth
/// more and gives its worth. Asks for [`map_bytes`] of the sheet's windows.
pub fn charge(sheet: &[u8], map: &mut [u8]) -> Result<u32, Refusal> {
    let (map, map_len) = (map.as_mut_ptr(), map.len());
    let answer = unsafe { raw::slopeboard_charge(sheet.as_ptr(), sheet.len(), map, map_len) };
    refusal::none(answer.refusal)?;
    Ok(answer.worth)
}

/// Works out a limit by prices: whatever the prices are, no set of the sheet's
/// turns without a conflict is worth more. The list has a price for each slope,
/// then one for each turn; with all prices 0 the limit is the sum of what each
/// groomer's turns earn at best, whatever the slopes and drivers.
pub fn limit(sheet: &[u8], prices: &[u16]) -> Result<u32, Refusal> {
    let (prices, prices_len) = (prices.as_ptr(), prices.len());
    let answer = unsafe { raw::slopeboard_limit(sheet.as_ptr(), sheet.len(), prices, prices_len) };
    refusal::none(answer.refusal)?;
    Ok(answer.limit)
}

/// Starts from the board that [`plan`] writes and prices of 0, makes at most so
/// many rounds in which the prices move, and writes the best board found and the
/// prices of the lowest limit. The board passes [`check`], earns at least what the
/// plan earns, and [`limit`] gives the same limit at these prices.
/// With more rounds the worth never falls and the limit never rises. It stops
/// early if worth and limit meet. Asks for [`board_bytes`] of the sheet's turns,
/// and for a price for each slope and each turn.
pub fn refine(
    sheet: &[u8],
    rounds: u32,
    board: &mut [u8],
    prices: &mut [u16],
) -> Result<Refined, Refusal> {
    let (board, board_len) = (board.as_mut_ptr(), board.len());
    let (prices, prices_len) = (prices.as_mut_ptr(), prices.len());
    let answer = unsafe {
        raw::slopeboard_refine(
            sheet.as_ptr(),
            sheet.len(),
            rounds,
            board,
            board_len,
            prices,
            prices_len,
        )
    };
    refusal::none(answer.refusal)?;
    Ok(Refined {
        bytes: answer.bytes as usize,
        worth: answer.worth,
        limit: answer.limit,
        rounds: answer.rounds,
    })
}

/// Works out a charging hall's limit by prices: whatever the prices are, no
/// allowed set of the sheet's windows is worth more. The list has a price for
/// each of [`MINUTES`], in sixteenths.
pub fn charge_limit(sheet: &[u8], prices: &[u16]) -> Result<u32, Refusal> {
    let (prices, prices_len) = (prices.as_ptr(), prices.len());
    let answer =
        unsafe { raw::slopeboard_charge_limit(sheet.as_ptr(), sheet.len(), prices, prices_len) };
    refusal::none(answer.refusal)?;
    Ok(answer.limit)
}

/// Starts from the plan that [`charge`] writes and prices of 0, makes at most so
/// many rounds in which the prices move, and writes the choice map of the best
/// set found and the prices of the lowest limit. The set is allowed and earns at
/// least what the plan earns, and [`charge_limit`] gives the same limit at these
/// prices. With more rounds the worth never falls and the limit never rises. It
/// stops early if worth and limit meet. Asks for [`map_bytes`] of the sheet's
/// windows, and for [`MINUTES`] prices.
pub fn charge_refine(
    sheet: &[u8],
    rounds: u32,
    map: &mut [u8],
    prices: &mut [u16],
) -> Result<ChargeRefined, Refusal> {
    let (map, map_len) = (map.as_mut_ptr(), map.len());
    let (prices, prices_len) = (prices.as_mut_ptr(), prices.len());
    let answer = unsafe {
        raw::slopeboard_charge_refine(
            sheet.as_ptr(),
            sheet.len(),
            rounds,
            map,
            map_len,
            prices,
            prices_len,
        )
    };
    refusal::none(answer.refusal)?;
    Ok(ChargeRefined {
        worth: answer.worth,
        limit: answer.limit,
        rounds: answer.rounds,
    })
}

fn counts(answer: raw::ReadAnswer) -> Result<Counts, Refusal> {
    refusal::none(answer.refusal)?;
    Ok(Counts {
        groomers: answer.groomers,
        slopes: answer.slopes,
        turns: answer.turns,
    })
}

fn length(answer: raw::WriteAnswer) -> Result<usize, Refusal> {
    refusal::none(answer.refusal)?;
    Ok(answer.bytes as usize)
}
