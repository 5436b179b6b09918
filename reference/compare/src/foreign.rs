//! The library under test, through the declarations of its C interface in
//! `bindings/rust`.

use slopeboard::raw;
pub use slopeboard::raw::{
    AssignAnswer, BestAnswer, ChargeAnswer, ChargeRefineAnswer, CheckAnswer, CountAnswer,
    ImproveAnswer, LimitAnswer, Part, PlayAnswer, ReadAnswer, RefineAnswer, Standing, WriteAnswer,
};

/// A slice as the library takes it. An empty one may come with any pointer,
/// so it comes with the worst.
fn parts<T>(slice: &[T]) -> (*const T, usize) {
    match slice.len() {
        0 => (std::ptr::null(), 0),
        len => (slice.as_ptr(), len),
    }
}

/// The same for a slice that is lent for writing.
fn parts_mut<T>(slice: &mut [T]) -> (*mut T, usize) {
    match slice.len() {
        0 => (std::ptr::null_mut(), 0),
        len => (slice.as_mut_ptr(), len),
    }
}

// SAFETY, for each call below: every pointer comes with the length of what it
// points to, the library keeps none, and what it may write to is ours alone
// during the call.

/// Reads a sheet into a turn table.
pub fn read(sheet: &[u8], table: &mut [u16]) -> ReadAnswer {
    let ((sheet, sheet_len), (table, table_len)) = (parts(sheet), parts_mut(table));
    unsafe { raw::slopeboard_read(sheet, sheet_len, table, table_len) }
}

/// Reads a short sheet into a turn table.
pub fn read_short(sheet: &[u8], table: &mut [u16]) -> ReadAnswer {
    let ((sheet, sheet_len), (table, table_len)) = (parts(sheet), parts_mut(table));
    unsafe { raw::slopeboard_read_short(sheet, sheet_len, table, table_len) }
}

/// Writes a turn table as a sheet.
pub fn write(groomers: u32, slopes: u32, table: &[u16], out: &mut [u8]) -> WriteAnswer {
    let ((table, table_len), (out, out_len)) = (parts(table), parts_mut(out));
    unsafe { raw::slopeboard_write(groomers, slopes, table, table_len, out, out_len) }
}

/// Plans the board of a sheet.
pub fn plan(sheet: &[u8], out: &mut [u8]) -> WriteAnswer {
    let ((sheet, sheet_len), (out, out_len)) = (parts(sheet), parts_mut(out));
    unsafe { raw::slopeboard_plan(sheet, sheet_len, out, out_len) }
}

/// Opens a board.
pub fn open(board: &[u8]) -> u8 {
    let (board, board_len) = parts(board);
    unsafe { raw::slopeboard_open(board, board_len) }
}

/// Finds the steps of a board.
pub fn steps(board: &[u8]) -> Part {
    let (board, board_len) = parts(board);
    unsafe { raw::slopeboard_steps(board, board_len) }
}

/// Counts the chosen turns of a board.
pub fn count(board: &[u8]) -> CountAnswer {
    let (board, board_len) = parts(board);
    unsafe { raw::slopeboard_count(board, board_len) }
}

/// Finds out whether a turn is chosen in a board.
pub fn is_chosen(board: &[u8], turn: usize) -> bool {
    let (board, board_len) = parts(board);
    unsafe { raw::slopeboard_is_chosen(board, board_len, turn) }
}

/// Checks a board against a sheet.
pub fn check(sheet: &[u8], board: &[u8]) -> CheckAnswer {
    let ((sheet, sheet_len), (board, board_len)) = (parts(sheet), parts(board));
    unsafe { raw::slopeboard_check(sheet, sheet_len, board, board_len) }
}

/// Writes the listing of a sheet's plan.
pub fn list(sheet: &[u8], out: &mut [u8]) -> WriteAnswer {
    let ((sheet, sheet_len), (out, out_len)) = (parts(sheet), parts_mut(out));
    unsafe { raw::slopeboard_list(sheet, sheet_len, out, out_len) }
}

/// Assigns groomers to all turns of a sheet.
pub fn assign(sheet: &[u8], places: &mut [u16]) -> AssignAnswer {
    let ((sheet, sheet_len), (places, places_len)) = (parts(sheet), parts_mut(places));
    unsafe { raw::slopeboard_assign(sheet, sheet_len, places, places_len) }
}

/// Works out the best worth of a sheet.
pub fn best(sheet: &[u8], map: &mut [u8]) -> BestAnswer {
    let ((sheet, sheet_len), (map, map_len)) = (parts(sheet), parts_mut(map));
    unsafe { raw::slopeboard_best(sheet, sheet_len, map, map_len) }
}

/// Looks for a better choice than the planned one.
pub fn improve(sheet: &[u8], visits: u64, map: &mut [u8]) -> ImproveAnswer {
    let ((sheet, sheet_len), (map, map_len)) = (parts(sheet), parts_mut(map));
    unsafe { raw::slopeboard_improve(sheet, sheet_len, visits, map, map_len) }
}

/// Draws a sheet from a seed.
pub fn draw(seed: u64, groomers: u32, slopes: u32, turns: u32, out: &mut [u8]) -> WriteAnswer {
    let (out, out_len) = parts_mut(out);
    unsafe { raw::slopeboard_draw(seed, groomers, slopes, turns, out, out_len) }
}

/// Writes the kept form of a sheet.
pub fn keep(sheet: &[u8], out: &mut [u8]) -> WriteAnswer {
    let ((sheet, sheet_len), (out, out_len)) = (parts(sheet), parts_mut(out));
    unsafe { raw::slopeboard_keep(sheet, sheet_len, out, out_len) }
}

/// Writes the sheet of a kept form.
pub fn restore(kept: &[u8], out: &mut [u8]) -> WriteAnswer {
    let ((kept, kept_len), (out, out_len)) = (parts(kept), parts_mut(out));
    unsafe { raw::slopeboard_restore(kept, kept_len, out, out_len) }
}

/// Plays a board with delays.
pub fn play(sheet: &[u8], board: &[u8], delays: &[u16], list: &mut [Standing]) -> PlayAnswer {
    let ((sheet, sheet_len), (board, board_len)) = (parts(sheet), parts(board));
    let ((delays, delays_len), (list, list_len)) = (parts(delays), parts_mut(list));
    unsafe {
        raw::slopeboard_play(
            sheet, sheet_len, board, board_len, delays, delays_len, list, list_len,
        )
    }
}

/// Plans a charging hall.
pub fn charge(sheet: &[u8], map: &mut [u8]) -> ChargeAnswer {
    let ((sheet, sheet_len), (map, map_len)) = (parts(sheet), parts_mut(map));
    unsafe { raw::slopeboard_charge(sheet, sheet_len, map, map_len) }
}

/// Gives the limit of a sheet at these prices.
pub fn limit(sheet: &[u8], prices: &[u16]) -> LimitAnswer {
    let ((sheet, sheet_len), (prices, prices_len)) = (parts(sheet), parts(prices));
    unsafe { raw::slopeboard_limit(sheet, sheet_len, prices, prices_len) }
}

/// Makes a better board by rounds.
pub fn refine(sheet: &[u8], rounds: u32, board: &mut [u8], prices: &mut [u16]) -> RefineAnswer {
    let (sheet, sheet_len) = parts(sheet);
    let ((board, board_len), (prices, prices_len)) = (parts_mut(board), parts_mut(prices));
    unsafe {
        raw::slopeboard_refine(
            sheet, sheet_len, rounds, board, board_len, prices, prices_len,
        )
    }
}

/// Gives the limit of a hall at these prices.
pub fn charge_limit(sheet: &[u8], prices: &[u16]) -> LimitAnswer {
    let ((sheet, sheet_len), (prices, prices_len)) = (parts(sheet), parts(prices));
    unsafe { raw::slopeboard_charge_limit(sheet, sheet_len, prices, prices_len) }
}

/// Makes a better choice of windows by rounds.
pub fn charge_refine(
    sheet: &[u8],
    rounds: u32,
    map: &mut [u8],
    prices: &mut [u16],
) -> ChargeRefineAnswer {
    let (sheet, sheet_len) = parts(sheet);
    let ((map, map_len), (prices, prices_len)) = (parts_mut(map), parts_mut(prices));
    unsafe {
        raw::slopeboard_charge_refine(sheet, sheet_len, rounds, map, map_len, prices, prices_len)
    }
}
