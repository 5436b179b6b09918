//! How close the library's better boards and their limits come on drawn sheets.

use slopeboard_reference::expected;

/// What so many rounds come to: worth and limit.
fn refine(sheet: &[u8], rounds: u32) -> (u32, u32) {
    let mut board = [0; slopeboard::board_bytes(slopeboard::MOST_TURNS)];
    let mut prices = [0; slopeboard::MOST_PRICES];
    let refined = slopeboard::refine(sheet, rounds, &mut board, &mut prices);
    let refined = refined.expect("drawn sheets are accepted");
    (refined.worth, refined.limit)
}

#[test]
fn board_and_limit_come_close() {
    expected::come_close(refine);
}

#[test]
fn board_and_limit_meet_as_expected() {
    expected::meet_as_expected(refine);
}
