//! The worked example and the named cases, refusal by refusal.

use crate::both::{check, listing, plan, read, write};
use slopeboard_reference::naive::{count, is_chosen, open, refused_line, steps, Counts};
use slopeboard_reference::worked::{BOARD, SHEET};

/// The board that leaves groomer 2 no time between turns 2 and 3.
const TOO_CLOSE_BOARD: [u8; 28] = [
    0x47, 0x52, 0x42, 0x00, 0x04, 0x00, 0x03, 0x00, 0x00, 0x00, 0xF0, 0x00, 0x00, 0x01, 0x40, 0x0E,
    0x00, 0x00, 0x00, 0x64, 0x00, 0x01, 0x00, 0x32, 0x00, 0x03, 0x00, 0x5A,
];

const TABLE: [u16; 24] = [
    1, 1, 0, 60, 100, 0, 2, 1, 30, 60, 150, 0, 1, 2, 0, 120, 80, 0, 3, 2, 120, 60, 90, 0,
];

const LISTING: &str = "groomer 1\n30-90 slope 2 worth 150\ngroomer 2\n\
    120-180 slope 3 worth 90\nworth 240 tally 240 ceiling 340\n";

/// What untouched places hold.
const KEPT: u16 = 0xA5A5;

fn refusal_of(sheet: &[u8]) -> u8 {
    let mut table = [KEPT; 2400];
    match read(sheet, &mut table) {
        Ok(_) => 0,
        Err(number) => {
            assert_eq!(table, [KEPT; 2400]);
            number
        }
    }
}

fn one_turn(slope: u8, groomer: u8, start: u16, length: u16, worth: u16) -> Vec<u8> {
    let mut sheet = vec![0x47, 0x52, 0x4D, 2, 3, 0, 1, 0x1F, slope, groomer];
    for value in [start, length, worth] {
        sheet.extend(value.to_be_bytes());
    }
    sheet
}

fn board_with(map: u8, worth: u8) -> Vec<u8> {
    let mut board = BOARD.to_vec();
    board[13] = 0;
    board[14] = worth;
    board[15] = map;
    board
}

#[test]
fn example_is_read() {
    let mut table = [KEPT; 26];
    let counts = Counts {
        groomers: 2,
        slopes: 3,
        turns: 4,
    };
    assert_eq!(read(&SHEET, &mut table), Ok(counts));
    assert_eq!(table[..24], TABLE);
    assert_eq!(table[24..], [KEPT; 2]);
    assert_eq!(read(&SHEET, &mut [0; 23]), Err(11));
}

#[test]
fn example_is_planned() {
    // The room asked for goes by the turns: 15 + 1 + 4 * 4 bytes.
    let mut out = [0xA5; 32];
    assert_eq!(plan(&SHEET, &mut out), Ok(28));
    assert_eq!(out[..28], BOARD);
    assert_eq!(out[28..], [0xA5; 4]);
    let mut short = [0xA5; 31];
    assert_eq!(plan(&SHEET, &mut short), Err(11));
    assert_eq!(short, [0xA5; 31]);
}

#[test]
fn example_is_opened_and_checked() {
    assert_eq!(open(&BOARD), 0);
    assert_eq!(steps(&BOARD).as_ptr(), BOARD[16..].as_ptr());
    assert_eq!(steps(&BOARD).len(), 12);
    assert_eq!(check(&SHEET, &BOARD), Ok((240, 240)));
    assert_eq!(check(&SHEET, &TOO_CLOSE_BOARD), Err(13));
}

#[test]
fn example_is_listed() {
    let mut out = vec![0xA5; LISTING.len() + 1];
    assert_eq!(listing(&SHEET, &mut out), Ok(LISTING.len()));
    assert_eq!(out[..LISTING.len()], *LISTING.as_bytes());
    assert_eq!(out[LISTING.len()], 0xA5);
    let mut short = vec![0xA5; LISTING.len() - 1];
    assert_eq!(listing(&SHEET, &mut short), Err(11));
    assert!(short.iter().all(|&byte| byte == 0xA5));
    assert_eq!(refused_line(8), "refused 8\n");
    assert_eq!(listing(&one_turn(1, 1, 0, 0, 1), &mut out), Err(8));
}

#[test]
fn empty_groomers_keep_their_heading() {
    let mut out = [0; 64];
    let len = listing(b"GRM\x02\x01\0\0", &mut out).unwrap();
    assert_eq!(
        out[..len],
        *b"groomer 1\ngroomer 2\nworth 0 tally 0 ceiling 0\n"
    );
}

#[test]
fn header_cases() {
    assert_eq!(refusal_of(&[]), 1);
    assert_eq!(refusal_of(b"GRB\x02\x03\0"), 1);
    assert_eq!(refusal_of(b"GRM\x02\x03\0\0"), 0);
    assert_eq!(refusal_of(b"GRM\x02\x03\x01\x90"), 1);
    assert_eq!(refusal_of(b"GRM\x02\x03\x01\x91"), 4);
    assert_eq!(refusal_of(b"GRB\x00\x03\x01\x91"), 2);
    assert_eq!(refusal_of(b"GRM\x00\x03\x01\x91"), 3);
    assert_eq!(refusal_of(b"GRM\x11\x78\x00\x00"), 3);
    assert_eq!(refusal_of(b"GRM\x10\x79\x00\x00"), 3);
    assert_eq!(refusal_of(b"GRM\x10\x00\x00\x00"), 3);
    assert_eq!(refusal_of(b"GRM\x10\x78\x00\x00"), 0);
}

#[test]
fn no_turns_give_the_shortest_board() {
    let sheet = b"GRM\x01\x01\0\0";
    let mut out = [0xA5; 15];
    assert_eq!(plan(sheet, &mut out), Ok(15));
    assert_eq!(out, *b"GRB\0\0\0\0\0\0\0\0\0\0\0\0");
    assert_eq!(open(&out), 0);
    assert_eq!(check(sheet, &out), Ok((0, 0)));
    assert_eq!(plan(sheet, &mut [0; 14]), Err(11));
    assert_eq!(read(sheet, &mut []).map(|counts| counts.turns), Ok(0));
}

#[test]
fn value_bounds() {
    assert_eq!(refusal_of(&one_turn(1, 1, 900, 60, 1)), 0);
    assert_eq!(refusal_of(&one_turn(1, 1, 900, 61, 1)), 8);
    assert_eq!(refusal_of(&one_turn(1, 1, 0, 0, 1)), 8);
    assert_eq!(refusal_of(&one_turn(1, 1, 65535, 65535, 1)), 8);
    assert_eq!(refusal_of(&one_turn(1, 1, 65535, 1, 1)), 8);
    assert_eq!(refusal_of(&one_turn(1, 1, 0, 1, 60_000)), 0);
    assert_eq!(refusal_of(&one_turn(1, 1, 0, 1, 60_001)), 9);
    assert_eq!(refusal_of(&one_turn(1, 1, 0, 1, 0)), 9);
    assert_eq!(refusal_of(&one_turn(3, 2, 0, 1, 1)), 0);
    assert_eq!(refusal_of(&one_turn(0, 2, 0, 1, 1)), 6);
    assert_eq!(refusal_of(&one_turn(4, 3, 0, 0, 0)), 6);
    assert_eq!(refusal_of(&one_turn(3, 3, 0, 0, 0)), 7);
    assert_eq!(refusal_of(&one_turn(3, 0, 0, 0, 0)), 7);
    assert_eq!(refusal_of(&one_turn(3, 2, 0, 0, 0)), 8);
}

#[test]
fn record_cases() {
    let good = one_turn(1, 1, 900, 60, 100);
    let mut longer = good.clone();
    longer.push(0);
    assert_eq!(refusal_of(&longer), 10);
    // Every cut of a good sheet ends too early, whatever its values.
    for len in 0..good.len() {
        assert_eq!(refusal_of(&good[..len]), 1, "{len}");
    }
    // A record must be whole before its values count.
    assert_eq!(refusal_of(&one_turn(0, 0, 0, 0, 0)[..15]), 1);
    // The map counts before the fields it announces.
    assert_eq!(refusal_of(b"GRM\x02\x03\0\x01\x0F"), 5);
    assert_eq!(refusal_of(b"GRM\x02\x03\0\x01\x7F"), 5);
    let mut two = good;
    two[6] = 2;
    assert_eq!(refusal_of(&two), 1);
    for (map, fields, number) in [
        (0, [].as_slice(), 0),
        (0x20, &[], 1),
        (0x20, &[40], 0),
        (0x20, &[41], 19),
        (0x40, &[], 5),
        (0x80, &[], 5),
        (1, &[], 1),
        (1, &[4], 6),
        (2, &[0], 7),
        (4, &[3, 0x85], 8),
        (8, &[0, 61], 8),
        (16, &[0], 1),
        (16, &[0, 0], 9),
        (16, &[0, 100], 0),
    ] {
        let mut sheet = two.clone();
        sheet.push(map);
        sheet.extend(fields);
        assert_eq!(refusal_of(&sheet), number, "{map:02x} {fields:?}");
    }
}

#[test]
fn writer_order() {
    let good = [1, 1, 0, 1, 1, 0];
    let mut out = [0xA5; 4000];
    assert_eq!(write(0, 0, &[0; 5], &mut []), Err(18));
    assert_eq!(write(0, 1, &[0; 2406], &mut []), Err(3));
    assert_eq!(write(256, 1, &good, &mut []), Err(3));
    assert_eq!(write(257, 1, &good, &mut out), Err(3));
    assert_eq!(write(1, 121, &good, &mut out), Err(3));
    assert_eq!(write(1, u32::MAX, &good, &mut out), Err(3));
    assert_eq!(write(1, 1, &[0; 2406], &mut []), Err(4));
    assert_eq!(write(1, 1, &[2, 2, 0, 0, 0, 0], &mut []), Err(6));
    assert_eq!(write(1, 1, &[257, 1, 0, 1, 1, 0], &mut out), Err(6));
    assert_eq!(write(1, 1, &[1, 257, 0, 0, 0, 0], &mut []), Err(7));
    assert_eq!(write(1, 1, &[1, 1, 900, 61, 0, 0], &mut []), Err(8));
    assert_eq!(write(1, 1, &[1, 1, 900, 60, 60_001, 0], &mut []), Err(9));
    let late = [1, 1, 0, 1, 0, 0, 0, 1, 0, 1, 1, 0];
    assert_eq!(write(1, 1, &[1, 1, 900, 60, 1, 41], &mut []), Err(19));
    assert_eq!(write(1, 1, &late, &mut []), Err(9));
    assert_eq!(write(1, 1, &good, &mut [0; 15]), Err(11));
    assert_eq!(out, [0xA5; 4000]);
    assert_eq!(write(1, 1, &good, &mut out), Ok(16));
    assert_eq!(write(1, 1, &[], &mut out), Ok(7));
}

#[test]
fn most_turns_are_written_and_planned() {
    let table = [1, 1, 0, 1, 60_000, 0].repeat(400);
    let mut sheet = [0; 7 + 9 + 399];
    assert_eq!(write(1, 1, &table, &mut sheet), Ok(415));
    assert_eq!(refusal_of(&sheet), 0);
    let mut board = [0; 15 + 50 + 1600];
    assert_eq!(plan(&sheet, &mut board), Ok(69));
    assert_eq!(check(&sheet, &board[..69]), Ok((60_000, 60_000)));
    assert_eq!(plan(&sheet, &mut board[..1664]), Err(11));
}

#[test]
fn board_shape() {
    for len in 0..BOARD.len() {
        assert_eq!(open(&BOARD[..len]), 12, "{len}");
        assert!(steps(&BOARD[..len]).is_empty());
    }
    let mut longer = BOARD.to_vec();
    longer.push(0);
    assert_eq!(open(&longer), 12);
    for (place, value) in [(0, 0x67), (2, 0x4D), (4, 9), (6, 2), (6, 5), (15, 0x1A)] {
        let mut board = BOARD.to_vec();
        board[place] = value;
        assert_eq!(open(&board), 12, "{place}");
        assert_eq!(check(&SHEET, &board), Err(12));
    }
    // One more turn with the same map length: shape right, sheet another.
    let mut board = BOARD.to_vec();
    board[4] = 5;
    assert_eq!(open(&board), 0);
    assert_eq!(check(&SHEET, &board), Err(12));
    // More steps than turns, though the length agrees.
    assert_eq!(open(b"GRB\0\0\0\x01\0\0\0\0\0\0\0\0\0\0\0\0"), 12);
    // Opening knows no limit of turns.
    let mut large = b"GRB\xFF\xFF\0\0\0\0\0\0\0\0\0\0".to_vec();
    large.extend([0; 8192]);
    assert_eq!(open(&large), 0);
    large[15 + 8191] = 0x80;
    assert_eq!(open(&large), 12);
}

/// Numbers that no board has as a turn, the highest of them included.
const NO_TURNS: [usize; 6] = [65_535, 65_536, 65_537, 131_070, usize::MAX - 7, usize::MAX];

#[test]
fn example_is_counted() {
    assert_eq!(count(&BOARD), Ok(2));
    let chosen = [0, 1, 2, 3].map(|turn| is_chosen(&BOARD, turn));
    assert_eq!(chosen, [false, true, false, true]);
    for turn in [4, 5, 7, 8, 9, 15, 16].into_iter().chain(NO_TURNS) {
        assert!(!is_chosen(&BOARD, turn), "{turn}");
    }
}

#[test]
fn every_choice_of_four_is_counted() {
    let ones = [0, 1, 1, 2, 1, 2, 2, 3, 1, 2, 2, 3, 2, 3, 3, 4];
    for (map, ones) in ones.into_iter().enumerate() {
        let board = board_with(map as u8, 0);
        assert_eq!(count(&board), Ok(ones), "{map}");
        for turn in 0..4 {
            assert_eq!(
                is_chosen(&board, turn),
                map / 2usize.pow(turn as u32) % 2 == 1
            );
        }
    }
}

#[test]
fn bytes_that_are_no_board_choose_nothing() {
    let mut others: Vec<Vec<u8>> = (0..BOARD.len()).map(|len| BOARD[..len].to_vec()).collect();
    others.extend([0x1E, 0x2E, 0x8E, 0xFF].map(|map| board_with(map, 0)));
    others.push([&BOARD[..], &[0]].concat());
    others.push(SHEET.to_vec());
    for bytes in others {
        assert_eq!(count(&bytes), Err(12), "{bytes:?}");
        for turn in (0..16).chain(NO_TURNS) {
            assert!(!is_chosen(&bytes, turn), "{turn} {bytes:?}");
        }
    }
}

#[test]
fn fewest_and_most_are_counted() {
    let none = b"GRB\0\0\0\0\0\0\0\0\0\0\0\0";
    assert_eq!(count(none), Ok(0));
    assert!(!is_chosen(none, 0));
    let mut most = b"GRB\xFF\xFF\0\0\0\0\0\0\0\0\0\0".to_vec();
    most.extend([0xFF; 8191]);
    most.push(0x7F);
    assert_eq!(count(&most), Ok(65_535));
    assert!(is_chosen(&most, 0) && is_chosen(&most, 65_534));
    for turn in NO_TURNS {
        assert!(!is_chosen(&most, turn), "{turn}");
    }
    most[15 + 8191] = 0xFF;
    assert_eq!(count(&most), Err(12));
}

#[test]
fn check_judges_the_sheet_before_the_board() {
    assert_eq!(check(&SHEET[..38], &[]), Err(1));
    assert_eq!(check(&one_turn(1, 1, 900, 61, 1), &BOARD), Err(8));
    assert_eq!(check(&SHEET, &[]), Err(12));
}

#[test]
fn check_of_choices() {
    assert_eq!(check(&SHEET, &board_with(0b1001, 190)), Err(17));
    assert_eq!(check(&SHEET, &board_with(0b1010, 240)), Ok((240, 240)));
    assert_eq!(check(&SHEET, &board_with(0b1010, 239)), Err(17));
    assert_eq!(check(&SHEET, &board_with(0b1000, 90)), Err(14));
    assert_eq!(check(&SHEET, &board_with(0b0010, 150)), Err(14));
    assert_eq!(check(&SHEET, &board_with(0b1111, 0)), Err(13));
    assert_eq!(check(&SHEET, &board_with(0b1011, 0)), Err(13));
    assert_eq!(check(&SHEET, &board_with(0, 0)), Err(14));
}

#[test]
fn check_of_steps() {
    let changed = |from: usize, bytes: &[u8]| {
        let mut board = BOARD.to_vec();
        board[from..from + bytes.len()].copy_from_slice(bytes);
        check(&SHEET, &board)
    };
    // No such turn; another amount; a closed turn; a later end first.
    assert_eq!(changed(16, &[0, 4]), Err(15));
    assert_eq!(changed(16, &[0, 0, 0, 99]), Err(15));
    assert_eq!(changed(20, &[0, 0, 0, 0]), Err(15));
    assert_eq!(changed(20, &[0, 0, 0, 100]), Err(15));
    assert_eq!(changed(16, &[0, 1, 0, 150]), Err(15));
    // Groomer 2 has an earlier end open if its turn 3 goes first.
    assert_eq!(changed(16, &[0, 3, 0, 90]), Err(15));
    // Wrong sums alone.
    assert_eq!(changed(10, &[0xF1]), Err(17));
    assert_eq!(changed(14, &[0xF1]), Err(17));
    assert_eq!(changed(7, &[1]), Err(17));
    assert_eq!(changed(11, &[1]), Err(17));
    // The last step left out, then all of them.
    let mut board = BOARD[..24].to_vec();
    board[6] = 2;
    assert_eq!(check(&SHEET, &board), Err(16));
    board.truncate(16);
    board[6] = 0;
    assert_eq!(check(&SHEET, &board), Err(16));
}

#[test]
fn another_order_of_steps_passes() {
    let mut board = BOARD.to_vec();
    // Turn 3 may come before turn 1: only its own groomer's ends count.
    board[20..28].copy_from_slice(&[0, 3, 0, 90, 0, 1, 0, 50]);
    assert_eq!(check(&SHEET, &board), Ok((240, 240)));
}

/// Turn 2 first: it ends as turn 3 starts, so that step takes from turn 3.
#[test]
fn a_step_takes_from_a_turn_that_starts_as_its_own_ends() {
    let mut board = [&BOARD[..16], &[0; 16]].concat();
    board[6] = 4;
    for (last, answer) in [(10, Ok((240, 240))), (90, Err(15))] {
        board[16..].copy_from_slice(&[0, 2, 0, 80, 0, 0, 0, 20, 0, 1, 0, 130, 0, 3, 0, last]);
        assert_eq!(check(&SHEET, &board), answer);
    }
}
