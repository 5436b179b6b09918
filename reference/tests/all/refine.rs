//! A better board by rounds: rounds by hand, both versions side by side, brute
//! force on small sheets, what more rounds may do, and how close board and
//! limit come.

use crate::both::{limit, planned, read, refine, sheet_of, sums, BYTE_KEPT};
use slopeboard_reference::expected::{self, KINDS};
use slopeboard_reference::gen::{self, Rng, Row, Shift};
use slopeboard_reference::naive::turns::turns_of;
use slopeboard_reference::naive::{best_worth, steps, Refined};
use slopeboard_reference::{fast, prices, shapes};

/// What an untouched price holds.
const PRICE_KEPT: u16 = 0xA5A5;

/// A sheet of three groomers and so many slopes.
fn sheet_on(slopes: u8, turns: &[Row]) -> Vec<u8> {
    let shift = Shift {
        groomers: 3,
        slopes,
        turns: turns.to_vec(),
    };
    gen::encode(&mut Rng::new(0), &shift, 0).bytes
}

fn drawn(seed: u64, groomers: u32, slopes: u32, turns: u32) -> Vec<u8> {
    let mut sheet = vec![0; 4007];
    let len = crate::both::draw(seed, [groomers, slopes, turns], &mut sheet).unwrap();
    sheet.truncate(len);
    sheet
}

/// What comes of so many rounds: the answer, the board and the prices. What is
/// promised of them is looked at: the board passes, has the planned steps and
/// tally and no less worth, and the limit is that of the prices. The places are
/// lent longer than they need be, and nothing behind is touched.
fn refined(sheet: &[u8], rounds: u32) -> (Refined, Vec<u8>, Vec<u16>) {
    let turns = gen::turns_claimed(sheet);
    let count = usize::from(sheet[4]) + turns;
    let mut board = vec![BYTE_KEPT; 15 + turns.div_ceil(8) + 4 * turns + 1];
    let mut list = vec![PRICE_KEPT; count + 1];
    let found = refine(sheet, rounds, &mut board, &mut list).unwrap();
    assert!(board[found.bytes..].iter().all(|&byte| byte == BYTE_KEPT));
    assert_eq!(list.pop(), Some(PRICE_KEPT));
    board.truncate(found.bytes);
    let plan = planned(sheet);
    let passed = sums(sheet, &board).unwrap();
    let before = sums(sheet, &plan).unwrap();
    assert_eq!(
        (passed.tally, passed.ceiling),
        (before.tally, before.ceiling)
    );
    assert_eq!(steps(&board), steps(&plan));
    assert_eq!(passed.worth, found.worth);
    assert!(before.worth <= found.worth && found.worth <= found.limit);
    // Only what is worth more takes the plan's place.
    assert!(found.worth > before.worth || board == plan);
    assert_eq!(limit(sheet, &list), Ok(found.limit));
    assert!(found.rounds <= rounds);
    assert!(found.rounds == rounds || found.worth == found.limit);
    (found, board, list)
}

/// The worth, the limit and the rounds made.
fn figures(sheet: &[u8], rounds: u32) -> (u32, u32, u32) {
    let found = refined(sheet, rounds).0;
    (found.worth, found.limit, found.rounds)
}

#[test]
fn the_example_is_done_at_once() {
    let sheet = sheet_on(
        3,
        &[
            [1, 1, 0, 60, 100, 0],
            [2, 1, 30, 60, 150, 0],
            [1, 2, 0, 120, 80, 0],
            [3, 2, 120, 60, 90, 0],
        ],
    );
    for rounds in [0, 1, u32::MAX] {
        let (found, board, list) = refined(&sheet, rounds);
        assert_eq!((found.worth, found.limit, found.rounds), (240, 240, 0));
        assert_eq!(board, planned(&sheet));
        assert_eq!(list, [0; 7]);
    }
}

#[test]
fn no_turns_take_no_round() {
    for rounds in [0, 1, u32::MAX] {
        let (found, board, list) = refined(&sheet_on(2, &[]), rounds);
        assert_eq!((found.worth, found.limit, found.rounds), (0, 0, 0));
        assert_eq!((board.len(), list), (15, vec![0, 0]));
    }
}

#[test]
fn the_drawn_sheet_of_seed_7() {
    let sheet = drawn(7, 4, 20, 64);
    assert_eq!(figures(&sheet, 22), (754_691, 754_691, 22));
    assert_eq!(figures(&sheet, u32::MAX), (754_691, 754_691, 22));
    let (worth, limit, rounds) = figures(&sheet, 21);
    assert!(worth < limit && rounds == 21);
}

/// One slope, two groomers: the change is 25, then 23, then 21, and the price
/// goes up by it as long as both turns pay.
#[test]
fn rounds_on_one_slope() {
    let sheet = sheet_on(1, &[[1, 1, 0, 60, 100, 0], [1, 2, 0, 60, 60, 0]]);
    let prices = [[0, 0, 0], [25, 0, 0], [48, 0, 0], [69, 0, 0]];
    let limits = [160, 25 + 75 + 35, 48 + 52 + 12, 69 + 31];
    for (rounds, (price, limit)) in prices.iter().zip(limits).enumerate() {
        let (found, _, list) = refined(&sheet, rounds as u32);
        assert_eq!((found.worth, found.limit), (100, limit));
        assert_eq!(list, price);
    }
    assert_eq!(figures(&sheet, u32::MAX), (100, 100, 3));
    // Three turns: two more than one, so twice the change. At 50 only the
    // first is left, which counts for 50.
    let three = [
        [1, 1, 0, 60, 100, 0],
        [1, 2, 0, 60, 50, 0],
        [1, 3, 0, 60, 40, 0],
    ];
    let (found, _, list) = refined(&sheet_on(1, &three), 9);
    assert_eq!((found.worth, found.limit, found.rounds), (100, 100, 1));
    assert_eq!(list, [50, 0, 0, 0]);
}

/// A price that nobody pays falls: slope 1's goes too high, and the turn of
/// groomer 1 goes to slope 2 meanwhile.
#[test]
fn a_price_falls_again() {
    let turns = [
        [1, 1, 0, 60, 100, 0],
        [1, 2, 0, 60, 100, 0],
        [2, 1, 0, 60, 99, 0],
        [3, 2, 0, 60, 99, 0],
    ];
    let sheet = sheet_on(3, &turns);
    // All prices 0: both on slope 1. A round with 25: both leave it, for
    // slopes 2 and 3, and that choice is worth 198.
    assert_eq!(figures(&sheet, 0), (199, 200, 0));
    let (found, _, list) = refined(&sheet, 1);
    assert_eq!((found.worth, found.limit, found.rounds), (199, 200, 1));
    assert_eq!(list, [0; 7]);
    // The changes are 23, 21, 19, 17, 15, 14 and 13, and so the price goes to 2,
    // 0, 19, 2, 0, 14 and 1. There the limit is 1 + 99 + 99.
    // At 2 it is 200 as at first, and so the first prices stay the kept ones.
    for rounds in 2..8 {
        let (found, _, list) = refined(&sheet, rounds);
        assert_eq!((found.worth, found.limit, found.rounds), (199, 200, rounds));
        assert_eq!(list, [0; 7]);
    }
    let (found, _, list) = refined(&sheet, 200);
    assert_eq!((found.worth, found.limit, found.rounds), (199, 199, 8));
    assert_eq!(list, [1, 0, 0, 0, 0, 0, 0]);
}

/// One driver at one time, on two slopes and two groomers: half the change for
/// the price that both pay, and the other, which one pays, stays.
#[test]
fn rounds_of_one_driver() {
    let sheet = sheet_on(2, &[[1, 1, 0, 60, 100, 7], [2, 2, 30, 60, 60, 7]]);
    let prices = [[0, 0, 0, 0], [0, 0, 12, 0], [0, 0, 23, 0], [0, 0, 33, 0]];
    let limits = [160, 148, 137, 127];
    for (rounds, (price, limit)) in prices.iter().zip(limits).enumerate() {
        let (found, _, list) = refined(&sheet, rounds as u32);
        assert_eq!((found.worth, found.limit), (100, limit));
        assert_eq!(list, price);
    }
    let (found, _, list) = refined(&sheet, 200);
    assert_eq!((found.worth, found.limit), (100, 100));
    assert_eq!((list[0], list[1], list[3]), (0, 0, 0));
    // A worth of 1 has a change of 1, and half of that is 1 as well.
    let sheet = sheet_on(2, &[[1, 1, 0, 60, 1, 7], [2, 2, 30, 60, 1, 7]]);
    let (found, _, list) = refined(&sheet, 9);
    assert_eq!((found.worth, found.limit, found.rounds), (1, 1, 1));
    assert_eq!(list, [0, 0, 1, 0]);
}

/// The steps lead to a poor board: the choice by worth takes its place without
/// a round.
#[test]
fn the_first_look_is_no_round() {
    let mut rng = Rng::new(161);
    let (mut better, mut met) = (0, 0);
    for _ in 0..2000 {
        let shift = shapes::small(&mut rng, 14);
        let sheet = gen::encode(&mut rng, &shift, 0).bytes;
        let plan = sums(&sheet, &planned(&sheet)).unwrap().worth;
        let (worth, limit, rounds) = figures(&sheet, 0);
        assert_eq!(rounds, 0);
        better += u32::from(worth > plan);
        met += u32::from(worth == limit);
    }
    assert!(better > 100 && met > 100, "{better} {met}");
}

#[test]
fn places_that_are_too_short() {
    let mut rng = Rng::new(162);
    for round in 0..300 {
        let turns = rng.below(30) as usize;
        let shift = shapes::shift(&mut rng, round % shapes::SHAPES, turns);
        let mut sheet = gen::encode(&mut rng, &shift, 0).bytes;
        let bytes = 15 + turns.div_ceil(8) + 4 * turns;
        let count = usize::from(shift.slopes) + turns;
        let call = |sheet: &[u8], bytes: usize, count: usize| {
            let (mut board, mut list) = (vec![BYTE_KEPT; bytes], vec![PRICE_KEPT; count]);
            let answer = refine(sheet, 3, &mut board, &mut list);
            let kept = board.iter().all(|&byte| byte == BYTE_KEPT)
                && list.iter().all(|&price| price == PRICE_KEPT);
            assert_eq!(kept, answer.is_err());
            answer.err()
        };
        assert_eq!(call(&sheet, bytes, count), None);
        assert_eq!(call(&sheet, bytes - 1, count), Some(11));
        assert_eq!(call(&sheet, bytes, count - 1), Some(11));
        assert_eq!(call(&sheet, 0, 0), Some(11));
        // The sheet comes first.
        sheet.push(0);
        assert_eq!(call(&sheet, bytes, count), Some(10));
        assert_eq!(call(&sheet, 0, 0), Some(10));
    }
}

/// With more rounds the worth does not fall and the limit does not rise; where
/// the two meet it ends, and no set is worth more than the limit.
#[test]
fn rounds_only_help() {
    let mut rng = Rng::new(163);
    let (mut least, mut met, mut best_found, mut tried) = (u32::MAX, 0, 0, 0);
    for round in 0..1500 {
        let shift = match round % 3 {
            0 => shapes::crossed(&mut rng, 8),
            _ => shapes::small(&mut rng, 12),
        };
        let sheet = gen::encode(&mut rng, &shift, 20).bytes;
        let best = best_worth(&turns_of(&shift.turns.concat()));
        let (mut worth, mut limit) = (0, u32::MAX);
        for rounds in [0, 1, 2, 3, 5, 8, 20, 60] {
            let (more_worth, lower_limit, _) = figures(&sheet, rounds);
            assert!(more_worth >= worth && lower_limit <= limit);
            (worth, limit) = (more_worth, lower_limit);
            assert!(worth <= best && best <= limit, "{best} {shift:?}");
        }
        least = least.min(limit - best);
        met += u32::from(worth == limit);
        best_found += u32::from(worth == best);
        tried += 1;
    }
    println!(
        "small sheets, 60 rounds: of {tried} the board is the best on {best_found}, \
         board and limit meet on {met}; least difference of limit and best {least}"
    );
    assert!(met > 700 && best_found > 1200, "{met} {best_found}");
}

#[test]
fn sheets_of_all_sizes_agree() {
    let mut rng = Rng::new(164);
    for round in 0..240 {
        let turns = match round % 60 {
            0 => 400,
            1..=3 => rng.between(100, 400) as usize,
            _ => rng.below(60) as usize,
        };
        let shift = match round % 4 {
            0 => gen::shift(&mut rng, turns),
            _ => shapes::shift(&mut rng, round % shapes::SHAPES, turns),
        };
        let sheet = gen::encode(&mut rng, &shift, 20).bytes;
        let rounds = rng.pick(&[0, 1, 2, 7, 30, 100]);
        refined(&sheet, rounds);
    }
    let usual = shapes::usual_with_drivers(&mut rng, 400);
    refined(&gen::encode(&mut rng, &usual, 0).bytes, 150);
    let widest = shapes::widest(&mut rng, 400);
    refined(&gen::encode(&mut rng, &widest, 0).bytes, 150);
    for (seed, groomers, slopes, turns) in [(1, 16, 120, 400), (2, 1, 120, 300), (3, 16, 1, 300)] {
        refined(&drawn(seed, groomers, slopes, turns), 60);
    }
}

/// Prices that go up until they may not: of a slope with far more turns than
/// there is room for, and of a driver wanted on sixteen groomers.
#[test]
fn prices_stop_at_their_most() {
    let mut rng = Rng::new(165);
    let mut turns = Vec::new();
    for number in 0..400 {
        turns.push([1, 1 + number % 16, number / 16 * 38, 28, 60_000, 0]);
    }
    // At 60,000 no turn counts for anything.
    let (found, _, list) = refined(&sheet_of(&turns), 5);
    assert_eq!(
        (found.worth, found.limit, found.rounds),
        (60_000, 60_000, 1)
    );
    assert_eq!(list[0], 60_000);
    // Worths that differ, so that it goes on.
    for turn in &mut turns {
        turn[0] = rng.between(1, 3) as u16;
        turn[4] = rng.between(1, 60_000) as u16;
        turn[5] = rng.below(3) as u16;
    }
    refined(&sheet_of(&turns), 100);
    // Each turn pays for all that end before it: the price of the first is paid
    // by all sixteen, that of the last by itself alone.
    let row = |number: u16| [1 + number, 1 + number, 0, 100 + number, 60_000, 1];
    let turns: Vec<Row> = (0..16).map(row).collect();
    let (found, _, list) = refined(&sheet_of(&turns), 1);
    let prices: Vec<u16> = (0..16)
        .map(|n| (7500 * (15 - n)).min(60_000) as u16)
        .collect();
    assert_eq!(list[..120], [0; 120]);
    assert_eq!(list[120..], prices);
    assert_eq!((found.worth, found.limit), (60_000, 690_000));
}

#[test]
fn faulty_sheets_agree() {
    let mut rng = Rng::new(166);
    let mut seen = [0; 20];
    for _ in 0..4000 {
        let turns = rng.between(1, 12) as usize;
        let shift = gen::shift(&mut rng, turns);
        let faults = rng.below(3);
        let sheet = gen::with_faults(&mut rng, &shift, faults);
        let mut bytes = 15 + turns.div_ceil(8) + 4 * turns;
        let mut count = usize::from(shift.slopes) + turns;
        match rng.below(4) {
            0 => bytes = rng.below(bytes as u32) as usize,
            1 => count = prices::wrong_count(&mut rng, count),
            _ => {}
        }
        let (mut board, mut list) = (vec![BYTE_KEPT; bytes], vec![PRICE_KEPT; count]);
        let answer = refine(&sheet, rng.below(9), &mut board, &mut list);
        let number = answer.err().unwrap_or(0);
        seen[usize::from(number)] += 1;
        if answer.is_err() {
            assert!(board.iter().all(|&byte| byte == BYTE_KEPT));
            assert!(list.iter().all(|&price| price == PRICE_KEPT));
        }
        let refused = read(&sheet, &mut [0; 2400]).err();
        assert!(refused.is_none_or(|refused| refused == number));
        assert!(refused.is_some() || [0, 11].contains(&number));
    }
    for number in (0..=11).chain([19]) {
        assert!(seen[number] > 10, "{number}: {seen:?}");
    }
}

/// The judge and the fast version on drawn sheets, and how close board and limit
/// come there.
#[test]
#[ignore = "takes some seconds"]
fn board_and_limit_come_close() {
    expected::come_close(|sheet, rounds| {
        let (worth, limit, _) = figures(sheet, rounds);
        (worth, limit)
    });
}

#[test]
fn board_and_limit_meet_as_expected() {
    expected::meet_as_expected(|sheet, rounds| {
        let found = fast::refine(sheet, rounds, &mut [0; 1665], &mut [0; 520]).unwrap();
        (found.worth, found.limit)
    });
}

#[test]
fn draws_are_the_shop_floors() {
    for kind in KINDS
        .iter()
        .filter(|kind| (kind.drivers, kind.worth) == (0, 60_000))
    {
        let [groomers, slopes, turns] = kind.counts;
        for seed in [1, 7, 2_147_483_646] {
            assert_eq!(kind.drawn(seed), drawn(seed, groomers, slopes, turns));
        }
    }
}
