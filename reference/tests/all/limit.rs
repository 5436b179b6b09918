//! A limit by prices: cases by hand, both versions side by side, and brute
//! force on small sheets that no set is worth more, whatever the prices are.

use crate::both::{best, limit, planned, read, sheet_of, sums};
use slopeboard_reference::gen::{self, Rng, Row, Shift};
use slopeboard_reference::naive::limit::{counts_for, look, paid, pays_for_driver};
use slopeboard_reference::naive::sheet::{accept, Sheet};
use slopeboard_reference::naive::turns::{too_close_on_groomer, turns_of};
use slopeboard_reference::naive::{best_worth, draw};
use slopeboard_reference::{prices, shapes};

const EXAMPLE: [Row; 4] = [
    [1, 1, 0, 60, 100, 0],
    [2, 1, 30, 60, 150, 0],
    [1, 2, 0, 120, 80, 0],
    [3, 2, 120, 60, 90, 0],
];

/// A sheet of three groomers and so many slopes.
fn sheet_on(slopes: u8, turns: &[Row]) -> Vec<u8> {
    let shift = Shift {
        groomers: 3,
        slopes,
        turns: turns.to_vec(),
    };
    gen::encode(&mut Rng::new(0), &shift, 0).bytes
}

fn accepted(sheet: &[u8]) -> Sheet {
    accept(sheet).unwrap_or_else(|_| unreachable!())
}

fn greatest(shift: &Shift) -> u32 {
    let worths = shift.turns.iter().map(|turn| u32::from(turn[4]));
    worths.max().unwrap_or(0)
}

#[test]
fn the_example() {
    let sheet = sheet_on(3, &EXAMPLE);
    assert_eq!(limit(&sheet, &[0; 7]), Ok(240));
    assert_eq!(limit(&sheet, &[100, 0, 0, 0, 0, 0, 0]), Ok(340));
    assert_eq!(limit(&sheet, &[60, 40, 10, 0, 0, 0, 0]), Ok(300));
    // No turn names a driver: the turns' prices are of no account.
    assert_eq!(limit(&sheet, &[60, 40, 10, 1, 2, 65_535, 4]), Ok(300));
    let board = planned(&sheet);
    assert_eq!(sums(&sheet, &board).map(|sums| sums.worth), Ok(240));
}

#[test]
fn a_list_of_another_length() {
    let sheet = sheet_on(3, &EXAMPLE);
    for count in (0..20).filter(|&count| count != 7) {
        assert_eq!(limit(&sheet, &vec![0; count]), Err(26));
    }
    // The sheet's own refusals come first.
    for count in [6, 7, 8] {
        let list = vec![0; count];
        assert_eq!(limit(&sheet[..sheet.len() - 1], &list), Err(1));
        assert_eq!(limit(&[&sheet[..], &[0]].concat(), &list), Err(10));
        assert_eq!(limit(&[], &list), Err(1));
    }
    // Without turns only the slopes have prices, and all of them count.
    assert_eq!(limit(&sheet_on(3, &[]), &[1, 20, 300]), Ok(321));
    assert_eq!(limit(&sheet_on(3, &[]), &[1, 20]), Err(26));
    assert_eq!(limit(&sheet_of(&[]), &[65_535; 120]), Ok(7_864_200));
}

/// Of one driver: a turn pays for itself, for what ends before it or with it
/// and is too close, and for nothing that ends later.
#[test]
fn what_a_turn_pays_for_its_driver() {
    let turns = turns_of(
        &[
            [1, 1, 100, 50, 9, 3],
            [2, 2, 90, 40, 9, 3],  // ends before it
            [3, 3, 120, 30, 9, 3], // ends with it
            [4, 4, 140, 30, 9, 3], // ends after it
            [5, 5, 60, 31, 9, 3],  // ends nine minutes before its start
            [6, 6, 60, 30, 9, 3],  // ends ten minutes before its start
            [7, 7, 90, 40, 9, 2],  // another's
            [8, 8, 90, 40, 9, 0],  // nobody's
            [1, 1, 100, 50, 9, 0], // nobody's
        ]
        .concat(),
    );
    let paid_by = |turn: usize| -> Vec<usize> {
        let all = 0..turns.len();
        all.filter(|&other| pays_for_driver(&turns, turn, other))
            .collect()
    };
    assert_eq!(paid_by(0), [0, 1, 2, 4]);
    assert_eq!(paid_by(1), [1, 4, 5]);
    assert_eq!(paid_by(2), [0, 1, 2]);
    assert_eq!(paid_by(3), [0, 2, 3]);
    assert_eq!(paid_by(4), [4, 5]);
    assert_eq!(paid_by(5), [5]);
    assert_eq!(paid_by(6), [6]);
    assert_eq!(paid_by(7), []);
    assert_eq!(paid_by(8), []);
}

/// Two turns of one driver at one time, on two slopes and two groomers.
#[test]
fn prices_of_turns() {
    let turns = [[1, 1, 0, 60, 100, 5], [2, 2, 30, 60, 70, 5]];
    let sheet = sheet_on(2, &turns);
    assert_eq!(limit(&sheet, &[0, 0, 0, 0]), Ok(170));
    // Both pay the price of the one that ends first.
    assert_eq!(limit(&sheet, &[0, 0, 70, 0]), Ok(100));
    assert_eq!(limit(&sheet, &[0, 0, 71, 0]), Ok(100));
    assert_eq!(limit(&sheet, &[0, 0, 101, 0]), Ok(101));
    // Only the later one pays its own.
    assert_eq!(limit(&sheet, &[0, 0, 0, 70]), Ok(170));
    assert_eq!(limit(&sheet, &[0, 0, 0, 71]), Ok(171));
    // All prices at once: 100 - 10 - 30, and 70 - 20 - 30 - 5.
    assert_eq!(limit(&sheet, &[10, 20, 30, 5]), Ok(65 + 60 + 15));
    // With the ends equal each pays both.
    let turns = [[1, 1, 30, 60, 100, 5], [2, 2, 0, 90, 70, 5]];
    let sheet = sheet_on(2, &turns);
    assert_eq!(limit(&sheet, &[0, 0, 30, 40]), Ok(70 + 30));
    assert_eq!(limit(&sheet, &[0, 0, 30, 30]), Ok(60 + 40 + 10));
}

/// The most that can be paid and summed up.
#[test]
fn the_greatest_prices() {
    let row = [1, 1, 0, 960, 60_000, 40];
    let sheet = sheet_of(&[row; 400]);
    assert_eq!(limit(&sheet, &[65_535; 520]), Ok(520 * 65_535));
    let row = [1, 1, 0, 960, 60_000, 0];
    let sheet = sheet_of(&[row; 400]);
    assert_eq!(limit(&sheet, &[65_535; 520]), Ok(120 * 65_535));
    let mut rows = Vec::new();
    for number in 0..400 {
        rows.push([1, 1 + number % 16, number / 16 * 38, 28, 60_000, 0]);
    }
    assert_eq!(limit(&sheet_of(&rows), &[0; 520]), Ok(400 * 60_000));
}

/// Where no slope has two turns and no turn names a driver, prices of 0 give
/// the best worth.
#[test]
fn simple_sheets_at_no_price() {
    let mut rng = Rng::new(151);
    for round in 0..600 {
        let turns = rng.below(if round % 10 == 0 { 121 } else { 30 }) as usize;
        let shift = shapes::shift(&mut rng, round % shapes::SHAPES, turns);
        let shift = shapes::simple(&mut rng, &shift);
        let sheet = gen::encode(&mut rng, &shift, 10).bytes;
        let count = usize::from(shift.slopes) + shift.turns.len();
        assert_eq!(limit(&sheet, &vec![0; count]), best(&sheet, &mut [0; 15]));
    }
}

/// The least that the limit was above the best worth, over all prices that are
/// tried.
#[test]
fn no_set_is_worth_more() {
    let mut rng = Rng::new(152);
    let (mut least, mut met, mut tried) = (u32::MAX, [0; prices::KINDS as usize], 0);
    for round in 0..6000 {
        let shift = match round % 3 {
            0 => shapes::crossed(&mut rng, 7),
            _ => shapes::small(&mut rng, 11),
        };
        let sheet = gen::encode(&mut rng, &shift, 20).bytes;
        let worth = best_worth(&turns_of(&shift.turns.concat()));
        let count = usize::from(shift.slopes) + shift.turns.len();
        for kind in 0..prices::KINDS {
            let list = prices::list(&mut rng, kind, count, greatest(&shift));
            let limit = limit(&sheet, &list).unwrap();
            assert!(limit >= worth, "{limit} {worth} {list:?} {shift:?}");
            least = least.min(limit - worth);
            met[kind as usize] += u32::from(limit == worth && worth > 0);
            tried += 1;
        }
    }
    println!("limit by prices: {tried} lists, least difference {least}, met by kind {met:?}");
    assert!(least == 0 && met[0] > 100 && met[3] > 10, "{met:?}");
}

/// The relaxed set, word by word: no two of a groomer too close, and what its
/// turns count for, with all prices that are paid to, is the limit.
#[test]
fn the_relaxed_set_earns_the_limit() {
    let mut rng = Rng::new(153);
    for round in 0..600 {
        let turns = rng.below(40) as usize;
        let shift = shapes::shift(&mut rng, round % shapes::SHAPES, turns);
        let sheet = gen::encode(&mut rng, &shift, 0).bytes;
        let count = usize::from(shift.slopes) + shift.turns.len();
        let list = prices::list(&mut rng, round % prices::KINDS, count, greatest(&shift));
        let sheet = accepted(&sheet);
        let seen = look(&sheet, &list);
        let mut sum: u32 = 0;
        for place in 0..count {
            let slopes = usize::from(shift.slopes);
            if place < slopes || shift.turns[place - slopes][5] != 0 {
                sum += u32::from(list[place]);
            }
        }
        for &turn in &seen.relaxed {
            let counts = counts_for(&sheet, &list, turn);
            assert!(counts > 0);
            assert_eq!(counts + paid(&sheet, &list, turn), sheet.turns[turn].worth);
            sum += counts;
            for &other in &seen.relaxed {
                let (a, b) = (&sheet.turns[turn], &sheet.turns[other]);
                assert!(turn == other || !too_close_on_groomer(a, b));
            }
        }
        assert_eq!(sum, seen.limit);
    }
}

/// On equal counts the one with the later end stays out, then the higher
/// number; and nothing that counts for 0 is taken.
#[test]
fn ties_of_counts() {
    let relaxed = |turns: &[Row], list: &[u16]| {
        let sheet = accepted(&sheet_on(2, turns));
        look(&sheet, list).relaxed
    };
    let turns = [[1, 1, 0, 60, 50, 0], [2, 1, 30, 60, 80, 0]];
    assert_eq!(relaxed(&turns, &[0, 0, 0, 0]), [1]);
    assert_eq!(relaxed(&turns, &[0, 30, 0, 0]), [0]);
    assert_eq!(relaxed(&turns, &[0, 29, 0, 0]), [1]);
    assert_eq!(relaxed(&turns, &[50, 80, 0, 0]), []);
    assert_eq!(relaxed(&turns, &[50, 79, 0, 0]), [1]);
    let turns = [[1, 1, 0, 60, 80, 0], [2, 1, 30, 30, 50, 0]];
    assert_eq!(relaxed(&turns, &[30, 0, 0, 0]), [0]);
    let turns = [[1, 1, 30, 30, 80, 0], [2, 1, 0, 60, 50, 0]];
    assert_eq!(relaxed(&turns, &[30, 0, 0, 0]), [0]);
    assert_eq!(relaxed(&turns, &[31, 0, 0, 0]), [1]);
}

#[test]
fn sheets_of_all_sizes_agree() {
    let mut rng = Rng::new(154);
    for round in 0..1200 {
        let turns = match round % 60 {
            0 => 400,
            1..=3 => rng.between(100, 400) as usize,
            _ => rng.below(60) as usize,
        };
        let shift = match round % 4 {
            0 => gen::shift(&mut rng, turns),
            _ => shapes::shift(&mut rng, round % shapes::SHAPES, turns),
        };
        let sheet = gen::encode(&mut rng, &shift, 20).bytes;
        let count = usize::from(shift.slopes) + shift.turns.len();
        for kind in 0..prices::KINDS {
            let list = prices::list(&mut rng, kind, count, greatest(&shift));
            limit(&sheet, &list).unwrap();
        }
        let wrong = prices::wrong_count(&mut rng, count);
        assert_eq!(limit(&sheet, &vec![1; wrong]), Err(26));
    }
    for (seed, groomers, slopes, turns) in [(1, 16, 120, 400), (2, 1, 120, 400), (3, 16, 1, 400)] {
        let mut sheet = vec![0; 4007];
        let len = draw(seed, groomers, slopes, turns, &mut sheet).unwrap();
        for kind in 0..prices::KINDS {
            let list = prices::list(&mut rng, kind, (slopes + turns) as usize, 60_000);
            limit(&sheet[..len], &list).unwrap();
        }
    }
}

#[test]
fn faulty_sheets_agree() {
    let mut rng = Rng::new(155);
    let mut seen = [0; 27];
    for _ in 0..6000 {
        let turns = rng.between(1, 12) as usize;
        let shift = gen::shift(&mut rng, turns);
        let faults = rng.below(3);
        let sheet = gen::with_faults(&mut rng, &shift, faults);
        let mut count = usize::from(shift.slopes) + turns;
        if rng.percent(30) {
            count = prices::wrong_count(&mut rng, count);
        }
        let kind = rng.below(prices::KINDS);
        let list = prices::list(&mut rng, kind, count, greatest(&shift));
        let number = limit(&sheet, &list).err().unwrap_or(0);
        seen[usize::from(number)] += 1;
        let refused = read(&sheet, &mut [0; 2400]).err();
        assert!(refused.is_none_or(|refused| refused == number));
        assert!(refused.is_some() || [0, 26].contains(&number));
    }
    for number in (0..=10).chain([19, 26]) {
        assert!(seen[number] > 10, "{number}: {seen:?}");
    }
}
