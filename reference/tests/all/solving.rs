//! The search for the best board: both versions side by side, and brute force on
//! small shifts and halls.

use crate::case::{Ask, Case, Outcome, PRICE_KEPT};
use slopeboard_reference::gen::{Rng, Shift};
use slopeboard_reference::{fast, halls, handmade, naive, shapes, typed};

/// Any two of three turns are in conflict, by slope, by groomer and by driver,
/// so that no prices lead to a limit below half of all.
#[test]
fn a_gap_that_no_price_closes() {
    let turns = |worths: [u16; 3]| {
        let [a, b, c] = worths;
        Case::shift(&Shift {
            groomers: 2,
            slopes: 2,
            turns: vec![
                [1, 1, 0, 60, a, 0],
                [1, 2, 0, 60, b, 1],
                [2, 1, 0, 60, c, 1],
            ],
        })
    };
    // Half of all is 150: with prices of 30,000 a sum of 90,000 is seen, and
    // 90,000 / 60,000 is 1.
    let outcome = turns([100, 100, 100]).ask(Ask::Solved(100, 0));
    assert_eq!((outcome.worth, outcome.limit), (100, 100));
    assert!(outcome.whole);
    // Here the limit stays above.
    let case = turns([100, 100, 99]);
    let outcome = case.ask(Ask::Solved(100, 0));
    assert!(!outcome.whole);
    assert_eq!(
        (outcome.worth, outcome.rounds, outcome.looks),
        (100, 100, 0)
    );
    assert!((149..155).contains(&outcome.limit), "{}", outcome.limit);
    let outcome = case.ask(Ask::Solved(100, 1000));
    assert!(outcome.whole && outcome.looks > 13);
    assert_eq!((outcome.worth, outcome.limit), (100, 100));
}

/// Everything that is promised of the looks, by what enough of them give.
fn searched(case: &Case, rounds: u32, some: &[u32]) -> Outcome {
    let refined = case.ask(Ask::Mended(rounds));
    let all = case.ask(Ask::Solved(rounds, u32::MAX));
    assert!(all.whole);
    assert_eq!(all.limit, all.worth);
    let mut worth = refined.worth;
    let last = [all.looks.saturating_sub(1), all.looks, all.looks + 1];
    let mut given: Vec<u32> = some.iter().copied().chain(last).collect();
    given.sort();
    for looks in given {
        let outcome = case.ask(Ask::Solved(rounds, looks));
        assert_eq!(outcome.looks, looks.min(all.looks));
        assert_eq!(outcome.whole, looks >= all.looks);
        assert!(outcome.worth >= worth);
        worth = outcome.worth;
        assert_eq!(outcome.rounds, refined.rounds);
        assert_eq!(outcome.prices, refined.prices);
        if !outcome.whole {
            assert_eq!(outcome.limit, refined.limit);
        }
        if outcome.whole {
            assert_eq!(outcome, all);
        }
        if looks == 0 {
            assert_eq!(outcome.written, refined.written);
        }
    }
    all
}

#[test]
fn a_whole_search_finds_the_best() {
    let mut rng = Rng::new(221);
    let (mut split, mut better, mut most, mut tried) = (0, 0, 0, 0);
    for _ in 0..350 {
        let case = Case::small(&mut rng);
        let best = case.best();
        for rounds in [0, 3, 40] {
            let all = searched(&case, rounds, &[0, 1, 2, 13, 14, 30]);
            assert_eq!(all.worth, best, "{rounds} {:?}", case.sheet());
            split += u32::from(all.looks > 13);
            most = most.max(all.looks);
            better += u32::from(case.ask(Ask::Mended(rounds)).worth < best);
            tried += 1;
        }
    }
    println!("{tried} searches, {split} of them split, {better} found better, most looks {most}");
    assert!(split > 50 && better > 5, "{split} {better} {most}");
}

#[test]
fn all_sizes_agree() {
    let mut rng = Rng::new(222);
    let mut whole = 0;
    for round in 0..120 {
        let (turns, looks) = match round % 60 {
            0 => (400, 20),
            1 => (rng.between(100, 400) as usize, 20),
            _ => (rng.between(10, 60) as usize, rng.pick(&[0, 5, 60, 200])),
        };
        let rounds = rng.pick(&[0, 1, 7]);
        let shift = shapes::shift(&mut rng, round % shapes::SHAPES, turns);
        whole += u32::from(Case::shift(&shift).ask(Ask::Solved(rounds, looks)).whole);
        let hall = halls::hall(&mut rng, round % halls::SHAPES, turns / 2);
        let outcome = Case::hall(&hall).ask(Ask::Solved(rounds, looks.min(60)));
        whole += u32::from(outcome.whole);
    }
    for shift in handmade::shifts() {
        Case::shift(&shift).ask(Ask::Solved(1, 30));
    }
    assert!(whole > 30, "{whole}");
}

/// Typed sheets and halls, on which worths are equal again and again and the
/// search is long.
#[test]
fn typed_ones_agree() {
    let sheets = [[3, 12, 3, 0, 5], [3, 14, 3, 3, 8], [2, 20, 2, 4, 3]];
    let halls = [[6, 8, 30, 6], [4, 12, 30, 3]];
    let (mut split, mut whole) = (0, 0);
    for seed in 1..=8 {
        let sheets = sheets.map(|kind| Case::Shift(typed::typed(kind).sheet(seed)));
        let halls = halls.map(|kind| Case::Hall(typed::hall(kind, true).sheet(seed)));
        for case in sheets.iter().chain(&halls) {
            let outcome = case.ask(Ask::Solved(seed as u32, 150));
            whole += u32::from(outcome.whole);
            split += u32::from(outcome.looks > 13);
            if outcome.whole {
                searched(case, seed as u32, &[7, 40]);
            }
        }
    }
    let large = &typed::SHEETS[6];
    Case::Shift(large.sheet(1)).ask(Ask::Solved(3, 30));
    println!("{whole} whole, {split} split");
    assert!(whole > 15 && split > 15, "{whole} {split}");
}

/// 11 after the sheet's own refusals, 26 for a list of another length, and then
/// nothing is touched.
#[test]
fn refusals() {
    let mut rng = Rng::new(223);
    for _ in 0..60 {
        let case = Case::small(&mut rng);
        let (bytes, prices) = (case.bytes(), case.prices());
        let longer = [case.sheet(), &[0]].concat();
        for (sheet, refusal) in [(case.sheet(), 11), (&longer, 10)] {
            for (bytes, prices) in [(bytes.wrapping_sub(1), prices), (bytes, prices - 1)] {
                // A map of no bytes cannot be shorter.
                if bytes < 2000 {
                    for answer in refused(&case, sheet, bytes, prices) {
                        assert_eq!(answer, Some(refusal));
                    }
                }
            }
        }
        for count in [0, prices - 1, prices + 1] {
            let (sheet, list) = (case.sheet(), &vec![0; count]);
            let limits = match case {
                Case::Shift(_) => [naive::weights::limit, fast::weights::limit],
                Case::Hall(_) => [naive::weights::charge_limit, fast::weights::charge_limit],
            };
            for limit in limits {
                assert_eq!(limit(sheet, list), Err(26));
                assert_eq!(limit(&longer, list), Err(10));
            }
        }
    }
}

/// What each entry refuses with places of these lengths, which it leaves alone.
fn refused(case: &Case, sheet: &[u8], bytes: usize, count: usize) -> Vec<Option<u8>> {
    let (mut out, mut prices) = (vec![0xA5; bytes], vec![PRICE_KEPT; count]);
    let (o, p) = (&mut out, &mut prices);
    let answers = match case {
        Case::Shift(_) => vec![
            naive::weights::refine(sheet, 1, o, p).err(),
            naive::mending::refine(sheet, 1, o, p).err(),
            naive::solve(sheet, 1, 1, o, p).err(),
            fast::weights::refine(sheet, 1, o, p).err(),
            fast::mending::refine(sheet, 1, o, p).err(),
            fast::solve(sheet, 1, 1, o, p).err(),
        ],
        Case::Hall(_) => vec![
            naive::weights::charge_refine(sheet, 1, o, p).err(),
            naive::mending::charge_refine(sheet, 1, o, p).err(),
            naive::charge_solve(sheet, 1, 1, o, p).err(),
            fast::weights::charge_refine(sheet, 1, o, p).err(),
            fast::mending::charge_refine(sheet, 1, o, p).err(),
            fast::charge_solve(sheet, 1, 1, o, p).err(),
        ],
    };
    assert!(out.iter().all(|&byte| byte == 0xA5));
    assert!(prices.iter().all(|&price| price == PRICE_KEPT));
    answers
}
