//! How close boards and limits come, and on how many sheets the search proves
//! the best board, on typed and drawn sheets and halls.

use slopeboard_reference::expected::KINDS;
use slopeboard_reference::typed::{HALLS, SHEETS};
use slopeboard_reference::{expected, fast};
use std::time::Instant;

/// What rounds alone come to: worth and limit.
type Refines = fn(&[u8]) -> (u32, u32);

/// What rounds and some looks come to: worth, looks made, whether all was
/// searched.
type Solves = fn(&[u8], u32) -> (u32, u32, bool);

const ROUNDS: u32 = 100;
const LOOKS: [u32; 3] = [1000, 10_000, 100_000];

#[test]
fn board_and_limit_meet_as_expected() {
    expected::meet_as_expected_with_mending(|sheet, rounds| {
        let found = fast::mending::refine(sheet, rounds, &mut [0; 1665], &mut [0; 520]).unwrap();
        (found.worth, found.limit)
    });
}

#[test]
fn drawn_sheets_are_proved() {
    expected::proved_as_expected(|sheet, rounds, looks| {
        let found = fast::solve(sheet, rounds, looks, &mut [0; 1665], &mut [0; 520]);
        found.unwrap().whole
    });
}

#[test]
#[ignore = "takes a minute or more"]
fn sheets_are_solved() {
    let before: Refines = |sheet| {
        let found = fast::refine(sheet, ROUNDS, &mut [0; 1665], &mut [0; 520]).unwrap();
        (found.worth, found.limit)
    };
    let weighed: Refines = |sheet| {
        let found = fast::weights::refine(sheet, ROUNDS, &mut [0; 1665], &mut [0; 520]).unwrap();
        (found.worth, found.limit)
    };
    let mended: Refines = |sheet| {
        let found = fast::mending::refine(sheet, ROUNDS, &mut [0; 1665], &mut [0; 520]).unwrap();
        (found.worth, found.limit)
    };
    let solved: Solves = |sheet, looks| {
        let found = fast::solve(sheet, ROUNDS, looks, &mut [0; 1665], &mut [0; 520]).unwrap();
        (found.worth, found.looks, found.whole)
    };
    let typed = SHEETS.iter().map(|kind| {
        let sheets: Vec<Vec<u8>> = (1..=20).map(|seed| kind.sheet(seed)).collect();
        (kind.name(), sheets)
    });
    let drawn = KINDS.iter().map(|kind| {
        let sheets = (101..=120).map(|seed| kind.drawn(seed)).collect();
        (kind.name(), sheets)
    });
    for (name, sheets) in typed.chain(drawn) {
        print_row(&name, &sheets, [before, weighed, mended], solved);
    }
}

#[test]
#[ignore = "takes a minute or more"]
fn halls_are_solved() {
    let before: Refines = |sheet| {
        let found = fast::charge_refine(sheet, ROUNDS, &mut [0; 50], &mut [0; 960]).unwrap();
        (found.worth, found.limit)
    };
    let weighed: Refines = |sheet| {
        let (map, prices) = (&mut [0; 50], &mut [0; 960]);
        let found = fast::weights::charge_refine(sheet, ROUNDS, map, prices).unwrap();
        (found.worth, found.limit)
    };
    let mended: Refines = |sheet| {
        let (map, prices) = (&mut [0; 50], &mut [0; 960]);
        let found = fast::mending::charge_refine(sheet, ROUNDS, map, prices).unwrap();
        (found.worth, found.limit)
    };
    let solved: Solves = |sheet, looks| {
        let (map, prices) = (&mut [0; 50], &mut [0; 960]);
        let found = fast::charge_solve(sheet, ROUNDS, looks, map, prices).unwrap();
        (found.worth, found.looks, found.whole)
    };
    for kind in &HALLS {
        let sheets: Vec<Vec<u8>> = (101..=106).map(|seed| kind.sheet(seed)).collect();
        print_row(&kind.name(), &sheets, [before, weighed, mended], solved);
    }
}

/// Prints, by the best worth that the most looks find: board and limit without
/// weights and on how many sheets they meet, the limit with weights, the board
/// with mending and how many meet, how many are proved by each number of looks, the
/// mean looks and the seconds of that with the most, and the time of one look.
fn print_row(name: &str, sheets: &[Vec<u8>], refines: [Refines; 3], solves: Solves) {
    let solved = LOOKS.map(|looks| {
        let start = Instant::now();
        let found: Vec<_> = sheets.iter().map(|sheet| solves(sheet, looks)).collect();
        (found, start.elapsed().as_secs_f64())
    });
    let best: Vec<u32> = solved[2].0.iter().map(|&(worth, ..)| worth).collect();
    let [before, weighed, mended] =
        refines.map(|refine| sheets.iter().map(|sheet| refine(sheet)).collect::<Vec<_>>());
    let mean = |values: Vec<u32>| {
        let ratios = values.iter().zip(&best);
        let ratios = ratios.map(|(&value, &best)| f64::from(value) / f64::from(best));
        ratios.sum::<f64>() / sheets.len() as f64
    };
    let board = |found: &[(u32, u32)]| mean(found.iter().map(|&(worth, _)| worth).collect());
    let limit = |found: &[(u32, u32)]| mean(found.iter().map(|&(_, limit)| limit).collect());
    let meet = |found: &[(u32, u32)]| found.iter().filter(|(worth, limit)| worth == limit).count();
    let proved = [0, 1, 2].map(|n| solved[n].0.iter().filter(|(_, _, whole)| *whole).count());
    let (found, seconds) = &solved[2];
    let looks: u32 = found.iter().map(|(_, looks, _)| looks).sum();
    let rounds = ROUNDS * sheets.len() as u32;
    println!(
        "{name} | {:.4}, {:.4}, {} | {:.4} | {:.4} | {} | {} / {} / {} | {} looks, {seconds:.2} s, \
         {:.1} us a look",
        board(&before),
        limit(&before),
        meet(&before),
        limit(&weighed),
        board(&mended),
        meet(&mended),
        proved[0],
        proved[1],
        proved[2],
        looks / sheets.len() as u32,
        seconds * 1e6 / f64::from(looks + rounds),
    );
    for n in [0, 1] {
        let worths = solved[n].0.iter().zip(&solved[n + 1].0);
        assert!(worths.into_iter().all(|(fewer, more)| fewer.0 <= more.0));
    }
}
