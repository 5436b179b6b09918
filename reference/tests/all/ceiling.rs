//! The ceiling: how often each step counts, and brute force that no set of
//! turns without a conflict is worth more.

use crate::both::{listing, planned, sheet_of, sums};
use slopeboard_reference::boards::{self, Draft};
use slopeboard_reference::gen::{self, Rng, Row, Shift};
use slopeboard_reference::naive::ceiling::fewest_groups;
use slopeboard_reference::naive::turns::turns_of;
use slopeboard_reference::naive::{any_driver, best_worth, one_turn_a_slope, Sums};
use slopeboard_reference::shapes;

#[test]
fn example_has_a_ceiling() {
    let turns = [
        [1, 1, 0, 60, 100, 0],
        [2, 1, 30, 60, 150, 0],
        [1, 2, 0, 120, 80, 0],
        [3, 2, 120, 60, 90, 0],
    ];
    let sheet = sheet_of(&turns);
    let sums_of = |tally, worth, ceiling| Sums {
        tally,
        worth,
        ceiling,
    };
    // Turn 0 has turn 1 by groomer and turn 2 by slope: 200 + 50 + 90.
    assert_eq!(sums(&sheet, &planned(&sheet)), Ok(sums_of(240, 240, 340)));
    // Turn 2 first: turn 0 by slope, turn 3 by groomer. Then turn 1 by groomer
    // with turn 0, and the last two alone: 160 + 20 + 130 + 10.
    let steps = vec![(2, 80), (0, 20), (1, 130), (3, 10)];
    let board = Draft::new(&turns, vec![false, true, false, true], steps);
    assert_eq!(sums(&sheet, &board.bytes()), Ok(sums_of(240, 240, 320)));
    // A refusal gives no ceiling, and no turns have none.
    assert_eq!(sums(&sheet, &board.bytes()[1..]), Err(12));
    let none = sheet_of(&[]);
    assert_eq!(sums(&none, &planned(&none)), Ok(sums_of(0, 0, 0)));
}

/// Turns around turn 0 by the groups that they are in: its slope, too close on
/// its groomer, too close with its driver.
const J: Row = [1, 1, 100, 10, 1, 1];
const SLOPE: Row = [1, 2, 500, 10, 1, 0];
const GROOMER: Row = [2, 1, 105, 10, 1, 0];
const DRIVER: Row = [3, 3, 105, 10, 1, 1];
const SLOPE_GROOMER: Row = [1, 1, 105, 10, 1, 2];
const SLOPE_DRIVER: Row = [1, 4, 105, 10, 1, 1];
const GROOMER_DRIVER: Row = [4, 1, 105, 10, 1, 1];
const ALL: Row = [1, 1, 105, 10, 1, 1];
const NONE: Row = [5, 5, 105, 10, 1, 2];
/// Of the groomer and the driver, but ten minutes later.
const LATER: Row = [6, 1, 120, 10, 1, 1];

#[test]
fn the_fewest_groups_are_counted() {
    let cases: [(&[Row], i64); 22] = [
        (&[], 1),
        (&[NONE, LATER], 1),
        (&[SLOPE], 1),
        (&[GROOMER], 1),
        (&[DRIVER], 1),
        (&[ALL], 1),
        (&[SLOPE, SLOPE, ALL, SLOPE_GROOMER, SLOPE_DRIVER], 1),
        (&[GROOMER, GROOMER, ALL, SLOPE_GROOMER, GROOMER_DRIVER], 1),
        (&[DRIVER, DRIVER, ALL, SLOPE_DRIVER, GROOMER_DRIVER], 1),
        (&[SLOPE_GROOMER, GROOMER_DRIVER], 1),
        (&[SLOPE_GROOMER, SLOPE_DRIVER], 1),
        (&[SLOPE_DRIVER, GROOMER_DRIVER], 1),
        (&[SLOPE, GROOMER], 2),
        (&[SLOPE, DRIVER], 2),
        (&[GROOMER, DRIVER], 2),
        (&[SLOPE, GROOMER_DRIVER], 2),
        (&[GROOMER, SLOPE_DRIVER], 2),
        (&[DRIVER, SLOPE_GROOMER], 2),
        (&[SLOPE_GROOMER, SLOPE_DRIVER, GROOMER_DRIVER], 2),
        (&[SLOPE, GROOMER, ALL, NONE], 2),
        (&[SLOPE, GROOMER, SLOPE_DRIVER, GROOMER_DRIVER], 2),
        (&[SLOPE, GROOMER, DRIVER, ALL], 3),
    ];
    for (others, times) in cases {
        let rows = [&[J], others].concat();
        let turns = turns_of(&rows.concat());
        let left = vec![1; rows.len()];
        assert_eq!(fewest_groups(&turns, &left, 0), times, "{others:?}");
        // The others are closed by this step, or they stay.
        let sheet = sheet_of(&rows);
        let board = planned(&sheet);
        let sums = sums(&sheet, &board).unwrap();
        let apart = others.contains(&NONE) as u32 + others.contains(&LATER) as u32;
        assert_eq!(sums.tally, 1 + apart, "{others:?}");
        assert_eq!(sums.ceiling, times as u32 + apart, "{others:?}");
    }
}

#[test]
fn closed_turns_do_not_count() {
    let turns = turns_of(&[J, SLOPE, GROOMER, DRIVER].concat());
    for (left, times) in [
        ([1, 1, 1, 1], 3),
        ([1, 0, 1, 1], 2),
        ([1, 1, -5, 1], 2),
        ([1, 1, 1, 0], 2),
        ([1, 0, 0, 1], 1),
        ([1, 0, 0, 0], 1),
    ] {
        assert_eq!(fewest_groups(&turns, &left, 0), times, "{left:?}");
    }
}

#[test]
fn a_turn_without_a_driver_has_no_driver_group() {
    let rows = [J, SLOPE, GROOMER, DRIVER].map(|[a, b, c, d, e, _]| [a, b, c, d, e, 0]);
    assert_eq!(fewest_groups(&turns_of(&rows.concat()), &[1; 4], 0), 2);
}

/// What must hold of the ceiling of every board that passes.
fn assert_ceiling(sheet: &[u8], board: &[u8], shift: &Shift, best: u32) -> Option<Sums> {
    let sums = sums(sheet, board).ok()?;
    let turns = turns_of(&shift.turns.concat());
    let Sums { tally, ceiling, .. } = sums;
    assert!(best <= ceiling, "{:?}", shift.turns);
    assert!(tally <= ceiling && ceiling <= 3 * tally);
    let (drivers, one) = (any_driver(&turns), one_turn_a_slope(&turns));
    if !drivers || one {
        assert!(ceiling <= 2 * tally);
    }
    if !drivers && one {
        assert_eq!(ceiling, tally);
    }
    Some(sums)
}

#[test]
fn no_set_is_worth_more() {
    let mut rng = Rng::new(71);
    let (mut passed, mut reached, mut closer, mut thrice) = (0, 0, 0, 0);
    for round in 0..4000 {
        let mut shift = match round % 3 {
            0 => shapes::crossed(&mut rng, 6),
            _ => shapes::small(&mut rng, 10),
        };
        if round % 4 == 0 {
            shift = shapes::one_turn_a_slope(&shift);
        }
        let sheet = gen::encode(&mut rng, &shift, 20).bytes;
        let best = best_worth(&turns_of(&shift.turns.concat()));
        let mut boards = vec![planned(&sheet)];
        for _ in 0..3 {
            boards.push(boards::right(&mut rng, &shift.turns).bytes());
            let full = boards::full(&mut rng, &shift.turns).bytes();
            boards.push(gen::damaged(&mut rng, &full));
            boards.push(full);
        }
        for board in boards {
            let Some(sums) = assert_ceiling(&sheet, &board, &shift, best) else {
                continue;
            };
            passed += 1;
            reached += u32::from(best == sums.ceiling && sums.ceiling > sums.tally);
            closer += u32::from(sums.ceiling > sums.tally && sums.ceiling < 2 * sums.tally);
            thrice += u32::from(sums.ceiling == 3 * sums.tally && sums.tally > 0);
        }
    }
    let seen = [passed, reached, closer, thrice];
    assert!(seen.iter().all(|&count| count > 300), "{seen:?}");
}

#[test]
fn the_last_line_has_the_ceiling() {
    let mut rng = Rng::new(72);
    for round in 0..400 {
        let turns = if round % 40 == 0 { 400 } else { rng.below(40) };
        let shift = shapes::shift(&mut rng, round % shapes::SHAPES, turns as usize);
        let sheet = gen::encode(&mut rng, &shift, 10).bytes;
        let sums = sums(&sheet, &planned(&sheet)).unwrap();
        let mut text = [0; 4096];
        let len = listing(&sheet, &mut text).unwrap();
        let text = std::str::from_utf8(&text[..len]).unwrap();
        let Sums {
            tally,
            worth,
            ceiling,
        } = sums;
        let line = format!("\nworth {worth} tally {tally} ceiling {ceiling}\n");
        assert!(text.ends_with(&line), "{text}");
    }
}
