//! Ten minutes between two turns of a groomer: what 9, 10 and 11 minutes lead
//! to, in the planner and in the check.

use crate::both::{check, planned, sheet_of};
use slopeboard_reference::boards::Draft;
use slopeboard_reference::gen::Row;
use slopeboard_reference::naive::best_worth;
use slopeboard_reference::naive::turns::{conflict, turns_of};

/// Two turns on two slopes, the second as many minutes after the first, both
/// in this order and the other way round.
fn pairs(minutes: u16, groomers: [u16; 2]) -> [[Row; 2]; 2] {
    let first = [1, groomers[0], 100, 50, 70, 0];
    let second = [2, groomers[1], 150 + minutes, 40, 100, 0];
    [[first, second], [second, first]]
}

#[test]
fn nine_minutes_are_too_few_and_ten_are_enough() {
    for minutes in 0..30 {
        for turns in pairs(minutes, [2, 2]) {
            let close = minutes < 10;
            let table = turns_of(&turns.concat());
            for (a, b) in [(0, 1), (1, 0)] {
                assert_eq!(conflict(&table, a, b), close, "{minutes}");
            }
            assert_eq!(best_worth(&table), if close { 100 } else { 170 });
        }
        for turns in pairs(minutes, [1, 2]) {
            assert!(!conflict(&turns_of(&turns.concat()), 0, 1));
        }
    }
}

#[test]
fn overlaps_conflict_as_before() {
    for start in 0..300 {
        let turns = turns_of(&[1, 1, 120, 30, 1, 0, 2, 1, start, 15, 1, 0]);
        // From ten minutes before the first turn to ten minutes after it.
        let close = start + 15 + 10 > 120 && start < 150 + 10;
        assert_eq!(conflict(&turns, 0, 1), close, "{start}");
        assert_eq!(conflict(&turns, 1, 0), close, "{start}");
    }
}

#[test]
fn the_planner_leaves_ten_minutes() {
    for minutes in [0, 1, 8, 9, 10, 11, 12] {
        for turns in pairs(minutes, [1, 1]) {
            let later = u16::from(turns[0][2] < turns[1][2]);
            let (first, second) = (1 - later, later);
            let (steps, chosen) = if minutes < 10 {
                // The first step takes 70 of the 100; the other turn is chosen.
                let chosen = [0, 1].map(|turn| turn == second);
                (vec![(first, 70), (second, 30)], chosen)
            } else {
                (vec![(first, 70), (second, 100)], [true; 2])
            };
            let board = Draft::new(&turns, chosen.to_vec(), steps).bytes();
            assert_eq!(planned(&sheet_of(&turns)), board, "{minutes}");
        }
        for turns in pairs(minutes, [1, 2]) {
            let board = planned(&sheet_of(&turns));
            assert_eq!(board[15], 0b11, "{minutes}");
        }
    }
}

#[test]
fn the_check_asks_for_ten_minutes() {
    for minutes in [0, 1, 8, 9, 10, 11, 12] {
        for turns in pairs(minutes, [1, 1]) {
            let sheet = sheet_of(&turns);
            let close = minutes < 10;
            let later = u16::from(turns[0][2] < turns[1][2]);
            let answer = |chosen: [bool; 2], amount: u16| {
                let steps = vec![(1 - later, 70), (later, amount)];
                check(&sheet, &Draft::new(&turns, chosen.to_vec(), steps).bytes())
            };
            let second = [0, 1].map(|turn| turn == later);
            let (both, one) = if close {
                (Err(13), Ok((100, 100)))
            } else {
                (Ok((170, 170)), Err(14))
            };
            let amount = if close { 30 } else { 100 };
            assert_eq!(answer([true; 2], amount), both, "{minutes}");
            assert_eq!(answer(second, amount), one, "{minutes}");
            // The amount of a step that took nothing, or too much, is wrong.
            let chosen = if close { second } else { [true; 2] };
            assert_eq!(answer(chosen, 130 - amount), Err(15), "{minutes}");
        }
    }
}
