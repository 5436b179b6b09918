//! Mending: by hand, both versions side by side, and brute force on small shifts
//! and halls.

use crate::case::{Ask, Case};
use slopeboard_reference::gen::{Rng, Row, Shift};
use slopeboard_reference::naive::charge::accept_hall;
use slopeboard_reference::naive::mending::mended;
use slopeboard_reference::naive::planning::worth;
use slopeboard_reference::naive::sheet::accept;
use slopeboard_reference::{halls, shapes};

/// The mended choice.
fn mended_in(case: &Case, choice: Vec<bool>) -> Vec<bool> {
    match case {
        Case::Shift(sheet) => mended(&accept(sheet).unwrap_or_else(|_| unreachable!()), choice),
        Case::Hall(sheet) => {
            let hall = accept_hall(sheet).unwrap_or_else(|_| unreachable!());
            mended(&hall, choice)
        }
    }
}

fn shift_of(turns: &[Row]) -> Case {
    Case::shift(&Shift {
        groomers: 4,
        slopes: 9,
        turns: turns.to_vec(),
    })
}

/// Turn 0 stands in the way of 1 and 2, which are worth more together.
#[test]
fn one_out_two_in() {
    let turns = [
        [1, 1, 0, 100, 50, 0],
        [2, 1, 0, 40, 30, 0],
        [3, 1, 60, 40, 30, 0],
    ];
    let case = shift_of(&turns);
    assert_eq!(
        mended_in(&case, vec![true, false, false]),
        [false, true, true]
    );
    assert_eq!(
        mended_in(&case, vec![false, true, true]),
        [false, true, true]
    );
    // What is not full becomes so only by a visit.
    assert_eq!(
        mended_in(&case, vec![false, false, false]),
        [false, false, false]
    );
    assert_eq!(
        mended_in(&case, vec![false, true, false]),
        [true, false, false]
    );
    // Just as much is not more.
    let mut turns = turns;
    turns[0][4] = 60;
    let case = shift_of(&turns);
    assert_eq!(
        mended_in(&case, vec![true, false, false]),
        [true, false, false]
    );
}

/// What comes in is visited as well if its place in the order is still to come,
/// and not if it has passed.
#[test]
fn what_comes_in_is_visited() {
    // 0 goes for 1 and 2; then 2 goes for 3 and 4.
    let turns = [
        [1, 1, 0, 100, 50, 0],
        [2, 1, 0, 40, 40, 0],
        [3, 1, 60, 40, 30, 0],
        [3, 2, 0, 40, 29, 0],
        [4, 1, 65, 20, 28, 0],
    ];
    let case = shift_of(&turns);
    assert_eq!(
        mended_in(&case, vec![true, false, false, true, false]),
        [false, true, false, true, true]
    );
}

/// Choices of every kind: none is worth less or has turns that cannot stand
/// together, and a full one stays full.
#[test]
fn mended_choices() {
    let mut rng = Rng::new(211);
    let (mut better, mut full, mut tried) = (0, 0, 0);
    for _ in 0..600 {
        let case = Case::small(&mut rng);
        let turns = case.turns();
        let best = case.best();
        for _ in 0..6 {
            let mut choice = vec![false; turns.len()];
            let share = rng.pick(&[30, 100]);
            for turn in rng.shuffled(turns.len()) {
                choice[turn] = rng.percent(share);
                choice[turn] &= case.is_allowed(&choice);
            }
            let was_full = case.is_full(&choice);
            let before = worth(&turns, &choice);
            let after = mended_in(&case, choice);
            assert!(case.is_allowed(&after));
            assert!(!was_full || case.is_full(&after));
            assert!(before <= worth(&turns, &after) && worth(&turns, &after) <= best.into());
            better += u32::from(before < worth(&turns, &after));
            full += u32::from(was_full);
            tried += 1;
        }
    }
    assert!(
        better > tried / 5 && full > tried / 4,
        "{better} {full} {tried}"
    );
}

/// Mending changes no limit and no price, but it may end the rounds earlier.
#[test]
fn rounds_only_help() {
    let mut rng = Rng::new(212);
    let (mut found, mut without, mut tried) = (0, 0, 0);
    for _ in 0..400 {
        let case = Case::small(&mut rng);
        let best = case.best();
        let (mut worth, mut limit) = (0, u32::MAX);
        for rounds in [0, 1, 2, 5, 60] {
            let outcome = case.ask(Ask::Mended(rounds));
            assert!(worth <= outcome.worth && outcome.limit <= limit);
            (worth, limit) = (outcome.worth, outcome.limit);
            assert!(worth <= best && best <= limit);
            assert!(outcome.rounds == rounds || worth == limit);
            assert_eq!(case.limit(&outcome.prices), limit);
            let weighed = case.ask(Ask::Weighed(outcome.rounds));
            assert_eq!(weighed.limit, limit);
            assert_eq!(weighed.prices, outcome.prices);
            found += u32::from(worth == best);
            without += u32::from(weighed.worth == best);
            tried += 1;
        }
    }
    assert!(
        found > without && found > tried * 4 / 5,
        "{found} {without} {tried}"
    );
}

#[test]
fn all_sizes_agree() {
    let mut rng = Rng::new(213);
    for round in 0..150 {
        let (turns, rounds) = match round % 50 {
            0 => (400, 3),
            1 => (rng.between(100, 400) as usize, 3),
            _ => (rng.below(60) as usize, rng.pick(&[0, 1, 7, 30])),
        };
        let shift = shapes::shift(&mut rng, round % shapes::SHAPES, turns);
        Case::shift(&shift).ask(Ask::Mended(rounds));
        let windows = turns / 2;
        let hall = halls::hall(&mut rng, round % halls::SHAPES, windows);
        Case::hall(&hall).ask(Ask::Mended(rounds.min(7)));
    }
    for hall in [
        halls::usual(&mut rng, 120),
        halls::small_draws(&mut rng, 100),
        halls::all_together(&mut rng, 100),
    ] {
        Case::hall(&hall).ask(Ask::Mended(4));
    }
}
