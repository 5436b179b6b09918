//! A better choice than the planned one: the visits one by one, and brute
//! force on small sheets.

use crate::both::{improve, in_map, plan, read, sheet_of, sums};
use slopeboard_reference::gen::{self, Rng, Row};
use slopeboard_reference::naive::turns::{conflict, turns_of, Turn};
use slopeboard_reference::naive::{best_worth, Improved};
use slopeboard_reference::shapes;

/// What untouched bytes hold.
const KEPT: u8 = 0xA5;

/// What is found, and the numbers of the turns in the map.
fn set_of(sheet: &[u8], visits: u64) -> (Improved, Vec<usize>) {
    let turns = gen::turns_claimed(sheet);
    in_map(turns, |map| improve(sheet, visits, map).unwrap())
}

/// The planned board's worth, ceiling and turns.
fn planned(sheet: &[u8]) -> (u32, u32, Vec<usize>) {
    let mut board = [0; 1665];
    let len = plan(sheet, &mut board).unwrap();
    let sums = sums(sheet, &board[..len]).unwrap();
    let chosen = |turn: &usize| board[15 + turn / 8] >> (turn % 8) & 1 == 1;
    let chosen = (0..gen::turns_claimed(sheet)).filter(chosen).collect();
    (sums.worth, sums.ceiling, chosen)
}

const EXAMPLE: [Row; 4] = [
    [1, 1, 0, 60, 100, 0],
    [2, 1, 30, 60, 150, 0],
    [1, 2, 0, 120, 80, 0],
    [3, 2, 120, 60, 90, 0],
];

/// Turn 0 first, with it nothing but turn 3 fits: four visits, two sets. Then
/// without it; turns 1 and 2 fit together, 3 beside 1 alone.
#[test]
fn the_example_step_by_step() {
    let sheet = sheet_of(&EXAMPLE);
    assert_eq!(planned(&sheet), (240, 340, vec![1, 3]));
    let whole = set_of(&sheet, u64::MAX).0;
    assert_eq!((whole.worth, whole.above, whole.whole), (240, 100, true));
    // One visit of turn 0; two of turn 1 (with and without 0); of turn 2 one
    // for each set of the first two turns: {}, {0}, {1}; of turn 3 one for each
    // set of the first three: {}, {0}, {1}, {2}, {1, 2}.
    assert_eq!(whole.visits, 1 + 2 + 3 + 5);
    for visits in 0..14 {
        let (found, set) = set_of(&sheet, visits);
        assert_eq!(found.visits, visits.min(11));
        assert_eq!(found.whole, visits >= 11);
        assert_eq!((found.worth, found.above), (240, 100));
        assert_eq!(set, [1, 3]);
    }
}

#[test]
fn no_turns_take_no_visit() {
    for visits in [0, 1, u64::MAX] {
        let (found, set) = set_of(&sheet_of(&[]), visits);
        let none = Improved {
            worth: 0,
            above: 0,
            visits: 0,
            whole: true,
        };
        assert_eq!((found, set), (none, vec![]));
    }
}

#[test]
fn one_turn_takes_one_visit() {
    let sheet = sheet_of(&[[1, 1, 0, 1, 9, 0]]);
    for (visits, made, whole) in [(0, 0, false), (1, 1, true), (2, 1, true)] {
        let (found, set) = set_of(&sheet, visits);
        assert_eq!((found.visits, found.whole), (made, whole));
        assert_eq!((found.worth, found.above, set), (9, 0, vec![0]));
    }
}

/// The first set that the search comes to takes each turn that fits, after as
/// many visits as there are turns; it is compared though no visit is left.
#[test]
fn comparing_is_no_visit() {
    let mut rng = Rng::new(101);
    let mut better = 0;
    for _ in 0..4000 {
        let shift = shapes::small(&mut rng, 12);
        let turns = turns_of(&shift.turns.concat());
        let sheet = gen::encode(&mut rng, &shift, 0).bytes;
        let mut greedy: Vec<usize> = Vec::new();
        for turn in 0..turns.len() {
            if !greedy.iter().any(|&other| conflict(&turns, turn, other)) {
                greedy.push(turn);
            }
        }
        let worth: u32 = greedy.iter().map(|&turn| turns[turn].worth).sum();
        let (plan, ceiling, chosen) = planned(&sheet);
        let (found, set) = set_of(&sheet, turns.len() as u64);
        assert_eq!(found.worth, plan.max(worth));
        assert_eq!(found.above, ceiling - found.worth);
        assert_eq!(set, if worth > plan { greedy } else { chosen });
        better += u32::from(worth > plan);
        // With a visit less it is not reached.
        if !turns.is_empty() {
            let (found, set) = set_of(&sheet, turns.len() as u64 - 1);
            assert_eq!((found.worth, found.whole), (plan, false));
            assert_eq!(set, planned(&sheet).2);
        }
    }
    assert!(better > 50, "{better}");
}

/// The sets without a conflict among the first so many turns.
fn sets_of_first(turns: &[Turn], count: usize) -> u64 {
    let mut sets = 0;
    for set in 0..1u32 << count {
        let has = |turn: &usize| set >> turn & 1 == 1;
        let members: Vec<usize> = (0..count).filter(has).collect();
        let conflicts = |a: usize| members.iter().any(|&b| conflict(turns, a, b));
        sets += u64::from(!members.iter().any(|&a| conflicts(a)));
    }
    sets
}

/// The first set in the order of the search, which takes before it leaves, of
/// those that are worth the most.
fn first_best(turns: &[Turn]) -> (u32, Vec<usize>) {
    let (mut best, mut first) = (0, Vec::new());
    // A lower number of the mirrored set leaves an earlier turn out.
    for set in (0..1u32 << turns.len()).rev() {
        let has = |turn: &usize| set >> (turns.len() - 1 - turn) & 1 == 1;
        let members: Vec<usize> = (0..turns.len()).filter(has).collect();
        let conflicts = |a: usize| members.iter().any(|&b| conflict(turns, a, b));
        let worth = members.iter().map(|&turn| turns[turn].worth).sum();
        if worth > best && !members.iter().any(|&a| conflicts(a)) {
            (best, first) = (worth, members);
        }
    }
    (best, first)
}

#[test]
fn the_whole_search_finds_the_best() {
    let mut rng = Rng::new(102);
    let mut improved = 0;
    for round in 0..3000 {
        let shift = match round % 3 {
            0 => shapes::crossed(&mut rng, 5),
            _ => shapes::small(&mut rng, 10),
        };
        let turns = turns_of(&shift.turns.concat());
        let sheet = gen::encode(&mut rng, &shift, 0).bytes;
        let (plan, ceiling, chosen) = planned(&sheet);
        let (found, set) = set_of(&sheet, u64::MAX);
        let visits = (0..turns.len()).map(|count| sets_of_first(&turns, count));
        assert_eq!(found.visits, visits.sum::<u64>());
        assert!(found.whole);
        assert_eq!(found.worth, best_worth(&turns));
        assert_eq!(found.worth + found.above, ceiling);
        if found.worth > plan {
            assert_eq!((found.worth, set), first_best(&turns));
            improved += 1;
        } else {
            assert_eq!(set, chosen);
        }
    }
    assert!(improved > 100, "{improved}");
}

/// More visits never give less; the visits made and whether all were made go
/// by the limit alone.
#[test]
fn more_visits_never_give_less() {
    let mut rng = Rng::new(103);
    for round in 0..300 {
        let shift = match round % 2 {
            0 => shapes::crossed(&mut rng, 4),
            _ => shapes::small(&mut rng, 8),
        };
        let sheet = gen::encode(&mut rng, &shift, 0).bytes;
        let whole = set_of(&sheet, u64::MAX).0;
        let (plan, ceiling, _) = planned(&sheet);
        let mut before = plan;
        for visits in 0..=whole.visits + 1 {
            let found = set_of(&sheet, visits).0;
            assert!(found.worth >= before && found.worth <= whole.worth);
            assert_eq!(found.above, ceiling - found.worth);
            assert_eq!(found.visits, visits.min(whole.visits));
            assert_eq!(found.whole, visits >= whole.visits);
            before = found.worth;
        }
        assert_eq!(before, whole.worth);
    }
}

#[test]
fn refusals_in_their_order() {
    let turns: Vec<Row> = (0..65).map(|turn| [1, 1, turn, 5, 7, 0]).collect();
    let (most, more) = (sheet_of(&turns[..64]), sheet_of(&turns));
    let mut map = [KEPT; 9];
    assert!(improve(&most, 9, &mut map).is_ok());
    assert_eq!(map[8], KEPT);
    assert_eq!(improve(&most, 9, &mut [KEPT; 7]), Err(11));
    assert_eq!(improve(&most, 0, &mut []), Err(11));
    for lent in [0, 8, 9] {
        let mut map = vec![KEPT; lent];
        assert_eq!(improve(&more, 0, &mut map), Err(22));
        assert_eq!(improve(&more, u64::MAX, &mut map), Err(22));
        let longer = [&more[..], &[0]].concat();
        assert_eq!(improve(&longer, 1, &mut map), Err(10));
        assert_eq!(improve(&more[..more.len() - 1], 1, &mut map), Err(1));
        assert!(map.iter().all(|&byte| byte == KEPT));
    }
    let all = sheet_of(&vec![[1, 1, 0, 1, 1, 0]; 400]);
    assert_eq!(improve(&all, 1, &mut [KEPT; 50]), Err(22));
}

/// As many turns as there can be, with all sets on one slope, and with none
/// that conflict.
#[test]
fn the_most_turns() {
    let row = |turn: u16| [1, 1, 13 * turn, 5, 7 + turn, 0];
    let turns: Vec<Row> = (0..64).map(row).collect();
    let (found, set) = set_of(&sheet_of(&turns), u64::MAX);
    // Of turn k there is one visit for each of its forerunners, and one more.
    assert_eq!((found.visits, found.whole), (64 * 65 / 2, true));
    assert_eq!((found.worth, set), (70, vec![63]));
    let row = |turn: u16| [1 + turn, 1, 15 * turn, 5, 7 + turn, 0];
    let turns: Vec<Row> = (0..64).map(row).collect();
    let (found, set) = set_of(&sheet_of(&turns), 20_000);
    assert_eq!((found.visits, found.whole), (20_000, false));
    assert_eq!((found.above, set.len()), (0, 64));
}

#[test]
fn any_sheet_agrees() {
    let mut rng = Rng::new(104);
    let mut seen = [0; 23];
    for round in 0..4000 {
        let turns = rng.between(1, 12) as usize;
        let turns = if round % 5 == 0 { turns + 60 } else { turns };
        let shift = gen::shift(&mut rng, turns);
        let faults = rng.below(3);
        let sheet = gen::with_faults(&mut rng, &shift, faults);
        let mut map = vec![KEPT; rng.pick(&[0, 1, 2, 3, 8, 9])];
        let visits = rng.below(300).into();
        let number = improve(&sheet, visits, &mut map).err().unwrap_or(0);
        seen[usize::from(number)] += 1;
        let refused = read(&sheet, &mut [0; 2400]).err();
        assert!(refused.is_none_or(|refused| refused == number));
        assert!(refused.is_some() || [0, 11, 22].contains(&number));
    }
    for number in (0..=11).chain([19, 22]) {
        assert!(seen[number] > 10, "{number}: {seen:?}");
    }
}
