//! The best worth where no slope has two turns and no turn names a driver:
//! brute force, and the planned board beside it.

use crate::both::{best, check, in_map, plan, read, sheet_of};
use slopeboard_reference::gen::{self, Rng, Row, Shift};
use slopeboard_reference::naive::best::by_end;
use slopeboard_reference::naive::best_worth;
use slopeboard_reference::naive::turns::{conflict, turns_of, Turn};
use slopeboard_reference::shapes;

/// Turns of one groomer with these starts, ends and worths, on slopes 1, 2, ..
fn turns_at(times: &[(u16, u16, u16)]) -> Vec<Row> {
    let turn = |(&(start, end, worth), slope)| [slope, 1, start, end - start, worth, 0];
    times.iter().zip(1..).map(turn).collect()
}

/// The worth and the numbers of the turns in the map.
fn set_of(sheet: &[u8]) -> (u32, Vec<usize>) {
    let turns = gen::turns_claimed(sheet);
    in_map(turns, |map| best(sheet, map).unwrap())
}

fn assert_set(times: &[(u16, u16, u16)], worth: u32, set: &[usize]) {
    let sheet = sheet_of(&turns_at(times));
    assert_eq!(set_of(&sheet), (worth, set.to_vec()), "{times:?}");
}

#[test]
fn named_sets() {
    assert_set(&[], 0, &[]);
    assert_set(&[(0, 10, 5)], 5, &[0]);
    // Ten minutes between are enough, nine are not.
    assert_set(&[(0, 10, 5), (20, 30, 6)], 11, &[0, 1]);
    assert_set(&[(0, 10, 5), (19, 30, 6)], 6, &[1]);
    assert_set(&[(0, 10, 6), (19, 30, 5)], 6, &[0]);
    // The one in the middle against both beside it.
    assert_set(&[(0, 10, 5), (5, 25, 9), (20, 30, 5)], 10, &[0, 2]);
    assert_set(&[(0, 10, 5), (5, 25, 11), (20, 30, 5)], 11, &[1]);
    // A late turn that leaves only the first of three.
    assert_set(
        &[(0, 10, 5), (20, 30, 2), (31, 40, 2), (25, 60, 5)],
        10,
        &[0, 3],
    );
}

#[test]
fn on_equal_worth_the_later_end_is_left_out() {
    assert_set(&[(0, 10, 5), (5, 20, 5)], 5, &[0]);
    assert_set(&[(5, 20, 5), (0, 10, 5)], 5, &[1]);
    // One end: the lower number is taken, whichever starts first.
    assert_set(&[(0, 10, 5), (5, 10, 5)], 5, &[0]);
    assert_set(&[(5, 10, 5), (0, 10, 5)], 5, &[0]);
    // The middle one is worth as much as both beside it and ends before the
    // last; the last is left out.
    assert_set(&[(0, 10, 5), (5, 25, 10), (20, 30, 5)], 10, &[1]);
    assert_set(&[(20, 30, 5), (5, 25, 10), (0, 10, 5)], 10, &[1]);
}

#[test]
fn each_groomer_has_its_own_table() {
    let rows = [
        [1, 2, 0, 10, 5, 0],
        [2, 1, 0, 10, 7, 0],
        [3, 2, 5, 10, 6, 0],
        [4, 16, 0, 960, 60_000, 0],
        [5, 1, 25, 5, 8, 0],
        [6, 1, 15, 5, 9, 0],
    ];
    assert_eq!(set_of(&sheet_of(&rows)), (60_021, vec![1, 2, 3, 4]));
}

#[test]
fn refusals() {
    let simple = [[1, 1, 0, 10, 5, 0], [2, 1, 20, 10, 6, 0]];
    let mut map = [0xA5; 2];
    assert_eq!(best(&sheet_of(&simple), &mut map), Ok(11));
    assert_eq!(map, [0b11, 0xA5]);
    assert_eq!(best(&sheet_of(&simple), &mut []), Err(11));
    assert_eq!(best(&sheet_of(&[]), &mut []), Ok(0));
    // 21 comes after the sheet's own refusals and before 11.
    let mut repeated = simple;
    repeated[1][0] = 1;
    let mut named = simple;
    named[1][5] = 1;
    for rows in [repeated, named] {
        for lent in 0..3 {
            let mut map = vec![0xA5; lent];
            assert_eq!(best(&sheet_of(&rows), &mut map), Err(21));
            assert!(map.iter().all(|&byte| byte == 0xA5));
            let mut longer = sheet_of(&rows);
            longer.push(0);
            assert_eq!(best(&longer, &mut map), Err(10));
            longer.truncate(longer.len() - 2);
            assert_eq!(best(&longer, &mut map), Err(1));
        }
    }
    // Driver 0 in the first record is none.
    let sheet = [
        0x47, 0x52, 0x4D, 1, 1, 0, 1, 0x3F, 1, 1, 0, 0, 0, 1, 0, 9, 0,
    ];
    assert_eq!(best(&sheet, &mut map), Ok(9));
    // The most turns take 15 bytes.
    let rows: Vec<Row> = (1..=120).map(|slope| [slope, 1, 0, 1, slope, 0]).collect();
    assert_eq!(best(&sheet_of(&rows), &mut [0; 14]), Err(11));
    let mut map = [0xA5; 16];
    assert_eq!(best(&sheet_of(&rows), &mut map), Ok(120));
    assert_eq!(map[13..], [0, 0x80, 0xA5]);
}

fn simple_shift(rng: &mut Rng, shape: u32, turns: usize) -> Shift {
    let shift = shapes::shift(rng, shape, turns);
    shapes::simple(rng, &shift)
}

/// Whether the turns get along and are worth so much.
fn assert_earned(turns: &[Turn], set: &[usize], worth: u32) {
    for &a in set {
        assert!(set.iter().all(|&b| !conflict(turns, a, b)));
    }
    let earned: u32 = set.iter().map(|&turn| turns[turn].worth).sum();
    assert_eq!(earned, worth);
}

/// The worth is that of the planned board and its tally. So is the map: a step
/// is made for a turn just where the table gains by it, for as much as it
/// gains, and both go back from the last.
fn assert_as_planned(sheet: &[u8], worth: u32, set: &[usize]) {
    let mut board = [0; 15 + 15 + 480];
    let len = plan(sheet, &mut board).unwrap();
    let board = &board[..len];
    assert_eq!(check(sheet, board), Ok((worth, worth)));
    let chosen = |turn: &usize| board[15 + turn / 8] >> (turn % 8) & 1 == 1;
    let chosen: Vec<usize> = (0..gen::turns_claimed(sheet)).filter(chosen).collect();
    assert_eq!(chosen, set);
}

#[test]
fn no_set_is_worth_more() {
    let mut rng = Rng::new(91);
    let mut ties = 0;
    for _ in 0..4000 {
        let small = shapes::small(&mut rng, 11);
        let shift = shapes::simple(&mut rng, &small);
        let sheet = gen::encode(&mut rng, &shift, 20).bytes;
        let turns = turns_of(&shift.turns.concat());
        let (worth, set) = set_of(&sheet);
        assert_eq!(worth, best_worth(&turns));
        assert_earned(&turns, &set, worth);
        assert_as_planned(&sheet, worth, &set);
        ties += u32::from(best_sets(&turns, worth) > 1);
    }
    assert!(ties > 500, "{ties}");
}

/// How many sets without a conflict are worth so much.
fn best_sets(turns: &[Turn], worth: u32) -> u32 {
    let mut count = 0;
    for set in 0..1u32 << turns.len() {
        let members: Vec<usize> = (0..turns.len())
            .filter(|turn| set >> turn & 1 == 1)
            .collect();
        let sum: u32 = members.iter().map(|&turn| turns[turn].worth).sum();
        let conflicts = |a: usize| members.iter().any(|&b| conflict(turns, a, b));
        count += u32::from(sum == worth && !members.iter().any(|&a| conflicts(a)));
    }
    count
}

#[test]
fn sheets_of_all_sizes_are_as_planned() {
    let mut rng = Rng::new(92);
    for round in 0..3000 {
        let turns = rng.below(if round % 10 == 0 { 121 } else { 40 }) as usize;
        let shift = simple_shift(&mut rng, round % shapes::SHAPES, turns);
        let sheet = gen::encode(&mut rng, &shift, 10).bytes;
        let turns = turns_of(&shift.turns.concat());
        let (worth, set) = set_of(&sheet);
        assert_earned(&turns, &set, worth);
        assert_as_planned(&sheet, worth, &set);
        let mut short = vec![0xA5; shift.turns.len().div_ceil(8).saturating_sub(1)];
        let refused = best(&sheet, &mut short);
        assert!(shift.turns.is_empty() || refused == Err(11));
        assert!(short.iter().all(|&byte| byte == 0xA5));
    }
}

#[test]
fn any_sheet_agrees() {
    let mut rng = Rng::new(93);
    let mut seen = [0; 22];
    for round in 0..4000 {
        let turns = rng.between(1, 12) as usize;
        let shift = match round % 3 {
            0 => gen::shift(&mut rng, turns),
            _ => simple_shift(&mut rng, round % shapes::SHAPES, turns),
        };
        let faults = rng.below(3);
        let sheet = gen::with_faults(&mut rng, &shift, faults);
        let mut map = vec![0xA5; rng.below(4) as usize];
        let number = best(&sheet, &mut map).err().unwrap_or(0);
        seen[usize::from(number)] += 1;
        let refused = read(&sheet, &mut [0; 2400]).err();
        assert!(refused.is_none_or(|refused| refused == number));
        assert!(refused.is_some() || [0, 11, 21].contains(&number));
    }
    for number in (0..=11).chain([19, 21]) {
        assert!(seen[number] > 10, "{number}: {seen:?}");
    }
}

#[test]
fn a_round_goes_by_end_and_number() {
    let rows = [
        [1, 1, 50, 10, 1, 0],
        [2, 1, 0, 60, 1, 0],
        [3, 2, 0, 1, 1, 0],
        [4, 1, 0, 59, 1, 0],
    ];
    let turns = turns_of(&rows.concat());
    assert_eq!(by_end(&turns, 1), [3, 0, 1]);
    assert_eq!(by_end(&turns, 2), [2]);
    assert_eq!(by_end(&turns, 3), [0; 0]);
}
