//! Groomers for all turns: the assignment word by word, and brute force on
//! small sheets that none uses fewer.

use crate::both::{assign, sheet_of};
use slopeboard_reference::gen::{self, Rng, Row};
use slopeboard_reference::naive::partition::{assigned, most_at_once, used};
use slopeboard_reference::naive::turns::{too_close, turns_of, Turn};
use slopeboard_reference::shapes;

/// What untouched places hold.
const KEPT: u16 = 0xA5A5;

/// Turns with these starts and lengths, all on one slope with one groomer.
fn turns_at(times: &[(u16, u16)]) -> Vec<Row> {
    let turns = times.iter();
    turns
        .map(|&(start, length)| [1, 1, start, length, 1, 0])
        .collect()
}

/// The sheet's groomers by turn, and how many there are.
fn groomers(sheet: &[u8]) -> (Vec<u16>, u16) {
    let mut places = [KEPT; 402];
    let count = assign(sheet, &mut places).unwrap();
    let turns = gen::turns_claimed(sheet);
    assert!(places[turns..].iter().all(|&place| place == KEPT));
    (places[..turns].to_vec(), count)
}

fn assert_groomers(times: &[(u16, u16)], expected: &[u16]) {
    let (places, count) = groomers(&sheet_of(&turns_at(times)));
    assert_eq!(places, expected, "{times:?}");
    assert_eq!(count, expected.iter().copied().max().unwrap_or(0));
}

#[test]
fn example_is_assigned() {
    let turns = [
        [1, 1, 0, 60, 100, 0],
        [2, 1, 30, 60, 150, 0],
        [1, 2, 0, 120, 80, 0],
        [3, 2, 120, 60, 90, 0],
    ];
    // By start and number: turns 0, 2, 1, 3.
    assert_eq!(groomers(&sheet_of(&turns)), (vec![1, 3, 2, 1], 3));
    let sorted = [turns[0], turns[2], turns[1], turns[3]];
    assert_eq!(groomers(&sheet_of(&sorted)), (vec![1, 2, 3, 1], 3));
}

#[test]
fn nine_minutes_are_too_few_and_ten_are_enough() {
    for minutes in 0..14 {
        let second = if minutes < 10 { 2 } else { 1 };
        assert_groomers(&[(0, 50), (50 + minutes, 1)], &[1, second]);
        assert_groomers(&[(50 + minutes, 1), (0, 50)], &[second, 1]);
    }
}

#[test]
fn the_smallest_number_that_is_free_is_taken() {
    // All three are free again at minute 100.
    let times = [(0, 90), (10, 20), (20, 30), (100, 60), (101, 9), (110, 10)];
    assert_groomers(&times, &[1, 2, 3, 1, 2, 3]);
    // Groomer 2 is free while 1 and 3 are not.
    let times = [(0, 90), (10, 20), (20, 60), (40, 10), (60, 10)];
    assert_groomers(&times, &[1, 2, 3, 2, 2]);
    assert_groomers(&[(0, 90), (10, 20), (20, 60), (39, 10)], &[1, 2, 3, 4]);
}

#[test]
fn one_start_goes_by_turn_number_and_not_by_length() {
    assert_groomers(&[(5, 900), (5, 1), (5, 30)], &[1, 2, 3]);
    assert_groomers(&[(5, 1), (5, 30), (0, 2), (5, 900)], &[2, 3, 1, 4]);
}

#[test]
fn no_turns_use_no_groomer() {
    let mut places = [KEPT; 2];
    assert_eq!(assign(b"GRM\x02\x03\0\0", &mut places), Ok(0));
    assert_eq!(places, [KEPT; 2]);
    assert_eq!(assign(b"GRM\x02\x03\0\0", &mut []), Ok(0));
}

#[test]
fn numbers_pass_sixteen() {
    let sheet = sheet_of(&[[1, 1, 0, 960, 1, 0]; 400]);
    let all: Vec<u16> = (1..=400).collect();
    assert_eq!(groomers(&sheet), (all, 400));
    let sheet = sheet_of(&[[1, 1, 7, 1, 1, 0]; 17]);
    assert_eq!(groomers(&sheet).1, 17);
}

#[test]
fn fewer_places_than_turns_are_refused_last() {
    let sheet = sheet_of(&turns_at(&[(0, 1), (0, 1), (20, 1)]));
    for places in 0..3 {
        let mut places = vec![KEPT; places];
        assert_eq!(assign(&sheet, &mut places), Err(11));
        assert!(places.iter().all(|&place| place == KEPT));
    }
    let mut places = [KEPT; 4];
    assert_eq!(assign(&sheet, &mut places), Ok(2));
    assert_eq!(places, [1, 2, 1, KEPT]);
    let longer = [&sheet[..], &[0]].concat();
    for (sheet, number) in [
        (&sheet[..sheet.len() - 1], 1),
        (&longer, 10),
        (b"GRB\x02\x03\0\0", 2),
        (b"GRM\x02\x03\x01\x91", 4),
        (b"GRM\x02\x03\x01\x90", 1),
    ] {
        for lent in [0, 3, 4] {
            let mut places = vec![KEPT; lent];
            assert_eq!(assign(sheet, &mut places), Err(number));
            assert!(places.iter().all(|&place| place == KEPT));
        }
    }
}

#[test]
fn slopes_groomers_worths_and_drivers_do_not_count() {
    let mut rng = Rng::new(51);
    for round in 0..400 {
        let mut shift = shapes::shift(&mut rng, round % shapes::SHAPES, 30);
        let before = groomers(&sheet_of(&shift.turns));
        for turn in &mut shift.turns {
            turn[0] = rng.between(1, 120) as u16;
            turn[1] = rng.between(1, 16) as u16;
            turn[4] = rng.between(1, 60_000) as u16;
            turn[5] = rng.below(41) as u16;
        }
        assert_eq!(groomers(&sheet_of(&shift.turns)), before);
    }
}

/// Whether no groomer has two turns with fewer than ten minutes between.
fn is_allowed(turns: &[Turn], groomers: &[u16]) -> bool {
    let numbers = || 0..turns.len();
    let bad = |a: usize, b: usize| {
        a != b && groomers[a] == groomers[b] && too_close(&turns[a], &turns[b])
    };
    !numbers().any(|a| numbers().any(|b| bad(a, b)))
}

/// Whether so many groomers are enough, tried with every assignment.
fn are_enough(turns: &[Turn], count: u16) -> bool {
    let assignments = u32::from(count).pow(turns.len() as u32);
    (0..assignments).any(|assignment| {
        let groomer = |turn| assignment / u32::from(count).pow(turn) % u32::from(count);
        let groomers: Vec<u16> = (0..turns.len() as u32)
            .map(|turn| groomer(turn) as u16)
            .collect();
        is_allowed(turns, &groomers)
    })
}

#[test]
fn no_assignment_uses_fewer() {
    let mut rng = Rng::new(52);
    let mut seen = [0; 8];
    for _ in 0..1200 {
        let longest = rng.pick(&[2, 10, 25]);
        let times: Vec<(u16, u16)> = (0..rng.between(1, 6))
            .map(|_| (rng.below(40) as u16, rng.between(1, longest) as u16))
            .collect();
        let rows = turns_at(&times);
        let turns = turns_of(&rows.concat());
        let (places, count) = groomers(&sheet_of(&rows));
        assert!(is_allowed(&turns, &places), "{times:?}");
        assert_eq!(used(&places), count);
        assert_eq!(most_at_once(&turns), count);
        assert!(are_enough(&turns, count) && !are_enough(&turns, count - 1));
        seen[usize::from(count)] += 1;
    }
    assert!(seen[1..7].iter().all(|&count| count > 10), "{seen:?}");
}

#[test]
fn assignments_of_all_sizes_agree() {
    let mut rng = Rng::new(53);
    for round in 0..1500 {
        let turns = match round % 100 {
            0 => 400,
            1..=5 => rng.between(40, 300),
            _ => rng.below(40),
        };
        let shift = if round % 3 == 0 {
            gen::shift(&mut rng, turns as usize)
        } else {
            shapes::shift(&mut rng, round % shapes::SHAPES, turns as usize)
        };
        let sheet = gen::encode(&mut rng, &shift, 10).bytes;
        let turns = turns_of(&shift.turns.concat());
        let (places, count) = groomers(&sheet);
        assert_eq!(places, assigned(&turns));
        assert!(is_allowed(&turns, &places));
        assert_eq!(most_at_once(&turns), count);
        // Every number up to the count is used.
        assert!((1..=count).all(|groomer| places.contains(&groomer)));
        let short = shift.turns.len().saturating_sub(1);
        let refused = assign(&sheet, &mut vec![KEPT; short]);
        assert!(shift.turns.is_empty() || refused == Err(11));
    }
}

#[test]
fn refused_sheets_agree() {
    let mut rng = Rng::new(54);
    let mut refused = 0;
    for _ in 0..3000 {
        let turns = rng.between(1, 12) as usize;
        let shift = gen::shift(&mut rng, turns);
        let faults = rng.between(1, 3);
        let sheet = gen::with_faults(&mut rng, &shift, faults);
        let number = crate::both::read(&sheet, &mut [0; 2400]).err();
        let mut places = vec![KEPT; 402];
        assert_eq!(assign(&sheet, &mut places).err(), number);
        assert!(number.is_none() || places.iter().all(|&place| place == KEPT));
        refused += u32::from(number.is_some());
    }
    assert!(refused > 1000, "{refused}");
}
