//! Drivers: on the sheet, in the planner and the check, and what is left of the
//! bounds on a sheet that names any.

use crate::both::{assign, check, listing, planned, read, sheet_of, write};
use slopeboard_reference::boards::{self, Draft};
use slopeboard_reference::gen::{self, Rng, Row, Shift};
use slopeboard_reference::naive::planning::touched;
use slopeboard_reference::naive::turns::{conflict, turns_of};
use slopeboard_reference::naive::{any_driver, best_worth, one_turn_a_slope};
use slopeboard_reference::shapes;

/// What untouched places hold.
const KEPT: u16 = 0xA5A5;

/// The turns' drivers as the reader has them, or its refusal.
fn drivers_of(sheet: &[u8]) -> Result<Vec<u16>, u8> {
    let mut table = [KEPT; 60];
    match read(sheet, &mut table) {
        Ok(counts) => {
            let rows = table.chunks(6).take(counts.turns as usize);
            Ok(rows.map(|row| row[5]).collect())
        }
        Err(number) => {
            assert_eq!(table, [KEPT; 60]);
            Err(number)
        }
    }
}

/// A sheet of so many turns whose records are these bytes.
fn records(turns: u8, bytes: &[&[u8]]) -> Vec<u8> {
    [&[0x47, 0x52, 0x4D, 2, 3, 0, turns], &bytes.concat()[..]].concat()
}

/// The fields of a good record before its driver.
const NUMBERS_PER_TURN: [u8; 8] = [1, 1, 0, 0, 0, 1, 0, 1];

#[test]
fn drivers_are_read() {
    let one =
        |map: u8, driver: &[u8]| drivers_of(&records(1, &[&[map], &NUMBERS_PER_TURN, driver]));
    assert_eq!(one(0x1F, &[]), Ok(vec![0]));
    assert_eq!(one(0x3F, &[0]), Ok(vec![0]));
    assert_eq!(one(0x3F, &[1]), Ok(vec![1]));
    assert_eq!(one(0x3F, &[40]), Ok(vec![40]));
    assert_eq!(one(0x3F, &[41]), Err(19));
    assert_eq!(one(0x3F, &[255]), Err(19));
    assert_eq!(one(0x3F, &[]), Err(1));
    assert_eq!(one(0x1F, &[1]), Err(10));
    for map in (0..=255).filter(|map| ![0x1F, 0x3F].contains(map)) {
        assert_eq!(one(map, &[1]), Err(5), "{map:02x}");
    }
}

#[test]
fn later_records_keep_or_change_the_driver() {
    let after =
        |first: &[u8], map: u8, more: &[u8]| drivers_of(&records(2, &[first, &[map], more]));
    let named = [&[0x3F][..], &NUMBERS_PER_TURN, &[7]].concat();
    let unnamed = [&[0x1F][..], &NUMBERS_PER_TURN].concat();
    assert_eq!(after(&named, 0, &[]), Ok(vec![7, 7]));
    assert_eq!(after(&named, 0x1F, &NUMBERS_PER_TURN), Ok(vec![7, 7]));
    assert_eq!(after(&named, 0x20, &[7]), Ok(vec![7, 7]));
    assert_eq!(after(&named, 0x20, &[0]), Ok(vec![7, 0]));
    assert_eq!(after(&unnamed, 0x20, &[9]), Ok(vec![0, 9]));
    assert_eq!(after(&unnamed, 0, &[]), Ok(vec![0, 0]));
    assert_eq!(after(&unnamed, 0x20, &[41]), Err(19));
    assert_eq!(after(&unnamed, 0x20, &[]), Err(1));
    assert_eq!(after(&unnamed, 0x20, &[1, 1]), Err(10));
    for map in 0x40..=0xFF {
        assert_eq!(after(&unnamed, map, &[1]), Err(5), "{map:02x}");
    }
    // The driver stands behind all other fields.
    assert_eq!(after(&named, 0x21, &[3, 2]), Ok(vec![7, 2]));
    assert_eq!(after(&named, 0x21, &[4, 2]), Err(6));
    assert_eq!(after(&named, 0x30, &[0, 1, 2]), Ok(vec![7, 2]));
    // A first map of 3F alone does not make up for what else is missing.
    assert_eq!(after(&unnamed, 0x3F, &NUMBERS_PER_TURN), Err(1));
}

#[test]
fn nineteen_comes_after_nine_and_before_the_next_record() {
    let bad = |fields: [u8; 9], next: &[u8]| {
        let turns = 1 + u8::from(!next.is_empty());
        drivers_of(&records(turns, &[&[0x3F], &fields, next]))
    };
    assert_eq!(bad([4, 3, 0, 0, 0, 0, 0, 0, 41], &[]), Err(6));
    assert_eq!(bad([3, 3, 0, 0, 0, 0, 0, 0, 41], &[]), Err(7));
    assert_eq!(bad([3, 2, 0, 0, 0, 0, 0, 0, 41], &[]), Err(8));
    assert_eq!(bad([3, 2, 0, 0, 0, 1, 0, 0, 41], &[]), Err(9));
    assert_eq!(bad([3, 2, 0, 0, 0, 1, 0, 1, 41], &[]), Err(19));
    assert_eq!(bad([3, 2, 0, 0, 0, 1, 0, 1, 41], &[0x40]), Err(19));
    assert_eq!(bad([3, 2, 0, 0, 0, 1, 0, 1, 40], &[0x40]), Err(5));
    // The driver that the record before had is judged there, not again.
    assert_eq!(bad([3, 2, 0, 0, 0, 1, 0, 1, 40], &[1, 0]), Err(6));
}

fn written(turns: &[Row]) -> Vec<u8> {
    let mut out = [0xA5; 200];
    let len = write(16, 120, &turns.concat(), &mut out).unwrap();
    out[..len].to_vec()
}

#[test]
fn drivers_are_written() {
    let turn = [1, 1, 0, 1, 1];
    let with = |driver: u16| [turn[0], turn[1], turn[2], turn[3], turn[4], driver];
    // The first map has the driver's bit only if there is a driver.
    assert_eq!(written(&[with(0)])[7], 0x1F);
    assert_eq!(written(&[with(0)]).len(), 7 + 9);
    assert_eq!(written(&[with(1)])[7], 0x3F);
    assert_eq!(written(&[with(1)]).len(), 7 + 10);
    // The least driver first; a driver that stays is not written again.
    let sheet = written(&[with(40), with(0), with(7), with(7)]);
    let expected = records(4, &[&[0x1F], &NUMBERS_PER_TURN, &[0x20, 7, 0, 0x20, 40]]);
    assert_eq!(sheet[5..], expected[5..]);
    // Back to no driver.
    let sheet = written(&[with(3), [2, 1, 0, 1, 1, 0]]);
    let expected = records(2, &[&[0x3F], &NUMBERS_PER_TURN, &[3, 0x21, 2, 0]]);
    assert_eq!(sheet[5..], expected[5..]);
    for driver in [41, 255, 256, 296, 65_535] {
        assert_eq!(write(1, 1, &with(driver), &mut [0; 20]), Err(19));
        assert_eq!(write(1, 1, &with(driver), &mut []), Err(19));
    }
    assert_eq!(write(1, 1, &with(40), &mut [0; 16]), Err(11));
    assert_eq!(write(1, 1, &with(40), &mut [0; 17]), Ok(17));
    for len in [1, 2, 3, 4, 5, 7, 10, 11, 13] {
        assert_eq!(write(1, 1, &vec![1; len], &mut [0; 40]), Err(18));
    }
}

#[test]
fn the_longest_sheet_is_read_and_written() {
    // Each turn differs from the one before in every field.
    let mut turns = vec![];
    for turn in 0..400 {
        let odd = turn % 2;
        turns.push([1 + odd, 1 + odd, odd, 1 + odd, 1 + odd, odd + 1]);
    }
    let mut rng = Rng::new(0);
    let shift = Shift {
        groomers: 2,
        slopes: 2,
        turns,
    };
    let sheet = gen::encode(&mut rng, &shift, 0).bytes;
    assert_eq!(sheet.len(), 7 + 10 * 400);
    let mut table = [0; 2400];
    assert_eq!(read(&sheet, &mut table).map(|counts| counts.turns), Ok(400));
    assert_eq!(table[..], shift.turns.concat());
    assert_eq!(read(&sheet, &mut table[..2399]), Err(11));
}

/// Two turns of two groomers on two slopes, the second so many minutes after
/// the first.
fn apart(minutes: u16, drivers: [u16; 2]) -> [Row; 2] {
    [
        [1, 1, 100, 50, 70, drivers[0]],
        [2, 2, 150 + minutes, 40, 100, drivers[1]],
    ]
}

#[test]
fn a_driver_needs_ten_minutes_as_a_groomer_does() {
    for minutes in 0..30 {
        for (drivers, close) in [
            ([5, 5], minutes < 10),
            ([40, 40], minutes < 10),
            ([0, 0], false),
            ([5, 6], false),
            ([5, 0], false),
            ([0, 5], false),
        ] {
            let [first, second] = apart(minutes, drivers);
            for rows in [[first, second], [second, first]] {
                let turns = turns_of(&rows.concat());
                assert_eq!(conflict(&turns, 0, 1), close, "{minutes} {drivers:?}");
                assert_eq!(conflict(&turns, 1, 0), close);
                assert_eq!(best_worth(&turns), if close { 100 } else { 170 });
                let later = u16::from(rows[0] == first);
                let (steps, chosen) = if close {
                    let chosen = [later == 0, later == 1];
                    (vec![(1 - later, 70), (later, 30)], chosen)
                } else {
                    (vec![(1 - later, 70), (later, 100)], [true; 2])
                };
                let board = Draft::new(&rows, chosen.to_vec(), steps);
                assert_eq!(planned(&sheet_of(&rows)), board.bytes());
                let other = [!chosen[0], !chosen[1]];
                let other = if close { [true; 2] } else { other };
                let board = Draft::new(&rows, other.to_vec(), board.steps);
                let number = if close { 13 } else { 14 };
                assert_eq!(check(&sheet_of(&rows), &board.bytes()), Err(number));
            }
        }
    }
}

#[test]
fn a_step_takes_from_the_drivers_turns_once() {
    let rows = [
        [1, 1, 0, 60, 10, 3],
        // Of the groomer and the driver; of the driver; of neither.
        [2, 1, 30, 60, 50, 3],
        [3, 2, 69, 20, 50, 3],
        [4, 2, 70, 20, 50, 3],
        [5, 3, 30, 60, 50, 0],
        [6, 3, 30, 60, 50, 4],
        // Of the slope and the driver, late in the day.
        [1, 4, 900, 60, 50, 3],
    ];
    let turns = turns_of(&rows.concat());
    let left = [10, 50, 50, 50, 50, 50, 50];
    assert_eq!(touched(&turns, &left, 0), [0, 1, 2, 6]);
    assert_eq!(touched(&turns, &[10, 50, 0, 50, 50, 50, -1], 0), [0, 1]);
    let steps = planned(&sheet_of(&rows));
    let steps = &steps[16..];
    // Turn 0 takes 10; of the turns that end at 89 and 90, turn 2 is next.
    assert_eq!(steps[..8], [0, 0, 0, 10, 0, 2, 0, 40]);
}

#[test]
fn a_step_is_right_if_the_driver_has_no_earlier_end_open() {
    // The driver's other turn ends earlier, at any distance, on another
    // groomer.
    let mut rows = [[1, 1, 0, 60, 10, 3], [2, 2, 500, 60, 20, 3]];
    let steps = [vec![(0, 10), (1, 20)], vec![(1, 20), (0, 10)]];
    let answers = |rows: &[Row; 2]| {
        steps.clone().map(|steps| {
            let board = Draft::new(rows, vec![true; 2], steps);
            check(&sheet_of(rows), &board.bytes())
        })
    };
    assert_eq!(answers(&rows), [Ok((30, 30)), Err(15)]);
    for other in [0, 4] {
        rows[1][5] = other;
        assert_eq!(answers(&rows), [Ok((30, 30)), Ok((30, 30))]);
    }
    // 0 and 0 are no driver in common.
    rows[0][5] = 0;
    rows[1][5] = 0;
    assert_eq!(answers(&rows), [Ok((30, 30)), Ok((30, 30))]);
    // Equal ends go in any order.
    let rows = [[1, 1, 0, 60, 10, 3], [2, 2, 50, 10, 20, 3]];
    let board = |steps: Vec<(u16, u16)>| {
        let chosen = vec![false, true];
        check(&sheet_of(&rows), &Draft::new(&rows, chosen, steps).bytes())
    };
    assert_eq!(board(vec![(1, 20)]), Ok((20, 20)));
    assert_eq!(board(vec![(0, 10), (1, 10)]), Ok((20, 20)));
}

#[test]
fn listings_and_assignments_know_no_drivers() {
    let rows = [[1, 1, 0, 60, 10, 3], [2, 2, 500, 60, 20, 3]];
    let mut text = [0; 500];
    let len = listing(&sheet_of(&rows), &mut text).unwrap();
    let text = std::str::from_utf8(&text[..len]).unwrap();
    assert!(text.starts_with("groomer 1\n0-60 slope 1 worth 10\ngroomer 2\n500-560 slope 2 worth"));
    let mut rng = Rng::new(61);
    for round in 0..200 {
        let mut shift = shapes::shift(&mut rng, round % shapes::SHAPES, 20);
        let mut groomers = [[KEPT; 20]; 2];
        let first = assign(&sheet_of(&shift.turns), &mut groomers[0]);
        for turn in &mut shift.turns {
            turn[5] = rng.below(41) as u16;
        }
        assert_eq!(assign(&sheet_of(&shift.turns), &mut groomers[1]), first);
        assert_eq!(groomers[0], groomers[1]);
    }
}

/// The planned board's tally and worth, and the most that a set is worth.
fn sums(rows: &[Row]) -> (u32, u32, u32) {
    let sheet = sheet_of(rows);
    let (tally, worth) = check(&sheet, &planned(&sheet)).unwrap();
    (tally, worth, best_worth(&turns_of(&rows.concat())))
}

/// The first sheet of which this holds. All turns have the same minute and the
/// same worth, up to three slopes and groomers, and driver 1 or none; fewer
/// turns come first, then the lower values of the first turn, and so on.
fn first_sheet(holds: impl Fn(&[Row]) -> bool) -> Vec<Row> {
    let turn = |kind: u16| [1 + kind / 6, 1 + kind / 2 % 3, 0, 1, 1, kind % 2];
    for turns in 1..5 {
        for number in 0..18u32.pow(turns) {
            let kind = |place: u32| (number / 18u32.pow(turns - 1 - place) % 18) as u16;
            let rows: Vec<Row> = (0..turns).map(|place| turn(kind(place))).collect();
            if holds(&rows) {
                return rows;
            }
        }
    }
    panic!("there is no such sheet");
}

/// A set can be worth over twice the tally: here the turns that conflict with
/// turn 0 by slope, by groomer and by driver, three times the tally.
#[test]
fn twice_the_tally_is_no_bound_with_drivers() {
    let over_twice = |rows: &[Row]| {
        let (tally, _, best) = sums(rows);
        best > 2 * tally
    };
    assert_eq!(first_sheet(over_twice), OVER_TWICE);
    assert_eq!(sums(&OVER_TWICE), (1, 1, 3));
    let unnamed = OVER_TWICE.map(|[a, b, c, d, e, _]| [a, b, c, d, e, 0]);
    assert!(!over_twice(&unnamed));
}

/// A set can be worth more than the board though no slope has two turns: here
/// the turns that conflict with the chosen one by groomer and by driver.
#[test]
fn the_boards_worth_is_no_bound_with_drivers() {
    let above_the_board = |rows: &[Row]| {
        let (_, worth, best) = sums(rows);
        one_turn_a_slope(&turns_of(&rows.concat())) && best > worth
    };
    assert_eq!(first_sheet(above_the_board), ABOVE_THE_BOARD);
    assert_eq!(sums(&ABOVE_THE_BOARD), (1, 1, 2));
    let unnamed = ABOVE_THE_BOARD.map(|[a, b, c, d, e, _]| [a, b, c, d, e, 0]);
    assert!(!above_the_board(&unnamed));
}

const OVER_TWICE: [Row; 4] = [
    [1, 1, 0, 1, 1, 1],
    [1, 2, 0, 1, 1, 0],
    [2, 1, 0, 1, 1, 0],
    [3, 3, 0, 1, 1, 1],
];

const ABOVE_THE_BOARD: [Row; 3] = [[1, 1, 0, 1, 1, 1], [2, 1, 0, 1, 1, 0], [3, 2, 0, 1, 1, 1]];

/// Every set of small sheets with drivers, against every kind of board that
/// passes: three times the tally; twice, where no slope comes again.
#[test]
fn three_times_the_tally_bounds_every_set() {
    let mut rng = Rng::new(62);
    // How often the bounds of sheets without drivers are passed, and how often
    // three times the tally is reached.
    let (mut over_twice, mut above_the_board, mut thrice) = (0, 0, 0);
    for round in 0..6000 {
        let mut shift = match round % 3 {
            0 => shapes::small(&mut rng, 9),
            _ => shapes::crossed(&mut rng, 5),
        };
        if round % 2 == 0 {
            shift = shapes::one_turn_a_slope(&shift);
        }
        let turns = turns_of(&shift.turns.concat());
        if !any_driver(&turns) {
            continue;
        }
        let sheet = gen::encode(&mut rng, &shift, 20).bytes;
        let best = best_worth(&turns);
        let mut boards = vec![planned(&sheet)];
        for _ in 0..4 {
            boards.push(boards::right(&mut rng, &shift.turns).bytes());
            boards.push(boards::full(&mut rng, &shift.turns).bytes());
        }
        for board in boards {
            let Ok((tally, worth)) = check(&sheet, &board) else {
                continue;
            };
            assert!(tally <= worth && worth <= best);
            if one_turn_a_slope(&turns) {
                assert!(best <= 2 * tally, "{:?}", shift.turns);
                above_the_board += u32::from(best > worth);
            } else {
                assert!(best <= 3 * tally, "{:?}", shift.turns);
                over_twice += u32::from(best > 2 * tally);
                thrice += u32::from(best == 3 * tally);
            }
        }
    }
    let seen = [over_twice, above_the_board, thrice];
    assert!(seen.iter().all(|&count| count > 500), "{seen:?}");
}
