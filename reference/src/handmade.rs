//! Sheets made by hand, on which a planner, a search or an assignment easily goes
//! wrong: all of them small, most of them in every variant.

use crate::gen::{Row, Shift};
use crate::worked::sheet_of;

/// All of them, as bytes.
pub fn sheets() -> Vec<Vec<u8>> {
    let shifts = shifts().into_iter();
    let shifts = shifts.map(|shift| sheet_of(shift.groomers, shift.slopes, &shift.turns));
    shifts.chain(naming_drivers()).collect()
}

/// Those that are accepted.
pub fn shifts() -> Vec<Shift> {
    let lists = [close(), tied(), sharing_drivers(), at_once(), one_a_slope()].concat();
    let shift = |turns| Shift {
        groomers: 3,
        slopes: 9,
        turns,
    };
    lists.into_iter().map(shift).collect()
}

/// Two turns on two slopes, of one groomer, of one driver and of neither, the
/// second up to 11 minutes after the first, in both orders.
fn close() -> Vec<Vec<Row>> {
    let mut lists = Vec::new();
    for (groomer, drivers) in [(1, [0, 0]), (2, [0, 0]), (2, [7, 7]), (2, [7, 8])] {
        for minutes in [0, 1, 8, 9, 10, 11] {
            let first = [1, 1, 100, 50, 70, drivers[0]];
            let second = [2, groomer, 150 + minutes, 40, 100, drivers[1]];
            lists.extend([vec![first, second], vec![second, first]]);
        }
    }
    lists
}

/// Turns that end in the same minute: the one of which the most remains comes
/// first, then the lowest number.
fn tied() -> Vec<Vec<Row>> {
    let mut lists = Vec::new();
    // One slope, one groomer, and nothing in common.
    for (slope, groomer) in [(1, 2), (2, 1), (2, 2)] {
        for worth in [49, 50, 51] {
            let other = [slope, groomer, 30, 30, worth, 0];
            lists.push(vec![[1, 1, 0, 60, 50, 0], other]);
        }
    }
    // A first step that takes 60 from the turn of greater worth, by its slope
    // or by its groomer: it is then the poorer one, the richer one or neither.
    for (slope, groomer) in [(1, 3), (4, 1)] {
        for worth in [50, 109, 110, 111] {
            let first = [1, 1, 0, 30, 60, 0];
            let (changed, other) = ([slope, groomer, 20, 70, worth, 0], [3, 2, 30, 60, 50, 0]);
            lists.extend([vec![first, changed, other], vec![other, changed, first]]);
        }
    }
    lists
}

/// Turns that conflict by driver, by driver and groomer, and by several ways
/// with several turns.
fn sharing_drivers() -> Vec<Vec<Row>> {
    vec![
        vec![[1, 1, 0, 60, 10, 3], [2, 1, 30, 60, 50, 3]],
        vec![[1, 1, 0, 60, 10, 3], [1, 2, 500, 60, 50, 3]],
        vec![[1, 1, 0, 60, 10, 3], [2, 2, 500, 60, 20, 3]],
        vec![[1, 1, 0, 60, 10, 3], [2, 2, 50, 10, 20, 3]],
        vec![[1, 1, 0, 1, 1, 1], [2, 1, 0, 1, 1, 0], [3, 2, 0, 1, 1, 1]],
    ]
}

/// Turns of which only the times matter: a groomer that is free again while a
/// lower one is not, equal starts, starts that fall, and many at once.
fn at_once() -> Vec<Vec<Row>> {
    let lists: [&[(u16, u16)]; 7] = [
        &[(0, 90), (10, 20), (20, 30), (100, 60), (101, 9), (110, 10)],
        &[(0, 90), (10, 20), (20, 60), (40, 10), (60, 10)],
        &[(0, 90), (10, 20), (20, 60), (39, 10), (59, 10)],
        &[(5, 900), (5, 1), (5, 30), (0, 2)],
        &[(900, 60), (800, 90), (700, 90), (600, 91), (500, 89)],
        &[(0, 960); 17],
        &[(959, 1); 3],
    ];
    let turn = |&(start, length): &(u16, u16)| [1, 1, start, length, 1, 0];
    let turns = |times: &[(u16, u16)]| times.iter().map(turn).collect();
    lists.map(turns).to_vec()
}

/// Starts, ends and worths of a groomer's turns, each on a slope of its own:
/// about ten minutes between, one against two, and equal worths.
fn one_a_slope() -> Vec<Vec<Row>> {
    let lists: [&[(u16, u16, u16)]; 14] = [
        &[(0, 10, 5), (20, 30, 6)],
        &[(0, 10, 5), (19, 30, 6)],
        &[(0, 10, 6), (19, 30, 5)],
        &[(0, 10, 5), (5, 25, 9), (20, 30, 5)],
        &[(0, 10, 5), (5, 25, 10), (20, 30, 5)],
        &[(20, 30, 5), (5, 25, 10), (0, 10, 5)],
        &[(0, 10, 5), (5, 25, 11), (20, 30, 5)],
        &[(0, 10, 5), (5, 20, 5)],
        &[(5, 20, 5), (0, 10, 5)],
        &[(0, 10, 5), (5, 10, 5)],
        &[(5, 10, 5), (0, 10, 5)],
        &[(0, 10, 5), (20, 30, 2), (31, 40, 2), (25, 60, 5)],
        &[(0, 40, 40), (0, 60, 100), (50, 60, 60)],
        &[(0, 40, 40), (50, 60, 60), (0, 60, 100)],
    ];
    let turns = |times: &[(u16, u16, u16)]| {
        let turn = |(&(start, end, worth), slope)| [slope, 1, start, end - start, worth, 0];
        times.iter().zip(1..).map(turn).collect()
    };
    lists.map(turns).to_vec()
}

/// Drivers named, left out and taken over, in the first record and later. Some
/// are refused.
fn naming_drivers() -> Vec<Vec<u8>> {
    let fields = [1, 1, 0, 0, 0, 1, 0, 1];
    let firsts: [(u8, &[u8]); 6] = [
        (0x1F, &[]),
        (0x3F, &[]),
        (0x3F, &[0]),
        (0x3F, &[1]),
        (0x3F, &[40]),
        (0x3F, &[41]),
    ];
    let laters: [&[u8]; 11] = [
        &[],
        &[0],
        &[0x20],
        &[0x20, 0],
        &[0x20, 1],
        &[0x20, 41],
        &[0x21, 3, 40],
        &[0x21, 4, 41],
        &[0x30, 0, 0, 41],
        &[0x60, 1],
        &[0xA0, 1],
    ];
    let mut sheets = Vec::new();
    for (map, driver) in firsts {
        for later in laters {
            let turns = if later.is_empty() { 1 } else { 2 };
            let head = [0x47, 0x52, 0x4D, 2, 3, 0, turns, map];
            sheets.push([&head, &fields[..], driver, later].concat());
        }
    }
    sheets
}
