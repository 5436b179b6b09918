//! The sheets on which planning and listing are compared, and what must occur
//! in them.

use slopeboard_reference::gen::{self, Rng, Shift};
use slopeboard_reference::naive::turns::{same_driver, Turn};
use slopeboard_reference::{handmade, shapes};

use crate::report::Report;

/// Hands every sheet to the function: about half of them accepted ones.
pub fn each(rng: &mut Rng, mut run: impl FnMut(&mut Rng, &[u8])) {
    shaped(rng, &mut run);
    refused(rng, &mut run);
    edges(rng, &mut run);
}

/// Notes whether a groomer has turns just as many minutes apart as it needs
/// to drive over, or a minute less or more; the same for a driver who has them
/// on two groomers.
pub fn note_minutes_apart(report: &mut Report, turns: &[Turn]) {
    let apart = |minutes: u32, alike: fn(&Turn, &Turn) -> bool| {
        let after = |a: &Turn, b: &Turn| alike(a, b) && a.start == b.end() + minutes;
        turns.iter().any(|a| turns.iter().any(|b| after(a, b)))
    };
    for (minutes, name) in [
        (0, "a groomer's turns 0 minutes apart"),
        (9, "a groomer's turns 9 minutes apart"),
        (10, "a groomer's turns 10 minutes apart"),
        (11, "a groomer's turns 11 minutes apart"),
    ] {
        report.property(name, apart(minutes, |a, b| a.groomer == b.groomer));
    }
    for (minutes, name) in [
        (0, "a driver's turns on two groomers 0 minutes apart"),
        (9, "a driver's turns on two groomers 9 minutes apart"),
        (10, "a driver's turns on two groomers 10 minutes apart"),
        (11, "a driver's turns on two groomers 11 minutes apart"),
    ] {
        let alike = |a: &Turn, b: &Turn| same_driver(a, b) && a.groomer != b.groomer;
        report.property(name, apart(minutes, alike));
    }
}

/// A shift of any shape: mostly with few turns, at times with many.
pub fn of_any_size(rng: &mut Rng, round: u32) -> Shift {
    let turns = match round % 100 {
        0 => rng.between(100, 400),
        1..=9 => rng.between(20, 100),
        _ => rng.below(20),
    };
    shapes::shift(rng, round / 3 % shapes::SHAPES, turns as usize)
}

/// Sheets of every shape.
fn shaped(rng: &mut Rng, run: &mut impl FnMut(&mut Rng, &[u8])) {
    for round in 0..33_000 {
        let shift = of_any_size(rng, round);
        let sheet = gen::encode(rng, &shift, 10).bytes;
        run(rng, &sheet);
    }
    for round in 0..40 {
        let shift = shapes::shift(rng, round % shapes::SHAPES, 400);
        let sheet = gen::encode(rng, &shift, 0).bytes;
        run(rng, &sheet);
    }
}

/// Sheets with one fault or several. Some are accepted all the same.
pub fn refused(rng: &mut Rng, run: &mut impl FnMut(&mut Rng, &[u8])) {
    for _ in 0..9000 {
        let turns = rng.between(1, 12) as usize;
        let shift = gen::shift(rng, turns);
        let sheet = gen::encode(rng, &shift, 10).bytes;
        let faults = rng.between(1, 2);
        for sheet in [
            gen::damaged(rng, &sheet),
            gen::with_bound(rng, &shift),
            gen::with_faults(rng, &shift, faults),
        ] {
            run(rng, &sheet);
        }
    }
}

/// Sheets made by hand, sheets without turns, headers at their bounds, marks,
/// tails, and every length of some sheets.
pub fn edges(rng: &mut Rng, run: &mut impl FnMut(&mut Rng, &[u8])) {
    for sheet in handmade::sheets() {
        run(rng, &sheet);
    }
    for groomers in 0..=17 {
        for slopes in [0, 1, 2, 119, 120, 121, 255] {
            for turns in [0, 1] {
                run(rng, &[b'G', b'R', b'M', groomers, slopes, 0, turns]);
                run(rng, &[b'G', b'R', b'M', groomers, slopes, 1, 0x90 + turns]);
            }
        }
    }
    for sheet in gen::single_bounds() {
        run(rng, &sheet);
    }
    for _ in 0..60 {
        let turns = rng.between(1, 10) as usize;
        let sheet = gen::typical(rng, turns).bytes;
        for sheet in gen::wrong_marks(&sheet) {
            run(rng, &sheet);
        }
        for _ in 0..5 {
            let sheet = gen::trailing(rng, &sheet);
            run(rng, &sheet);
        }
        for len in 0..sheet.len() {
            run(rng, &sheet[..len]);
        }
    }
}
