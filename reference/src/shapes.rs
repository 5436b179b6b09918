//! Seeded shifts of named shapes, all of which a reader must take.

use crate::gen::{self, Drivers, Rng, Row, Shift};
use crate::limits::{
    DRIVE_OVER, LAST_END, MOST_GROOMERS, MOST_SLOPES, MOST_TURNS, MOST_WORTH, NUMBERS_PER_TURN,
};

/// How many shapes there are.
pub const SHAPES: u32 = 10;

/// Few ends for all turns.
pub const EQUAL_ENDS: u32 = 7;

/// Nothing but equal turns.
pub const ALL_EQUAL: u32 = 4;

/// The shape with the most steps: one for every turn.
pub const A_STEP_A_TURN: u32 = 6;

/// A shift of this shape with so many turns. Half of them name drivers.
pub fn shift(rng: &mut Rng, shape: u32, turns: usize) -> Shift {
    let shift = drawn_by_shape(rng, shape, turns);
    match shape {
        ALL_EQUAL => with_one_driver(rng, shift),
        A_STEP_A_TURN => with_a_driver_a_groomer(rng, shift),
        1..SHAPES => {
            let drivers = Drivers::drawn(rng);
            with_drivers(rng, shift, drivers)
        }
        _ => shift,
    }
}

/// Draws a driver for each turn.
fn with_drivers(rng: &mut Rng, mut shift: Shift, drivers: Drivers) -> Shift {
    for turn in &mut shift.turns {
        turn[5] = drivers.driver(rng);
    }
    shift
}

/// The same driver, or none, in all turns.
fn with_one_driver(rng: &mut Rng, mut shift: Shift) -> Shift {
    let driver = Drivers::drawn(rng).driver(rng);
    for turn in &mut shift.turns {
        turn[5] = driver;
    }
    shift
}

/// A driver for each groomer, or none at all: no two turns come to conflict
/// that would not without.
fn with_a_driver_a_groomer(rng: &mut Rng, mut shift: Shift) -> Shift {
    let named = rng.percent(50);
    for turn in &mut shift.turns {
        turn[5] = if named { turn[1] } else { 0 };
    }
    shift
}

/// A shift of this shape before drivers are put in; only shape 0 has them
/// already.
fn drawn_by_shape(rng: &mut Rng, shape: u32, turns: usize) -> Shift {
    match shape {
        1 => drawn(rng, turns, [2, 12], [LAST_END, 1, 400], 300),
        2 => drawn(rng, turns, [1, MOST_SLOPES], [LAST_END, 1, 90], 500),
        3 => drawn(rng, turns, [MOST_GROOMERS, 1], [LAST_END, 1, 90], 500),
        ALL_EQUAL => all_equal(rng, turns),
        5 => one_after_the_other(rng, turns),
        A_STEP_A_TURN => {
            let slopes = (turns as u32 / 4).clamp(MOST_GROOMERS, MOST_SLOPES);
            a_step_a_turn(rng, turns, slopes)
        }
        EQUAL_ENDS => equal_ends(rng, turns),
        8 => drawn(rng, turns, [3, 8], [40, 1, 8], 3),
        9 => drawn(rng, turns, [2, 30], [200, 1, 60], u32::from(MOST_WORTH)),
        _ => gen::shift(rng, turns),
    }
}

/// A shift like those of a usual night, with more of the same for more turns.
pub fn usual(rng: &mut Rng, turns: usize) -> Shift {
    drawn(rng, turns, [12, 80], [LAST_END, 1, 90], 500)
}

/// The usual shift with drivers: somewhat more of them than groomers, most
/// turns with one.
pub fn usual_with_drivers(rng: &mut Rng, turns: usize) -> Shift {
    let mut shift = usual(rng, turns);
    for turn in &mut shift.turns {
        turn[5] = rng.below(16) as u16;
    }
    shift
}

/// A shift with the most groomers and slopes, no short turn, and worths of
/// every size.
pub fn widest(rng: &mut Rng, turns: usize) -> Shift {
    let counts = [MOST_GROOMERS, MOST_SLOPES];
    drawn(rng, turns, counts, [LAST_END, 30, 90], MOST_WORTH.into())
}

/// Up to so many turns on few slopes and in few minutes, so that conflicts of
/// every kind, turns about ten minutes apart and equal ends abound. Half of
/// the shifts name drivers.
pub fn small(rng: &mut Rng, most: u32) -> Shift {
    let counts = [rng.between(1, 3), rng.between(1, 6)];
    let worth = rng.pick(&[3, 20, u32::from(MOST_WORTH)]);
    let turns = rng.between(0, most) as usize;
    let shift = drawn(rng, turns, counts, [45, 1, 10], worth);
    let (named, drivers) = (rng.percent(50), rng.pick(&[1, 1, 2, 3]));
    let drivers = if named { drivers } else { 0 };
    with_drivers(rng, shift, Drivers::few(drivers))
}

/// Four turns and up to so many more at one time, of much the same worth, with
/// drivers: one of the four conflicts with one turn by slope, with another by
/// groomer and with a third by driver, while these three get along.
pub fn crossed(rng: &mut Rng, more: u32) -> Shift {
    let counts = [rng.between(3, 5), rng.between(3, 5)];
    let worth = rng.between(1, 3);
    let turns = rng.between(0, more) as usize;
    let shift = drawn(rng, turns, counts, [12, 1, 3], worth);
    let drivers = rng.between(1, 3);
    let mut shift = with_drivers(rng, shift, Drivers::few(drivers));
    let worth = rng.between(1, 9) as u16;
    shift.turns.extend([
        [1, 1, 3, 1, worth, 1],
        [1, 2, 3, 2, worth, 0],
        [2, 1, 3, 2, worth, 2],
        [3, 3, 3, 3, worth, 1],
    ]);
    shuffled(rng, &shift)
}

/// The shift with a slope of its own for each turn.
pub fn one_turn_a_slope(shift: &Shift) -> Shift {
    let mut shift = shift.clone();
    shift.slopes = shift.turns.len().max(1) as u8;
    for (turn, slope) in shift.turns.iter_mut().zip(1..) {
        turn[0] = slope;
    }
    shift
}

/// The shift with a slope of its own for each turn, in any order, and without
/// drivers.
pub fn simple(rng: &mut Rng, shift: &Shift) -> Shift {
    let mut shift = one_turn_a_slope(shift);
    let slopes = rng.shuffled(shift.turns.len());
    for (turn, slope) in shift.turns.iter_mut().zip(slopes) {
        turn[0] = slope as u16 + 1;
        turn[5] = 0;
    }
    if rng.percent(50) {
        shift.slopes = MOST_SLOPES as u8;
    }
    shift
}

/// A shift in which few turns come again and again, some of them with all
/// values but one alike.
pub fn few_kinds(rng: &mut Rng, turns: usize) -> Shift {
    let kinds = drawn(rng, 3, [4, 9], [LAST_END, 1, 120], MOST_WORTH.into());
    let drivers = Drivers::drawn(rng);
    let mut kinds = with_drivers(rng, kinds, drivers);
    for kind in 0..3 {
        let mut other = kinds.turns[kind];
        let field = rng.below(NUMBERS_PER_TURN as u32) as usize;
        other[field] -= u16::from(other[field] > 1);
        kinds.turns.push(other);
    }
    let turn = |_| rng.pick(&kinds.turns);
    Shift {
        turns: (0..turns).map(turn).collect(),
        ..kinds
    }
}

/// The shift with its turns by slope, groomer, start, length, worth and
/// driver.
pub fn sorted(shift: &Shift) -> Shift {
    let mut shift = shift.clone();
    shift.turns.sort();
    shift
}

/// The shift with its turns the other way round than in [`sorted`].
pub fn falling(shift: &Shift) -> Shift {
    let mut shift = sorted(shift);
    shift.turns.reverse();
    shift
}

/// The shift with its turns in any order.
pub fn shuffled(rng: &mut Rng, shift: &Shift) -> Shift {
    let numbers = rng.shuffled(shift.turns.len());
    let turns = numbers.into_iter().map(|turn| shift.turns[turn]);
    Shift {
        turns: turns.collect(),
        ..*shift
    }
}

/// Turns drawn evenly, without drivers. The counts are those of groomers and slopes, the times
/// the last end, the shortest length and the longest.
pub fn drawn(rng: &mut Rng, turns: usize, counts: [u32; 2], times: [u32; 3], worth: u32) -> Shift {
    let [groomers, slopes] = counts;
    let [last_end, shortest, longest] = times;
    let turn = |rng: &mut Rng| {
        let length = rng.between(shortest, longest);
        [
            rng.between(1, slopes) as u16,
            rng.between(1, groomers) as u16,
            rng.below(last_end - length + 1) as u16,
            length as u16,
            rng.between(1, worth) as u16,
            0,
        ]
    };
    Shift {
        groomers: groomers as u8,
        slopes: slopes as u8,
        turns: (0..turns).map(|_| turn(rng)).collect(),
    }
}

fn all_equal(rng: &mut Rng, turns: usize) -> Shift {
    let one = drawn(rng, 1, [4, 9], [LAST_END, 1, 120], u32::from(MOST_WORTH));
    Shift {
        turns: one.turns.repeat(turns),
        ..one
    }
}

/// Each groomer's turns follow each other without an overlap, as far as the
/// shift goes; then they start over. It has just the time to drive over, a
/// minute less or more, or none.
fn one_after_the_other(rng: &mut Rng, turns: usize) -> Shift {
    let groomers = rng.between(1, MOST_GROOMERS);
    let slopes = rng.between(1, MOST_SLOPES);
    let mut next = [0; MOST_GROOMERS as usize + 1];
    let turn = |number: u32| -> Row {
        let groomer = number % groomers + 1;
        let start = &mut next[groomer as usize];
        let length = rng.between(1, 60);
        if *start + length > LAST_END {
            *start = 0;
        }
        let from = *start;
        let minutes = rng.pick(&[0, DRIVE_OVER - 1, DRIVE_OVER, DRIVE_OVER, DRIVE_OVER + 1]);
        *start += length + minutes;
        [
            rng.between(1, slopes) as u16,
            groomer as u16,
            from as u16,
            length as u16,
            rng.between(1, 900) as u16,
            0,
        ]
    };
    Shift {
        groomers: groomers as u8,
        slopes: slopes as u8,
        turns: (0..turns as u32).map(turn).collect(),
    }
}

/// Every groomer has the time to drive over, no slope has two turns with one
/// end, and on each slope the worths rise with the ends: so every turn is
/// still open when its end is the earliest.
pub fn a_step_a_turn(rng: &mut Rng, turns: usize, slopes: u32) -> Shift {
    let each = turns.max(1).div_ceil(MOST_GROOMERS as usize) as u32;
    let from_start_to_start = LAST_END / each;
    let length = from_start_to_start - DRIVE_OVER;
    let worth = rng.between(1, 1000);
    let turn = |number: u32| {
        [
            (number % slopes + 1) as u16,
            (number % MOST_GROOMERS + 1) as u16,
            (number / MOST_GROOMERS * from_start_to_start) as u16,
            length as u16,
            (worth + number) as u16,
            0,
        ]
    };
    assert!(turns <= MOST_TURNS);
    Shift {
        groomers: MOST_GROOMERS as u8,
        slopes: slopes as u8,
        turns: (0..turns as u32).map(turn).collect(),
    }
}

/// All turns on one slope, each ending after the one before and worth more:
/// every step touches all that is open, and leaves it open.
pub fn rising_on_one_slope(rng: &mut Rng, turns: usize) -> Shift {
    assert!(turns <= MOST_TURNS);
    let mut shift = drawn(rng, turns, [MOST_GROOMERS, 1], [LAST_END, 30, 90], 1);
    let mut worth = 0;
    for (turn, number) in shift.turns.iter_mut().zip(0..) {
        let end = 90 + 2 * number;
        worth += rng.between(1, 140);
        turn[2] = end - turn[3];
        turn[4] = worth as u16;
    }
    shift
}

/// The shift with half of each turn's values, at random, as in the turn before,
/// as far as the end allows it.
pub fn half_repeated(rng: &mut Rng, shift: &Shift) -> Shift {
    let mut shift = shift.clone();
    for place in 1..shift.turns.len() {
        let old = shift.turns[place - 1];
        shift.turns[place] = gen::mixed_turn(rng, old, shift.turns[place]);
    }
    shift
}

/// Few ends and many starts: what remains of the turns decides, or their
/// numbers.
fn equal_ends(rng: &mut Rng, turns: usize) -> Shift {
    let worth = rng.pick(&[5, 400]);
    let mut shift = drawn(rng, turns, [4, 40], [LAST_END, 1, 120], worth);
    for turn in &mut shift.turns {
        let end = rng.pick(&[300, 300, 301, LAST_END]);
        turn[2] = (end - u32::from(turn[3])) as u16;
    }
    shift
}
