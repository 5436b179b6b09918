//! Turns that end in the same minute: the one of which the most remains is
//! picked first, then the lowest number. The check takes any of them first.

use crate::both::{check, planned, sheet_of};
use slopeboard_reference::boards::{self, Draft, Order};
use slopeboard_reference::gen::{self, Rng, Row};
use slopeboard_reference::naive::planning::{pick, worths};
use slopeboard_reference::naive::turns::turns_of;
use slopeboard_reference::shapes;

/// The steps must be these, and the choice the one that they lead to.
fn assert_steps(turns: &[Row], steps: &[(u16, u16)]) {
    let sheet = sheet_of(turns);
    let back = steps.iter().rev().map(|step| usize::from(step.0));
    let chosen = boards::choose(turns, back.chain(0..turns.len()));
    let board = Draft::new(turns, chosen, steps.to_vec());
    assert_eq!(planned(&sheet), board.bytes(), "{turns:?}");
    assert_eq!(
        check(&sheet, &board.bytes()),
        Ok((board.tally, board.worth))
    );
}

#[test]
fn the_richer_of_two_comes_first() {
    // One slope, two groomers: the poorer one has nothing left.
    let (poor, rich) = ([1, 1, 0, 60, 50, 0], [1, 2, 30, 30, 80, 0]);
    assert_steps(&[poor, rich], &[(1, 80)]);
    assert_steps(&[rich, poor], &[(0, 80)]);
    // One groomer, two slopes.
    let (poor, rich) = ([1, 1, 0, 60, 50, 0], [2, 1, 59, 1, 51, 0]);
    assert_steps(&[poor, rich], &[(1, 51)]);
    // No conflict: the order alone shows it.
    let (poor, rich) = ([1, 1, 0, 60, 1, 0], [2, 2, 0, 60, 60_000, 0]);
    assert_steps(&[poor, rich], &[(1, 60_000), (0, 1)]);
}

#[test]
fn an_earlier_end_goes_before_a_greater_worth() {
    let (early, rich) = ([1, 1, 0, 59, 1, 0], [1, 2, 0, 60, 60_000, 0]);
    assert_steps(&[rich, early], &[(1, 1), (0, 59_999)]);
}

#[test]
fn equally_rich_turns_go_by_number() {
    let turns = [5, 3, 9, 1, 7].map(|slope| [slope, slope, 0, 60, 40, 0]);
    let steps = [0, 1, 2, 3, 4].map(|turn| (turn, 40));
    assert_steps(&turns, &steps);
    let turns = [
        [1, 1, 0, 60, 39, 0],
        [2, 2, 0, 60, 40, 0],
        [3, 3, 0, 60, 40, 0],
    ];
    assert_steps(&turns, &[(1, 40), (2, 40), (0, 39)]);
}

/// Turn 0 takes 60 from turn 1, which then has less left than turn 2, as much,
/// or still more, though its worth is the greater one each time.
#[test]
fn what_remains_decides_and_not_the_worth() {
    for (worth, steps) in [
        (109, [(0, 60), (2, 50), (1, 49)]),
        (110, [(0, 60), (1, 50), (2, 50)]),
        (111, [(0, 60), (1, 51), (2, 50)]),
    ] {
        let turns = [
            [1, 1, 0, 30, 60, 0],
            [2, 1, 20, 70, worth, 0],
            [3, 2, 30, 60, 50, 0],
        ];
        assert_steps(&turns, &steps);
        // The same by the slope, with the numbers the other way round.
        let turns = [
            [3, 2, 30, 60, 50, 0],
            [1, 3, 20, 70, worth, 0],
            [1, 1, 0, 30, 60, 0],
        ];
        let mut steps = steps.map(|(turn, amount)| (2 - turn, amount));
        if worth == 110 {
            steps.swap(1, 2);
        }
        assert_steps(&turns, &steps);
    }
}

/// Turns that have no more left are not picked, however much they were worth.
#[test]
fn a_closed_turn_is_not_picked() {
    let turns = [
        [1, 1, 0, 30, 60, 0],
        [1, 2, 0, 90, 60, 0],
        [3, 2, 100, 1, 1, 0],
    ];
    assert_steps(&turns, &[(0, 60), (2, 1)]);
    let table = turns_of(&turns.concat());
    assert_eq!(pick(&table, &[0, 0, 0]), None);
    assert_eq!(pick(&table, &[-1, 0, 1]), Some(2));
    assert_eq!(pick(&table, &worths(&table)), Some(0));
}

/// Boards whose steps take equal ends by number pass as ever, and so do those
/// of other orders.
#[test]
fn boards_by_number_still_pass() {
    let mut rng = Rng::new(41);
    let mut others = 0;
    for round in 0..3000 {
        let turns = rng.below(30) as usize;
        let shape = if round % 2 == 0 {
            7
        } else {
            round / 2 % shapes::SHAPES
        };
        let shift = shapes::shift(&mut rng, shape, turns);
        let sheet = gen::encode(&mut rng, &shift, 10).bytes;
        let steps = boards::steps(&mut rng, &shift.turns, Order::ByNumber);
        let back = steps.iter().rev().map(|step| usize::from(step.0));
        let chosen = boards::choose(&shift.turns, back.chain(0..turns));
        let board = Draft::new(&shift.turns, chosen, steps);
        let sums = Ok((board.tally, board.worth));
        assert_eq!(check(&sheet, &board.bytes()), sums, "{:?}", shift.turns);
        others += u32::from(planned(&sheet) != board.bytes());
    }
    assert!(others > 1000, "{others}");
}

/// The planner's steps are those of the drawn boards' planned order, whose
/// pick is written on its own.
#[test]
fn equal_ends_are_planned_as_drawn() {
    let mut rng = Rng::new(42);
    for round in 0..2000 {
        let turns = if round % 100 == 0 { 200 } else { rng.below(25) } as usize;
        let shift = shapes::shift(&mut rng, shapes::EQUAL_ENDS, turns);
        let steps = boards::steps(&mut rng, &shift.turns, Order::Planned);
        assert_steps(&shift.turns, &steps);
    }
}
