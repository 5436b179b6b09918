//! The seeded boards and shapes are what they are said to be.

use crate::both::{check, plan};
use slopeboard_reference::boards::{self, Draft, Order};
use slopeboard_reference::gen::{self, Rng, Row};
use slopeboard_reference::naive::{count, is_chosen};
use slopeboard_reference::shapes;

fn sheet_of(rng: &mut Rng, shape: u32, turns: usize) -> (Vec<Row>, Vec<u8>) {
    let shift = shapes::shift(rng, shape, turns);
    let sheet = gen::encode(rng, &shift, 20).bytes;
    (shift.turns, sheet)
}

#[test]
fn right_boards_pass() {
    let mut rng = Rng::new(21);
    let mut others = 0;
    for round in 0..3000 {
        let turns = rng.below(40) as usize;
        let (turns, sheet) = sheet_of(&mut rng, round % shapes::SHAPES, turns);
        let board = boards::right(&mut rng, &turns);
        let sums = Ok((board.tally, board.worth));
        assert_eq!(check(&sheet, &board.bytes()), sums, "{turns:?} {board:?}");
        let mut own = vec![0; 2000];
        let len = plan(&sheet, &mut own).unwrap();
        others += u32::from(own[..len] != board.bytes());
        let full = boards::full(&mut rng, &turns);
        let passes = check(&sheet, &full.bytes()).is_ok();
        assert_eq!(passes, full.worth >= full.tally);
    }
    assert!(others > 1000, "{others}");
}

#[test]
fn choices_are_told_as_drafted() {
    let mut rng = Rng::new(25);
    for round in 0..500 {
        let turns = rng.below(60) as usize;
        let (turns, _) = sheet_of(&mut rng, round % shapes::SHAPES, turns);
        let draft = boards::right(&mut rng, &turns);
        let board = draft.bytes();
        let told: Vec<bool> = (0..turns.len())
            .map(|turn| is_chosen(&board, turn))
            .collect();
        assert_eq!(told, draft.chosen);
        let chosen = draft.chosen.iter().filter(|&&on| on).count();
        assert_eq!(count(&board), Ok(chosen as u32));
        assert!((turns.len()..turns.len() + 20).all(|turn| !is_chosen(&board, turn)));
    }
}

#[test]
fn planned_order_is_the_planners() {
    let mut rng = Rng::new(22);
    for round in 0..500 {
        let (turns, sheet) = sheet_of(&mut rng, round % shapes::SHAPES, 30);
        let steps = boards::steps(&mut rng, &turns, Order::Planned);
        let back = steps.iter().rev().map(|step| usize::from(step.0));
        let chosen = boards::choose(&turns, back.chain(0..turns.len()));
        let mut own = vec![0; 2000];
        let len = plan(&sheet, &mut own).unwrap();
        assert_eq!(own[..len], Draft::new(&turns, chosen, steps).bytes());
    }
}

#[test]
fn a_step_a_turn_is_reached() {
    let mut rng = Rng::new(23);
    for count in [1, 4, 50, 400] {
        let (turns, _) = sheet_of(&mut rng, shapes::A_STEP_A_TURN, count);
        assert_eq!(boards::steps(&mut rng, &turns, Order::Planned).len(), count);
    }
}

#[test]
fn every_fault_is_refused_at_times() {
    let mut rng = Rng::new(24);
    for kind in 0..boards::FAULTS {
        let mut refused = 0;
        for shape in 0..shapes::SHAPES {
            let (turns, sheet) = sheet_of(&mut rng, shape, 12);
            let board = boards::right(&mut rng, &turns);
            let faulty = boards::with_fault(&mut rng, &turns, &board, kind);
            refused += u32::from(check(&sheet, &faulty).is_err());
        }
        assert!(refused >= 3, "{kind}: {refused}");
    }
}
