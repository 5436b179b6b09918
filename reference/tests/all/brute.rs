//! Brute force on small sheets: every set, every choice, every list of steps.
//! And both versions side by side on sheets and boards of every kind.

use crate::both::{check, listing, plan, read, write};
use slopeboard_reference::boards::{self, Draft};
use slopeboard_reference::gen::{self, Rng, Shift};
use slopeboard_reference::limits::NUMBERS_PER_TURN;
use slopeboard_reference::naive::planning::{take, worths};
use slopeboard_reference::naive::turns::{turns_of, Turn};
use slopeboard_reference::naive::{best_worth, open, steps, times_the_tally};
use slopeboard_reference::shapes;

fn turns_in(shift: &Shift) -> Vec<Turn> {
    turns_of(&shift.turns.concat())
}

fn planned(sheet: &[u8], turns: usize) -> Vec<u8> {
    let mut board = vec![0; 15 + turns.div_ceil(8) + 4 * turns];
    let len = plan(sheet, &mut board).unwrap();
    board.truncate(len);
    board
}

/// The most that a set of turns is worth, and how many times the tally it can
/// be.
#[derive(Clone, Copy)]
struct Best {
    worth: u32,
    times: u32,
}

impl Best {
    fn of(shift: &Shift) -> Best {
        let turns = turns_in(shift);
        Best {
            worth: best_worth(&turns),
            times: times_the_tally(&turns),
        }
    }
}

/// What must hold of every board that passes.
fn assert_bounds(sheet: &[u8], board: &[u8], best: Best) -> bool {
    let Ok((tally, worth)) = check(sheet, board) else {
        return false;
    };
    assert_eq!(tally.to_be_bytes(), board[7..11]);
    assert_eq!(worth.to_be_bytes(), board[11..15]);
    assert!(tally <= worth && worth <= best.worth && best.worth <= best.times * tally);
    assert_eq!(open(board), 0);
    true
}

#[test]
fn passing_boards_bound_every_set() {
    let mut rng = Rng::new(11);
    let mut foreign = 0;
    for _ in 0..1500 {
        let shift = shapes::small(&mut rng, 10);
        let sheet = gen::encode(&mut rng, &shift, 20).bytes;
        let best = Best::of(&shift);
        let own = planned(&sheet, shift.turns.len());
        assert!(assert_bounds(&sheet, &own, best));
        for _ in 0..6 {
            // Choosing backwards always pays for the steps.
            let board = boards::right(&mut rng, &shift.turns).bytes();
            assert!(assert_bounds(&sheet, &board, best));
            foreign += u32::from(board != own);
            // Any full choice passes if it is worth the tally.
            let board = boards::full(&mut rng, &shift.turns);
            let passes = assert_bounds(&sheet, &board.bytes(), best);
            assert_eq!(passes, board.worth >= board.tally);
            // Damage rarely passes; when it does, the bounds hold as well.
            let damaged = gen::damaged(&mut rng, &board.bytes());
            assert_bounds(&sheet, &damaged, best);
        }
    }
    assert!(foreign > 1000, "{foreign}");
}

/// Where no slope has two turns and no turn names a driver, no set is worth
/// more than a board that passes.
#[test]
fn boards_of_one_turn_a_slope_are_the_best() {
    let mut rng = Rng::new(18);
    let mut fuller = 0;
    for _ in 0..1500 {
        let mut shift = shapes::one_turn_a_slope(&shapes::small(&mut rng, 10));
        for turn in &mut shift.turns {
            turn[5] = 0;
        }
        let sheet = gen::encode(&mut rng, &shift, 20).bytes;
        let best = Best::of(&shift);
        let own = planned(&sheet, shift.turns.len());
        assert_eq!(check(&sheet, &own).map(|(_, worth)| worth), Ok(best.worth));
        for _ in 0..4 {
            let board = boards::right(&mut rng, &shift.turns).bytes();
            assert_eq!(check(&sheet, &board), Ok((best.worth, best.worth)));
            let board = boards::full(&mut rng, &shift.turns);
            let passes = assert_bounds(&sheet, &board.bytes(), best);
            assert!(!passes || board.worth == best.worth);
            fuller += u32::from(!passes);
        }
    }
    assert!(fuller > 500, "{fuller}");
}

/// Checks a board and a few of its neighbours.
fn check_neighbours(sheet: &[u8], board: &Draft, seen: &mut [u32; 18]) {
    let mut boards = vec![board.clone(); 5];
    boards[1].tally += 1;
    boards[2].worth += 1;
    if let Some(last) = boards[3].steps.last_mut() {
        last.1 ^= 1;
    }
    if let Some(last) = boards[4].steps.last_mut() {
        last.0 = board.chosen.len() as u16;
    }
    for board in boards {
        let number = check(sheet, &board.bytes()).err().unwrap_or(0);
        seen[usize::from(number)] += 1;
    }
}

/// Every list of different turns, each with what is left of it by then.
fn all_step_lists(turns: &[Turn]) -> Vec<Vec<(u16, u16)>> {
    let mut lists = vec![(Vec::new(), worths(turns))];
    let mut done = 0;
    while done < lists.len() {
        let (steps, left) = lists[done].clone();
        done += 1;
        for turn in 0..turns.len() {
            if left[turn] > 0 && steps.len() < turns.len() {
                let (mut steps, mut left) = (steps.clone(), left.clone());
                let amount = left[turn];
                take(turns, &mut left, turn, amount);
                steps.push((turn as u16, amount as u16));
                lists.push((steps, left));
            }
        }
    }
    lists.into_iter().map(|(steps, _)| steps).collect()
}

#[test]
fn check_agrees_on_all_boards_of_tiny_sheets() {
    let mut rng = Rng::new(12);
    let mut seen = [0; 18];
    for _ in 0..120 {
        let shift = shapes::small(&mut rng, 4);
        let turns = turns_in(&shift);
        let sheet = gen::encode(&mut rng, &shift, 0).bytes;
        let best = Best::of(&shift);
        for steps in all_step_lists(&turns) {
            for set in 0..1u32 << turns.len() {
                let chosen = (0..turns.len()).map(|turn| set >> turn & 1 != 0).collect();
                let board = Draft::new(&shift.turns, chosen, steps.clone());
                check_neighbours(&sheet, &board, &mut seen);
                assert_bounds(&sheet, &board.bytes(), best);
            }
        }
    }
    for number in [0, 13, 14, 15, 16, 17] {
        assert!(seen[number] > 100, "{number}: {seen:?}");
    }
}

#[test]
fn large_plans_agree_and_pass() {
    let mut rng = Rng::new(13);
    for turns in [0, 1, 7, 8, 9, 100, 250, 399, 400, 400, 400] {
        let shift = gen::shift(&mut rng, turns);
        let sheet = gen::encode(&mut rng, &shift, 20).bytes;
        let board = planned(&sheet, turns);
        let (tally, worth) = check(&sheet, &board).unwrap();
        assert!(tally <= worth);
        let amounts = steps(&board).chunks(4).map(|step| [step[2], step[3]]);
        let sum: u32 = amounts.map(|two| u32::from(u16::from_be_bytes(two))).sum();
        assert_eq!(tally, sum);
    }
}

#[test]
fn shapes_of_all_sizes_agree() {
    let mut rng = Rng::new(16);
    for round in 0..3000 {
        let turns = match round % 300 {
            0 => 400,
            1..=9 => rng.between(40, 200),
            _ => rng.below(40),
        };
        let shift = shapes::shift(&mut rng, round % shapes::SHAPES, turns as usize);
        let sheet = gen::encode(&mut rng, &shift, 10).bytes;
        let wanted = NUMBERS_PER_TURN * shift.turns.len();
        for places in [wanted, wanted + 1, wanted.saturating_sub(1)] {
            let _ = read(&sheet, &mut vec![0xA5A5; places]);
        }
        let mut text = [0xA5; 4096];
        let len = listing(&sheet, &mut text).unwrap();
        assert_eq!(listing(&sheet, &mut text[..len - 1]), Err(11));
        let board = planned(&sheet, shift.turns.len());
        assert!(check(&sheet, &board).is_ok());
        let board = boards::right(&mut rng, &shift.turns);
        let kind = round % boards::FAULTS;
        let faulty = boards::with_fault(&mut rng, &shift.turns, &board, kind);
        let _ = check(&sheet, &faulty);
    }
}

#[test]
fn refused_sheets_agree() {
    let mut rng = Rng::new(17);
    let mut seen = [0; 20];
    for _ in 0..4000 {
        let turns = rng.between(1, 12) as usize;
        let shift = gen::shift(&mut rng, turns);
        let faults = rng.between(1, 3);
        let sheet = gen::with_faults(&mut rng, &shift, faults);
        let mut table = vec![0xA5A5; gen::places_wanted(&sheet).saturating_sub(faults as usize)];
        let number = read(&sheet, &mut table).err().unwrap_or(0);
        seen[usize::from(number)] += 1;
        let refused = number > 0 && number != 11;
        assert_eq!(plan(&sheet, &mut [0xA5; 2000]).is_err(), refused);
        assert_eq!(listing(&sheet, &mut [0xA5; 4096]).is_err(), refused);
        let board = boards::right(&mut rng, &shift.turns).bytes();
        assert!(!refused || check(&sheet, &board) == Err(number));
    }
    for number in (1..=11).chain([19]) {
        assert!(seen[number] > 10, "{number}: {seen:?}");
    }
}

#[test]
fn written_sheets_are_short_and_read_back() {
    let mut rng = Rng::new(14);
    for round in 0..2000 {
        let turns = if round < 50 {
            gen::turn_count(&mut rng)
        } else {
            rng.below(11) as usize
        };
        let shift = shapes::sorted(&gen::shift(&mut rng, turns));
        let redundant = rng.pick(&[0, 20, 100]);
        let sheet = gen::encode(&mut rng, &shift, redundant).bytes;
        let table = shapes::shuffled(&mut rng, &shift).turns.concat();
        let (groomers, slopes) = (shift.groomers.into(), shift.slopes.into());
        let mut out = vec![0; sheet.len()];
        // It fits the length of any sheet with the turns in this order.
        let len = write(groomers, slopes, &table, &mut out).unwrap();
        let mut again = vec![0; turns * NUMBERS_PER_TURN];
        let counts = read(&out[..len], &mut again).unwrap();
        assert_eq!((counts.groomers, counts.slopes), (groomers, slopes));
        assert_eq!(again, shift.turns.concat());
        let before = out.clone();
        assert_eq!(
            write(groomers, slopes, &table, &mut out[..len - 1]),
            Err(11)
        );
        assert_eq!(out, before);
    }
}

#[test]
fn generated_shifts_are_accepted_as_meant() {
    let mut rng = Rng::new(15);
    for _ in 0..300 {
        let turns = gen::turn_count(&mut rng);
        let shift = gen::shift(&mut rng, turns);
        let encoded = gen::encode(&mut rng, &shift, 50);
        let mut table = vec![0; turns * NUMBERS_PER_TURN];
        let counts = read(&encoded.bytes, &mut table).unwrap();
        assert_eq!(counts.groomers, u32::from(shift.groomers));
        assert_eq!(counts.slopes, u32::from(shift.slopes));
        assert_eq!(table, shift.turns.concat());
        assert_eq!(encoded.maps.len(), turns);
    }
}
