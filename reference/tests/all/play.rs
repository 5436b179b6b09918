//! A board played with delays: the standings by hand, by minutes, and the refusals
//! in their order.

use crate::both::{check, planned, play, read};
use slopeboard_reference::boards;
use slopeboard_reference::gen::{self, Rng, Row};
use slopeboard_reference::naive::play::{spans, Span};
use slopeboard_reference::naive::turns::turns_of;
use slopeboard_reference::naive::Standing;
use slopeboard_reference::{shapes, worked};

const NO_TURN: u16 = 65_535;

/// What an untouched place holds.
const KEPT: Standing = Standing {
    working: 0xA5A5,
    driving: 0xA5A5,
    standing: 0xA5A5,
    turn: 0xA5A5,
};

fn sheet_of(groomers: u8, turns: &[Row]) -> Vec<u8> {
    worked::sheet_of(groomers, 120, turns)
}

/// The standings of all groomers, with a place more than there are groomers.
fn standings(sheet: &[u8], board: &[u8], delays: &[u16]) -> Vec<Standing> {
    let groomers = usize::from(sheet[3]);
    let mut list = vec![KEPT; groomers + 1];
    assert_eq!(
        play(sheet, board, delays, &mut list),
        Ok(u16::from(sheet[3]))
    );
    assert_eq!(list.pop(), Some(KEPT));
    for standing in &list {
        let minutes = standing.working + standing.driving + standing.standing;
        assert_eq!(minutes, 960);
    }
    list
}

fn standing(working: u16, driving: u16, turn: u16) -> Standing {
    Standing {
        working,
        driving,
        standing: 960 - working - driving,
        turn,
    }
}

/// One groomer with turns at these starts and ends, all of them chosen.
fn assert_one(times: &[(u16, u16)], delays: &[u16], expected: Standing) {
    let turn = |(&(start, end), slope)| [slope, 1, start, end - start, 9, 0];
    let turns: Vec<Row> = times.iter().zip(1..).map(turn).collect();
    let sheet = sheet_of(1, &turns);
    let board = planned(&sheet);
    assert_eq!(check(&sheet, &board).unwrap().1, 9 * times.len() as u32);
    assert_eq!(
        standings(&sheet, &board, delays),
        [expected],
        "{times:?} {delays:?}"
    );
}

const EXAMPLE: [Row; 4] = [
    [1, 1, 0, 60, 100, 0],
    [2, 1, 30, 60, 150, 0],
    [1, 2, 0, 120, 80, 0],
    [3, 2, 120, 60, 90, 0],
];

/// Turn 1 is worked from 30 to 90 by groomer 1, turn 3 from 120 to 180 by
/// groomer 2.
#[test]
fn the_example() {
    let sheet = sheet_of(2, &EXAMPLE);
    let board = planned(&sheet);
    let as_planned = standing(60, 10, NO_TURN);
    assert_eq!(standings(&sheet, &board, &[0; 4]), [as_planned; 2]);
    // Only the delays of chosen turns show.
    let late = [as_planned, standing(180, 10, NO_TURN)];
    assert_eq!(standings(&sheet, &board, &[120, 0, 120, 120]), late);
}

#[test]
fn no_turns_stand_all_day() {
    let sheet = sheet_of(16, &[]);
    let board = planned(&sheet);
    let stood = standing(0, 0, NO_TURN);
    assert_eq!(standings(&sheet, &board, &[]), [stood; 16]);
}

#[test]
fn a_late_turn_holds_up_the_next() {
    let times = [(100, 200), (210, 300)];
    assert_one(&times, &[0, 0], standing(190, 20, NO_TURN));
    assert_one(&times, &[1, 0], standing(191, 20, NO_TURN));
    assert_one(&times, &[120, 7], standing(317, 20, NO_TURN));
    // There is a gap of 50 minutes that 40 minutes do not fill.
    assert_one(
        &[(100, 200), (250, 300)],
        &[40, 0],
        standing(190, 20, NO_TURN),
    );
    assert_one(
        &[(100, 200), (250, 300)],
        &[41, 0],
        standing(191, 20, NO_TURN),
    );
}

#[test]
fn the_day_ends_at_960() {
    // Worked until the last minute, or a minute less.
    assert_one(&[(900, 960)], &[0], standing(60, 0, 0));
    assert_one(&[(900, 960)], &[120], standing(60, 0, 0));
    assert_one(&[(900, 959)], &[0], standing(59, 1, NO_TURN));
    assert_one(&[(900, 959)], &[1], standing(60, 0, 0));
    // The ten minutes of driving over are cut off, too.
    assert_one(&[(900, 950)], &[0], standing(50, 10, NO_TURN));
    assert_one(&[(900, 949)], &[0], standing(49, 10, NO_TURN));
    assert_one(&[(900, 951)], &[0], standing(51, 9, NO_TURN));
    assert_one(&[(0, 960)], &[0], standing(960, 0, 0));
    assert_one(&[(0, 960)], &[120], standing(960, 0, 0));
    // The last turn does not begin before the day is over, or just does.
    assert_one(&[(0, 830), (840, 850)], &[119, 0], standing(950, 10, 1));
    assert_one(
        &[(0, 830), (840, 850)],
        &[120, 0],
        standing(950, 10, NO_TURN),
    );
    assert_one(
        &[(0, 840), (850, 860)],
        &[111, 0],
        standing(951, 9, NO_TURN),
    );
    assert_one(&[(0, 900), (910, 960)], &[60, 0], standing(960, 0, 0));
}

/// By start, whatever order the sheet has.
#[test]
fn turns_go_by_start() {
    assert_one(
        &[(500, 600), (100, 200)],
        &[0, 0],
        standing(200, 20, NO_TURN),
    );
    assert_one(
        &[(850, 950), (100, 200), (700, 800)],
        &[30, 0, 70],
        standing(100 + 170 + 80, 20, 0),
    );
}

/// A driver's delay on one groomer does not hold up the driver's turn on
/// another.
#[test]
fn only_the_own_turns_hold_up() {
    let turns = [[1, 1, 0, 50, 9, 7], [2, 2, 60, 40, 9, 7]];
    let sheet = sheet_of(2, &turns);
    let board = planned(&sheet);
    let list = standings(&sheet, &board, &[120, 0]);
    assert_eq!(
        list,
        [standing(170, 10, NO_TURN), standing(40, 10, NO_TURN)]
    );
}

/// With no delays the spans are those planned; with any, each begins when it
/// can and lasts as long as it takes.
#[test]
fn spans_are_as_worded() {
    let mut rng = Rng::new(131);
    for round in 0..2000 {
        let turns = rng.below(40) as usize;
        let shift = shapes::shift(&mut rng, round % shapes::SHAPES, turns);
        let chosen = boards::right(&mut rng, &shift.turns).chosen;
        let turns = turns_of(&shift.turns.concat());
        let none = vec![0; turns.len()];
        let most = rng.pick(&[3, 30, 120]);
        let delays: Vec<u16> = turns.iter().map(|_| rng.between(0, most) as u16).collect();
        for groomer in 1..=u32::from(shift.groomers) {
            let as_planned = spans(&turns, &chosen, &none, groomer);
            for span in &as_planned {
                let turn = &turns[span.turn];
                assert!(chosen[span.turn] && turn.groomer == groomer);
                assert_eq!((span.from, span.until), (turn.start, turn.end()));
            }
            let played = spans(&turns, &chosen, &delays, groomer);
            let numbers = |spans: &[Span]| -> Vec<usize> {
                let numbers = spans.iter().map(|span| span.turn);
                numbers.collect()
            };
            assert_eq!(numbers(&played), numbers(&as_planned));
            let mut free = 0;
            for span in &played {
                let turn = &turns[span.turn];
                assert!(span.from == turn.start || span.from == free);
                assert!(span.from >= turn.start && span.from >= free);
                let delay = u32::from(delays[span.turn]);
                assert_eq!(span.until - span.from, turn.length + delay);
                free = span.until + 10;
            }
        }
    }
}

/// All versions agree on all kinds of boards and delays, and with no delays the
/// minutes worked are the lengths.
#[test]
fn boards_of_all_kinds() {
    let mut rng = Rng::new(132);
    for round in 0..1500 {
        let turns = rng.below(if round % 10 == 0 { 200 } else { 30 }) as usize;
        let shift = shapes::shift(&mut rng, round % shapes::SHAPES, turns);
        let sheet = gen::encode(&mut rng, &shift, 10).bytes;
        let draft = boards::right(&mut rng, &shift.turns);
        let board = draft.bytes();
        let list = standings(&sheet, &board, &vec![0; turns]);
        for (standing, groomer) in list.iter().zip(1..) {
            let chosen = shift.turns.iter().zip(&draft.chosen);
            let own = chosen.filter(|(turn, &on)| on && turn[1] == groomer);
            let worked: u16 = own.map(|(turn, _)| turn[3]).sum();
            assert_eq!(standing.working, worked);
        }
        let delays: Vec<u16> = (0..turns).map(|_| rng.below(121) as u16).collect();
        standings(&sheet, &board, &delays);
    }
}

#[test]
fn refusals_in_their_order() {
    let sheet = sheet_of(2, &EXAMPLE);
    let board = planned(&sheet);
    let refused = |sheet: &[u8], board: &[u8], delays: &[u16], places: usize| {
        let mut list = vec![KEPT; places];
        let answer = play(sheet, board, delays, &mut list);
        assert!(answer.is_ok() || list.iter().all(|&place| place == KEPT));
        answer.err().unwrap_or(0)
    };
    assert_eq!(refused(&sheet, &board, &[0; 4], 2), 0);
    assert_eq!(refused(&sheet, &board, &[120; 4], 2), 0);
    // 24 for each delay and for each number of them, before 11.
    for places in 0..4 {
        for count in [0, 1, 3, 5, 8, 400] {
            assert_eq!(refused(&sheet, &board, &vec![0; count], places), 24);
        }
        for turn in 0..4 {
            for delay in [121, 256, 65_535] {
                let mut delays = [0; 4];
                delays[turn] = delay;
                assert_eq!(refused(&sheet, &board, &delays, places), 24);
            }
        }
    }
    for places in [0, 1] {
        assert_eq!(refused(&sheet, &board, &[0; 4], places), 11);
    }
    // The sheet's and the board's refusals come first.
    assert_eq!(refused(&sheet[..38], &board, &[], 0), 1);
    assert_eq!(refused(&sheet, &board[..27], &[], 0), 12);
    let mut other = board.clone();
    for (place, value, number) in [
        (15, 0x03, 13),
        (15, 0x08, 14),
        (21, 0x05, 15),
        (14, 0xF1, 17),
    ] {
        other[place] = value;
        assert_eq!(refused(&sheet, &other, &[121], 0), number);
        other.clone_from(&board);
    }
    other[6] = 2;
    other.truncate(24);
    assert_eq!(refused(&sheet, &other, &[121], 0), 16);
}

#[test]
fn any_input_agrees() {
    let mut rng = Rng::new(133);
    let mut seen = [0; 25];
    for round in 0..8000 {
        let turns = rng.between(1, 10) as usize;
        let shift = shapes::shift(&mut rng, round % shapes::SHAPES, turns);
        let right = boards::right(&mut rng, &shift.turns);
        let sheet = match rng.percent(30) {
            true => gen::with_faults(&mut rng, &shift, 1),
            false => gen::encode(&mut rng, &shift, 10).bytes,
        };
        let kind = rng.below(boards::FAULTS);
        let board = match rng.percent(40) {
            true => boards::with_fault(&mut rng, &shift.turns, &right, kind),
            false => right.bytes(),
        };
        let count = turns + rng.pick(&[0, 0, 0, 0, 0, 0, 0, 1]);
        let most = rng.pick(&[120, 120, 120, 121, 300]);
        let delays: Vec<u16> = (0..count).map(|_| rng.between(0, most) as u16).collect();
        let mut list = vec![KEPT; rng.below(18) as usize];
        let number = play(&sheet, &board, &delays, &mut list).err();
        seen[usize::from(number.unwrap_or(0))] += 1;
        if let Err(refused) = check(&sheet, &board) {
            assert_eq!(number, Some(refused));
        } else {
            assert!(read(&sheet, &mut [0; 2400]).is_ok());
            assert!([None, Some(24), Some(11)].contains(&number));
        }
    }
    for number in (0..18).chain([24]) {
        assert!(seen[number] > 5, "{number}: {seen:?}");
    }
}
