//! How many turns a board chooses, and whether it chooses a turn.

use slopeboard_reference::gen::Rng;
use slopeboard_reference::{boards, naive};

use crate::foreign::{self, CountAnswer};
use crate::placed::Placed;
use crate::report::{show, Report};

/// Compares the two versions on all boards, and on turn numbers below, at and
/// above the board's own.
pub fn run(seed: u64) -> bool {
    let mut run = Run {
        rng: Rng::new(seed),
        counts: Report::new("count"),
        turns: Report::new("is_chosen"),
        placed: Placed::default(),
    };
    run.right_boards();
    run.last_bytes();
    run.drawn_maps();
    run.lengths();
    run.large_boards();
    run.counts.finish([12]) & run.turns.finish([12])
}

struct Run {
    rng: Rng,
    counts: Report,
    turns: Report,
    placed: Placed,
}

/// A board with these counts, any numbers in its head, and this map.
fn board_of(rng: &mut Rng, turns: u16, steps: u16, map: &[u8]) -> Vec<u8> {
    let mut board = b"GRB".to_vec();
    board.extend(turns.to_be_bytes());
    board.extend(steps.to_be_bytes());
    board.extend(rng.draw().to_be_bytes());
    board.extend(map);
    board.extend((0..4 * usize::from(steps)).map(|place| place as u8 ^ 0xFF));
    board
}

/// A map with any bits for the turns, and none behind these.
fn drawn_map(rng: &mut Rng, turns: u16) -> Vec<u8> {
    let dense = rng.pick(&[0, 5, 50, 95, 100]);
    let mut map = vec![0; usize::from(turns).div_ceil(8)];
    for turn in 0..usize::from(turns) {
        if rng.percent(dense) {
            map[turn / 8] |= 1 << (turn % 8);
        }
    }
    map
}

impl Run {
    /// Boards of real sheets, and what becomes of them by one fault.
    fn right_boards(&mut self) {
        for round in 0..20_000 {
            for board in boards::right_and_faulty(&mut self.rng, round) {
                self.case(&board);
            }
        }
    }

    /// Every value of the last map byte, bits past the last turn included.
    fn last_bytes(&mut self) {
        for turns in 1..=24 {
            for steps in [0, 1, turns] {
                let mut map = drawn_map(&mut self.rng, turns);
                for bits in 0..=255 {
                    *map.last_mut().expect("there is a turn") = bits;
                    let board = board_of(&mut self.rng, turns, steps, &map);
                    self.case(&board);
                }
            }
        }
    }

    /// Maps of any bits, for more turns than a sheet has, too. Some have a
    /// byte too few or too many, or another number of turns.
    fn drawn_maps(&mut self) {
        for _ in 0..50_000 {
            let most = self.rng.pick(&[9, 30, 30, 100, 600]);
            let turns = self.rng.below(most) as u16;
            let steps = self.rng.pick(&[0, 0, turns / 2, turns, turns + 1]);
            let mut map = drawn_map(&mut self.rng, turns);
            match self.rng.below(20) {
                0 => map.push(self.rng.pick(&[0, 1, 255])),
                1 => drop(map.pop()),
                _ => {}
            }
            let turns = turns + self.rng.pick(&[0, 0, 0, 0, 0, 0, 0, 0, 1, 8]);
            let board = board_of(&mut self.rng, turns, steps, &map);
            self.case(&board);
        }
    }

    /// Every length of several boards; the rest lies behind the cut.
    fn lengths(&mut self) {
        for turns in [0, 1, 3, 8, 20, 100] {
            let map = drawn_map(&mut self.rng, turns);
            let board = board_of(&mut self.rng, turns, turns, &map);
            for len in 0..=board.len() {
                let (board, behind) = board.split_at(len);
                self.placed.put_before(&mut self.rng, board, behind);
                self.compare();
            }
        }
    }

    /// The most turns that two bytes say; boards too long by so much that the
    /// excess vanishes from a length of two bytes.
    fn large_boards(&mut self) {
        for turns in [
            255, 256, 257, 400, 401, 4096, 32_767, 32_768, 65_529, 65_535,
        ] {
            for _ in 0..15 {
                let map = drawn_map(&mut self.rng, turns);
                let mut board = board_of(&mut self.rng, turns, 0, &map);
                self.case(&board);
                board.resize(board.len() + 0x1_0000, 0);
                self.case(&board);
            }
            let map = vec![0xFF; usize::from(turns).div_ceil(8)];
            let mut board = board_of(&mut self.rng, turns, 0, &map);
            self.case(&board);
            let last = board.len() - 1;
            board[last] >>= (8 - turns % 8) % 8;
            self.case(&board);
        }
    }

    fn case(&mut self, board: &[u8]) {
        self.placed.put(&mut self.rng, board);
        self.compare();
    }

    /// Compares the two versions on the board that has been placed.
    fn compare(&mut self) {
        let board = self.placed.input();
        let ours = answer(naive::count(board));
        let theirs = foreign::count(board);
        self.counts.count(ours.refusal);
        if ours != theirs {
            let text = || format!("{ours:?} but {theirs:?}: {}", show(board, 0));
            self.counts.differs(text);
        }
        let turns = turns_in(board);
        if ours.refusal == 0 {
            let count = ours.turns as usize;
            let report = &mut self.counts;
            report.property("none chosen of some", turns > 0 && count == 0);
            report.property("all chosen of some", turns > 0 && count == turns);
            report.property("over 255 chosen", count > 255);
        }
        for turn in numbers(&mut self.rng, turns) {
            compare_turn(&mut self.turns, board, turns, turn, ours.refusal);
        }
    }
}

/// The judge's result in the form that the library gives.
fn answer(result: Result<u32, u8>) -> CountAnswer {
    let (refusal, turns) = result.map_or_else(|number| (number, 0), |turns| (0, turns));
    CountAnswer { refusal, turns }
}

/// The number of turns that the bytes claim, whether they are a board or not.
fn turns_in(board: &[u8]) -> usize {
    let count = |bytes: &[u8]| usize::from(u16::from_be_bytes([bytes[0], bytes[1]]));
    board.get(3..5).map_or(0, count)
}

/// Turn numbers for a board of so many turns: below it, at it, above it, and
/// such as would be below it if they were cut to fewer bits or times eight.
fn numbers(rng: &mut Rng, turns: usize) -> Vec<usize> {
    let below = rng.below(turns.max(1) as u32) as usize;
    let edge = [turns.saturating_sub(1), turns, turns + 1, turns | 7];
    let wide = rng.pick(&[8, 16, 32, 61, 63]);
    let far = [usize::MAX, usize::MAX - below, usize::MAX >> 3, 65_535];
    vec![
        below,
        rng.below(turns.max(1) as u32) as usize,
        rng.pick(&edge),
        below + rng.pick(&[1 << wide, turns]),
        rng.pick(&far),
    ]
}

fn compare_turn(report: &mut Report, board: &[u8], turns: usize, turn: usize, refusal: u8) {
    let ours = naive::is_chosen(board, turn);
    let theirs = foreign::is_chosen(board, turn);
    report.count(refusal);
    if ours != theirs {
        report.differs(|| format!("{ours} but {theirs} of {turn}: {}", show(board, 0)));
    }
    if refusal == 0 {
        report.property("chosen", ours);
        report.property("not chosen", !ours && turn < turns);
        report.property("the last turn chosen", ours && turn + 1 == turns);
        report.property("the number of turns itself", turn == turns);
        let cut = turn > 65_535 && naive::is_chosen(board, turn % 65_536);
        report.property("chosen if cut to two bytes", cut);
        report.property("the highest number of all", turn == usize::MAX);
    } else {
        let bit = board
            .get(15 + turn / 8)
            .map_or(0, |byte| byte >> (turn % 8) & 1);
        report.property("a bit that stands in no board", bit == 1);
    }
}
