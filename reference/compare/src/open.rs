//! Opening a board, and its steps.

use slopeboard_reference::gen::Rng;
use slopeboard_reference::{boards, naive, shapes};

use crate::foreign;
use crate::placed::Placed;
use crate::report::{show, Report};

/// Compares the two versions on all boards.
pub fn run(seed: u64) -> bool {
    let mut run = Run {
        rng: Rng::new(seed),
        report: Report::new("open"),
        placed: Placed::default(),
    };
    run.right_boards();
    run.bare_boards();
    run.changed_bytes();
    run.lengths();
    run.large_boards();
    run.far_too_long();
    run.report.finish([12])
}

struct Run {
    rng: Rng,
    report: Report,
    placed: Placed,
}

/// A board with these counts and a clear map, and steps of any bytes.
fn bare(turns: u16, steps: u16) -> Vec<u8> {
    let mut board = b"GRB".to_vec();
    board.extend(turns.to_be_bytes());
    board.extend(steps.to_be_bytes());
    board.extend([0xA5; 8]);
    board.resize(15 + usize::from(turns).div_ceil(8), 0);
    board.extend((0..4 * usize::from(steps)).map(|place| place as u8));
    board
}

impl Run {
    /// Boards of real sheets, and what becomes of them by one fault.
    fn right_boards(&mut self) {
        for round in 0..24_000 {
            for board in boards::right_and_faulty(&mut self.rng, round) {
                self.case(&board);
            }
        }
    }

    /// Every pair of small counts; every bit of the last map byte.
    fn bare_boards(&mut self) {
        for turns in 0..70 {
            for steps in 0..72 {
                self.case(&bare(turns, steps));
            }
            let mut board = bare(turns, turns / 2);
            for bits in 0..=255 {
                if turns > 0 {
                    board[14 + usize::from(turns).div_ceil(8)] = bits;
                    self.case(&board);
                }
            }
        }
    }

    /// Every value in every byte of several boards.
    fn changed_bytes(&mut self) {
        for turns in [0, 1, 4, 7, 8, 9, 17] {
            let shift = shapes::shift(&mut self.rng, 0, turns);
            let board = boards::right(&mut self.rng, &shift.turns).bytes();
            for place in 0..board.len() {
                for value in 0..=255 {
                    let mut board = board.clone();
                    board[place] = value;
                    self.case(&board);
                }
            }
        }
    }

    /// Every length of several boards; the rest lies behind the cut.
    fn lengths(&mut self) {
        for turns in [0, 1, 3, 8, 20, 100] {
            let board = bare(turns, turns);
            for len in 0..=board.len() {
                let (board, behind) = board.split_at(len);
                self.placed.put_before(&mut self.rng, board, behind);
                self.compare();
            }
        }
    }

    /// More turns than any sheet has, up to the most that two bytes say.
    fn large_boards(&mut self) {
        for (turns, steps) in [
            (400, 400),
            (401, 401),
            (4095, 2),
            (16_384, 16_384),
            (32_767, 0),
            (32_768, 32_768),
            (65_529, 0),
            (65_535, 0),
            (65_535, 65_534),
            (65_535, 65_535),
        ] {
            for _ in 0..25 {
                let mut board = bare(turns, steps);
                self.case(&board);
                let place = 14 + usize::from(turns).div_ceil(8);
                board[place] = self.rng.pick(&[0x40, 0x80, 0xFF]);
                self.case(&board);
                board.pop();
                self.case(&board);
            }
        }
    }

    /// Boards too long by so much that the excess vanishes from a length of
    /// two bytes.
    fn far_too_long(&mut self) {
        for turns in 0..30 {
            for excess in [0xFFFF, 0x1_0000, 0x2_0000] {
                let mut board = bare(turns, turns / 2);
                board.resize(board.len() + excess, 0);
                self.case(&board);
            }
        }
    }

    fn case(&mut self, board: &[u8]) {
        self.placed.put(&mut self.rng, board);
        self.compare();
    }

    /// Compares the two versions on the board that has been placed.
    fn compare(&mut self) {
        let board = self.placed.input();
        let ours = naive::open(board);
        let theirs = foreign::open(board);
        self.report.count(ours);
        if ours != theirs {
            let text = || format!("{ours} but {theirs}: {}", show(board, 0));
            self.report.differs(text);
        }
        compare_steps(&mut self.report, board, ours == 0);
        if ours == 0 {
            let (turns, steps) = (&board[3..5], &board[5..7]);
            self.report.property("opens without turns", turns == [0, 0]);
            self.report.property("opens without steps", steps == [0, 0]);
            self.report
                .property("opens with a step a turn", turns == steps);
        }
    }
}

/// The steps must be the board's own bytes, at the very place.
fn compare_steps(report: &mut Report, board: &[u8], opens: bool) {
    let steps = naive::steps(board);
    let ours = foreign::Part {
        start: if opens { board.len() - steps.len() } else { 0 },
        length: steps.len(),
    };
    let theirs = foreign::steps(board);
    if ours != theirs {
        report.differs(|| format!("{ours:?} but {theirs:?}: {}", show(board, 0)));
    }
}
