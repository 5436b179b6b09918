//! Playing a board with delays.

use slopeboard_reference::boards;
use slopeboard_reference::gen::{self, Rng, Shift};
use slopeboard_reference::naive::play::spans;
use slopeboard_reference::naive::turns::turns_of;
use slopeboard_reference::naive::{self, board::opened};
use slopeboard_reference::shapes;

use crate::bytes::Lent;
use crate::foreign::{self, PlayAnswer, Standing};
use crate::placed::Placed;
use crate::report::Report;

/// Compares the two versions on all inputs.
pub fn run(seed: u64) -> bool {
    let mut run = Run {
        rng: Rng::new(seed),
        report: Report::new("play"),
        lent: Lent::default(),
        sheet: Placed::default(),
        board: Placed::default(),
        delays: Vec::new(),
    };
    run.right_boards();
    run.delays_at_their_bounds();
    run.faulty_boards();
    run.refused_sheets();
    run.report.finish((1..=17).chain([19, 24]))
}

struct Run {
    rng: Rng,
    report: Report,
    lent: Lent<Standing>,
    sheet: Placed,
    board: Placed,
    /// The delays, with more numbers behind them.
    delays: Vec<u16>,
}

impl Run {
    fn shift(&mut self, round: u32) -> Shift {
        let turns = match round % 200 {
            0 => self.rng.between(100, 400),
            1..=9 => self.rng.between(20, 100),
            _ => self.rng.below(20),
        };
        shapes::shift(&mut self.rng, round / 3 % shapes::SHAPES, turns as usize)
    }

    /// Delays for so many turns: none, short or long ones.
    fn some_delays(&mut self, turns: usize) -> Vec<u16> {
        let most = self.rng.pick(&[0, 5, 30, 120, 120]);
        let delay = |_| self.rng.between(0, most) as u16;
        (0..turns).map(delay).collect()
    }

    /// Boards that keep the rules, with a place for each groomer, more and
    /// fewer.
    fn right_boards(&mut self) {
        for round in 0..45_000 {
            let shift = self.shift(round);
            let sheet = gen::encode(&mut self.rng, &shift, 10).bytes;
            let board = boards::right(&mut self.rng, &shift.turns).bytes();
            let delays = self.some_delays(shift.turns.len());
            let groomers = usize::from(shift.groomers);
            self.case(&sheet, &board, &delays, groomers);
            self.note_spans(&shift, &board, &delays);
            let room = self.rng.pick(&[groomers - 1, groomers + 1, 16, 20]);
            self.case(&sheet, &board, &delays, room);
        }
    }

    /// Delays of 120 and 121 at any turn, and tables that are too short or too
    /// long.
    fn delays_at_their_bounds(&mut self) {
        for round in 0..6000 {
            let turns = self.rng.between(1, 12) as usize;
            let shift = shapes::shift(&mut self.rng, round % shapes::SHAPES, turns);
            let sheet = gen::encode(&mut self.rng, &shift, 10).bytes;
            let board = boards::right(&mut self.rng, &shift.turns).bytes();
            let mut delays = self.some_delays(turns);
            let turn = self.rng.below(turns as u32) as usize;
            delays[turn] = self.rng.pick(&[120, 121, 121, 255, 256, 65_535]);
            let room = self.rng.pick(&[0, 16, 16, 16]);
            self.case(&sheet, &board, &delays, room);
            let mut delays = self.some_delays(turns + 2);
            delays.truncate(self.rng.pick(&[0, turns - 1, turns, turns + 1, turns + 2]));
            self.case(&sheet, &board, &delays, room);
        }
    }

    /// Every kind of fault on right boards, mostly with right delays.
    fn faulty_boards(&mut self) {
        for round in 0..18_000 {
            let turns = self.rng.below(14) as usize;
            let shape = self.rng.below(shapes::SHAPES);
            let shift = shapes::shift(&mut self.rng, shape, turns);
            let sheet = gen::encode(&mut self.rng, &shift, 10).bytes;
            let board = boards::right(&mut self.rng, &shift.turns);
            let kind = round % boards::FAULTS;
            let board = boards::with_fault(&mut self.rng, &shift.turns, &board, kind);
            let count = turns + self.rng.pick(&[0, 0, 0, 1]);
            let delays = self.some_delays(count);
            self.case(&sheet, &board, &delays, 16);
        }
    }

    /// The sheet is judged first of all.
    fn refused_sheets(&mut self) {
        for _ in 0..4000 {
            let turns = self.rng.between(1, 8) as usize;
            let shift = gen::shift(&mut self.rng, turns);
            let sheet = gen::encode(&mut self.rng, &shift, 10).bytes;
            let board = boards::right(&mut self.rng, &shift.turns).bytes();
            let delays = self.some_delays(turns);
            let mut overfull = sheet.clone();
            overfull[5..7].copy_from_slice(&[1, 0x91]);
            for sheet in [
                overfull,
                gen::damaged(&mut self.rng, &sheet),
                gen::with_bound(&mut self.rng, &shift),
                gen::with_faults(&mut self.rng, &shift, 1),
                gen::trailing(&mut self.rng, &sheet),
            ] {
                self.case(&sheet, &board, &delays, 16);
            }
        }
    }

    fn case(&mut self, sheet: &[u8], board: &[u8], delays: &[u16], room: usize) {
        self.sheet.put(&mut self.rng, sheet);
        self.board.put(&mut self.rng, board);
        self.delays.clear();
        self.delays.extend(delays);
        self.delays.extend([0, 121, 0, 65_535]);
        let (sheet, board) = (self.sheet.input(), self.board.input());
        let delays = &self.delays[..delays.len()];
        let ours = |list: &mut [Standing]| judged(sheet, board, delays, list);
        let theirs = |list: &mut [Standing]| foreign::play(sheet, board, delays, list);
        let (rng, report) = (&mut self.rng, &mut self.report);
        let answer = self.lent.compare(rng, report, (ours, theirs), room, sheet);
        if answer.refusal == 0 {
            let list = self.lent.written(answer.groomers.into());
            note_properties(report, list);
        }
    }

    /// Notes what the delays did to the turns.
    fn note_spans(&mut self, shift: &Shift, board: &[u8], delays: &[u16]) {
        let turns = turns_of(&shift.turns.concat());
        let chosen = opened(board).expect("the board is right").chosen;
        let (mut held_up, mut cut, mut never) = (false, false, false);
        for groomer in 1..=u32::from(shift.groomers) {
            for span in spans(&turns, &chosen, delays, groomer) {
                held_up |= span.from > turns[span.turn].start;
                cut |= span.from < 960 && span.until > 960;
                never |= span.from >= 960;
            }
        }
        self.report.property("a turn held up", held_up);
        self.report.property("a turn cut off by the end", cut);
        self.report.property("a turn that never begins", never);
        let on_time = delays.iter().all(|&delay| delay == 0);
        self.report
            .property("no delays", on_time && !delays.is_empty());
    }
}

/// Notes which standings occur.
fn note_properties(report: &mut Report, list: &[Standing]) {
    let any = |holds: fn(&Standing) -> bool| list.iter().any(holds);
    report.property(
        "a groomer that stands all day",
        any(|one| one.standing == 960),
    );
    report.property(
        "a groomer that works all day",
        any(|one| one.working == 960),
    );
    report.property("a turn in hand at the end", any(|one| one.turn != 65_535));
    let worked = |one: &Standing| one.working > 0 && one.turn == 65_535;
    report.property("no turn in hand at the end", any(worked));
    let cut = |one: &Standing| one.driving % 10 != 0;
    report.property("driving over cut off by the end", any(cut));
    report.property("sixteen groomers", list.len() == 16);
}

/// The judge's answer and list in the form that the library gives.
fn judged(sheet: &[u8], board: &[u8], delays: &[u16], list: &mut [Standing]) -> PlayAnswer {
    let to_ours = |one: &Standing| naive::Standing {
        working: one.working,
        driving: one.driving,
        standing: one.standing,
        turn: one.turn,
    };
    let mut ours: Vec<naive::Standing> = list.iter().map(to_ours).collect();
    let result = naive::play(sheet, board, delays, &mut ours);
    for (place, one) in list.iter_mut().zip(ours) {
        *place = Standing {
            working: one.working,
            driving: one.driving,
            standing: one.standing,
            turn: one.turn,
        };
    }
    let (refusal, groomers) = result.map_or_else(|number| (number, 0), |count| (0, count));
    PlayAnswer { refusal, groomers }
}
