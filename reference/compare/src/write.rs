//! Writing a sheet.

use slopeboard_reference::gen::{self, Rng, Row, Shift};
use slopeboard_reference::limits::NUMBERS_PER_TURN;
use slopeboard_reference::{naive, shapes, worked};

use crate::bytes::{answer, Lent};
use crate::foreign;
use crate::report::Report;

/// Counts at their bounds and far beyond what a byte or two hold. The last
/// ones would be right if they were cut to fewer bits.
const COUNTS: [u32; 17] = [
    0,
    1,
    2,
    15,
    16,
    17,
    119,
    120,
    121,
    255,
    256,
    257,
    272,
    65_535,
    65_536,
    65_537,
    u32::MAX,
];

/// Values of each field at, under and over its bounds, for 2 groomers and 3
/// slopes.
const VALUES: [&[u16]; NUMBERS_PER_TURN] = [
    &[0, 1, 2, 3, 4, 255, 256, 257, 259, 65_535],
    &[0, 1, 2, 3, 255, 256, 257, 258, 65_535],
    &[0, 1, 899, 900, 901, 959, 960, 961, 64_576, 65_475, 65_535],
    &[0, 1, 59, 60, 61, 959, 960, 961, 64_636, 65_476, 65_535],
    &[0, 1, 59_999, 60_000, 60_001, 65_535],
    &[0, 1, 2, 39, 40, 41, 255, 256, 257, 296, 65_535],
];

/// Compares the two writers on all inputs.
pub fn run(seed: u64) -> bool {
    let mut run = Run {
        rng: Rng::new(seed),
        report: Report::new("write"),
        lent: Lent::default(),
        show: Vec::new(),
        table: Vec::new(),
    };
    run.typical_tables();
    run.orders();
    run.every_order();
    run.faults_in_any_order();
    run.counts();
    run.lengths();
    run.tables_at_the_limit();
    run.bounds();
    run.several_faults();
    run.report.finish([3, 4, 6, 7, 8, 9, 11, 18, 19])
}

struct Run {
    rng: Rng,
    report: Report,
    lent: Lent<u8>,
    /// The input as bytes, for messages and for the table's address.
    show: Vec<u8>,
    table: Vec<u16>,
}

impl Run {
    /// Tables of all shapes and sizes that are accepted, most with room.
    fn typical_tables(&mut self) {
        for round in 0..70_000 {
            let shape = round % shapes::SHAPES;
            let turns = gen::turn_count(&mut self.rng).min(if round % 40 == 0 { 400 } else { 60 });
            let shift = shapes::shift(&mut self.rng, shape, turns);
            let table = shift.turns.concat();
            let (groomers, slopes) = (shift.groomers.into(), shift.slopes.into());
            let len = self.case(groomers, slopes, &table, 4010);
            match self.rng.below(6) {
                0 => self.case(groomers, slopes, &table, len - 1),
                1..=3 => self.case(groomers, slopes, &table, len + 1),
                _ => self.case(groomers, slopes, &table, len),
            };
        }
    }

    /// One table in several orders, many with equal turns. The room is also
    /// that of a sheet with the turns as the table has them.
    fn orders(&mut self) {
        for round in 0..6000 {
            let turns = gen::turn_count(&mut self.rng).min(if round % 40 == 0 { 400 } else { 40 });
            let shift = if round % 2 == 0 {
                shapes::few_kinds(&mut self.rng, turns)
            } else {
                shapes::shift(&mut self.rng, round / 2 % shapes::SHAPES, turns)
            };
            self.order(&shift);
            let any = shapes::shuffled(&mut self.rng, &shift);
            self.order(&any);
            self.order(&shapes::falling(&shift));
            self.order(&shapes::sorted(&shift));
        }
    }

    /// Every order of the worked shift's turns.
    fn every_order(&mut self) {
        for order in 0..256 {
            let order = [0, 2, 4, 6].map(|by| order >> by & 3);
            if (0..4).all(|turn| order.contains(&turn)) {
                let turns = order.map(|turn| worked::TURNS[turn]);
                self.case(2, 3, &turns.concat(), 38);
            }
        }
    }

    fn order(&mut self, shift: &Shift) {
        let table = shift.turns.concat();
        let (groomers, slopes) = (shift.groomers.into(), shift.slopes.into());
        let len = self.case(groomers, slopes, &table, 4010);
        let as_it_stands = gen::encode(&mut self.rng, shift, 0).bytes.len();
        for room in [len - 1, as_it_stands] {
            self.case(groomers, slopes, &table, room);
        }
        let turns = &shift.turns;
        let report = &mut self.report;
        report.property("shorter than as the table stands", len < as_it_stands);
        report.property("longer than as the table stands", len > as_it_stands);
        report.property("a table that rises", turns.is_sorted() && turns.len() > 1);
        let falls = turns.is_sorted_by(|a, b| a > b) && turns.len() > 1;
        report.property("a table that falls", falls);
        let all_equal = turns.windows(2).all(|two| two[0] == two[1]);
        report.property("equal turns only", all_equal && turns.len() > 1);
        let again = |(place, turn)| turns[..place].contains(turn) && turns[place - 1] != *turn;
        let apart = turns.iter().enumerate().any(again);
        report.property("equal turns apart from each other", apart);
    }

    /// Faults in two turns: the first one in the table counts, wherever its
    /// turn would be written.
    fn faults_in_any_order(&mut self) {
        for _ in 0..4000 {
            let turns = self.rng.between(2, 12) as usize;
            let mut shift = gen::shift(&mut self.rng, turns);
            let places = self.rng.shuffled(turns);
            for &place in &places[..2] {
                let field = self.rng.below(NUMBERS_PER_TURN as u32) as usize;
                shift.turns[place][field] = self.rng.pick(VALUES[field]);
            }
            let (groomers, slopes) = (shift.groomers.into(), shift.slopes.into());
            let refusal = |shift: &Shift| {
                let mut sheet = [0; 200];
                naive::write(groomers, slopes, &shift.turns.concat(), &mut sheet).err()
            };
            let sorted = shapes::sorted(&shift);
            let other = refusal(&shift) != refusal(&sorted);
            self.report.property("another refusal once sorted", other);
            for shift in [&shift, &sorted, &shapes::falling(&shift)] {
                let room = self.rng.pick(&[0, 200]);
                self.case(groomers, slopes, &shift.turns.concat(), room);
            }
        }
    }

    /// Every pair of counts, with no turn and with one.
    fn counts(&mut self) {
        for groomers in COUNTS {
            for slopes in COUNTS {
                for table in [
                    &[][..],
                    &[1, 1, 0, 1, 1, 0],
                    &[0; 5],
                    &[0; NUMBERS_PER_TURN],
                ] {
                    for room in [0, 6, 7, 8, 15, 16, 17] {
                        self.case(groomers, slopes, table, room);
                    }
                }
            }
        }
    }

    /// Every length of a table, whole turns or not.
    fn lengths(&mut self) {
        for _ in 0..60 {
            let table = gen::shift(&mut self.rng, 12).turns.concat();
            for len in 0..table.len() {
                let (groomers, slopes) = self.rng.pick(&[(16, 120), (16, 120), (0, 1), (1, 1)]);
                let room = self.rng.pick(&[0, 7, 500]);
                self.case(groomers, slopes, &table[..len], room);
            }
        }
    }

    /// Tables with 399 to 402 turns, some with part of a turn more.
    fn tables_at_the_limit(&mut self) {
        for round in 0..160 {
            let shift = gen::shift(&mut self.rng, 402);
            let table = shift.turns.concat();
            let slopes = self.rng.pick(&[120, 120, 0]);
            for turns in [399, 400, 401, 402] {
                let len = self.case(16, slopes, &table[..turns * NUMBERS_PER_TURN], 4010);
                self.case(16, slopes, &table[..turns * NUMBERS_PER_TURN], len);
                self.case(
                    16,
                    slopes,
                    &table[..turns * NUMBERS_PER_TURN],
                    len.saturating_sub(1),
                );
                let part = (turns * NUMBERS_PER_TURN + round % NUMBERS_PER_TURN).min(table.len());
                self.case(16, slopes, &table[..part], 4010);
            }
        }
    }

    /// Every mixture of two values at their bounds, in the only turn, in the
    /// second of two and in the first of two.
    fn bounds(&mut self) {
        let inner = [1, 1, 900, 60, 100, 0];
        for first in 0..NUMBERS_PER_TURN {
            for second in first..NUMBERS_PER_TURN {
                for &a in VALUES[first] {
                    for &b in VALUES[second] {
                        let mut turn = inner;
                        turn[first] = a;
                        turn[second] = b;
                        self.bound_tables(turn);
                    }
                }
            }
        }
    }

    fn bound_tables(&mut self, turn: Row) {
        let good = [2, 2, 900, 60, 100, 0];
        for table in [&turn[..], &[good, turn].concat(), &[turn, good].concat()] {
            for room in [0, 40] {
                self.case(2, 3, table, room);
            }
        }
    }

    /// Several causes in one table: the first in the order counts.
    fn several_faults(&mut self) {
        for _ in 0..14_000 {
            let turns = self.rng.between(1, 12) as usize;
            let shift = gen::shift(&mut self.rng, turns);
            let mut table = shift.turns.concat();
            for _ in 0..self.rng.below(4) {
                let place = self.rng.below(table.len() as u32) as usize;
                table[place] = self.rng.pick(VALUES[place % NUMBERS_PER_TURN]);
            }
            table.truncate(table.len() - self.rng.pick(&[0, 0, 0, 0, 0, 0, 1, 5, 6]));
            let groomers = self.rng.pick(&[u32::from(shift.groomers), 16, 16, 16, 17]);
            let room = self.rng.pick(&[0, 7, 16, 130, 130]);
            self.case(groomers, shift.slopes.into(), &table, room);
        }
    }

    /// Compares the two writers on one table and gives the bytes written.
    fn case(&mut self, groomers: u32, slopes: u32, table: &[u16], room: usize) -> usize {
        self.show.clear();
        self.show.extend(groomers.to_be_bytes());
        self.show.extend(slopes.to_be_bytes());
        self.show
            .extend(table.iter().flat_map(|number| number.to_be_bytes()));
        // Right numbers behind the table, where a careless writer goes on.
        self.table.clear();
        self.table.extend(table);
        self.table.extend([1, 1, 0, 1, 1, 0]);
        let table = &self.table[..table.len()];
        let ours = |out: &mut [u8]| answer(naive::write(groomers, slopes, table, out));
        let theirs = |out: &mut [u8]| foreign::write(groomers, slopes, table, out);
        let (rng, report) = (&mut self.rng, &mut self.report);
        let calls = (ours, theirs);
        let answer = self.lent.compare(rng, report, calls, room, &self.show);
        if answer.refusal == 0 {
            let turns = table.len() / NUMBERS_PER_TURN;
            self.report.property("written with 0 turns", turns == 0);
            self.report.property("written with 400 turns", turns == 400);
            let drivers = || table.chunks_exact(NUMBERS_PER_TURN).map(|row| row[5]);
            let named = drivers().any(|driver| driver > 0);
            self.report.property("written with drivers", named);
            let plain = turns > 0 && !named;
            self.report.property("written without drivers", plain);
            let first = turns > 0 && self.lent.written(8)[7] == 0x3F;
            self.report.property("written with a first driver", first);
            self.report
                .property("written with a driver later on", named && !first);
            let full = answer.bytes as usize == room;
            self.report.property("written into exact room", full);
        }
        answer.bytes as usize
    }
}
