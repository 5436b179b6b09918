//! Reading a sheet, and reading a short one.

use slopeboard_reference::gen::{self, Encoded, Rng};
use slopeboard_reference::handmade;
use slopeboard_reference::limits::{MOST_SHORT_TURNS, MOST_TURNS, NUMBERS_PER_TURN};
use slopeboard_reference::naive::{self, Counts};

use crate::foreign::{self, ReadAnswer};
use crate::report::{show, Report};

/// Places before and after the lent table that must stay as they are.
const GUARD: usize = 16;

/// Bytes put behind each sheet, so that reading on is no accident that goes
/// unseen.
const BEHIND: usize = 16;

const TYPICAL_SHEETS: u32 = 120_000;

/// A reader in both versions, and the most turns that it takes.
struct Reader {
    ours: fn(&[u8], &mut [u16]) -> Result<Counts, u8>,
    theirs: fn(&[u8], &mut [u16]) -> ReadAnswer,
    most_turns: usize,
}

const FULL: Reader = Reader {
    ours: naive::read,
    theirs: foreign::read,
    most_turns: MOST_TURNS,
};

const SHORT: Reader = Reader {
    ours: naive::read_short,
    theirs: foreign::read_short,
    most_turns: MOST_SHORT_TURNS,
};

/// Compares the two versions of the reader on all inputs.
pub fn run(seed: u64) -> bool {
    let report = compared(FULL, seed, "read");
    report.finish((1..=11).chain([19]))
}

/// The same for the short reader.
pub fn run_short(seed: u64) -> bool {
    let report = compared(SHORT, seed, "short");
    report.finish((1..=3).chain(5..=11).chain([19, 20]))
}

fn compared(reader: Reader, seed: u64, name: &'static str) -> Report {
    let mut run = Run {
        reader,
        rng: Rng::new(seed),
        report: Report::new(name),
        ours: Vec::new(),
        theirs: Vec::new(),
        bytes: Vec::new(),
    };
    run.typical_sheets();
    run.sheets_by_hand();
    run.sheets_without_turns();
    run.sheets_at_the_limit();
    run.header_sweeps();
    run.map_sweeps();
    run.cuts();
    run.damage();
    run.bounds();
    run.marks_and_tails();
    run.several_faults();
    run.report
}

/// The state of a run. The buffers are kept to spare the allocator.
struct Run {
    reader: Reader,
    rng: Rng,
    report: Report,
    ours: Vec<u16>,
    theirs: Vec<u16>,
    bytes: Vec<u8>,
}

impl Run {
    /// Accepted sheets of all sizes, most of them with enough room.
    fn typical_sheets(&mut self) {
        for _ in 0..TYPICAL_SHEETS {
            let sheet = self.typical().bytes;
            let wanted = gen::places_wanted(&sheet);
            match self.rng.below(12) {
                0 => self.case(&sheet, wanted - 1),
                1..=5 => self.case(&sheet, wanted + 1),
                _ => self.case(&sheet, wanted),
            }
        }
        for _ in 0..500 {
            let sheet = self.typical().bytes;
            self.case_with_tables(&sheet);
            let places = self.rng.below(gen::places_wanted(&sheet) as u32);
            self.case(&sheet, places as usize);
        }
    }

    fn sheets_by_hand(&mut self) {
        for sheet in handmade::sheets() {
            self.case_with_tables(&sheet);
        }
    }

    fn sheets_without_turns(&mut self) {
        for groomers in 1..=16 {
            for slopes in 1..=120 {
                let sheet = [b'G', b'R', b'M', groomers, slopes, 0, 0];
                self.case(&sheet, usize::from(slopes) % 3);
            }
        }
    }

    /// Sheets with the most turns, one less, one more and two more, complete
    /// in every record.
    fn sheets_at_the_limit(&mut self) {
        let most = self.reader.most_turns;
        for turns in most - 1..=most + 2 {
            for _ in 0..70 {
                let sheet = gen::typical(&mut self.rng, turns).bytes;
                for places in [
                    turns * NUMBERS_PER_TURN - 1,
                    turns * NUMBERS_PER_TURN,
                    turns * NUMBERS_PER_TURN + 1,
                ] {
                    self.case(&sheet, places);
                }
            }
        }
    }

    /// Every value in each byte of the header.
    fn header_sweeps(&mut self) {
        for turns in [0, 1, 1, 2, 4, 9, 16, 40, 144, 300] {
            let sheet = gen::typical(&mut self.rng, turns).bytes;
            for place in 0..gen::HEADER_LEN {
                for sheet in gen::byte_sweep(&sheet, place) {
                    self.case(&sheet, gen::places_wanted(&sheet));
                }
            }
        }
    }

    /// Every value as the first map and as a later one.
    fn map_sweeps(&mut self) {
        for turns in 2..18 {
            let Encoded { bytes, maps } = gen::typical(&mut self.rng, turns);
            let later = maps[self.rng.between(1, turns as u32 - 1) as usize];
            for place in [maps[0], later, maps[turns - 1]] {
                for sheet in gen::byte_sweep(&bytes, place) {
                    self.case(&sheet, turns * NUMBERS_PER_TURN);
                }
            }
        }
    }

    /// Every length of several sheets. The rest of the sheet lies behind the
    /// cut, where a careless reader would find it.
    fn cuts(&mut self) {
        for turns in [0, 1, 2, 3, 5, 8, 13, 21, 34, 55, 89, 144, 233, 400] {
            let sheet = gen::typical(&mut self.rng, turns).bytes;
            for len in 0..=sheet.len() {
                let (sheet, behind) = sheet.split_at(len);
                let behind = &behind[..behind.len().min(BEHIND)];
                self.case_before(sheet, behind, turns * NUMBERS_PER_TURN);
            }
        }
    }

    /// One byte changed, anywhere in the sheet.
    fn damage(&mut self) {
        for _ in 0..600 {
            let sheet = self.typical().bytes;
            for _ in 0..40 {
                let sheet = gen::damaged(&mut self.rng, &sheet);
                self.case(&sheet, gen::places_wanted(&sheet));
            }
        }
    }

    /// Values at the bounds and over them.
    fn bounds(&mut self) {
        for second in [false, true] {
            for sheet in gen::bound_grid(second) {
                let wanted = gen::places_wanted(&sheet);
                self.case(&sheet, wanted);
                // A record with a value out of bounds, but not yet whole.
                let (short, behind) = sheet.split_at(sheet.len() - 1);
                self.case_before(short, behind, wanted);
            }
        }
        for sheet in gen::single_bounds() {
            self.case_with_tables(&sheet);
        }
        for _ in 0..8000 {
            let turns = self.rng.between(1, 60) as usize;
            let shift = gen::shift(&mut self.rng, turns);
            let sheet = gen::with_bound(&mut self.rng, &shift);
            self.case(&sheet, turns * NUMBERS_PER_TURN);
        }
    }

    fn marks_and_tails(&mut self) {
        for _ in 0..60 {
            let sheet = self.typical().bytes;
            for sheet in gen::wrong_marks(&sheet) {
                self.case(&sheet, gen::places_wanted(&sheet));
            }
            for _ in 0..30 {
                let sheet = gen::trailing(&mut self.rng, &sheet);
                self.case_with_tables(&sheet);
            }
        }
    }

    /// Two or three faults at once: the first in the order counts.
    fn several_faults(&mut self) {
        for _ in 0..12_000 {
            let turns = self.rng.between(1, 12) as usize;
            let shift = gen::shift(&mut self.rng, turns);
            let faults = self.rng.between(1, 3);
            let sheet = gen::with_faults(&mut self.rng, &shift, faults);
            let wanted = gen::places_wanted(&sheet);
            let places = (wanted + self.rng.below(3) as usize).saturating_sub(1);
            self.case(&sheet, places);
        }
    }

    fn typical(&mut self) -> Encoded {
        let turns = gen::turn_count(&mut self.rng);
        gen::typical(&mut self.rng, turns)
    }

    /// The case with a table that fits, one place less and one place more.
    fn case_with_tables(&mut self, sheet: &[u8]) {
        let places = gen::places_wanted(sheet);
        self.case(sheet, places.saturating_sub(1));
        self.case(sheet, places);
        self.case(sheet, places + 1);
    }

    fn case(&mut self, sheet: &[u8], places: usize) {
        let mut behind = [0; BEHIND];
        behind[..8].copy_from_slice(&self.rng.draw().to_be_bytes());
        self.case_before(sheet, &behind, places);
    }

    /// Compares the two readers on one sheet. All that surrounds the lent
    /// table, and the table itself, must come out the same.
    fn case_before(&mut self, sheet: &[u8], behind: &[u8], places: usize) {
        let first = self.lay_out(sheet, behind, places);
        let sheet = &self.bytes[first..first + sheet.len()];
        let lent = GUARD..GUARD + places;
        let ours = answer((self.reader.ours)(sheet, &mut self.ours[lent.clone()]));
        let theirs = (self.reader.theirs)(sheet, &mut self.theirs[lent.clone()]);
        self.report.count(ours.refusal);
        if ours != theirs {
            let text = || format!("{ours:?} but {theirs:?}: {}", show(sheet, places));
            self.report.differs(text);
        } else if let Some(place) = first_difference(&self.ours, &self.theirs) {
            let place = place as isize - GUARD as isize;
            let text = || format!("at place {place}: {}", show(sheet, places));
            self.report.differs(text);
        }
        if ours.refusal == 0 {
            let turns = usize::from(ours.turns);
            let first_map = sheet.get(gen::HEADER_LEN).copied();
            let table = &self.ours[lent][..turns * NUMBERS_PER_TURN];
            let most = turns == self.reader.most_turns;
            self.report.property("accepted with the most turns", most);
            note_properties(&mut self.report, first_map, table);
        }
    }

    /// Fills both tables and their guards with the same noise, and puts the
    /// sheet at an address of any parity. Gives the sheet's place.
    fn lay_out(&mut self, sheet: &[u8], behind: &[u8], places: usize) -> usize {
        self.ours.clear();
        while self.ours.len() < places + 2 * GUARD {
            let noise = self.rng.draw();
            self.ours
                .extend([0, 16, 32, 48].map(|by| (noise >> by) as u16));
        }
        self.ours.truncate(places + 2 * GUARD);
        self.theirs.clone_from(&self.ours);
        let first = self.rng.below(4) as usize;
        self.bytes.clear();
        self.bytes.resize(first, 0);
        self.bytes.extend(sheet);
        self.bytes.extend(behind);
        first
    }
}

/// The judge's result in the form that the library gives.
fn answer(result: Result<Counts, u8>) -> ReadAnswer {
    match result {
        Ok(counts) => ReadAnswer {
            refusal: 0,
            groomers: counts.groomers as u16,
            slopes: counts.slopes as u16,
            turns: counts.turns as u16,
        },
        Err(refusal) => ReadAnswer {
            refusal,
            groomers: 0,
            slopes: 0,
            turns: 0,
        },
    }
}

fn first_difference(ours: &[u16], theirs: &[u16]) -> Option<usize> {
    if ours == theirs {
        return None;
    }
    ours.iter().zip(theirs).position(|(a, b)| a != b)
}

/// Notes which of the shapes that must occur this table has.
fn note_properties(report: &mut Report, first_map: Option<u8>, table: &[u16]) {
    let turns = table.len() / NUMBERS_PER_TURN;
    report.property("accepted with 0 turns", turns == 0);
    let pairs = || {
        table
            .chunks_exact(NUMBERS_PER_TURN)
            .zip(table.chunks_exact(NUMBERS_PER_TURN).skip(1))
    };
    let equal = pairs().any(|(a, b)| a == b);
    report.property("accepted with equal records", equal);
    let touching = pairs().any(|(a, b)| a[1] == b[1] && a[2] + a[3] == b[2]);
    report.property("accepted with an end that touches a start", touching);
    let drivers = || table.chunks_exact(NUMBERS_PER_TURN).map(|row| row[5]);
    let named = drivers().any(|driver| driver > 0);
    report.property("accepted with drivers", named);
    report.property("accepted without drivers", turns > 0 && !named);
    report.property(
        "accepted with driver 40",
        drivers().any(|driver| driver == 40),
    );
    let first = first_map == Some(0x3F) && drivers().next() == Some(0);
    report.property("accepted with a first record that names driver 0", first);
    let no_more = pairs().any(|(a, b)| a[5] > 0 && b[5] == 0);
    report.property("accepted with no driver after one", no_more);
}
