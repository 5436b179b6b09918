//! The drivers' listing.

use slopeboard::MOST_TEXT_BYTES;
use slopeboard_reference::gen::{self, Rng, Row, Shift};
use slopeboard_reference::{naive, shapes};

use crate::bytes::{answer, Lent};
use crate::foreign;
use crate::placed::Placed;
use crate::report::{show, Report};
use crate::sheets;

/// The most bytes of a listing, as the C header counts them.
const LONGEST: usize = 3704;

/// How many of the sheets with the longest listing are compared.
const LONGEST_SHEETS: u32 = 300;

/// Compares the two listings on all sheets.
pub fn run(seed: u64) -> bool {
    let mut rng = Rng::new(seed);
    let mut run = Run {
        report: Report::new("list"),
        lent: Lent::default(),
        placed: Placed::default(),
    };
    sheets::each(&mut rng, |rng, sheet| run.rooms(rng, sheet));
    for _ in 0..LONGEST_SHEETS {
        let shift = longest(&mut rng);
        let sheet = gen::encode(&mut rng, &shift, 10).bytes;
        run.rooms(&mut rng, &sheet);
    }
    run.report.finish((1..=11).chain([19]))
}

/// A turn on each of 120 slopes, for each groomer one behind the other with
/// ten minutes or more between them, with as many digits as a start, an end
/// and a worth can have. Each of them also has a poor turn on its slope and,
/// but for the last ones, a poor turn of its groomer, so that its step counts
/// twice and the ceiling has the most digits.
fn longest(rng: &mut Rng) -> Shift {
    let slopes = rng.shuffled(120);
    let mut turns: Vec<Row> = Vec::new();
    for (turn, slope) in slopes.iter().enumerate() {
        let (slope, groomer) = (*slope as u16 + 1, turn as u16 % 16 + 1);
        let start = (100 * (1 + turn as u32 / 16) + rng.below(50)) as u16;
        let length = rng.between(1, 41) as u16;
        let worth = rng.between(50_000, 60_000) as u16;
        turns.push([slope, groomer, start, length, worth, 0]);
        turns.push([slope, 17 - groomer, 900, rng.between(1, 60) as u16, 1, 0]);
        // On the slope of a turn that ends later.
        if let Some(later) = slopes.get(turn + 16) {
            turns.push([*later as u16 + 1, groomer, start, length + 1, 1, 0]);
        }
    }
    let shift = Shift {
        groomers: 16,
        slopes: 120,
        turns,
    };
    shapes::shuffled(rng, &shift)
}

struct Run {
    report: Report,
    lent: Lent<u8>,
    placed: Placed,
}

impl Run {
    /// The sheet with room for any listing, and if it is accepted also with
    /// the room that its listing needs, one byte less or one byte more.
    fn rooms(&mut self, rng: &mut Rng, sheet: &[u8]) {
        if let Some(len) = self.case(rng, sheet, MOST_TEXT_BYTES) {
            if len > LONGEST {
                let text = || format!("a listing of {len} bytes: {}", show(sheet, len));
                self.report.differs(text);
            }
            let room = rng.pick(&[len - 1, len, len, len + 1]);
            self.case(rng, sheet, room);
        }
    }

    fn case(&mut self, rng: &mut Rng, sheet: &[u8], room: usize) -> Option<usize> {
        self.placed.put(rng, sheet);
        let sheet = self.placed.input();
        let ours = |out: &mut [u8]| answer(naive::listing(sheet, out));
        let theirs = |out: &mut [u8]| foreign::list(sheet, out);
        let (report, calls) = (&mut self.report, (ours, theirs));
        let answer = self.lent.compare(rng, report, calls, room, sheet);
        let len = answer.bytes as usize;
        if answer.refusal == 0 {
            note_properties(report, self.lent.written(len), len == room);
        }
        (answer.refusal == 0).then_some(len)
    }
}

/// Notes which of the shapes that must occur this listing has.
fn note_properties(report: &mut Report, text: &[u8], exact: bool) {
    let text = std::str::from_utf8(text).expect("the listing is plain text");
    let mut lines = text.lines().peekable();
    let (mut empty, mut busy) = (false, 0);
    let mut most = 0;
    while let Some(line) = lines.next() {
        let heading = line.starts_with("groomer");
        let next_heading = lines.peek().is_some_and(|next| !next.contains('-'));
        empty |= heading && next_heading;
        busy = if line.contains('-') { busy + 1 } else { 0 };
        most = most.max(busy);
    }
    report.property("listed with a groomer that has no turn", empty);
    report.property("listed with over 5 turns of a groomer", most > 5);
    report.property("listed with the most bytes", text.len() == LONGEST);
    report.property("listed into exact room", exact);
}
