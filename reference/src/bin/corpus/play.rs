//! Cases for playing a board with delays.

use slopeboard_reference::boards::{self, planned};
use slopeboard_reference::gen::{self, Rng, Row};
use slopeboard_reference::shapes;
use slopeboard_reference::worked::{sheet_of, BOARD, SHEET};

use crate::entries::{board_and_delays, PLAY};
use crate::named::table;
use crate::{Corpus, Input};

/// Adds all cases of this entry.
pub fn add(corpus: &mut Corpus) {
    example_cases(corpus);
    refused_cases(corpus);
    time_cases(corpus);
    seeded_cases(corpus);
}

fn case(corpus: &mut Corpus, name: &str, pair: [&[u8]; 2], delays: &[u16], places: usize) {
    let [sheet, board] = pair;
    let input = Input {
        lent: [4 * places, 0],
        front: sheet,
        rest: &board_and_delays(board, delays),
    };
    corpus.add(PLAY, name, input);
}

/// The worked shift with delays at their bound and with all numbers of places.
fn example_cases(corpus: &mut Corpus) {
    for places in [0, 1, 2, 3, 20] {
        let name = format!("2 groomers, {places} places");
        case(corpus, &name, [&SHEET, &BOARD], &[0; 4], places);
    }
    for turn in 0..4 {
        for delay in [120, 121] {
            let mut delays = [7; 4];
            delays[turn] = delay;
            let name = format!("delay {delay} of turn {turn}");
            case(corpus, &name, [&SHEET, &BOARD], &delays, 2);
        }
    }
    for count in [0, 3, 5] {
        let name = format!("{count} delays");
        case(corpus, &name, [&SHEET, &BOARD], &vec![0; count], 2);
    }
    case(
        corpus,
        "delays far too long",
        [&SHEET, &BOARD],
        &[65_535; 4],
        0,
    );
}

/// Sheets without turns. Two causes at once are in `orders`.
fn refused_cases(corpus: &mut Corpus) {
    let sheet = b"GRM\x10\x78\0\0";
    case(corpus, "no board", [sheet, &[0; 15]], &[], 16);
    let none = planned(sheet);
    for places in [15, 16] {
        case(corpus, "no turns", [sheet, &none], &[], places);
    }
    case(corpus, "no turns, a delay", [sheet, &none], &[0], 16);
}

/// One groomer's turns, each by start, end and delay: some hold up the next, some
/// last to the end of the day.
const TIMES: &str = "
0 held up by a delay of 120: 100 200 120, 210 300 7
0 a delay of 40 holds nothing up: 100 200 40, 250 300 0
0 a delay of 41 does: 100 200 41, 250 300 0
0 worked past the last minute: 900 960 120
0 one minute of driving over, no turn in hand: 900 959 0
0 worked up to the last minute: 900 959 1
0 nine minutes of driving over, no turn in hand: 900 951 0
0 worked in all minutes: 0 960 120
0 the next one from minute 959: 0 830 119, 840 850 0
0 the next one from minute 960: 0 830 120, 840 850 0
0 three not in order: 850 950 30, 100 200 0, 700 800 70
0 two not in order: 500 600 0, 100 200 0
";

fn time_cases(corpus: &mut Corpus) {
    for (_, name, times) in table(TIMES) {
        let turn = |(time, slope): (&Vec<u16>, u16)| [slope, 1, time[0], time[1] - time[0], 9, 0];
        let turns: Vec<Row> = times.iter().zip(1..).map(turn).collect();
        let delays: Vec<u16> = times.iter().map(|time| time[2]).collect();
        let sheet = sheet_of(1, 9, &turns);
        case(corpus, name, [&sheet, &planned(&sheet)], &delays, 2);
    }
}

/// Right boards of drawn sheets, some of them not the planner's, and a large
/// one.
fn seeded_cases(corpus: &mut Corpus) {
    let mut rng = Rng::new(16);
    for round in 0..14 {
        let turns = if round == 13 { 400 } else { rng.below(30) };
        let shape = if round == 13 { 2 } else { round };
        let shift = shapes::shift(&mut rng, shape % shapes::SHAPES, turns as usize);
        let sheet = gen::encode(&mut rng, &shift, 10).bytes;
        let board = boards::right(&mut rng, &shift.turns);
        let most = rng.pick(&[5, 40, 120]);
        let delays: Vec<u16> = (0..turns).map(|_| rng.between(0, most) as u16).collect();
        let name = format!("drawn {round}");
        case(corpus, &name, [&sheet, &board.bytes()], &delays, 16);
        if round % 4 == 1 {
            let kind = rng.below(boards::FAULTS);
            let faulty = boards::with_fault(&mut rng, &shift.turns, &board, kind);
            case(corpus, &name, [&sheet, &faulty], &delays, 16);
        }
    }
}
