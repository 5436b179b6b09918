//! The cases that the description names, part by part. Where it says which
//! refusal comes, that number stands here and the naive version is held to it.

use slopeboard_reference::boards::{planned, Draft};
use slopeboard_reference::gen::{self, Rng, Row};
use slopeboard_reference::halls::{self, Hall};
use slopeboard_reference::naive;
use slopeboard_reference::worked::{board_with, sheet_of, with, BOARD, SHEET, TURNS};

use crate::entries::*;
use crate::{hex, lent, words, Corpus, Input};

/// Adds all cases.
pub fn add(corpus: &mut Corpus) {
    sheets_refused(corpus);
    sheets_accepted(corpus);
    boards_opened(corpus);
    boards_checked(corpus);
    tables_written(corpus);
    plans(corpus);
    groomers_for_all(corpus);
    one_turn_a_slope(corpus);
    better_with_patience(corpus);
    drawn_sheets(corpus);
    kept_forms(corpus);
    charging_halls(corpus);
    maps_at_their_size(corpus);
}

/// The lines of a table: the refusal that is due, 0 if none, a name, and lists of
/// numbers with commas between them.
pub fn table(text: &str) -> impl Iterator<Item = (u8, &str, Vec<Vec<u16>>)> {
    let number = |word: &str| word.parse().expect("a number");
    text.lines()
        .filter(|line| !line.is_empty())
        .map(move |line| {
            let (refusal, line) = line.split_once(' ').expect("a refusal");
            let (name, lists) = line.split_once(": ").expect("a name");
            let list = |list: &str| list.split_whitespace().map(number).collect();
            let refusal = refusal.parse().expect("a number");
            (refusal, name, lists.split(',').map(list).collect())
        })
}

/// The lists as turns or windows.
fn turns(lists: Vec<Vec<u16>>) -> Vec<Row> {
    let row = |list: Vec<u16>| list.try_into().expect("six numbers");
    lists.into_iter().map(row).collect()
}

/// An entry that takes a sheet alone, with what it is lent for it, numbers and
/// bytes.
type Taker = (Entry, fn(&[u8]) -> [usize; 2]);

const TAKERS: [Taker; 7] = [
    (READ, |sheet| [6 * turns_of(sheet), 0]),
    (SHORT, |sheet| [6 * turns_of(sheet), 0]),
    (ASSIGN, |sheet| [turns_of(sheet), 0]),
    (PLAN, |sheet| {
        [0, 15 + turns_of(sheet).div_ceil(8) + 4 * turns_of(sheet)]
    }),
    (LIST, |sheet| {
        [0, naive::listing(sheet, &mut [0; 4096]).unwrap_or(64)]
    }),
    (BEST, |sheet| [0, turns_of(sheet).div_ceil(8)]),
    (KEEP, |sheet| [0, sheet.len()]),
];

fn turns_of(sheet: &[u8]) -> usize {
    gen::turns_claimed(sheet)
}

/// An input of one part.
fn alone(front: &[u8], lent: [usize; 2]) -> Input<'_> {
    Input {
        lent,
        front,
        rest: &[],
    }
}

impl Corpus {
    /// A sheet that every entry refuses with this number, whatever is lent.
    fn refused(&mut self, number: u8, name: &str, sheet: &[u8]) {
        for (entry, needs) in TAKERS {
            let few = needs(sheet).map(|places| places.min(9));
            let for_short = entry == SHORT && turns_of(sheet) > 96;
            let due = match number {
                1 | 4 if for_short => 20,
                _ => number,
            };
            self.add_due(due, entry, name, alone(sheet, few));
        }
    }

    /// A sheet that every entry takes. Two entries take fewer sheets than others.
    fn accepted(&mut self, name: &str, sheet: &[u8]) {
        for (entry, needs) in TAKERS {
            let input = alone(sheet, needs(sheet));
            match answer(entry, [sheet, &[]], &mut [0; 2400], &mut [0; 4096]) {
                Err(20) if entry == SHORT => self.add_due(20, entry, name, input),
                Err(21) if entry == BEST => self.add_due(21, entry, name, input),
                _ if turns_of(sheet) > 9 => self.add_due(0, entry, name, input),
                _ => self.add_exact(0, entry, name, input),
            }
        }
    }

    /// A board checked against a sheet, refused with this number, 0 if it passes.
    fn check(&mut self, number: u8, name: &str, sheet: &[u8], board: &[u8]) {
        let input = Input {
            front: sheet,
            rest: board,
            ..Input::default()
        };
        self.add_due(number, CHECK, name, input);
    }
}

/// Sheets with one value past its bound. Those with two causes are in `orders`.
fn sheets_refused(corpus: &mut Corpus) {
    let row = |turn: Row| sheet_of(2, 3, &[turn]);
    let late = |turn: Row| sheet_of(2, 3, &[[2, 2, 900, 60, 100, 0], turn]);
    corpus.refused(1, "no bytes", b"");
    corpus.refused(1, "400 turns and no record", b"GRM\x02\x03\x01\x90");
    corpus.refused(3, "17 groomers", b"GRM\x11\x78\0\0");
    corpus.refused(3, "no slopes", b"GRM\x10\0\0\0");
    corpus.refused(3, "121 slopes", b"GRM\x10\x79\0\0");
    corpus.refused(4, "401 turns", b"GRM\x02\x03\x01\x91");
    corpus.refused(5, "a first map without worth", &with(&SHEET, 7, &[0x0F]));
    corpus.refused(5, "bit 6 in the first map", &with(&SHEET, 7, &[0x5F]));
    corpus.refused(5, "bit 7 in a later map", &with(&SHEET, 16, &[0x95]));
    corpus.refused(6, "slope 4 of 3", &late([4, 1, 0, 1, 1, 0]));
    corpus.refused(7, "groomer 3 of 2", &late([3, 3, 0, 1, 1, 0]));
    corpus.refused(8, "start 900, length 61", &row([1, 1, 900, 61, 100, 0]));
    corpus.refused(
        8,
        "start 901, length 60 from before",
        &late([1, 1, 901, 60, 100, 0]),
    );
    corpus.refused(9, "worth 60,001", &row([1, 1, 900, 60, 60_001, 0]));
    corpus.refused(19, "driver 41", &late([1, 1, 0, 60, 100, 41]));
    corpus.refused(10, "no turns and a byte", b"GRM\x02\x03\0\0\0");
}

/// The worked shift; sheets at their bounds.
fn sheets_accepted(corpus: &mut Corpus) {
    corpus.accepted("the shift", &SHEET);
    corpus.accepted("no turns", b"GRM\x02\x03\0\0");
    corpus.accepted(
        "start 900, length 60",
        &sheet_of(2, 3, &[[1, 1, 900, 60, 1, 0]]),
    );
    corpus.accepted(
        "worth 60,000",
        &sheet_of(16, 120, &[[120, 16, 0, 960, 60_000, 40]]),
    );
    corpus.accepted(
        "400 equal turns",
        &sheet_of(1, 1, &[[1, 1, 0, 1, 1, 0]; 400]),
    );
    corpus.accepted("96 turns", &sheet_of(1, 1, &[[1, 1, 0, 1, 1, 0]; 96]));
    corpus.accepted("97 turns", &sheet_of(1, 1, &[[1, 1, 0, 1, 1, 0]; 97]));
    let named = [
        b"GRM\x02\x03\0\x03\x3F",
        &SHEET[8..16],
        &[0, 0x20, 7, 0x20, 0],
    ]
    .concat();
    corpus.accepted("drivers named, 0 among them", &named);
    let repeated = [
        b"GRM\x01\x01\0\x02\x1F",
        &SHEET[8..16],
        b"\x1F",
        &SHEET[8..16],
    ]
    .concat();
    corpus.accepted("fields that repeat the old value", &repeated);
}

/// Boards by all that makes them one, and which turns they choose.
fn boards_opened(corpus: &mut Corpus) {
    let none = b"GRB\0\0\0\0\0\0\0\0\0\0\0\0";
    let longer = [&BOARD[..], &[0]].concat();
    let two_of_three = with(&with(&BOARD, 3, &[0, 2]), 15, &[0x02]);
    let boards: [(u8, &str, Vec<u8>); 9] = [
        (0, "the shift's board", BOARD.to_vec()),
        (0, "a board without turns", none.to_vec()),
        (0, "no step", with(&BOARD[..16], 6, &[0])),
        (0, "all chosen", with(&BOARD, 15, &[0x0F])),
        (12, "another mark", with(&BOARD, 2, b"M")),
        (12, "two turns and three steps", two_of_three),
        (12, "a byte less", BOARD[..27].to_vec()),
        (12, "a byte more", longer),
        (12, "a bit past the last turn", with(&BOARD, 15, &[0x1A])),
    ];
    for (refusal, name, board) in boards {
        assert_eq!(naive::open(&board), refusal, "{name}");
        let (refused, chosen) = match naive::count(&board) {
            Ok(count) => (0, count),
            Err(number) => (number, 0),
        };
        let numbers: Vec<u16> = (0..6)
            .map(|turn| naive::is_chosen(&board, turn).into())
            .collect();
        let values = words([refusal.into(), refused.into(), chosen.into()]);
        let line = format!(
            "{values}{}{}",
            hex(naive::steps(&board)),
            lent(&numbers, &[])
        );
        corpus.push(OPEN, name, alone(&board, [6, 0]), &line);
    }
}

/// Boards for the worked shift, each cause and orders of steps that pass: choice
/// map, tally, worth, then the steps.
const BOARDS: &str = "
0 the shift's board: 10 240 240, 0 100, 1 50, 3 90
0 another order of steps: 10 240 240, 0 100, 3 90, 1 50
0 steps from turn 2 on: 10 240 240, 2 80, 0 20, 1 130, 3 10
13 turns that touch: 14 240 320, 0 100, 1 50, 3 90
13 one slope twice: 5 240 180, 0 100, 1 50, 3 90
14 a turn that fits left out: 8 240 90, 0 100, 1 50, 3 90
15 a step of turn 4: 10 240 240, 0 100, 1 50, 4 90
15 an earlier end of its groomer is open: 10 240 240, 3 90, 0 100, 1 50
15 a step of a closed turn: 10 240 240, 0 100, 1 50, 1 90
15 another amount: 10 240 240, 0 99, 1 51, 3 90
15 an earlier end is open: 10 240 240, 1 150, 2 80, 3 10
16 a step too few: 10 150 240, 0 100, 1 50
16 no step: 10 0 240
17 another tally: 10 241 240, 0 100, 1 50, 3 90
17 another worth: 10 240 241, 0 100, 1 50, 3 90
17 turns 0 and 3, worth below tally: 9 240 190, 0 100, 1 50, 3 90
";

fn boards_checked(corpus: &mut Corpus) {
    for (number, name, lists) in table(BOARDS) {
        let &[map, tally, worth] = &lists[0][..] else {
            panic!("{name}");
        };
        let steps: Vec<(u16, u16)> = lists[1..].iter().map(|step| (step[0], step[1])).collect();
        let board = board_with(map as u8, [tally.into(), worth.into()], &steps);
        corpus.check(number, name, &SHEET, &board);
    }
    steps_by_end(corpus);
    let none = b"GRB\0\0\0\0\0\0\0\0\0\0\0\0";
    corpus.check(12, "a board of no turns", &SHEET, none);
    let past_last = with(&BOARD, 15, &[0x1A]);
    corpus.check(12, "a bit past the last turn", &SHEET, &past_last);
    let rows = [
        TURNS[0],
        TURNS[1],
        [1, 2, 0, 120, 70, 0],
        [1, 2, 0, 100, 80, 0],
    ];
    let other = board_with(10, [150, 230], &[(0, 100), (1, 50)]);
    corpus.check(
        0,
        "the higher number filled in",
        &sheet_of(2, 2, &rows),
        &other,
    );
    let driven = sheet_of(2, 2, &[[1, 1, 0, 60, 100, 7], [2, 2, 30, 60, 150, 7]]);
    let both = with(&planned(&driven), 14, &[250, 3]);
    corpus.check(13, "one driver twice at one time", &driven, &both);
    corpus.check(0, "no turns", b"GRM\x02\x03\0\0", none);
    corpus.check(1, "no bytes", b"", b"");
}

/// Two turns that do not conflict: minutes 0 to 60, and 100 to 160. The steps of
/// one groomer, or of one driver, go by their ends all the same.
fn steps_by_end(corpus: &mut Corpus) {
    let mut check = |number, name: &str, groomer, drivers: [u16; 2]| {
        let turns = [
            [1, 1, 0, 60, 100, drivers[0]],
            [2, groomer, 100, 60, 50, drivers[1]],
        ];
        for (number, name, steps) in [
            (0, format!("{name}, by end"), vec![(0, 100), (1, 50)]),
            (
                number,
                format!("{name}, from the last end"),
                vec![(1, 50), (0, 100)],
            ),
        ] {
            let board = Draft::new(&turns, vec![true; 2], steps);
            corpus.check(number, &name, &sheet_of(2, 2, &turns), &board.bytes());
        }
    };
    check(15, "a groomer's steps without a conflict", 1, [0, 0]);
    check(15, "a driver's steps without a conflict", 2, [7, 7]);
    check(0, "steps of two groomers", 2, [0, 0]);
    check(0, "steps of two drivers", 2, [7, 8]);
}

/// Tables in any order, by each two neighbouring fields, and with a value past its
/// bound.
fn tables_written(corpus: &mut Corpus) {
    let mut write = |number, name: &str, [groomers, slopes]: [u32; 2], table: &[u16], room| {
        let input = Input {
            lent: [0, room],
            front: &asked(0, [groomers, slopes, 0]),
            rest: &number_bytes(table),
        };
        corpus.add_exact(number, WRITE, name, input);
    };
    let shift = TURNS.concat();
    let reverse: Vec<u16> = TURNS.into_iter().rev().flatten().collect();
    write(0, "the shift", [2, 3], &shift, 38);
    write(0, "the shift's turns from the last", [2, 3], &reverse, 38);
    write(0, "no turns", [16, 120], &[], 7);
    let fields = ["slope", "groomer", "start", "length", "worth", "driver"];
    for field in 0..5 {
        let (mut first, mut second) = ([1; 6], [1; 6]);
        (first[field + 1], second[field]) = (2, 2);
        let name = format!("by {} before {}", fields[field], fields[field + 1]);
        let room = 7 + 10 + 1 + [2, 3, 4, 4, 3][field];
        write(0, &name, [2, 2], &[second, first].concat(), room);
    }
    let drivers = [[1, 1, 0, 1, 1, 9], [1, 1, 0, 1, 1, 0]].concat();
    write(0, "a driver and none", [2, 3], &drivers, 18);
    write(0, "a first driver", [1, 1], &[1, 1, 0, 60, 100, 40], 17);
    write(3, "256 groomers", [256, 3], &shift, 0);
    for (number, name, turn) in [
        (6, "slope 256", [256, 1, 0, 1, 1, 0]),
        (8, "end 961", [1, 1, 960, 1, 1, 0]),
        (8, "end past 65,536", [1, 1, 65_535, 2, 1, 0]),
        (9, "worth 60,001", [1, 1, 0, 1, 60_001, 0]),
        (19, "driver 41", [1, 1, 0, 1, 1, 41]),
    ] {
        write(number, name, [2, 3], &turn, 0);
    }
    let late_first = [[3, 2, 0, 1, 60_001, 0], [0, 1, 0, 1, 1, 0]].concat();
    write(
        9,
        "the table's first fault, not the sheet's",
        [2, 3],
        &late_first,
        40,
    );
}

/// Mistakes of a planner, one sheet each; turns close to each other, equal
/// ends, and drivers.
const PLANS: &str = "
0 a turn that only the fill chooses: 1 1 0 60 10 0, 1 2 0 90 15 0, 2 2 30 70 4 0
0 of two turns to fill in the lower number: 1 1 0 60 100 0, 2 1 30 60 150 0, 1 2 0 120 70 0, 1 2 0 100 80 0
0 choosing from the last step back: 1 1 0 10 5 0, 2 1 5 10 20 0, 3 1 12 10 9 0
0 other groomers at one time: 1 1 0 60 50 0, 2 2 0 60 60 0
0 the earliest end, not the earliest start: 1 1 0 200 10 0, 2 1 10 20 9 0, 3 1 60 20 9 0
0 0 minutes after the end: 1 1 100 50 70 0, 2 1 150 40 100 0
0 9 minutes after the end: 1 1 100 50 70 0, 2 1 159 40 100 0
0 10 minutes after the end: 1 1 100 50 70 0, 2 1 160 40 100 0
0 9 minutes after, two groomers: 1 1 100 50 70 0, 2 2 159 40 100 0
0 9 minutes after, one driver: 1 1 100 50 70 7, 2 2 159 40 100 7
0 9 minutes after, two drivers: 1 1 100 50 70 7, 2 2 159 40 100 8
0 at one time, one driver: 1 1 0 60 100 7, 2 2 30 60 150 7
0 one end, the second richer: 1 1 0 60 50 0, 2 1 30 30 51 0
0 one end, equally rich: 1 1 0 60 50 0, 2 1 30 30 50 0
0 one end, two equally rich and a poorer one before them: 1 1 0 60 50 0, 2 1 0 60 100 0, 2 2 0 60 100 0
0 one end, poorer by what remains: 1 1 0 30 60 0, 4 1 20 70 109 0, 3 2 30 60 50 0
0 three groups: 1 1 3 1 5 1, 1 2 3 2 5 0, 2 1 3 2 5 2, 3 3 3 3 5 1
0 worth above the tally: 1 1 0 60 10 0, 2 1 0 80 100 0, 1 2 0 80 100 0
";

/// Each is planned, and its plan is checked.
fn plans(corpus: &mut Corpus) {
    for (number, name, rows) in table(PLANS) {
        let sheet = sheet_of(3, 4, &turns(rows));
        corpus.add_due(0, PLAN, name, alone(&sheet, [0, 40]));
        corpus.check(number, name, &sheet, &planned(&sheet));
    }
}

/// Starts and lengths: a groomer free again while a lower one is not, equal starts,
/// and starts that fall.
const TIMES: &str = "
0 ten minutes between: 0 90, 10 20, 20 60, 40 10, 60 10
0 nine minutes between: 0 90, 10 20, 20 60, 39 10, 59 10
0 equal starts: 5 900, 5 1, 5 30, 0 2
0 starts that fall: 900 60, 800 90, 700 90, 600 91, 500 89
";

/// These, and more turns at once than a sheet has groomers.
fn groomers_for_all(corpus: &mut Corpus) {
    for (_, name, times) in table(TIMES) {
        let turn = |time: &Vec<u16>| [1, 1, time[0], time[1], 1, 0];
        let turns: Vec<Row> = times.iter().map(turn).collect();
        let sheet = sheet_of(1, 1, &turns);
        corpus.add_due(0, ASSIGN, name, alone(&sheet, [turns.len() + 1, 0]));
    }
    let seventeen = sheet_of(1, 1, &[[1, 1, 0, 960, 1, 0]; 17]);
    corpus.add_exact(0, ASSIGN, "17 at once", alone(&seventeen, [17, 0]));
}

/// One turn against two, equal worths, and what is no sheet with one turn a slope.
const SINGLE: &str = "
0 ten minutes between: 1 1 0 10 5 0, 2 1 20 10 6 0
0 nine minutes between: 1 1 0 10 5 0, 2 1 19 11 6 0
0 one against two: 1 1 0 10 5 0, 2 1 5 20 11 0, 3 1 20 10 5 0
0 one as good as two: 1 1 0 10 5 0, 2 1 5 20 10 0, 3 1 20 10 5 0
0 the later end left out: 1 1 5 15 5 0, 2 1 0 10 5 0
0 the higher number left out: 1 1 5 5 5 0, 2 1 0 10 5 0
21 a slope twice: 1 1 0 10 5 0, 1 2 500 10 5 0
21 a driver: 1 1 0 10 5 1
";

fn one_turn_a_slope(corpus: &mut Corpus) {
    for (number, name, rows) in table(SINGLE) {
        let sheet = sheet_of(2, 9, &turns(rows));
        corpus.add_due(number, BEST, name, alone(&sheet, [0, 2]));
    }
}

/// A map has a byte for eight turns or windows, and two bytes for nine.
fn maps_at_their_size(corpus: &mut Corpus) {
    for (count, map) in [(8, 1), (9, 2)] {
        let rows: Vec<Row> = (1..=count).map(apart).collect();
        let (sheet, hall) = (sheet_of(1, 9, &rows), hall_of(1, rows));
        let (lent, name) = ([0, map], format!("{count} of them"));
        let searched = Input {
            lent,
            front: &asked(99, [0; 3]),
            rest: &sheet,
        };
        corpus.add_exact(0, BEST, &name, alone(&sheet, lent));
        corpus.add_exact(0, IMPROVE, &name, searched);
        corpus.add_exact(0, CHARGE, &name, alone(&hall, lent));
    }
}

/// Turns of one groomer, or of a vehicle each, that do not conflict.
fn apart(number: u16) -> Row {
    [number, 1, 90 * number, 60, 10, 0]
}

/// The worked shift with every number of visits that matters; 64 turns and 65.
fn better_with_patience(corpus: &mut Corpus) {
    let mut improve = |number, name: &str, sheet: &[u8], visits: u64, room| {
        let input = Input {
            lent: [0, room],
            front: &asked(visits, [0; 3]),
            rest: sheet,
        };
        corpus.add_due(number, IMPROVE, name, input);
    };
    for visits in [0, 1, 11, 12, 13, u64::MAX] {
        improve(0, &format!("the shift, {visits} visits"), &SHEET, visits, 1);
    }
    improve(0, "no turns", b"GRM\x02\x03\0\0", 0, 0);
    // the first turn's step closes the other two, which are worth more together
    let rows = [
        [1, 1, 0, 10, 10, 0],
        [1, 2, 50, 10, 10, 0],
        [2, 1, 5, 10, 10, 0],
    ];
    let better = sheet_of(2, 3, &rows);
    for visits in 0..9 {
        let name = format!("better than planned, {visits} visits");
        improve(0, &name, &better, visits, 1);
    }
    let rows = [
        [1, 2, 100, 10, 3, 0],
        [1, 1, 0, 10, 5, 0],
        [2, 1, 5, 20, 2, 0],
        [1, 1, 15, 30, 5, 0],
    ];
    for visits in [4, 11] {
        let name = format!("sets as good as the plan, {visits} visits");
        improve(0, &name, &sheet_of(2, 2, &rows), visits, 2);
    }
    let rows = [
        [1, 1, 0, 10, 5, 0],
        [1, 2, 0, 10, 3, 0],
        [2, 1, 5, 10, 3, 0],
        [3, 1, 5, 10, 3, 0],
    ];
    improve(
        0,
        "the first of two better sets",
        &sheet_of(2, 3, &rows),
        99,
        2,
    );
    let on_one_slope = |turns: u16| {
        let row = |turn: u16| [1, 1, 13 * turn, 5, 7 + turn, 0];
        sheet_of(1, 1, &(0..turns).map(row).collect::<Vec<Row>>())
    };
    improve(0, "64 turns, a visit too few", &on_one_slope(64), 2079, 8);
    improve(0, "64 turns", &on_one_slope(64), 2080, 8);
    improve(22, "65 turns", &on_one_slope(65), 0, 9);
}

/// Seeds and counts at their bounds.
fn drawn_sheets(corpus: &mut Corpus) {
    const MODULUS: u64 = 2_147_483_647;
    let mut draw = |number, name: &str, seed: u64, counts: [u32; 3], room: usize| {
        let front = asked(seed, counts);
        corpus.add_exact(number, DRAW, name, alone(&front, [0, room]));
    };
    draw(0, "seed 1, 100 turns", 1, [16, 120, 100], 808);
    draw(0, "the greatest seed", MODULUS - 1, [16, 120, 3], 32);
    draw(0, "seed 2, two turns", 2, [2, 3, 2], 24);
    draw(0, "no turns", 7, [1, 1, 0], 7);
    draw(23, "seed 2,147,483,647", MODULUS, [16, 120, 3], 64);
    draw(23, "a seed past 32 bits", (1 << 32) + 1, [16, 120, 3], 64);
    draw(3, "17 groomers", 7, [17, 120, 3], 64);
    draw(3, "257 slopes", 7, [16, 257, 3], 64);
    draw(4, "401 turns", 7, [16, 120, 401], 0);
    draw(4, "65,536 turns", 7, [16, 120, 65_536], 64);
}

/// The worked shift kept, and back; a sheet under its own mark.
fn kept_forms(corpus: &mut Corpus) {
    let mut kept = [0; 39];
    naive::keep(&SHEET, &mut kept).expect("the shift is accepted");
    corpus.add_exact(0, RESTORE, "the shift", alone(&kept, [0, 39]));
    corpus.add_exact(0, RESTORE, "no turns", alone(b"GRC\x01\x01\0\0", [0, 7]));
    corpus.add_due(2, RESTORE, "a sheet", alone(&SHEET, [0, 39]));
    let drivers = b"GRC\x01\x02\0\x02\x3F\x21\x01\x02\x01\0\0\0\x3C\0\x64\x07\x08";
    corpus.add_exact(0, RESTORE, "two drivers", alone(drivers, [0, 20]));
    let late_and_early = with(&with(&kept, 14, &[4]), 33, &[0, 0]);
    corpus.add_due(
        9,
        RESTORE,
        "an early worth before a late slope",
        alone(&late_and_early, [0, 39]),
    );
}

/// Units and windows of each hall: both kinds, parts that are rounded up, equal
/// plans, touching windows, and values past their bounds.
const HALLS: &str = "
0 both kinds: 10, 1 5 0 60 100 0, 2 4 30 60 90 0, 1 3 100 20 50 0, 3 6 0 30 70 0, 4 10 20 30 80 0
0 a part that is whole: 3, 1 1 0 10 9 0, 2 1 5 10 7 0
0 a part rounded up: 3, 1 1 0 10 10 0, 2 1 5 10 7 0
0 plans of one worth, the small draws: 48, 1 48 0 60 50 0, 2 1 0 60 50 0
0 the large draw worth more: 48, 1 48 0 60 51 0, 2 1 0 60 50 0
0 large draws that touch: 48, 1 48 0 10 10 0, 2 48 10 10 9 0
0 one end, the second worth more: 1, 1 1 0 1 1 0, 2 1 0 1 2 0, 2 1 1 1 2 0
0 half the units is small: 48, 1 24 0 60 10 0, 2 25 0 60 9 0
0 filled while the units last: 48, 1 24 0 60 10 0, 2 24 0 60 9 0, 3 24 0 60 8 0
0 a vehicle's windows: 48, 1 1 0 10 10 0, 1 1 5 10 30 0, 1 1 500 10 15 0
6 vehicle 61: 10, 61 1 0 60 1 0
25 a draw above the units: 10, 60 11 0 60 1 0
8 end 961: 10, 60 10 900 61 1 0
9 worth 60,001: 10, 60 10 900 60 60001 0
";

/// The charging sheet of these windows.
fn hall_of(units: u8, windows: Vec<Row>) -> Vec<u8> {
    let hall = Hall {
        units,
        vehicles: 60,
        windows,
    };
    halls::encode(&mut Rng::new(0), &hall, 0).bytes
}

/// These halls, and sheets that are none.
fn charging_halls(corpus: &mut Corpus) {
    let mut charge = |number, name: &str, sheet: &[u8], room| {
        corpus.add_due(number, CHARGE, name, alone(sheet, [0, room]));
    };
    for (number, name, mut rows) in table(HALLS) {
        let units = rows.remove(0)[0] as u8;
        charge(number, name, &hall_of(units, turns(rows)), 1);
    }
    charge(0, "no windows", b"GRE\x01\x01\0\0", 0);
    charge(2, "a sheet", &SHEET, 1);
    charge(3, "49 units", b"GRE\x31\x3C\0\0", 0);
    charge(3, "61 vehicles", b"GRE\x30\x3D\0\0", 0);
    charge(4, "401 windows", b"GRE\x30\x3C\x01\x91", 0);
}

/// Adds the places that better boards and sets are lent.
pub fn add_prices(corpus: &mut Corpus) {
    let front = asked(3, [0; 3]);
    let rows: Vec<Row> = (1..=9).map(apart).collect();
    let input = |rest, lent| Input {
        lent,
        front: &front,
        rest,
    };
    let sheet = sheet_of(1, 9, &rows);
    corpus.add_exact(0, REFINE, "9 turns", input(&sheet, [18, 53]));
    let hall = hall_of(1, rows);
    corpus.add_exact(0, CHARGE_REFINE, "9 windows", input(&hall, [960, 2]));
}
