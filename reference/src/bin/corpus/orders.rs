//! Cases with two causes of refusal at once, of which the earlier one's number is
//! due. They are made from the orders themselves: each entry has its causes in the
//! description's order, each with the fault that puts it into a good input.

use slopeboard_reference::boards::Draft;
use slopeboard_reference::gen::{self, Rng, Row, Shift};
use slopeboard_reference::halls::{self, Hall};
use slopeboard_reference::kept;

use crate::entries::*;
use crate::{Corpus, Input};

/// What an entry is handed. An entry takes what it wants of it.
#[derive(Clone)]
struct Given {
    /// The sheet, the kept form or the charging sheet.
    bytes: Vec<u8>,
    board: Draft,
    /// How far the board's tally is above the sum of its steps.
    tally_off: u32,
    /// The turn table, the delays or the prices.
    numbers: Vec<u16>,
    seed: u64,
    counts: [u32; 3],
    lent: [usize; 2],
}

/// How a cause comes into the input.
#[derive(Clone, Copy)]
enum Fault {
    /// Other bytes from this place on.
    Put(usize, &'static [u8]),
    /// The bytes end at this place.
    Cut(usize),
    /// One byte more.
    More,
    /// Another number at this place.
    Set(usize, u16),
    /// A change of anything else.
    Change(fn(&mut Given)),
}
use Fault::{Change, Cut, More, Put, Set};

impl Fault {
    fn put_into(self, given: &mut Given) {
        match self {
            Put(place, bytes) => given.bytes[place..place + bytes.len()].copy_from_slice(bytes),
            Cut(end) => given.bytes.truncate(end),
            More => given.bytes.push(0),
            Set(place, number) => given.numbers[place] = number,
            Change(change) => change(given),
        }
    }

    /// Whether both can be there at once. A byte that is cut off cannot be wrong;
    /// bytes that end too early end there alone, and are not too many.
    fn goes_with(self, other: Fault) -> bool {
        match (self, other) {
            (Cut(end), Put(at, bytes)) | (Put(at, bytes), Cut(end)) => at + bytes.len() <= end,
            (Cut(_), Cut(_) | More) | (More, Cut(_)) => false,
            _ => true,
        }
    }
}

/// A cause: its number, what is wrong, and how it comes into the input.
type Cause = (u8, String, Fault);

fn cause(number: u8, name: &str, fault: Fault) -> Cause {
    (number, name.to_string(), fault)
}

/// Whether a case with both causes tells which of them comes first.
fn tells(a: &Cause, b: &Cause) -> bool {
    a.0 != b.0 && a.2.goes_with(b.2)
}

/// Every two neighbours of an order. Where two cannot be there at once, or have
/// one number, those beyond them are neighbours too: no case in between says
/// which comes first.
fn neighbours(order: &[Cause]) -> Vec<[&Cause; 2]> {
    let mut pairs = Vec::new();
    for (place, late) in order.iter().enumerate() {
        for (before, early) in order[..place].iter().enumerate() {
            let mut between = order[before + 1..place].iter();
            if tells(early, late) && !between.any(|one| tells(early, one) && tells(one, late)) {
                pairs.push([early, late]);
            }
        }
    }
    pairs
}

/// The two parts of the entry's input.
fn parts(entry: Entry, given: &Given) -> [Vec<u8>; 2] {
    let asked = asked(given.seed, given.counts);
    let (bytes, numbers) = (given.bytes.clone(), number_bytes(&given.numbers));
    let mut board = given.board.clone();
    board.add_up(&ROWS);
    board.tally += given.tally_off;
    match entry {
        WRITE => [asked, numbers],
        DRAW => [asked, vec![]],
        IMPROVE | REFINE | CHARGE_REFINE => [asked, bytes],
        LIMIT | CHARGE_LIMIT => [bytes, numbers],
        CHECK => [bytes, board.bytes()],
        PLAY => [bytes, board_and_delays(&board.bytes(), &given.numbers)],
        _ => [bytes, vec![]],
    }
}

/// Adds a case for every two neighbours of the entry's order. Each cause alone
/// gives its own number, so that nothing else is wrong with the input.
fn add_order(corpus: &mut Corpus, entry: Entry, good: &Given, order: &[Cause]) {
    let run = |corpus: &mut Corpus, causes: &[&Cause], name: &str| {
        let mut given = good.clone();
        for cause in causes {
            cause.2.put_into(&mut given);
        }
        let [front, rest] = parts(entry, &given);
        let input = Input {
            lent: given.lent,
            front: &front,
            rest: &rest,
        };
        corpus.add_due(causes[0].0, entry, name, input);
    };
    for alone in order {
        run(&mut Corpus::default(), &[alone], &alone.1);
    }
    for [early, late] in neighbours(order) {
        let name = format!("{} before {}: {}, {}", early.0, late.0, early.1, late.1);
        run(corpus, &[early, late], &name);
    }
}

/// Three turns, each on a slope of its own; the first two conflict by groomer.
const ROWS: [Row; 3] = [
    [1, 1, 0, 60, 100, 0],
    [2, 1, 30, 60, 150, 0],
    [3, 2, 0, 60, 90, 0],
];

/// A good input with these bytes. The board has the planned steps and choice.
fn good(bytes: Vec<u8>, numbers: Vec<u16>, lent: [usize; 2]) -> Given {
    let steps = vec![(0, 100), (1, 50), (2, 90)];
    Given {
        bytes,
        board: Draft::new(&ROWS, vec![false, true, true], steps),
        tally_off: 0,
        numbers,
        seed: 1,
        counts: [2, 3, 3],
        lent,
    }
}

/// The turns as a sheet and as a kept form, in which every turn names every field.
fn sheet_and_kept() -> [Vec<u8>; 2] {
    let shift = Shift {
        groomers: 2,
        slopes: 3,
        turns: ROWS.to_vec(),
    };
    let sheet = gen::encode(&mut Rng::new(0), &shift, 100).bytes;
    [sheet, kept::encode(&mut Rng::new(0), &shift, 100)]
}

/// The turns as windows: a vehicle for each slope, and a draw of the groomer's
/// number.
fn hall() -> Vec<u8> {
    let hall = Hall {
        units: 2,
        vehicles: 3,
        windows: ROWS.to_vec(),
    };
    halls::encode(&mut Rng::new(0), &hall, 100).bytes
}

/// The causes of a header, with that of more turns than are taken.
fn header(too_many: Cause) -> Vec<Cause> {
    vec![
        cause(1, "six bytes", Cut(6)),
        cause(2, "another mark", Put(2, b"X")),
        cause(3, "first count 0", Put(3, &[0])),
        too_many,
    ]
}

fn too_many() -> Cause {
    cause(4, "401 turns", Put(5, &[1, 0x91]))
}

/// A wrong value of each field. No start is wrong by itself.
const WRONG: [(u8, &str, &[u8]); 6] = [
    (6, "slope 0", &[0]),
    (7, "groomer 0", &[0]),
    (0, "", &[]),
    (8, "length 0", &[0, 0]),
    (9, "worth 0", &[0, 0]),
    (19, "driver 41", &[41]),
];

/// The causes of a turn's values, given the fault of each field.
fn values(turn: usize, fault: impl Fn(usize) -> Fault) -> [Cause; 5] {
    [0, 1, 3, 4, 5].map(|field| {
        let (number, name, _) = WRONG[field];
        (number, format!("turn {turn} {name}"), fault(field))
    })
}

/// The order of a sheet's bytes, in records of ten bytes, or of nine for a hall.
fn by_bytes(too_many: Cause, len: usize, wrong_map: &'static [u8]) -> Vec<Cause> {
    let mut order = header(too_many);
    for turn in 0..2 {
        let at = 7 + len * turn;
        order.extend([
            (1, format!("turn {turn} not there"), Cut(at)),
            (5, format!("turn {turn} wrong map"), Put(at, wrong_map)),
            (1, format!("turn {turn} cut short"), Cut(at + len - 1)),
        ]);
        let place = |field: usize| Put(at + [1, 2, 3, 5, 7, 9][field], WRONG[field].2);
        order.extend(values(turn, place));
    }
    order.push(cause(10, "a byte more", More));
    order
}

fn by_sheet() -> Vec<Cause> {
    by_bytes(too_many(), 10, &[0x7F])
}

/// The order of a charging sheet's bytes: no drivers, and 25 for the draw.
fn by_hall() -> Vec<Cause> {
    let mut order = by_bytes(too_many(), 9, &[0x3F]);
    order.retain(|cause| cause.0 != 19);
    for (number, name, _) in &mut order {
        *number = if *number == 7 { 25 } else { *number };
        *name = name
            .replace("turn", "window")
            .replace("slope", "vehicle")
            .replace("groomer", "draw");
    }
    order
}

/// The order of a kept form: its maps, its length, then the values by turn.
fn by_column() -> Vec<Cause> {
    let mut order = header(too_many());
    order.extend([
        cause(1, "a map too few", Cut(9)),
        cause(5, "turn 1 wrong map", Put(8, &[0x7F])),
        cause(1, "a byte less", Cut(36)),
        cause(10, "a byte more", More),
    ]);
    for turn in 0..2 {
        let columns = [10, 13, 16, 22, 28, 34];
        let place = |field: usize| {
            let wrong = WRONG[field].2;
            Put(columns[field] + turn * wrong.len(), wrong)
        };
        order.extend(values(turn, place));
    }
    order
}

/// A cause that is no fault of the bytes.
fn change(number: u8, name: &str, change: fn(&mut Given)) -> Cause {
    cause(number, name, Change(change))
}

/// The writer's order: the table's length, the counts, the values by turn.
fn by_table() -> Vec<Cause> {
    let mut order = vec![
        change(18, "a number more", |given| given.numbers.push(1)),
        change(3, "no groomers", |given| given.counts[0] = 0),
        change(4, "401 turns", |given| given.numbers.extend([1; 6 * 398])),
    ];
    for turn in 0..2 {
        let place = |field| Set(6 * turn + field, if field == 5 { 41 } else { 0 });
        order.extend(values(turn, place));
    }
    order
}

/// The order of drawing: the seed, then the counts.
fn by_seed() -> Vec<Cause> {
    vec![
        change(23, "seed 0", |given| given.seed = 0),
        change(3, "no groomers", |given| given.counts[0] = 0),
        change(4, "401 turns", |given| given.counts[2] = 401),
    ]
}

/// The check's order: the sheet, then the board, whose sums are right until 17.
fn by_board() -> Vec<Cause> {
    let mut order = by_sheet();
    order.extend([
        change(12, "a turn more", |given| given.board.chosen.push(false)),
        change(13, "turns 0 and 1", |given| given.board.chosen[0] = true),
        change(14, "no turn 2", |given| given.board.chosen[2] = false),
        change(15, "another amount", |given| given.board.steps[0].1 = 99),
        change(16, "a step less", |given| given.board.steps.truncate(2)),
        change(17, "another tally", |given| given.tally_off = 1),
    ]);
    order
}

/// The order with the entry's own causes at the end.
fn then(mut order: Vec<Cause>, own: impl IntoIterator<Item = Cause>) -> Vec<Cause> {
    order.extend(own);
    order
}

fn too_small() -> Cause {
    change(11, "nothing lent", |given| given.lent = [0, 0])
}

fn no_prices() -> Cause {
    change(26, "no prices", |given| given.numbers.clear())
}

/// Records after the third that say the same; a sheet that is cut short has none
/// of these either.
fn many_turns(given: &mut Given) {
    given.bytes[6] = 65;
    if given.bytes.len() >= 37 {
        given.bytes.splice(37..37, [0; 62]);
    }
}

/// Adds the orders of all entries that the proved program runs.
pub fn add(corpus: &mut Corpus) {
    let [sheet, kept] = sheet_and_kept();
    let mut add = |entry, bytes: &[u8], lent, order: Vec<Cause>| {
        let good = good(bytes.to_vec(), ROWS.concat(), lent);
        add_order(corpus, entry, &good, &order);
    };
    let by_short = by_bytes(cause(20, "97 turns", Put(5, &[0, 97])), 10, &[0x7F]);
    let slope_twice = cause(21, "a slope twice", Put(18, &[1]));
    let for_best = then(by_sheet(), [slope_twice, too_small()]);
    let many = change(22, "65 turns", many_turns);
    let for_search = then(by_sheet(), [many, too_small()]);
    add(READ, &sheet, [18, 0], then(by_sheet(), [too_small()]));
    add(SHORT, &sheet, [18, 0], then(by_short, [too_small()]));
    add(ASSIGN, &sheet, [3, 0], then(by_sheet(), [too_small()]));
    add(PLAN, &sheet, [0, 28], then(by_sheet(), [too_small()]));
    add(LIST, &sheet, [0, 99], then(by_sheet(), [too_small()]));
    add(KEEP, &sheet, [0, 37], then(by_sheet(), [too_small()]));
    add(BEST, &sheet, [0, 1], for_best);
    add(IMPROVE, &sheet, [0, 9], for_search);
    add(CHECK, &sheet, [0, 0], by_board());
    add(WRITE, &[], [0, 37], then(by_table(), [too_small()]));
    add(DRAW, &[], [0, 37], then(by_seed(), [too_small()]));
    add(RESTORE, &kept, [0, 37], then(by_column(), [too_small()]));
    add(CHARGE, &hall(), [0, 1], then(by_hall(), [too_small()]));
}

/// Adds the order of playing.
pub fn add_play(corpus: &mut Corpus) {
    let [sheet, _] = sheet_and_kept();
    let delay = cause(24, "delay 121", Set(0, 121));
    let order = then(by_board(), [delay, too_small()]);
    add_order(corpus, PLAY, &good(sheet, vec![0; 3], [8, 0]), &order);
}

/// Adds the orders of limits and better boards. For a hall nothing is lent and no
/// price is given in any case: 960 of them would make long cases.
pub fn add_prices(corpus: &mut Corpus) {
    let [sheet, _] = sheet_and_kept();
    let mut add = |entry, bytes: &[u8], prices: usize, lent, order: Vec<Cause>| {
        let good = good(bytes.to_vec(), vec![0; prices], lent);
        add_order(corpus, entry, &good, &order);
    };
    let [for_limit, for_refine] = [no_prices(), too_small()].map(|last| then(by_hall(), [last]));
    add(LIMIT, &sheet, 6, [0, 0], then(by_sheet(), [no_prices()]));
    add(REFINE, &sheet, 0, [6, 28], then(by_sheet(), [too_small()]));
    add(CHARGE_LIMIT, &hall(), 0, [0, 0], for_limit);
    add(CHARGE_REFINE, &hall(), 0, [0, 0], for_refine);
}
