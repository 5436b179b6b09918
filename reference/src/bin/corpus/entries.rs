//! The entries of the cases: what each is handed, and what the naive version
//! answers. How a case is laid out stands in `corpus.rs`.

use slopeboard_reference::naive::{self, Standing};

/// An entry: its number in a case, its name, and how many values it returns.
#[derive(Clone, Copy, PartialEq, Eq)]
pub struct Entry(pub u8, pub &'static str, pub usize);

pub const READ: Entry = Entry(1, "read", 3);
pub const WRITE: Entry = Entry(2, "write", 1);
pub const PLAN: Entry = Entry(3, "plan", 1);
pub const OPEN: Entry = Entry(4, "open", 0);
pub const CHECK: Entry = Entry(5, "check", 3);
pub const LIST: Entry = Entry(6, "list", 1);
pub const ASSIGN: Entry = Entry(9, "assign", 1);
pub const SHORT: Entry = Entry(10, "short", 3);
pub const BEST: Entry = Entry(11, "best", 1);
pub const IMPROVE: Entry = Entry(12, "improve", 4);
pub const DRAW: Entry = Entry(13, "draw", 1);
pub const KEEP: Entry = Entry(14, "keep", 1);
pub const RESTORE: Entry = Entry(15, "restore", 1);
pub const PLAY: Entry = Entry(16, "play", 1);
pub const CHARGE: Entry = Entry(17, "charge", 1);
pub const LIMIT: Entry = Entry(18, "limit", 1);
pub const REFINE: Entry = Entry(19, "refine", 4);
pub const CHARGE_LIMIT: Entry = Entry(20, "charge_limit", 1);
pub const CHARGE_REFINE: Entry = Entry(21, "charge_refine", 3);

/// What an entry gives: its values, or a refusal.
type Answer = Result<Vec<u64>, u8>;

/// The naive version's answer to the two parts of a case's input.
pub fn answer(entry: Entry, [front, rest]: [&[u8]; 2], lent: &mut [u16], out: &mut [u8]) -> Answer {
    match entry {
        READ => naive::read(front, lent).map(counts),
        SHORT => naive::read_short(front, lent).map(counts),
        PLAN => one(naive::plan(front, out)),
        LIST => one(naive::listing(front, out)),
        ASSIGN => one(naive::assign(front, lent)),
        BEST => one(naive::best(front, out)),
        KEEP => one(naive::keep(front, out)),
        RESTORE => one(naive::restore(front, out)),
        CHARGE => one(naive::charge(front, out)),
        LIMIT => one(naive::limit(front, &numbers(rest))),
        CHARGE_LIMIT => one(naive::charge_limit(front, &numbers(rest))),
        PLAY => played(front, rest, lent),
        CHECK => {
            naive::check(front, rest).map(|sums| figures([sums.tally, sums.worth, sums.ceiling]))
        }
        _ => answer_asked(entry, front, rest, lent, out),
    }
}

/// The same for entries whose first part is what is asked.
fn answer_asked(
    entry: Entry,
    asked: &[u8],
    rest: &[u8],
    lent: &mut [u16],
    out: &mut [u8],
) -> Answer {
    let number = |bytes: &[u8]| {
        bytes
            .iter()
            .fold(0, |all, &byte| all << 8 | u64::from(byte))
    };
    let long = number(&asked[..8]);
    let [groomers, slopes, turns] = [8, 12, 16].map(|at| number(&asked[at..at + 4]) as u32);
    match entry {
        WRITE => one(naive::write(groomers, slopes, &numbers(rest), out)),
        DRAW => one(naive::draw(long, groomers, slopes, turns, out)),
        IMPROVE => naive::improve(rest, long, out).map(|found| {
            let [worth, above] = [found.worth, found.above].map(u64::from);
            vec![found.whole.into(), worth, above, found.visits]
        }),
        REFINE => naive::refine(rest, long as u32, out, lent)
            .map(|found| figures([found.bytes as u32, found.worth, found.limit, found.rounds])),
        CHARGE_REFINE => naive::charge_refine(rest, long as u32, out, lent)
            .map(|found| figures([found.worth, found.limit, found.rounds])),
        _ => panic!("{} is asked nothing", entry.1),
    }
}

fn one<T: TryInto<u32>>(value: Result<T, u8>) -> Answer {
    value.map(|value| figures([value.try_into().ok().expect("a value fits 32 bits")]))
}

fn counts(counts: naive::Counts) -> Vec<u64> {
    figures([counts.groomers, counts.slopes, counts.turns])
}

fn figures<const N: usize>(values: [u32; N]) -> Vec<u64> {
    values.map(u64::from).to_vec()
}

/// What an entry is asked: a number of eight bytes, three of four.
pub fn asked(long: u64, counts: [u32; 3]) -> Vec<u8> {
    let counts = counts.map(u32::to_be_bytes).concat();
    [&long.to_be_bytes()[..], &counts].concat()
}

/// Numbers, two bytes each.
fn numbers(bytes: &[u8]) -> Vec<u16> {
    let pairs = bytes.chunks(2);
    pairs
        .map(|pair| u16::from_be_bytes([pair[0], pair[1]]))
        .collect()
}

/// The bytes of numbers.
pub fn number_bytes(numbers: &[u16]) -> Vec<u8> {
    numbers
        .iter()
        .flat_map(|number| number.to_be_bytes())
        .collect()
}

/// The second part for playing: a board with its length, and delays.
pub fn board_and_delays(board: &[u8], delays: &[u16]) -> Vec<u8> {
    [
        &(board.len() as u16).to_be_bytes()[..],
        board,
        &number_bytes(delays),
    ]
    .concat()
}

fn played(sheet: &[u8], rest: &[u8], numbers_lent: &mut [u16]) -> Answer {
    let (len, rest) = rest.split_at(2);
    let (board, delays) = rest.split_at(usize::from(numbers(len)[0]));
    let standing = |four: &[u16]| Standing {
        working: four[0],
        driving: four[1],
        standing: four[2],
        turn: four[3],
    };
    let mut list: Vec<Standing> = numbers_lent.chunks(4).map(standing).collect();
    let groomers = naive::play(sheet, board, &numbers(delays), &mut list)?;
    let four = |one: &Standing| [one.working, one.driving, one.standing, one.turn];
    let after: Vec<u16> = list.iter().flat_map(four).collect();
    numbers_lent.copy_from_slice(&after);
    Ok(vec![groomers.into()])
}
