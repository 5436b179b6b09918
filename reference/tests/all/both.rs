//! What both versions do, called in both: they must agree in every answer and
//! in every place that was lent. Gives the judge's answer.

use slopeboard_reference::gen::Row;
use slopeboard_reference::naive::{ChargeRefined, Counts, Improved, Refined, Standing, Sums};
use slopeboard_reference::{fast, naive, worked};

/// A sheet of as many groomers and slopes as there can be, with these turns.
pub fn sheet_of(turns: &[Row]) -> Vec<u8> {
    worked::sheet_of(16, 120, turns)
}

/// The board that both versions plan.
pub fn planned(sheet: &[u8]) -> Vec<u8> {
    let mut board = vec![0; 1665];
    let len = plan(sheet, &mut board).unwrap();
    board.truncate(len);
    board
}

/// What a byte holds that no call has touched.
pub const BYTE_KEPT: u8 = 0xA5;

/// The numbers that a choice map of so many bits has. The map is lent with a
/// byte more, which must be as before, and the bits past the last are clear.
pub fn in_map<T>(bits: usize, call: impl FnOnce(&mut [u8]) -> T) -> (T, Vec<usize>) {
    let mut map = vec![BYTE_KEPT; bits.div_ceil(8) + 1];
    let answer = call(&mut map);
    assert_eq!(map.pop(), Some(BYTE_KEPT));
    let stands = |bit: &usize| map[bit / 8] >> (bit % 8) & 1 == 1;
    assert!((bits..8 * map.len()).all(|bit| !stands(&bit)));
    (answer, (0..bits).filter(stands).collect())
}

pub fn read(sheet: &[u8], table: &mut [u16]) -> Result<Counts, u8> {
    both_read(sheet, table, naive::read, fast::read)
}

pub fn read_short(sheet: &[u8], table: &mut [u16]) -> Result<Counts, u8> {
    both_read(sheet, table, naive::read_short, fast::read_short)
}

/// A reader: it takes a sheet and a table.
type Reads<T> = fn(&[u8], &mut [u16]) -> Result<T, u8>;

fn both_read(
    sheet: &[u8],
    table: &mut [u16],
    naive: Reads<Counts>,
    fast: Reads<fast::Header>,
) -> Result<Counts, u8> {
    let mut other = table.to_vec();
    let answer = naive(sheet, table);
    let fast = fast(sheet, &mut other).map(|header| Counts {
        groomers: header.groomers.into(),
        slopes: header.slopes.into(),
        turns: header.turns.into(),
    });
    assert_eq!(fast, answer, "{sheet:?}");
    assert_eq!(other, table, "{sheet:?}");
    answer
}

pub fn write(groomers: u32, slopes: u32, table: &[u16], sheet: &mut [u8]) -> Result<usize, u8> {
    let mut other = sheet.to_vec();
    let answer = naive::write(groomers, slopes, table, sheet);
    let fast = fast::write(groomers, slopes, table, &mut other);
    assert_eq!(fast, answer, "{groomers} {slopes} {table:?}");
    assert_eq!(other, sheet, "{groomers} {slopes} {table:?}");
    answer
}

pub fn plan(sheet: &[u8], board: &mut [u8]) -> Result<usize, u8> {
    let before = board.to_vec();
    let answer = written(sheet, board, [naive::plan, fast::plan]);
    // The planner that makes no list writes the same.
    let mut other = before;
    assert_eq!(
        fast::plan_without_list(sheet, &mut other),
        answer,
        "{sheet:?}"
    );
    assert_eq!(other, board, "{sheet:?}");
    answer
}

pub fn listing(sheet: &[u8], text: &mut [u8]) -> Result<usize, u8> {
    written(sheet, text, [naive::listing, fast::listing])
}

pub fn keep(sheet: &[u8], kept: &mut [u8]) -> Result<usize, u8> {
    written(sheet, kept, [naive::keep, fast::keep])
}

pub fn restore(kept: &[u8], sheet: &mut [u8]) -> Result<usize, u8> {
    written(kept, sheet, [naive::restore, fast::restore])
}

pub fn sums(sheet: &[u8], board: &[u8]) -> Result<Sums, u8> {
    let answer = naive::check(sheet, board);
    let fast = fast::check(sheet, board).map(|sums| Sums {
        tally: sums.tally,
        worth: sums.worth,
        ceiling: sums.ceiling,
    });
    assert_eq!(fast, answer, "{sheet:?} {board:?}");
    answer
}

/// The tally and the worth alone.
pub fn check(sheet: &[u8], board: &[u8]) -> Result<(u32, u32), u8> {
    sums(sheet, board).map(|sums| (sums.tally, sums.worth))
}

pub fn best(sheet: &[u8], map: &mut [u8]) -> Result<u32, u8> {
    let mut other = map.to_vec();
    let answer = naive::best(sheet, map);
    assert_eq!(fast::best(sheet, &mut other), answer, "{sheet:?}");
    assert_eq!(other, map, "{sheet:?}");
    answer
}

pub fn charge(sheet: &[u8], map: &mut [u8]) -> Result<u32, u8> {
    let mut other = map.to_vec();
    let answer = naive::charge(sheet, map);
    assert_eq!(fast::charge(sheet, &mut other), answer, "{sheet:?}");
    assert_eq!(other, map, "{sheet:?}");
    answer
}

pub fn limit(sheet: &[u8], prices: &[u16]) -> Result<u32, u8> {
    let answer = naive::limit(sheet, prices);
    assert_eq!(fast::limit(sheet, prices), answer, "{sheet:?} {prices:?}");
    answer
}

pub fn refine(
    sheet: &[u8],
    rounds: u32,
    board: &mut [u8],
    prices: &mut [u16],
) -> Result<Refined, u8> {
    let (mut other, mut other_prices) = (board.to_vec(), prices.to_vec());
    let answer = naive::refine(sheet, rounds, board, prices);
    let fast = fast::refine(sheet, rounds, &mut other, &mut other_prices);
    let fast = fast.map(|found| Refined {
        bytes: found.bytes,
        worth: found.worth,
        limit: found.limit,
        rounds: found.rounds,
    });
    assert_eq!(fast, answer, "{rounds} {sheet:?}");
    assert_eq!(other, board, "{rounds} {sheet:?}");
    assert_eq!(other_prices, prices, "{rounds} {sheet:?}");
    answer
}

pub fn charge_limit(sheet: &[u8], prices: &[u16]) -> Result<u32, u8> {
    let answer = naive::charge_limit(sheet, prices);
    let fast = fast::charge_limit(sheet, prices);
    assert_eq!(fast, answer, "{sheet:?} {prices:?}");
    answer
}

pub fn charge_refine(
    sheet: &[u8],
    rounds: u32,
    map: &mut [u8],
    prices: &mut [u16],
) -> Result<ChargeRefined, u8> {
    let (mut other, mut other_prices) = (map.to_vec(), prices.to_vec());
    let answer = naive::charge_refine(sheet, rounds, map, prices);
    let fast = fast::charge_refine(sheet, rounds, &mut other, &mut other_prices);
    let fast = fast.map(|found| ChargeRefined {
        worth: found.worth,
        limit: found.limit,
        rounds: found.rounds,
    });
    assert_eq!(fast, answer, "{rounds} {sheet:?}");
    assert_eq!(other, map, "{rounds} {sheet:?}");
    assert_eq!(other_prices, prices, "{rounds} {sheet:?}");
    answer
}

pub fn improve(sheet: &[u8], limit: u64, map: &mut [u8]) -> Result<Improved, u8> {
    let mut other = map.to_vec();
    let answer = naive::improve(sheet, limit, map);
    let fast = fast::improve(sheet, limit, &mut other).map(|found| Improved {
        worth: found.worth,
        above: found.above,
        visits: found.visits,
        whole: found.whole,
    });
    assert_eq!(fast, answer, "{limit} {sheet:?}");
    assert_eq!(other, map, "{limit} {sheet:?}");
    answer
}

pub fn play(sheet: &[u8], board: &[u8], delays: &[u16], list: &mut [Standing]) -> Result<u16, u8> {
    let before: Vec<fast::Standing> = list.iter().map(as_fast).collect();
    let answer = naive::play(sheet, board, delays, list);
    let after: Vec<fast::Standing> = list.iter().map(as_fast).collect();
    for play in [fast::play, fast::play_by_minute] {
        let mut other = before.clone();
        let fast = play(sheet, board, delays, &mut other);
        assert_eq!(fast, answer, "{sheet:?} {board:?} {delays:?}");
        assert_eq!(other, after, "{sheet:?} {board:?} {delays:?}");
    }
    answer
}

fn as_fast(standing: &Standing) -> fast::Standing {
    fast::Standing {
        working: standing.working,
        driving: standing.driving,
        standing: standing.standing,
        turn: standing.turn,
    }
}

pub fn draw(seed: u64, [groomers, slopes, turns]: [u32; 3], sheet: &mut [u8]) -> Result<usize, u8> {
    let mut other = sheet.to_vec();
    let answer = naive::draw(seed, groomers, slopes, turns, sheet);
    let fast = fast::draw(seed, groomers, slopes, turns, &mut other);
    assert_eq!(fast, answer, "{seed} {groomers} {slopes} {turns}");
    assert_eq!(other, sheet, "{seed} {groomers} {slopes} {turns}");
    answer
}

pub fn assign(sheet: &[u8], places: &mut [u16]) -> Result<u16, u8> {
    let mut other = places.to_vec();
    let answer = naive::assign(sheet, places);
    assert_eq!(fast::assign(sheet, &mut other), answer, "{sheet:?}");
    assert_eq!(other, places, "{sheet:?}");
    answer
}

/// A function from a sheet to bytes that are lent.
type Writes = fn(&[u8], &mut [u8]) -> Result<usize, u8>;

fn written(sheet: &[u8], out: &mut [u8], [naive, fast]: [Writes; 2]) -> Result<usize, u8> {
    let mut other = out.to_vec();
    let answer = naive(sheet, out);
    assert_eq!(fast(sheet, &mut other), answer, "{sheet:?}");
    assert_eq!(other, out, "{sheet:?}");
    answer
}
