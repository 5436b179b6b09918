//! Turns by worth, the greatest first and equal ones by number. A turn's rank
//! is where it stands in this order.

use super::board::mark_chosen;
use super::turns::{first_places, Turn};
use crate::limits::{LAST_END, MOST_TURNS};

/// Words of a set.
pub const WORDS: usize = MOST_TURNS.div_ceil(64);

/// A set of ranks, a bit each.
pub type Set = [u64; WORDS];

pub struct Ranks {
    count: usize,
    /// By rank, the number and the worth.
    numbers: [u16; MOST_TURNS],
    worths: [u16; MOST_TURNS],
    /// By number, the rank.
    ranks: [u16; MOST_TURNS],
}

impl Ranks {
    pub fn new(turns: &[Turn]) -> Ranks {
        let mut keys = [0u32; MOST_TURNS];
        let keys = &mut keys[..turns.len()];
        for (number, (key, turn)) in (0..).zip(keys.iter_mut().zip(turns)) {
            *key = u32::from(!turn.worth) << 16 | number;
        }
        keys.sort_unstable();
        let mut ranks = Ranks {
            count: turns.len(),
            numbers: [0; MOST_TURNS],
            worths: [0; MOST_TURNS],
            ranks: [0; MOST_TURNS],
        };
        for (rank, &key) in keys.iter().enumerate() {
            ranks.numbers[rank] = key as u16;
            ranks.worths[rank] = !(key >> 16) as u16;
            ranks.ranks[usize::from(key as u16)] = rank as u16;
        }
        ranks
    }

    pub fn number(&self, rank: usize) -> usize {
        self.numbers[rank].into()
    }

    pub fn worth(&self, rank: usize) -> u32 {
        self.worths[rank].into()
    }

    pub fn rank(&self, number: usize) -> usize {
        self.ranks[number].into()
    }

    /// The greatest worth; 0 without turns.
    pub fn greatest(&self) -> u32 {
        self.worth(0)
    }

    /// All ranks.
    pub fn all(&self) -> Set {
        let mut all = [0; WORDS];
        (0..self.count).for_each(|rank| add(&mut all, rank));
        all
    }

    /// Writes the choice map of these ranks.
    pub fn put_map(&self, set: &Set, map: &mut [u8]) {
        map.fill(0);
        for rank in each(set) {
            mark_chosen(map, self.number(rank));
        }
    }
}

pub fn has(set: &Set, rank: usize) -> bool {
    set[rank / 64] >> (rank % 64) & 1 != 0
}

pub fn add(set: &mut Set, rank: usize) {
    set[rank / 64] |= 1 << (rank % 64);
}

/// Takes all ranks of the second set out of the first.
pub fn remove(set: &mut Set, other: &Set) {
    for (word, other) in set.iter_mut().zip(other) {
        *word &= !other;
    }
}

/// Puts all ranks of the second set into the first.
pub fn unite(set: &mut Set, other: &Set) {
    for (word, other) in set.iter_mut().zip(other) {
        *word |= other;
    }
}

/// The lowest rank of the set that is not below this one.
pub fn first_from(set: &Set, rank: usize) -> Option<usize> {
    let mut word = rank / 64;
    let mut bits = set.get(word)? & (!0 << (rank % 64));
    while bits == 0 {
        word += 1;
        bits = *set.get(word)?;
    }
    Some(64 * word + bits.trailing_zeros() as usize)
}

/// The ranks of the set, the lowest first.
pub fn each(set: &Set) -> impl Iterator<Item = usize> + '_ {
    set.iter().enumerate().flat_map(|(word, &bits)| {
        let mut bits = bits;
        std::iter::from_fn(move || {
            let bit = bits.trailing_zeros() as usize;
            bits &= bits.wrapping_sub(1);
            (bit < 64).then_some(64 * word + bit)
        })
    })
}

/// The lowest rank in this word of both sets.
pub fn lowest(word: usize, a: &Set, b: &Set) -> Option<usize> {
    let both = a[word] & b[word];
    (both != 0).then(|| 64 * word + both.trailing_zeros() as usize)
}

/// By rank, the ranks with fewer minutes than these between, its own among them;
/// for 0 those that share a minute.
pub fn close(turns: &[Turn], ranks: &Ranks, minutes: u32) -> [Set; MOST_TURNS] {
    const MINUTES: usize = LAST_END as usize + 1;
    // By minute, how many turns start, or end, before it.
    let starts = first_places::<MINUTES>(turns, |turn| turn.start);
    let ends = first_places::<MINUTES>(turns, |turn| turn.end() as u16);
    // By number of turns: the first ones by start, and the first ones by end. At
    // first each turn is only in the set after its own place.
    let mut started = [[0; WORDS]; MOST_TURNS + 1];
    let mut ended = [[0; WORDS]; MOST_TURNS + 1];
    let (mut next_start, mut next_end) = (starts, ends);
    for (number, turn) in turns.iter().enumerate() {
        let rank = ranks.rank(number);
        let place = &mut next_start[usize::from(turn.start)];
        *place += 1;
        add(&mut started[usize::from(*place)], rank);
        let place = &mut next_end[turn.end() as usize];
        *place += 1;
        add(&mut ended[usize::from(*place)], rank);
    }
    for count in 0..turns.len() {
        for word in 0..WORDS {
            started[count + 1][word] |= started[count][word];
            ended[count + 1][word] |= ended[count][word];
        }
    }
    let mut close = [[0; WORDS]; MOST_TURNS];
    for (rank, set) in close[..turns.len()].iter_mut().enumerate() {
        let turn = &turns[ranks.number(rank)];
        let after = (turn.end() + minutes).min(LAST_END) as usize;
        let before = (u32::from(turn.start) + 1).saturating_sub(minutes) as usize;
        let started = &started[usize::from(starts[after])];
        let ended = &ended[usize::from(ends[before])];
        for word in 0..WORDS {
            set[word] = started[word] & !ended[word];
        }
    }
    close
}

/// The change after a round.
pub fn next_change(change: u32) -> u32 {
    (change * 15 / 16).max(1)
}
