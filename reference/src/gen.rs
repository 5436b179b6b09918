//! Seeded inputs for tests, corpus and comparison. The same seed always
//! gives the same bytes.

use crate::limits::{
    DRIVE_OVER, LAST_END, MOST_DRIVER, MOST_GROOMERS, MOST_SLOPES, MOST_TURNS, MOST_WORTH,
    NUMBERS_PER_TURN,
};

/// A turn as a turn table has it: slope, groomer, start, length, worth,
/// driver.
pub type Row = [u16; NUMBERS_PER_TURN];

/// Bytes before the first record.
pub const HEADER_LEN: usize = 7;

/// Generator of the xorshift64* kind: small, quick and the same everywhere.
pub struct Rng {
    state: u64,
}

impl Rng {
    pub fn new(seed: u64) -> Rng {
        // The state must not be zero, or it would stay zero for ever.
        let state = seed.wrapping_mul(0x9E37_79B9_7F4A_7C15) | 1;
        let mut rng = Rng { state };
        for _ in 0..8 {
            rng.draw();
        }
        rng
    }

    pub fn draw(&mut self) -> u64 {
        self.state ^= self.state >> 12;
        self.state ^= self.state << 25;
        self.state ^= self.state >> 27;
        self.state.wrapping_mul(0x2545_F491_4F6C_DD1D)
    }

    /// A number below the bound, which must not be zero.
    pub fn below(&mut self, bound: u32) -> u32 {
        // The high half has the better bits.
        ((self.draw() >> 32) % u64::from(bound)) as u32
    }

    /// A number from low to high, both included.
    pub fn between(&mut self, low: u32, high: u32) -> u32 {
        low + self.below(high - low + 1)
    }

    pub fn percent(&mut self, share: u32) -> bool {
        self.below(100) < share
    }

    pub fn pick<T: Copy>(&mut self, values: &[T]) -> T {
        values[self.below(values.len() as u32) as usize]
    }

    /// The numbers below the count in any order.
    pub fn shuffled(&mut self, count: usize) -> Vec<usize> {
        let mut list: Vec<usize> = (0..count).collect();
        for place in (1..count).rev() {
            list.swap(place, self.below(place as u32 + 1) as usize);
        }
        list
    }
}

/// The content of a sheet before it becomes bytes. The values need not be
/// such that a reader takes them.
#[derive(Clone, Debug)]
pub struct Shift {
    pub groomers: u8,
    pub slopes: u8,
    pub turns: Vec<Row>,
}

/// A sheet's bytes and the place of each record's map in them.
#[derive(Clone, Debug)]
pub struct Encoded {
    pub bytes: Vec<u8>,
    pub maps: Vec<usize>,
}

/// The drivers that a shift may name: half of the shifts name none, the
/// others few or many.
#[derive(Clone, Copy)]
pub struct Drivers {
    count: u32,
    /// How many turns of a hundred name none all the same.
    without: u32,
}

impl Drivers {
    pub fn drawn(rng: &mut Rng) -> Drivers {
        match rng.percent(50) {
            true => Drivers::some(rng),
            false => Drivers::few(0),
        }
    }

    fn some(rng: &mut Rng) -> Drivers {
        Drivers {
            count: rng.pick(&[1, 2, 3, 10, u32::from(MOST_DRIVER)]),
            without: rng.pick(&[0, 30, 70]),
        }
    }

    /// So many drivers; a few turns name none.
    pub fn few(count: u32) -> Drivers {
        Drivers { count, without: 20 }
    }

    /// The driver of a turn; 0 for none.
    pub fn driver(&self, rng: &mut Rng) -> u16 {
        if self.count == 0 || rng.percent(self.without) {
            return 0;
        }
        // The highest numbers as well, however few drivers there are.
        let from = if rng.percent(5) {
            u32::from(MOST_DRIVER) - self.count
        } else {
            0
        };
        (from + rng.between(1, self.count)) as u16
    }
}

/// A shift that every reader must take. Half of them name drivers.
pub fn shift(rng: &mut Rng, turns: usize) -> Shift {
    let few_slopes = (turns as u32 / 3).clamp(1, MOST_SLOPES);
    let most_slopes = if rng.percent(70) {
        few_slopes
    } else {
        MOST_SLOPES
    };
    let mut shift = Shift {
        groomers: rng.between(1, MOST_GROOMERS) as u8,
        slopes: rng.between(1, most_slopes) as u8,
        turns: Vec::with_capacity(turns),
    };
    let drivers = Drivers::drawn(rng);
    for _ in 0..turns {
        let mut fresh = fresh_turn(rng, &shift);
        fresh[5] = drivers.driver(rng);
        let turn = next_turn(rng, &shift, fresh);
        shift.turns.push(turn);
    }
    shift
}

/// One more turn, often close to the one before it: equal, soon after it, or
/// with some of its values.
fn next_turn(rng: &mut Rng, shift: &Shift, fresh: Row) -> Row {
    let Some(&old) = shift.turns.last() else {
        return fresh;
    };
    match rng.below(10) {
        0 => old,
        1 | 2 => following_turn(rng, old, fresh),
        3..=6 => mixed_turn(rng, old, fresh),
        _ => fresh,
    }
}

/// A turn without a driver.
fn fresh_turn(rng: &mut Rng, shift: &Shift) -> Row {
    let slopes = u32::from(shift.slopes);
    let groomers = u32::from(shift.groomers);
    let (start, length) = match rng.below(12) {
        0 => (900, 60),
        1 => (0, LAST_END),
        2 => (LAST_END - 1, 1),
        3 => {
            let start = rng.below(LAST_END);
            (start, LAST_END - start)
        }
        _ => {
            let length = rng.pick(&[1, 15, 30, 45, 60, 90, 120]);
            (rng.below(LAST_END - length + 1), length)
        }
    };
    let worth = match rng.below(12) {
        0 => u32::from(MOST_WORTH),
        1 => 1,
        2..=4 => rng.between(1, u32::from(MOST_WORTH)),
        _ => rng.between(1, 300),
    };
    let last = rng.percent(10);
    [
        (if last { slopes } else { rng.between(1, slopes) }) as u16,
        (if last {
            groomers
        } else {
            rng.between(1, groomers)
        }) as u16,
        start as u16,
        length as u16,
        worth as u16,
        0,
    ]
}

/// A turn of the old one's groomer or driver that starts as the old one ends,
/// or about as many minutes later as it takes to drive over.
fn following_turn(rng: &mut Rng, old: Row, fresh: Row) -> Row {
    let minutes = rng.pick(&[0, 0, 1, DRIVE_OVER - 1, DRIVE_OVER, DRIVE_OVER + 1]);
    let start = u32::from(old[2]) + u32::from(old[3]) + minutes;
    if start >= LAST_END {
        return fresh;
    }
    let length = rng.between(1, (LAST_END - start).min(90));
    let (groomer, driver) = rng.pick(&[(old[1], fresh[5]), (fresh[1], old[5]), (old[1], old[5])]);
    let (start, length) = (start as u16, length as u16);
    [fresh[0], groomer, start, length, fresh[4], driver]
}

/// A turn with some values of the old one; the fresh times come back if the
/// mixture would end too late.
pub fn mixed_turn(rng: &mut Rng, old: Row, fresh: Row) -> Row {
    let mut turn = fresh;
    for (value, old) in turn.iter_mut().zip(old) {
        if rng.percent(50) {
            *value = old;
        }
    }
    if u32::from(turn[2]) + u32::from(turn[3]) > LAST_END {
        turn[2] = fresh[2];
        turn[3] = fresh[3];
    }
    turn
}

/// Makes the bytes of a shift. Fields that the record could leave out are
/// written all the same in so many of a hundred cases.
pub fn encode(rng: &mut Rng, shift: &Shift, redundant: u32) -> Encoded {
    let head = [b'G', b'R', b'M', shift.groomers, shift.slopes];
    encode_rows(
        rng,
        head,
        &shift.turns,
        [redundant, NUMBERS_PER_TURN as u32],
    )
}

/// Makes the bytes of rows behind a head. Fields that a record could leave out
/// are written all the same in so many of a hundred cases, if they are among the
/// first so many.
pub fn encode_rows(
    rng: &mut Rng,
    head: [u8; 5],
    rows: &[Row],
    [redundant, among]: [u32; 2],
) -> Encoded {
    let mut bytes = head.to_vec();
    bytes.extend((rows.len() as u16).to_be_bytes());
    let mut maps = Vec::with_capacity(rows.len());
    let mut old: Option<Row> = None;
    for row in rows {
        let place = bytes.len();
        maps.push(place);
        bytes.push(0);
        for (field, &value) in row.iter().enumerate() {
            let same = match old {
                Some(old) => old[field] == value,
                None => field == 5 && value == 0,
            };
            if same && !((field as u32) < among && rng.percent(redundant)) {
                continue;
            }
            bytes[place] |= 1 << field;
            let [high, low] = value.to_be_bytes();
            if (2..5).contains(&field) {
                bytes.push(high);
            }
            bytes.push(low);
        }
        old = Some(*row);
    }
    Encoded { bytes, maps }
}

/// An accepted sheet with exactly so many turns.
pub fn typical(rng: &mut Rng, turns: usize) -> Encoded {
    let shift = shift(rng, turns);
    let redundant = rng.pick(&[0, 0, 20, 60, 100]);
    encode(rng, &shift, redundant)
}

/// A number of turns: mostly few, at times many, at times the most allowed.
pub fn turn_count(rng: &mut Rng) -> usize {
    match rng.below(100) {
        0 | 1 => MOST_TURNS,
        2..=11 => rng.between(100, MOST_TURNS as u32) as usize,
        12..=50 => rng.between(20, 100) as usize,
        _ => rng.between(1, 20) as usize,
    }
}

/// Values at and just over each bound, for sheets with 2 groomers and 3
/// slopes. The first value of each list is an inner one.
const SLOPES_AT_BOUND: [u16; 5] = [1, 3, 0, 4, 255];
const GROOMERS_AT_BOUND: [u16; 5] = [1, 2, 0, 3, 255];
const WORTHS_AT_BOUND: [u16; 5] = [100, 60_000, 0, 60_001, 65_535];
const DRIVERS_AT_BOUND: [u16; 5] = [0, 1, 40, 41, 255];
const TIMES_AT_BOUND: [(u16, u16); 14] = [
    (900, 60),
    (0, 960),
    (959, 1),
    (0, 0),
    (960, 0),
    (65_535, 0),
    (900, 61),
    (0, 961),
    (960, 1),
    (959, 2),
    (0, 65_535),
    (1, 65_535),
    (65_535, 1),
    (65_535, 65_535),
];

/// Every mixture of the bounds in one turn: the only one, or the second one
/// after a good turn.
pub fn bound_grid(second: bool) -> Vec<Vec<u8>> {
    let mut sheets = Vec::new();
    for slope in SLOPES_AT_BOUND {
        for groomer in GROOMERS_AT_BOUND {
            for (start, length) in TIMES_AT_BOUND {
                for worth in WORTHS_AT_BOUND {
                    for driver in [0, 40, 41] {
                        let turn = [slope, groomer, start, length, worth, driver];
                        sheets.push(bound_sheet(turn, second));
                    }
                }
            }
        }
    }
    sheets
}

/// A sheet for each bound on its own, all other values being inner ones.
pub fn single_bounds() -> Vec<Vec<u8>> {
    let inner = [1, 1, 900, 60, 100, 0];
    let mut turns = Vec::new();
    for (field, values) in [
        (0, SLOPES_AT_BOUND),
        (1, GROOMERS_AT_BOUND),
        (4, WORTHS_AT_BOUND),
        (5, DRIVERS_AT_BOUND),
    ] {
        for value in values {
            let mut turn = inner;
            turn[field] = value;
            turns.push(turn);
        }
    }
    for (start, length) in TIMES_AT_BOUND {
        turns.push([inner[0], inner[1], start, length, inner[4], inner[5]]);
    }
    let sheets = turns.into_iter();
    sheets
        .flat_map(|turn| [bound_sheet(turn, false), bound_sheet(turn, true)])
        .collect()
}

fn bound_sheet(turn: Row, second: bool) -> Vec<u8> {
    let mut turns = vec![turn];
    if second {
        // The times of the good turn are those of the first bound, so that
        // some sheets leave out the start or the length.
        turns.insert(0, [2, 2, 900, 60, 100, 0]);
    }
    let shift = Shift {
        groomers: 2,
        slopes: 3,
        turns,
    };
    encode(&mut Rng::new(0), &shift, 0).bytes
}

/// The sheet with one value of one turn moved to a bound or over it.
pub fn with_bound(rng: &mut Rng, shift: &Shift) -> Vec<u8> {
    let shift = bounded(rng, shift);
    encode(rng, &shift, 20).bytes
}

/// The shift with one value of one turn moved to a bound or over it.
pub fn bounded(rng: &mut Rng, shift: &Shift) -> Shift {
    let mut shift = shift.clone();
    let place = rng.below(shift.turns.len() as u32) as usize;
    let (groomers, slopes) = (u16::from(shift.groomers), u16::from(shift.slopes));
    let turn = &mut shift.turns[place];
    match rng.below(5) {
        0 => turn[0] = rng.pick(&[0, slopes, slopes + 1, 255]),
        1 => turn[1] = rng.pick(&[0, groomers, groomers + 1, 255]),
        2 => (turn[2], turn[3]) = rng.pick(&TIMES_AT_BOUND),
        3 => turn[4] = rng.pick(&WORTHS_AT_BOUND),
        _ => turn[5] = rng.pick(&DRIVERS_AT_BOUND),
    }
    shift
}

/// The sheet with one byte changed to another value.
pub fn damaged(rng: &mut Rng, sheet: &[u8]) -> Vec<u8> {
    let mut bytes = sheet.to_vec();
    let place = rng.below(bytes.len() as u32) as usize;
    bytes[place] ^= rng.between(1, 255) as u8;
    bytes
}

/// The sheet with each of the 256 values in one byte.
pub fn byte_sweep(sheet: &[u8], place: usize) -> Vec<Vec<u8>> {
    (0..=255)
        .map(|value| {
            let mut bytes = sheet.to_vec();
            bytes[place] = value;
            bytes
        })
        .collect()
}

/// The sheet under marks that are close to the right one.
pub fn wrong_marks(sheet: &[u8]) -> Vec<Vec<u8>> {
    let marks = [
        b"GRB", b"grm", b"GMR", b"MRG", b"RGM", b"GRN", b"HRM", b"GSM", b"\0\0\0",
    ];
    under_marks(sheet, &marks)
}

/// The bytes under each of these marks.
pub fn under_marks(bytes: &[u8], marks: &[&[u8; 3]]) -> Vec<Vec<u8>> {
    let with = |mark: &&[u8; 3]| [&mark[..], &bytes[3..]].concat();
    marks.iter().map(with).collect()
}

/// The sheet with one to nine bytes behind it, at times a further record.
pub fn trailing(rng: &mut Rng, sheet: &[u8]) -> Vec<u8> {
    let mut bytes = sheet.to_vec();
    if rng.percent(30) {
        bytes.extend([0x1F, 1, 1, 0, 0, 0, 1, 0, 1]);
    } else if rng.percent(10) {
        bytes.extend([0x20, 1]);
    } else {
        for _ in 0..rng.between(1, 9) {
            bytes.push(rng.below(256) as u8);
        }
    }
    bytes
}

/// The sheet with several faults, so that the order of the refusals shows.
/// Some of the faults may hide others or do no harm.
pub fn with_faults(rng: &mut Rng, shift: &Shift, faults: u32) -> Vec<u8> {
    let mut bytes = if rng.percent(50) {
        with_bound(rng, shift)
    } else {
        encode(rng, shift, 20).bytes
    };
    for _ in 0..faults {
        bytes = with_fault(rng, bytes);
    }
    bytes
}

fn with_fault(rng: &mut Rng, mut bytes: Vec<u8>) -> Vec<u8> {
    match rng.below(6) {
        0 => bytes.truncate(rng.below(bytes.len() as u32 + 1) as usize),
        1 => bytes.truncate(rng.below(HEADER_LEN as u32 + 3) as usize),
        2 => bytes = trailing(rng, &bytes),
        3 if !bytes.is_empty() => bytes = damaged(rng, &bytes),
        _ => {
            // The header again, as its few bytes decide four refusals.
            let place = rng.below(HEADER_LEN as u32) as usize;
            if let Some(byte) = bytes.get_mut(place) {
                *byte = rng.pick(&[0, 1, 2, 16, 17, 120, 121, 144, 145, 255]);
            }
        }
    }
    bytes
}

/// Turns that these bytes say they have, by the count in the header, as long
/// as that is one a reader would take.
pub fn turns_claimed(sheet: &[u8]) -> usize {
    if sheet.len() < HEADER_LEN {
        return 0;
    }
    let turns = usize::from(u16::from_be_bytes([sheet[5], sheet[6]]));
    turns.min(MOST_TURNS)
}

/// Numbers that a reader of these bytes may want in its table.
pub fn places_wanted(sheet: &[u8]) -> usize {
    turns_claimed(sheet) * NUMBERS_PER_TURN
}
