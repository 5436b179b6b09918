//! Sheets and halls as people type them, and halls drawn as sheets are: round
//! worths, one for all turns of a slope, and times at the quarter hour.

use crate::gen::{Rng, Row};
use crate::halls::{self, Hall};
use crate::limits::{LAST_END, MOST_TURNS};
use crate::naive::draw::{length_of, next};
use crate::naive::write;

/// A kind of typed sheet: groomers, slopes, the mean number of turns a slope,
/// drivers, and the greatest worth in tens.
pub struct Typed {
    pub groomers: u32,
    pub slopes: u32,
    pub mean: u32,
    pub drivers: u32,
    pub tens: u32,
}

pub const fn typed([groomers, slopes, mean, drivers, tens]: [u32; 5]) -> Typed {
    Typed {
        groomers,
        slopes,
        mean,
        drivers,
        tens,
    }
}

pub const SHEETS: [Typed; 7] = [
    typed([4, 30, 4, 0, 30]),
    typed([8, 60, 4, 0, 30]),
    typed([16, 120, 3, 0, 30]),
    typed([6, 60, 6, 0, 20]),
    typed([8, 60, 4, 8, 30]),
    typed([12, 100, 4, 16, 30]),
    typed([6, 60, 6, 6, 10]),
];

impl Typed {
    /// The sheet of a seed. A slope has from one turn to twice the mean less
    /// one; past the most turns of a sheet no more are typed.
    pub fn sheet(&self, seed: u64) -> Vec<u8> {
        let mut rng = Rng::new(seed);
        let mut turns: Vec<Row> = Vec::new();
        for slope in 1..=self.slopes {
            let slope_turns = rng.between(1, 2 * self.mean - 1);
            turns.extend(typed_turns(&mut rng, slope, slope_turns, self.tens));
        }
        turns.truncate(MOST_TURNS);
        for turn in &mut turns {
            turn[1] = rng.between(1, self.groomers) as u16;
            if self.drivers > 0 && !rng.percent(25) {
                turn[5] = rng.between(1, self.drivers) as u16;
            }
        }
        let mut sheet = vec![0; 4007];
        let len = write(self.groomers, self.slopes, &turns.concat(), &mut sheet);
        sheet.truncate(len.expect("what is typed is accepted"));
        sheet
    }

    pub fn name(&self) -> String {
        let Typed {
            groomers,
            slopes,
            mean,
            drivers,
            tens,
        } = self;
        format!("typed {groomers}, {slopes}, {mean}, {drivers} drivers, {tens}")
    }
}

/// So many turns of one slope, which have one worth and one length; the groomer
/// is left open.
fn typed_turns(rng: &mut Rng, slope: u32, count: u32, tens: u32) -> Vec<Row> {
    let worth = 10 * rng.between(1, tens);
    let length = 15 * rng.between(2, 7);
    let turn = |_| {
        let start = 15 * rng.below((LAST_END - length) / 15 + 1);
        [slope, 0, start, length, worth, 0].map(|value| value as u16)
    };
    (0..count).map(turn).collect()
}

/// A kind of hall: units, vehicles, windows, the greatest draw, and whether it
/// is typed.
pub struct HallKind {
    pub units: u32,
    pub vehicles: u32,
    pub windows: u32,
    pub draw: u32,
    pub typed: bool,
}

pub const fn hall([units, vehicles, windows, draw]: [u32; 4], typed: bool) -> HallKind {
    HallKind {
        units,
        vehicles,
        windows,
        draw,
        typed,
    }
}

/// Of the typed ones only units and vehicles are given. They have draws of every
/// size and about as many windows as the drawn ones.
pub const HALLS: [HallKind; 10] = [
    hall([12, 20, 60, 12], false),
    hall([24, 40, 200, 12], false),
    hall([6, 30, 120, 6], false),
    hall([10, 60, 400, 3], false),
    hall([1, 60, 400, 1], false),
    hall([48, 60, 400, 24], false),
    hall([48, 60, 400, 48], false),
    hall([12, 20, 60, 12], true),
    hall([24, 40, 200, 24], true),
    hall([48, 60, 400, 48], true),
];

impl HallKind {
    /// The charging sheet of a seed.
    pub fn sheet(&self, seed: u64) -> Vec<u8> {
        let windows = match self.typed {
            true => self.typed_windows(seed),
            false => self.drawn_windows(seed),
        };
        let hall = Hall {
            units: self.units as u8,
            vehicles: self.vehicles as u8,
            windows,
        };
        halls::encode(&mut Rng::new(0), &hall, 0).bytes
    }

    fn drawn_windows(&self, seed: u64) -> Vec<Row> {
        let mut number = seed;
        let mut below = |bound: u32| {
            number = next(number);
            (number % u64::from(bound)) as u16
        };
        let mut windows = Vec::new();
        for _ in 0..self.windows {
            let (vehicle, draw) = (1 + below(self.vehicles), 1 + below(self.draw));
            let (start, length) = (below(841), length_of(below(100).into()) as u16);
            windows.push([vehicle, draw, start, length, 1 + below(60_000), 0]);
        }
        windows
    }

    fn typed_windows(&self, seed: u64) -> Vec<Row> {
        let mut rng = Rng::new(seed);
        let mut windows = Vec::new();
        for vehicle in 1..=self.vehicles {
            let most = 2 * self.windows / self.vehicles - 1;
            let count = rng.between(1, most);
            windows.extend(typed_turns(&mut rng, vehicle, count, 30));
        }
        windows.truncate(MOST_TURNS);
        for window in &mut windows {
            window[1] = rng.between(1, self.draw) as u16;
        }
        windows
    }

    pub fn name(&self) -> String {
        let HallKind {
            units,
            vehicles,
            windows,
            draw,
            typed,
        } = self;
        let kind = if *typed { "typed hall" } else { "hall" };
        format!("{kind} {units}, {vehicles}, {windows}, {draw}")
    }
}
