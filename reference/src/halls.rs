//! Seeded charging sheets, right ones and faulty ones. A window is a row as a
//! turn has one: vehicle, draw, start, length, worth, and a 0 in the place of
//! the driver.

use crate::gen::{self, Rng, Row, HEADER_LEN};
use crate::limits::{LAST_END, MOST_UNITS, MOST_VEHICLES, MOST_WORTH};
use crate::shapes;

/// The content of a charging sheet before it becomes bytes. The values need
/// not be such that anyone takes them.
#[derive(Clone, Debug)]
pub struct Hall {
    pub units: u8,
    pub vehicles: u8,
    pub windows: Vec<Row>,
}

/// How many shapes there are.
pub const SHAPES: u32 = 6;

/// A hall of this shape with so many windows.
pub fn hall(rng: &mut Rng, shape: u32, windows: usize) -> Hall {
    let units = match rng.below(6) {
        0 => rng.between(1, 3),
        1 => u32::from(MOST_UNITS),
        2 => u32::from(MOST_UNITS) - 1,
        _ => rng.between(1, MOST_UNITS.into()),
    };
    let vehicles = match rng.below(4) {
        0 => u32::from(MOST_VEHICLES),
        1 => rng.between(1, 4),
        _ => rng.between(1, MOST_VEHICLES.into()),
    };
    // The last end, and the longest window.
    let (last_end, longest) = match shape {
        0 => (LAST_END, 400),
        1 => (45, 20),
        2 => (30, 6),
        3 => (LAST_END, LAST_END),
        4 => (100, 40),
        _ => (LAST_END, 90),
    };
    let worth = rng.pick(&[3, 50, 1000, u32::from(MOST_WORTH)]);
    let draws = rng.below(4);
    let ends = rng.percent(20);
    let window = |_| {
        let length = rng.between(1, longest);
        let mut start = rng.below(last_end - length + 1);
        if ends {
            let end = rng.pick(&[last_end, last_end, last_end - 1]);
            start = end.saturating_sub(length).min(last_end - length);
        }
        let draw = draw(rng, units, draws);
        [
            rng.between(1, vehicles) as u16,
            draw as u16,
            start as u16,
            length as u16,
            rng.between(1, worth) as u16,
            0,
        ]
    };
    Hall {
        units: units as u8,
        vehicles: vehicles as u8,
        windows: (0..windows).map(window).collect(),
    }
}

/// A draw: of any size, about half of the units, at most that, or tiny.
fn draw(rng: &mut Rng, units: u32, draws: u32) -> u32 {
    let draw = match draws {
        0 => rng.between(1, units),
        1 => (units / 2 + rng.below(3)).saturating_sub(1),
        2 => rng.between(1, units.div_ceil(2)),
        _ => rng.pick(&[1, 1, 2, units / 4, units]),
    };
    draw.clamp(1, units)
}

/// A hall with the most units and vehicles, draws of every size, and windows of
/// half an hour to an hour and a half.
pub fn usual(rng: &mut Rng, windows: usize) -> Hall {
    let counts = [MOST_UNITS, MOST_VEHICLES].map(u32::from);
    let drawn = shapes::drawn(rng, windows, counts, [LAST_END, 30, 90], MOST_WORTH.into());
    Hall {
        units: MOST_UNITS as u8,
        vehicles: MOST_VEHICLES as u8,
        windows: drawn.turns,
    }
}

/// The usual hall with draws of at most an eighth of the units: every step
/// takes little, so that there are many.
pub fn small_draws(rng: &mut Rng, windows: usize) -> Hall {
    let mut hall = usual(rng, windows);
    for [_, draw, ..] in &mut hall.windows {
        *draw = rng.between(1, u32::from(MOST_UNITS) / 8) as u16;
    }
    hall
}

/// The same with all windows in one hour and a half, each of which holds its
/// middle.
pub fn all_together(rng: &mut Rng, windows: usize) -> Hall {
    let mut hall = small_draws(rng, windows);
    for [_, _, start, length, ..] in &mut hall.windows {
        *start = 445 - rng.below((*length).into()) as u16;
    }
    hall
}

/// Small draws, and each step takes 1 from every open window: all hold one
/// minute, and the worths rise by 1 with the ends.
pub fn one_from_all(rng: &mut Rng, windows: usize) -> Hall {
    let mut hall = small_draws(rng, windows);
    for (number, [_, _, start, length, worth, _]) in (0..).zip(&mut hall.windows) {
        *start = rng.below(400) as u16;
        *length = 401 + number - *start;
        *worth = 1 + number;
    }
    hall
}

/// Up to so many windows in few minutes, for trying every set.
pub fn small(rng: &mut Rng, most: u32) -> Hall {
    let windows = rng.between(0, most) as usize;
    let shape = rng.pick(&[1, 2, 4]);
    let mut hall = hall(rng, shape, windows);
    if rng.percent(50) {
        hall.vehicles = MOST_VEHICLES as u8;
        for (window, vehicle) in hall.windows.iter_mut().zip(1..) {
            window[0] = vehicle;
        }
    }
    hall
}

/// Up to so many windows on few vehicles, each with more than half of the
/// units.
pub fn large(rng: &mut Rng, most: u32) -> Hall {
    let windows = rng.between(2, most) as usize;
    let mut hall = hall(rng, 4, windows);
    hall.vehicles = rng.between(2, 5) as u8;
    let units = u32::from(hall.units);
    for window in &mut hall.windows {
        window[0] = rng.between(1, hall.vehicles.into()) as u16;
        window[1] = rng.between(units / 2 + 1, units) as u16;
    }
    hall
}

/// The bytes of a hall, and the place of each record's map. Fields that a
/// record could leave out are there in so many of a hundred cases; no record
/// names a driver, unless the row has one.
pub fn encode(rng: &mut Rng, hall: &Hall, redundant: u32) -> gen::Encoded {
    let head = [b'G', b'R', b'E', hall.units, hall.vehicles];
    gen::encode_rows(rng, head, &hall.windows, [redundant, 5])
}

/// Starts and lengths at and over their bounds.
const TIMES: [(u16, u16); 9] = [
    (900, 60),
    (0, 960),
    (959, 1),
    (0, 0),
    (900, 61),
    (960, 1),
    (959, 2),
    (65_535, 1),
    (65_535, 65_535),
];

/// The hall with one value of one window moved to a bound or over it.
pub fn bounded(rng: &mut Rng, hall: &Hall) -> Hall {
    let mut hall = hall.clone();
    let place = rng.below(hall.windows.len() as u32) as usize;
    let (units, vehicles) = (u16::from(hall.units), u16::from(hall.vehicles));
    let window = &mut hall.windows[place];
    match rng.below(4) {
        0 => window[0] = rng.pick(&[0, vehicles, vehicles + 1, 255]),
        1 => window[1] = rng.pick(&[0, units, units + 1, 255]),
        2 => (window[2], window[3]) = rng.pick(&TIMES),
        _ => window[4] = rng.pick(&[0, 1, 60_000, 60_001, 65_535]),
    }
    hall
}

/// How many kinds of fault there are.
pub const FAULTS: u32 = 9;

/// A charging sheet of the hall, which has windows, with a fault of this kind.
/// Some come out unharmed.
pub fn with_fault(rng: &mut Rng, hall: &Hall, kind: u32) -> Vec<u8> {
    let sheet = match kind {
        0 | 1 => {
            let hall = bounded(rng, hall);
            encode(rng, &hall, 20)
        }
        // A driver is named, which is wrong even if it is 0.
        2 => {
            let mut hall = hall.clone();
            let place = rng.below(hall.windows.len() as u32) as usize;
            hall.windows[place][5] = rng.between(1, 40) as u16;
            encode(rng, &hall, 20)
        }
        _ => encode(rng, hall, 20),
    };
    let gen::Encoded { mut bytes, maps } = sheet;
    let map = maps[rng.below(maps.len() as u32) as usize];
    match kind {
        0 | 2 => {}
        // A wrong value and a cut, wherever that is.
        1 => bytes.truncate(rng.between(HEADER_LEN as u32, bytes.len() as u32) as usize),
        3 => bytes[map] |= rng.pick(&[0x20, 0x40, 0x80, 0xE0]),
        4 => bytes[HEADER_LEN] = rng.pick(&[0, 0x0F, 0x1E, 0x3F, 0x5F]),
        5 => bytes.truncate(rng.below(bytes.len() as u32) as usize),
        6 => bytes.extend((0..rng.between(1, 9)).map(|_| rng.below(256) as u8)),
        7 => {
            let place = rng.below(HEADER_LEN as u32) as usize;
            bytes[place] = rng.pick(&[0, 1, 2, 48, 49, 60, 61, 77, 144, 145, 255]);
        }
        _ => {
            let place = rng.below(bytes.len() as u32) as usize;
            bytes[place] ^= rng.between(1, 255) as u8;
        }
    }
    bytes
}

/// The charging sheet under marks that are close to the right one.
pub fn wrong_marks(sheet: &[u8]) -> Vec<Vec<u8>> {
    let marks = [b"GRM", b"GRB", b"GRC", b"gre", b"GER", b"HRE", b"\0\0\0"];
    gen::under_marks(sheet, &marks)
}
