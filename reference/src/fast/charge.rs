//! The charging hall.

use super::board::{map_len, mark_chosen};
use super::refusal;
use super::sheet::{no_turns, parse_record, TurnArray, HEADER_LEN};
use super::turns::Turn;
use crate::limits::{LAST_END, MOST_TURNS, MOST_UNITS, MOST_VEHICLES, MOST_WORTH};

const MAGIC: [u8; 3] = *b"GRE";
/// The bit of a shift's map that no window's map has.
const HAS_DRIVER: u8 = 1 << 5;

/// Marks the windows of the better plan and gives its worth.
pub fn charge(sheet: &[u8], map: &mut [u8]) -> Result<u32, u8> {
    let mut windows = no_turns();
    let (units, count) = parse(sheet, &mut windows)?;
    let windows = &windows[..count];
    let map = map.get_mut(..map_len(count));
    let map = map.ok_or(refusal::BUFFER_TOO_SMALL)?;
    let better = planned(windows, units);
    map.copy_from_slice(&better.map[..map.len()]);
    Ok(better.worth)
}

/// The better of the two plans.
pub fn planned(windows: &[Turn], units: u32) -> Plan {
    let small = plan::<false>(windows, units);
    let large = plan::<true>(windows, units);
    if large.worth > small.worth {
        large
    } else {
        small
    }
}

/// Goes through all bytes of a charging sheet. Gives the units and the number
/// of windows.
pub fn parse(sheet: &[u8], windows: &mut TurnArray) -> Result<(u32, usize), u8> {
    if sheet.len() < HEADER_LEN {
        return Err(refusal::TRUNCATED);
    }
    let (header, mut rest) = sheet.split_at(HEADER_LEN);
    if header[..3] != MAGIC {
        return Err(refusal::BAD_MAGIC);
    }
    let (units, vehicles) = (u16::from(header[3]), u16::from(header[4]));
    if !(1..=MOST_UNITS).contains(&units) || !(1..=MOST_VEHICLES).contains(&vehicles) {
        return Err(refusal::BAD_COUNTS);
    }
    let count = usize::from(u16::from_be_bytes([header[5], header[6]]));
    if count > MOST_TURNS {
        return Err(refusal::TOO_MANY_TURNS);
    }
    let mut previous = None;
    for place in &mut windows[..count] {
        if rest.first().is_some_and(|map| map & HAS_DRIVER != 0) {
            return Err(refusal::BAD_MAP);
        }
        let (window, later) = parse_record(rest, previous)?;
        judge(&window, units, vehicles)?;
        *place = window;
        previous = Some(window);
        rest = later;
    }
    if rest.is_empty() {
        Ok((units.into(), count))
    } else {
        Err(refusal::TRAILING_BYTES)
    }
}

fn judge(window: &Turn, units: u16, vehicles: u16) -> Result<(), u8> {
    if !(1..=vehicles).contains(&window.slope) {
        return Err(refusal::BAD_SLOPE);
    }
    if !(1..=units).contains(&window.groomer) {
        return Err(refusal::BAD_DRAW);
    }
    if window.length == 0 || window.end() > LAST_END {
        return Err(refusal::BAD_TIME);
    }
    if window.worth == 0 || window.worth > MOST_WORTH {
        return Err(refusal::BAD_WORTH);
    }
    Ok(())
}

/// What the windows of one kind come to.
pub struct Plan {
    pub map: [u8; MOST_TURNS / 8],
    pub worth: u32,
}

/// Plans the windows whose draw is more than half of the units, or those whose
/// draw is not.
fn plan<const LARGE: bool>(windows: &[Turn], units: u32) -> Plan {
    let is_own = |window: &Turn| (2 * u32::from(window.groomer) > units) == LARGE;
    let mut residuals = [0; MOST_TURNS];
    let residuals = &mut residuals[..windows.len()];
    let mut order = [0u16; MOST_TURNS];
    let mut own = 0;
    for (number, window) in windows.iter().enumerate() {
        if is_own(window) {
            residuals[number] = i32::from(window.worth);
            order[own] = number as u16;
            own += 1;
        }
    }
    let order = &mut order[..own];
    let end = |number: u16| windows[usize::from(number)].end();
    // In turn order among equal ends.
    order.sort_by_key(|&number| end(number));
    let mut steps = [0u16; MOST_TURNS];
    let mut made = 0;
    for stretch in order.chunk_by(|&a, &b| end(a) == end(b)) {
        // A step may change what is left of the others by different parts, so
        // each looks for the most again.
        while let Some(number) = richest(residuals, stretch) {
            take::<LARGE>(windows, residuals, number, units);
            steps[made] = number;
            made += 1;
        }
    }
    let mut selection = Selection::new(units);
    let mut map = [0; MOST_TURNS / 8];
    let own = (0..windows.len()).filter(|&number| is_own(&windows[number]));
    for number in steps[..made].iter().rev().map(|&step| usize::from(step)) {
        if selection.add(&windows[number]) {
            mark_chosen(&mut map, number);
        }
    }
    for number in own {
        if selection.add(&windows[number]) {
            mark_chosen(&mut map, number);
        }
    }
    Plan {
        map,
        worth: selection.worth,
    }
}

/// The open window with the most left, of equals the first.
fn richest(residuals: &[i32], numbers: &[u16]) -> Option<u16> {
    let left = |number: u16| residuals[usize::from(number)];
    let open = numbers.iter().copied().filter(|&number| left(number) > 0);
    open.reduce(|best, next| if left(next) > left(best) { next } else { best })
}

/// Does one step for the window `picked`.
fn take<const LARGE: bool>(windows: &[Turn], residuals: &mut [i32], picked: u16, units: u32) {
    let amount = residuals[usize::from(picked)];
    let picked = &windows[usize::from(picked)];
    for (residual, window) in residuals.iter_mut().zip(windows) {
        if *residual <= 0 {
            continue;
        }
        let shares =
            u32::from(window.start) < picked.end() && u32::from(picked.start) < window.end();
        if window.slope == picked.slope || LARGE && shares {
            *residual -= amount;
        } else if shares {
            let parts = 2 * u32::from(window.groomer) * amount as u32;
            *residual -= parts.div_ceil(units) as i32;
        }
    }
}

/// Chosen windows that the supply carries.
pub struct Selection {
    units: u8,
    /// By minute, the units drawn.
    drawn: [u8; LAST_END as usize],
    /// By vehicle, a bit each.
    vehicles: u64,
    worth: u32,
}

impl Selection {
    pub fn new(units: u32) -> Selection {
        Selection {
            // At most 48.
            units: units as u8,
            drawn: [0; LAST_END as usize],
            vehicles: 0,
            worth: 0,
        }
    }

    /// Adds the window if the vehicle has none and the supply is enough. A
    /// window already chosen is not added again, since its vehicle has one.
    pub fn add(&mut self, window: &Turn) -> bool {
        let fits = self.fits(window);
        if fits {
            self.put(window);
        }
        fits
    }

    pub fn fits(&self, window: &Turn) -> bool {
        let drawn = &self.drawn[minutes(window)];
        let spare = self.units - window.groomer as u8;
        // Most that do not fit fail on their first or last minute.
        self.vehicles >> window.slope & 1 == 0
            && drawn[0].max(drawn[drawn.len() - 1]) <= spare
            && most(drawn) <= spare
    }

    /// Adds a window that fits.
    pub fn put(&mut self, window: &Turn) {
        let drawn = &mut self.drawn[minutes(window)];
        drawn
            .iter_mut()
            .for_each(|units| *units += window.groomer as u8);
        self.vehicles |= 1 << window.slope;
        self.worth += u32::from(window.worth);
    }

    /// Takes a chosen window out.
    pub fn take_out(&mut self, window: &Turn) {
        let drawn = &mut self.drawn[minutes(window)];
        drawn
            .iter_mut()
            .for_each(|units| *units -= window.groomer as u8);
        self.vehicles &= !(1 << window.slope);
        self.worth -= u32::from(window.worth);
    }

    pub fn worth(&self) -> u32 {
        self.worth
    }
}

/// The greatest of these, by sixteens: the last sixteen may overlap others.
fn most(drawn: &[u8]) -> u8 {
    let Some(last) = drawn.last_chunk::<16>() else {
        return drawn.iter().copied().max().unwrap_or(0);
    };
    let mut most = *last;
    for sixteen in drawn.chunks_exact(16) {
        for (most, &units) in most.iter_mut().zip(sixteen) {
            *most = units.max(*most);
        }
    }
    most.into_iter().max().unwrap_or(0)
}

/// The minutes that a window holds.
fn minutes(window: &Turn) -> std::ops::Range<usize> {
    usize::from(window.start)..window.end() as usize
}
