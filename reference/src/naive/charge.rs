//! The charging hall: windows in which vehicles charge, and a supply that is
//! shared. A window is a turn whose slope is the vehicle and whose groomer is
//! the draw.

use super::board::choice_map;
use super::planning::{is_open, pick, worth, worths};
use super::sheet::record;
use super::turns::{share_a_minute, Turn};
use super::{bit, lend, number};

/// What an accepted charging sheet says.
pub struct Hall {
    pub units: u32,
    pub windows: Vec<Turn>,
}

/// The two kinds of windows: those of which no two can ever go together, and
/// all others.
#[derive(Clone, Copy, Debug, PartialEq, Eq)]
pub enum Kind {
    Large,
    Small,
}

/// The plan of one kind: a choice for each window of the sheet, and each step's
/// window and amount.
pub struct Plan {
    pub chosen: Vec<bool>,
    pub steps: Vec<(usize, i64)>,
}

/// Writes the choice map of the better of two plans and gives its worth. After
/// the charging sheet's refusals 11.
pub fn charge(sheet: &[u8], map: &mut [u8]) -> Result<u32, u8> {
    let hall = accept_hall(sheet)?;
    let chosen = better_plan(&hall);
    lend(&choice_map(&chosen), map)?;
    Ok(worth(&hall.windows, &chosen) as u32)
}

/// The choice of the plan that is worth more, that of the small ones if neither
/// is.
pub fn better_plan(hall: &Hall) -> Vec<bool> {
    let small = planned(hall, Kind::Small).chosen;
    let large = planned(hall, Kind::Large).chosen;
    match worth(&hall.windows, &large) > worth(&hall.windows, &small) {
        true => large,
        false => small,
    }
}

/// Goes by the bytes of a charging sheet, from the first to the last: refusals
/// 1 to 6, 25, 8 to 10.
pub fn accept_hall(bytes: &[u8]) -> Result<Hall, u8> {
    if bytes.len() < 7 {
        return Err(1);
    }
    if bytes[0..3] != [0x47, 0x52, 0x45] {
        return Err(2);
    }
    let (units, vehicles) = (number(&bytes[3..4]), number(&bytes[4..5]));
    if !(1..=48).contains(&units) || !(1..=60).contains(&vehicles) {
        return Err(3);
    }
    let count = number(&bytes[5..7]);
    if count > 400 {
        return Err(4);
    }
    let mut windows = Vec::new();
    let mut rest = &bytes[7..];
    for _ in 0..count {
        // No driver here: the bit that a shift's record may have is refused.
        if !rest.is_empty() && bit(rest[0], 5) {
            return Err(5);
        }
        let (window, behind) = record(rest, windows.last())?;
        judge_window(&window, units, vehicles)?;
        windows.push(window);
        rest = behind;
    }
    if !rest.is_empty() {
        return Err(10);
    }
    Ok(Hall { units, windows })
}

/// Refusals 6, 25, 8 and 9: a value of the window outside its range, in this
/// order.
fn judge_window(window: &Turn, units: u32, vehicles: u32) -> Result<(), u8> {
    if window.slope == 0 || window.slope > vehicles {
        return Err(6);
    }
    if window.groomer == 0 || window.groomer > units {
        return Err(25);
    }
    if window.length == 0 || window.end() > 960 {
        return Err(8);
    }
    if window.worth == 0 || window.worth > 60_000 {
        return Err(9);
    }
    Ok(())
}

/// Whether the set is allowed: no two of its windows are one vehicle's, and what
/// its windows draw in any one minute is within the units.
pub fn is_allowed(hall: &Hall, chosen: &[bool]) -> bool {
    let mut members = Vec::new();
    for (window, &chosen) in hall.windows.iter().zip(chosen) {
        if chosen {
            members.push(window);
        }
    }
    for a in 0..members.len() {
        for b in 0..a {
            if members[a].slope == members[b].slope {
                return false;
            }
        }
    }
    (0..960).all(|minute| {
        let drawing = members.iter().filter(|window| window.holds(minute));
        drawing.map(|window| window.groomer).sum::<u32>() <= hall.units
    })
}

/// Of which kind a window is: it is a large one if twice its draw is above the
/// units.
pub fn kind(hall: &Hall, window: usize) -> Kind {
    match 2 * hall.windows[window].groomer > hall.units {
        true => Kind::Large,
        false => Kind::Small,
    }
}

/// The plan of one kind of windows; those of the other do not count.
pub fn planned(hall: &Hall, of: Kind) -> Plan {
    let steps = all_steps(hall, of);
    let mut chosen = vec![false; hall.windows.len()];
    // The steps' windows, the last step's first; then every window by number.
    let back = steps.iter().rev().map(|&(j, _)| j);
    for window in back.chain(0..hall.windows.len()) {
        let mut with = chosen.clone();
        with[window] = true;
        if kind(hall, window) == of && !chosen[window] && is_allowed(hall, &with) {
            chosen = with;
        }
    }
    Plan { chosen, steps }
}

/// While any window of the kind is open: each step's window, picked as for a
/// board, and amount.
fn all_steps(hall: &Hall, of: Kind) -> Vec<(usize, i64)> {
    let mut left = worths(&hall.windows);
    for window in 0..left.len() {
        if kind(hall, window) != of {
            left[window] = 0;
        }
    }
    let mut steps = Vec::new();
    while let Some(j) = pick(&hall.windows, &left) {
        let amount = left[j];
        let open: Vec<usize> = (0..left.len()).filter(|&a| is_open(&left, a)).collect();
        for window in open {
            left[window] -= taken(hall, of, j, amount, window);
        }
        steps.push((j, amount));
    }
    steps
}

/// What a step for J takes from an open window. From J's vehicle it is the
/// amount. From others that share a minute with J it is the amount, too, if the
/// windows are large; else that part of it which twice the window's draw is of
/// the units, rounded up.
fn taken(hall: &Hall, of: Kind, j: usize, amount: i64, window: usize) -> i64 {
    let (a, b) = (&hall.windows[window], &hall.windows[j]);
    if a.slope == b.slope {
        return amount;
    }
    if !share_a_minute(a, b) {
        return 0;
    }
    match of {
        Kind::Large => amount,
        Kind::Small => {
            let (parts, units) = (2 * i64::from(a.groomer) * amount, i64::from(hall.units));
            (parts + units - 1) / units
        }
    }
}
