//! The charging hall: steps by hand, both versions side by side, and brute
//! force on small halls that no allowed set is worth more than promised.

use crate::both::{charge, in_map};
use slopeboard_reference::gen::{Rng, Row};
use slopeboard_reference::halls::{self, Hall};
use slopeboard_reference::naive::charge::{accept_hall, is_allowed, kind, planned, Kind};
use slopeboard_reference::naive::turns::share_a_minute;

/// What untouched bytes hold.
const KEPT: u8 = 0xA5;

fn hall_of(units: u8, windows: &[Row]) -> Vec<u8> {
    let hall = Hall {
        units,
        vehicles: 60,
        windows: windows.to_vec(),
    };
    bytes(&hall)
}

fn bytes(hall: &Hall) -> Vec<u8> {
    halls::encode(&mut Rng::new(0), hall, 0).bytes
}

/// The worth and the numbers of the windows in the map.
fn set_of(sheet: &[u8]) -> (u32, Vec<usize>) {
    let windows = usize::from(u16::from_be_bytes([sheet[5], sheet[6]]));
    in_map(windows, |map| charge(sheet, map).unwrap())
}

fn assert_set(units: u8, windows: &[Row], worth: u32, set: &[usize]) {
    let sheet = hall_of(units, windows);
    assert_eq!(set_of(&sheet), (worth, set.to_vec()), "{windows:?}");
}

fn steps(units: u8, windows: &[Row], of: Kind) -> Vec<(usize, i64)> {
    let hall = accept_hall(&hall_of(units, windows)).unwrap_or_else(|_| unreachable!());
    planned(&hall, of).steps
}

/// Small draws: window 0 takes 100, of which window 2 of its vehicle loses all
/// and window 1 four fifths; then window 1 takes 10. Both fit, 9 units
/// together. Large draws: window 3 takes 70 and leaves 10 of window 4.
#[test]
fn a_hall_by_hand() {
    let windows = [
        [1, 5, 0, 60, 100, 0],
        [2, 4, 30, 60, 90, 0],
        [1, 3, 100, 20, 50, 0],
        [3, 6, 0, 30, 70, 0],
        [4, 10, 20, 30, 80, 0],
    ];
    assert_eq!(steps(10, &windows, Kind::Small), [(0, 100), (1, 10)]);
    assert_eq!(steps(10, &windows, Kind::Large), [(3, 70), (4, 10)]);
    assert_set(10, &windows, 190, &[0, 1]);
    // With the small ones worth less the large ones are taken: the second of
    // them, which is chosen first.
    let mut poor = windows;
    poor[0][4] = 20;
    poor[1][4] = 30;
    assert_eq!(steps(10, &poor, Kind::Small), [(0, 20), (1, 14), (2, 30)]);
    assert_set(10, &poor, 80, &[1, 2]);
    poor[2][4] = 49;
    assert_set(10, &poor, 80, &[4]);
}

/// Half of the units is a small draw, a unit more is a large one.
#[test]
fn small_and_large() {
    for units in 1..=48 {
        for draw in 1..=units {
            let sheet = hall_of(units, &[[1, draw.into(), 0, 1, 1, 0]]);
            let hall = accept_hall(&sheet).unwrap_or_else(|_| unreachable!());
            let large = kind(&hall, 0) == Kind::Large;
            assert_eq!(large, f64::from(draw) > f64::from(units) / 2.0);
            assert_eq!(set_of(&sheet), (1, vec![0]));
        }
    }
}

#[test]
fn parts_are_rounded_up() {
    // 2 * 1 * 10 / 3 is 6 and two thirds.
    let windows = [[1, 1, 0, 10, 10, 0], [2, 1, 5, 10, 20, 0]];
    assert_eq!(steps(3, &windows, Kind::Small), [(0, 10), (1, 13)]);
    // 2 * 1 * 9 / 3 is 6.
    let windows = [[1, 1, 0, 10, 9, 0], [2, 1, 5, 10, 20, 0]];
    assert_eq!(steps(3, &windows, Kind::Small), [(0, 9), (1, 14)]);
    // The part goes by the window that loses it: 2 * 24 of 48 is all.
    let windows = [[1, 1, 0, 10, 9, 0], [2, 24, 5, 10, 9, 0]];
    assert_eq!(steps(48, &windows, Kind::Small), [(0, 9)]);
    let windows = [[1, 24, 0, 10, 9, 0], [2, 1, 5, 10, 9, 0]];
    assert_eq!(steps(48, &windows, Kind::Small), [(0, 9), (1, 8)]);
}

/// A window of the same vehicle loses the amount once, whether it shares a
/// minute or not.
#[test]
fn the_own_vehicle_loses_all() {
    let windows = [
        [1, 1, 0, 10, 10, 0],
        [1, 1, 5, 10, 30, 0],
        [1, 1, 500, 10, 15, 0],
    ];
    assert_eq!(steps(48, &windows, Kind::Small), [(0, 10), (1, 20)]);
    assert_set(48, &windows, 30, &[1]);
}

/// Touching windows share no minute, and there are no ten minutes between.
#[test]
fn touching_windows_go_together() {
    for units in [4, 48] {
        let draw = u16::from(units);
        let windows = [[1, draw, 0, 10, 10, 0], [2, draw, 10, 10, 9, 0]];
        let all = [(0, 10), (1, 9)];
        assert_eq!(steps(units, &windows, Kind::Large), all);
        assert_set(units, &windows, 19, &[0, 1]);
        let windows = [[1, draw, 0, 11, 10, 0], [2, draw, 10, 10, 9, 0]];
        assert_set(units, &windows, 10, &[0]);
        let windows = [[1, draw / 2, 0, 10, 10, 0], [2, 1, 10, 10, 9, 0]];
        assert_eq!(steps(units, &windows, Kind::Small), all);
    }
}

/// Of equal ends the one of which the most remains comes first, and what
/// remains changes from step to step; then the lowest number.
#[test]
fn ties_go_to_what_remains() {
    let windows = [
        [1, 20, 0, 60, 95, 0],
        [2, 1, 0, 60, 90, 0],
        [3, 1, 0, 60, 100, 0],
    ];
    // The step for window 2 takes 84 of window 0 and 5 of window 1; the one for
    // window 1 takes 71 of what is then left of window 0.
    assert_eq!(steps(48, &windows, Kind::Small), [(2, 100), (1, 85)]);
    assert_set(48, &windows, 285, &[0, 1, 2]);
    let windows = [[1, 1, 0, 60, 9, 0], [2, 1, 0, 60, 9, 0]];
    assert_eq!(steps(48, &windows, Kind::Small), [(0, 9), (1, 8)]);
}

/// Equal worths: the small draws.
#[test]
fn a_tie_goes_to_the_small_draws() {
    let windows = |worth| [[1, 48, 0, 60, worth, 0], [2, 1, 0, 60, 50, 0]];
    assert_set(48, &windows(49), 50, &[1]);
    assert_set(48, &windows(50), 50, &[1]);
    assert_set(48, &windows(51), 51, &[0]);
    assert_set(48, &[], 0, &[]);
}

/// Filling goes in turn order, and no window of the other kind is added.
#[test]
fn each_plan_fills_among_its_own() {
    let windows = [
        [1, 24, 0, 60, 10, 0],
        [2, 24, 0, 60, 9, 0],
        [3, 24, 0, 60, 8, 0],
        [4, 48, 100, 60, 1, 0],
    ];
    // The first step takes all of the others; filling adds one of them, and
    // never the large one, though it would go with them.
    assert_eq!(steps(48, &windows, Kind::Small), [(0, 10)]);
    assert_set(48, &windows, 19, &[0, 1]);
}

#[test]
fn refusals_in_their_order() {
    let good = hall_of(48, &[[1, 48, 900, 60, 60_000, 0], [60, 1, 0, 960, 1, 0]]);
    let refused = |sheet: &[u8]| charge(sheet, &mut [KEPT; 60]).err().unwrap_or(0);
    assert_eq!(refused(&good), 0);
    for len in 0..good.len() {
        assert_eq!(refused(&good[..len]), 1, "{len}");
    }
    let with = |place: usize, others: &[u8]| {
        let mut sheet = good.clone();
        sheet[place..place + others.len()].copy_from_slice(others);
        sheet
    };
    for mark in [b"GRM", b"GRC", b"GRB", b"GRF"] {
        assert_eq!(refused(&with(0, mark)), 2);
    }
    assert_eq!(refused(&with(2, &[0x4D, 0, 0, 1, 0x91])[..7]), 2);
    for (units, vehicles) in [(0, 60), (49, 60), (48, 0), (48, 61), (255, 255)] {
        assert_eq!(refused(&with(3, &[units, vehicles, 1, 0x91])[..7]), 3);
    }
    assert_eq!(refused(&with(5, &[1, 0x91])[..7]), 4);
    assert_eq!(refused(&with(5, &[1, 0x90])[..7]), 1);
    // Any bit above the fifth; a first map that is not whole.
    for map in [0x3F, 0x5F, 0x9F, 0x0F, 0x1E, 0] {
        assert_eq!(refused(&with(7, &[map])), 5);
        assert_eq!(refused(&with(7, &[map])[..8]), 5);
    }
    for map in [0x20, 0x3F, 0x5F, 0x9F] {
        assert_eq!(refused(&with(16, &[map])), 5);
    }
    // A named driver is 5 even if it is none.
    assert_eq!(refused(&[&with(16, &[0x3F])[..], &[0]].concat()), 5);
    // 6, 25, 8, 9 in this order, and a tail last.
    let one = |window: Row| {
        let sheet = hall_of(10, &[window]);
        let tail = [&sheet[..], &[0]].concat();
        (refused(&sheet), refused(&tail))
    };
    assert_eq!(one([0, 0, 0, 0, 0, 0]), (6, 6));
    assert_eq!(one([61, 11, 0, 0, 0, 0]), (6, 6));
    assert_eq!(one([60, 0, 0, 0, 0, 0]), (25, 25));
    assert_eq!(one([60, 11, 960, 1, 0, 0]), (25, 25));
    assert_eq!(one([60, 10, 960, 1, 0, 0]), (8, 8));
    assert_eq!(one([60, 10, 900, 61, 1, 0]), (8, 8));
    assert_eq!(one([60, 10, 900, 60, 0, 0]), (9, 9));
    assert_eq!(one([60, 10, 900, 60, 60_001, 0]), (9, 9));
    assert_eq!(one([60, 10, 900, 60, 60_000, 0]), (0, 10));
    // 11 comes after all others.
    assert_eq!(charge(&good, &mut []), Err(11));
    assert_eq!(charge(&good[..good.len() - 1], &mut []), Err(1));
    assert_eq!(charge(b"GRE\x01\x01\0\0", &mut []), Ok(0));
    let most = hall_of(48, &vec![[1, 1, 0, 1, 1, 0]; 400]);
    assert_eq!(charge(&most, &mut [KEPT; 49]), Err(11));
    assert_eq!(charge(&most, &mut [KEPT; 50]), Ok(1));
}

/// Whether the members, given by their bits, are allowed: the most is drawn
/// where a window begins.
fn set_is_allowed(hall: &Hall, set: u32) -> bool {
    let has = |number: &usize| set >> number & 1 == 1;
    let members: Vec<&Row> = (0..hall.windows.len())
        .filter(has)
        .map(|number| &hall.windows[number])
        .collect();
    let mut vehicles = 0u64;
    for member in &members {
        if vehicles >> member[0] & 1 == 1 {
            return false;
        }
        vehicles |= 1 << member[0];
    }
    members.iter().all(|member| {
        let holds = |other: &&&Row| other[2] <= member[2] && member[2] < other[2] + other[3];
        let drawn: u16 = members.iter().filter(holds).map(|other| other[1]).sum();
        drawn <= u16::from(hall.units)
    })
}

/// The most that an allowed set of the hall is worth. Every set is tried.
fn best_worth(hall: &Hall) -> u32 {
    let mut best = 0;
    for set in 0..1u32 << hall.windows.len() {
        if set_is_allowed(hall, set) {
            let has = |number: &usize| set >> number & 1 == 1;
            let members = (0..hall.windows.len()).filter(has);
            best = best.max(
                members
                    .map(|number| u32::from(hall.windows[number][4]))
                    .sum(),
            );
        }
    }
    best
}

/// What is promised: five times the plan, and the units for each step of the
/// small draws.
fn promised(hall: &Hall, worth: u32) -> u32 {
    let accepted = accept_hall(&bytes(hall)).unwrap_or_else(|_| unreachable!());
    let steps = planned(&accepted, Kind::Small).steps.len() as u32;
    5 * worth + u32::from(hall.units) * steps
}

/// A hall found by a long search: the best set is worth almost five times the
/// plan.
#[test]
fn a_hall_near_the_bound() {
    let hall = Hall {
        units: 2,
        vehicles: 60,
        windows: vec![
            [9, 2, 1, 3, 58_005, 0],
            [9, 1, 0, 12, 62, 0],
            [14, 1, 2, 8, 44_327, 0],
            [7, 1, 1, 9, 58_008, 0],
            [9, 2, 10, 1, 58_001, 0],
            [12, 1, 0, 12, 58_003, 0],
            [10, 1, 8, 2, 58_002, 0],
            [9, 2, 1, 3, 51_391, 0],
            [5, 1, 3, 7, 20_593, 0],
            [1, 1, 6, 5, 14_766, 0],
            [5, 2, 2, 5, 58_005, 0],
            [14, 1, 9, 1, 58_002, 0],
            [7, 1, 11, 1, 58_004, 0],
        ],
    };
    let (worth, _) = set_of(&bytes(&hall));
    let best = best_worth(&hall);
    assert!(best <= promised(&hall, worth));
    assert!(best * 1000 > worth * 4990, "{best} {worth}");
}

/// Every set is tried. None that is allowed is worth more than five times the
/// plan and the units for each step of the small draws.
#[test]
fn no_allowed_set_is_worth_more_than_promised() {
    let mut rng = Rng::new(141);
    let (mut small, mut large, mut over) = (0, 0, 0);
    for _ in 0..6000 {
        let hall = halls::small(&mut rng, 11);
        let sheet = bytes(&hall);
        let (worth, set) = set_of(&sheet);
        let accepted = accept_hall(&sheet).unwrap_or_else(|_| unreachable!());
        let best = best_worth(&hall);
        assert!(best <= promised(&hall, worth), "{best} {worth} {hall:?}");
        assert!(worth <= best);
        over += u32::from(best > worth);
        let chosen: Vec<bool> = (0..hall.windows.len()).map(|n| set.contains(&n)).collect();
        assert!(is_allowed(&accepted, &chosen));
        let kinds: Vec<Kind> = set.iter().map(|&n| kind(&accepted, n)).collect();
        assert!(kinds.windows(2).all(|two| two[0] == two[1]));
        small += u32::from(kinds.first() == Some(&Kind::Small));
        large += u32::from(kinds.first() == Some(&Kind::Large));
    }
    assert!(
        small > 500 && large > 500 && over > 500,
        "{small} {large} {over}"
    );
}

/// The plan of the kind is full: nothing of its kind could be added. Two large
/// windows are allowed together just if they do not clash.
#[test]
fn plans_are_full_and_large_ones_conflict() {
    let mut rng = Rng::new(142);
    for round in 0..1500 {
        let windows = rng.below(14) as usize;
        let hall = halls::hall(&mut rng, round % halls::SHAPES, windows);
        let hall = accept_hall(&bytes(&hall)).unwrap_or_else(|_| unreachable!());
        for of in [Kind::Small, Kind::Large] {
            let plan = planned(&hall, of);
            assert!(is_allowed(&hall, &plan.chosen));
            for window in 0..windows {
                let mut with = plan.chosen.clone();
                with[window] = true;
                let own = kind(&hall, window) == of;
                assert!(own || !plan.chosen[window]);
                assert!(!own || plan.chosen[window] || !is_allowed(&hall, &with));
            }
        }
        for a in 0..windows {
            for b in 0..a {
                if [a, b].iter().all(|&n| kind(&hall, n) == Kind::Large) {
                    let mut two = vec![false; windows];
                    (two[a], two[b]) = (true, true);
                    let (x, y) = (&hall.windows[a], &hall.windows[b]);
                    let conflict = x.slope == y.slope || share_a_minute(x, y);
                    assert_eq!(is_allowed(&hall, &two), !conflict);
                }
            }
        }
    }
}

#[test]
fn halls_of_all_sizes_agree() {
    let mut rng = Rng::new(143);
    for round in 0..1500 {
        let windows = match round % 30 {
            0 => 400,
            1..4 => rng.below(150) as usize,
            _ => rng.below(25) as usize,
        };
        let hall = halls::hall(&mut rng, round % halls::SHAPES, windows);
        let sheet = halls::encode(&mut rng, &hall, 20).bytes;
        set_of(&sheet);
        let mut short = vec![KEPT; windows.div_ceil(8).saturating_sub(1)];
        let refused = charge(&sheet, &mut short);
        assert!(windows == 0 || refused == Err(11));
        assert!(short.iter().all(|&byte| byte == KEPT));
    }
}

#[test]
fn faulty_sheets_agree() {
    let mut rng = Rng::new(144);
    let mut seen = [0; 26];
    for round in 0..20_000 {
        let windows = rng.between(1, 8) as usize;
        let hall = halls::hall(&mut rng, round % halls::SHAPES, windows);
        let sheet = halls::with_fault(&mut rng, &hall, round % halls::FAULTS);
        let mut map = vec![KEPT; rng.pick(&[0, 1, 1, 1, 2])];
        let number = charge(&sheet, &mut map).err().unwrap_or(0);
        seen[usize::from(number)] += 1;
    }
    for number in (0..=6).chain(8..=11).chain([25]) {
        assert!(seen[number] > 20, "{number}: {seen:?}");
    }
    assert_eq!((seen[7], seen[19]), (0, 0));
}
