//! The charging hall by prices: limits and rounds by hand, both versions side by
//! side, and brute force on small halls that no allowed set is worth more,
//! whatever the prices are.

use crate::both::{charge, charge_limit, charge_refine, BYTE_KEPT};
use slopeboard_reference::gen::{Rng, Row};
use slopeboard_reference::halls::{self, Hall};
use slopeboard_reference::naive::charge::{accept_hall, is_allowed};
use slopeboard_reference::naive::charge_limit::look;
use slopeboard_reference::naive::ChargeRefined;
use slopeboard_reference::prices;

/// What an untouched price holds.
const PRICE_KEPT: u16 = 0xA5A5;

fn hall_of(units: u8, windows: &[Row]) -> Vec<u8> {
    let hall = Hall {
        units,
        vehicles: 60,
        windows: windows.to_vec(),
    };
    bytes(&hall)
}

fn bytes(hall: &Hall) -> Vec<u8> {
    halls::encode(&mut Rng::new(0), hall, 0).bytes
}

fn windows_of(sheet: &[u8]) -> usize {
    usize::from(u16::from_be_bytes([sheet[5], sheet[6]]))
}

/// Prices of 0 but in these minutes.
fn list_of(some: &[(usize, u16)]) -> Vec<u16> {
    let mut list = vec![0; 960];
    for &(minute, price) in some {
        list[minute] = price;
    }
    list
}

/// The most that an allowed set is worth; every set is tried.
fn best_worth(hall: &Hall) -> u32 {
    let accepted = accept_hall(&bytes(hall)).unwrap_or_else(|_| unreachable!());
    let count = hall.windows.len();
    let mut best = 0;
    for set in 0..1u32 << count {
        let chosen: Vec<bool> = (0..count).map(|window| set >> window & 1 == 1).collect();
        let members = (0..count).filter(|&window| chosen[window]);
        let worth = members.map(|window| u32::from(hall.windows[window][4]));
        let worth = worth.sum();
        if worth > best && is_allowed(&accepted, &chosen) {
            best = worth;
        }
    }
    best
}

/// What comes of so many rounds: the answer, the windows of the map and the
/// prices. What is promised of them is looked at: the set is allowed, worth as
/// much as is said and no less than the plan, and the limit is that of the
/// prices. The places are lent longer than they need be, and nothing behind is
/// touched.
fn refined(sheet: &[u8], rounds: u32) -> (ChargeRefined, Vec<usize>, Vec<u16>) {
    let windows = windows_of(sheet);
    let mut list = vec![PRICE_KEPT; 961];
    let call = |map: &mut [u8]| charge_refine(sheet, rounds, map, &mut list).unwrap();
    let (found, set) = crate::both::in_map(windows, call);
    assert_eq!(list.pop(), Some(PRICE_KEPT));
    let hall = accept_hall(sheet).unwrap_or_else(|_| unreachable!());
    let chosen: Vec<bool> = (0..windows).map(|window| set.contains(&window)).collect();
    assert!(is_allowed(&hall, &chosen));
    let worth: u32 = set.iter().map(|&window| hall.windows[window].worth).sum();
    assert_eq!(worth, found.worth);
    let (plan, planned) = crate::both::in_map(windows, |map| charge(sheet, map).unwrap());
    assert!(plan <= worth && worth <= found.limit);
    // Only what is worth more takes the plan's place.
    assert!(worth > plan || set == planned);
    assert_eq!(charge_limit(sheet, &list), Ok(found.limit));
    assert!(found.rounds <= rounds);
    assert!(found.rounds == rounds || found.worth == found.limit);
    (found, set, list)
}

/// The worth, the limit and the rounds made.
fn figures(sheet: &[u8], rounds: u32) -> (u32, u32, u32) {
    let found = refined(sheet, rounds).0;
    (found.worth, found.limit, found.rounds)
}

/// Two windows of one vehicle and one of another, 10 units.
#[test]
fn limits_by_hand() {
    let windows = [
        [1, 6, 0, 10, 100, 0],
        [1, 3, 20, 10, 90, 0],
        [2, 5, 5, 10, 80, 0],
    ];
    let sheet = hall_of(10, &windows);
    let limit = |some: &[(usize, u16)]| charge_limit(&sheet, &list_of(some));
    assert_eq!(limit(&[]), Ok(180));
    // In a minute that nobody wants all units cost, and no one pays.
    assert_eq!(limit(&[(959, 16)]), Ok(180 + 10));
    assert_eq!(limit(&[(959, 1)]), Ok(180));
    assert_eq!(limit(&[(958, 1), (959, 1)]), Ok(180 + 1));
    // Window 0 pays 6 * 40 / 16 = 15, so that its vehicle goes for window 1;
    // window 2 pays 5 * 40 / 16 = 12 and a half, of which 12 count.
    assert_eq!(limit(&[(5, 40)]), Ok(25 + 90 + 68));
    assert_eq!(limit(&[(9, 40)]), Ok(25 + 90 + 68));
    // Only window 0 holds the minute before, only window 2 the one after.
    assert_eq!(limit(&[(4, 40)]), Ok(25 + 90 + 80));
    assert_eq!(limit(&[(10, 40)]), Ok(25 + 100 + 68));
    assert_eq!(limit(&[(14, 40)]), Ok(25 + 100 + 68));
    assert_eq!(limit(&[(15, 40)]), Ok(25 + 100 + 80));
    // The sum of a window's minutes is rounded, not each: 6 * 3 / 16 is 1.
    assert_eq!(limit(&[(0, 1), (1, 1), (2, 1)]), Ok(1 + 99 + 80));
    // Whatever is paid, nothing counts for less than 0.
    assert_eq!(limit(&[(5, 65_535), (25, 65_535)]), Ok(81_918));
}

#[test]
fn ties_go_to_the_lowest_number() {
    let windows = [
        [1, 2, 0, 10, 50, 0],
        [2, 2, 0, 10, 50, 0],
        [1, 2, 20, 10, 52, 0],
        [2, 2, 20, 10, 51, 0],
    ];
    let hall = accept_hall(&hall_of(4, &windows)).unwrap_or_else(|_| unreachable!());
    assert_eq!(look(&hall, &list_of(&[])).relaxed, [2, 3]);
    assert_eq!(look(&hall, &list_of(&[(20, 8)])).relaxed, [2, 1]);
    assert_eq!(look(&hall, &list_of(&[(20, 16)])).relaxed, [0, 1]);
    // Nothing that counts for 0 is taken.
    let dear = list_of(&[(0, 50 * 8), (20, 51 * 8)]);
    assert_eq!(look(&hall, &dear).relaxed, [2]);
    assert_eq!(look(&hall, &[65_535; 960]).relaxed, []);
}

#[test]
fn the_greatest_prices() {
    let sheet = hall_of(48, &[[1, 48, 0, 960, 60_000, 0]]);
    // The product is 3,019,852,800, above what 31 bits hold.
    assert_eq!(charge_limit(&sheet, &[65_535; 960]), Ok(188_740_800));
    let windows: Vec<Row> = (1..=60).map(|n| [n, 48, 0, 1, 60_000, 0]).collect();
    assert_eq!(
        charge_limit(&hall_of(48, &windows), &[0; 960]),
        Ok(3_600_000)
    );
    let mut list = vec![65_535; 960];
    list[0] = 0;
    let all = 48 * 959 * 65_535 / 16 + 3_600_000;
    assert_eq!(charge_limit(&hall_of(48, &windows), &list), Ok(all));
}

#[test]
fn a_list_of_another_length() {
    let sheet = hall_of(4, &[[1, 2, 0, 10, 50, 0]]);
    assert_eq!(charge_limit(&sheet, &[0; 960]), Ok(50));
    for count in [0, 1, 61, 959, 961, 1920] {
        assert_eq!(charge_limit(&sheet, &vec![0; count]), Err(26));
        let short = &sheet[..sheet.len() - 1];
        assert_eq!(charge_limit(short, &vec![0; count]), Err(1));
    }
    assert_eq!(
        charge_limit(&[&sheet[..], &[0]].concat(), &[0; 960]),
        Err(10)
    );
    // A shift is no charging sheet.
    assert_eq!(charge_limit(&crate::both::sheet_of(&[]), &[0; 959]), Err(2));
}

/// Two windows that take all units and twelve that do so together, one minute,
/// all of worth 1. The change is 1 from first to last. Above the units are 12
/// at first, so the price goes up by 1 a round; with the third the two large
/// ones pay 18 sixteenths, and the others nothing.
#[test]
fn two_large_and_twelve_small() {
    let window = |number: u16| [1 + number, if number < 2 { 6 } else { 1 }, 500, 1, 1, 0];
    let windows: Vec<Row> = (0..14).map(window).collect();
    let sheet = hall_of(12, &windows);
    for rounds in 0..3 {
        let (found, set, _) = refined(&sheet, rounds);
        assert_eq!((found.worth, found.limit, found.rounds), (2, 14, rounds));
        assert_eq!(set, [0, 1]);
    }
    let (found, set, list) = refined(&sheet, 3);
    assert_eq!((found.worth, found.limit, found.rounds), (12, 14, 3));
    assert_eq!(set, (2..14).collect::<Vec<usize>>());
    // No look has a lower limit than the first.
    assert_eq!(list, [0; 960]);
    assert_eq!(charge_limit(&sheet, &list_of(&[(500, 3)])), Ok(14));
}

/// How far a price goes up and down: 3 units, a change of 10, then 9, then 8.
#[test]
fn rounds_by_hand() {
    let windows = [
        [1, 2, 0, 10, 80, 0],
        [2, 3, 5, 10, 20, 0],
        [3, 2, 8, 10, 10, 0],
    ];
    let sheet = hall_of(3, &windows);
    // Minutes 0 to 4: 2 drawn; 5 to 7: 5; 8 and 9: 7; 10 to 14: 5; 15 to 17: 2.
    // So 7 a minute for 2 above the units, rounded up, and 14 for 4.
    let after = |a, b, c| {
        let mut list = list_of(&[]);
        list[5..8].fill(a);
        list[8..10].fill(b);
        list[10..15].fill(c);
        list
    };
    let first = after(7, 14, 7);
    // They cost 3 * 84 / 16 = 15; window 0 pays 2 * 49 / 16 = 6, window 1 all of
    // 3 * 84 / 16 = 15, window 2 pays 2 * 63 / 16 = 7.
    let (found, set, list) = refined(&sheet, 1);
    assert_eq!((found.worth, found.limit), (80, 15 + 74 + 5 + 3));
    assert_eq!(set, [0]);
    assert_eq!(list, first);
    // The same windows again: 6 and 12 more. They cost 3 * 156 / 16 = 29, window
    // 0 pays 2 * 91 / 16 = 11, the others all they are worth. That is no lower.
    let (found, _, list) = refined(&sheet, 2);
    assert_eq!((found.worth, found.limit), (80, 97));
    assert_eq!(list, first);
    assert_eq!(charge_limit(&sheet, &after(13, 26, 13)), Ok(29 + 69));
    // Now window 0 alone draws, and the change is 8: down by 2 where 2 of 3 units
    // are drawn, rounded down, by 8 where none is. It costs 3 * 106 / 16 = 19,
    // and the windows pay 10, 19 and 9.
    let (found, _, list) = refined(&sheet, 3);
    assert_eq!((found.worth, found.limit), (80, 19 + 70 + 1 + 1));
    assert_eq!(list, after(11, 24, 5));
}

#[test]
fn no_windows_take_no_round() {
    for rounds in [0, 1, u32::MAX] {
        let (found, set, list) = refined(&hall_of(4, &[]), rounds);
        assert_eq!((found.worth, found.limit, found.rounds), (0, 0, 0));
        assert_eq!((set.len(), list), (0, vec![0; 960]));
    }
}

#[test]
fn places_that_are_too_short() {
    let mut rng = Rng::new(171);
    for round in 0..200 {
        let windows = rng.below(20) as usize;
        let hall = halls::hall(&mut rng, round % halls::SHAPES, windows);
        let mut sheet = bytes(&hall);
        let wanted = windows.div_ceil(8);
        let call = |sheet: &[u8], bytes: usize, count: usize| {
            let (mut map, mut list) = (vec![BYTE_KEPT; bytes], vec![PRICE_KEPT; count]);
            let answer = charge_refine(sheet, 3, &mut map, &mut list);
            let kept = map.iter().all(|&byte| byte == BYTE_KEPT)
                && list.iter().all(|&price| price == PRICE_KEPT);
            assert_eq!(kept, answer.is_err());
            answer.err()
        };
        assert_eq!(call(&sheet, wanted, 960), None);
        assert_eq!(call(&sheet, wanted, 959), Some(11));
        assert_eq!(call(&sheet, wanted, 0), Some(11));
        if wanted > 0 {
            assert_eq!(call(&sheet, wanted - 1, 960), Some(11));
        }
        sheet.push(0);
        assert_eq!(call(&sheet, wanted, 960), Some(10));
        assert_eq!(call(&sheet, 0, 0), Some(10));
    }
}

/// Lists of every kind on small halls, and what the limit was above the best at
/// least.
#[test]
fn no_allowed_set_is_worth_more() {
    let mut rng = Rng::new(172);
    let (mut least, mut met, mut tried) = (u32::MAX, [0; prices::KINDS as usize], 0);
    for round in 0..2000 {
        let hall = match round % 4 {
            0 => halls::large(&mut rng, 9),
            _ => halls::small(&mut rng, 10),
        };
        let sheet = bytes(&hall);
        let best = best_worth(&hall);
        for kind in 0..prices::KINDS {
            // About as much as a window pays for its minutes, or much less.
            let scale = rng.pick(&[4, 40, 400, 4000]);
            let list = prices::list(&mut rng, kind, 960, scale);
            let mut near = list_of(&[]);
            near[..100].copy_from_slice(&list[..100]);
            let few: Vec<(usize, u16)> = (0..rng.between(1, 3))
                .map(|_| rng.below(45) as usize)
                .map(|minute| (minute, list[minute]))
                .collect();
            for list in [&list, &near, &list_of(&few)] {
                let limit = charge_limit(&sheet, list).unwrap();
                assert!(limit >= best, "{limit} {best} {hall:?}");
                least = least.min(limit - best);
                met[kind as usize] += u32::from(limit == best && best > 0);
                tried += 1;
            }
        }
    }
    println!("hall by prices: {tried} lists, least difference {least}, met by kind {met:?}");
    assert!(least == 0 && met[0] > 100, "{met:?}");
}

/// With more rounds the worth does not fall and the limit does not rise, and
/// no allowed set is worth more than the limit.
#[test]
fn rounds_only_help() {
    let mut rng = Rng::new(173);
    let (mut least, mut met, mut best_found, mut better, mut tried) = (u32::MAX, 0, 0, 0, 0);
    for round in 0..500 {
        let hall = match round % 4 {
            0 => halls::large(&mut rng, 9),
            _ => halls::small(&mut rng, 11),
        };
        let sheet = bytes(&hall);
        let best = best_worth(&hall);
        let plan = charge(&sheet, &mut [0; 2]).unwrap();
        let (mut worth, mut limit) = (0, u32::MAX);
        for rounds in [0, 1, 2, 4, 10, 50] {
            let (more_worth, lower_limit, _) = figures(&sheet, rounds);
            assert!(more_worth >= worth && lower_limit <= limit);
            (worth, limit) = (more_worth, lower_limit);
            assert!(worth <= best && best <= limit, "{best} {hall:?}");
        }
        least = least.min(limit - best);
        met += u32::from(worth == limit);
        best_found += u32::from(worth == best);
        better += u32::from(worth > plan);
        tried += 1;
    }
    println!(
        "small halls, 50 rounds: of {tried} the set is the best on {best_found} and better than \
         the plan on {better}, set and limit meet on {met}; least difference of limit and best \
         {least}"
    );
    assert!(
        met > 100 && best_found > 300 && better > 50,
        "{met} {best_found} {better}"
    );
}

#[test]
fn halls_of_all_sizes_agree() {
    let mut rng = Rng::new(174);
    for round in 0..120 {
        let windows = match round % 40 {
            0 => 400,
            1..=3 => rng.below(150) as usize,
            _ => rng.below(25) as usize,
        };
        let hall = halls::hall(&mut rng, round % halls::SHAPES, windows);
        let sheet = halls::encode(&mut rng, &hall, 20).bytes;
        let rounds = rng.pick(&[0, 1, 2, 7, 30]);
        refined(&sheet, rounds);
        for kind in 0..prices::KINDS {
            let scale = rng.pick(&[4, 40, 400, 4000]);
            let list = prices::list(&mut rng, kind, 960, scale);
            charge_limit(&sheet, &list).unwrap();
        }
        let wrong = prices::wrong_count(&mut rng, 960);
        assert_eq!(charge_limit(&sheet, &vec![1; wrong]), Err(26));
    }
    for hall in [
        halls::usual(&mut rng, 200),
        halls::small_draws(&mut rng, 300),
        halls::all_together(&mut rng, 200),
    ] {
        refined(&bytes(&hall), 30);
    }
}

/// One unit and many that want it in one minute: the price is soon at its most.
#[test]
fn prices_stop_at_their_most() {
    let windows: Vec<Row> = (1..=60).map(|n| [n, 1, 7, 1, 60_000, 0]).collect();
    let sheet = hall_of(1, &windows);
    // 59 times 7,500 is far above 65,535.
    let (found, _, list) = refined(&sheet, 1);
    assert_eq!((found.worth, found.rounds), (60_000, 1));
    assert_eq!(list, list_of(&[(7, 65_535)]));
    // 60 times 60,000 less 4,095, and 4,095.
    assert_eq!(found.limit, 60 * (60_000 - 4095) + 4095);
    for rounds in [2, 5, 40] {
        refined(&sheet, rounds);
    }
}

#[test]
fn faulty_sheets_agree() {
    let mut rng = Rng::new(175);
    let mut seen = [0; 27];
    for round in 0..8000 {
        let windows = rng.between(1, 8) as usize;
        let hall = halls::hall(&mut rng, round % halls::SHAPES, windows);
        let sheet = halls::with_fault(&mut rng, &hall, round % halls::FAULTS);
        let count = rng.pick(&[0, 959, 960, 960, 960, 961]);
        let list = vec![1; count];
        let limit = charge_limit(&sheet, &list).err();
        let refused = charge(&sheet, &mut [0; 50]).err();
        assert_eq!(limit, refused.or((count != 960).then_some(26)));
        let mut map = vec![BYTE_KEPT; rng.pick(&[0, 1, 1, 1, 2])];
        let mut list = vec![PRICE_KEPT; count];
        let answer = charge_refine(&sheet, rng.below(3), &mut map, &mut list);
        if answer.is_err() {
            assert!(map.iter().all(|&byte| byte == BYTE_KEPT));
            assert!(list.iter().all(|&price| price == PRICE_KEPT));
        }
        assert!(refused.is_none() || answer.err() == refused);
        for number in [limit.unwrap_or(0), answer.err().unwrap_or(0)] {
            seen[usize::from(number)] += 1;
        }
    }
    for number in (0..=6).chain(8..=11).chain([25, 26]) {
        assert!(seen[number] > 10, "{number}: {seen:?}");
    }
}

/// How close set and limit come on halls of 60 to 396 windows: nine with small
/// draws, and nine with draws of every size.
#[test]
#[ignore = "takes some seconds"]
fn set_and_limit_come_close() {
    let mut rng = Rng::new(176);
    for small in [true, false] {
        let mut means = [0.0; 4];
        let mut met = 0;
        for windows in (60..400).step_by(42) {
            let mut hall = halls::usual(&mut rng, windows);
            hall.units = rng.between(1, 48) as u8;
            let most = match small {
                true => u32::from(hall.units).div_ceil(4),
                false => hall.units.into(),
            };
            for window in &mut hall.windows {
                window[1] = rng.between(1, most) as u16;
            }
            let sheet = bytes(&hall);
            for (mean, rounds) in means.iter_mut().zip([0, 20, 50, 100]) {
                let (worth, limit, _) = figures(&sheet, rounds);
                *mean += f64::from(worth) / f64::from(limit) / 9.0;
                met += u32::from(rounds == 100 && worth == limit);
            }
        }
        println!(
            "9 halls, small draws only: {small}; worth / limit {means:.4?} after 0, 20, 50 and \
             100 rounds; they meet on {met}"
        );
        assert!(means[0] < means[1] && means[1] < means[2] && means[2] <= means[3]);
    }
}
