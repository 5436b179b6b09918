//! Weights: the worked figures, both versions side by side, and brute force on
//! small shifts and halls that no set is worth more than a limit.

use crate::case::{Ask, Case};
use slopeboard_reference::gen::{self, Rng};
use slopeboard_reference::halls::{self, Hall};
use slopeboard_reference::naive::turns::turns_of;
use slopeboard_reference::naive::weights::Weights;
use slopeboard_reference::{prices, shapes, worked};

#[test]
fn the_worked_shift() {
    let weights = Weights::of(&turns_of(&worked::TURNS.concat()));
    assert_eq!((weights.divisor, weights.factor), (10, 4000));
    assert_eq!(weights.each, [40_000, 60_000, 32_000, 36_000]);
    let case = Case::Shift(worked::SHEET.to_vec());
    let limits = [
        (0, 240),
        (100, 240),
        (3999, 240),
        (4000, 250),
        (60_000, 390),
    ];
    for (price, limit) in limits {
        assert_eq!(case.limit(&[price, 0, 0, 0, 0, 0, 0]), limit);
    }
    for ask in [
        Ask::Weighed(9),
        Ask::Mended(0),
        Ask::Solved(0, 0),
        Ask::Solved(9, 9),
    ] {
        let outcome = case.ask(ask);
        assert_eq!((outcome.worth, outcome.limit), (240, 240));
        assert_eq!((outcome.rounds, outcome.looks), (0, 0));
        assert_eq!(outcome.prices, [0; 7]);
    }
    assert!(case.ask(Ask::Solved(0, 0)).whole);
}

#[test]
fn weights_by_hand() {
    let of = |worths: &[u16]| {
        let turns: Vec<[u16; 6]> = worths.iter().map(|&w| [1, 1, 0, 1, w, 0]).collect();
        let weights = Weights::of(&turns_of(&turns.concat()));
        (weights.divisor, weights.factor, weights.each)
    };
    assert_eq!(of(&[]), (1, 1, vec![]));
    assert_eq!(of(&[60_000]), (60_000, 60_000, vec![60_000]));
    assert_eq!(of(&[7]), (7, 60_000, vec![60_000]));
    assert_eq!(of(&[6, 4]), (2, 20_000, vec![60_000, 40_000]));
    // 60,000 is not a multiple of the greatest: the weights end below it.
    assert_eq!(of(&[70, 30]), (10, 8571, vec![59_997, 25_713]));
    assert_eq!(of(&[59_999, 1]), (1, 1, vec![59_999, 1]));
    assert_eq!(of(&[40_000, 20_001]), (1, 1, vec![40_000, 20_001]));
    assert_eq!(of(&[30_000, 1]), (1, 2, vec![60_000, 2]));
}

/// Two windows of one vehicle, 10 units; the weights are 60,000 and 40,000, and
/// 20,000 of weight are 10 of worth.
#[test]
fn a_hall_by_hand() {
    let hall = Hall {
        units: 10,
        vehicles: 2,
        windows: vec![[1, 8, 0, 10, 30, 0], [1, 4, 20, 10, 20, 0]],
    };
    let case = Case::hall(&hall);
    let limit = |minute: usize, price: u16| {
        let mut list = [0; 960];
        list[minute] = price;
        case.limit(&list)
    };
    assert_eq!(limit(0, 0), 30);
    // A minute that nobody wants: 10 units at 1/16 of 31,999 make 19,999.
    assert_eq!(limit(500, 31_999), 30);
    assert_eq!(limit(500, 32_000), 40);
    // The first window pays 8 * 40,000 / 16 = 20,000, so that both count for
    // 40,000. All units cost 25,000, and 65,000 have 20,000 in them three times.
    assert_eq!(limit(5, 40_000), 30);
}

/// The greatest prices and worths that there are.
#[test]
fn nothing_overflows() {
    let mut rng = Rng::new(201);
    for worth in [60_000, 1, 7] {
        let mut shift = shapes::widest(&mut rng, 400);
        shift.turns.iter_mut().for_each(|turn| turn[4] = worth);
        let case = Case::shift(&shift);
        case.limit(&vec![65_535; case.prices()]);
        case.limit(&vec![0; case.prices()]);
        let mut hall = halls::usual(&mut rng, 400);
        hall.windows.iter_mut().for_each(|window| window[4] = worth);
        let case = Case::hall(&hall);
        case.limit(&[65_535; 960]);
        case.limit(&[0; 960]);
    }
}

/// Lists of every kind on small shifts and halls. A limit is a multiple of what
/// divides all worths, and is no lower than the best.
#[test]
fn no_set_is_worth_more() {
    let mut rng = Rng::new(202);
    let (mut met, mut tried) = (0, 0);
    for _ in 0..1500 {
        let case = Case::small(&mut rng);
        let best = case.best();
        let divisor = Weights::of(&case.turns()).divisor;
        for kind in 0..prices::KINDS {
            let scale = match case {
                Case::Shift(_) => rng.pick(&[100, 20_000, 60_000]),
                Case::Hall(_) => rng.pick(&[40, 4000, 40_000]),
            };
            let list = prices::list(&mut rng, kind, case.prices(), scale);
            let limit = case.limit(&list);
            assert!(limit >= best, "{limit} {best} {:?}", case.sheet());
            // Where no turns are, only the prices count.
            assert_eq!(limit % divisor, 0);
            met += u32::from(limit == best && best > 0);
            tried += 1;
        }
    }
    assert!(met > 500, "{met} of {tried}");
}

/// With more rounds the worth does not fall and the limit does not rise. The
/// limit is that of the prices.
#[test]
fn rounds_only_help() {
    let mut rng = Rng::new(203);
    let (mut met, mut tried) = (0, 0);
    for _ in 0..400 {
        let case = Case::small(&mut rng);
        let best = case.best();
        let (mut worth, mut limit) = (0, u32::MAX);
        for rounds in [0, 1, 2, 5, 60] {
            let outcome = case.ask(Ask::Weighed(rounds));
            assert!(worth <= outcome.worth && outcome.limit <= limit);
            (worth, limit) = (outcome.worth, outcome.limit);
            assert!(worth <= best && best <= limit);
            assert!(outcome.rounds == rounds || worth == limit);
            assert_eq!(case.limit(&outcome.prices), limit);
        }
        met += u32::from(worth == limit);
        tried += 1;
    }
    assert!(met > tried / 2, "{met} of {tried}");
}

#[test]
fn all_sizes_agree() {
    let mut rng = Rng::new(204);
    for round in 0..160 {
        let turns = match round % 40 {
            0 => 400,
            1 => rng.between(100, 400) as usize,
            _ => rng.below(60) as usize,
        };
        let shift = shapes::shift(&mut rng, round % shapes::SHAPES, turns);
        let rounds = rng.pick(&[0, 1, 7, 30]);
        Case::shift(&shift).ask(Ask::Weighed(rounds));
        if round % 4 == 0 {
            let hall = halls::hall(&mut rng, round / 4 % halls::SHAPES, turns / 2);
            Case::hall(&hall).ask(Ask::Weighed(rounds.min(7)));
        }
    }
    let usual = gen::shift(&mut rng, 400);
    Case::shift(&usual).ask(Ask::Weighed(100));
}
