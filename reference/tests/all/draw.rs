//! Sheets drawn from a seed: the generator, the turns one by one, the refusals
//! in their order.

use crate::both::{draw, plan, read, write};
use slopeboard_reference::gen::Rng;
use slopeboard_reference::naive::draw::{drawn, length_of, next};

/// The first seed that is too large.
const MODULUS: u64 = 2_147_483_647;

/// What untouched bytes hold.
const KEPT: u8 = 0xA5;

/// The sheet drawn with enough room.
fn sheet_of(seed: u64, counts: [u32; 3]) -> Vec<u8> {
    let mut sheet = vec![KEPT; 4020];
    let len = draw(seed, counts, &mut sheet).unwrap();
    assert!(sheet[len..].iter().all(|&byte| byte == KEPT));
    sheet.truncate(len);
    sheet
}

#[test]
fn the_ten_thousandth_number() {
    let mut number = 1;
    for _ in 0..10_000 {
        number = next(number);
    }
    assert_eq!(number, 1_043_618_065);
}

#[test]
fn first_numbers() {
    assert_eq!(next(1), 16_807);
    assert_eq!(next(16_807), 282_475_249);
    assert_eq!(next(282_475_249), 1_622_650_073);
    // The largest seed is minus one.
    assert_eq!(next(MODULUS - 1), MODULUS - 16_807);
}

#[test]
fn lengths_go_by_the_hundredths() {
    for (first, last, length) in [(0, 39, 30), (40, 69, 45), (70, 89, 60), (90, 99, 90)] {
        for hundredth in first..=last {
            assert_eq!(length_of(hundredth), length);
            assert_eq!(length_of(2_147_483_500 + hundredth), length);
        }
    }
}

/// The draws from seed 1 done by hand: 16,807; 282,475,249; 1,622,650,073;
/// 984,943,658; 1,144,108,930 for the first turn, and so on.
#[test]
fn the_first_turns_from_seed_1() {
    let draws: Vec<u64> = std::iter::successors(Some(next(1)), |&last| Some(next(last)))
        .take(10)
        .collect();
    assert_eq!(
        draws,
        [
            16_807,
            282_475_249,
            1_622_650_073,
            984_943_658,
            1_144_108_930,
            470_211_272,
            101_027_544,
            1_457_850_878,
            1_458_777_923,
            2_007_237_709
        ]
    );
    // 16,807 leaves 7 by 120; 282,475,249 leaves 1 by 16; 1,622,650,073 leaves
    // 284 by 841; 58 of 100 is 45 minutes; 1,144,108,930 leaves 28,930.
    let first = [8, 2, 284, 45, 28_931, 0];
    // 470,211,272 leaves 32 by 120; 101,027,544 leaves 8 by 16; 1,457,850,878
    // leaves 85 by 841; 23 of 100 is 30 minutes; 2,007,237,709 leaves 57,709.
    let second = [33, 9, 85, 30, 57_710, 0];
    assert_eq!(drawn(1, 16, 120, 2), [first, second].concat());
}

#[test]
fn the_sheet_is_the_written_one() {
    let mut rng = Rng::new(130);
    for round in 0..600 {
        let turns = if round % 20 == 0 { 400 } else { rng.below(60) };
        let counts = [rng.between(1, 16), rng.between(1, 120), turns];
        let seed = 1 + rng.draw() % (MODULUS - 1);
        let sheet = sheet_of(seed, counts);
        let [groomers, slopes, turns] = counts;
        let table = drawn(seed, groomers, slopes, turns);
        assert_eq!(table.len(), 6 * turns as usize);
        let mut written = vec![0; sheet.len()];
        assert_eq!(
            write(groomers, slopes, &table, &mut written),
            Ok(sheet.len())
        );
        assert_eq!(written, sheet);
        // The reader takes it: the same turns, sorted.
        let mut read_back = vec![0; table.len()];
        let read = read(&sheet, &mut read_back).unwrap();
        assert_eq!([read.groomers, read.slopes, read.turns], counts);
        let rows = |table: &[u16]| -> Vec<Vec<u16>> {
            let mut rows: Vec<Vec<u16>> = table.chunks(6).map(<[u16]>::to_vec).collect();
            rows.sort();
            rows
        };
        assert_eq!(read_back, rows(&table).concat());
        assert!(rows(&table).iter().all(|row| row[5] == 0));
        // One byte less is too few, and nothing is written then.
        let mut short = vec![KEPT; sheet.len() - 1];
        assert_eq!(draw(seed, counts, &mut short), Err(11));
        assert!(short.iter().all(|&byte| byte == KEPT));
    }
}

#[test]
fn drawn_sheets_can_be_planned() {
    for seed in [1, 2, 3, MODULUS - 1] {
        let sheet = sheet_of(seed, [16, 120, 100]);
        assert!(plan(&sheet, &mut [0; 1665]).is_ok());
    }
}

#[test]
fn refusals_in_their_order() {
    let good = [16, 120, 400];
    assert_eq!(draw(1, [1, 1, 0], &mut [0; 7]), Ok(7));
    for seed in [
        0,
        MODULUS,
        MODULUS + 1,
        1 << 32,
        (1 << 32) + 1,
        1 << 63,
        u64::MAX,
    ] {
        for counts in [good, [0, 0, 401], [17, 121, u32::MAX]] {
            for lent in [0, 4007] {
                assert_eq!(draw(seed, counts, &mut vec![KEPT; lent]), Err(23));
            }
        }
    }
    for seed in [1, 2, MODULUS - 2, MODULUS - 1] {
        assert!(draw(seed, good, &mut [0; 4007]).is_ok());
        for groomers in [0, 17, 256, 257, 65_537, u32::MAX] {
            assert_eq!(draw(seed, [groomers, 120, 401], &mut []), Err(3));
        }
        for slopes in [0, 121, 255, 256, 257, 65_537, u32::MAX] {
            assert_eq!(draw(seed, [16, slopes, 401], &mut []), Err(3));
        }
        for turns in [401, 402, 65_536, 65_936, u32::MAX] {
            assert_eq!(draw(seed, [16, 120, turns], &mut [0; 4007]), Err(4));
            assert_eq!(draw(seed, [16, 120, turns], &mut []), Err(4));
        }
        assert_eq!(draw(seed, [16, 120, 0], &mut [0; 6]), Err(11));
        assert_eq!(draw(seed, good, &mut [0; 1000]), Err(11));
    }
}

/// Every value that a field can have comes up, and no other.
#[test]
fn every_value_comes_up() {
    let mut seen = [[false; 1000]; 4];
    let mut lengths = [0; 91];
    for seed in 1..400 {
        let table = drawn(seed, 16, 120, 400);
        for row in table.chunks(6) {
            for field in 0..3 {
                seen[field][usize::from(row[field])] = true;
            }
            lengths[usize::from(row[3])] += 1;
            assert!((1..=60_000).contains(&row[4]));
        }
    }
    for (field, first, last) in [(0, 1, 120), (1, 1, 16), (2, 0, 840)] {
        for value in 0..1000 {
            let expected = (first..=last).contains(&value);
            assert_eq!(seen[field][value], expected, "{field} {value}");
        }
    }
    let all: u32 = lengths.iter().sum();
    for (length, percent) in [(30, 40), (45, 30), (60, 20), (90, 10)] {
        let share = lengths[length] * 1000 / all;
        assert!(share.abs_diff(10 * percent) < 10, "{length}: {share}");
    }
    assert_eq!(
        lengths[30] + lengths[45] + lengths[60] + lengths[90],
        all,
        "no other length"
    );
}
