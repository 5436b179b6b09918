//! The kept form of a sheet: there and back, and what is refused of it.

use crate::both::{keep, read, restore};
use slopeboard_reference::gen::{self, Rng, Shift};
use slopeboard_reference::worked::SHEET;
use slopeboard_reference::{kept, shapes};

/// What untouched bytes hold.
const KEPT: u8 = 0xA5;

/// The worked example's kept form: the header; four maps; four slopes; two groomers; four
/// starts; three lengths; four worths.
const KEPT_SHEET: [u8; 39] = [
    0x47, 0x52, 0x43, 0x02, 0x03, 0x00, 0x04, 0x1F, 0x15, 0x1F, 0x1D, 0x01, 0x02, 0x01, 0x03, 0x01,
    0x02, 0x00, 0x00, 0x00, 0x1E, 0x00, 0x00, 0x00, 0x78, 0x00, 0x3C, 0x00, 0x78, 0x00, 0x3C, 0x00,
    0x64, 0x00, 0x96, 0x00, 0x50, 0x00, 0x5A,
];

/// What one of the two writes, with a byte more than it needs.
fn written(bytes: &[u8], run: fn(&[u8], &mut [u8]) -> Result<usize, u8>) -> Result<Vec<u8>, u8> {
    let mut out = vec![KEPT; bytes.len() + 1];
    let len = match run(bytes, &mut out) {
        Ok(len) => len,
        Err(number) => {
            assert!(out.iter().all(|&byte| byte == KEPT));
            return Err(number);
        }
    };
    assert_eq!(len, bytes.len());
    assert_eq!(out.pop(), Some(KEPT));
    Ok(out)
}

#[test]
fn the_example_there_and_back() {
    assert_eq!(written(&SHEET, keep), Ok(KEPT_SHEET.to_vec()));
    assert_eq!(written(&KEPT_SHEET, restore), Ok(SHEET.to_vec()));
    // Neither is the other.
    assert_eq!(written(&KEPT_SHEET, keep), Err(2));
    assert_eq!(written(&SHEET, restore), Err(2));
}

#[test]
fn no_turns() {
    for (groomers, slopes) in [(1, 1), (16, 120)] {
        let sheet = [b'G', b'R', b'M', groomers, slopes, 0, 0];
        let kept = [b'G', b'R', b'C', groomers, slopes, 0, 0];
        assert_eq!(written(&sheet, keep), Ok(kept.to_vec()));
        assert_eq!(written(&kept, restore), Ok(sheet.to_vec()));
    }
}

#[test]
fn drivers_stand_last() {
    let sheet = [
        b'G', b'R', b'M', 2, 3, 0, 3, 0x3F, 1, 2, 0, 5, 0, 6, 0, 7, 8, 0x20, 9, 0x21, 3, 40,
    ];
    let kept = [
        b'G', b'R', b'C', 2, 3, 0, 3, 0x3F, 0x20, 0x21, 1, 3, 2, 0, 5, 0, 6, 0, 7, 8, 9, 40,
    ];
    assert_eq!(written(&sheet, keep), Ok(kept.to_vec()));
    assert_eq!(written(&kept, restore), Ok(sheet.to_vec()));
}

/// Every accepted sheet comes back to the very byte, fields that it need not
/// have written included.
#[test]
fn sheets_come_back() {
    let mut rng = Rng::new(121);
    for round in 0..4000 {
        let turns = match round % 40 {
            0 => 400,
            1..5 => rng.below(120) as usize,
            _ => rng.below(12) as usize,
        };
        let shift = shapes::shift(&mut rng, round % shapes::SHAPES, turns);
        let redundant = rng.pick(&[0, 20, 100]);
        let sheet = gen::encode(&mut rng, &shift, redundant).bytes;
        let kept = written(&sheet, keep).unwrap();
        assert_eq!(kept[..3], *b"GRC");
        assert_eq!(written(&kept, restore), Ok(sheet.clone()));
        let mut short = vec![KEPT; sheet.len() - 1];
        assert_eq!(keep(&sheet, &mut short), Err(11));
        assert_eq!(restore(&kept, &mut short), Err(11));
        assert!(short.iter().all(|&byte| byte == KEPT));
    }
}

/// Whatever is accepted as a kept form comes back, too, and what it restores is
/// an accepted sheet.
#[test]
fn kept_forms_come_back() {
    let mut rng = Rng::new(122);
    let mut seen = [0; 20];
    for round in 0..20_000 {
        let turns = rng.between(1, 12) as usize;
        let shift = gen::shift(&mut rng, turns);
        let kept = kept::with_fault(&mut rng, &shift, round % kept::FAULTS);
        match written(&kept, restore) {
            Ok(sheet) => {
                assert!(read(&sheet, &mut [0; 2400]).is_ok());
                assert_eq!(written(&sheet, keep), Ok(kept));
                seen[0] += 1;
            }
            Err(number) => seen[usize::from(number)] += 1,
        }
    }
    for number in (0..=10).chain([19]) {
        assert!(seen[number] > 30, "{number}: {seen:?}");
    }
}

/// A kept form is refused as the sheet with the same records would be, if the
/// records are all there and nothing follows them.
#[test]
fn values_are_judged_turn_by_turn() {
    let mut rng = Rng::new(123);
    for _ in 0..4000 {
        let turns = rng.between(1, 12) as usize;
        let shift = gen::shift(&mut rng, turns);
        let shift = gen::bounded(&mut rng, &shift);
        let shift = gen::bounded(&mut rng, &shift);
        let seed = rng.draw();
        let sheet = gen::encode(&mut Rng::new(seed), &shift, 20).bytes;
        let kept = kept::encode(&mut Rng::new(seed), &shift, 20);
        let restored = written(&kept, restore);
        let expected = read(&sheet, &mut [0; 2400]).map(|_| sheet);
        assert_eq!(restored, expected);
    }
}

/// The example's kept form with other bytes from a place on.
fn with(place: usize, bytes: &[u8]) -> Vec<u8> {
    let mut kept = KEPT_SHEET.to_vec();
    kept[place..place + bytes.len()].copy_from_slice(bytes);
    kept
}

#[test]
fn refusals_in_their_order() {
    let refused = |bytes: &[u8]| written(bytes, restore).unwrap_err();
    for len in 0..7 {
        assert_eq!(refused(&KEPT_SHEET[..len]), 1);
    }
    // 2, 3 and 4 by the header, whatever follows.
    assert_eq!(refused(&with(2, &[0x4D, 0, 0])[..7]), 2);
    assert_eq!(refused(&with(3, &[0, 3, 1, 0x91])[..7]), 3);
    assert_eq!(refused(&with(3, &[17, 3])), 3);
    assert_eq!(refused(&with(3, &[2, 121])), 3);
    assert_eq!(refused(&with(5, &[1, 0x91])[..7]), 4);
    // Too few maps come before a wrong map.
    assert_eq!(refused(&with(7, &[0xFF, 0xFF, 0xFF])[..10]), 1);
    assert_eq!(refused(&KEPT_SHEET[..10]), 1);
    // A wrong map comes before a wrong length.
    for place in 7..11 {
        for bit in [0x40, 0x80] {
            let kept = with(place, &[KEPT_SHEET[place] | bit]);
            assert_eq!(refused(&kept), 5);
            assert_eq!(refused(&kept[..11]), 5);
            assert_eq!(refused(&[&kept[..], &[0; 9]].concat()), 5);
        }
    }
    for first in [0, 0x0F, 0x1E, 0x2F, 0x20] {
        assert_eq!(refused(&with(7, &[first])), 5);
    }
    // A wrong length comes before a wrong value: the first slope is 0.
    let wrong = with(11, &[0]);
    assert_eq!(refused(&wrong), 6);
    assert_eq!(refused(&wrong[..38]), 1);
    assert_eq!(refused(&[&wrong[..], &[0]].concat()), 10);
    for len in 11..39 {
        assert_eq!(refused(&KEPT_SHEET[..len]), 1);
    }
    // Values turn by turn: an early turn's worth before a late turn's slope.
    let mut kept = with(14, &[4]);
    assert_eq!(refused(&kept), 6);
    kept[33..35].copy_from_slice(&[0, 0]);
    assert_eq!(refused(&kept), 9);
    kept[19..21].copy_from_slice(&[0x03, 0xA0]);
    assert_eq!(refused(&kept), 8);
    kept[15] = 3;
    assert_eq!(refused(&kept), 7);
    kept[11] = 4;
    assert_eq!(refused(&kept), 6);
    // An inherited length: turn 1 has turn 0's.
    assert_eq!(refused(&with(19, &[0x03, 0x85])), 8);
    assert!(written(&with(19, &[0x03, 0x84]), restore).is_ok());
    // Drivers come last of a turn's values.
    let driven = |worth, driver| {
        [
            b'G', b'R', b'C', 1, 1, 0, 1, 0x3F, 1, 1, 0, 0, 0, 1, 0, worth, driver,
        ]
    };
    assert_eq!(refused(&driven(1, 41)), 19);
    assert_eq!(refused(&driven(0, 41)), 9);
    assert!(written(&driven(1, 40), restore).is_ok());
    // 11 is the last of all.
    assert_eq!(restore(&KEPT_SHEET, &mut [0; 38]), Err(11));
    assert_eq!(restore(&driven(1, 41), &mut []), Err(19));
}

/// Every value of every byte, in sheets of few turns.
#[test]
fn every_byte_of_small_ones() {
    let rows = vec![
        [1, 1, 0, 60, 100, 0],
        [1, 2, 0, 60, 100, 3],
        [2, 2, 900, 60, 60_000, 3],
    ];
    let shift = Shift {
        groomers: 2,
        slopes: 3,
        turns: rows,
    };
    let kept = kept::encode(&mut Rng::new(0), &shift, 0);
    for place in 0..kept.len() {
        for value in 0..=255 {
            let mut kept = kept.clone();
            kept[place] = value;
            if let Ok(sheet) = written(&kept, restore) {
                assert_eq!(written(&sheet, keep), Ok(kept));
            }
        }
    }
}

#[test]
fn any_sheet_agrees() {
    let mut rng = Rng::new(124);
    let mut seen = [0; 20];
    for _ in 0..5000 {
        let turns = rng.between(1, 12) as usize;
        let shift = gen::shift(&mut rng, turns);
        let faults = rng.below(3);
        let sheet = gen::with_faults(&mut rng, &shift, faults);
        let lent = sheet.len() + rng.below(4) as usize;
        let mut out = vec![KEPT; lent.saturating_sub(1)];
        let number = keep(&sheet, &mut out).err().unwrap_or(0);
        seen[usize::from(number)] += 1;
        let refused = read(&sheet, &mut [0; 2400]).err();
        assert!(refused.is_none_or(|refused| refused == number));
        assert!(refused.is_some() || [0, 11].contains(&number));
    }
    for number in (0..=11).chain([19]) {
        assert!(seen[number] > 10, "{number}: {seen:?}");
    }
}
