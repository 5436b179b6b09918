//! The short reader: as the other reader up to 96 turns, and 20 for more. Shown
//! for every limit as well.

use crate::both::{read, read_short};
use slopeboard_reference::gen::{self, Rng};
use slopeboard_reference::naive::sheet::{read_within, Limit};
use slopeboard_reference::naive::Counts;

/// What untouched places hold.
const KEPT: u16 = 0xA5A5;

/// A reader's answer and its table, lent with so many places.
type Outcome = (Result<Counts, u8>, Vec<u16>);

fn outcome(
    read: impl Fn(&[u8], &mut [u16]) -> Result<Counts, u8>,
    sheet: &[u8],
    places: usize,
) -> Outcome {
    let mut table = vec![KEPT; places];
    (read(sheet, &mut table), table)
}

/// What a reader with this limit must do, by what the reader of 400 does: the
/// same, but its own refusal where nothing before refuses and the count of
/// turns is above the limit.
fn expected(sheet: &[u8], places: usize, limit: Limit) -> Outcome {
    let (answer, table) = outcome(read, sheet, places);
    let before = matches!(answer, Err(2 | 3)) || sheet.len() < 7;
    if before || count(sheet) <= limit.turns {
        return (answer, table);
    }
    (Err(limit.refusal), vec![KEPT; places])
}

fn count(sheet: &[u8]) -> u32 {
    u32::from(sheet[5]) * 256 + u32::from(sheet[6])
}

#[test]
fn headers_about_the_limit() {
    let refusal = |sheet: &[u8]| read_short(sheet, &mut [KEPT; 600]).err();
    for (turns, number) in [
        ([0, 0], None),
        ([0, 95], Some(1)),
        ([0, 96], Some(1)),
        ([0, 97], Some(20)),
        ([1, 0], Some(20)),
        ([1, 96], Some(20)),
        ([1, 0x90], Some(20)),
        ([1, 0x91], Some(20)),
        ([0xFF, 0xFF], Some(20)),
    ] {
        let sheet = [0x47, 0x52, 0x4D, 2, 3, turns[0], turns[1]];
        assert_eq!(refusal(&sheet), number, "{turns:?}");
        assert_eq!(refusal(&sheet[..6]), Some(1));
        let other = [0x47, 0x52, 0x42, 2, 3, turns[0], turns[1]];
        assert_eq!(refusal(&other), Some(2));
        let other = [0x47, 0x52, 0x4D, 17, 3, turns[0], turns[1]];
        assert_eq!(refusal(&other), Some(3));
    }
}

#[test]
fn sheets_about_the_limit() {
    let mut rng = Rng::new(81);
    for turns in [1, 95, 96, 97, 98, 399, 400] {
        for _ in 0..20 {
            let sheet = gen::typical(&mut rng, turns).bytes;
            let answer = read_short(&sheet, &mut [0; 2400]);
            match turns {
                0..=96 => assert_eq!(answer.map(|counts| counts.turns), Ok(turns as u32)),
                _ => assert_eq!(answer, Err(20)),
            }
            // 20 comes before all that the records say, and before 11.
            let broken = [&sheet[..7], &[0xFF]].concat();
            let number = if turns > 96 { 20 } else { 5 };
            assert_eq!(read_short(&broken, &mut []), Err(number));
            let number = if turns > 96 { 20 } else { 11 };
            assert_eq!(read_short(&sheet, &mut []), Err(number));
            let room = &mut vec![0; 6 * turns - 1];
            assert_eq!(read_short(&sheet, room), Err(number));
        }
    }
}

#[test]
fn up_to_the_limit_both_readers_are_alike() {
    let mut rng = Rng::new(82);
    let short = Limit {
        turns: 96,
        refusal: 20,
    };
    let mut seen = [0; 21];
    for round in 0..6000 {
        let turns = match round % 10 {
            0 => rng.between(90, 100),
            1 => gen::turn_count(&mut rng) as u32,
            _ => rng.between(1, 12),
        };
        let shift = gen::shift(&mut rng, turns as usize);
        let sheet = match round % 3 {
            0 => gen::encode(&mut rng, &shift, 20).bytes,
            _ => {
                let faults = rng.between(1, 3);
                gen::with_faults(&mut rng, &shift, faults)
            }
        };
        let wanted = gen::places_wanted(&sheet);
        let places = (wanted + rng.below(3) as usize).saturating_sub(1);
        let ours = outcome(read_short, &sheet, places);
        assert_eq!(ours, expected(&sheet, places, short), "{sheet:?}");
        seen[usize::from(ours.0.err().unwrap_or(0))] += 1;
    }
    assert_eq!(seen[4], 0);
    for number in (0..4).chain(5..=11).chain([19, 20]) {
        assert!(seen[number] > 10, "{number}: {seen:?}");
    }
}

#[test]
fn any_limit_is_read_alike() {
    let mut rng = Rng::new(83);
    for round in 0..4000 {
        let turns = rng.between(1, 30);
        let shift = gen::shift(&mut rng, turns as usize);
        let sheet = match round % 2 {
            0 => gen::encode(&mut rng, &shift, 20).bytes,
            _ => gen::with_faults(&mut rng, &shift, 1),
        };
        let near = rng.between(turns.saturating_sub(2), turns + 2);
        for turns in [0, near, 400] {
            let limit = Limit { turns, refusal: 77 };
            let within = |sheet: &[u8], table: &mut [u16]| read_within(sheet, table, limit);
            let places = gen::places_wanted(&sheet);
            let ours = outcome(within, &sheet, places);
            assert_eq!(ours, expected(&sheet, places, limit), "{sheet:?}");
        }
    }
}
