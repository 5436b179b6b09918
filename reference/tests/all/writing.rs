//! The writer: one sheet for all orders of a table, and refusals by the
//! table's own order.

use crate::both::{read, write};
use slopeboard_reference::gen::{self, Rng, Row, Shift};
use slopeboard_reference::limits::NUMBERS_PER_TURN;
use slopeboard_reference::shapes;
use slopeboard_reference::worked::TURNS;

/// The sheet of the example as the writer has it: turns 0, 2, 1, 3.
const SHEET: [u8; 38] = [
    0x47, 0x52, 0x4D, 0x02, 0x03, 0x00, 0x04, 0x1F, 0x01, 0x01, 0x00, 0x00, 0x00, 0x3C, 0x00, 0x64,
    0x1A, 0x02, 0x00, 0x78, 0x00, 0x50, 0x1F, 0x02, 0x01, 0x00, 0x1E, 0x00, 0x3C, 0x00, 0x96, 0x17,
    0x03, 0x02, 0x00, 0x78, 0x00, 0x5A,
];

fn written(shift: &Shift) -> Vec<u8> {
    let mut out = vec![0xA5; 4010];
    let (groomers, slopes) = (shift.groomers.into(), shift.slopes.into());
    let len = write(groomers, slopes, &shift.turns.concat(), &mut out).unwrap();
    assert!(out[len..].iter().all(|&byte| byte == 0xA5));
    out.truncate(len);
    out
}

/// The turns of a sheet, as the reader has them.
fn turns_of(sheet: &[u8]) -> Vec<Row> {
    let mut table = vec![0; gen::places_wanted(sheet)];
    read(sheet, &mut table).unwrap();
    let rows = table.chunks(NUMBERS_PER_TURN);
    rows.map(|row| row.try_into().unwrap()).collect()
}

#[test]
fn example_is_written() {
    let mut out = [0xA5; 40];
    assert_eq!(write(2, 3, &TURNS.concat(), &mut out), Ok(38));
    assert_eq!(out[..38], SHEET);
    assert_eq!(out[38..], [0xA5; 2]);
    let mut short = [0xA5; 37];
    assert_eq!(write(2, 3, &TURNS.concat(), &mut short), Err(11));
    assert_eq!(short, [0xA5; 37]);
    assert_eq!(turns_of(&SHEET), [TURNS[0], TURNS[2], TURNS[1], TURNS[3]]);
}

#[test]
fn every_order_of_the_example_gives_one_sheet() {
    let mut orders = 0;
    for order in 0..256 {
        let order = [0, 2, 4, 6].map(|by| order >> by & 3);
        if (0..4).all(|turn| order.contains(&turn)) {
            let shift = Shift {
                groomers: 2,
                slopes: 3,
                turns: order.map(|turn| TURNS[turn]).to_vec(),
            };
            assert_eq!(written(&shift), SHEET, "{order:?}");
            orders += 1;
        }
    }
    assert_eq!(orders, 24);
}

#[test]
fn every_order_of_a_table_gives_one_sheet() {
    let mut rng = Rng::new(31);
    for round in 0..1500 {
        let turns = if round % 50 == 0 { 400 } else { rng.below(30) } as usize;
        let shift = match round % 3 {
            0 => shapes::few_kinds(&mut rng, turns),
            1 => gen::shift(&mut rng, turns),
            _ => shapes::shift(&mut rng, round % shapes::SHAPES, turns),
        };
        let sheet = written(&shift);
        for other in [
            shapes::sorted(&shift),
            shapes::falling(&shift),
            shapes::shuffled(&mut rng, &shift),
        ] {
            assert_eq!(written(&other), sheet, "{shift:?}");
        }
        // What is read back is sorted, and each turn comes as often as before.
        let read_back = turns_of(&sheet);
        assert!(read_back.is_sorted());
        for turn in &shift.turns {
            let times = |turns: &[Row]| turns.iter().filter(|&other| other == turn).count();
            assert_eq!(times(&read_back), times(&shift.turns));
        }
        assert_eq!(read_back.len(), turns);
        // No sheet with these turns in this order is shorter.
        let sorted = shapes::sorted(&shift);
        assert_eq!(sheet, gen::encode(&mut rng, &sorted, 0).bytes);
        assert!(sheet.len() <= gen::encode(&mut rng, &sorted, 30).bytes.len());
    }
}

#[test]
fn each_field_decides_where_those_before_it_are_equal() {
    let least = [1; NUMBERS_PER_TURN];
    for field in 0..NUMBERS_PER_TURN {
        // Greater in this field and less in all behind it.
        let (mut lesser, mut greater) = ([2; NUMBERS_PER_TURN], least);
        lesser[..field].fill(3);
        greater[..field].fill(3);
        greater[field] = 3;
        let shift = Shift {
            groomers: 16,
            slopes: 120,
            turns: vec![greater, lesser, greater],
        };
        assert_eq!(turns_of(&written(&shift)), [lesser, greater, greater]);
    }
}

#[test]
fn equal_turns_stay_as_often() {
    let (a, b) = ([1, 1, 0, 1, 1, 0], [1, 1, 0, 1, 2, 0]);
    let shift = Shift {
        groomers: 1,
        slopes: 1,
        turns: vec![b, a, b, a, a],
    };
    assert_eq!(turns_of(&written(&shift)), [a, a, a, b, b]);
    let shift = Shift {
        turns: vec![b; 400],
        ..shift
    };
    let sheet = written(&shift);
    assert_eq!(sheet.len(), 7 + 9 + 399);
    assert_eq!(turns_of(&sheet), [b; 400]);
}

#[test]
fn refusals_go_by_the_table() {
    let bad = [
        [0, 1, 0, 1, 1, 0],
        [4, 1, 0, 1, 1, 0],
        [1, 0, 0, 1, 1, 0],
        [2, 3, 0, 1, 1, 0],
        [3, 1, 0, 0, 1, 0],
        [1, 1, 960, 1, 1, 0],
        [1, 1, 0, 1, 0, 0],
        [3, 2, 0, 1, 60_001, 0],
        [1, 1, 0, 1, 1, 41],
        [3, 2, 959, 1, 1, 65_535],
    ];
    let numbers = [6, 6, 7, 7, 8, 8, 9, 9, 19, 19];
    for first in 0..bad.len() {
        for second in 0..bad.len() {
            for good in [[1, 1, 0, 1, 1, 0], [3, 2, 959, 1, 60_000, 40]] {
                for table in [
                    [bad[first], bad[second], good],
                    [good, bad[first], bad[second]],
                ] {
                    let mut out = [0xA5; 40];
                    let refused = write(2, 3, &table.concat(), &mut out);
                    assert_eq!(refused, Err(numbers[first]), "{table:?}");
                    assert_eq!(write(2, 3, &table.concat(), &mut []), refused);
                    assert_eq!(out, [0xA5; 40]);
                }
            }
        }
    }
}

/// How many bytes are asked for goes by the sheet that is written, which is
/// now shorter, now longer than the turns would be as the table has them.
#[test]
fn eleven_goes_by_the_written_sheet() {
    let mut rng = Rng::new(32);
    let (mut shorter, mut longer) = (0, 0);
    for round in 0..600 {
        let shift = gen::shift(&mut rng, 3 + round % 8);
        let table = shift.turns.concat();
        let (groomers, slopes) = (shift.groomers.into(), shift.slopes.into());
        let len = written(&shift).len();
        let as_it_stands = gen::encode(&mut rng, &shift, 0).bytes.len();
        shorter += u32::from(len < as_it_stands);
        longer += u32::from(len > as_it_stands);
        for room in [len - 1, len, as_it_stands - 1, as_it_stands, 0] {
            let mut out = vec![0xA5; room];
            let answer = write(groomers, slopes, &table, &mut out);
            assert_eq!(answer, if room < len { Err(11) } else { Ok(len) });
            assert!(room >= len || out.iter().all(|&byte| byte == 0xA5));
        }
    }
    assert!(shorter > 50 && longer > 50, "{shorter} {longer}");
}

#[test]
fn faulty_tables_agree() {
    let mut rng = Rng::new(33);
    let mut seen = [0; 20];
    for _ in 0..6000 {
        let turns = rng.between(1, 12) as usize;
        let shift = gen::shift(&mut rng, turns);
        let mut table = shift.turns.concat();
        for _ in 0..rng.below(4) {
            let place = rng.below(table.len() as u32) as usize;
            table[place] = rng.pick(&[0, 1, 40, 41, 121, 257, 960, 961, 60_000, 60_001, 65_535]);
        }
        table.truncate(table.len() - rng.pick(&[0, 0, 0, 0, 0, 0, 1, 5, 6]));
        let groomers = rng.pick(&[u32::from(shift.groomers), 16, 16, 16, 17, 256]);
        let mut out = vec![0xA5; rng.pick(&[0, 7, 16, 130, 130])];
        let answer = write(groomers, shift.slopes.into(), &table, &mut out);
        seen[usize::from(answer.err().unwrap_or(0))] += 1;
    }
    for number in [0, 3, 6, 7, 8, 9, 11, 18, 19] {
        assert!(seen[number] > 50, "{number}: {seen:?}");
    }
}
