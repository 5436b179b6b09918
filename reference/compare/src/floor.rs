//! The hundred drawn sheets by which a box is tried before it is sealed: each is
//! drawn, planned, checked and listed by the library and by the judge. Where the
//! environment variable SLOPES names the program `slopes`, that lists them too.

use std::env;
use std::io::{self, Write};
use std::process::{Command, Stdio};

use slopeboard_reference::naive;

use crate::foreign;

/// What a sheet is drawn from.
#[derive(Clone, Copy, Debug)]
struct Draw {
    seed: u64,
    groomers: u32,
    slopes: u32,
    turns: u32,
}

/// The draws. The seeds are spread over all that there are; every second sheet
/// has the most of all, the others go from few turns to many.
fn draws() -> impl Iterator<Item = Draw> {
    (0..100).map(|place| {
        let seed = 1 + place * 21_691_753;
        let few = place as u32;
        let (groomers, slopes, turns) = match few % 2 {
            0 => (16, 120, 400),
            _ => (1 + few % 16, 20 + few, 4 * few),
        };
        Draw {
            seed,
            groomers,
            slopes,
            turns,
        }
    })
}

/// A sheet, its board and its listing, and the board's tally, worth and ceiling.
#[derive(PartialEq, Eq)]
struct Made {
    sheet: Vec<u8>,
    board: Vec<u8>,
    text: Vec<u8>,
    sums: [u32; 3],
}

/// By the judge.
fn ours(draw: Draw) -> Result<Made, u8> {
    let mut bytes = [0; 8192];
    let len = naive::draw(
        draw.seed,
        draw.groomers,
        draw.slopes,
        draw.turns,
        &mut bytes,
    )?;
    let sheet = bytes[..len].to_vec();
    let len = naive::plan(&sheet, &mut bytes)?;
    let board = bytes[..len].to_vec();
    let len = naive::listing(&sheet, &mut bytes)?;
    let sums = naive::check(&sheet, &board)?;
    Ok(Made {
        text: bytes[..len].to_vec(),
        sums: [sums.tally, sums.worth, sums.ceiling],
        sheet,
        board,
    })
}

/// The bytes that the library wrote, or its refusal.
fn written(bytes: &[u8], answer: foreign::WriteAnswer) -> Result<Vec<u8>, u8> {
    match answer.refusal {
        0 => Ok(bytes[..answer.bytes as usize].to_vec()),
        refusal => Err(refusal),
    }
}

/// By the library.
fn theirs(draw: Draw) -> Result<Made, u8> {
    let mut bytes = [0; 8192];
    let answer = foreign::draw(
        draw.seed,
        draw.groomers,
        draw.slopes,
        draw.turns,
        &mut bytes,
    );
    let sheet = written(&bytes, answer)?;
    let answer = foreign::plan(&sheet, &mut bytes);
    let board = written(&bytes, answer)?;
    let answer = foreign::list(&sheet, &mut bytes);
    let text = written(&bytes, answer)?;
    let sums = foreign::check(&sheet, &board);
    if sums.refusal != 0 {
        return Err(sums.refusal);
    }
    Ok(Made {
        sheet,
        board,
        text,
        sums: [sums.tally, sums.worth, sums.ceiling],
    })
}

/// What the program prints for a sheet.
fn printed(program: &str, sheet: &[u8]) -> io::Result<Vec<u8>> {
    let mut child = Command::new(program)
        .stdin(Stdio::piped())
        .stdout(Stdio::piped())
        .spawn()?;
    child.stdin.take().expect("it is piped").write_all(sheet)?;
    Ok(child.wait_with_output()?.stdout)
}

/// Whether both versions make the same of a sheet, and the program prints it.
fn is_same(draw: Draw, program: Option<&str>) -> bool {
    let (Ok(ours), Ok(theirs)) = (ours(draw), theirs(draw)) else {
        return false;
    };
    let listed = |program| printed(program, &ours.sheet).is_ok_and(|text| text == ours.text);
    ours == theirs && program.is_none_or(listed)
}

pub fn run() -> bool {
    let program = env::var("SLOPES").ok();
    let differ: Vec<Draw> = draws()
        .filter(|draw| !is_same(*draw, program.as_deref()))
        .collect();
    for draw in &differ {
        println!("floor: DIFFERENCE {draw:?}");
    }
    let by = program.map_or("", |_| ", listed by slopes too");
    println!(
        "compare: floor 100 sheets{by}, {} differences",
        differ.len()
    );
    differ.is_empty()
}
