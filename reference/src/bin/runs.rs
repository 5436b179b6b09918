//! Writes the runs of the program `slopes` into a folder: for each, what it
//! is given on standard input, `NAME.sheet`, and what it must print,
//! `NAME.text`, as the naive version has it.
//!
//! ```text
//! cargo run --release -p slopeboard-reference --bin runs -- tests/slopes
//! ```

use std::path::Path;
use std::process::ExitCode;
use std::{env, fs, io};

use slopeboard_reference::gen::{self, Rng};
use slopeboard_reference::naive::{listing, refused_line};
use slopeboard_reference::shapes;
use slopeboard_reference::worked::{with, SHEET};

/// Room for every listing.
const MOST_TEXT: usize = 4096;

/// The most that the program reads.
const MOST_READ: usize = 4008;

/// One sheet for each refusal, with its number.
fn refusals() -> [(u8, Vec<u8>); 11] {
    let one_more = [&SHEET[..6], &[5], &SHEET[7..]].concat();
    [
        (1, SHEET[..38].to_vec()),
        (2, with(&SHEET, 2, b"B")),
        (3, with(&SHEET, 3, &[17])),
        (4, with(&SHEET, 5, &[0x01, 0x91])),
        (5, with(&SHEET, 7, &[0x5F])),
        (6, with(&SHEET, 8, &[4])),
        (7, with(&SHEET, 9, &[3])),
        (8, with(&SHEET, 10, &[0x03, 0x84, 0x00, 0x3D])),
        (9, with(&SHEET, 14, &[0xEA, 0x61])),
        (10, [&SHEET[..], &[0]].concat()),
        (19, [&one_more[..], &[0x20, 41]].concat()),
    ]
}

/// The longest sheet there is, 400 turns with all fields, and so many bytes
/// behind it.
fn longest(behind: usize) -> Vec<u8> {
    let mut rng = Rng::new(4008);
    let shift = shapes::usual_with_drivers(&mut rng, 400);
    let mut sheet = gen::encode(&mut rng, &shift, 100).bytes;
    assert_eq!(sheet.len() + 1, MOST_READ, "every record has every field");
    sheet.extend((0..behind).map(|place| place as u8));
    sheet
}

fn runs() -> Vec<(String, Vec<u8>)> {
    let mut rng = Rng::new(400);
    let mut runs: Vec<(String, Vec<u8>)> = refusals()
        .into_iter()
        .map(|(number, sheet)| (format!("refused_{number:02}"), sheet))
        .collect();
    let mut more = |name: &str, sheet: Vec<u8>| runs.push((name.to_string(), sheet));
    more("shift", SHEET.to_vec());
    more("no_bytes", Vec::new());
    more("sixteen_groomers", b"GRM\x10\x78\x00\x00".to_vec());
    let shift = shapes::usual(&mut rng, 400);
    more("four_hundred_turns", gen::encode(&mut rng, &shift, 0).bytes);
    let shift = shapes::usual_with_drivers(&mut rng, 60);
    more("drivers", gen::encode(&mut rng, &shift, 0).bytes);
    more("longest", longest(0));
    more("one_byte_more", longest(1));
    more("two_bytes_more", longest(2));
    more("far_more", longest(10_000));
    let mut cut_early = longest(5_000);
    cut_early[7] = 0x7F;
    more("far_more_and_a_bad_map", cut_early);
    runs
}

/// What the program must print, from all of its input.
fn printed(sheet: &[u8]) -> Vec<u8> {
    let mut text = vec![0; MOST_TEXT];
    match listing(sheet, &mut text) {
        Ok(len) => text[..len].to_vec(),
        Err(number) => refused_line(number).into_bytes(),
    }
}

fn write_all(folder: &Path) -> io::Result<()> {
    fs::create_dir_all(folder)?;
    for (name, sheet) in runs() {
        fs::write(folder.join(format!("{name}.text")), printed(&sheet))?;
        fs::write(folder.join(format!("{name}.sheet")), sheet)?;
    }
    Ok(())
}

fn main() -> ExitCode {
    let Some(folder) = env::args().nth(1) else {
        eprintln!("runs FOLDER");
        return ExitCode::FAILURE;
    };
    match write_all(Path::new(&folder)) {
        Ok(()) => ExitCode::SUCCESS,
        Err(error) => {
            eprintln!("{folder}: {error}");
            ExitCode::FAILURE
        }
    }
}
