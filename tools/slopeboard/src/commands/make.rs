//! Commands that make sheets.

use super::{from, sheet, Command, FROM};
use crate::args::{word, Args, Opt};
use crate::failure::{Failure, Role};
use crate::files::{self, Input};
use crate::json::Json;
use crate::outcome::{Outcome, Product};
use crate::sheet::Sheet;
use crate::{entries, hall};

const GROOMERS: Opt = Opt {
    name: "--groomers",
    value: Some("N"),
    words: "how many groomers there are, 1 to 16",
};
const SLOPES: Opt = Opt {
    name: "--slopes",
    value: Some("N"),
    words: "how many slopes there are, 1 to 120",
};

pub const SHEET: Command = Command {
    name: "sheet",
    about: "make a sheet of a CSV file",
    files: &["FILE.csv"],
    options: &[FROM, GROOMERS, SLOPES],
    help: "\
Takes a CSV file: a header line with the columns slope, groomer, start, length,
worth and, if wanted, driver, in any order; then a line for each turn. A driver
that is left out is none. A start is a minute of the shift, such as 90, or a
time of day, such as 19:30, which is counted from --from (00:00 if that is not
given). A length is minutes, such as 90, or hours and minutes, such as 1:30.
Without --groomers and --slopes the counts are the greatest numbers named, 1 if
there is no line. A column 'turn' is passed over.

Writes the sheet. The turns get their numbers, from 0, by slope, then groomer,
start, length, worth and driver: 'show --numbers' tells which is which. Prints
the counts, and with --json also the line of each turn. Lines that cannot be
right are named, and then nothing is written.",
    example: "slopeboard sheet shift.csv --from 17:00 -o shift.sheet",
    run: make_sheet,
};

fn make_sheet(args: &Args) -> Result<Outcome, Failure> {
    let (groomers, slopes) = (args.number("--groomers")?, args.number("--slopes")?);
    let from = from(args)?.unwrap_or(0);
    let input = files::read(args.file(0))?;
    let made = crate::sheet::from_csv(&input, from, groomers, slopes)?;
    let mut outcome = sheet_made(made.bytes)?;
    if let Json::Object(fields) = &mut outcome.json {
        fields.push(("lines", Json::list(made.lines)));
    }
    Ok(outcome)
}

/// A sheet as the product, its counts as the answer.
fn sheet_made(bytes: Vec<u8>) -> Result<Outcome, Failure> {
    let sheet = entries::read(&bytes).map_err(Failure::of_call)?;
    Ok(with_counts("sheet", bytes, &sheet))
}

fn with_counts(what: &'static str, bytes: Vec<u8>, sheet: &Sheet) -> Outcome {
    let length = bytes.len();
    let mut fields = sheet.json(false);
    fields.push(("bytes", length.into()));
    Outcome {
        product: Product::Bytes(what, bytes),
        text: format!("{} bytes {length}\n", sheet.counts()),
        json: Json::Object(fields),
    }
}

pub const HALL_SHEET: Command = Command {
    name: "hall-sheet",
    about: "make a charging sheet of a CSV file",
    files: &["FILE.csv"],
    options: &[
        FROM,
        Opt {
            name: "--units",
            value: Some("N"),
            words: "how many units the hall supplies, 1 to 48",
        },
        Opt {
            name: "--vehicles",
            value: Some("N"),
            words: "how many vehicles there are, 1 to 60",
        },
    ],
    help: "\
Takes a CSV file: a header line with the columns vehicle, draw, start, length
and worth, in any order; then a line for each window. Starts and lengths are
written as for 'sheet'. Without --units and --vehicles the counts are the
greatest draw and the greatest vehicle named: give --units if the hall supplies
more than its widest window draws. A column 'window' is passed over.

Writes the charging sheet, with the windows in the order of the lines, numbered
from 0. Prints the counts. Lines that cannot be right are named, and then
nothing is written.",
    example: "slopeboard hall-sheet hall.csv --units 10 -o hall.sheet",
    run: make_hall,
};

fn make_hall(args: &Args) -> Result<Outcome, Failure> {
    let (units, vehicles) = (args.number("--units")?, args.number("--vehicles")?);
    let from = from(args)?.unwrap_or(0);
    let lines = files::read(args.file(0))?;
    let made = Input {
        name: String::from("the charging sheet"),
        bytes: hall::from_csv(&lines, from, units, vehicles)?,
    };
    let hall = hall::read(&made)?;
    let length = made.bytes.len();
    let mut fields = hall.json(false);
    fields.push(("bytes", length.into()));
    Ok(Outcome {
        product: Product::Bytes("charging sheet", made.bytes),
        text: format!("{} bytes {length}\n", hall.counts()),
        json: Json::Object(fields),
    })
}

pub const DRAW: Command = Command {
    name: "draw",
    about: "draw a sheet from a seed",
    files: &[],
    options: &[
        Opt {
            name: "--seed",
            value: Some("N"),
            words: "the seed, 1 to 2147483646",
        },
        GROOMERS,
        SLOPES,
        Opt {
            name: "--turns",
            value: Some("N"),
            words: "how many turns are drawn, 0 to 400",
        },
    ],
    help: "\
Takes four numbers, all of which must be given. The same numbers give the same
sheet everywhere. No turn names a driver.

Writes the sheet, and prints its counts.",
    example: "slopeboard draw --seed 7 --groomers 4 --slopes 20 --turns 40 -o drawn.sheet",
    run: draw,
};

fn draw(args: &Args) -> Result<Outcome, Failure> {
    let seed = args.needed("--seed")?;
    let groomers = word(args.needed("--groomers")?);
    let slopes = word(args.needed("--slopes")?);
    let turns = word(args.needed("--turns")?);
    let drawn = entries::draw(seed, groomers, slopes, turns);
    sheet_made(drawn.map_err(Failure::of_call)?)
}

pub const KEEP: Command = Command {
    name: "keep",
    about: "write the kept form of a sheet",
    files: &["SHEET"],
    options: &[],
    help: "\
Takes a sheet. Writes its kept form, which has the same bytes by column, and
prints the counts.",
    example: "slopeboard keep shift.sheet -o shift.kept",
    run: keep,
};

fn keep(args: &Args) -> Result<Outcome, Failure> {
    let (input, sheet) = sheet(args, 0)?;
    let kept = entries::keep(&input.bytes);
    let kept = kept.map_err(|refusal| Failure::refused(&input, Role::Sheet, refusal))?;
    Ok(with_counts("kept form", kept, &sheet))
}

pub const RESTORE: Command = Command {
    name: "restore",
    about: "write the sheet of a kept form",
    files: &["KEPT"],
    options: &[],
    help: "\
Takes a kept form. Writes its sheet, to the byte the one that it was made of,
and prints the counts.",
    example: "slopeboard restore shift.kept -o shift.sheet",
    run: restore,
};

fn restore(args: &Args) -> Result<Outcome, Failure> {
    let input = files::read(args.file(0))?;
    let sheet = entries::restore(&input.bytes);
    sheet_made(sheet.map_err(|refusal| Failure::refused(&input, Role::Kept, refusal))?)
}
