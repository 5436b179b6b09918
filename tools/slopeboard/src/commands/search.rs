//! Commands that answer with a choice map.

use super::{sheet, Command};
use crate::args::{Args, Opt};
use crate::failure::{Failure, Role};
use crate::json::Json;
use crate::outcome::{Outcome, Product};
use crate::{board, entries, files, hall, watch};
use slopeboard::Improved;

/// Visits where the caller says nothing.
const VISITS: u64 = 1_000_000;

pub const BEST: Command = Command {
    name: "best",
    about: "work out the best worth where each slope has one turn",
    files: &["SHEET"],
    options: &[],
    help: "\
Takes a sheet on which no slope has two turns and no turn names a driver. Writes
the choice map of a best choice, and prints its worth and the chosen turns.",
    example: "slopeboard best single.sheet -o best.map",
    run: best,
};

fn best(args: &Args) -> Result<Outcome, Failure> {
    let (input, sheet) = sheet(args, 0)?;
    let count = sheet.turns.len();
    let best = entries::best(&input.bytes, count);
    let (worth, map) = best.map_err(|refusal| Failure::refused(&input, Role::Sheet, refusal))?;
    Ok(mapped(
        map,
        count,
        "turns",
        format!("worth {worth}\n"),
        vec![("worth", worth.into())],
    ))
}

pub const IMPROVE: Command = Command {
    name: "improve",
    about: "search for a better choice than the planned one",
    files: &["SHEET"],
    options: &[Opt {
        name: "--visits",
        value: Some("N"),
        words: "how many visits the search may make (1000000)",
    }],
    help: "\
Takes a sheet of at most 64 turns. Writes the choice map of the best choice that
was found. Prints its worth, how far the ceiling is above that, how many visits
were made and whether the search ran whole; then the chosen turns. After a whole
search no choice of turns without a conflict is worth more. More visits never
find less.

If standard error is a terminal, it shows the seconds gone.",
    example: "slopeboard improve shift.sheet --visits 50000000 -o better.map",
    run: improve,
};

fn improve(args: &Args) -> Result<Outcome, Failure> {
    let visits = args.number("--visits")?.unwrap_or(VISITS);
    let (input, sheet) = sheet(args, 0)?;
    let count = sheet.turns.len();
    let found = watch::during(|| entries::improve(&input.bytes, count, visits));
    let (found, map) = found.map_err(|refusal| Failure::refused(&input, Role::Sheet, refusal))?;
    let fields = vec![
        ("worth", found.worth.into()),
        ("above", found.above.into()),
        ("visits", found.visits.into()),
        ("whole", Json::Bool(found.whole)),
    ];
    Ok(mapped(map, count, "turns", improved(&found), fields))
}

fn improved(found: &Improved) -> String {
    let Improved {
        worth,
        above,
        visits,
        whole,
    } = found;
    let whole = if *whole { "whole" } else { "not whole" };
    format!("worth {worth} above {above} visits {visits} {whole}\n")
}

pub const CHARGE: Command = Command {
    name: "charge",
    about: "plan a charging hall",
    files: &["HALL"],
    options: &[],
    help: "\
Takes a charging sheet. Writes the choice map of the hall's plan, and prints its
worth and the chosen windows.",
    example: "slopeboard charge hall.sheet -o hall.map",
    run: charge,
};

fn charge(args: &Args) -> Result<Outcome, Failure> {
    let input = files::read(args.file(0))?;
    let count = hall::read(&input)?.windows.len();
    let plan = entries::charge(&input.bytes, count);
    let (worth, map) = plan.map_err(|refusal| Failure::refused(&input, Role::Hall, refusal))?;
    Ok(mapped(
        map,
        count,
        "windows",
        format!("worth {worth}\n"),
        vec![("worth", worth.into())],
    ))
}

/// A choice map as the product; to the answer belongs what it chooses.
fn mapped(
    map: Vec<u8>,
    count: usize,
    what: &'static str,
    text: String,
    mut fields: Vec<(&'static str, Json)>,
) -> Outcome {
    let chosen = board::chosen(&map, count);
    let text = text + &board::choice_line(&chosen, count, what);
    fields.push((what, count.into()));
    fields.push(("chosen", Json::list(chosen)));
    Outcome {
        product: Product::Bytes("choice map", map),
        text,
        json: Json::Object(fields),
    }
}
