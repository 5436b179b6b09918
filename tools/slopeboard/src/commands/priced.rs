//! Commands that go by prices.

use super::{sheet, Command};
use crate::args::{Args, Opt};
use crate::failure::{Failure, Role};
use crate::files::{self, Input};
use crate::json::Json;
use crate::outcome::{Outcome, PriceFile, Product};
use crate::sheet::Sheet;
use crate::{board, entries, hall, prices, watch};
use slopeboard::{ChargeRefined, Refined, Refusal, MINUTES};

const FREE: Opt = Opt {
    name: "--free",
    value: None,
    words: "all prices are 0, and no file has them",
};

pub const LIMIT: Command = Command {
    name: "limit",
    about: "work out by prices what no feasible set is worth more than",
    files: &["SHEET", "[PRICES]"],
    options: &[FREE],
    help: "\
Takes a sheet and a file of prices: numbers from 0 to 65535, one a line or with
blanks between them. The slopes' prices come first, then the turns', both by
number. Or takes --free in place of the file.

Prints the limit. No choice of turns without a conflict is worth more, whatever
the prices are; good ones give a low limit. Of the turns' prices those of turns
without a driver count for nothing.",
    example: "slopeboard limit shift.sheet shift.prices",
    run: limit,
};

fn limit(args: &Args) -> Result<Outcome, Failure> {
    let named = named(args)?;
    let (input, sheet) = sheet(args, 0)?;
    let limit = match named {
        Some(name) => limit_by(&input, &sheet, &files::read(name)?)?,
        None => {
            let free = vec![0; numbers(&sheet)];
            let limit = slopeboard::limit(&input.bytes, &free);
            limit.map_err(|refusal| Failure::refused(&input, Role::Sheet, refusal))?
        }
    };
    Ok(limited(limit))
}

fn limited(limit: u32) -> Outcome {
    let json = Json::Object(vec![("limit", limit.into())]);
    Outcome::answer(format!("limit {limit}\n"), json)
}

/// The file with the prices; none where they are all 0.
fn named(args: &Args) -> Result<Option<&str>, Failure> {
    match (args.optional_file(1), args.has("--free")) {
        (Some(_), true) => Err(args.wrong("--free leaves no place for PRICES")),
        (None, false) => Err(args.wrong("PRICES is missing, or --free")),
        (name, _) => Ok(name),
    }
}

/// How many prices a list for this sheet has.
fn numbers(sheet: &Sheet) -> usize {
    usize::from(sheet.slopes) + sheet.turns.len()
}

/// The limit of a sheet at the prices of a file.
pub fn limit_by(input: &Input, sheet: &Sheet, file: &Input) -> Result<u32, Failure> {
    let list = prices::read(file)?;
    slopeboard::limit(&input.bytes, &list).map_err(|refusal| match refusal {
        Refusal::BadPrices => {
            let each = format!("of {} slopes and {} turns", sheet.slopes, sheet.turns.len());
            prices::refused(file, &list, numbers(sheet), &each, refusal)
        }
        _ => Failure::refused(input, Role::Sheet, refusal),
    })
}

/// Rounds where the caller says nothing.
const ROUNDS: u32 = 100;

const MOST_ROUNDS: Opt = Opt {
    name: "--rounds",
    value: Some("N"),
    words: "how many rounds may be made (100)",
};
const PRICES: Opt = Opt {
    name: "--prices",
    value: Some("FILE"),
    words: "write the prices to this file, as text",
};

pub const REFINE: Command = Command {
    name: "refine",
    about: "make a better board, and a limit close above it, by rounds",
    files: &["SHEET"],
    options: &[MOST_ROUNDS, PRICES],
    help: "\
Takes a sheet. Starts from the planned board and makes rounds in which prices
move. Writes the best board found, which passes 'check'. Prints its worth, the
lowest limit found and how many rounds were made; then, if the limit is the
worth, that no board earns more; then the chosen turns. No choice of turns
without a conflict is worth more than the limit. With more rounds the worth
never falls and the limit never rises.

With --prices the prices are written, too: 'limit' takes them and prints the
same limit. If standard error is a terminal, it shows the seconds gone.",
    example: "slopeboard refine a.sheet --rounds 100 -o a.board --prices a.prices",
    run: refine,
};

fn refine(args: &Args) -> Result<Outcome, Failure> {
    let rounds = args.rounds()?.unwrap_or(ROUNDS);
    let file = price_file(args)?;
    let (input, sheet) = sheet(args, 0)?;
    let (refined, bytes, list) = refined(&input, &sheet, rounds)?;
    let found = Found {
        worth: refined.worth,
        limit: refined.limit,
        rounds: refined.rounds,
        chosen: board::read(&bytes).chosen,
        list,
    };
    let (text, json) = found.answer(sheet.turns.len(), "turns", "no board earns more\n");
    Ok(Outcome {
        product: with_prices("board", bytes, file, &found.list),
        text,
        json,
    })
}

/// What rounds came to: of a sheet or of a hall.
struct Found {
    worth: u32,
    limit: u32,
    rounds: u32,
    chosen: Vec<usize>,
    list: Vec<u16>,
}

impl Found {
    /// The answer, with these words where the limit is the worth.
    fn answer(&self, count: usize, what: &'static str, met: &str) -> (String, Json) {
        let Found {
            worth,
            limit,
            rounds,
            chosen,
            list,
        } = self;
        let mut text = format!("worth {worth} limit {limit} rounds {rounds}\n");
        if worth == limit {
            text.push_str(met);
        }
        text += &board::choice_line(chosen, count, what);
        let json = Json::Object(vec![
            ("worth", (*worth).into()),
            ("limit", (*limit).into()),
            ("rounds", (*rounds).into()),
            (what, count.into()),
            ("chosen", Json::list(chosen.iter().copied())),
            ("prices", Json::list(list.iter().copied())),
        ]);
        (text, json)
    }
}

/// What the rounds on a sheet came to, the board and the prices.
pub fn refined(
    input: &Input,
    sheet: &Sheet,
    rounds: u32,
) -> Result<(Refined, Vec<u8>, Vec<u16>), Failure> {
    let numbers = numbers(sheet);
    let refined = watch::during(|| entries::refine(&input.bytes, numbers, rounds));
    refined.map_err(|refusal| Failure::refused(input, Role::Sheet, refusal))
}

/// The file that the prices go to, if they are wanted: not that of `-o`.
fn price_file(args: &Args) -> Result<Option<&str>, Failure> {
    let file = args.value("--prices");
    if file.is_some() && file == args.value("-o") {
        return Err(args.wrong("-o and --prices name the same file"));
    }
    Ok(file)
}

/// Bytes as the product, with the prices if there is a file for them.
fn with_prices(what: &'static str, bytes: Vec<u8>, file: Option<&str>, list: &[u16]) -> Product {
    match file {
        None => Product::Bytes(what, bytes),
        Some(name) => {
            let (name, text) = (name.to_owned(), prices::text(list));
            Product::Priced(what, bytes, PriceFile { name, text })
        }
    }
}

pub const CHARGE_LIMIT: Command = Command {
    name: "charge-limit",
    about: "work out a hall's limit by prices",
    files: &["HALL", "[PRICES]"],
    options: &[FREE],
    help: "\
Takes a charging sheet and a file of prices: 960 numbers from 0 to 65535, one a
line or with blanks between them. There is one for each minute, in sixteenths.
Or takes --free in place of the file.

Prints the limit. No choice of windows that is allowed is worth more, whatever
the prices are; good ones give a low limit. A choice is allowed if it has no
vehicle twice and in no minute draws more than the units.",
    example: "slopeboard charge-limit hall.sheet hall.prices",
    run: charge_limit,
};

fn charge_limit(args: &Args) -> Result<Outcome, Failure> {
    let named = named(args)?;
    let input = files::read(args.file(0))?;
    hall::read(&input)?;
    let limit = match named {
        Some(name) => charge_limit_by(&input, &files::read(name)?)?,
        None => {
            let limit = slopeboard::charge_limit(&input.bytes, &[0; MINUTES]);
            limit.map_err(|refusal| Failure::refused(&input, Role::Hall, refusal))?
        }
    };
    Ok(limited(limit))
}

/// The limit of a charging sheet at the prices of a file.
pub fn charge_limit_by(input: &Input, file: &Input) -> Result<u32, Failure> {
    let list = prices::read(file)?;
    slopeboard::charge_limit(&input.bytes, &list).map_err(|refusal| match refusal {
        Refusal::BadPrices => prices::refused(file, &list, MINUTES, "minute", refusal),
        _ => Failure::refused(input, Role::Hall, refusal),
    })
}

pub const CHARGE_REFINE: Command = Command {
    name: "charge-refine",
    about: "make a better plan of a hall, and its limit, by rounds",
    files: &["HALL"],
    options: &[MOST_ROUNDS, PRICES],
    help: "\
Takes a charging sheet. Starts from the plan that 'charge' makes and makes
rounds in which prices move. Writes the choice map of the best choice found.
Prints its worth, the lowest limit found and how many rounds were made; then, if
the limit is the worth, that no allowed set earns more; then the chosen windows.
No choice of windows that is allowed is worth more than the limit. With more
rounds the worth never falls and the limit never rises.

With --prices the prices are written, too: 'charge-limit' takes them and prints
the same limit. If standard error is a terminal, it shows the seconds gone.",
    example: "slopeboard charge-refine a.hall --rounds 100 -o a.map --prices a.prices",
    run: charge_refine,
};

fn charge_refine(args: &Args) -> Result<Outcome, Failure> {
    let rounds = args.rounds()?.unwrap_or(ROUNDS);
    let file = price_file(args)?;
    let input = files::read(args.file(0))?;
    let count = hall::read(&input)?.windows.len();
    let (refined, map, list) = charge_refined(&input, count, rounds)?;
    let found = Found {
        worth: refined.worth,
        limit: refined.limit,
        rounds: refined.rounds,
        chosen: board::chosen(&map, count),
        list,
    };
    let (text, json) = found.answer(count, "windows", "no allowed set earns more\n");
    Ok(Outcome {
        product: with_prices("choice map", map, file, &found.list),
        text,
        json,
    })
}

/// What the rounds for a hall of so many windows came to, the choice map and the
/// prices.
pub fn charge_refined(
    input: &Input,
    windows: usize,
    rounds: u32,
) -> Result<(ChargeRefined, Vec<u8>, Vec<u16>), Failure> {
    let refined = watch::during(|| entries::charge_refine(&input.bytes, windows, rounds));
    refined.map_err(|refusal| Failure::refused(input, Role::Hall, refusal))
}
