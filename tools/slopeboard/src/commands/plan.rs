//! Commands that plan a sheet and judge a board.

use super::{sheet, Command};
use crate::args::Args;
use crate::failure::{Failure, Role};
use crate::files::{self, Input};
use crate::json::Json;
use crate::outcome::{Outcome, Product};
use crate::sheet::Sheet;
use crate::{board, entries};
use slopeboard::{Refusal, Sums};
use std::fmt::Write;

pub const PLAN: Command = Command {
    name: "plan",
    about: "plan a sheet and write its board",
    files: &["SHEET"],
    options: &[],
    help: "\
Takes a sheet. Writes the board. Prints its worth, its tally and the ceiling,
and the numbers of the chosen turns. No choice of turns without a conflict is
worth more than the ceiling.",
    example: "slopeboard plan shift.sheet -o shift.board",
    run: plan,
};

fn plan(args: &Args) -> Result<Outcome, Failure> {
    let (input, _) = sheet(args, 0)?;
    let (board, sums) = planned(&input)?;
    let answer = judged(&board, &sums);
    Ok(Outcome {
        product: Product::Bytes("board", board),
        ..answer
    })
}

/// The planned board of a sheet, and its sums.
pub fn planned(input: &Input) -> Result<(Vec<u8>, Sums), Failure> {
    let refused = |refusal| Failure::refused(input, Role::Sheet, refusal);
    let board = entries::plan(&input.bytes).map_err(refused)?;
    let sums = slopeboard::check(&input.bytes, &board).map_err(refused)?;
    Ok((board, sums))
}

/// The sums of a board that passed, and its choice.
fn judged(bytes: &[u8], sums: &Sums) -> Outcome {
    let board = board::read(bytes);
    let choice = board::choice_line(&board.chosen, board.turns, "turns");
    let mut fields = board::sums_json(sums);
    fields.push(("turns", board.turns.into()));
    fields.push(("chosen", Json::list(board.chosen)));
    Outcome::answer(board::sums_line(sums) + &choice, Json::Object(fields))
}

pub const CHECK: Command = Command {
    name: "check",
    about: "check a board against its sheet",
    files: &["SHEET", "BOARD"],
    options: &[],
    help: "\
Takes a sheet and a board, whoever made it. If the board passes, prints the same
as 'plan'. If not, says in words which rule is broken.",
    example: "slopeboard check shift.sheet shift.board",
    run: check,
};

fn check(args: &Args) -> Result<Outcome, Failure> {
    let (sheet, _) = sheet(args, 0)?;
    let board = files::read(args.file(1))?;
    let sums = passes(&sheet, &board)?;
    Ok(judged(&board.bytes, &sums))
}

/// The sums of a board that passes for a sheet.
pub fn passes(sheet: &Input, board: &Input) -> Result<Sums, Failure> {
    let sums = slopeboard::check(&sheet.bytes, &board.bytes);
    sums.map_err(|refusal| Failure::refused(board, Role::Board, refusal))
}

pub const LIST: Command = Command {
    name: "list",
    about: "plan a sheet and print the drivers' listing",
    files: &["SHEET"],
    options: &[],
    help: "\
Takes a sheet. Prints, for each groomer, its chosen turns by start, with start
and end in minutes, slope and worth; then worth, tally and ceiling.",
    example: "slopeboard list shift.sheet",
    run: list,
};

fn list(args: &Args) -> Result<Outcome, Failure> {
    let (input, sheet) = sheet(args, 0)?;
    let text = entries::list(&input.bytes);
    let text = text.map_err(|refusal| Failure::refused(&input, Role::Sheet, refusal))?;
    let (board, sums) = planned(&input)?;
    let chosen = board::read(&board).chosen;
    let groomers = (1..=sheet.groomers).map(|groomer| listed(&sheet, &chosen, groomer));
    let mut fields = vec![("groomers", Json::list(groomers))];
    fields.extend(board::sums_json(&sums));
    Ok(Outcome {
        product: Product::Text(text),
        text: String::new(),
        json: Json::Object(fields),
    })
}

/// A groomer with its chosen turns, by start.
fn listed(sheet: &Sheet, chosen: &[usize], groomer: u16) -> Json {
    let mine = |turn: &usize| sheet.turns[*turn].groomer == groomer;
    let mut turns: Vec<usize> = chosen.iter().copied().filter(mine).collect();
    turns.sort_by_key(|turn| sheet.turns[*turn].start);
    let turns = turns.iter().map(|turn| sheet.turns[*turn].json(*turn));
    Json::Object(vec![
        ("groomer", groomer.into()),
        ("turns", Json::list(turns)),
    ])
}

pub const ASSIGN: Command = Command {
    name: "assign",
    about: "give groomers to all turns of a sheet",
    files: &["SHEET"],
    options: &[],
    help: "\
Takes a sheet. All its turns are to be driven, each by whichever groomer has the
time: what the sheet says of groomers, drivers and slopes does not count. Prints
the fewest groomers that can do it, and a groomer for each turn.",
    example: "slopeboard assign shift.sheet",
    run: assign,
};

fn assign(args: &Args) -> Result<Outcome, Failure> {
    let (input, sheet) = sheet(args, 0)?;
    let assigned = entries::assign(&input.bytes, sheet.turns.len());
    let refused = |refusal: Refusal| Failure::refused(&input, Role::Sheet, refusal);
    let (groomers, places) = assigned.map_err(refused)?;
    let mut text = format!("groomers {groomers}\n");
    for (turn, groomer) in places.iter().enumerate() {
        let _ = writeln!(text, "turn {turn} groomer {groomer}");
    }
    let json = Json::Object(vec![
        ("groomers", groomers.into()),
        ("turns", Json::list(places)),
    ]);
    Ok(Outcome::answer(text, json))
}
