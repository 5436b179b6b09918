//! The command that turns bytes into text.

use super::{from, read_sheet, Command, FROM};
use crate::args::{Args, Opt};
use crate::failure::{Failure, Fault, Role};
use crate::files::{self, Input};
use crate::json::Json;
use crate::outcome::{Outcome, Product};
use crate::sheet::{self, Sheet};
use crate::{board, entries, hall};

pub const SHOW: Command = Command {
    name: "show",
    about: "print a sheet, board, kept form or charging sheet as text",
    files: &["FILE"],
    options: &[
        FROM,
        Opt {
            name: "--numbers",
            value: None,
            words: "put the number of the turn or window first in each line",
        },
    ],
    help: "\
Takes a sheet, a board, a kept form or a charging sheet; its first three bytes
tell which it is.

A sheet or kept form is printed as CSV, in the order of its turns, so that
'sheet' takes it again; a charging sheet likewise, for 'hall-sheet'. The counts
go to standard error: to make the very same sheet again, give them to 'sheet' as
--groomers and --slopes. With --from, starts are times of day. Of a board, all
that it says is printed; whether it is right is for 'check' to say.",
    example: "slopeboard show shift.sheet --numbers --from 17:00",
    run: show,
};

fn show(args: &Args) -> Result<Outcome, Failure> {
    let from = from(args)?;
    let numbered = args.has("--numbers");
    let input = files::read(args.file(0))?;
    match input.bytes.get(..3) {
        Some(b"GRM") => Ok(show_sheet("sheet", &read_sheet(&input)?, from, numbered)),
        Some(b"GRC") => {
            let sheet = entries::restore(&input.bytes).and_then(|sheet| entries::read(&sheet));
            let sheet = sheet.map_err(|refusal| Failure::refused(&input, Role::Kept, refusal))?;
            Ok(show_sheet("kept form", &sheet, from, numbered))
        }
        Some(b"GRE") => show_hall(&input, from, numbered),
        Some(b"GRB") => show_board(&input),
        _ if input.bytes.is_empty() => Err(Failure::of_file(&input.name, "the file is empty")),
        _ => Err(Failure::of_file(
            &input.name,
            "it opens with none of the marks GRM (sheet), GRB (board), GRC (kept form), GRE (charging sheet)",
        )),
    }
}

fn show_sheet(kind: &str, sheet: &Sheet, from: Option<u64>, numbered: bool) -> Outcome {
    let text = sheet::to_csv(sheet, from, numbered);
    shown(
        kind,
        text,
        format!("{}\n", sheet.counts()),
        sheet.json(true),
    )
}

fn show_hall(input: &Input, from: Option<u64>, numbered: bool) -> Result<Outcome, Failure> {
    let hall = hall::read(input)?;
    let text = hall::to_csv(&hall, from, numbered);
    Ok(shown(
        "charging sheet",
        text,
        format!("{}\n", hall.counts()),
        hall.json(true),
    ))
}

fn show_board(input: &Input) -> Result<Outcome, Failure> {
    slopeboard::open(&input.bytes).map_err(|refusal| Fault {
        file: Some(input.name.clone()),
        line: None,
        refusal: Some(refusal),
        words: String::from("these are not the bytes of a board"),
    })?;
    let board = board::read(&input.bytes);
    Ok(shown("board", board.text(), String::new(), board.json()))
}

fn shown(kind: &str, text: String, said: String, fields: Vec<(&'static str, Json)>) -> Outcome {
    let mut all = vec![("kind", Json::text(kind))];
    all.extend(fields);
    Outcome {
        product: Product::Text(text),
        text: said,
        json: Json::Object(all),
    }
}
