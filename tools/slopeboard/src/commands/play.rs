//! The command that plays a shift with delays.

use super::{sheet, Command};
use crate::args::{Args, Opt};
use crate::csv::{self, needed, Column, Kind};
use crate::failure::{gather, Failure, Fault};
use crate::files::{self, Input};
use crate::json::Json;
use crate::outcome::Outcome;
use crate::{commands::plan::passes, entries};
use slopeboard::{Refusal, Standing, MOST_DELAY, NO_TURN};
use std::fmt::Write;

const COLUMNS: [Column; 2] = [
    needed("turn", Kind::Number),
    needed("minutes", Kind::Length),
];

pub const PLAY: Command = Command {
    name: "play",
    about: "play a board minute by minute, with delays",
    files: &["SHEET", "BOARD"],
    options: &[Opt {
        name: "--delays",
        value: Some("FILE.csv"),
        words: "the delays; without them no turn is delayed",
    }],
    help: "\
Takes a sheet, a board that passes 'check', and a CSV file with the columns turn
and minutes: by how much each turn that it names takes longer, at most 120
minutes. Turns have the numbers that 'show --numbers' gives them.

Prints, for each groomer, in how many of the shift's 960 minutes it worked,
drove over and stood, and the turn that it worked on in the last minute.",
    example: "slopeboard play shift.sheet shift.board --delays delays.csv",
    run: play,
};

fn play(args: &Args) -> Result<Outcome, Failure> {
    let (input, sheet) = sheet(args, 0)?;
    let board = files::read(args.file(1))?;
    passes(&input, &board)?;
    let mut delays = vec![0; sheet.turns.len()];
    if let Some(name) = args.value("--delays") {
        let lines = files::read(name)?;
        read_delays(&lines, &mut delays, |tried| {
            entries::play(&input.bytes, &board.bytes, tried).err()
        })?;
    }
    let list = entries::play(&input.bytes, &board.bytes, &delays).map_err(Failure::of_call)?;
    Ok(Outcome::answer(text(&list), json(&list)))
}

/// Puts the delay of each line at its turn's place.
fn read_delays(
    input: &Input,
    delays: &mut [u16],
    refused: impl Fn(&[u16]) -> Option<Refusal>,
) -> Result<(), Failure> {
    let count = delays.len();
    let mut named = vec![None; count];
    gather(csv::read(input, &COLUMNS, 0)?.into_iter().map(|line| {
        let [turn, minutes] = line.values;
        let wrong = |words| Err(Fault::in_line(input, line.number, words));
        let place = usize::try_from(turn).unwrap_or(count);
        if place >= count {
            return wrong(format!(
                "turn {turn}, where the sheet has {count} turns, numbered from 0"
            ));
        }
        if let Some(other) = named[place].replace(line.number) {
            return wrong(format!("turn {turn} is in line {other}, too"));
        }
        let mut alone = vec![0; count];
        alone[place] = u16::try_from(minutes).unwrap_or(u16::MAX);
        if let Some(refusal) = refused(&alone) {
            let words = format!("a delay of {minutes} minutes, where {MOST_DELAY} are the most");
            let fault = Fault::in_line(input, line.number, words);
            return Err(Fault {
                refusal: Some(refusal),
                ..fault
            });
        }
        delays[place] = alone[place];
        Ok(())
    }))?;
    Ok(())
}

fn text(list: &[Standing]) -> String {
    let mut text = String::new();
    for (groomer, standing) in (1..).zip(list) {
        let Standing {
            working,
            driving,
            standing,
            turn,
        } = standing;
        let _ = write!(
            text,
            "groomer {groomer} worked {working} drove {driving} stood {standing} "
        );
        let _ = match *turn {
            NO_TURN => writeln!(text, "ends on no turn"),
            turn => writeln!(text, "ends on turn {turn}"),
        };
    }
    text
}

fn json(list: &[Standing]) -> Json {
    let groomers = (1_u16..).zip(list).map(|(groomer, standing)| {
        let turn = match standing.turn {
            NO_TURN => Json::Null,
            turn => turn.into(),
        };
        Json::Object(vec![
            ("groomer", groomer.into()),
            ("worked", standing.working.into()),
            ("drove", standing.driving.into()),
            ("stood", standing.standing.into()),
            ("turn", turn),
        ])
    });
    Json::Object(vec![("groomers", Json::list(groomers))])
}
