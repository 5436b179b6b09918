//! The commands. A further one is a `Command` in a module here, and a line in
//! the table.

mod make;
mod paint;
mod plan;
mod play;
mod priced;
mod search;
mod show;

use crate::args::{Args, Opt};
use crate::failure::{Failure, Role};
use crate::files::{self, Input};
use crate::outcome::Outcome;
use crate::sheet::Sheet;
use crate::{clock, entries, locate};

/// A command: its name, what it does in a few words, the files and options that
/// it takes, what it takes and prints in full, and a run of it. The name of a
/// file that may be left out stands in brackets, behind the others.
pub struct Command {
    pub name: &'static str,
    pub about: &'static str,
    pub files: &'static [&'static str],
    pub options: &'static [Opt],
    pub help: &'static str,
    pub example: &'static str,
    pub run: fn(&Args) -> Result<Outcome, Failure>,
}

/// All commands, as the help lists them.
pub const COMMANDS: [&Command; 19] = [
    &make::SHEET,
    &make::HALL_SHEET,
    &make::DRAW,
    &show::SHOW,
    &plan::PLAN,
    &plan::CHECK,
    &plan::LIST,
    &plan::ASSIGN,
    &search::BEST,
    &search::IMPROVE,
    &priced::LIMIT,
    &priced::REFINE,
    &play::PLAY,
    &make::KEEP,
    &make::RESTORE,
    &search::CHARGE,
    &priced::CHARGE_LIMIT,
    &priced::CHARGE_REFINE,
    &paint::PICTURE,
];

pub fn named(name: &str) -> Result<&'static Command, Failure> {
    let mut commands = COMMANDS.iter();
    let found = commands.find(|command| command.name == name);
    found.copied().ok_or_else(|| {
        Failure::words(&format!(
            "there is no command {name}; see slopeboard --help"
        ))
    })
}

const FROM: Opt = Opt {
    name: "--from",
    value: Some("HH:MM"),
    words: "the time of day at which the shift begins",
};

/// The time of day at which the shift begins, in minutes, if it is given.
fn from(args: &Args) -> Result<Option<u64>, Failure> {
    let Some(text) = args.value("--from") else {
        return Ok(None);
    };
    let time = clock::time_of_day(text);
    let failure = || Failure::words(&format!("--from {text}: no time of day such as 18:00"));
    time.map(Some).ok_or_else(failure)
}

/// The sheet that a command takes at this place.
fn sheet(args: &Args, place: usize) -> Result<(Input, Sheet), Failure> {
    let input = files::read(args.file(place))?;
    let sheet = read_sheet(&input)?;
    Ok((input, sheet))
}

fn read_sheet(input: &Input) -> Result<Sheet, Failure> {
    entries::read(&input.bytes).map_err(|refusal| {
        let turn = locate::record(&input.bytes, refusal, |sheet| entries::read(sheet).err());
        Failure::refused(input, Role::Sheet, refusal).at("turn", turn)
    })
}
