//! What went wrong, in words, with the library's number where it refused.

use crate::files::Input;
use crate::json::Json;
use slopeboard::{
    Refusal, MOST_DELAY, MOST_DRIVER, MOST_GROOMERS, MOST_SEARCHED_TURNS, MOST_SEED,
    MOST_SHORT_TURNS, MOST_SLOPES, MOST_TURNS, MOST_UNITS, MOST_VEHICLES,
};
use std::fmt::Write;

/// Faults that are printed at most.
const MOST_SAID: usize = 20;

/// One thing that is wrong: in which file, in which line of it, and what.
#[derive(Debug)]
pub struct Fault {
    pub file: Option<String>,
    pub line: Option<usize>,
    pub refusal: Option<Refusal>,
    pub words: String,
}

/// Why a command has not done what was asked: one fault or several.
#[derive(Debug)]
pub struct Failure {
    pub faults: Vec<Fault>,
}

/// What a file was taken for.
#[derive(Clone, Copy, PartialEq, Eq)]
pub enum Role {
    Sheet,
    Kept,
    Board,
    Hall,
}

impl Fault {
    pub fn in_line(input: &Input, line: usize, words: String) -> Fault {
        Fault {
            file: Some(input.name.clone()),
            line: Some(line),
            refusal: None,
            words,
        }
    }

    fn said(&self) -> String {
        let mut said = String::from("slopeboard: ");
        if let Some(file) = &self.file {
            said.push_str(file);
            if let Some(line) = self.line {
                let _ = write!(said, ", line {line}");
            }
            said.push_str(": ");
        }
        said.push_str(&self.words);
        if let Some(refusal) = self.refusal {
            let _ = write!(said, " (refused {})", refusal.number());
        }
        said
    }

    fn json(&self) -> Json {
        let mut fields = Vec::new();
        if let Some(file) = &self.file {
            fields.push(("file", Json::text(file)));
        }
        if let Some(line) = self.line {
            fields.push(("line", Json::from(line)));
        }
        if let Some(refusal) = self.refusal {
            fields.push(("refusal", Json::from(refusal.number())));
        }
        fields.push(("words", Json::text(&self.words)));
        Json::Object(fields)
    }
}

impl From<Fault> for Failure {
    fn from(fault: Fault) -> Failure {
        Failure {
            faults: vec![fault],
        }
    }
}

impl Failure {
    /// Nothing but words: no file is to blame.
    pub fn words(words: &str) -> Failure {
        Failure::from(Fault {
            file: None,
            line: None,
            refusal: None,
            words: words.to_owned(),
        })
    }

    /// Of a whole file.
    pub fn of_file(name: &str, words: &str) -> Failure {
        Failure::from(Fault {
            file: Some(name.to_owned()),
            line: None,
            refusal: None,
            words: words.to_owned(),
        })
    }

    /// The library refused a call that takes no file.
    pub fn of_call(refusal: Refusal) -> Failure {
        Failure::from(Fault {
            file: None,
            line: None,
            refusal: Some(refusal),
            words: meaning(refusal, Role::Sheet),
        })
    }

    /// The library refused this file.
    pub fn refused(input: &Input, role: Role, refusal: Refusal) -> Failure {
        let mut words = meaning(refusal, role);
        if input.bytes.is_empty() {
            words = String::from("the file is empty");
        } else if matches!(refusal, Refusal::BadMagic | Refusal::MalformedBoard) {
            words.push_str(hint(input, role));
        }
        Failure::from(Fault {
            file: Some(input.name.clone()),
            line: None,
            refusal: Some(refusal),
            words,
        })
    }

    /// Names the record that is to blame, if one is.
    pub fn at(mut self, what: &str, record: Option<u16>) -> Failure {
        if let Some(record) = record {
            for fault in &mut self.faults {
                fault.words = format!("{what} {record}: {}", fault.words);
            }
        }
        self
    }

    /// What is printed on standard error, without the last line feed.
    pub fn said(&self, json: bool) -> String {
        if json {
            let faults = self.faults.iter().map(Fault::json).collect();
            return Json::Object(vec![("faults", Json::List(faults))]).to_string();
        }
        let mut lines: Vec<String> = self.faults.iter().map(Fault::said).collect();
        if lines.len() > MOST_SAID {
            let more = lines.len() - MOST_SAID;
            lines.truncate(MOST_SAID);
            lines.push(format!("slopeboard: and {more} more"));
        }
        lines.join("\n")
    }
}

/// All values, or all faults.
pub fn gather<T>(results: impl Iterator<Item = Result<T, Fault>>) -> Result<Vec<T>, Failure> {
    let mut values = Vec::new();
    let mut faults = Vec::new();
    for result in results {
        match result {
            Ok(value) => values.push(value),
            Err(fault) => faults.push(fault),
        }
    }
    if faults.is_empty() {
        return Ok(values);
    }
    Err(Failure { faults })
}

/// What the bytes are, where their mark tells.
fn hint(input: &Input, role: Role) -> &'static str {
    match input.bytes.get(..3) {
        Some(b"GRM") if role != Role::Sheet => "; it opens as a sheet does",
        Some(b"GRC") if role != Role::Kept => "; it opens as a kept form does",
        Some(b"GRB") if role != Role::Board => "; it opens as a board does",
        Some(b"GRE") if role != Role::Hall => "; it opens as a charging sheet does",
        _ => "",
    }
}

fn meaning(refusal: Refusal, role: Role) -> String {
    let words = match (refusal, role) {
        (Refusal::BadMagic, Role::Kept) => "it does not open with GRC, the mark of a kept form",
        (Refusal::BadMagic, Role::Hall) => {
            "it does not open with GRE, the mark of a charging sheet"
        }
        (Refusal::BadCounts, Role::Hall) => return hall_counts(),
        (Refusal::TooManyTurns, Role::Hall) => {
            return format!("a charging sheet has at most {MOST_TURNS} windows");
        }
        (Refusal::BadSlope, Role::Hall) => "a window's vehicle is 0 or above the count of vehicles",
        (Refusal::BadTime, Role::Hall) => "a window has length 0 or ends after minute 960",
        (Refusal::BadPrices, Role::Hall) => "there is not a price for each minute",
        (Refusal::BadWorth, Role::Hall) => "a window's worth is 0 or above 60000",
        _ => return limit(refusal).unwrap_or_else(|| rule(refusal).to_owned()),
    };
    words.to_owned()
}

/// What a hall has.
pub fn hall_counts() -> String {
    format!("a hall has 1 to {MOST_UNITS} units and 1 to {MOST_VEHICLES} vehicles")
}

/// The limit that is passed, where the refusal is of one.
fn limit(refusal: Refusal) -> Option<String> {
    Some(match refusal {
        Refusal::BadCounts => {
            format!("a sheet has 1 to {MOST_GROOMERS} groomers and 1 to {MOST_SLOPES} slopes")
        }
        Refusal::TooManyTurns => format!("a sheet has at most {MOST_TURNS} turns"),
        Refusal::BadDriver => format!("a turn's driver is above {MOST_DRIVER}"),
        Refusal::TooManyForShort => format!("it has more than {MOST_SHORT_TURNS} turns"),
        Refusal::TooManyToSearch => {
            format!("it has more than {MOST_SEARCHED_TURNS} turns, too many to search")
        }
        Refusal::BadSeed => format!("a seed is 1 to {MOST_SEED}"),
        Refusal::BadDelays => {
            format!("a delay is above {MOST_DELAY} minutes, or there is not one for each turn")
        }
        _ => return None,
    })
}

/// The rule that is broken, where the refusal is of one.
fn rule(refusal: Refusal) -> &'static str {
    match refusal {
        Refusal::Truncated => "it ends too early, before its last record is whole",
        Refusal::BadMagic => "it does not open with GRM, the mark of a sheet",
        Refusal::BadMap => "the map byte of a record cannot be right",
        Refusal::BadSlope => "a turn's slope is 0 or above the count of slopes",
        Refusal::BadGroomer => "a turn's groomer is 0 or above the count of groomers",
        Refusal::BadTime => "a turn has length 0 or ends after minute 960",
        Refusal::BadWorth => "a turn's worth is 0 or above 60000",
        Refusal::TrailingBytes => "it goes on after its last record",
        Refusal::BufferTooSmall => "there is too little room for the answer",
        Refusal::MalformedBoard => "these are not the bytes of a board for this sheet",
        Refusal::ChosenConflict => "two of the chosen turns conflict",
        Refusal::NotMaximal => "one more turn could be chosen",
        Refusal::WrongStep => "a step is not right at its place",
        Refusal::TurnLeftOpen => "the steps leave a turn open",
        Refusal::WrongSums => "a sum does not add up, or the tally is above the worth",
        Refusal::PartialTurn => "the numbers do not make whole turns",
        Refusal::NotSingleTurns => "a slope has two turns, or a turn names a driver",
        Refusal::BadDraw => "a window's draw is 0 or above the hall's units",
        Refusal::BadPrices => "there is not a price for each slope and each turn",
        Refusal::BadCounts
        | Refusal::TooManyTurns
        | Refusal::BadDriver
        | Refusal::TooManyForShort
        | Refusal::TooManyToSearch
        | Refusal::BadSeed
        | Refusal::BadDelays => "a limit is passed",
        Refusal::Unknown => "the library gave a number that is not known here",
    }
}
