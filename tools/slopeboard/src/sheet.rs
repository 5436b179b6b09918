//! Sheets: made of the lines of a CSV file, and as such lines again.

use crate::args::word;
use crate::clock;
use crate::csv::{self, needed, optional, Column, Kind, Line};
use crate::entries;
use crate::failure::{gather, Failure, Fault};
use crate::files::Input;
use crate::json::Json;
use slopeboard::{Refusal, MOST_DRIVER, MOST_GROOMERS, MOST_SLOPES, MOST_TURNS};
use std::fmt::Write;

/// The turn's number may stand in a file, too. It is passed over: the writer
/// numbers the turns.
const COLUMNS: [Column; 7] = [
    needed("slope", Kind::Number),
    needed("groomer", Kind::Number),
    needed("start", Kind::Start),
    needed("length", Kind::Length),
    needed("worth", Kind::Number),
    optional("driver"),
    optional("turn"),
];

/// In the order of the turn table, which is that of the writer, too.
#[derive(Clone, Copy, Debug, PartialEq, Eq, PartialOrd, Ord)]
pub struct Turn {
    pub slope: u16,
    pub groomer: u16,
    pub start: u16,
    pub length: u16,
    pub worth: u16,
    /// 0 is none.
    pub driver: u16,
}

/// What a sheet says.
#[derive(Debug)]
pub struct Sheet {
    pub groomers: u16,
    pub slopes: u16,
    pub turns: Vec<Turn>,
}

/// A sheet that was made of a file.
pub struct Made {
    pub bytes: Vec<u8>,
    /// The line of each turn, by the turn's number.
    pub lines: Vec<usize>,
}

impl Turn {
    pub fn from_row(row: &[u16]) -> Turn {
        Turn {
            slope: row[0],
            groomer: row[1],
            start: row[2],
            length: row[3],
            worth: row[4],
            driver: row[5],
        }
    }

    pub fn row(&self) -> [u16; slopeboard::NUMBERS_PER_TURN] {
        let Turn {
            slope,
            groomer,
            start,
            length,
            worth,
            driver,
        } = *self;
        [slope, groomer, start, length, worth, driver]
    }

    pub fn end(&self) -> u16 {
        self.start + self.length
    }

    /// A number above 65535 becomes 65535, which is refused as it would be.
    fn from_line(line: &Line<7>) -> Turn {
        let row = line
            .values
            .map(|value| u16::try_from(value).unwrap_or(u16::MAX));
        Turn::from_row(&row)
    }

    pub fn json(&self, number: usize) -> Json {
        Json::Object(vec![
            ("turn", number.into()),
            ("slope", self.slope.into()),
            ("groomer", self.groomer.into()),
            ("start", self.start.into()),
            ("length", self.length.into()),
            ("worth", self.worth.into()),
            ("driver", self.driver.into()),
        ])
    }
}

/// Makes a sheet of the lines of a file. Counts that are not given are the
/// greatest numbers that the lines name, within the limits.
pub fn from_csv(
    input: &Input,
    from: u64,
    groomers: Option<u64>,
    slopes: Option<u64>,
) -> Result<Made, Failure> {
    let lines = csv::read(input, &COLUMNS, from)?;
    let groomers = word(groomers.unwrap_or_else(|| greatest(&lines, 1, MOST_GROOMERS)));
    let slopes = word(slopes.unwrap_or_else(|| greatest(&lines, 0, MOST_SLOPES)));
    entries::write(groomers, slopes, &[]).map_err(Failure::of_call)?;
    let mut turns = gather(lines.iter().map(|line| {
        let turn = Turn::from_line(line);
        match entries::write(groomers, slopes, &[turn]) {
            Ok(_) => Ok((turn, line.number)),
            Err(refusal) => Err(fault(input, line, refusal, groomers, slopes)),
        }
    }))?;
    turns.sort();
    let (rows, lines): (Vec<Turn>, Vec<usize>) = turns.into_iter().unzip();
    let bytes = entries::write(groomers, slopes, &rows);
    let bytes = bytes.map_err(|refusal| whole(input, &lines, refusal))?;
    Ok(Made { bytes, lines })
}

/// The greatest value of a column, from 1 to the limit.
pub fn greatest<const N: usize>(lines: &[Line<N>], column: usize, limit: usize) -> u64 {
    let values = lines.iter().map(|line| line.values[column]);
    values.max().unwrap_or(0).clamp(1, limit as u64)
}

/// What the library refuses in a line, in words.
fn fault(input: &Input, line: &Line<7>, refusal: Refusal, groomers: u32, slopes: u32) -> Fault {
    let [slope, groomer, start, length, worth, driver, _] = line.values;
    let words = match refusal {
        Refusal::BadSlope => format!("slope {slope}, where slopes are 1 to {slopes}"),
        Refusal::BadGroomer => format!("groomer {groomer}, where groomers are 1 to {groomers}"),
        Refusal::BadTime => bad_time("turn", start, length),
        Refusal::BadWorth => bad_worth(worth),
        Refusal::BadDriver => format!("driver {driver}, where drivers are 1 to {MOST_DRIVER}"),
        other => other.to_string(),
    };
    Fault {
        refusal: Some(refusal),
        ..Fault::in_line(input, line.number, words)
    }
}

pub fn bad_time(what: &str, start: u64, length: u64) -> String {
    if length == 0 {
        return format!("the {what} lasts no minute");
    }
    let end = start.saturating_add(length);
    format!("the {what} starts in minute {start}, lasts {length} and ends at {end}, after 960")
}

pub fn bad_worth(worth: u64) -> String {
    format!("worth {worth}, where a worth is 1 to 60000")
}

/// What the library refuses though each line by itself is right.
fn whole(input: &Input, lines: &[usize], refusal: Refusal) -> Failure {
    let words = format!(
        "{} turns, where a sheet has at most {MOST_TURNS}",
        lines.len()
    );
    let mut lines = lines.to_vec();
    lines.sort_unstable();
    Failure::from(Fault {
        file: Some(input.name.clone()),
        line: lines.get(MOST_TURNS).copied(),
        refusal: Some(refusal),
        words,
    })
}

/// Lines that [`from_csv`] takes, with the turns' numbers first if they are
/// wanted, and the starts as times of day if the shift's first is given.
pub fn to_csv(sheet: &Sheet, from: Option<u64>, numbered: bool) -> String {
    let mut text = String::from(if numbered { "turn," } else { "" });
    text.push_str("slope,groomer,start,length,worth,driver\n");
    for (number, turn) in sheet.turns.iter().enumerate() {
        if numbered {
            let _ = write!(text, "{number},");
        }
        let start = clock::shown(turn.start, from);
        let _ = write!(
            text,
            "{},{},{start},{},{},",
            turn.slope, turn.groomer, turn.length, turn.worth
        );
        if turn.driver != 0 {
            let _ = write!(text, "{}", turn.driver);
        }
        text.push('\n');
    }
    text
}

impl Sheet {
    /// The counts, as a line.
    pub fn counts(&self) -> String {
        let turns = self.turns.len();
        format!(
            "groomers {} slopes {} turns {turns}",
            self.groomers, self.slopes
        )
    }

    /// The counts, and the turns if they are wanted.
    pub fn json(&self, turns: bool) -> Vec<(&'static str, Json)> {
        let numbered = self.turns.iter().enumerate();
        let turns = if turns {
            Json::list(numbered.map(|(number, turn)| turn.json(number)))
        } else {
            self.turns.len().into()
        };
        vec![
            ("groomers", self.groomers.into()),
            ("slopes", self.slopes.into()),
            ("turns", turns),
        ]
    }
}
