//! Charging sheets: made of the lines of a CSV file, and as such lines again.
//! No entry of the library writes or reads them, but the one that plans a hall
//! judges every byte of them.

use crate::clock;
use crate::csv::{self, needed, optional, Column, Kind, Line};
use crate::entries;
use crate::failure::{gather, hall_counts, Failure, Fault, Role};
use crate::files::Input;
use crate::json::Json;
use crate::locate;
use crate::sheet::{bad_time, bad_worth, greatest};
use slopeboard::{Refusal, MOST_TURNS, MOST_UNITS, MOST_VEHICLES};
use std::fmt::Write;

const COLUMNS: [Column; 6] = [
    needed("vehicle", Kind::Number),
    needed("draw", Kind::Number),
    needed("start", Kind::Start),
    needed("length", Kind::Length),
    needed("worth", Kind::Number),
    optional("window"),
];

const MARK: &[u8; 3] = b"GRE";
const HEADER: usize = 7;
/// How many bytes each field of a record takes.
const WIDTHS: [usize; 5] = [1, 1, 2, 2, 2];

/// Vehicle, draw, start, length and worth, in the order of a record.
#[derive(Clone, Copy, Debug, PartialEq, Eq)]
pub struct Window {
    pub vehicle: u16,
    pub draw: u16,
    pub start: u16,
    pub length: u16,
    pub worth: u16,
}

/// What a charging sheet says.
#[derive(Debug)]
pub struct Hall {
    pub units: u8,
    pub vehicles: u8,
    pub windows: Vec<Window>,
}

impl Window {
    fn from_row(row: [u16; 5]) -> Window {
        let [vehicle, draw, start, length, worth] = row;
        Window {
            vehicle,
            draw,
            start,
            length,
            worth,
        }
    }

    pub fn end(&self) -> u16 {
        self.start + self.length
    }

    fn json(&self, number: usize) -> Json {
        Json::Object(vec![
            ("window", number.into()),
            ("vehicle", self.vehicle.into()),
            ("draw", self.draw.into()),
            ("start", self.start.into()),
            ("length", self.length.into()),
            ("worth", self.worth.into()),
        ])
    }
}

/// Makes a charging sheet of the lines of a file, in their order. Counts that are
/// not given are the greatest numbers that the lines name, within the limits.
pub fn from_csv(
    input: &Input,
    from: u64,
    units: Option<u64>,
    vehicles: Option<u64>,
) -> Result<Vec<u8>, Failure> {
    let lines = csv::read(input, &COLUMNS, from)?;
    let units = units.unwrap_or_else(|| greatest(&lines, 1, MOST_UNITS));
    let vehicles = vehicles.unwrap_or_else(|| greatest(&lines, 0, MOST_VEHICLES));
    if let Err(refusal) = entries::charge(&bytes(units, vehicles, &[]), 0) {
        return Err(Failure::from(Fault {
            file: None,
            line: None,
            refusal: Some(refusal),
            words: hall_counts(),
        }));
    }
    gather(lines.iter().map(|line| {
        let alone = bytes(units, vehicles, std::slice::from_ref(line));
        let judged = entries::charge(&alone, 1);
        judged.map_err(|refusal| fault(input, line, refusal, units, vehicles))
    }))?;
    let sheet = bytes(units, vehicles, &lines);
    match entries::charge(&sheet, MOST_TURNS) {
        Ok(_) => Ok(sheet),
        Err(refusal) => Err(Failure::from(Fault {
            file: Some(input.name.clone()),
            line: lines.get(MOST_TURNS).map(|line| line.number),
            refusal: Some(refusal),
            words: too_many(lines.len()),
        })),
    }
}

fn too_many(windows: usize) -> String {
    format!("{windows} windows, where a charging sheet has at most {MOST_TURNS}")
}

/// What the library refuses in a line, in words.
fn fault(input: &Input, line: &Line<6>, refusal: Refusal, units: u64, vehicles: u64) -> Fault {
    let [vehicle, draw, start, length, worth, _] = line.values;
    let words = match refusal {
        Refusal::BadSlope => format!("vehicle {vehicle}, where vehicles are 1 to {vehicles}"),
        Refusal::BadDraw => format!("draw {draw}, where the hall has {units} units"),
        Refusal::BadTime => bad_time("window", start, length),
        Refusal::BadWorth => bad_worth(worth),
        other => other.to_string(),
    };
    Fault {
        refusal: Some(refusal),
        ..Fault::in_line(input, line.number, words)
    }
}

/// The bytes of a charging sheet: in each record the fields that differ from the
/// record before, in the first all. A number too large for its bytes becomes the
/// greatest that they hold, which is refused as it would be.
fn bytes(units: u64, vehicles: u64, lines: &[Line<6>]) -> Vec<u8> {
    let mut bytes = MARK.to_vec();
    put(&mut bytes, units, 1);
    put(&mut bytes, vehicles, 1);
    put(&mut bytes, lines.len() as u64, 2);
    let mut before = None;
    for line in lines {
        let given = |field: &usize| {
            before.is_none_or(|last: &Line<6>| last.values[*field] != line.values[*field])
        };
        let fields: Vec<usize> = (0..WIDTHS.len()).filter(given).collect();
        bytes.push(fields.iter().map(|field| 1 << field).sum());
        for field in fields {
            put(&mut bytes, line.values[field], WIDTHS[field]);
        }
        before = Some(line);
    }
    bytes
}

fn put(bytes: &mut Vec<u8>, value: u64, width: usize) {
    let most = (1 << (8 * width)) - 1;
    let value = value.min(most).to_be_bytes();
    bytes.extend_from_slice(&value[value.len() - width..]);
}

/// Reads a charging sheet that the library takes.
pub fn read(input: &Input) -> Result<Hall, Failure> {
    let sheet = &input.bytes;
    let refused = |sheet: &[u8]| entries::charge(sheet, MOST_TURNS).err();
    if let Some(refusal) = refused(sheet) {
        let window = locate::record(sheet, refusal, refused);
        return Err(Failure::refused(input, Role::Hall, refusal).at("window", window));
    }
    let count = u16::from_be_bytes([sheet[5], sheet[6]]);
    let mut rest = sheet[HEADER..].iter().map(|byte| u16::from(*byte));
    let mut next = || rest.next().unwrap_or(0);
    let mut row = [0; 5];
    let mut windows = Vec::new();
    for _ in 0..count {
        let map = next();
        for (field, value) in row.iter_mut().enumerate() {
            if map >> field & 1 == 1 {
                let high = if WIDTHS[field] == 2 { next() << 8 } else { 0 };
                *value = high + next();
            }
        }
        windows.push(Window::from_row(row));
    }
    Ok(Hall {
        units: sheet[3],
        vehicles: sheet[4],
        windows,
    })
}

/// Lines that [`from_csv`] takes.
pub fn to_csv(hall: &Hall, from: Option<u64>, numbered: bool) -> String {
    let mut text = String::from(if numbered { "window," } else { "" });
    text.push_str("vehicle,draw,start,length,worth\n");
    for (number, window) in hall.windows.iter().enumerate() {
        if numbered {
            let _ = write!(text, "{number},");
        }
        let Window {
            vehicle,
            draw,
            length,
            worth,
            ..
        } = window;
        let start = clock::shown(window.start, from);
        let _ = writeln!(text, "{vehicle},{draw},{start},{length},{worth}");
    }
    text
}

impl Hall {
    /// The counts, as a line.
    pub fn counts(&self) -> String {
        let windows = self.windows.len();
        format!(
            "units {} vehicles {} windows {windows}",
            self.units, self.vehicles
        )
    }

    /// The counts, and the windows if they are wanted.
    pub fn json(&self, windows: bool) -> Vec<(&'static str, Json)> {
        let numbered = self.windows.iter().enumerate();
        let windows = if windows {
            Json::list(numbered.map(|(number, window)| window.json(number)))
        } else {
            self.windows.len().into()
        };
        vec![
            ("units", self.units.into()),
            ("vehicles", self.vehicles.into()),
            ("windows", windows),
        ]
    }
}
