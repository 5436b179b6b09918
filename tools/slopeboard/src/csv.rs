//! Lines of values that a comma, a semicolon or a tab separates, under a header
//! line that names the columns, in any order.

use crate::clock;
use crate::failure::{gather, Failure, Fault};
use crate::files::Input;

/// How a value is read.
#[derive(Clone, Copy, PartialEq, Eq)]
pub enum Kind {
    Number,
    Start,
    Length,
}

/// A column that a file has, or may have: its values are then 0 where they
/// are left out.
pub struct Column {
    pub name: &'static str,
    pub kind: Kind,
    pub needed: bool,
}

pub const fn needed(name: &'static str, kind: Kind) -> Column {
    Column {
        name,
        kind,
        needed: true,
    }
}

pub const fn optional(name: &'static str) -> Column {
    Column {
        name,
        kind: Kind::Number,
        needed: false,
    }
}

/// The values of a line, in the order of the columns asked for.
#[derive(Clone, Debug)]
pub struct Line<const N: usize> {
    pub number: usize,
    pub values: [u64; N],
}

/// Where each column asked for stands in the file.
struct Layout<const N: usize> {
    separator: char,
    width: usize,
    places: [Option<usize>; N],
}

/// Reads the lines of a file. The shift's first minute is `from`.
pub fn read<const N: usize>(
    input: &Input,
    columns: &[Column; N],
    from: u64,
) -> Result<Vec<Line<N>>, Failure> {
    let text = text(input)?;
    let mut lines = (1..).zip(text.lines()).filter(|(_, line)| !is_blank(line));
    let Some((number, header)) = lines.next() else {
        let words = format!("no header line, such as {}", names(columns).join(","));
        return Err(Failure::of_file(&input.name, &words));
    };
    let layout = layout(header, columns).map_err(|words| Fault::in_line(input, number, words))?;
    gather(lines.map(|(number, line)| {
        let values = values(line, columns, &layout, from);
        let values = values.map_err(|words| Fault::in_line(input, number, words))?;
        Ok(Line { number, values })
    }))
}

/// The bytes of a file as text.
pub fn text(input: &Input) -> Result<&str, Failure> {
    let text = std::str::from_utf8(&input.bytes).map_err(|error| {
        let before = &input.bytes[..error.valid_up_to()];
        let line = 1 + before.iter().filter(|byte| **byte == b'\n').count();
        Fault::in_line(input, line, String::from("this is not text"))
    })?;
    Ok(text.strip_prefix('\u{feff}').unwrap_or(text))
}

/// A spreadsheet writes an empty row as separators.
fn is_blank(line: &str) -> bool {
    line.chars()
        .all(|sign| sign.is_whitespace() || is_separator(sign))
}

fn is_separator(sign: char) -> bool {
    matches!(sign, ',' | ';' | '\t')
}

fn names(columns: &[Column]) -> Vec<&'static str> {
    columns.iter().map(|column| column.name).collect()
}

fn fields(line: &str, separator: char) -> Vec<&str> {
    line.split(separator).map(unquoted).collect()
}

fn unquoted(field: &str) -> &str {
    let field = field.trim();
    let inner = field
        .strip_prefix('"')
        .and_then(|rest| rest.strip_suffix('"'));
    inner.map_or(field, str::trim)
}

fn layout<const N: usize>(header: &str, columns: &[Column; N]) -> Result<Layout<N>, String> {
    let separator = header
        .chars()
        .find(|sign| is_separator(*sign))
        .unwrap_or(',');
    let mut places = [None; N];
    let found = fields(header, separator);
    for (place, field) in found.iter().enumerate() {
        let column = columns
            .iter()
            .position(|column| column.name.eq_ignore_ascii_case(field));
        let Some(column) = column else {
            let known = names(columns).join(", ");
            return Err(format!(
                "the header line names '{field}', which is none of {known}"
            ));
        };
        if places[column].replace(place).is_some() {
            return Err(format!("the header line names {field} twice"));
        }
    }
    for (column, place) in columns.iter().zip(places) {
        if column.needed && place.is_none() {
            return Err(format!("the header line does not name {}", column.name));
        }
    }
    Ok(Layout {
        separator,
        width: found.len(),
        places,
    })
}

fn values<const N: usize>(
    line: &str,
    columns: &[Column; N],
    layout: &Layout<N>,
    from: u64,
) -> Result<[u64; N], String> {
    let fields = fields(line, layout.separator);
    if fields.len() > layout.width {
        return Err(format!(
            "{} values, where the header line has {}",
            fields.len(),
            layout.width
        ));
    }
    let mut values = [0; N];
    for ((column, place), value) in columns.iter().zip(layout.places).zip(&mut values) {
        let field = place
            .and_then(|place| fields.get(place))
            .copied()
            .unwrap_or("");
        if field.is_empty() && column.needed {
            return Err(format!("nothing stands under {}", column.name));
        }
        if !field.is_empty() {
            *value = read_value(field, column, from)?;
        }
    }
    Ok(values)
}

fn read_value(field: &str, column: &Column, from: u64) -> Result<u64, String> {
    let (value, wanted) = match column.kind {
        Kind::Number => (clock::number(field), "a number"),
        Kind::Start => (
            clock::start(field, from),
            "a minute such as 90 or a time such as 19:30",
        ),
        Kind::Length => (
            clock::length(field),
            "minutes such as 90 or hours such as 1:30",
        ),
    };
    value.ok_or_else(|| format!("'{field}' under {} is not {wanted}", column.name))
}
