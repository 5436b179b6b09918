//! Boards and choice maps, and their text.

use crate::failure::Failure;
use crate::files::Input;
use crate::json::Json;
use slopeboard::Sums;
use std::fmt::Write;

/// What a board says.
#[derive(Debug)]
pub struct Board {
    pub turns: usize,
    pub tally: u32,
    pub worth: u32,
    pub chosen: Vec<usize>,
    /// Turn and amount of each.
    pub steps: Vec<(u16, u16)>,
}

/// Reads a board that opens.
pub fn read(bytes: &[u8]) -> Board {
    let number = |place: usize| {
        u32::from_be_bytes([
            bytes[place],
            bytes[place + 1],
            bytes[place + 2],
            bytes[place + 3],
        ])
    };
    let turns = usize::from(u16::from_be_bytes([bytes[3], bytes[4]]));
    let steps = slopeboard::steps(bytes).chunks_exact(4);
    Board {
        turns,
        tally: number(7),
        worth: number(11),
        chosen: (0..turns)
            .filter(|turn| slopeboard::is_chosen(bytes, *turn))
            .collect(),
        steps: steps
            .map(|step| {
                (
                    u16::from_be_bytes([step[0], step[1]]),
                    u16::from_be_bytes([step[2], step[3]]),
                )
            })
            .collect(),
    }
}

/// The numbers whose bits are 1 in a choice map.
pub fn chosen(map: &[u8], count: usize) -> Vec<usize> {
    let is_chosen = |number: &usize| map[number / 8] >> (number % 8) & 1 == 1;
    (0..count).filter(is_chosen).collect()
}

/// Reads a choice map of so many turns or windows.
pub fn read_map(input: &Input, count: usize) -> Result<Vec<usize>, Failure> {
    let map = &input.bytes;
    let wanted = slopeboard::map_bytes(count);
    if map.len() != wanted {
        let words = format!(
            "it has {} bytes, and a choice map of {count} has {wanted}",
            map.len()
        );
        return Err(Failure::of_file(&input.name, &words));
    }
    match chosen(map, 8 * wanted).pop() {
        Some(last) if last >= count => {
            let words = format!("it chooses number {last}, and the numbers end before {count}");
            Err(Failure::of_file(&input.name, &words))
        }
        _ => Ok(chosen(map, count)),
    }
}

/// How many of the turns, or windows, are chosen, and which: as a line.
pub fn choice_line(chosen: &[usize], count: usize, what: &str) -> String {
    let mut line = format!("{} of {count} {what} chosen", chosen.len());
    for (place, number) in chosen.iter().enumerate() {
        let _ = write!(line, "{}{number}", if place == 0 { ": " } else { " " });
    }
    line.push('\n');
    line
}

pub fn sums_line(sums: &Sums) -> String {
    format!(
        "worth {} tally {} ceiling {}\n",
        sums.worth, sums.tally, sums.ceiling
    )
}

pub fn sums_json(sums: &Sums) -> Vec<(&'static str, Json)> {
    vec![
        ("worth", sums.worth.into()),
        ("tally", sums.tally.into()),
        ("ceiling", sums.ceiling.into()),
    ]
}

impl Board {
    pub fn text(&self) -> String {
        let steps = self.steps.len();
        let mut text = format!(
            "turns {} steps {steps} worth {} tally {}\n",
            self.turns, self.worth, self.tally
        );
        text.push_str(&choice_line(&self.chosen, self.turns, "turns"));
        for (turn, amount) in &self.steps {
            let _ = writeln!(text, "step on turn {turn} for {amount}");
        }
        text
    }

    pub fn json(&self) -> Vec<(&'static str, Json)> {
        let step = |(turn, amount): &(u16, u16)| {
            Json::Object(vec![("turn", (*turn).into()), ("amount", (*amount).into())])
        };
        vec![
            ("turns", self.turns.into()),
            ("worth", self.worth.into()),
            ("tally", self.tally.into()),
            ("chosen", Json::list(self.chosen.iter().copied())),
            ("steps", Json::list(self.steps.iter().map(step))),
        ]
    }
}
