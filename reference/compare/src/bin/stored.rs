//! Runs stored cases of playing a board, of limits and of better boards through
//! the library: the cases on standard input, a line for each on standard output.
//! How a case is laid out, and what its line says, stands at the head of
//! `reference/src/bin/corpus.rs`.
//!
//! The program `corpus` of the library's own tests has the other entries. It
//! lends no list of structs.

use std::io::{self, Read};
use std::process::ExitCode;

use slopeboard::{Refusal, Standing};

/// What each number that is lent holds before the call.
const BEFORE: u16 = 0xA5A5;

/// The cases that are left.
struct Cases<'a>(&'a [u8]);

impl<'a> Cases<'a> {
    fn bytes(&mut self, count: usize) -> Option<&'a [u8]> {
        let (front, rest) = self.0.split_at_checked(count)?;
        self.0 = rest;
        Some(front)
    }

    /// A number of this many bytes.
    fn number(&mut self, bytes: usize) -> Option<usize> {
        let digits = self.bytes(bytes)?.iter();
        Some(digits.fold(0, |number, &byte| 256 * number + usize::from(byte)))
    }

    /// All that is left, as numbers of two bytes.
    fn numbers(&mut self) -> Vec<u16> {
        std::iter::from_fn(|| self.number(2))
            .map(|number| number as u16)
            .collect()
    }
}

/// Runs the next case; `None` if it is not whole or of another entry.
fn run(cases: &mut Cases) -> Option<String> {
    let [entry, name] = [cases.number(1)?, cases.number(1)?];
    let [numbers, bytes, front, rest] = [(); 4].map(|()| cases.number(2));
    let name = cases.bytes(name)?;
    let (front, rest) = (cases.bytes(front?)?, cases.bytes(rest?)?);
    let (mut lent, mut out) = (vec![BEFORE; numbers?], vec![0xA5; bytes?]);
    // what is asked begins with a number of eight bytes: the most rounds
    let rounds = || Cases(front).number(8).map(|rounds| rounds as u32);
    let prices = || Cases(rest).numbers();
    let answer = match entry {
        16 => play(front, Cases(rest), &mut lent)?,
        18 => slopeboard::limit(front, &prices()).map(|limit| vec![limit]),
        19 => slopeboard::refine(rest, rounds()?, &mut out, &mut lent)
            .map(|found| vec![found.bytes as u32, found.worth, found.limit, found.rounds]),
        20 => slopeboard::charge_limit(front, &prices()).map(|limit| vec![limit]),
        21 => slopeboard::charge_refine(rest, rounds()?, &mut out, &mut lent)
            .map(|found| vec![found.worth, found.limit, found.rounds]),
        _ => return None,
    };
    let values = match entry {
        19 => 4,
        21 => 3,
        _ => 1,
    };
    let refusal = answer.as_ref().err().map_or(0, |refusal| refusal.number());
    let values = words(&answer.unwrap_or_else(|_| vec![0; values]));
    let bytes: String = out.iter().map(|byte| format!(" {byte:02x}")).collect();
    let name = String::from_utf8_lossy(name);
    Some(format!(
        "{name} {refusal}{values} |{} |{bytes}",
        words(&lent)
    ))
}

/// Numbers, each with a space before it.
fn words<T: ToString>(numbers: &[T]) -> String {
    numbers
        .iter()
        .map(|number| format!(" {}", number.to_string()))
        .collect()
}

/// Plays a board with delays; the list is lent four numbers a groomer.
fn play(sheet: &[u8], mut rest: Cases, lent: &mut [u16]) -> Option<Result<Vec<u32>, Refusal>> {
    let board = rest.number(2)?;
    let board = rest.bytes(board)?;
    let before = Standing {
        working: BEFORE,
        driving: BEFORE,
        standing: BEFORE,
        turn: BEFORE,
    };
    let mut list = vec![before; lent.len() / 4];
    let answer = slopeboard::play(sheet, board, &rest.numbers(), &mut list);
    for (four, place) in lent.chunks_mut(4).zip(&list) {
        four.copy_from_slice(&[place.working, place.driving, place.standing, place.turn]);
    }
    Some(answer.map(|groomers| vec![groomers as u32]))
}

fn main() -> ExitCode {
    let mut input = Vec::new();
    if let Err(error) = io::stdin().read_to_end(&mut input) {
        eprintln!("standard input: {error}");
        return ExitCode::FAILURE;
    }
    let mut cases = Cases(&input);
    while !cases.0.is_empty() {
        let Some(line) = run(&mut cases) else {
            eprintln!("a case is not whole, or not of these entries");
            return ExitCode::FAILURE;
        };
        println!("{line}");
    }
    ExitCode::SUCCESS
}
