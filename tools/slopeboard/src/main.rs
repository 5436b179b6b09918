//! The workbench: a program for a desk over the slope board library. It makes
//! sheets of CSV files, shows sheets and boards as text, hands files to each
//! entry of the library, and makes pictures of boards and halls.
//!
//! All planning and judging is the library's. What it refuses is said in words
//! with its number, and the program ends with status 1.

mod args;
mod board;
mod chart;
mod clock;
mod commands;
mod csv;
mod entries;
mod failure;
mod files;
mod hall;
mod help;
mod json;
mod locate;
mod outcome;
mod picture;
mod prices;
mod sheet;
mod svg;
mod watch;

use args::Args;
use failure::Failure;
use std::env;
use std::process::ExitCode;

fn main() -> ExitCode {
    let mut words = Vec::new();
    for word in env::args_os().skip(1) {
        match word.into_string() {
            Ok(word) => words.push(word),
            Err(word) => {
                eprintln!("slopeboard: {} is not text", word.display());
                return ExitCode::FAILURE;
            }
        }
    }
    match run(&words) {
        Ok(()) => ExitCode::SUCCESS,
        Err(failure) => {
            let json = words.iter().any(|word| word == "--json");
            files::complain(&failure.said(json));
            ExitCode::FAILURE
        }
    }
}

fn run(words: &[String]) -> Result<(), Failure> {
    let Some((name, rest)) = words.split_first() else {
        return Err(Failure::words("no command; see slopeboard --help"));
    };
    if name == "--help" || name == "-h" {
        return files::print(help::whole().as_bytes());
    }
    if name == "--version" {
        let line = format!("slopeboard, interface {}\n", slopeboard::VERSION);
        return files::print(line.as_bytes());
    }
    let command = commands::named(name)?;
    if rest.iter().any(|word| word == "--help" || word == "-h") {
        return files::print(help::of(command).as_bytes());
    }
    let args = Args::read(command, rest)?;
    let outcome = (command.run)(&args)?;
    outcome.emit(&args)
}
