//! The texts of `--help`.

use crate::args::{Opt, COMMON};
use crate::commands::{Command, COMMANDS};
use std::fmt::Write;

/// Of the whole program.
pub fn whole() -> String {
    let mut text = String::from(
        "\
slopeboard: shift sheets, boards and charging halls, at a desk

usage: slopeboard COMMAND [FILES] [OPTIONS]

",
    );
    for command in COMMANDS {
        let _ = writeln!(text, "  {:<15}{}", command.name, command.about);
    }
    text.push_str(
        "
A file '-' is standard input. What a command makes goes to the file of -o, with
its answer on standard output; without -o it goes to standard output, with the
answer on standard error. The status is 0, or 1 if something is wrong; standard
error then says what, with the library's number where the library refused.

  slopeboard COMMAND --help    says what the command takes and prints
  slopeboard --version         prints the version of the library's interface

From a CSV file to a picture:

  slopeboard sheet shift.csv --from 17:00 -o shift.sheet
  slopeboard plan shift.sheet -o shift.board
  slopeboard picture shift.sheet shift.board --from 17:00 -o board.svg
",
    );
    text
}

/// Of one command.
pub fn of(command: &Command) -> String {
    let mut text = format!("slopeboard {}: {}\n\n", command.name, command.about);
    let mut usage = format!("usage: slopeboard {}", command.name);
    for file in command.files {
        let _ = write!(usage, " {file}");
    }
    let _ = writeln!(text, "{usage} [OPTIONS]\n\n{}\n\noptions:", command.help);
    for option in command.options.iter().chain(&COMMON) {
        let _ = writeln!(text, "  {:<20}{}", called(option), option.words);
    }
    let _ = writeln!(text, "\nexample:\n  {}", command.example);
    text
}

fn called(option: &Opt) -> String {
    match option.value {
        Some(value) => format!("{} {value}", option.name),
        None => option.name.to_owned(),
    }
}
