//! The words behind a command's name.

use crate::commands::Command;
use crate::failure::Failure;

/// An option: its name, what its value is called (none for a switch), and what
/// it does.
pub struct Opt {
    pub name: &'static str,
    pub value: Option<&'static str>,
    pub words: &'static str,
}

/// Options of every command.
pub const COMMON: [Opt; 3] = [
    Opt {
        name: "-o",
        value: Some("FILE"),
        words: "write to this file, not to standard output",
    },
    Opt {
        name: "--json",
        value: None,
        words: "give the answer as JSON",
    },
    Opt {
        name: "--help",
        value: None,
        words: "print this text",
    },
];

/// What was asked for.
pub struct Args {
    command: &'static str,
    files: Vec<String>,
    options: Vec<(&'static str, String)>,
}

impl Args {
    /// Sorts the words into files and options, as the command takes them.
    pub fn read(command: &Command, words: &[String]) -> Result<Args, Failure> {
        let mut args = Args {
            command: command.name,
            files: Vec::new(),
            options: Vec::new(),
        };
        let mut words = words.iter();
        while let Some(word) = words.next() {
            if word == "-" || !word.starts_with('-') {
                args.files.push(word.clone());
                continue;
            }
            let (name, given) = match word.split_once('=') {
                Some((name, value)) => (name, Some(value.to_owned())),
                None => (word.as_str(), None),
            };
            let option = known(command, name)?;
            let value = match (option.value, given) {
                (None, None) => String::new(),
                (None, Some(_)) => return Err(args.wrong(&format!("{name} takes no value"))),
                (Some(_), Some(value)) => value,
                (Some(what), None) => match words.next() {
                    Some(value) => value.clone(),
                    None => return Err(args.wrong(&format!("{name} {what}: {what} is missing"))),
                },
            };
            if args.has(option.name) {
                return Err(args.wrong(&format!("{name} is given twice")));
            }
            args.options.push((option.name, value));
        }
        args.judged(command)
    }

    fn judged(self, command: &Command) -> Result<Args, Failure> {
        let wanted = command.files;
        let needed = wanted.iter().filter(|file| !file.starts_with('['));
        if self.files.len() < needed.count() {
            let missing = wanted[self.files.len()];
            return Err(self.wrong(&format!("{missing} is missing")));
        }
        if let Some(word) = self.files.get(wanted.len()) {
            return Err(self.wrong(&format!("{word} is one file too many")));
        }
        let inputs = self
            .files
            .iter()
            .map(String::as_str)
            .chain(self.value("--delays"))
            .chain(self.value("--prices"));
        if inputs.filter(|name| *name == "-").count() > 1 {
            return Err(self.wrong("only one of the files can be standard input"));
        }
        Ok(self)
    }

    /// What is wrong with the words of the command.
    pub fn wrong(&self, words: &str) -> Failure {
        let name = self.command;
        Failure::words(&format!("{name}: {words}; see slopeboard {name} --help"))
    }

    /// The name of the file at this place.
    pub fn file(&self, place: usize) -> &str {
        &self.files[place]
    }

    /// The name of the file at this place, if it is not left out.
    pub fn optional_file(&self, place: usize) -> Option<&str> {
        self.files.get(place).map(String::as_str)
    }

    pub fn has(&self, option: &str) -> bool {
        self.value(option).is_some()
    }

    pub fn value(&self, option: &str) -> Option<&str> {
        let found = self.options.iter().find(|(name, _)| *name == option);
        found.map(|(_, value)| value.as_str())
    }

    /// The number of an option, if it is given.
    pub fn number(&self, option: &str) -> Result<Option<u64>, Failure> {
        let Some(text) = self.value(option) else {
            return Ok(None);
        };
        match text.parse() {
            Ok(number) if !text.starts_with('+') => Ok(Some(number)),
            _ => Err(self.wrong(&format!(
                "{option}: {text} is no number from 0 to {}",
                u64::MAX
            ))),
        }
    }

    /// The rounds of a command, if they are given.
    pub fn rounds(&self) -> Result<Option<u32>, Failure> {
        let Some(number) = self.number("--rounds")? else {
            return Ok(None);
        };
        let rounds = u32::try_from(number);
        let words = || format!("--rounds: {number} is no number from 0 to {}", u32::MAX);
        rounds.map(Some).map_err(|_| self.wrong(&words()))
    }

    /// The number of an option that must be given.
    pub fn needed(&self, option: &str) -> Result<u64, Failure> {
        let number = self.number(option)?;
        number.ok_or_else(|| self.wrong(&format!("{option} N is missing")))
    }
}

fn known(command: &Command, name: &str) -> Result<&'static Opt, Failure> {
    let mut options = command.options.iter().chain(&COMMON);
    options.find(|option| option.name == name).ok_or_else(|| {
        let command = command.name;
        Failure::words(&format!(
            "{command}: there is no option {name}; see slopeboard {command} --help"
        ))
    })
}

/// A number for a call that takes 32 bits. What is greater is out of every
/// range, as the greatest number of 32 bits is.
pub fn word(number: u64) -> u32 {
    u32::try_from(number).unwrap_or(u32::MAX)
}
