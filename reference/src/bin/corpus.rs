//! Writes the files `stdin` and `stdout` into a folder: cases for a test program
//! without a heap, and the lines that it must print, as the naive version has
//! them. The cases are those that the description names, and those with two
//! causes of refusal at once; the program `compare` has all others.
//!
//! ```text
//! cargo run --release -p slopeboard-reference --bin corpus -- crates/corpus
//! cargo run --release -p slopeboard-reference --bin corpus -- tests/play play
//! cargo run --release -p slopeboard-reference --bin corpus -- tests/prices prices
//! ```
//!
//! A case is ten bytes, a name and an input of two parts. Byte 0 is the entry's
//! number, byte 1 the length of the name; then come, two bytes each and high byte
//! first, the numbers lent, the bytes lent, and the lengths of the two parts.
//!
//! | entry | first part | second part |
//! |---|---|---|
//! | 1 read, 3 plan, 6 list, 9 assign, 10 short, 11 best, 14 keep | the sheet | |
//! | 2 write | what is asked | the table, two bytes a number |
//! | 4 open | the board | |
//! | 5 check | the sheet | the board |
//! | 12 improve | what is asked | the sheet |
//! | 13 draw | what is asked | |
//! | 15 restore | the kept form | |
//! | 16 play | the sheet | the length of the board, two bytes, the board, the delays, two bytes each |
//! | 17 charge | the charging sheet | |
//! | 18 limit, 20 charge_limit | the sheet | the prices, two bytes each |
//! | 19 refine, 21 charge_refine | what is asked | the sheet |
//!
//! What is asked is a number of eight bytes, the seed, the most visits or the most
//! rounds, and three of four bytes, groomers, slopes and turns; an entry that wants
//! fewer leaves the others alone.
//!
//! Before the call each lent number is A5A5 and each lent byte A5. A line has the
//! name, the refusal, the values returned (0 on a refusal), and behind bars the
//! lent numbers and the lent bytes as they are after the call. `play` is lent four
//! numbers a groomer. The line of `open` has the refusals of opening and of
//! counting, the number of chosen turns and, behind a bar of their own, the bytes
//! of the steps; its lent numbers become 1 for a chosen turn and 0 for another.

use std::path::Path;
use std::process::ExitCode;
use std::{env, fs, io};

#[path = "corpus/entries.rs"]
mod entries;
#[path = "corpus/named.rs"]
mod named;
#[path = "corpus/orders.rs"]
mod orders;
#[path = "corpus/play.rs"]
mod play;

use entries::Entry;

/// What a case hands to its entry.
#[derive(Clone, Copy, Default)]
pub struct Input<'a> {
    /// Numbers and bytes lent.
    pub lent: [usize; 2],
    pub front: &'a [u8],
    pub rest: &'a [u8],
}

/// The two files as they grow.
#[derive(Default)]
pub struct Corpus {
    input: Vec<u8>,
    lines: String,
}

impl Corpus {
    /// Adds a case and gives its refusal.
    pub fn add(&mut self, entry: Entry, name: &str, input: Input) -> u8 {
        let (mut numbers, mut bytes) = (vec![0xA5A5; input.lent[0]], vec![0xA5; input.lent[1]]);
        let result = entries::answer(entry, [input.front, input.rest], &mut numbers, &mut bytes);
        let refusal = result.as_ref().err().copied().unwrap_or(0);
        let values = words(result.unwrap_or_else(|_| vec![0; entry.2]));
        let line = format!(" {refusal}{values}{}", lent(&numbers, &bytes));
        self.push(entry, name, input, &line);
        refusal
    }

    /// Adds a case whose refusal the description says, 0 if there is none.
    pub fn add_due(&mut self, due: u8, entry: Entry, name: &str, input: Input) {
        assert_eq!(self.add(entry, name, input), due, "{} {name}", entry.1);
    }

    /// Adds a case that is lent as much as it asks for. Where it is taken, the same
    /// with a place less of either kind comes too, which is 11.
    pub fn add_exact(&mut self, due: u8, entry: Entry, name: &str, input: Input) {
        if due != 0 {
            return self.add_due(due, entry, name, input);
        }
        self.add_due(0, entry, &format!("{name}, exact room"), input);
        for (kind, place) in [(0, "number"), (1, "byte")] {
            if input.lent[kind] > 0 {
                let mut less = input;
                less.lent[kind] -= 1;
                self.add_due(11, entry, &format!("{name}, a {place} too few"), less);
            }
        }
    }

    /// Adds a case with what its line has after the name.
    pub fn push(&mut self, Entry(number, entry, _): Entry, name: &str, input: Input, line: &str) {
        let name = format!("{entry} {name}:");
        let len = u8::try_from(name.len()).expect("a name fits a byte");
        self.input.extend([number, len]);
        let [numbers, bytes] = input.lent;
        for number in [numbers, bytes, input.front.len(), input.rest.len()] {
            let number = u16::try_from(number).expect("it fits two bytes");
            self.input.extend(number.to_be_bytes());
        }
        for part in [name.as_bytes(), input.front, input.rest] {
            self.input.extend(part);
        }
        self.lines.push_str(&format!("{name}{line}\n"));
    }

    fn save(&self, folder: &Path) -> io::Result<()> {
        fs::create_dir_all(folder)?;
        fs::write(folder.join("stdin"), &self.input)?;
        fs::write(folder.join("stdout"), &self.lines)
    }
}

/// Values, each with a space before it.
pub fn words(values: impl IntoIterator<Item = u64>) -> String {
    values
        .into_iter()
        .map(|value| format!(" {value}"))
        .collect()
}

/// Bytes behind a bar.
pub fn hex(bytes: &[u8]) -> String {
    let digits = bytes.iter().map(|byte| format!(" {byte:02x}"));
    format!(" |{}", digits.collect::<String>())
}

/// What was lent, numbers and bytes.
pub fn lent(numbers: &[u16], bytes: &[u8]) -> String {
    let numbers = words(numbers.iter().map(|&number| number.into()));
    format!(" |{numbers}{}", hex(bytes))
}

fn main() -> ExitCode {
    let words: Vec<String> = env::args().skip(1).collect();
    let mut corpus = Corpus::default();
    match &words[..] {
        [_] => {
            named::add(&mut corpus);
            orders::add(&mut corpus);
        }
        [_, part] if part == "play" => {
            play::add(&mut corpus);
            orders::add_play(&mut corpus);
        }
        [_, part] if part == "prices" => {
            named::add_prices(&mut corpus);
            orders::add_prices(&mut corpus);
        }
        _ => {
            eprintln!("usage: corpus FOLDER [play | prices]");
            return ExitCode::FAILURE;
        }
    }
    match corpus.save(Path::new(&words[0])) {
        Ok(()) => ExitCode::SUCCESS,
        Err(error) => {
            eprintln!("corpus: {error}");
            ExitCode::FAILURE
        }
    }
}
