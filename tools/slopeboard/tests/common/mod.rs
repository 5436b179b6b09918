//! What the tests share: the built program, folders of their own, and readers
//! for what it prints.

#![allow(dead_code)] // no test uses all of it

pub mod json;
pub mod xml;

use std::fs;
use std::io::Write;
use std::path::PathBuf;
use std::process::{Command, Stdio};

/// The worked shift of docs/FORMATS.md as lines.
pub const SHIFT_CSV: &str = "\
slope,groomer,start,length,worth,driver
1,1,0,60,100,
2,1,30,60,150,
1,2,0,120,80,
3,2,120,60,90,
";

/// The hall of docs/FORMATS.md as lines.
pub const HALL_CSV: &str = "\
vehicle,draw,start,length,worth
1,5,0,60,100
2,4,30,60,90
1,3,100,20,50
3,6,0,30,70
4,10,20,30,80
";

/// The first sheet of the worked shift, its kept form and its board.
pub const SHEET: &str =
    "47524D02030004 1F010100000 03C0064 1502001E0096 1F0102000000780050 1D030078003C005A";
pub const KEPT: &str =
    "47524302030004 1F151F1D 01020103 0102 0000001E00000078 003C0078003C 006400960050005A";
pub const BOARD: &str = "475242 00040003 000000F0 000000F0 0A 00000064 00010032 0003005A";
/// The sheet that the writer makes of it.
pub const WRITTEN: &str =
    "47524D02030004 1F0101000000 3C0064 1A0200780050 1F0201001E003C0096 17030200 78005A";

/// What a run left behind.
#[derive(Debug)]
pub struct Ran {
    pub status: i32,
    pub out: Vec<u8>,
    pub err: String,
}

impl Ran {
    pub fn text(&self) -> &str {
        std::str::from_utf8(&self.out).expect("standard output is text")
    }

    /// The run, if its status is 0.
    pub fn well(self) -> Ran {
        assert_eq!(self.status, 0, "{}", self.err);
        self
    }

    /// What standard error says, if the status is 1 and nothing else was written.
    pub fn refused(self) -> String {
        assert_eq!(self.status, 1, "{self:?}");
        assert_eq!(self.out, b"", "{self:?}");
        self.err
    }
}

pub fn run(words: &[&str]) -> Ran {
    run_on(words, b"")
}

/// A run with these bytes on standard input.
pub fn run_on(words: &[&str], input: &[u8]) -> Ran {
    let mut child = Command::new(env!("CARGO_BIN_EXE_slopeboard"))
        .args(words)
        .stdin(Stdio::piped())
        .stdout(Stdio::piped())
        .stderr(Stdio::piped())
        .spawn()
        .expect("the program starts");
    // a program that does not read its input is no fault
    let _ = child.stdin.take().expect("a pipe").write_all(input);
    let output = child.wait_with_output().expect("the program ends");
    Ran {
        status: output.status.code().expect("no signal ends the program"),
        out: output.stdout,
        err: String::from_utf8(output.stderr).expect("standard error is text"),
    }
}

/// An empty folder for a test.
pub struct Folder(PathBuf);

impl Folder {
    pub fn new(name: &str) -> Folder {
        let path = PathBuf::from(env!("CARGO_TARGET_TMPDIR")).join(name);
        let _ = fs::remove_dir_all(&path);
        fs::create_dir_all(&path).expect("a folder");
        Folder(path)
    }

    pub fn path(&self, name: &str) -> String {
        self.0
            .join(name)
            .to_str()
            .expect("a path in UTF-8")
            .to_owned()
    }

    /// Writes a file and gives its path.
    pub fn put(&self, name: &str, bytes: impl AsRef<[u8]>) -> String {
        let path = self.path(name);
        fs::write(&path, bytes).expect("a file");
        path
    }
}

pub fn bytes(hex: &str) -> Vec<u8> {
    let digits: Vec<char> = hex.chars().filter(|sign| *sign != ' ').collect();
    let pairs = digits
        .chunks_exact(2)
        .map(|pair| pair.iter().collect::<String>());
    pairs
        .map(|pair| u8::from_str_radix(&pair, 16).expect("two digits"))
        .collect()
}

/// A file of the repository, from its top.
pub fn repository(path: &str) -> String {
    format!("{}/../../{path}", env!("CARGO_MANIFEST_DIR"))
}

/// The numbers behind the colon of a line such as "2 of 4 turns chosen: 1 3".
pub fn chosen(answer: &str) -> Vec<usize> {
    let line = answer
        .lines()
        .find(|line| line.contains(" chosen"))
        .expect("a choice");
    let numbers = line.split_once(": ").map_or("", |(_, numbers)| numbers);
    numbers
        .split_whitespace()
        .map(|number| number.parse().expect("a number"))
        .collect()
}
