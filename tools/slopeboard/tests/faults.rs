//! What is said where something is wrong. The status is then 1, standard output
//! is empty and no file is written.

mod common;

use common::{bytes, json, run, run_on, Folder, BOARD, HALL_CSV, SHEET, SHIFT_CSV};
use std::path::Path;

fn of_sheet(csv: &str, options: &[&str]) -> String {
    let words = [&["sheet", "-"], options].concat();
    run_on(&words, csv.as_bytes()).refused()
}

/// The worked shift with another third turn, in line 4.
fn with_line(line: &str) -> String {
    SHIFT_CSV.replace("1,2,0,120,80,", line)
}

const LINES: &[(&str, &str)] = &[
    (
        "4,2,0,120,80,",
        "slope 4, where slopes are 1 to 3 (refused 6)",
    ),
    (
        "0,2,0,120,80,",
        "slope 0, where slopes are 1 to 3 (refused 6)",
    ),
    (
        "1,3,0,120,80,",
        "groomer 3, where groomers are 1 to 2 (refused 7)",
    ),
    ("1,2,0,0,80,", "the turn lasts no minute (refused 8)"),
    (
        "1,2,900,61,80,",
        "starts in minute 900, lasts 61 and ends at 961, after 960 (refused 8)",
    ),
    ("1,2,65530,60,80,", "ends at 65590, after 960 (refused 8)"),
    (
        "1,2,0,120,0,",
        "worth 0, where a worth is 1 to 60000 (refused 9)",
    ),
    (
        "1,2,0,120,65537,",
        "worth 65537, where a worth is 1 to 60000 (refused 9)",
    ),
    (
        "1,2,0,120,80,41",
        "driver 41, where drivers are 1 to 40 (refused 19)",
    ),
    (
        "1,2,0,120,80,65536",
        "driver 65536, where drivers are 1 to 40 (refused 19)",
    ),
    ("1,2,0,120", "nothing stands under worth"),
    ("1,,0,120,80", "nothing stands under groomer"),
    ("1,2,0,120,80,,", "7 values, where the header line has 6"),
    ("1,two,0,120,80", "'two' under groomer is not a number"),
    (
        "1,2,-5,120,80",
        "'-5' under start is not a minute such as 90 or a time such as 19:30",
    ),
    ("1,2,25:00,120,80", "'25:00' under start is not a minute"),
    (
        "1,2,0,1:75,80",
        "'1:75' under length is not minutes such as 90 or hours such as 1:30",
    ),
    (
        "1,2,0,120,99999999999999999999",
        "'99999999999999999999' under worth is not a number",
    ),
];

#[test]
fn wrong_lines_are_named_with_what_is_wrong() {
    for (line, words) in LINES {
        let said = of_sheet(&with_line(line), &["--groomers", "2", "--slopes", "3"]);
        assert!(
            said.starts_with("slopeboard: standard input, line 4: "),
            "{said}"
        );
        assert!(said.contains(words), "{line}: {said}");
        assert_eq!(said.lines().count(), 1);
    }
}

#[test]
fn all_wrong_lines_are_named_but_not_too_many() {
    let csv =
        "slope,groomer,start,length,worth\n1,1,0,0,5\n1,1,0,10,5\n121,1,0,10,5\n1,17,0,10,5\n";
    let said = of_sheet(csv, &[]);
    let lines: Vec<&str> = said.lines().collect();
    assert_eq!(lines.len(), 3);
    assert!(lines[0].contains("line 2: ") && lines[0].ends_with("(refused 8)"));
    assert!(lines[1].contains("line 4: slope 121, where slopes are 1 to 120 (refused 6)"));
    assert!(lines[2].contains("line 5: groomer 17, where groomers are 1 to 16 (refused 7)"));
    let csv = String::from("slope,groomer,start,length,worth\n") + &"1,1,0,0,5\n".repeat(30);
    let said = of_sheet(&csv, &[]);
    assert_eq!(said.lines().count(), 21);
    assert!(said.ends_with("slopeboard: and 10 more\n"));
}

/// Header lines, and what is said of each.
const HEADERS: &[(&str, &str)] = &[
    (
        "",
        "no header line, such as slope,groomer,start,length,worth",
    ),
    ("\n,,\n", "no header line"),
    (
        "1,1,0,60,100\n",
        "line 1: the header line names '1', which is none of slope,",
    ),
    (
        "\nslope,groomer,start,length\n",
        "line 2: the header line does not name worth",
    ),
    ("slope,slope\n", "line 1: the header line names slope twice"),
];

#[test]
fn what_is_wrong_with_the_whole_file_is_said() {
    for (csv, words) in HEADERS {
        let said = of_sheet(csv, &[]);
        assert!(said.contains(words), "{said}");
    }
    let header = String::from("slope,groomer,start,length,worth\n");
    let said = of_sheet(&(header.clone() + &"1,1,0,1,1\n".repeat(401)), &[]);
    assert!(said.contains("line 402: 401 turns, where a sheet has at most 400 (refused 4)"));
    for (option, count) in [
        ("--groomers", "17"),
        ("--groomers", "0"),
        ("--slopes", "4294967297"),
    ] {
        let said = of_sheet(SHIFT_CSV, &[option, count]);
        assert!(
            said.contains("1 to 16 groomers and 1 to 120 slopes (refused 3)"),
            "{said}"
        );
    }
    let no_text = [header.as_bytes(), b"1,1,0,1,1\n\xff\n"].concat();
    let said = run_on(&["sheet", "-"], &no_text).refused();
    assert!(said.contains("line 3: this is not text"));
}

const WINDOWS: &[(&str, &str)] = &[
    (
        "5,5,0,60,100",
        "vehicle 5, where vehicles are 1 to 4 (refused 6)",
    ),
    (
        "1,11,0,60,100",
        "draw 11, where the hall has 10 units (refused 25)",
    ),
    (
        "1,300,0,60,100",
        "draw 300, where the hall has 10 units (refused 25)",
    ),
    (
        "1,0,0,60,100",
        "draw 0, where the hall has 10 units (refused 25)",
    ),
    ("1,5,0,0,100", "the window lasts no minute (refused 8)"),
    ("1,5,70000,60,100", "ends at 70060, after 960 (refused 8)"),
    (
        "1,5,0,60,60001",
        "worth 60001, where a worth is 1 to 60000 (refused 9)",
    ),
    ("1,5,0,60", "nothing stands under worth"),
];

#[test]
fn wrong_windows_are_named() {
    for (line, words) in WINDOWS {
        let csv = HALL_CSV.replace("1,5,0,60,100", line);
        let words_of = ["hall-sheet", "-", "--units", "10", "--vehicles", "4"];
        let said = run_on(&words_of, csv.as_bytes()).refused();
        assert!(
            said.contains(", line 2: ") && said.contains(words),
            "{said}"
        );
    }
    let many = String::from("vehicle,draw,start,length,worth\n") + &"1,1,0,1,1\n".repeat(401);
    let said = run_on(&["hall-sheet", "-"], many.as_bytes()).refused();
    assert!(said.contains("line 402: 401 windows") && said.contains("(refused 4)"));
    let said = run_on(&["hall-sheet", "-", "--units", "49"], HALL_CSV.as_bytes()).refused();
    assert!(said.contains("a hall has 1 to 48 units and 1 to 60 vehicles (refused 3)"));
}

const DELAYS: &[(&str, &str)] = &[
    (
        "4,10",
        "line 3: turn 4, where the sheet has 4 turns, numbered from 0",
    ),
    (
        "1,121",
        "line 3: a delay of 121 minutes, where 120 are the most (refused 24)",
    ),
    (
        "2,65536",
        "line 3: a delay of 65536 minutes, where 120 are the most (refused 24)",
    ),
    ("0,5", "line 3: turn 0 is in line 2, too"),
    ("1,", "line 3: nothing stands under minutes"),
];

#[test]
fn wrong_delays_are_named() {
    let folder = Folder::new("faults_delays");
    let (sheet, board) = (
        folder.put("sheet", bytes(SHEET)),
        folder.put("board", bytes(BOARD)),
    );
    for (line, words) in DELAYS {
        let csv = format!("turn,minutes\n0,5\n{line}\n");
        let said = run_on(&["play", &sheet, &board, "--delays", "-"], csv.as_bytes()).refused();
        assert!(said.contains(words), "{said}");
    }
}

/// Price files, and what is said of each.
const PRICES: &[(&str, &str)] = &[
    (
        "1 2 3 4 5 6",
        "prices: 6 prices, where 7 are wanted, one for each of 3 slopes and 4 turns (refused 26)",
    ),
    ("1\n2 3 4 5 6 7\n8", "prices: 8 prices, where 7 are wanted"),
    (
        "1 2 3\n4 65536 6 7",
        "prices, line 2: '65536' is not a price, which is 0 to 65535",
    ),
    ("1 2 3 4 5 6 -7", "line 1: '-7' is not a price"),
    ("1 2 3 4 5 6 +7", "line 1: '+7' is not a price"),
    ("1, 2, 3", "line 1: '1,' is not a price"),
    ("1.5", "line 1: '1.5' is not a price"),
];

#[test]
fn wrong_prices_are_named() {
    let folder = Folder::new("faults_prices");
    let (sheet, board) = (
        folder.put("sheet", bytes(SHEET)),
        folder.put("board", bytes(BOARD)),
    );
    for (text, words) in PRICES {
        let prices = folder.put("prices", text);
        for said in [
            run(&["limit", &sheet, &prices]).refused(),
            run(&["picture", &sheet, &board, "--prices", &prices]).refused(),
        ] {
            assert!(said.contains(words), "{said}");
        }
    }
    let no_text = folder.put("prices", b"1\n2\n\xff");
    let said = run(&["limit", &sheet, &no_text]).refused();
    assert!(said.contains("prices, line 3: this is not text"), "{said}");
    let said = run(&["limit", &sheet, &folder.put("prices", "1"), "--json"]).refused();
    assert!(said.contains("\"refusal\":26"), "{said}");
}

/// Runs, and what each says. A word that begins with @ is a file of the folder.
const FILES: &str = "\
plan @none => none: cannot be read:
sheet @none => none: cannot be read:
check @sheet @none => none: cannot be read:
play @sheet @board --delays @none => none: cannot be read:
limit @sheet @none => none: cannot be read:
picture @sheet @board --prices @none => none: cannot be read:
plan @empty => empty: the file is empty (refused 1)
restore @empty => empty: the file is empty (refused 1)
charge @empty => empty: the file is empty (refused 1)
check @sheet @empty => empty: the file is empty (refused 12)
show @empty => empty: the file is empty
check @sheet @sheet => for this sheet; it opens as a sheet does (refused 12)
picture @sheet @sheet => for this sheet; it opens as a sheet does (refused 12)
play @sheet @sheet => for this sheet; it opens as a sheet does (refused 12)
plan @board => does not open with GRM, the mark of a sheet; it opens as a board does (refused 2)
restore @sheet => not open with GRC, the mark of a kept form; it opens as a sheet does (refused 2)
charge @sheet => with GRE, the mark of a charging sheet; it opens as a sheet does (refused 2)
show @noise => noise: it opens with none of the marks GRM (sheet)
plan @noise => noise: it ends too early, before its last record is whole (refused 1)
limit @noise @sheet => noise: it ends too early, before its last record is whole (refused 1)
limit @board --free => it opens as a board does (refused 2)
limit @sheet @empty => empty: 0 prices, where 7 are wanted, one for each of 3 slopes and 4 turns (refused 26)
check - - => only one of the files can be standard input
limit - - => only one of the files can be standard input
picture @sheet - --prices - => only one of the files can be standard input
charge-limit @sheet --free => with GRE, the mark of a charging sheet; it opens as a sheet does (refused 2)
charge-refine @sheet => with GRE, the mark of a charging sheet; it opens as a sheet does (refused 2)
charge-limit @hall @empty => empty: 0 prices, where 960 are wanted, one for each minute (refused 26)
picture @hall @map --prices @empty => empty: 0 prices, where 960 are wanted, one for each minute (refused 26)
charge-refine @hall --prices /no/such/folder/x => /no/such/folder/x: cannot be written:
refine @noise => noise: it ends too early, before its last record is whole (refused 1)
refine @sheet --prices /no/such/folder/x => /no/such/folder/x: cannot be written:
plan @sheet -o /no/such/folder/x => /no/such/folder/x: cannot be written:
";

/// Words and numbers that no command takes, likewise.
const WORDS: &str = "\
fly => there is no command fly
plan => plan: SHEET is missing
check @sheet => check: BOARD is missing
plan @sheet @sheet => is one file too many
plan @sheet --fast => plan: there is no option --fast
plan @sheet -o => plan: -o FILE: FILE is missing
plan @sheet --json=yes => plan: --json takes no value
plan @sheet -o @out -o @out => plan: -o is given twice
improve @sheet --visits many => improve: --visits: many is no number
refine => refine: SHEET is missing
refine @sheet --rounds many => refine: --rounds: many is no number
refine @sheet --rounds 4294967296 => refine: --rounds: 4294967296 is no number from 0 to 4294967295
refine @sheet -o @out --prices @out => refine: -o and --prices name the same file
picture @sheet @board --rounds 4294967296 => picture: --rounds: 4294967296 is no number from 0
picture @sheet @board --rounds 1 --prices @sheet => picture: --prices or --rounds, not both
charge-limit @sheet @sheet --free => charge-limit: --free leaves no place for PRICES
charge-refine @sheet --rounds 4294967296 => charge-refine: --rounds: 4294967296 is no number from 0
charge-refine @sheet -o @out --prices @out => charge-refine: -o and --prices name the same file
limit @sheet => limit: PRICES is missing, or --free
limit => limit: SHEET is missing
limit @sheet @sheet --free => limit: --free leaves no place for PRICES
limit @sheet @sheet @sheet => is one file too many
show @sheet --from 24:00 => --from 24:00: no time of day such as 18:00
draw -o @out --groomers 2 --slopes 3 --turns 5 => draw: --seed N is missing
draw -o @out --groomers 2 --slopes 3 --turns 5 --seed 0 => a seed is 1 to 2147483646 (refused 23)
draw -o @out --groomers 2 --slopes 3 --turns 401 --seed 1 => at most 400 turns (refused 4)
draw -o @out --groomers 17 --slopes 3 --turns 5 --seed 1 => 1 to 16 groomers and 1 to 120 slopes (refused 3)
";

fn all_refused(folder: &Folder, cases: &str) {
    for case in cases.lines() {
        let (words, said) = case.split_once(" => ").unwrap();
        let words: Vec<String> = words
            .split(' ')
            .map(|word| match word.strip_prefix('@') {
                Some(file) => folder.path(file),
                None => word.to_owned(),
            })
            .collect();
        let words: Vec<&str> = words.iter().map(String::as_str).collect();
        let heard = run(&words).refused();
        assert!(
            heard.starts_with("slopeboard: ") && heard.contains(said),
            "{case}: {heard}"
        );
    }
}

#[test]
fn files_that_are_missing_empty_or_another_kind() {
    let folder = Folder::new("faults_files");
    folder.put("sheet", bytes(SHEET));
    folder.put("board", bytes(BOARD));
    folder.put("empty", "");
    folder.put("noise", "what");
    folder.put(
        "hall",
        run_on(&["hall-sheet", "-"], HALL_CSV.as_bytes()).well().out,
    );
    folder.put("map", [0x03]);
    all_refused(&folder, FILES);
}

/// What takes the place of what in the worked sheet, and what is then said.
const SHEETS: &[(&str, &str, &str)] = &[
    (
        "0050 1D",
        "0000 1D",
        "sheet: turn 2: a turn's worth is 0 or above 60000 (refused 9)",
    ),
    (
        "1D030078003C005A",
        "1D0300780",
        "sheet: turn 3: it ends too early",
    ),
    (
        "1D0300",
        "5D0300",
        "sheet: turn 3: the map byte of a record cannot be right (refused 5)",
    ),
    (
        "1502",
        "1509",
        "sheet: turn 1: a turn's slope is 0 or above the count of slopes (refused 6)",
    ),
    (
        "1F0102",
        "1F0103",
        "sheet: turn 2: a turn's groomer is 0 or above",
    ),
    (
        "1F010100",
        "1F0101FF",
        "sheet: turn 0: a turn has length 0 or ends after minute 960",
    ),
    (
        "005A",
        "005A00",
        "sheet: it goes on after its last record (refused 10)",
    ),
    (
        "0004",
        "0191",
        "sheet: a sheet has at most 400 turns (refused 4)",
    ),
    ("0004", "0190", "sheet: turn 4: it ends too early"),
];

#[test]
fn sheets_that_are_refused_name_the_turn() {
    let folder = Folder::new("faults_sheets");
    for (old, new, words) in SHEETS {
        let changed =
            SHEET
                .replace(' ', "")
                .replacen(&old.replace(' ', ""), &new.replace(' ', ""), 1);
        let sheet = folder.put("sheet", bytes(&changed));
        for command in ["plan", "show", "list"] {
            let said = run(&[command, &sheet]).refused();
            assert!(said.contains(words), "{changed}: {said}");
        }
    }
    let mut hall = run_on(&["hall-sheet", "-"], HALL_CSV.as_bytes()).well().out;
    hall[18] = 99; // the draw of window 1
    let hall = folder.put("hall", hall);
    for command in ["charge", "show"] {
        let said = run(&[command, &hall]).refused();
        assert!(
            said.contains("hall: window 1: a window's draw is 0 or above"),
            "{said}"
        );
    }
}

/// What takes the place of what in the worked board, and what is then said.
const BOARDS: &[(&str, &str, &str)] = &[
    (
        "000000F0 0A",
        "000000BE 09",
        "or the tally is above the worth (refused 17)",
    ),
    (
        "000000F0 0A",
        "00000096 02",
        "one more turn could be chosen (refused 14)",
    ),
    (
        "000000F0 0A",
        "00000140 0E",
        "chosen turns conflict (refused 13)",
    ),
    (
        "00010032",
        "00010033",
        "a step is not right at its place (refused 15)",
    ),
    (
        "00010032",
        "00000032",
        "a step is not right at its place (refused 15)",
    ),
    (
        "00040003",
        "00050003",
        "a board for this sheet (refused 12)",
    ),
    (
        "0003005A",
        "0003005A 00",
        "a board for this sheet (refused 12)",
    ),
];

#[test]
fn boards_that_do_not_pass() {
    let folder = Folder::new("faults_boards");
    let sheet = folder.put("sheet", bytes(SHEET));
    let short = BOARD
        .replace("00040003", "00040002")
        .replace(" 0003005A", "");
    let open = (short, "the steps leave a turn open (refused 16)");
    let cases = BOARDS
        .iter()
        .map(|(old, new, words)| (BOARD.replace(old, new), *words));
    for (hex, words) in cases.chain([open]) {
        let board = folder.put("board", bytes(&hex));
        for command in ["check", "picture", "play"] {
            let said = run(&[command, &sheet, &board]).refused();
            assert!(said.contains(words), "{hex}: {said}");
        }
    }
}

#[test]
fn wrong_words_and_numbers() {
    let folder = Folder::new("faults_words");
    folder.put("sheet", bytes(SHEET));
    folder.put("board", bytes(BOARD));
    all_refused(&folder, WORDS);
    assert!(!Path::new(&folder.path("out")).exists());
    let said = run(&[]).refused();
    assert!(said.contains("no command; see slopeboard --help"));
}

#[test]
fn faults_as_json() {
    let csv = with_line("1,2,0,0,80,");
    let said = of_sheet(&csv, &["--json"]);
    assert!(json::is_json(&said), "{said}");
    let fault = "{\"file\":\"standard input\",\"line\":4,\"refusal\":8,\"words\":\"the turn lasts no minute\"}";
    assert_eq!(said, format!("{{\"faults\":[{fault}]}}\n"));
}
