//! Each command on the worked shift and the hall of docs/FORMATS.md.

mod common;

use common::{bytes, json, run, run_on, Folder, BOARD, HALL_CSV, KEPT, SHEET, SHIFT_CSV, WRITTEN};
use std::fs;

const LISTING: &str = "\
groomer 1
30-90 slope 2 worth 150
groomer 2
120-180 slope 3 worth 90
worth 240 tally 240 ceiling 340
";

/// The worked sheet and board as files.
fn files(name: &str) -> (Folder, String, String) {
    let folder = Folder::new(name);
    let sheet = folder.put("shift.sheet", bytes(SHEET));
    let board = folder.put("shift.board", bytes(BOARD));
    (folder, sheet, board)
}

#[test]
fn sheet_writes_the_writers_bytes() {
    let folder = Folder::new("worked_sheet");
    let csv = folder.put("shift.csv", SHIFT_CSV);
    let sheet = folder.path("shift.sheet");
    let ran = run(&["sheet", &csv, "-o", &sheet]).well();
    assert_eq!(ran.text(), "groomers 2 slopes 3 turns 4 bytes 38\n");
    assert_eq!(ran.err, "");
    assert_eq!(fs::read(&sheet).unwrap(), bytes(WRITTEN));
    // to standard output, from standard input: the answer goes to standard error
    let ran = run_on(&["sheet", "-"], SHIFT_CSV.as_bytes()).well();
    assert_eq!(ran.out, bytes(WRITTEN));
    assert_eq!(ran.err, "groomers 2 slopes 3 turns 4 bytes 38\n");
    let ran = run(&["sheet", &csv, "-o", &sheet, "--json"]).well();
    assert_eq!(
        ran.text(),
        "{\"groomers\":2,\"slopes\":3,\"turns\":4,\"bytes\":38,\"lines\":[2,4,3,5]}\n"
    );
}

#[test]
fn sheet_takes_times_columns_in_any_order_and_counts() {
    let csv = "\u{feff}Worth;Start;Length;Slope;Groomer\r\n100;17:00;1:00;1;1\r\n\r\n\
               150;17:30;60;\"2\";1\r\n;;;;\r\n80;0;2:00;1;2\r\n90;19:00;1:00;3;2\r\n";
    let ran = run_on(&["sheet", "-", "--from", "17:00"], csv.as_bytes()).well();
    assert_eq!(ran.out, bytes(WRITTEN));
    let ran = run_on(
        &["sheet", "-", "--groomers=5", "--slopes", "9"],
        SHIFT_CSV.as_bytes(),
    )
    .well();
    assert_eq!(ran.out[..7], bytes("47524D05090004"));
    // past midnight, and no turns at all
    let csv = "slope,groomer,start,length,worth\n1,1,02:15,30,5\n";
    let ran = run_on(&["sheet", "-", "--from", "18:00"], csv.as_bytes()).well();
    assert_eq!(ran.out, bytes("47524D01010001 1F0101 01EF 001E 0005"));
    let ran = run_on(&["sheet", "-"], b"slope,groomer,start,length,worth\n").well();
    assert_eq!(ran.out, bytes("47524D01010000"));
}

#[test]
fn show_prints_each_kind_by_its_mark() {
    let (folder, sheet, board) = files("worked_show");
    let kept = folder.put("shift.kept", bytes(KEPT));
    for file in [&sheet, &kept] {
        let ran = run(&["show", file]).well();
        assert_eq!(ran.text(), SHIFT_CSV);
        assert_eq!(ran.err, "groomers 2 slopes 3 turns 4\n");
    }
    let ran = run(&["show", &board]).well();
    let text = "turns 4 steps 3 worth 240 tally 240\n2 of 4 turns chosen: 1 3\n\
                step on turn 0 for 100\nstep on turn 1 for 50\nstep on turn 3 for 90\n";
    assert_eq!((ran.text(), ran.err.as_str()), (text, ""));
    let ran = run(&["show", &sheet, "--numbers", "--from", "17:00"]).well();
    let text = "turn,slope,groomer,start,length,worth,driver\n0,1,1,17:00,60,100,\n\
                1,2,1,17:30,60,150,\n2,1,2,17:00,120,80,\n3,3,2,19:00,60,90,\n";
    assert_eq!(ran.text(), text);
    // and what it prints so is taken again
    let again = run_on(&["sheet", "-", "--from", "17:00"], ran.text().as_bytes()).well();
    assert_eq!(again.out, bytes(WRITTEN));
}

#[test]
fn plan_check_and_list() {
    let (folder, sheet, board) = files("worked_plan");
    let answer = "worth 240 tally 240 ceiling 340\n2 of 4 turns chosen: 1 3\n";
    let made = folder.path("made.board");
    let ran = run(&["plan", &sheet, "-o", &made]).well();
    assert_eq!(ran.text(), answer);
    assert_eq!(fs::read(&made).unwrap(), bytes(BOARD));
    let ran = run(&["plan", &sheet]).well();
    assert_eq!((ran.out, ran.err.as_str()), (bytes(BOARD), answer));
    assert_eq!(run(&["check", &sheet, &board]).well().text(), answer);
    assert_eq!(
        run_on(&["check", &sheet, "-"], &bytes(BOARD)).well().text(),
        answer
    );
    let ran = run(&["check", &sheet, &board, "--json"]).well();
    let json = "{\"worth\":240,\"tally\":240,\"ceiling\":340,\"turns\":4,\"chosen\":[1,3]}\n";
    assert_eq!(ran.text(), json);
    let ran = run(&["list", &sheet]).well();
    assert_eq!((ran.text(), ran.err.as_str()), (LISTING, ""));
}

#[test]
fn best_improve_and_assign() {
    let (folder, sheet, _) = files("worked_search");
    let map = folder.path("map");
    let ran = run(&["improve", &sheet, "-o", &map]).well();
    let answer = "worth 240 above 100 visits 11 whole\n2 of 4 turns chosen: 1 3\n";
    assert_eq!(ran.text(), answer);
    assert_eq!(fs::read(&map).unwrap(), [0x0a]);
    let ran = run(&["improve", &sheet, "--visits", "5"]).well();
    assert_eq!(ran.out, [0x0a]);
    assert!(ran
        .err
        .starts_with("worth 240 above 100 visits 5 not whole\n"));
    let ran = run(&["assign", &sheet]).well();
    let answer =
        "groomers 3\nturn 0 groomer 1\nturn 1 groomer 3\nturn 2 groomer 2\nturn 3 groomer 1\n";
    assert_eq!(ran.text(), answer);
    // slope 1 has two turns; without one of them the best worth can be worked out
    let said = run(&["best", &sheet]).refused();
    assert!(
        said.contains("a slope has two turns") && said.contains("(refused 21)"),
        "{said}"
    );
    let single = SHIFT_CSV.replace("1,2,0,120,80,\n", "");
    let single = folder.put(
        "single.sheet",
        run_on(&["sheet", "-"], single.as_bytes()).well().out,
    );
    let ran = run(&["best", &single, "-o", &map]).well();
    assert_eq!(ran.text(), "worth 240\n2 of 3 turns chosen: 1 2\n");
    assert_eq!(fs::read(&map).unwrap(), [0x06]);
}

#[test]
fn play_with_and_without_delays() {
    let (folder, sheet, board) = files("worked_play");
    let ran = run(&["play", &sheet, &board]).well();
    let still = "groomer 2 worked 60 drove 10 stood 890 ends on no turn\n";
    assert_eq!(ran.text(), still.replace("groomer 2", "groomer 1") + still);
    let delays = folder.put("delays.csv", "turn,minutes\n1,15\n2,0:30\n");
    let ran = run(&["play", &sheet, &board, "--delays", &delays]).well();
    let text = "groomer 1 worked 75 drove 10 stood 875 ends on no turn\n".to_owned() + still;
    assert_eq!(ran.text(), text);
    // a turn that is under way when the shift ends
    let csv = b"slope,groomer,start,length,worth\n1,1,900,60,5\n";
    let sheet = folder.put("late.sheet", run_on(&["sheet", "-"], csv).well().out);
    let board = folder.put("late.board", run(&["plan", &sheet]).well().out);
    let delays = folder.put("late.csv", "turn,minutes\n0,1\n");
    let ran = run(&["play", &sheet, &board, "--delays", &delays, "--json"]).well();
    let json =
        "{\"groomers\":[{\"groomer\":1,\"worked\":60,\"drove\":0,\"stood\":900,\"turn\":0}]}\n";
    assert_eq!(ran.text(), json);
}

#[test]
fn keep_and_restore() {
    let (folder, sheet, _) = files("worked_keep");
    let ran = run(&["keep", &sheet]).well();
    assert_eq!(ran.out, bytes(KEPT));
    assert_eq!(ran.err, "groomers 2 slopes 3 turns 4 bytes 39\n");
    let kept = folder.put("shift.kept", ran.out);
    assert_eq!(run(&["restore", &kept]).well().out, bytes(SHEET));
}

#[test]
fn hall_sheet_and_charge() {
    let folder = Folder::new("worked_hall");
    let csv = folder.put("hall.csv", HALL_CSV);
    let hall = folder.path("hall.sheet");
    let ran = run(&["hall-sheet", &csv, "-o", &hall]).well();
    assert_eq!(ran.text(), "units 10 vehicles 4 windows 5 bytes 48\n");
    let ran = run(&["show", &hall]).well();
    assert_eq!(ran.text(), HALL_CSV);
    assert_eq!(ran.err, "units 10 vehicles 4 windows 5\n");
    let ran = run(&["charge", &hall]).well();
    assert_eq!(ran.out, [0x03]);
    assert_eq!(ran.err, "worth 190\n2 of 5 windows chosen: 0 1\n");
    let ran = run(&["hall-sheet", &csv, "--units", "20", "--vehicles", "9"]).well();
    assert_eq!(ran.out[..7], bytes("47524514090005"));
}

#[test]
fn draw_gives_the_same_sheet_again() {
    let words = [
        "draw",
        "--seed",
        "1",
        "--groomers",
        "2",
        "--slopes",
        "3",
        "--turns",
        "2",
    ];
    let ran = run(&words).well();
    assert_eq!(ran.out[..7], bytes("47524D02030002"));
    assert_eq!(ran.out, run(&words).well().out);
    assert!(ran.err.starts_with("groomers 2 slopes 3 turns 2 bytes "));
}

#[test]
fn limit_by_prices() {
    let (folder, sheet, board) = files("worked_limit");
    let free = run(&["limit", &sheet, "--free"]).well();
    assert_eq!((free.text(), free.err.as_str()), ("limit 240\n", ""));
    for (text, limit) in [
        ("0 0 0 0 0 0 0", 240),
        ("100\n0\n0\n0\n0\n0\n0\n", 340),
        ("60 40 10\r\n\r\n 0 0\t0 0\n", 300),
        // no turn names a driver, and so the turns' prices count for nothing
        ("\u{feff}60 40 10 1 22 333 65535", 300),
    ] {
        let prices = folder.put("prices", text);
        let ran = run(&["limit", &sheet, &prices]).well();
        assert_eq!(ran.text(), format!("limit {limit}\n"));
        let ran = run_on(&["limit", &sheet, "-", "--json"], text.as_bytes()).well();
        assert_eq!(ran.text(), format!("{{\"limit\":{limit}}}\n"));
        let ran = run(&["picture", &sheet, &board, "--prices", &prices, "--json"]).well();
        let sums = format!("\"worth\":240,\"tally\":240,\"ceiling\":340,\"limit\":{limit},");
        assert!(ran.err.contains(&sums), "{}", ran.err);
    }
}

/// Two groomers, a turn of each on one slope, worth 100 and 60: the slope's price
/// goes up by 25, 23 and 21.
#[test]
fn refine_by_rounds() {
    let (folder, sheet, board) = files("worked_refine");
    let (better, prices) = (folder.path("better.board"), folder.path("prices"));
    let ran = run(&["refine", &sheet, "-o", &better, "--prices", &prices]).well();
    let answer = "worth 240 limit 240 rounds 0\nno board earns more\n2 of 4 turns chosen: 1 3\n";
    assert_eq!((ran.text(), ran.err.as_str()), (answer, ""));
    assert_eq!(fs::read(&better).unwrap(), fs::read(&board).unwrap());
    assert_eq!(fs::read_to_string(&prices).unwrap(), "0\n".repeat(7));
    let csv = b"slope,groomer,start,length,worth\n1,1,0,60,100\n1,2,0,60,60\n";
    let sheet = folder.put("two.sheet", run_on(&["sheet", "-"], csv).well().out);
    for (rounds, limit, price) in [("0", 160, 0), ("1", 135, 25), ("2", 112, 48)] {
        let words = ["refine", &sheet, "--rounds", rounds, "--prices", &prices];
        let ran = run(&words).well();
        let answer = format!("worth 100 limit {limit} rounds {rounds}\n1 of 2 turns chosen: 0\n");
        assert_eq!(ran.err, answer);
        let board = folder.put("two.board", ran.out);
        run(&["check", &sheet, &board]).well();
        assert_eq!(
            fs::read_to_string(&prices).unwrap(),
            format!("{price}\n0\n0\n")
        );
        let ran = run(&["limit", &sheet, &prices]).well();
        assert_eq!(ran.text(), format!("limit {limit}\n"));
        let ran = run(&["picture", &sheet, &board, "--rounds", rounds]).well();
        assert_eq!(
            ran.err,
            format!("worth 100 tally 100 ceiling 100 limit {limit}\n")
        );
    }
    let words = ["refine", &sheet, "--rounds", "4294967295", "--json"];
    let ran = run(&[&words[..], &["-o", &better]].concat()).well();
    let json = "{\"worth\":100,\"limit\":100,\"rounds\":3,\"turns\":2,\"chosen\":[0],\"prices\":[69,0,0]}\n";
    assert_eq!(ran.text(), json);
}

/// Twelve units in one minute: two windows of draw 6 and twelve of draw 1, all of
/// worth 1. The plan takes the first two. The price of the minute goes up by 1 a
/// round, in sixteenths, and at 3 the first two pay all that they are worth.
#[test]
fn the_hall_by_prices() {
    let folder = Folder::new("worked_hall_prices");
    let mut csv = String::from("vehicle,draw,start,length,worth\n1,6,500,1,1\n2,6,500,1,1\n");
    for vehicle in 3..=14 {
        csv += &format!("{vehicle},1,500,1,1\n");
    }
    let (hall, map) = (folder.path("hall"), folder.path("map"));
    let words = ["hall-sheet", "-", "--units", "12", "-o", &hall];
    run_on(&words, csv.as_bytes()).well();
    let free = run(&["charge-limit", &hall, "--free"]).well();
    assert_eq!((free.text(), free.err.as_str()), ("limit 14\n", ""));
    let prices = folder.path("prices");
    let words = ["charge-refine", &hall, "-o", &map, "--prices", &prices];
    let ran = run(&[&words[..], &["--rounds", "2"]].concat()).well();
    let answer = "worth 2 limit 14 rounds 2\n2 of 14 windows chosen: 0 1\n";
    assert_eq!(ran.text(), answer);
    assert_eq!(fs::read(&map).unwrap(), [0x03, 0x00]);
    let ran = run(&[&words[..], &["--rounds", "3"]].concat()).well();
    assert!(ran
        .text()
        .starts_with("worth 12 limit 14 rounds 3\n12 of 14 windows chosen: 2 3 "));
    assert_eq!(fs::read(&map).unwrap(), [0xFC, 0x3F]);
    assert_eq!(fs::read_to_string(&prices).unwrap(), "0\n".repeat(960));
    // with a price of 16 the limit is 12 units, and the set is proved to be the best
    let list = "0 ".repeat(500) + "16" + &" 0".repeat(459);
    for answer in [
        run_on(&["charge-limit", &hall, "-"], list.as_bytes()).well(),
        run(&["charge-limit", &hall, &folder.put("prices", &list)]).well(),
    ] {
        assert_eq!(answer.text(), "limit 12\n");
    }
    let svg = run(&["picture", &hall, &map, "--prices", &prices]).well();
    let sums = "worth 12, at most 12 of 12 units drawn, limit 12";
    assert_eq!(svg.err, format!("{sums}\n"));
    assert!(svg.text().contains(&format!(">{sums}<")));
    let svg = run(&["picture", &hall, &map, "--rounds", "1", "--json"]).well();
    assert!(
        svg.err.contains("\"units\":12,\"limit\":14,"),
        "{}",
        svg.err
    );
    // one window: nothing is better
    let one = "vehicle,draw,start,length,worth\n1,1,0,60,9\n";
    let one = run_on(&["hall-sheet", "-"], one.as_bytes()).well().out;
    let ran = run_on(&["charge-refine", "-", "--json"], &one).well();
    let json = "{\"worth\":9,\"limit\":9,\"rounds\":0,\"windows\":1,\"chosen\":[0],\"prices\":[0,";
    assert!(ran.err.starts_with(json), "{}", ran.err);
    let ran = run_on(&["charge-refine", "-"], &one).well();
    let answer = "worth 9 limit 9 rounds 0\nno allowed set earns more\n1 of 1 windows chosen: 0\n";
    assert_eq!(ran.err, answer);
}

/// A run of each command. A word that begins with @ is a file of the folder; the
/// last nine make nothing but their answer.
const RUNS: [&str; 22] = [
    "sheet @shift.csv",
    "hall-sheet @hall.csv",
    "draw --seed=7 --groomers=4 --slopes=9 --turns=20",
    "plan @shift.sheet",
    "best @single.sheet",
    "improve @shift.sheet",
    "refine @shift.sheet --prices @prices",
    "keep @shift.sheet",
    "restore @shift.kept",
    "charge @hall.sheet",
    "charge-refine @hall.sheet --prices @prices",
    "picture @shift.sheet @shift.board",
    "picture @hall.sheet @hall.map",
    "show @shift.sheet",
    "show @shift.board",
    "show @hall.sheet",
    "check @shift.sheet @shift.board",
    "list @shift.sheet",
    "assign @shift.sheet",
    "limit @shift.sheet --free",
    "charge-limit @hall.sheet --free",
    "play @shift.sheet @shift.board",
];

#[test]
fn every_command_has_json() {
    let (folder, _, _) = files("worked_json");
    folder.put("shift.csv", SHIFT_CSV);
    let csv = folder.put("hall.csv", HALL_CSV);
    folder.put("hall.sheet", run(&["hall-sheet", &csv]).well().out);
    folder.put("hall.map", [0x03]);
    folder.put("shift.kept", bytes(KEPT));
    folder.put("single.sheet", bytes("47524D01010001 1F01010000003C0064"));
    for (place, words) in RUNS.iter().enumerate() {
        let options = if place < 13 {
            " --json -o @out"
        } else {
            " --json"
        };
        let words: Vec<String> = format!("{words}{options}")
            .split(' ')
            .map(|word| {
                word.strip_prefix('@')
                    .map_or(word.to_owned(), |name| folder.path(name))
            })
            .collect();
        let words: Vec<&str> = words.iter().map(String::as_str).collect();
        let ran = run(&words).well();
        assert!(json::is_json(ran.text()), "{words:?}: {}", ran.text());
        assert_eq!(ran.err, "");
    }
}

#[test]
fn every_command_has_help() {
    let whole = run(&["--help"]).well();
    assert!(whole.text().lines().all(|line| line.len() <= 80));
    for words in RUNS {
        let command = words.split(' ').next().unwrap();
        assert!(whole.text().contains(&format!("\n  {command} ")));
        let help = run(&[command, "--help"]).well();
        assert!(help
            .text()
            .contains(&format!("usage: slopeboard {command} ")));
        assert!(help.text().contains("example:\n  slopeboard "));
        assert!(
            help.text().lines().all(|line| line.len() <= 80),
            "{command}"
        );
    }
}

#[test]
fn a_long_search_says_no_seconds_to_a_pipe() {
    let words = [
        "draw",
        "--seed=9",
        "--groomers=16",
        "--slopes=120",
        "--turns=64",
    ];
    let sheet = run(&words).well().out;
    let ran = run_on(&["improve", "-", "--visits", "400000000"], &sheet).well();
    assert!(ran.err.starts_with("worth "), "{}", ran.err);
    assert_eq!(ran.err.lines().count(), 2);
}

#[test]
fn the_help_has_the_limits() {
    use slopeboard::*;
    let limits = [
        (
            "sheet",
            format!("groomers there are, 1 to {MOST_GROOMERS}\n"),
        ),
        ("sheet", format!("slopes there are, 1 to {MOST_SLOPES}\n")),
        ("hall-sheet", format!("supplies, 1 to {MOST_UNITS}\n")),
        (
            "hall-sheet",
            format!("vehicles there are, 1 to {MOST_VEHICLES}\n"),
        ),
        ("draw", format!("the seed, 1 to {MOST_SEED}\n")),
        ("draw", format!("are drawn, 0 to {MOST_TURNS}\n")),
        ("improve", format!("at most {MOST_SEARCHED_TURNS} turns")),
        ("play", format!("at most {MOST_DELAY}\nminutes")),
    ];
    for (command, words) in limits {
        let help = run(&[command, "--help"]).well();
        assert!(help.text().contains(&words), "{command}: {words}");
    }
}
