//! Round trips, and a hundred drawn sheets through every command.

mod common;

use common::{chosen, run, run_on, xml, Folder};
use std::fs;

#[test]
fn lines_in_the_writers_order_come_back() {
    let csv = "\
slope,groomer,start,length,worth,driver
1,1,0,1,1,
1,1,0,1,1,
1,1,0,1,60000,40
1,2,959,1,7,1
2,1,0,960,7,
120,16,300,45,512,39
";
    let sheet = run_on(&["sheet", "-"], csv.as_bytes()).well().out;
    let shown = run_on(&["show", "-"], &sheet).well();
    assert_eq!(shown.text(), csv);
    // in another order they come back in that one
    let (header, lines) = csv.split_once('\n').unwrap();
    let mut lines: Vec<&str> = lines.lines().collect();
    lines.reverse();
    let other = format!("{header}\n{}\n", lines.join("\n"));
    assert_eq!(run_on(&["sheet", "-"], other.as_bytes()).well().out, sheet);
}

#[test]
fn a_hundred_drawn_sheets_go_through_every_command() {
    for seed in 1..=100 {
        let folder = Folder::new(&format!("drawn_{seed}"));
        let counts = [seed, 1 + seed % 16, 1 + seed * 7 % 120, seed * 4 - 4];
        let sheet = drawn(&folder, counts);
        comes_back(&folder, &sheet, counts);
        let (board, choice) = planned(&folder, &sheet);
        searched(&folder, &sheet, &board, &choice, counts[3]);
        limited(&folder, &sheet, &board, counts);
        played(&folder, &sheet, &board, counts);
        pictured(&sheet, &board, choice.len(), counts[3]);
        charged(&folder, &sheet, seed);
    }
}

/// Draws and kept forms: seed, groomers, slopes, turns.
fn drawn(folder: &Folder, counts: [usize; 4]) -> String {
    let [seed, groomers, slopes, turns] = counts.map(|count| count.to_string());
    let words = [
        "--seed",
        &seed,
        "--groomers",
        &groomers,
        "--slopes",
        &slopes,
        "--turns",
        &turns,
    ];
    let sheet = folder.path("sheet");
    run(&[&["draw", "-o", sheet.as_str()], &words[..]].concat()).well();
    sheet
}

/// Through text and the kept form, the sheet is the same to the byte.
fn comes_back(folder: &Folder, sheet: &str, counts: [usize; 4]) {
    let bytes = fs::read(sheet).unwrap();
    let kept = folder.path("kept");
    run(&["keep", sheet, "-o", &kept]).well();
    assert_eq!(run(&["restore", &kept]).well().out, bytes);
    let csv = run(&["show", sheet]).well();
    assert_eq!(csv.out, run(&["show", &kept]).well().out);
    assert_eq!(csv.text().lines().count(), 1 + counts[3]);
    let [_, groomers, slopes, _] = counts.map(|count| count.to_string());
    let words = ["sheet", "-", "--groomers", &groomers, "--slopes", &slopes];
    assert_eq!(run_on(&words, &csv.out).well().out, bytes);
    let timed = run(&["show", sheet, "--from", "16:45", "--numbers"]).well();
    let words = [&words[..], &["--from", "16:45"]].concat();
    assert_eq!(run_on(&words, &timed.out).well().out, bytes);
}

/// Plan, check, list and the board's text agree. Gives the board and its choice.
fn planned(folder: &Folder, sheet: &str) -> (String, Vec<usize>) {
    let board = folder.path("board");
    let plan = run(&["plan", sheet, "-o", &board]).well();
    assert_eq!(plan.out, run(&["check", sheet, &board]).well().out);
    let listing = run(&["list", sheet]).well();
    assert_eq!(listing.text().lines().last(), plan.text().lines().next());
    let choice = chosen(plan.text());
    assert_eq!(listing.text().matches(" slope ").count(), choice.len());
    assert_eq!(choice, chosen(run(&["show", &board]).well().text()));
    (board, choice)
}

fn searched(folder: &Folder, sheet: &str, board: &str, choice: &[usize], turns: usize) {
    let map = folder.path("map");
    let improved = run(&["improve", sheet, "--visits", "2000", "-o", &map]);
    if turns > 64 {
        assert!(improved.refused().contains("(refused 22)"));
    } else {
        let ran = improved.well();
        assert!(worth(ran.text()) >= worth(run(&["check", sheet, board]).well().text()));
        let svg = run(&["picture", sheet, &map]).well();
        let bars = xml::of_class(&xml::tags(svg.text()).unwrap(), "chosen");
        assert_eq!(bars, chosen(ran.text()).len());
    }
    let best = run(&["best", sheet, "-o", &map]);
    if best.status == 0 {
        assert_eq!(chosen(best.text()), choice);
    } else {
        assert!(best.refused().contains("(refused 21)"));
    }
    let assigned = run(&["assign", sheet]).well();
    assert_eq!(assigned.text().lines().count(), 1 + turns);
}

/// The limit is no less than the worth, whatever the prices are.
fn limited(folder: &Folder, sheet: &str, board: &str, counts: [usize; 4]) {
    let worth = worth(run(&["check", sheet, board]).well().text());
    let limit_of = |answer: &str| -> u32 {
        let (_, limit) = answer.trim_end().rsplit_once("limit ").unwrap();
        limit.parse().unwrap()
    };
    assert!(limit_of(run(&["limit", sheet, "--free"]).well().text()) >= worth);
    let count = counts[2] + counts[3];
    let list: Vec<String> = (1..=count)
        .map(|place| (counts[0] * place * 977 % 9001).to_string())
        .collect();
    let prices = folder.put("prices", list.join("\n"));
    let limit = limit_of(run(&["limit", sheet, &prices]).well().text());
    assert!(limit >= worth);
    let svg = run(&["picture", sheet, board, "--prices", &prices]).well();
    assert_eq!(limit_of(&svg.err), limit);
    // a better board by rounds, and its prices read back
    let better = folder.path("better");
    let words = [
        "refine",
        sheet,
        "--rounds=30",
        "-o",
        &better,
        "--prices",
        &prices,
    ];
    let ran = run(&words).well();
    let [better_worth, limit, rounds] = [1, 3, 5].map(|place| figure(ran.text(), place));
    assert!(worth <= better_worth && better_worth <= limit && rounds <= 30);
    assert_eq!(
        better_worth == limit,
        ran.text().contains("no board earns more")
    );
    let checked = run(&["check", sheet, &better]).well();
    assert_eq!(figure(checked.text(), 1), better_worth);
    assert_eq!(chosen(checked.text()), chosen(ran.text()));
    assert_eq!(
        limit_of(run(&["limit", sheet, &prices]).well().text()),
        limit
    );
    let svg = run(&["picture", sheet, &better, "--rounds", "30"]).well();
    assert_eq!(limit_of(&svg.err), limit);
}

fn worth(answer: &str) -> u32 {
    figure(answer, 1)
}

/// The word at this place, from 0, as a number.
fn figure(answer: &str, place: usize) -> u32 {
    let word = answer.split_whitespace().nth(place).unwrap();
    word.parse().unwrap()
}

fn played(folder: &Folder, sheet: &str, board: &str, counts: [usize; 4]) {
    let mut csv = String::from("minutes,turn\n");
    for turn in (0..counts[3]).step_by(3) {
        csv += &format!("{},{turn}\n", turn % 121);
    }
    let delays = folder.put("delays.csv", csv);
    let ran = run(&["play", sheet, board, "--delays", &delays]).well();
    assert_eq!(ran.text().lines().count(), counts[1]);
    for line in ran.text().lines() {
        let words: Vec<&str> = line.split(' ').collect();
        let minutes = [words[3], words[5], words[7]].map(|word| word.parse::<u16>().unwrap());
        assert_eq!(minutes.iter().sum::<u16>(), 960, "{line}");
    }
}

fn pictured(sheet: &str, board: &str, bars: usize, turns: usize) {
    let svg = run(&["picture", sheet, board]).well();
    let tags = xml::tags(svg.text()).unwrap();
    assert_eq!(xml::of_class(&tags, "chosen"), bars);
    assert_eq!(xml::of_class(&tags, "other"), turns - bars);
}

/// The turns as windows of a hall: the same lines with other columns.
fn charged(folder: &Folder, sheet: &str, seed: usize) {
    let csv = run(&["show", sheet]).well();
    let mut lines = String::from("vehicle,draw,start,length,worth\n");
    for line in csv.text().lines().skip(1) {
        let values: Vec<usize> = line
            .split(',')
            .take(5)
            .map(|value| value.parse().unwrap())
            .collect();
        let (vehicle, draw) = (1 + values[0] % 60, 1 + values[4] % (1 + seed % 48));
        lines += &format!(
            "{vehicle},{draw},{},{},{}\n",
            values[2], values[3], values[4]
        );
    }
    let (hall, map) = (folder.path("hall"), folder.path("hall.map"));
    run_on(&["hall-sheet", "-", "-o", &hall], lines.as_bytes()).well();
    assert_eq!(run(&["show", &hall]).well().text(), lines);
    let plan = run(&["charge", &hall, "-o", &map]).well();
    rounds_of_hall(folder, &hall, worth(plan.text()));
    let svg = run(&["picture", &hall, &map]).well();
    assert!(svg
        .err
        .starts_with(&format!("worth {},", worth(plan.text()))));
    let tags = xml::tags(svg.text()).unwrap();
    assert_eq!(xml::of_class(&tags, "chosen"), chosen(plan.text()).len());
    assert_eq!(xml::of_class(&tags, "supply"), 1);
}

/// A better choice of windows by rounds, and its prices read back.
fn rounds_of_hall(folder: &Folder, hall: &str, planned: u32) {
    let (map, prices) = (folder.path("better.map"), folder.path("hall.prices"));
    let words = ["charge-refine", hall, "--rounds=10", "-o", &map];
    let ran = run(&[&words[..], &["--prices", &prices]].concat()).well();
    let [worth, limit, rounds] = [1, 3, 5].map(|place| figure(ran.text(), place));
    assert!(planned <= worth && worth <= limit && rounds <= 10);
    let met = ran.text().contains("no allowed set earns more");
    assert_eq!(worth == limit, met);
    let again = run(&["charge-limit", hall, &prices]).well();
    assert_eq!(figure(again.text(), 1), limit);
    let free = run(&["charge-limit", hall, "--free"]).well();
    assert!(figure(free.text(), 1) >= limit);
    let svg = run(&["picture", hall, &map, "--prices", &prices]).well();
    assert!(svg.err.starts_with(&format!("worth {worth},")));
    assert!(svg.err.ends_with(&format!(", limit {limit}\n")));
    let bars = xml::of_class(&xml::tags(svg.text()).unwrap(), "chosen");
    assert_eq!(bars, chosen(ran.text()).len());
}
