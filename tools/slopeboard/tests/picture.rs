//! The pictures: they parse, and each chosen turn is a bar. The one in the
//! documents is what the program makes of the example now.

mod common;

use common::{bytes, chosen, repository, run, run_on, xml, Folder, BOARD, HALL_CSV, SHEET};
use std::fs;

#[test]
fn the_worked_board() {
    let folder = Folder::new("picture_worked");
    let (sheet, board) = (
        folder.put("sheet", bytes(SHEET)),
        folder.put("board", bytes(BOARD)),
    );
    let svg = folder.path("board.svg");
    let ran = run(&["picture", &sheet, &board, "-o", &svg]).well();
    assert_eq!(ran.text(), "worth 240 tally 240 ceiling 340\n");
    let svg = fs::read_to_string(svg).unwrap();
    let tags = xml::tags(&svg).unwrap();
    assert!(tags[0].starts_with("svg xmlns=\"http://www.w3.org/2000/svg\""));
    assert_eq!(xml::of_class(&tags, "chosen"), 2);
    assert_eq!(xml::of_class(&tags, "other"), 2);
    let titles = [
        "turn 0: slope 1, 0 to 60, worth 100",
        "turn 1: slope 2, 30 to 90, worth 150",
        "turn 2: slope 1, 0 to 120, worth 80",
        "turn 3: slope 3, 120 to 180, worth 90",
    ];
    for title in titles {
        assert!(svg.contains(&format!("<title>{title}</title>")), "{title}");
    }
    for text in [
        ">groomer 1<",
        ">groomer 2<",
        ">worth 240 tally 240 ceiling 340<",
    ] {
        assert!(svg.contains(text), "{text}");
    }
}

#[test]
fn the_limit_beside_the_sums() {
    let folder = Folder::new("picture_limit");
    let sheet = folder.put("sheet", bytes(SHEET));
    let (board, map) = (folder.put("board", bytes(BOARD)), folder.put("map", [0x0a]));
    let free = folder.put("free", "0 0 0 0 0 0 0");
    let some = folder.put("some", "60 40 10 0 0 0 0");
    let none_above =
        ">No choice of turns without a conflict is worth more than the ceiling, or than the limit.";
    for (prices, choice, sums) in [
        (&free, &board, "worth 240 tally 240 ceiling 340 limit 240"),
        (&some, &board, "worth 240 tally 240 ceiling 340 limit 300"),
        (&free, &map, "worth 240 ceiling 340 limit 240"),
    ] {
        let ran = run(&["picture", &sheet, choice, "--prices", prices]).well();
        assert_eq!(ran.err, format!("{sums}\n"));
        xml::tags(ran.text()).unwrap();
        assert!(ran.text().contains(&format!(">{sums}<")));
        assert!(ran.text().contains(none_above));
        // only of a board that was checked, and where the two are equal
        let met = ran
            .text()
            .contains(">The limit is the worth: no board earns more.<");
        assert_eq!(met, prices == &free && choice == &board);
    }
}

#[test]
fn the_worked_hall() {
    let folder = Folder::new("picture_hall");
    let hall = folder.put(
        "hall",
        run_on(&["hall-sheet", "-"], HALL_CSV.as_bytes()).well().out,
    );
    let map = folder.put("map", [0x03]);
    let ran = run(&["picture", &hall, &map]).well();
    assert_eq!(ran.err, "worth 190, at most 9 of 10 units drawn\n");
    let tags = xml::tags(ran.text()).unwrap();
    assert_eq!(xml::of_class(&tags, "chosen"), 2);
    assert_eq!(xml::of_class(&tags, "other"), 3);
    assert_eq!(xml::of_class(&tags, "supply"), 1);
    let long = folder.put("long", [0x03, 0x00]);
    assert!(run(&["picture", &hall, &long])
        .refused()
        .contains("it has 2 bytes"));
    let high = folder.put("high", [0x23]);
    assert!(run(&["picture", &hall, &high])
        .refused()
        .contains("it chooses number 5"));
}

#[test]
fn sheets_with_no_turns_and_the_shortest_turns() {
    let folder = Folder::new("picture_edges");
    for (name, lines) in [("none", ""), ("short", "1,1,959,1,60000,40\n2,1,0,1,1,\n")] {
        let csv = format!("slope,groomer,start,length,worth,driver\n{lines}");
        let sheet = folder.put(name, run_on(&["sheet", "-"], csv.as_bytes()).well().out);
        let board = folder.put("board", run(&["plan", &sheet]).well().out);
        let svg = run(&["picture", &sheet, &board]).well();
        let tags = xml::tags(svg.text()).unwrap();
        assert_eq!(xml::of_class(&tags, "chosen"), lines.lines().count());
    }
}

#[test]
fn the_picture_in_the_documents_and_the_readme() {
    let folder = Folder::new("picture_documents");
    let (sheet, board) = (folder.path("shift.sheet"), folder.path("shift.board"));
    let csv = repository("examples/shift.csv");
    let made = run(&["sheet", &csv, "--from", "17:00", "-o", &sheet]).well();
    let plan = run(&["plan", &sheet, "-o", &board]).well();
    let words = ["picture", &sheet, &board, "--rounds", "100"];
    let svg = run(&[&words[..], &["--from", "17:00"]].concat()).well();
    let stored = fs::read_to_string(repository("docs/board.svg")).unwrap();
    assert!(
        svg.text() == stored,
        "docs/board.svg is not what the program makes"
    );
    let tags = xml::tags(&stored).unwrap();
    assert_eq!(xml::of_class(&tags, "chosen"), chosen(plan.text()).len());
    // what the README shows is what is printed
    let readme = fs::read_to_string(repository("tools/slopeboard/README.md")).unwrap();
    let printed = format!("```\n{}{}{}```\n", made.text(), plan.text(), svg.err);
    assert!(readme.contains(&printed), "{printed}");
    let refined = run(&["refine", &sheet, "--rounds", "100"]).well();
    let improved = run(&["improve", &sheet, "--visits", "20000000"]).well();
    for better in [refined, improved] {
        let printed = format!("```\n{}```\n", better.err);
        assert!(readme.contains(&printed), "{printed}");
    }
    let lines = fs::read_to_string(csv).unwrap();
    let first: String = lines.split_inclusive('\n').take(3).collect();
    assert!(readme.contains(&format!("```\n{first}```\n")));
}
