// Takes a small shift through the whole library, a function for each part of
// it, and prints what comes back: the board, the listing, how many groomers do
// all turns, limits and better boards by prices, the search, the best worth of
// one turn a slope, the shift played, the kept form, a charging hall and a drawn
// sheet. examples/shift.c is the same in C.

use slopeboard::{Refusal, Standing};
use std::process::ExitCode;

/// Slope, groomer, start, length, worth and driver of each turn, in any order.
/// Driver 0 is none.
const TURNS: [[u16; slopeboard::NUMBERS_PER_TURN]; 4] = [
    [1, 1, 0, 60, 100, 0],
    [2, 1, 30, 60, 150, 0],
    [1, 2, 0, 120, 80, 0],
    [3, 2, 120, 60, 90, 0],
];

const SLOPES: usize = 3;

fn main() -> ExitCode {
    match show_all() {
        Ok(()) => ExitCode::SUCCESS,
        Err(refusal) => {
            eprintln!("{refusal}");
            ExitCode::FAILURE
        }
    }
}

fn show_all() -> Result<(), Refusal> {
    let mut sheet = [0; slopeboard::MOST_SHEET_BYTES];
    let len = slopeboard::write(2, SLOPES as u32, TURNS.as_flattened(), &mut sheet)?;
    let sheet = &sheet[..len];
    let mut board = [0; slopeboard::board_bytes(TURNS.len())];
    let len = slopeboard::plan(sheet, &mut board)?;
    let board = &board[..len];

    show_sheet(sheet)?;
    show_board(sheet, board)?;
    show_listing(sheet)?;
    show_groomers(sheet)?;
    show_prices(sheet)?;
    show_search(sheet)?;
    show_one_turn_a_slope()?;
    show_play(sheet, board)?;
    show_archive(sheet)?;
    show_hall()?;
    show_drawn()
}

/// The sheet has the turns sorted, and from there on they are numbered as it has
/// them: here 0, 2, 1, 3 of those above.
fn show_sheet(sheet: &[u8]) -> Result<(), Refusal> {
    let mut table = [0; slopeboard::NUMBERS_PER_TURN * TURNS.len()];
    let counts = slopeboard::read(sheet, &mut table)?;
    println!(
        "{} groomers, {} slopes, {} turns",
        counts.groomers, counts.slopes, counts.turns
    );
    for (turn, row) in table.chunks_exact(slopeboard::NUMBERS_PER_TURN).enumerate() {
        println!(
            "turn {turn}: slope {} groomer {} from {} worth {}",
            row[0], row[1], row[2], row[4]
        );
    }
    Ok(())
}

/// The planned board. Whoever made a board, the check tells whether it is right.
fn show_board(sheet: &[u8], board: &[u8]) -> Result<(), Refusal> {
    slopeboard::open(board)?;
    for step in slopeboard::steps(board).chunks_exact(4) {
        let turn = u16::from_be_bytes([step[0], step[1]]);
        let amount = u16::from_be_bytes([step[2], step[3]]);
        println!("step on turn {turn} for {amount}");
    }
    let chosen = slopeboard::count(board)?;
    println!("{chosen} of {} turns are driven", TURNS.len());
    for turn in 0..TURNS.len() {
        if slopeboard::is_chosen(board, turn) {
            println!("turn {turn} is driven");
        }
    }
    let sums = slopeboard::check(sheet, board)?;
    println!(
        "checked: worth {} tally {} ceiling {}",
        sums.worth, sums.tally, sums.ceiling
    );
    Ok(())
}

fn show_listing(sheet: &[u8]) -> Result<(), Refusal> {
    let mut text = [0; slopeboard::MOST_TEXT_BYTES];
    let len = slopeboard::list(sheet, &mut text)?;
    print!("{}", String::from_utf8_lossy(&text[..len]));
    Ok(())
}

/// Which groomer takes which turn, where every turn is done and each groomer can take each.
fn show_groomers(sheet: &[u8]) -> Result<(), Refusal> {
    let mut groomers = [0; TURNS.len()];
    let count = slopeboard::assign(sheet, &mut groomers)?;
    println!("all turns take {count} groomers");
    for (turn, groomer) in groomers.iter().enumerate() {
        println!("turn {turn} by groomer {groomer}");
    }
    Ok(())
}

/// A price for each slope, then for each turn. Any prices give a limit; rounds
/// look for a low one and a better board. Where both meet, no board is worth more.
fn show_prices(sheet: &[u8]) -> Result<(), Refusal> {
    let mut prices = [0; SLOPES + TURNS.len()];
    prices[..SLOPES].copy_from_slice(&[60, 40, 10]);
    println!(
        "limit at slopes' prices 60, 40, 10: {}",
        slopeboard::limit(sheet, &prices)?
    );
    let mut board = [0; slopeboard::board_bytes(TURNS.len())];
    let refined = slopeboard::refine(sheet, 100, &mut board, &mut prices)?;
    println!(
        "refined: worth {} limit {} after {} rounds",
        refined.worth, refined.limit, refined.rounds
    );
    Ok(())
}

/// The search for a better choice of few turns, with at most a thousand visits.
fn show_search(sheet: &[u8]) -> Result<(), Refusal> {
    let mut map = [0; slopeboard::map_bytes(TURNS.len())];
    let found = slopeboard::improve(sheet, 1000, &mut map)?;
    let whole = if found.whole { "all" } else { "not all" };
    println!(
        "searched: worth {} map {:02X}, {} visits, {whole} sets",
        found.worth, map[0], found.visits
    );
    Ok(())
}

/// The shift without its second turn on slope 1: now a table gives the best.
fn show_one_turn_a_slope() -> Result<(), Refusal> {
    let mut sheet = [0; slopeboard::MOST_SHEET_BYTES];
    let turns = [TURNS[0], TURNS[1], TURNS[3]];
    let len = slopeboard::write(2, SLOPES as u32, turns.as_flattened(), &mut sheet)?;
    let mut map = [0; slopeboard::map_bytes(3)];
    let worth = slopeboard::best(&sheet[..len], &mut map)?;
    println!("one turn a slope: best worth {worth} map {:02X}", map[0]);
    Ok(())
}

/// The board played with turn 2 a quarter of an hour late.
fn show_play(sheet: &[u8], board: &[u8]) -> Result<(), Refusal> {
    let mut list = [Standing::default(); 2];
    slopeboard::play(sheet, board, &[0, 0, 15, 0], &mut list)?;
    for (groomer, minutes) in (1..).zip(list) {
        println!(
            "groomer {groomer} works {} drives {} stands {}",
            minutes.working, minutes.driving, minutes.standing
        );
    }
    Ok(())
}

/// The sheet by column, and back.
fn show_archive(sheet: &[u8]) -> Result<(), Refusal> {
    let mut kept = [0; slopeboard::MOST_SHEET_BYTES];
    let mut restored = [0; slopeboard::MOST_SHEET_BYTES];
    let kept_len = slopeboard::keep(sheet, &mut kept)?;
    let len = slopeboard::restore(&kept[..kept_len], &mut restored)?;
    let same = if restored[..len] == *sheet {
        "the same"
    } else {
        "another"
    };
    println!("kept in {kept_len} bytes, restored: {same} sheet");
    Ok(())
}

/// A hall of 10 units and 2 vehicles, with three windows.
const HALL: [u8; 29] = [
    b'G', b'R', b'E', 10, 2, 0, 3, // units, vehicles, windows
    0x1F, 1, 6, 0, 0, 0, 10, 0, 100, // vehicle 1 draws 6 in minutes 0 to 9, worth 100
    0x16, 3, 0, 20, 0, 90, // again vehicle 1: draws 3 in minutes 20 to 29, worth 90
    0x17, 2, 5, 0, 5, 0, 80, // vehicle 2 draws 5 in minutes 5 to 14, worth 80
];

/// The hall's plan; a limit with a price of 40 sixteenths on minute 5; rounds.
fn show_hall() -> Result<(), Refusal> {
    let mut map = [0; slopeboard::map_bytes(3)];
    let worth = slopeboard::charge(&HALL, &mut map)?;
    println!("hall: worth {worth} map {:02X}", map[0]);
    let mut prices = [0; slopeboard::MINUTES];
    prices[5] = 40;
    println!(
        "hall's limit at a price in minute 5: {}",
        slopeboard::charge_limit(&HALL, &prices)?
    );
    let refined = slopeboard::charge_refine(&HALL, 100, &mut map, &mut prices)?;
    println!(
        "hall refined: worth {} limit {} after {} rounds",
        refined.worth, refined.limit, refined.rounds
    );
    Ok(())
}

/// The same hard sheet on every box: 64 turns from seed 7, for 4 groomers on 20
/// slopes. The planned board, and what rounds make of it.
fn show_drawn() -> Result<(), Refusal> {
    let mut sheet = [0; slopeboard::MOST_SHEET_BYTES];
    let len = slopeboard::draw(7, 4, 20, 64, &mut sheet)?;
    let sheet = &sheet[..len];
    let mut table = [0; slopeboard::NUMBERS_PER_TURN * slopeboard::MOST_SHORT_TURNS];
    let counts = slopeboard::read_short(sheet, &mut table)?;
    println!("drawn: {} turns in {len} bytes", counts.turns);
    let mut board = [0; slopeboard::board_bytes(64)];
    let len = slopeboard::plan(sheet, &mut board)?;
    let sums = slopeboard::check(sheet, &board[..len])?;
    println!("planned: worth {} ceiling {}", sums.worth, sums.ceiling);
    let mut prices = [0; 20 + 64];
    let refined = slopeboard::refine(sheet, 100, &mut board, &mut prices)?;
    println!(
        "refined: worth {} limit {} after {} rounds",
        refined.worth, refined.limit, refined.rounds
    );
    Ok(())
}
