//! Pictures of a board and of a hall's plan.

use crate::chart::{Chart, Row, Span};
use crate::clock;
use crate::hall::{Hall, Window};
use crate::sheet::{Sheet, Turn};

/// A row for each groomer, with its chosen turns as bars and the others as thin
/// lines; below, the sums and what they mean.
pub fn board(sheet: &Sheet, chosen: &[usize], captions: &[&str], from: Option<u64>) -> String {
    let count = sheet.turns.len();
    let last = sheet.turns.iter().map(Turn::end).max().unwrap_or(0);
    let title = format!("Board: {} of {count} turns are chosen", chosen.len());
    let mut chart = Chart::new(title, last, from);
    for groomer in 1..=sheet.groomers {
        chart.row(&groomer_row(sheet, chosen, groomer, from));
    }
    chart.axis();
    for (place, caption) in captions.iter().enumerate() {
        chart.caption(caption, place == 0);
    }
    chart.bar_legend(
        "slope 2",
        "150",
        "a chosen turn: its slope above, its worth below",
    );
    chart.line_legend(
        "2 / 150",
        "a turn that is not chosen, or a short bar's label: slope / worth",
    );
    if sheet.turns.iter().any(|turn| turn.driver != 0) {
        chart.caption("d3 stands for driver 3.", false);
    }
    chart.finish()
}

fn groomer_row(sheet: &Sheet, chosen: &[usize], groomer: u16, from: Option<u64>) -> Row {
    let mut row = Row {
        name: format!("groomer {groomer}"),
        note: String::new(),
        chosen: Vec::new(),
        others: Vec::new(),
    };
    let mut worth = 0;
    for (number, turn) in sheet.turns.iter().enumerate() {
        if turn.groomer != groomer {
            continue;
        }
        let span = turn_span(number, turn, from);
        if chosen.binary_search(&number).is_ok() {
            worth += u32::from(turn.worth);
            row.chosen.push(span);
        } else {
            row.others.push(span);
        }
    }
    row.note = format!("worth {worth}");
    row
}

fn turn_span(number: usize, turn: &Turn, from: Option<u64>) -> Span {
    let Turn {
        slope,
        worth,
        driver,
        ..
    } = turn;
    let (start, end) = (
        clock::shown(turn.start, from),
        clock::shown(turn.end(), from),
    );
    let mut labels = vec![
        (format!("slope {slope}"), worth.to_string()),
        (slope.to_string(), worth.to_string()),
    ];
    let mut beside = format!("{slope} / {worth}");
    let mut title = format!("turn {number}: slope {slope}, {start} to {end}, worth {worth}");
    if *driver != 0 {
        let lower = format!("{worth} d{driver}");
        labels.insert(1, (slope.to_string(), lower.clone()));
        labels.insert(0, (format!("slope {slope}"), lower));
        beside += &format!(" d{driver}");
        title += &format!(", driver {driver}");
    }
    Span {
        start: turn.start,
        end: turn.end(),
        labels,
        beside,
        short: slope.to_string(),
        title,
    }
}

/// The units drawn in each minute against those that there are; below, the
/// chosen windows as bars and the others as thin lines.
pub fn hall(hall: &Hall, chosen: &[usize], captions: &[&str], from: Option<u64>) -> String {
    let count = hall.windows.len();
    let last = hall.windows.iter().map(Window::end).max().unwrap_or(0);
    let title = format!("Hall: {} of {count} windows are chosen", chosen.len());
    let mut chart = Chart::new(title, last, from);
    chart.supply(&drawn(hall, chosen), hall.units.into());
    let spans = |wanted: bool| {
        let numbered = hall.windows.iter().enumerate();
        let kept = numbered.filter(move |(number, _)| chosen.contains(number) == wanted);
        kept.map(|(number, window)| window_span(number, window, from))
            .collect()
    };
    chart.row(&Row {
        name: String::from("windows"),
        note: String::new(),
        chosen: spans(true),
        others: spans(false),
    });
    chart.axis();
    for (place, caption) in captions.iter().enumerate() {
        chart.caption(caption, place == 0);
    }
    chart.dashed_legend("the units of the hall; the grey area is what the chosen windows draw");
    chart.bar_legend(
        "vehicle 1",
        "5 / 100",
        "a chosen window: its vehicle above, its draw / worth below",
    );
    chart.line_legend(
        "1 / 5 / 100",
        "a window that is not chosen, or a short bar's label: vehicle / draw / worth",
    );
    chart.finish()
}

/// What the chosen windows draw in each minute.
fn drawn(hall: &Hall, chosen: &[usize]) -> Vec<u32> {
    let last = hall.windows.iter().map(Window::end).max().unwrap_or(0);
    let mut drawn = vec![0; usize::from(last)];
    for number in chosen {
        let window = &hall.windows[*number];
        for minute in window.start..window.end() {
            drawn[usize::from(minute)] += u32::from(window.draw);
        }
    }
    drawn
}

/// What the chosen windows are worth, and the most that they draw.
pub fn hall_sums(hall: &Hall, chosen: &[usize]) -> (u32, u32) {
    let worth = chosen
        .iter()
        .map(|number| u32::from(hall.windows[*number].worth))
        .sum();
    (worth, drawn(hall, chosen).into_iter().max().unwrap_or(0))
}

pub fn hall_line(hall: &Hall, chosen: &[usize]) -> String {
    let (worth, peak) = hall_sums(hall, chosen);
    format!(
        "worth {worth}, at most {peak} of {} units drawn",
        hall.units
    )
}

fn window_span(number: usize, window: &Window, from: Option<u64>) -> Span {
    let Window {
        vehicle,
        draw,
        worth,
        ..
    } = window;
    let (start, end) = (
        clock::shown(window.start, from),
        clock::shown(window.end(), from),
    );
    let lower = format!("{draw} / {worth}");
    Span {
        start: window.start,
        end: window.end(),
        labels: vec![
            (format!("vehicle {vehicle}"), lower.clone()),
            (vehicle.to_string(), lower),
        ],
        beside: format!("{vehicle} / {draw} / {worth}"),
        short: vehicle.to_string(),
        title: format!(
            "window {number}: vehicle {vehicle}, {start} to {end}, draw {draw}, worth {worth}"
        ),
    }
}
