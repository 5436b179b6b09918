//! A chart with minutes along: rows of bars and thin lines, an axis, a legend.

use crate::clock;
use crate::svg::{width, Anchor, Area, Svg};
use std::iter;

const LEFT: f64 = 104.0;
const PLOT: f64 = 1080.0;
const RIGHT: f64 = 96.0;
const WIDTH: f64 = LEFT + PLOT + RIGHT;
const EDGE: f64 = 10.0;

const BAR: f64 = 30.0;
const BAR_PITCH: f64 = 34.0;
const LINE_PITCH: f64 = 12.0;
const LEAST_ROW: f64 = 42.0;

const SMALL: u8 = 10;
const LARGE: u8 = 12;
const TITLE: u8 = 16;

const GRID: &str = "stroke=\"#bbb\" stroke-dasharray=\"2 3\"";
const RULE: &str = "stroke=\"#000\"";
const DASHED: &str = "stroke=\"#000\" stroke-width=\"2\" stroke-dasharray=\"8 4\"";

/// A turn or a window. A bar has the first pair of labels that fits, one above
/// the other; if none does, a text is put beside it where there is room, and
/// else the short one into it if that fits.
pub struct Span {
    pub start: u16,
    pub end: u16,
    pub labels: Vec<(String, String)>,
    pub beside: String,
    pub short: String,
    pub title: String,
}

/// What is drawn side by side: the chosen ones as bars, the others below.
pub struct Row {
    pub name: String,
    pub note: String,
    pub chosen: Vec<Span>,
    pub others: Vec<Span>,
}

/// A picture that grows downward.
pub struct Chart {
    grid: Svg,
    parts: Svg,
    title: String,
    minutes: u16,
    from: Option<u64>,
    top: f64,
    y: f64,
}

impl Chart {
    /// A chart of the minutes up to the last end.
    pub fn new(title: String, last: u16, from: Option<u64>) -> Chart {
        let mut parts = Svg::default();
        parts.text(EDGE, 26.0, TITLE, Anchor::Start, &title);
        let mut chart = Chart {
            grid: Svg::default(),
            parts,
            title,
            minutes: last.max(1).next_multiple_of(60),
            from,
            top: 60.0,
            y: 60.0,
        };
        chart.ticks(chart.top - 6.0);
        chart.rule();
        chart
    }

    fn x(&self, minute: u16) -> f64 {
        LEFT + PLOT * f64::from(minute) / f64::from(self.minutes)
    }

    /// The minutes that are named, at most 16 and the last.
    fn named(&self) -> impl Iterator<Item = u16> {
        let step = [10, 15, 30, 60]
            .into_iter()
            .find(|step| self.minutes / step <= 16);
        (0..=self.minutes).step_by(step.unwrap_or(60).into())
    }

    fn ticks(&mut self, y: f64) {
        for minute in self.named() {
            let label = clock::shown(minute, self.from);
            self.parts
                .text(self.x(minute), y, SMALL, Anchor::Middle, &label);
        }
    }

    fn rule(&mut self) {
        self.parts
            .line((EDGE, self.y), (WIDTH - EDGE, self.y), RULE);
    }

    /// The heading at the left of what comes next.
    fn heading(&mut self, name: &str, note: &str) {
        self.parts
            .text(EDGE, self.y + 19.0, LARGE, Anchor::Start, name);
        self.parts
            .text(EDGE, self.y + 34.0, SMALL, Anchor::Start, note);
    }

    pub fn row(&mut self, row: &Row) {
        let top = self.y;
        self.heading(&row.name, &row.note);
        let bars = self.bars(&row.chosen, top + 4.0);
        let lines = self.lines(&row.others, bars);
        self.y = lines.max(top + LEAST_ROW) + 4.0;
        self.rule();
    }

    /// Draws bars from here on and gives where they end.
    fn bars(&mut self, spans: &[Span], top: f64) -> f64 {
        let ends: Vec<(f64, f64)> = spans
            .iter()
            .map(|span| (self.x(span.start), self.x(span.end)))
            .collect();
        let lanes = lanes(&ends);
        for ((span, (start, end)), lane) in spans.iter().zip(&ends).zip(&lanes) {
            let area = Area {
                x: *start,
                y: top + BAR_PITCH * *lane as f64,
                width: end - start,
                height: BAR,
            };
            let later = ends
                .iter()
                .zip(&lanes)
                .filter(|((x, _), other)| *other == lane && x >= end);
            let next = later.map(|((x, _), _)| *x).fold(WIDTH - EDGE, f64::min);
            self.parts.titled_box(area, "chosen", &span.title);
            self.label(span, area, next);
        }
        let used = lanes.iter().max().map_or(1, |lane| lane + 1);
        top + BAR_PITCH * used as f64
    }

    /// The label of a bar: in it, or beside it if there is room up to the next,
    /// or as much as fits.
    fn label(&mut self, span: &Span, area: Area, next: f64) {
        let room = area.width - 3.0;
        let fits = |text: &str| width(text, SMALL) <= room;
        let mut pairs = span.labels.iter();
        let middle = area.x + area.width / 2.0;
        let after = area.x + area.width + 3.0;
        if let Some((upper, lower)) = pairs.find(|(upper, lower)| fits(upper) && fits(lower)) {
            for (text, y) in [(upper, 13.0), (lower, 25.0)] {
                self.parts
                    .text(middle, area.y + y, SMALL, Anchor::Middle, text);
            }
        } else if after + width(&span.beside, SMALL) + 3.0 <= next {
            self.parts
                .text(after, area.y + 19.0, SMALL, Anchor::Start, &span.beside);
        } else if fits(&span.short) {
            self.parts
                .text(middle, area.y + 19.0, SMALL, Anchor::Middle, &span.short);
        }
    }

    /// Draws thin lines with a text beside each, and gives where they end.
    fn lines(&mut self, spans: &[Span], top: f64) -> f64 {
        let end = |span: &Span| self.x(span.end) + 4.0 + width(&span.beside, SMALL);
        let ends: Vec<(f64, f64)> = spans
            .iter()
            .map(|span| (self.x(span.start), end(span) + 6.0))
            .collect();
        let lanes = lanes(&ends);
        for (span, lane) in spans.iter().zip(&lanes) {
            let y = top + LINE_PITCH * (*lane as f64 + 0.5);
            let (from, to) = ((self.x(span.start), y), (self.x(span.end), y));
            self.parts.titled_line(from, to, "other", &span.title);
            self.parts
                .text(to.0 + 4.0, y + 3.5, SMALL, Anchor::Start, &span.beside);
        }
        let used = lanes.iter().max().map_or(0, |lane| lane + 1);
        top + LINE_PITCH * used as f64
    }

    /// An area of the units drawn in each minute, and a dashed line at the most
    /// that there are.
    pub fn supply(&mut self, drawn: &[u32], units: u32) {
        const HEIGHT: f64 = 150.0;
        let most = drawn
            .iter()
            .fold(units.max(1), |most, value| most.max(*value));
        let base = self.y + 16.0 + HEIGHT;
        let y = |value: u32| base - HEIGHT * f64::from(value) / f64::from(most);
        let mut points = vec![(self.x(0), base)];
        let mut before = 0;
        for (minute, value) in (0..self.minutes).zip(drawn.iter().copied().chain(iter::repeat(0))) {
            if value != before {
                points.push((self.x(minute), y(before)));
                points.push((self.x(minute), y(value)));
            }
            before = value;
        }
        points.push((self.x(self.minutes), y(before)));
        points.push((self.x(self.minutes), base));
        self.heading("units", "drawn");
        self.parts.shape(&points, "supply");
        for value in [0, units] {
            let (x, y) = (LEFT - 6.0, y(value) + 3.5);
            self.parts
                .text(x, y, SMALL, Anchor::End, &value.to_string());
        }
        let (left, right) = (LEFT, LEFT + PLOT);
        self.parts.line((left, y(units)), (right, y(units)), DASHED);
        self.y = base + 10.0;
        self.rule();
    }

    /// The axis below, and lines at the named minutes from top to bottom.
    pub fn axis(&mut self) {
        for minute in self.named() {
            let x = self.x(minute);
            self.grid.line((x, self.top), (x, self.y), GRID);
        }
        self.ticks(self.y + 14.0);
        self.y += 28.0;
    }

    /// A line of text below.
    pub fn caption(&mut self, text: &str, large: bool) {
        let size = if large { TITLE } else { LARGE };
        self.y += if large { 22.0 } else { 18.0 };
        self.parts.text(EDGE, self.y, size, Anchor::Start, text);
    }

    /// A sample of a bar, with its two labels and what it means.
    pub fn bar_legend(&mut self, upper: &str, lower: &str, text: &str) {
        let area = Area {
            x: EDGE,
            y: self.y + 14.0,
            width: 86.0,
            height: BAR,
        };
        self.parts.titled_box(area, "sample", text);
        self.parts
            .text(EDGE + 43.0, area.y + 13.0, SMALL, Anchor::Middle, upper);
        self.parts
            .text(EDGE + 43.0, area.y + 25.0, SMALL, Anchor::Middle, lower);
        self.legend_text(area.y + 19.0, text);
        self.y += 14.0 + BAR;
    }

    /// A sample of a thin line, with its text and what it means.
    pub fn line_legend(&mut self, beside: &str, text: &str) {
        let y = self.y + 16.0;
        self.parts.line(
            (EDGE, y),
            (EDGE + 26.0, y),
            "stroke=\"#000\" stroke-width=\"2\"",
        );
        self.parts
            .text(EDGE + 30.0, y + 3.5, SMALL, Anchor::Start, beside);
        self.legend_text(y + 4.0, text);
        self.y = y + 6.0;
    }

    /// A sample of the dashed line, and what it means.
    pub fn dashed_legend(&mut self, text: &str) {
        let y = self.y + 18.0;
        self.parts.line((EDGE, y), (EDGE + 86.0, y), DASHED);
        self.legend_text(y + 4.0, text);
        self.y = y;
    }

    fn legend_text(&mut self, y: f64, text: &str) {
        self.parts.text(EDGE + 100.0, y, LARGE, Anchor::Start, text);
    }

    /// The whole picture.
    pub fn finish(self) -> String {
        let mut all = self.grid;
        all.append(&self.parts);
        all.finish(WIDTH, self.y + 18.0, &self.title)
    }
}

/// Gives each span the first lane that is free at its start.
fn lanes(ends: &[(f64, f64)]) -> Vec<usize> {
    let mut order: Vec<usize> = (0..ends.len()).collect();
    order.sort_by(|a, b| ends[*a].0.total_cmp(&ends[*b].0));
    let mut taken: Vec<f64> = Vec::new();
    let mut lanes = vec![0; ends.len()];
    for place in order {
        let (start, end) = ends[place];
        let free = taken.iter().position(|until| *until <= start);
        let lane = free.unwrap_or(taken.len());
        match taken.get_mut(lane) {
            Some(until) => *until = end,
            None => taken.push(end),
        }
        lanes[place] = lane;
    }
    lanes
}

#[cfg(test)]
mod tests {
    use super::lanes;

    #[test]
    fn spans_that_meet_get_different_lanes() {
        let ends = [
            (30.0, 90.0),
            (0.0, 60.0),
            (60.0, 70.0),
            (90.0, 95.0),
            (65.0, 66.0),
        ];
        assert_eq!(lanes(&ends), [1, 0, 0, 0, 2]);
    }
}
