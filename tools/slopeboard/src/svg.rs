//! Text, lines and boxes in SVG.

use std::fmt::Write;

/// Where a text stands to its point.
#[derive(Clone, Copy)]
pub enum Anchor {
    Start,
    Middle,
    End,
}

/// A box by its upper left corner and its size.
#[derive(Clone, Copy)]
pub struct Area {
    pub x: f64,
    pub y: f64,
    pub width: f64,
    pub height: f64,
}

/// Parts of a picture, each on a line.
#[derive(Default)]
pub struct Svg {
    parts: String,
}

impl Svg {
    pub fn text(&mut self, x: f64, y: f64, size: u8, anchor: Anchor, text: &str) {
        if text.is_empty() {
            return;
        }
        let anchor = match anchor {
            Anchor::Start => "",
            Anchor::Middle => " text-anchor=\"middle\"",
            Anchor::End => " text-anchor=\"end\"",
        };
        let text = escaped(text);
        let _ = writeln!(
            self.parts,
            "<text x=\"{x:.1}\" y=\"{y:.1}\" font-size=\"{size}\"{anchor}>{text}</text>"
        );
    }

    /// A line from one point to another. The style is a few attributes.
    pub fn line(&mut self, from: (f64, f64), to: (f64, f64), style: &str) {
        let _ = writeln!(self.parts, "<line {} {style}/>", ends(from, to));
    }

    /// A line of a class, with a text that shows when it is pointed at.
    pub fn titled_line(&mut self, from: (f64, f64), to: (f64, f64), class: &str, title: &str) {
        let (ends, title) = (ends(from, to), escaped(title));
        let _ = writeln!(
            self.parts,
            "<line class=\"{class}\" {ends} stroke=\"#000\" stroke-width=\"2\"><title>{title}</title></line>"
        );
    }

    /// A box of a class, with a text that shows when it is pointed at.
    pub fn titled_box(&mut self, area: Area, class: &str, title: &str) {
        let Area {
            x,
            y,
            width,
            height,
        } = area;
        let title = escaped(title);
        let _ = writeln!(
            self.parts,
            "<rect class=\"{class}\" x=\"{x:.1}\" y=\"{y:.1}\" width=\"{width:.1}\" height=\"{height:.1}\" \
             fill=\"#ddd\" stroke=\"#000\"><title>{title}</title></rect>"
        );
    }

    /// A filled shape through these points.
    pub fn shape(&mut self, points: &[(f64, f64)], class: &str) {
        let points: Vec<String> = points
            .iter()
            .map(|(x, y)| format!("{x:.1},{y:.1}"))
            .collect();
        let points = points.join(" ");
        let _ = writeln!(
            self.parts,
            "<polygon class=\"{class}\" points=\"{points}\" fill=\"#ddd\" stroke=\"#000\"/>"
        );
    }

    /// All parts of the other come behind those of this one.
    pub fn append(&mut self, other: &Svg) {
        self.parts.push_str(&other.parts);
    }

    /// The whole picture.
    pub fn finish(&self, width: f64, height: f64, title: &str) -> String {
        let title = escaped(title);
        let parts = &self.parts;
        format!(
            "<svg xmlns=\"http://www.w3.org/2000/svg\" width=\"{width:.0}\" height=\"{height:.0}\" \
             viewBox=\"0 0 {width:.0} {height:.0}\" font-family=\"Helvetica, Arial, sans-serif\" role=\"img\">\n\
             <title>{title}</title>\n\
             <rect width=\"100%\" height=\"100%\" fill=\"#fff\"/>\n\
             {parts}</svg>\n"
        )
    }
}

/// How wide a text is at most, by its number of signs.
pub fn width(text: &str, size: u8) -> f64 {
    text.chars().count() as f64 * f64::from(size) * 0.6
}

fn ends(from: (f64, f64), to: (f64, f64)) -> String {
    let ((x1, y1), (x2, y2)) = (from, to);
    format!("x1=\"{x1:.1}\" y1=\"{y1:.1}\" x2=\"{x2:.1}\" y2=\"{y2:.1}\"")
}

fn escaped(text: &str) -> String {
    text.replace('&', "&amp;")
        .replace('<', "&lt;")
        .replace('>', "&gt;")
}
