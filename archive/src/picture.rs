//! Curves as a picture (SVG): a panel for each table whose rows have a place on a curve.

use crate::jobs::{BY_LENGTH, BY_LENGTH_WORST, BY_LINES, BY_MACROS};
use std::fmt::Write;

/// A point of a panel: best of the times in microseconds.
pub struct Point {
    pub table: String,
    pub at: f64,
    pub archive: f64,
    pub before: Option<f64>,
    pub rust: f64,
}

const WIDE: f64 = 400.0;
const HIGH: f64 = 300.0;
/// Room for the last figure of the panels to the right.
const MARGIN: f64 = 20.0;
/// Where the axes of a panel begin and end.
const LEFT: f64 = 64.0;
const RIGHT: f64 = 385.0;
const TOP: f64 = 50.0;
const BOTTOM: f64 = 255.0;

const STYLE: &str = "text{font-family:sans-serif;font-size:12px;fill:#222}\
.title{font-weight:bold}.small{font-size:11px;fill:#555}.axis{stroke:#667;fill:none}\
.grid{stroke:#ddd}.now{stroke:#0a5;stroke-width:2;fill:none}\
.before{stroke:#c50;stroke-width:2;stroke-dasharray:6 4;fill:none}\
.rust{stroke:#889;stroke-width:1.5;fill:none}";

/// Title, and what the two axes show.
const PANELS: [(&str, &str, &str, &str); 4] = [
    (BY_LENGTH, "A line of lyrics, 39 macros", "bytes of the line", "µs a line"),
    (BY_LENGTH_WORST, "168 times a*-, then b, on letters a", "bytes of the line", "µs a line"),
    (BY_MACROS, "The newest of the 40 macros, song lines", "macros", "µs a line"),
    (BY_LINES, "Section 10, all lines together", "lines", "µs"),
];

/// The next of 1, 2, 5, 10, 20 .. from which five steps reach a number.
fn step_for(most: f64) -> f64 {
    let mut step = 0.001;
    for times in [2.0, 2.5, 2.0].iter().cycle() {
        if step * 5.0 >= most {
            break;
        }
        step *= times;
    }
    step
}

struct Panel<'a> {
    points: Vec<&'a Point>,
    most_at: f64,
    most: f64,
}

impl Panel<'_> {
    fn x(&self, at: f64) -> f64 {
        LEFT + (RIGHT - LEFT) * at / self.most_at
    }

    fn y(&self, time: f64) -> f64 {
        BOTTOM - (BOTTOM - TOP) * time / self.most
    }

    fn curve(&self, out: &mut String, class: &str, time: impl Fn(&Point) -> Option<f64>) {
        let place =
            |point: &&Point| Some(format!("{:.1},{:.1}", self.x(point.at), self.y(time(point)?)));
        let places: Vec<String> = self.points.iter().filter_map(place).collect();
        if !places.is_empty() {
            let _ = writeln!(out, "<polyline class=\"{class}\" points=\"{}\"/>", places.join(" "));
        }
    }

    fn axes(&self, out: &mut String) {
        for (most, across) in [(self.most, false), (self.most_at, true)] {
            let step = step_for(most);
            let mut value = 0.0;
            while value <= most * 1.0001 {
                let label = crate::report::short(value).replace(".00", "").replace(".0", "");
                let (x, y) = (self.x(value), self.y(value));
                let _ = if across {
                    writeln!(out, "<text x=\"{x:.1}\" y=\"{:.1}\" class=\"small\" text-anchor=\"middle\">{label}</text>", BOTTOM + 16.0)
                } else {
                    writeln!(out, "<line x1=\"{LEFT}\" y1=\"{y:.1}\" x2=\"{RIGHT}\" y2=\"{y:.1}\" class=\"grid\"/><text x=\"{:.1}\" y=\"{:.1}\" class=\"small\" text-anchor=\"end\">{label}</text>", LEFT - 6.0, y + 4.0)
                };
                value += step;
            }
        }
        let _ = writeln!(out, "<path class=\"axis\" d=\"M{LEFT},{TOP} V{BOTTOM} H{RIGHT}\"/>");
    }
}

/// All points in one picture. The time of lines is of all together, the others are of one.
pub fn draw(points: &[Point]) -> String {
    let mut out = format!(
        "<svg xmlns=\"http://www.w3.org/2000/svg\" width=\"{0}\" height=\"{1}\" viewBox=\"0 0 {0} {1}\">\n<style>{STYLE}</style>\n",
        2.0 * WIDE + MARGIN,
        2.0 * HIGH + 30.0
    );
    for (index, (table, title, across, up)) in PANELS.iter().enumerate() {
        let points: Vec<&Point> = points.iter().filter(|point| point.table == *table).collect();
        let times = points.iter().flat_map(|p| [Some(p.archive), p.before, Some(p.rust)]);
        let most = times.flatten().fold(0.0, f64::max);
        let most_at = points.iter().map(|point| point.at).fold(0.0, f64::max);
        let panel = Panel { points, most_at, most };
        let (x, y) = (WIDE * (index % 2) as f64, HIGH * (index / 2) as f64);
        let _ = writeln!(out, "<g transform=\"translate({x},{y})\">");
        let _ = writeln!(out, "<text x=\"{LEFT}\" y=\"22\" class=\"title\">{title}</text>");
        let _ = writeln!(out, "<text x=\"{LEFT}\" y=\"40\" class=\"small\">{up}</text>");
        let _ = writeln!(
            out,
            "<text x=\"{RIGHT}\" y=\"{:.1}\" class=\"small\" text-anchor=\"end\">{across}</text>",
            BOTTOM + 32.0
        );
        panel.axes(&mut out);
        panel.curve(&mut out, "rust", |point| Some(point.rust));
        panel.curve(&mut out, "before", |point| point.before);
        panel.curve(&mut out, "now", |point| Some(point.archive));
        out.push_str("</g>\n");
    }
    let (y, names) = (
        2.0 * HIGH + 12.0,
        [("now", "archive"), ("before", "archive before"), ("rust", "Rust version")],
    );
    for (index, (class, name)) in names.iter().enumerate() {
        let x = LEFT + 180.0 * index as f64;
        let _ = writeln!(out, "<path class=\"{class}\" d=\"M{x},{y} h40\"/><text x=\"{:.1}\" y=\"{:.1}\">{name}</text>", x + 48.0, y + 4.0);
    }
    out.push_str("</svg>\n");
    out
}
