//! The growth of start, pick and whole check as an SVG plot with logarithmic axes.

use crate::rows::{time, Row};
use std::fmt::Write;

const WIDTH: f64 = 760.0;
const HEIGHT: f64 = 520.0;
const LEFT: f64 = 80.0;
const RIGHT: f64 = 510.0;
const TOP: f64 = 50.0;
const BOTTOM: f64 = 450.0;

/// The things plotted: their place in a row of growth, a label and a colour.
const THINGS: [(usize, &str, &str); 3] =
    [(3, "whole check", "#b02a30"), (2, "one pick", "#1f5fa8"), (1, "start", "#2f7d3b")];

/// How a curve is drawn; the inside of its marks, if it has any.
#[derive(Clone, Copy)]
struct Style {
    colour: &'static str,
    dashes: &'static str,
    marks: Option<&'static str>,
}

/// A logarithmic axis from `low` to `high`, drawn from `from` to `to`.
struct Axis {
    low: f64,
    high: f64,
    from: f64,
    to: f64,
}

impl Axis {
    fn at(&self, value: f64) -> f64 {
        let part = (value / self.low).ln() / (self.high / self.low).ln();
        self.from + part * (self.to - self.from)
    }
}

struct Plot {
    svg: String,
    x: Axis,
    y: Axis,
    /// Where the next line of the legend goes.
    legend: f64,
}

/// There is C of all that is plotted.
fn in_c(row: &Row) -> f64 {
    row.c.unwrap_or(row.plain)
}

pub fn draw(growth: &[[Row; 4]]) -> String {
    let arcs = |rows: &[Row; 4]| rows[0].size.map_or(1.0, |size| size.m as f64);
    let times = || {
        growth.iter().flat_map(|rows| &rows[1..]).flat_map(|row| [row.proved, row.plain, in_c(row)])
    };
    let low = times().fold(f64::MAX, f64::min).log10().floor();
    let high = times().fold(0.0, f64::max).log10().ceil();
    let x = Axis {
        low: arcs(&growth[0]),
        high: arcs(&growth[growth.len() - 1]),
        from: LEFT + 20.0,
        to: RIGHT - 20.0,
    };
    let y = Axis { low: 10f64.powf(low), high: 10f64.powf(high), from: BOTTOM, to: TOP };
    let mut plot = Plot { svg: String::new(), x, y, legend: TOP + 14.0 };
    plot.frame(growth);
    for (thing, label, colour) in THINGS {
        let points = |of: fn(&Row) -> f64| -> Vec<(f64, f64)> {
            growth.iter().map(|rows| (arcs(rows), of(&rows[thing]))).collect()
        };
        let plain = Style { colour, dashes: "6 4", marks: Some("white") };
        let c = Style { colour, dashes: "2 3", marks: Some("white") };
        let proved = Style { colour, dashes: "none", marks: Some(colour) };
        plot.curve(&format!("{label}, proved"), &points(|row| row.proved), proved);
        plot.curve(&format!("{label}, plain Rust"), &points(|row| row.plain), plain);
        plot.curve(&format!("{label}, C"), &points(in_c), c);
        plot.legend += 12.0;
    }
    let (low, least) = (plot.x.low, 2.0 * plot.y.low);
    let linear = [(low, least), (plot.x.high, least * plot.x.high / low)];
    let style = Style { colour: "#777777", dashes: "1 3", marks: None };
    plot.curve("slope of linear growth", &linear, style);
    plot.svg.push_str("</svg>\n");
    plot.svg
}

impl Plot {
    fn put(&mut self, element: String) {
        let _ = writeln!(self.svg, "{element}");
    }

    fn text(&mut self, x: f64, y: f64, anchor: &str, words: &str) {
        self.put(format!(r#"<text x="{x:.1}" y="{y:.1}" text-anchor="{anchor}">{words}</text>"#));
    }

    fn path(&mut self, points: &[(f64, f64)], style: Style) {
        let places: Vec<String> = points.iter().map(|(x, y)| format!("{x:.1},{y:.1}")).collect();
        let Style { colour, dashes, marks } = style;
        self.put(format!(
            r#"<polyline points="{}" fill="none" stroke="{colour}" stroke-width="1.5" stroke-dasharray="{dashes}"/>"#,
            places.join(" ")
        ));
        let Some(inside) = marks else { return };
        for (x, y) in points {
            self.put(format!(
                r#"<circle cx="{x:.1}" cy="{y:.1}" r="3" fill="{inside}" stroke="{colour}"/>"#
            ));
        }
    }

    /// A curve and its line in the legend.
    fn curve(&mut self, label: &str, points: &[(f64, f64)], style: Style) {
        let places: Vec<_> =
            points.iter().map(|&(size, time)| (self.x.at(size), self.y.at(time))).collect();
        self.path(&places, style);
        let (left, y) = (RIGHT + 20.0, self.legend);
        self.path(&[(left, y), (left + 36.0, y)], style);
        self.text(left + 46.0, y + 4.0, "start", label);
        self.legend += 22.0;
    }

    fn frame(&mut self, growth: &[[Row; 4]]) {
        self.put(format!(
            r#"<svg xmlns="http://www.w3.org/2000/svg" width="{WIDTH}" height="{HEIGHT}" viewBox="0 0 {WIDTH} {HEIGHT}" font-family="sans-serif" font-size="13">"#
        ));
        self.put(r#"<rect width="100%" height="100%" fill="white"/>"#.into());
        let (middle_x, middle_y) = ((LEFT + RIGHT) / 2.0, (TOP + BOTTOM) / 2.0);
        self.text(middle_x, 28.0, "middle", "Time against size, both axes logarithmic");
        self.text(middle_x, BOTTOM + 46.0, "middle", "N, M (processes, arcs)");
        self.put(format!(
            r#"<text x="18" y="{middle_y}" text-anchor="middle" transform="rotate(-90 18 {middle_y})">time of one call</text>"#
        ));
        let grid = Style { colour: "#d8d8d8", dashes: "none", marks: None };
        for size in growth.iter().filter_map(|rows| rows[0].size) {
            let x = self.x.at(size.m as f64);
            self.path(&[(x, TOP), (x, BOTTOM)], grid);
            self.text(x, BOTTOM + 20.0, "middle", &format!("{}, {}", size.n, size.m));
        }
        let mut tick = self.y.low;
        while tick < self.y.high * 1.1 {
            let y = self.y.at(tick);
            self.path(&[(LEFT, y), (RIGHT, y)], grid);
            // A little more, so that 1 µs is not rounded to 1000 ns.
            let label = time(tick * 1.000_001).replace(".00", "").replace(".0", "");
            self.text(LEFT - 8.0, y + 4.0, "end", &label);
            tick *= 10.0;
        }
        let border = Style { colour: "#444444", ..grid };
        let corners = [(LEFT, TOP), (RIGHT, TOP), (RIGHT, BOTTOM), (LEFT, BOTTOM), (LEFT, TOP)];
        self.path(&corners, border);
    }
}
