//! The ratios as a picture: for each call a bar for the forest and one for the chain.
use crate::{
    lines::{Line, LINES},
    report::{on, Measured},
    tables::{CHAIN, CHAIN_FREE, FOREST, FOREST_FREE},
};
use std::fmt::Write;

const WIDTH: f64 = 820.0;
const LEFT: f64 = 180.0;
const RIGHT: f64 = 60.0;
const TOP: f64 = 84.0;
const BAR: f64 = 13.0;
const GROUP: f64 = 38.0;
const COLOURS: [&str; 2] = ["#33658a", "#e0913a"];
const NAMES: [&str; 2] = [FOREST, CHAIN];
/// The lines that a ratio is held against: place, colour, dashes, and on which side the label stands.
const MARKS: [(f64, &str, &str, &str); 2] = [(1.0, "#222", "none", "end"), (1.2, "#b3261e", "5 3", "start")];

/// The two ratios of a line, of the medians. Initialise is shown with a free slot, where it succeeds.
fn ratios(all: &[Measured], line: &Line) -> [f64; 2] {
    let tables = if line.initializes() {
        [FOREST_FREE, CHAIN_FREE]
    } else {
        NAMES
    };
    tables.map(|table| {
        let time = &on(all, line.name, table).time;
        time.ours.median / time.theirs.median
    })
}

/// A step of 1, 2 or 5 times a power of ten that makes at most ten parts.
fn step(most: f64) -> f64 {
    let mut unit = 0.1;
    loop {
        for by in [1.0, 2.0, 5.0] {
            if most / (unit * by) <= 10.0 {
                return unit * by;
            }
        }
        unit *= 10.0;
    }
}

/// A text with a white rim, so that a line behind it does not disturb.
fn text(to: &mut String, (x, y): (f64, f64), anchor: &str, colour: &str, what: &str) {
    let rim = "paint-order=\"stroke\" stroke=\"#fff\" stroke-width=\"3\"";
    let place = format!("x=\"{x:.1}\" y=\"{y:.1}\" text-anchor=\"{anchor}\"");
    writeln!(to, "<text {place} fill=\"{colour}\" {rim}>{what}</text>").expect("a string grows");
}

fn rect(to: &mut String, (x, y): (f64, f64), (width, height): (f64, f64), colour: &str) {
    let place = format!("x=\"{x:.1}\" y=\"{y:.1}\" width=\"{width:.1}\" height=\"{height:.1}\"");
    writeln!(to, "<rect {place} fill=\"{colour}\"/>").expect("a string grows");
}

/// A line downward from the head of the bars.
fn down(to: &mut String, x: f64, bottom: f64, colour: &str, dashes: &str) {
    let place = format!("x1=\"{x:.1}\" y1=\"{TOP}\" x2=\"{x:.1}\" y2=\"{bottom:.1}\"");
    writeln!(to, "<line {place} stroke=\"{colour}\" stroke-dasharray=\"{dashes}\"/>").expect("a string grows");
}

fn head(to: &mut String) {
    text(
        to,
        (LEFT, 24.0),
        "start",
        "#000",
        "Time of a call, ours to the published Rust's: ratio of the medians (lower is better)",
    );
    for (i, name) in NAMES.into_iter().enumerate() {
        let x = LEFT + 150.0 * i as f64;
        rect(to, (x, 36.0), (BAR, BAR), COLOURS[i]);
        text(to, (x + 20.0, 47.0), "start", "#000", name);
    }
    text(to, (LEFT + 300.0, 47.0), "start", "#555", "(initialize: one slot free)");
}

/// The grid, with the number of each line below.
fn grid(to: &mut String, most: f64, scale: f64, bottom: f64) {
    let step = step(most);
    for tick in (0..).map(|n| n as f64 * step).take_while(|&t| t <= most) {
        let (x, rounded) = (LEFT + scale * tick, (tick * 10.0).round() / 10.0);
        down(to, x, bottom, "#ddd", "none");
        text(to, (x, bottom + 18.0), "middle", "#555", &rounded.to_string());
    }
}

/// The lines that the ratios are held against, with their numbers above.
fn marks(to: &mut String, scale: f64, bottom: f64) {
    for (at, colour, dashes, anchor) in MARKS {
        let x = LEFT + scale * at;
        down(to, x, bottom, colour, dashes);
        text(to, (x, TOP - 6.0), anchor, colour, &format!("{at:.1}"));
    }
}

/// The two bars of call number n.
fn bars(to: &mut String, n: usize, ratios: [f64; 2], scale: f64) {
    for (i, ratio) in ratios.into_iter().enumerate() {
        let y = height(n) + BAR * i as f64;
        rect(to, (LEFT, y), (scale * ratio, BAR - 1.0), COLOURS[i]);
    }
}

/// The name of call number n, and the numbers of its bars.
fn labels(to: &mut String, n: usize, ratios: [f64; 2], scale: f64) {
    text(to, (LEFT - 10.0, height(n) + BAR + 4.0), "end", "#000", LINES[n].name);
    for (i, ratio) in ratios.into_iter().enumerate() {
        let (x, y) = (LEFT + scale * ratio + 5.0, height(n) + BAR * (i + 1) as f64 - 2.5);
        text(to, (x, y), "start", "#000", &format!("{ratio:.2}"));
    }
}

/// Where the bars of call number n begin.
fn height(n: usize) -> f64 {
    TOP + 6.0 + GROUP * n as f64
}

/// The picture, as SVG.
pub fn svg(all: &[Measured]) -> String {
    let ratios = LINES.map(|line| ratios(all, &line));
    let most = ratios.as_flattened().iter().fold(1.3_f64, |a, &b| a.max(b));
    let (scale, bottom) = ((WIDTH - LEFT - RIGHT) / most, TOP + GROUP * LINES.len() as f64);
    let size = (WIDTH, bottom + 30.0);
    let place = format!("width=\"{0}\" height=\"{1}\" viewBox=\"0 0 {0} {1}\"", size.0, size.1);
    let font = "font-family=\"sans-serif\" font-size=\"12\"";
    let mut to = format!("<svg xmlns=\"http://www.w3.org/2000/svg\" {place} {font}>\n");
    rect(&mut to, (0.0, 0.0), size, "#fff");
    head(&mut to);
    grid(&mut to, most, scale, bottom);
    for (n, pair) in ratios.into_iter().enumerate() {
        bars(&mut to, n, pair, scale);
    }
    marks(&mut to, scale, bottom);
    for (n, pair) in ratios.into_iter().enumerate() {
        labels(&mut to, n, pair, scale);
    }
    to + "</svg>\n"
}
