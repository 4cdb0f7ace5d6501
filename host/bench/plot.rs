//! The plot of times against sizes, as SVG: one panel for each stage, both axes logarithmic.

use super::timing::{Times, middle};
use super::{CUT_SIZES, SLICE_SIZES};
use std::fmt::Write;

const WIDTH: f64 = 430.0;
const HEIGHT: f64 = 330.0;
const LEFT: f64 = 62.0;
const TOP: f64 = 34.0;
const INNER_WIDTH: f64 = 350.0;
const INNER_HEIGHT: f64 = 250.0;

/// A line of a panel: which input, which side of its times, how it is named and drawn.
struct Line {
    input: &'static str,
    side: usize,
    label: &'static str,
    colour: &'static str,
    dashes: &'static str,
    /// Of each size the microseconds that each process told.
    times: Vec<(usize, Vec<f64>)>,
}

pub struct Panel {
    title: &'static str,
    sizes: &'static [usize],
    lines: Vec<Line>,
}

const OURS: &str = "#0b62a4";
const RUST: &str = "#c4461b";
const TREE: &str = "#4f8a2b";

fn line(
    input: &'static str,
    side: usize,
    label: &'static str,
    colour: &'static str,
    dashes: &'static str,
) -> Line {
    Line {
        input,
        side,
        label,
        colour,
        dashes,
        times: Vec::new(),
    }
}

pub const ORDER: &str = "Cut order";
pub const CANDIDATES: &str = "Candidates, the same work";
pub const PRUNE: &str = "Prune, the same work";
pub const STITCH: &str = "Stitch";

/// A process tells the time of each side in one line of output.
pub fn tell(panel: &str, input: &str, size: usize, times: &Times) {
    for side in 0..times.sides() {
        let microseconds = times.middle(side) / 1000.0;
        println!("time\t{panel}\t{input}\t{size}\t{side}\t{microseconds}");
    }
}

/// Takes what a process told.
pub fn add(
    panels: &mut [Panel],
    title: &str,
    input: &str,
    size: usize,
    side: usize,
    microseconds: f64,
) {
    let panel = panels.iter_mut().find(|p| p.title == title).unwrap();
    let mut lines = panel.lines.iter_mut();
    let Some(line) = lines.find(|l| l.input == input && l.side == side) else {
        return;
    };
    match line.times.iter_mut().find(|(at, _)| *at == size) {
        Some((_, told)) => told.push(microseconds),
        None => line.times.push((size, vec![microseconds])),
    }
}

impl Line {
    /// Sizes with the middle of what the processes told.
    fn points(&self) -> impl Iterator<Item = (f64, f64)> + '_ {
        let point = |(size, told): &(usize, Vec<f64>)| (*size as f64, middle(told.iter().copied()));
        self.times.iter().map(point)
    }
}

pub fn panels() -> [Panel; 4] {
    let both = |title| Panel {
        title,
        sizes: &CUT_SIZES,
        lines: vec![
            line("star", 0, "ours, star", OURS, "none"),
            line("star", 1, "Rust, star", RUST, "none"),
            line("comb", 0, "ours, comb", OURS, "5 3"),
            line("comb", 1, "Rust, comb", RUST, "5 3"),
        ],
    };
    let stitch = vec![
        line("comb, union", 0, "ours, comb", OURS, "none"),
        line("comb, union", 1, "Rust, plain list, comb", RUST, "none"),
        line("comb, union", 2, "Rust, packed tree, comb", TREE, "none"),
        line("all at one point", 0, "ours, one point", OURS, "5 3"),
        line(
            "all at one point",
            1,
            "Rust, plain list, one point",
            RUST,
            "5 3",
        ),
        line(
            "all at one point",
            2,
            "Rust, packed tree, one point",
            TREE,
            "5 3",
        ),
    ];
    [
        both(ORDER),
        both(CANDIDATES),
        both(PRUNE),
        Panel {
            title: STITCH,
            sizes: &SLICE_SIZES,
            lines: stitch,
        },
    ]
}

impl Panel {
    fn times(&self) -> impl Iterator<Item = f64> + '_ {
        self.lines
            .iter()
            .flat_map(|line| line.points().map(|p| p.1))
    }

    /// The powers of ten below and above all times.
    fn bounds(&self) -> (i32, i32) {
        let low = self.times().fold(f64::INFINITY, f64::min).log10().floor();
        let high = self.times().fold(0.0, f64::max).log10().ceil();
        (low as i32, high as i32)
    }

    fn x(&self, size: f64) -> f64 {
        let (first, last) = (
            self.sizes[0] as f64,
            self.sizes[self.sizes.len() - 1] as f64,
        );
        LEFT + INNER_WIDTH * (size / first).ln() / (last / first).ln()
    }

    fn y(&self, microseconds: f64) -> f64 {
        let (low, high) = self.bounds();
        let part = (microseconds.log10() - f64::from(low)) / f64::from(high - low);
        TOP + INNER_HEIGHT * (1.0 - part)
    }

    fn draw(&self, out: &mut String) {
        let (low, high) = self.bounds();
        text(out, LEFT, 20.0, "start", "title", self.title);
        for power in low..=high {
            let y = self.y(10f64.powi(power));
            rule(out, LEFT, y, LEFT + INNER_WIDTH, y);
            text(
                out,
                LEFT - 6.0,
                y + 4.0,
                "end",
                "tick",
                &microseconds(power),
            );
        }
        for size in self.sizes.iter().filter(|size| **size != 512) {
            let x = self.x(*size as f64);
            rule(out, x, TOP, x, TOP + INNER_HEIGHT);
            text(
                out,
                x,
                TOP + INNER_HEIGHT + 16.0,
                "middle",
                "tick",
                &size.to_string(),
            );
        }
        self.draw_legend(out);
        self.lines.iter().for_each(|line| self.draw_line(out, line));
    }

    fn draw_legend(&self, out: &mut String) {
        let longest = self.lines.iter().map(|line| line.label.len()).max();
        let width = 42.0 + 6.0 * longest.unwrap() as f64;
        let height = 14.0 * self.lines.len() as f64 + 6.0;
        let (left, top) = (LEFT + 6.0, TOP + 2.0);
        let size = format!("width=\"{width}\" height=\"{height}\"");
        writeln!(
            out,
            "<rect x=\"{left}\" y=\"{top}\" {size} fill=\"white\"/>"
        )
        .unwrap();
        for (number, line) in self.lines.iter().enumerate() {
            let y = top + 10.0 + 14.0 * number as f64;
            let style = stroke(line);
            writeln!(out, "<path d=\"M{} {y}h24\" {style}/>", left + 4.0).unwrap();
            text(out, left + 34.0, y + 4.0, "start", "tick", line.label);
        }
    }

    fn draw_line(&self, out: &mut String, line: &Line) {
        let place = |p: (f64, f64)| format!("{:.1},{:.1}", self.x(p.0), self.y(p.1));
        let points: Vec<String> = line.points().map(place).collect();
        let style = stroke(line);
        writeln!(out, "<polyline points=\"{}\" {style}/>", points.join(" ")).unwrap();
        for p in line.points() {
            let (x, y, fill) = (self.x(p.0), self.y(p.1), line.colour);
            writeln!(
                out,
                "<circle cx=\"{x:.1}\" cy=\"{y:.1}\" r=\"2.5\" fill=\"{fill}\"/>"
            )
            .unwrap();
        }
    }
}

fn microseconds(power: i32) -> String {
    match power {
        3.. => format!("{} ms", 10i64.pow(power as u32 - 3)),
        0..3 => format!("{} µs", 10i64.pow(power as u32)),
        _ => format!("{} ns", 10i64.pow((power + 3) as u32)),
    }
}

fn stroke(line: &Line) -> String {
    let (colour, dashes) = (line.colour, line.dashes);
    format!("fill=\"none\" stroke=\"{colour}\" stroke-width=\"1.6\" stroke-dasharray=\"{dashes}\"")
}

fn rule(out: &mut String, x1: f64, y1: f64, x2: f64, y2: f64) {
    writeln!(
        out,
        "<path d=\"M{x1:.1} {y1:.1}L{x2:.1} {y2:.1}\" stroke=\"#ddd\"/>"
    )
    .unwrap();
}

fn text(out: &mut String, x: f64, y: f64, anchor: &str, class: &str, words: &str) {
    let place = format!("x=\"{x:.1}\" y=\"{y:.1}\" text-anchor=\"{anchor}\" class=\"{class}\"");
    writeln!(out, "<text {place}>{words}</text>").unwrap();
}

pub fn svg(panels: &[Panel; 4]) -> String {
    let (width, height) = (2.0 * WIDTH, 2.0 * HEIGHT + 30.0);
    let mut out = format!(
        "<svg xmlns=\"http://www.w3.org/2000/svg\" viewBox=\"0 0 {width} {height}\" \
         width=\"{width}\" height=\"{height}\" font-family=\"sans-serif\" fill=\"#222\">\n\
         <style>.title {{ font-size: 14px; font-weight: bold }} .tick {{ font-size: 11px }}</style>\n\
         <rect width=\"100%\" height=\"100%\" fill=\"white\"/>\n"
    );
    for (number, panel) in panels.iter().enumerate() {
        let (x, y) = ((number % 2) as f64 * WIDTH, (number / 2) as f64 * HEIGHT);
        writeln!(out, "<g transform=\"translate({x} {y})\">").unwrap();
        panel.draw(&mut out);
        out.push_str("</g>\n");
    }
    let note = "time of one call against the number of cuts (slices for the stitch); both axes logarithmic";
    text(&mut out, WIDTH, 2.0 * HEIGHT + 12.0, "middle", "tick", note);
    out.push_str("</svg>\n");
    out
}
