//! One record of a picture.

use super::frame::{drawable, segments, ticks, Frame};
use super::labels::Labels;
use super::subject::{Drawn, Subject};
use super::svg::{px, Svg};
use crate::answer::end_word;
use crate::geometry::{along, length};
use crate::number::{counted, word};
use crate::pbr;
use mask_tools::{ChainEnd, Point, Vertex};

/// The height of a line of text.
const LINE: f64 = 18.0;
/// How many letters a line of the header has.
const LETTERS: usize = 80;
/// How many chains are listed.
const LISTED: usize = 8;
/// How far apart the points of lines are that labels avoid.
const APART: f64 = 5.0;

/// One record, and the place where it is drawn.
pub struct Panel<'a> {
    /// The record.
    pub subject: &'a Subject,
    /// The record that it is compared with.
    pub before: Option<&'a Subject>,
    /// From degrees to the picture.
    pub frame: Frame,
    /// Where its texts begin.
    pub left: f64,
    /// Where it begins.
    pub top: f64,
}

/// The height of the texts above a record.
pub fn header_height(subject: &Subject) -> f64 {
    LINE * (2.0 + result_lines(subject).len() as f64) + 6.0
}

/// The height of the list of chains below it.
pub fn list_height(subject: &Subject) -> f64 {
    let chains = subject.chains().len();
    LINE * chains.min(LISTED + 1) as f64 + 12.0
}

impl Panel<'_> {
    /// Draws it; the list of chains stands below `below`.
    pub fn draw(&self, svg: &mut Svg, below: f64) {
        self.header(svg);
        svg.rectangle("place", self.frame.place);
        self.axes(svg);
        let [left, top, width, height] = self.frame.place;
        let mut labels = Labels::new([left, top, left + width, top + height]);
        self.avoid_lines(&mut labels);
        self.loops(svg);
        self.outlines(svg);
        self.slices(svg);
        let chains = self.subject.chains();
        self.joins(svg, &chains, &mut labels);
        self.vertices(svg, &mut labels);
        self.ends(svg, &chains, &mut labels);
        self.slice_labels(svg, &mut labels);
        self.list(svg, &chains, below);
    }

    fn header(&self, svg: &mut Svg) {
        let mut y = self.top + 12.0;
        svg.text("name", (self.left, y), &self.subject.name);
        y += LINE;
        svg.text("said", (self.left, y), &settings_line(self.subject));
        let class = if self.subject.refused.is_some() {
            "refused"
        } else {
            "said"
        };
        for line in result_lines(self.subject) {
            y += LINE;
            svg.text(class, (self.left, y), &line);
        }
    }

    fn axes(&self, svg: &mut Svg) {
        let [left, top, width, height] = self.frame.place;
        let [across, up] = self.frame.shown();
        svg.open("axes");
        for x in ticks(across, 8.0) {
            let (at, _) = self.frame.at(Point::new(x, 0.0));
            svg.path(
                "grid",
                &format!("M{} {}V{}", px(at), px(top), px(top + height)),
            );
            svg.text("tick", (at, top + height + 14.0), &word(rounded(x)));
        }
        for y in ticks(up, 6.0) {
            let (_, at) = self.frame.at(Point::new(0.0, y));
            svg.path(
                "grid",
                &format!("M{} {}H{}", px(left), px(at), px(left + width)),
            );
            svg.text("tick-y", (left - 5.0, at + 3.5), &word(rounded(y)));
        }
        svg.close();
    }

    /// Labels stay off the lines as far as that goes.
    fn avoid_lines(&self, labels: &mut Labels) {
        let outlines = [self.subject.vertices(1), self.subject.vertices(2)];
        let closed = outlines.iter().flat_map(|outline| segments(outline, true));
        let open = self
            .subject
            .ways
            .iter()
            .flatten()
            .flat_map(|way| segments(way, false));
        for (from, to) in closed.chain(open) {
            let steps = (length(from, to) * self.frame.scale / APART).clamp(1.0, 400.0) as u32;
            for k in 0..=steps {
                labels.avoid(
                    self.frame
                        .at(along(from, to, f64::from(k) / f64::from(steps))),
                );
            }
        }
    }

    fn loops(&self, svg: &mut Svg) {
        for vertices in self.subject.loops() {
            svg.path("loop", &self.frame.path(&vertices, true));
        }
    }

    /// The outlines, and under them those of the record before, where they were others.
    fn outlines(&self, svg: &mut Svg) {
        for source in [1, 2] {
            let now = self.subject.vertices(source);
            let was = self
                .before
                .map(|before| before.vertices(source))
                .filter(|was| *was != now);
            if let Some(was) = was {
                svg.path("before", &self.frame.path(&was, true));
            }
            svg.path(
                &format!("outline {}", colour(source)),
                &self.frame.path(&now, true),
            );
        }
    }

    fn slices(&self, svg: &mut Svg) {
        for (number, way) in self.ways() {
            let d = self.frame.path(way, false);
            svg.path(&format!("slice {}", self.class(number)), &d);
            if self.subject.is_overlap(number) {
                svg.path("overlap-core", &d);
            }
        }
        for (number, way) in self.ways() {
            if let Some(d) = self.arrow(way) {
                svg.path(&format!("arrow {}", self.class(number)), &d);
            }
        }
    }

    fn ways(&self) -> impl Iterator<Item = (usize, &[Vertex])> {
        let ways = self.subject.ways.iter().enumerate();
        ways.filter_map(|(number, way)| way.as_deref().map(|way| (number, way)))
    }

    /// The classes of a slice: of which outline, which way it runs, and whether it was cut from another edition.
    fn class(&self, number: usize) -> String {
        let slice = &self.subject.contents.slices[number];
        if self.subject.is_stale(number) {
            return "stale".to_string();
        }
        let direction = if slice.inverted_code == 1 {
            " inverted"
        } else {
            ""
        };
        format!("{}{direction}", colour(slice.source_code))
    }

    /// An arrow head on the middle of the longest segment.
    fn arrow(&self, way: &[Vertex]) -> Option<String> {
        let (from, to) = longest(way)?;
        let (x, y) = self.frame.at(along(from, to, 0.5));
        let (bx, by) = self.frame.at(along(from, to, 0.49));
        let size = (x - bx).hypot(y - by);
        if size <= 0.0 || !size.is_finite() {
            return None;
        }
        let (dx, dy) = ((x - bx) / size, (y - by) / size);
        let corner = |ahead: f64, aside: f64| {
            format!(
                "{} {}",
                px(x + ahead * dx - aside * dy),
                px(y + ahead * dy + aside * dx)
            )
        };
        Some(format!(
            "M{}L{}L{}Z",
            corner(9.0, 0.0),
            corner(-7.0, 7.0),
            corner(-7.0, -7.0)
        ))
    }

    /// A ring at each join, with a dot where the two ends are not the same; the box of the tolerances where it can be seen.
    fn joins(&self, svg: &mut Svg, chains: &[Drawn], labels: &mut Labels) {
        for (end, start) in chains.iter().flat_map(|chain| self.subject.joined(chain)) {
            let (x, y) = self.frame.at(end);
            let tolerance = &self.subject.contents.tolerance;
            let (wide, high) = (
                tolerance.x * self.frame.scale,
                tolerance.y * self.frame.scale,
            );
            if wide > 3.0 || high > 3.0 {
                svg.rectangle("box", [x - wide, y - high, 2.0 * wide, 2.0 * high]);
            }
            svg.circle("join", (x, y), 7.0);
            if end != start {
                svg.circle("join-gap", (x, y), 3.5);
            }
            labels.take([x - 8.0, y - 8.0, x + 8.0, y + 8.0]);
        }
    }

    fn vertices(&self, svg: &mut Svg, labels: &mut Labels) {
        let all: Vec<(u8, usize, Vertex, (f64, f64))> = [1u8, 2]
            .into_iter()
            .flat_map(|source| {
                let vertices = self.subject.outline(source).vertices();
                vertices
                    .iter()
                    .enumerate()
                    .map(move |(index, vertex)| (source, index, *vertex))
            })
            .filter(|(_, _, vertex)| drawable(vertex))
            .map(|(source, index, vertex)| (source, index, vertex, self.frame.at(vertex.pos())))
            .collect();
        for (source, index, _, at) in &all {
            if self.has_moved(*source, *index) {
                svg.circle("moved", *at, 8.0);
            }
            svg.circle(&format!("vertex {}", colour(*source)), *at, 3.5);
            let half = if self.has_moved(*source, *index) {
                9.0
            } else {
                4.0
            };
            labels.take([at.0 - half, at.1 - half, at.0 + half, at.1 + half]);
        }
        for (source, index, _, at) in &all {
            let text = index.to_string();
            let place = labels.place(&text, 11.0, *at, self.outward(*source, *index));
            svg.centered(&format!("number number-{}", colour(*source)), place, &text);
        }
    }

    /// Whether a vertex's number named another vertex in the record before.
    fn has_moved(&self, source: u8, index: usize) -> bool {
        let before = match self.before {
            Some(before) => before.outline(source).vertices(),
            None => return false,
        };
        before.get(index) != self.subject.outline(source).vertices().get(index)
    }

    /// The direction in the picture that leads away from both neighbours of a vertex.
    fn outward(&self, source: u8, index: usize) -> (f64, f64) {
        let vertices = self.subject.outline(source).vertices();
        let count = vertices.len();
        let at = |k: usize| self.frame.at(vertices[k % count].pos());
        let (x, y) = at(index);
        let away = |(px, py): (f64, f64)| {
            let size = (x - px).hypot(y - py);
            if size > 0.0 {
                ((x - px) / size, (y - py) / size)
            } else {
                (0.0, 0.0)
            }
        };
        let (before, after) = (away(at(index + count - 1)), away(at(index + 1)));
        let (dx, dy) = (before.0 + after.0, before.1 + after.1);
        if dx.hypot(dy) > 1e-6 && dx.is_finite() && dy.is_finite() {
            (dx, dy)
        } else {
            (-before.1, before.0)
        }
    }

    /// A sign at the loose end of each chain that did not close, and how it ended.
    fn ends(&self, svg: &mut Svg, chains: &[Drawn], labels: &mut Labels) {
        for chain in chains.iter().filter(|chain| chain.end != ChainEnd::Closed) {
            let last = chain
                .slices
                .last()
                .and_then(|slice| self.subject.ways[*slice].as_deref());
            let end = match last.and_then(|way| way.last()) {
                Some(end) => self.frame.at(end.pos()),
                None => continue,
            };
            let d = sign(chain.end, end);
            svg.path("end-back", &d);
            svg.path(&format!("end end-{}", end_word(chain.end)), &d);
            labels.take([end.0 - 9.0, end.1 - 9.0, end.0 + 9.0, end.1 + 9.0]);
            let text = end_word(chain.end);
            let place = labels.place(text, 11.0, end, (1.0, 0.6));
            svg.centered("label", place, text);
        }
    }

    fn slice_labels(&self, svg: &mut Svg, labels: &mut Labels) {
        for (number, way) in self.ways() {
            let (from, to) = match longest(way) {
                Some(segment) => segment,
                None => continue,
            };
            let (x, y) = self.frame.at(along(from, to, 0.5));
            let (bx, by) = self.frame.at(along(from, to, 0.45));
            labels.take([x - 8.0, y - 8.0, x + 8.0, y + 8.0]);
            let slice = &self.subject.contents.slices[number];
            let text = if self.subject.is_stale(number) {
                format!("slice {number}, cut from edition {}", slice.view.edition)
            } else {
                format!("slice {number}")
            };
            let place = labels.place(&text, 11.0, (x, y), (by - y, x - bx));
            let class = if self.subject.is_stale(number) {
                "label".to_string()
            } else {
                format!("label number-{}", colour(slice.source_code))
            };
            svg.centered(&class, place, &text);
        }
    }

    fn list(&self, svg: &mut Svg, chains: &[Drawn], below: f64) {
        for (number, chain) in chains.iter().take(LISTED).enumerate() {
            let y = below + LINE * (number as f64 + 1.0);
            svg.text("said", (self.left, y), &chain_line(number, chain));
        }
        if chains.len() > LISTED {
            let y = below + LINE * (LISTED as f64 + 1.0);
            svg.text(
                "said",
                (self.left, y),
                &format!("and {} more", counted(chains.len() - LISTED, "chain")),
            );
        }
    }
}

/// The class of what is of an outline.
fn colour(source: u8) -> &'static str {
    if source == 1 {
        "one"
    } else {
        "two"
    }
}

/// A number without what rounding has left at its end.
fn rounded(value: f64) -> f64 {
    let text = format!("{value:.9}");
    text.parse().unwrap_or(value)
}

fn longest(way: &[Vertex]) -> Option<(Vertex, Point)> {
    let longer =
        |a: &(Vertex, Point), b: &(Vertex, Point)| length(a.0, a.1).total_cmp(&length(b.0, b.1));
    segments(way, false).max_by(longer)
}

/// The sign for how a chain ended: a cross, a square or a diamond.
fn sign(end: ChainEnd, (x, y): (f64, f64)) -> String {
    let point = |dx: f64, dy: f64| format!("{} {}", px(x + dx), px(y + dy));
    let ring = |corners: [(f64, f64); 4]| {
        let each: Vec<String> = corners.iter().map(|(dx, dy)| point(*dx, *dy)).collect();
        format!("M{}Z", each.join("L"))
    };
    match end {
        ChainEnd::TooSmall => ring([(0.0, -8.0), (8.0, 0.0), (0.0, 8.0), (-8.0, 0.0)]),
        ChainEnd::NotSelected => ring([(-6.0, -6.0), (6.0, -6.0), (6.0, 6.0), (-6.0, 6.0)]),
        _ => format!(
            "M{}L{}M{}L{}",
            point(-6.0, -6.0),
            point(6.0, 6.0),
            point(-6.0, 6.0),
            point(6.0, -6.0)
        ),
    }
}

/// What the sign for how a chain ended looks like, in the legend.
pub fn sign_at(end: ChainEnd, at: (f64, f64)) -> String {
    sign(end, at)
}

fn settings_line(subject: &Subject) -> String {
    let contents = &subject.contents;
    let selector = pbr::selector_word(contents.selector_code);
    let (x, y) = (contents.tolerance.x, contents.tolerance.y);
    let tolerance = if x.to_bits() == y.to_bits() {
        format!("tolerance {}", as_fraction(x))
    } else {
        format!("tolerances {} and {}", as_fraction(x), as_fraction(y))
    };
    let version = contents.version.number();
    if version == 1 {
        return format!("version 1, {selector}, {tolerance}");
    }
    let (first, second) = (contents.pline1.edition(), contents.pline2.edition());
    format!("version {version}, {selector}, {tolerance}, editions {first} and {second}")
}

/// A number as one over a whole number, where it is that.
fn as_fraction(value: f64) -> String {
    let below = 1.0 / value;
    let exact = below.fract() == 0.0 && below > 1.0 && below < 1e15 && 1.0 / below == value;
    if exact {
        format!("1/{}", below as u64)
    } else {
        word(value)
    }
}

/// The outcome, in lines of the header.
fn result_lines(subject: &Subject) -> Vec<String> {
    match &subject.refused {
        Some((number, why)) => wrapped(&format!("refused {number}: {why}")),
        None => vec![subject
            .answer
            .text()
            .lines()
            .next()
            .unwrap_or("")
            .to_string()],
    }
}

fn wrapped(text: &str) -> Vec<String> {
    let mut lines = vec![String::new()];
    for word in text.split(' ') {
        let last = lines.last_mut().map_or(0, |line| line.chars().count());
        if last > 0 && last + 1 + word.chars().count() > LETTERS {
            lines.push(String::new());
        }
        if let Some(line) = lines.last_mut() {
            if !line.is_empty() {
                line.push(' ');
            }
            line.push_str(word);
        }
    }
    lines
}

fn chain_line(number: usize, chain: &Drawn) -> String {
    let slices: Vec<String> = chain.slices.iter().map(usize::to_string).collect();
    let how = match chain.end {
        ChainEnd::Closed => format!("closed, {} vertices", chain.vertices),
        ChainEnd::TooSmall => "small: it closed with fewer than 3 vertices".to_string(),
        ChainEnd::NoCandidate => "empty: no slice starts at its end".to_string(),
        ChainEnd::NotSelected => {
            "unselected: slices start at its end, and none is taken".to_string()
        }
    };
    format!("chain {number}, slices {}: {how}", slices.join(" "))
}

#[cfg(test)]
mod tests {
    use super::*;

    #[test]
    fn fractions_where_they_are_exact() {
        assert_eq!(
            [
                as_fraction(1.0 / 1024.0),
                as_fraction(0.1),
                as_fraction(1.0)
            ],
            ["1/1024", "1/10", "1"]
        );
        assert_eq!(as_fraction(0.3), "0.3");
        assert_eq!(as_fraction(0.0), "0");
    }

    #[test]
    fn long_lines_are_wrapped() {
        let text = "word ".repeat(40);
        let lines = wrapped(text.trim());
        assert_eq!(lines.len(), 3);
        assert!(lines.iter().all(|line| line.len() <= LETTERS));
        assert_eq!(lines.join(" "), text.trim());
    }
}
