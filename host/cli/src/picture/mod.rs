//! Pictures of records: outlines, slices, joins, chains and loops, one record or two side by side.

mod frame;
mod labels;
mod legend;
mod panel;
mod style;
mod subject;
mod svg;

pub use subject::Subject;

use frame::{Bounds, Frame};
use panel::Panel;
use svg::Svg;

/// The width of a record's part of the picture, and the height of the place that is drawn on.
const WIDTH: f64 = 600.0;
const HEIGHT: f64 = 450.0;
/// What is left free between parts and at the edges.
const GAP: f64 = 24.0;
/// The place of the numbers on the axes.
const AXES: (f64, f64) = (40.0, 24.0);
/// What is left free round the outlines, for labels.
const MARGIN: f64 = 44.0;

/// The picture of one record, or of two side by side on the same scale.
pub fn picture(subjects: &[Subject]) -> String {
    let mut bounds = Bounds::default();
    subjects
        .iter()
        .for_each(|subject| subject.enclose(&mut bounds));
    let header = subjects
        .iter()
        .map(panel::header_height)
        .fold(0.0, f64::max);
    let mut svg = Svg::default();
    let width = GAP + subjects.len() as f64 * (WIDTH + GAP);
    let below = GAP + header + HEIGHT;
    let lists = subjects.iter().map(panel::list_height).fold(0.0, f64::max);
    let legend = legend::entries(subjects);
    let height = below + lists + legend::height(&legend, width - 2.0 * GAP) + GAP;
    svg.rectangle("paper", [0.0, 0.0, width, height]);
    for (number, subject) in subjects.iter().enumerate() {
        let left = GAP + number as f64 * (WIDTH + GAP);
        let place = [left + AXES.0, GAP + header, WIDTH - AXES.0, HEIGHT - AXES.1];
        let panel = Panel {
            subject,
            before: if number == 0 { None } else { subjects.first() },
            frame: Frame::new(&bounds, place, MARGIN),
            left,
            top: GAP,
        };
        panel.draw(&mut svg, below);
    }
    legend::draw(&mut svg, &legend, [GAP, below + lists, width - 2.0 * GAP]);
    let names: Vec<&str> = subjects
        .iter()
        .map(|subject| subject.name.as_str())
        .collect();
    svg.finished(width, height, &names.join(" beside "), style::STYLE)
}
