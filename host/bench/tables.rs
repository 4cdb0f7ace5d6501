//! Tables of ratios: a line for each input, a column for each size, a ratio from each process.

use super::timing::middle;
use super::{CUT_GROWTH, CUT_SIZES, SLICE_GROWTH, SLICE_SIZES};

/// From this size on a stage is to take half of the original's time or less.
const LARGE: usize = 256;

pub const ORDER: &str = "Cut order";
pub const ORDER_GROWTH: &str = "Growth of the cut order: our time at 2n cuts over our time at n";
pub const CANDIDATES_ALONE: &str = "Candidates, `mask_candidates` alone: the splits handed in";
pub const CANDIDATES: &str = "Candidates, the same work: splits and midpoints on both sides";
pub const CANDIDATES_ALL: &str = "Candidates, with the cut order that a host asks for first";
pub const PRUNE: &str = "Prune, the same work: slicing on both sides, inside answers handed in";
pub const PRUNE_ALL: &str = "Prune, with cut order and inside answers, as a host calls";
pub const PRUNE_ALONE: &str = "Prune, `mask_prune` alone beside the Rust's slicing and pruning";
pub const STRAIGHT: &str =
    "Straight masks, `mask_straight_slices` beside the Rust's slicing and pruning";
pub const STRAIGHT_THREE: &str =
    "The same beside the three calls in turn, with `mask_straight_winding` for each candidate";
pub const THREE: &str = "The three calls in turn beside the Rust's slicing and pruning";
pub const STITCH_LIST: &str = "Stitch, the index a plain list";
pub const STITCH_TREE: &str = "Stitch, the index a packed tree";
pub const STITCH_GROWTH: &str = "Growth of the stitch: our time at 2n slices over our time at n";
pub const AREA: &str = "Area pass, two of five loops dropped, beside a plain Rust loop";
pub const VERTEX: &str = "One vertex of a view";
pub const VERTICES: &str = "All vertices of a whole view, `mask_view_vertices`";
pub const VERTICES_SINGLY: &str = "The same by `mask_view_vertex`, one call for each vertex";

/// The tables that the goal is about, with the names of their stages.
const STAGES: [(&str, &str); 12] = [
    ("cut order", ORDER),
    ("candidates, the entry alone", CANDIDATES_ALONE),
    ("candidates, the same work", CANDIDATES),
    ("candidates, with the cut order", CANDIDATES_ALL),
    ("prune, the same work", PRUNE),
    ("prune, as a host calls", PRUNE_ALL),
    ("straight masks, one call", STRAIGHT),
    ("stitch, the index a plain list", STITCH_LIST),
    ("stitch, the index a packed tree", STITCH_TREE),
    ("area pass", AREA),
    ("one vertex of a view", VERTEX),
    ("all vertices of a view", VERTICES),
];

pub struct Table {
    title: &'static str,
    counted: &'static str,
    sizes: &'static [usize],
    cells: Vec<Cell>,
}

struct Cell {
    input: String,
    size: usize,
    ratios: Vec<f64>,
}

pub fn all() -> Vec<Table> {
    let table = |title, counted, sizes| Table {
        title,
        counted,
        sizes,
        cells: Vec::new(),
    };
    let of_cuts = |title| table(title, "cuts", &CUT_SIZES);
    let of_vertices = |title| table(title, "vertices of the outline", &SLICE_SIZES[..5]);
    let of_slices = |title| table(title, "slices", &SLICE_SIZES);
    vec![
        of_cuts(ORDER),
        table(ORDER_GROWTH, "n", &CUT_GROWTH),
        of_cuts(CANDIDATES_ALONE),
        of_cuts(CANDIDATES),
        of_cuts(CANDIDATES_ALL),
        of_cuts(PRUNE),
        of_cuts(PRUNE_ALL),
        of_cuts(PRUNE_ALONE),
        of_cuts(STRAIGHT),
        of_cuts(STRAIGHT_THREE),
        of_cuts(THREE),
        of_slices(STITCH_LIST),
        of_slices(STITCH_TREE),
        table(STITCH_GROWTH, "n", &SLICE_GROWTH),
        table(AREA, "loops", &SLICE_SIZES),
        of_vertices(VERTEX),
        of_vertices(VERTICES),
        of_vertices(VERTICES_SINGLY),
    ]
}

/// A process tells a ratio in one line of output.
pub fn tell(title: &str, input: &str, size: usize, ratio: f64) {
    println!("ratio\t{title}\t{input}\t{size}\t{ratio}");
}

/// Takes what a process told.
pub fn add(tables: &mut [Table], title: &str, input: &str, size: usize, ratio: f64) {
    let table = tables.iter_mut().find(|t| t.title == title).unwrap();
    let mut cells = table.cells.iter_mut();
    match cells.find(|cell| cell.input == input && cell.size == size) {
        Some(cell) => cell.ratios.push(ratio),
        None => table.cells.push(Cell {
            input: input.to_string(),
            size,
            ratios: vec![ratio],
        }),
    }
}

impl Cell {
    fn middle(&self) -> f64 {
        middle(self.ratios.iter().copied())
    }

    fn lowest(&self) -> f64 {
        self.ratios.iter().copied().fold(f64::INFINITY, f64::min)
    }

    fn highest(&self) -> f64 {
        self.ratios.iter().copied().fold(0.0, f64::max)
    }

    /// The middle of the processes' ratios, the lowest and the highest of them.
    fn shown(&self) -> String {
        let (low, middle, high) = (self.lowest(), self.middle(), self.highest());
        format!("{middle:.2} ({low:.2} to {high:.2})")
    }
}

impl Table {
    fn inputs(&self) -> Vec<&str> {
        let mut inputs: Vec<&str> = self.cells.iter().map(|cell| &cell.input[..]).collect();
        inputs.dedup();
        inputs
    }

    pub fn is_empty(&self) -> bool {
        self.cells.is_empty()
    }

    fn at(&self, input: &str, size: usize) -> Option<&Cell> {
        let mut cells = self.cells.iter();
        cells.find(|cell| cell.input == input && cell.size == size)
    }

    pub fn print(&self) {
        println!("\n{}:\n", self.title);
        let sizes: Vec<String> = self.sizes.iter().map(|s| s.to_string()).collect();
        println!("| {} | {} |", self.counted, sizes.join(" | "));
        println!("|{}", "---|".repeat(1 + sizes.len()));
        for input in self.inputs() {
            let shown = |size: &usize| self.at(input, *size).map_or(String::new(), Cell::shown);
            let cells: Vec<String> = self.sizes.iter().map(shown).collect();
            println!("| {input} | {} |", cells.join(" | "));
        }
    }

    /// Of the cells from a size on: how many are above a bound, of how many, and the largest.
    fn goal(&self, from: usize, bound: f64) -> String {
        let cells: Vec<&Cell> = self.cells.iter().filter(|cell| cell.size >= from).collect();
        let above = cells.iter().filter(|cell| cell.middle() > bound).count();
        let largest = cells
            .iter()
            .max_by(|a, b| a.middle().total_cmp(&b.middle()))
            .unwrap();
        let (shown, input, size) = (largest.shown(), &largest.input, largest.size);
        format!("{shown} | {input}, {size} | {above} of {}", cells.len())
    }
}

fn judged(tables: &[Table]) -> impl Iterator<Item = (&'static str, &Table)> {
    STAGES.into_iter().map(|(stage, title)| {
        let table = tables.iter().find(|t| t.title == title).unwrap();
        (stage, table)
    })
}

/// For each stage its largest ratio, at any size and at a large one, and how many are above the goal.
pub fn print_goal(tables: &[Table]) {
    println!("\nThe goal: no ratio above 1, and from {LARGE} on none above a half.\n");
    println!("| stage | largest ratio | at | above 1 | largest from {LARGE} on | at | above 0.5 |");
    println!("|{}", "---|".repeat(7));
    for (stage, table) in judged(tables) {
        let (any, large) = (table.goal(0, 1.0), table.goal(LARGE, 0.5));
        println!("| {stage} | {any} | {large} |");
    }
}

/// Every ratio above 1 of the stages that the goal is about.
pub fn print_above(tables: &[Table]) {
    println!("\nAbove 1:\n\n| stage | input | ratios by size |\n|---|---|---|");
    for (stage, table) in judged(tables) {
        for input in table.inputs() {
            let cells = table.cells.iter().filter(|cell| cell.input == input);
            let above = cells.filter(|cell| cell.middle() > 1.0);
            let shown: Vec<String> = above
                .map(|cell| format!("{:.2} at {}", cell.middle(), cell.size))
                .collect();
            if !shown.is_empty() {
                println!("| {stage} | {input} | {} |", shown.join(", "));
            }
        }
    }
}

/// How many cells there are, and how many of them differ between processes by more than a tenth.
pub fn print_spread(tables: &[Table]) {
    let cells = || tables.iter().flat_map(|table| &table.cells);
    let wide = cells().filter(|cell| cell.highest() > 1.1 * cell.lowest());
    let (all, wide) = (cells().count(), wide.count());
    println!("\nOf {all} ratios {wide} differ between two processes by more than 10 %.");
}
