//! Each raw entry, called with what the typed call is called with. The lists are laid out here a
//! second time, and room is lent as `include/mask.h` states the need.

use crate::entries::{self, ViewAnswer};
use crate::same::{numbers_of, Raw};
use crate::words::{words, Words};
use mask_tools::{
    Answered, Candidates, Cuts, Intersections, Mode, Named, OnSegment, Outline, Overlaps, Place, RecordContents, RecordSlice, Selector, Setting,
    Settings, Slice, Slices, Source, Split, Splits, Starts, Store, Tolerance, Vertex, View, Walk, WholeOutline,
};

/// How much more or less than the need each room is lent.
pub type Spare = [i8; 5];

/// Just the need.
pub const NEED: Spare = [0; 5];

/// What room holds before a call: NaNs with payloads, and large numbers.
pub trait Old {
    fn old(place: usize) -> Self;
}

impl Old for f64 {
    fn old(place: usize) -> f64 {
        f64::from_bits(0x7ff4_a5a5_0000_0000 + place as u64)
    }
}

macro_rules! old_numbers {
    ($($kind:ty),*) => {$(
        impl Old for $kind {
            fn old(place: usize) -> $kind {
                (0x5a5a_0000_c3c3_0000 + place) as $kind
            }
        }
    )*};
}
old_numbers!(usize, u32, u8);

/// Room for so many, or some more or less.
pub fn room<T: Old>(need: usize, spare: i8) -> Vec<T> {
    let len = (need as isize + isize::from(spare)).max(0) as usize;
    (0..len).map(T::old).collect()
}

fn code(yes: bool) -> u32 {
    u32::from(yes)
}

fn source_code(source: Source) -> u32 {
    match source {
        Source::Pline1 => 1,
        Source::Pline2 => 2,
    }
}

pub fn mode_code(mode: Mode) -> u32 {
    match mode {
        Mode::Union => 0,
        Mode::Intersection => 1,
        Mode::FirstMinusSecond => 2,
        Mode::SecondMinusFirst => 3,
    }
}

fn selector_code(selector: Selector) -> u32 {
    match selector {
        Selector::OrAnd => 0,
        Selector::NotXor => 1,
    }
}

/// The numbers of vertices, three to each.
fn numbers(vertices: &[Vertex]) -> Vec<f64> {
    vertices.iter().flat_map(|v| [v.x, v.y, v.bulge]).collect()
}

fn outline(source: &Outline) -> (Vec<f64>, usize, u32) {
    let vertices = source.vertices();
    (numbers(vertices), vertices.len(), source.edition())
}

fn view(view: &View) -> entries::View {
    entries::View {
        start_index: view.start_index,
        end_index_offset: view.end_index_offset,
        updated_start: view.updated_start,
        updated_end_bulge: view.updated_end_bulge,
        end_point: view.end_point,
        inverted_direction: code(view.inverted_direction),
    }
}

/// A list as the entries take it.
#[derive(Default)]
struct Flat {
    at: Vec<usize>,
    numbers: Vec<f64>,
    editions: Vec<u32>,
    count: usize,
}

impl Flat {
    fn add(&mut self, at: &[usize], view: &View) {
        self.at.extend(at);
        self.numbers.extend(numbers_of(view));
        self.editions.push(view.edition);
        self.count += 1;
    }
}

fn flat_hits(hits: &Intersections) -> Flat {
    let mut flat = Flat::default();
    for h in hits {
        flat.at.extend([h.start_index1, h.start_index2]);
        flat.numbers.extend([h.point.x, h.point.y]);
        flat.count += 1;
    }
    flat
}

fn flat_laps(laps: &Overlaps) -> Flat {
    let mut flat = Flat::default();
    for l in laps {
        let (start, end, v) = (l.start_indexes, l.end_indexes, l.view_data);
        let opposing = usize::from(l.opposing_directions);
        let at = [start.0, start.1, end.0, end.1, opposing, v.start_index, v.end_index_offset];
        flat.add(&at, &v);
    }
    flat
}

/// A slice as its two codes and its view.
fn coded(Slice { source, view }: Slice) -> ([usize; 2], View) {
    let codes = [source_code(source) as usize, usize::from(view.inverted_direction)];
    (codes, view)
}

fn flat_slices(slices: impl Iterator<Item = ([usize; 2], View)>) -> Flat {
    let mut flat = Flat::default();
    for ([source, inverted], v) in slices {
        flat.add(&[source, inverted, v.start_index, v.end_index_offset], &v);
    }
    flat
}

fn flat_candidates(candidates: &Candidates) -> Flat {
    let mut flat = Flat::default();
    for c in candidates.iter() {
        flat.add(&[c.view.start_index, c.view.end_index_offset], &c.view);
    }
    flat
}

/// A record of settings as the entries take it.
pub fn settings(record: &Settings) -> (Vec<usize>, Vec<f64>) {
    let bytes = record.to_bytes();
    let mut words = bytes.chunks_exact(8).map(|w| u64::from_le_bytes(w.try_into().unwrap()));
    let entered = words.next().unwrap() as usize;
    (vec![entered], words.map(f64::from_bits).collect())
}

/// A view that was found has the outline's edition.
fn with_edition(entry: &'static str, answer: ViewAnswer, source: &Outline) -> Raw {
    let edition = if answer.found == 1 { source.edition() } else { 0 };
    let mut raw = Raw::of(entry, answer, vec![]);
    raw.fields.push(edition.into());
    raw
}

pub fn view_vertex(v: &View, source: &Outline, index: usize) -> Raw {
    let (o, vc, _) = outline(source);
    Raw::of("mask_view_vertex", entries::view_vertex(&o, vc, view(v), index), vec![])
}

pub fn view_vertices(v: &View, source: &Outline, spare: Spare) -> Raw {
    let (o, vc, _) = outline(source);
    let mut vertices = room(3 * (v.end_index_offset.min(1024) + 2), spare[0]);
    let answer = entries::view_vertices(&o, vc, view(v), &mut vertices);
    Raw::of("mask_view_vertices", answer, vec![words![vertices]])
}

pub fn create(source: &Outline, w: &Walk, t: Tolerance) -> Raw {
    let (o, vc, _) = outline(source);
    let answer = entries::create(&o, vc, w.start_index, w.end_intersect, w.intersect_index, w.updated_start, w.traverse_count, t.x, t.y, w.split);
    with_edition("mask_create", answer, source)
}

pub fn create_on_single_segment(source: &Outline, w: &Walk, t: Tolerance) -> Raw {
    let (o, vc, _) = outline(source);
    let answer = entries::create_on_single_segment(&o, vc, w.start_index, w.updated_start, w.end_intersect, t.x, t.y);
    with_edition("mask_create_on_single_segment", answer, source)
}

pub fn from_entire_pline(source: &Outline, closed: bool) -> Raw {
    let (o, vc, _) = outline(source);
    with_edition("mask_from_entire_pline", entries::from_entire_pline(&o, vc, code(closed)), source)
}

pub fn slice_span(source: &Outline, closed: bool, from: Place, to: Place, t: Tolerance) -> Raw {
    let (o, vc, _) = outline(source);
    let answer = entries::slice_span(&o, vc, code(closed), from.index, from.point, to.index, to.point, t.x, t.y);
    Raw::of("mask_slice_span", answer, vec![])
}

pub fn from_slice_points(source: &Outline, closed: bool, from: Place, to: Place, t: Tolerance, splits: [Split; 2]) -> Raw {
    let (o, vc, _) = outline(source);
    let [start, end] = splits;
    let answer = entries::from_slice_points(&o, vc, code(closed), from.index, from.point, to.index, to.point, t.x, t.y, start, end);
    with_edition("mask_from_slice_points", answer, source)
}

pub fn from_new_start(source: &Outline, closed: bool, from: Place, t: Tolerance, splits: [Split; 2]) -> Raw {
    let (o, vc, _) = outline(source);
    let [start, end] = splits;
    let answer = entries::from_new_start(&o, vc, code(closed), from.index, from.point, t.x, t.y, start, end);
    with_edition("mask_from_new_start", answer, source)
}

pub fn validate_for_source(v: &View, source: &Outline, on: OnSegment) -> Raw {
    let (o, vc, edition) = outline(source);
    let answer = entries::validate_for_source(&o, vc, edition, view(v), v.edition, code(on.start), code(on.end));
    Raw::of("mask_validate_for_source", answer, vec![])
}

pub fn reopen(v: &View, source: &Outline, on: OnSegment) -> Raw {
    let (o, vc, edition) = outline(source);
    let answer = entries::reopen(&o, vc, edition, view(v), v.edition, code(on.start), code(on.end));
    Raw::of("mask_reopen", answer, vec![])
}

pub fn unmoved(v: &View, old: &Outline, new: &Outline) -> Raw {
    let ((o1, vc1, _), (o2, vc2, _)) = (outline(old), outline(new));
    Raw::of("mask_unmoved", entries::unmoved(&o1, vc1, &o2, vc2, view(v)), vec![])
}

pub fn cut_order(source: &Outline, of: Source, hits: &Intersections, laps: &Overlaps, t: Tolerance, spare: Spare) -> Raw {
    let ((o, vc, _), h, l) = (outline(source), flat_hits(hits), flat_laps(laps));
    let cuts = h.count + 2 * l.count;
    let (mut cut_at, mut cut) = (room(3 * cuts, spare[0]), room(2 * cuts, spare[1]));
    let answer = entries::cut_order(&o, vc, source_code(of), &h.at, &h.numbers, h.count, &l.at, &l.numbers, l.count, t.x, t.y, &mut cut_at, &mut cut);
    Raw::of("mask_cut_order", answer, vec![words![cut_at], words![cut]])
}

/// Cuts as they lie in a list.
pub fn flat_cuts(cuts: &Cuts) -> Vec<usize> {
    cuts.iter().flat_map(|c| [c.segment, usize::from(c.overlap_mark), c.arrival]).collect()
}

/// What both entries that find candidates take.
#[derive(Clone, Copy)]
pub struct Cutting<'a> {
    pub source: &'a Outline,
    pub of: Source,
    pub hits: &'a Intersections,
    pub laps: &'a Overlaps,
    pub splits: &'a Splits,
    pub tolerance: Tolerance,
}

/// The candidates; with a hint by the entry that takes one.
#[rustfmt::skip] // the parameters of both entries beside each other
pub fn candidates(c: Cutting<'_>, hint: Option<&[usize]>, spare: Spare) -> Raw {
    let ((o, vc, edition), h, l) = (outline(c.source), flat_hits(c.hits), flat_laps(c.laps));
    let (source, t, cuts) = (source_code(c.of), c.tolerance, h.count + 2 * l.count);
    let split: Vec<f64> = c.splits.iter().flat_map(|s| numbers(&[s.split.updated_start, s.split.split_vertex, s.split_vertex_of_segment])).collect();
    let (mut at, mut cand) = (room(2 * cuts, spare[0]), room(6 * cuts, spare[1]));
    let (mut probe, mut editions) = (room(6 * cuts, spare[2]), room(cuts, spare[3]));
    let (entry, answer) = match hint {
        None => ("mask_candidates", entries::candidates(
            &o, vc, edition, source, &h.at, &h.numbers, h.count, &l.at, &l.numbers, l.count, &split, t.x, t.y,
            &mut at, &mut cand, &mut probe, &mut editions)),
        Some(hint) => ("mask_candidates_along", entries::candidates_along(
            &o, vc, edition, source, &h.at, &h.numbers, h.count, &l.at, &l.numbers, l.count, hint, &split, t.x, t.y,
            &mut at, &mut cand, &mut probe, &mut editions)),
    };
    Raw::of(entry, answer, vec![words![at], words![cand], words![probe], words![editions]])
}

/// Room for so many slices.
fn slice_room(slices: usize, spare: Spare) -> (Vec<usize>, Vec<f64>, Vec<u32>) {
    (room(4 * slices, spare[0]), room(6 * slices, spare[1]), room(slices, spare[2]))
}

#[rustfmt::skip] // as many parameters to a line as go on it
pub fn prune(mode: Mode, opposing: bool, vertex_counts: [usize; 2], answered: [&Answered; 2], laps: &Overlaps, spare: Spare) -> Raw {
    let [c1, c2] = answered.map(|one| flat_candidates(&one.candidates));
    let [i1, i2] = answered.map(|one| one.inside.iter().map(|&yes| u8::from(yes)).collect::<Vec<u8>>());
    let l = flat_laps(laps);
    let (mut at, mut slice, mut editions) = slice_room(c1.count + c2.count + 2 * l.count, spare);
    let answer = entries::prune(
        mode_code(mode), code(opposing), vertex_counts[0], vertex_counts[1], &c1.at, &c1.numbers, &c1.editions, &i1, c1.count, &c2.at,
        &c2.numbers, &c2.editions, &i2, c2.count, &l.at, &l.numbers, &l.editions, l.count, &mut at, &mut slice, &mut editions,
    );
    Raw::of("mask_prune", answer, vec![words![at], words![slice], words![editions]])
}

#[rustfmt::skip] // as many parameters to a line as go on it
pub fn straight_slices(
    mode: Mode,
    opposing: bool,
    outlines: [&Outline; 2],
    hits: &Intersections,
    laps: &Overlaps,
    t: Tolerance,
    spare: Spare,
) -> Raw {
    let [(o1, vc1, edition1), (o2, vc2, edition2)] = outlines.map(outline);
    let (h, l) = (flat_hits(hits), flat_laps(laps));
    let (mut at, mut slice, mut editions) = slice_room(2 * (h.count + 2 * l.count) + 2 * l.count, spare);
    let answer = entries::straight_slices(
        mode_code(mode), code(opposing), &o1, vc1, edition1, &o2, vc2, edition2, &h.at, &h.numbers, h.count, &l.at, &l.numbers, &l.editions,
        l.count, t.x, t.y, &mut at, &mut slice, &mut editions,
    );
    Raw::of("mask_straight_slices", answer, vec![words![at], words![slice], words![editions]])
}

/// Room for a stitch: for so many vertices and slices.
pub struct StitchLists {
    pub room: Vec<f64>,
    pub of_slices: [Vec<usize>; 4],
}

impl StitchLists {
    pub fn new(vertices: usize, slices: usize, spare: Spare) -> StitchLists {
        StitchLists { room: room(3 * vertices, spare[0]), of_slices: [1, 2, 3, 4].map(|place| room(slices, spare[place])) }
    }

    pub fn words(self) -> Vec<Vec<u64>> {
        let [ends, chain, chain_ends, chain_how] = self.of_slices;
        vec![words![self.room], words![ends], words![chain], words![chain_ends], words![chain_how]]
    }
}

/// The need of a stitch in vertices. A larger offset than 1,024 is refused, whatever the room.
pub fn vertices_needed(slices: &Slices) -> usize {
    let first = usize::from(!slices.is_empty());
    first + slices.iter().map(|s| s.view.end_index_offset.min(1024) + 1).sum::<usize>()
}

#[rustfmt::skip] // as many parameters to a line as go on it
pub fn stitch(outlines: [&Outline; 2], slices: &Slices, selector: Selector, setting: Named<'_>, spare: Spare) -> Raw {
    let [(o1, vc1, edition1), (o2, vc2, edition2)] = outlines.map(outline);
    let (s, starts) = (flat_slices(slices.iter().map(coded)), slices.starts);
    let (entered, numbers) = settings(setting.settings);
    let mut lists = StitchLists::new(vertices_needed(slices), s.count, spare);
    let [ends, chain, chain_ends, chain_how] = &mut lists.of_slices;
    let answer = entries::stitch(
        &o1, vc1, edition1, &o2, vc2, edition2, &s.at, &s.numbers, &s.editions, s.count, starts.pline2, starts.pline1_overlapping,
        starts.pline2_overlapping, selector_code(selector), &entered, &numbers, setting.edition, &mut lists.room, ends, chain, chain_ends,
        chain_how,
    );
    Raw::of("mask_stitch", answer, lists.words())
}

pub fn area_pass(areas: &[f64], setting: Named<'_>, spare: Spare) -> Raw {
    let (entered, numbers) = settings(setting.settings);
    let mut kept = room(areas.len(), spare[0]);
    let answer = entries::area_pass(areas, areas.len(), &entered, &numbers, setting.edition, &mut kept);
    Raw::of("mask_area_pass", answer, vec![words![kept]])
}

/// Beside the answer: the record as the entry leaves it.
pub fn settings_enter(record: &Settings, s: Setting) -> (Raw, Vec<u64>) {
    let (mut entered, mut numbers) = settings(record);
    let answer = entries::settings_enter(&mut entered, &mut numbers, s.tolerance.x, s.tolerance.y, s.area_limit);
    (Raw::of("mask_settings_enter", answer, vec![]), words![entered, numbers])
}

pub fn settings_ask(record: &Settings, edition: usize) -> Raw {
    let (entered, numbers) = settings(record);
    Raw::of("mask_settings_ask", entries::settings_ask(&entered, &numbers, edition), vec![])
}

/// What a record is written of. Codes are as they are handed on, known or not.
pub struct Written<'a> {
    pub outlines: [&'a Outline; 2],
    pub slices: Vec<([usize; 2], View)>,
    pub starts: Starts,
    pub selector: u32,
    pub tolerance: Tolerance,
}

impl<'a> Written<'a> {
    pub fn of(outlines: [&'a Outline; 2], slices: &Slices, selector: Selector, tolerance: Tolerance) -> Written<'a> {
        Written { outlines, slices: slices.iter().map(coded).collect(), starts: slices.starts, selector: selector_code(selector), tolerance }
    }

    pub fn of_contents(contents: &'a RecordContents) -> Written<'a> {
        let codes = |s: &RecordSlice| [s.source_code, s.inverted_code].map(usize::from);
        Written {
            outlines: [&contents.pline1, &contents.pline2],
            slices: contents.slices.iter().map(|s| (codes(s), s.view)).collect(),
            starts: contents.starts,
            selector: contents.selector_code.into(),
            tolerance: contents.tolerance,
        }
    }

    pub fn need(&self, version: u32) -> usize {
        let (head, slice) = if version == 1 { (26, 54) } else { (42, 58) };
        head + 24 * self.outlines.map(Outline::vertex_count).iter().sum::<usize>() + slice * self.slices.len()
    }
}

#[rustfmt::skip] // as many parameters to a line as go on it
pub fn record_write(version: u32, written: &Written<'_>, spare: Spare) -> Raw {
    let [(o1, vc1, edition1), (o2, vc2, edition2)] = written.outlines.map(outline);
    let (s, starts, t) = (flat_slices(written.slices.iter().copied()), written.starts, written.tolerance);
    let mut bytes = room(written.need(version), spare[0]);
    let answer = entries::record_write(
        version, &o1, vc1, edition1, &o2, vc2, edition2, &s.at, &s.numbers, &s.editions, s.count, starts.pline2, starts.pline1_overlapping,
        starts.pline2_overlapping, written.selector, t.x, t.y, &mut bytes,
    );
    Raw::of("mask_record_write", answer, vec![words![bytes]])
}

pub fn record_replay(bytes: &[u8], spare: Spare) -> Raw {
    let mut lists = StitchLists::new(1821, 28, spare);
    let [ends, chain, chain_ends, chain_how] = &mut lists.of_slices;
    let answer = entries::record_replay(bytes, &mut lists.room, ends, chain, chain_ends, chain_how);
    Raw::of("mask_record_replay", answer, lists.words())
}

fn whole_numbers(whole: &WholeOutline) -> Vec<i64> {
    whole.vertices().flat_map(|(x, y)| [x, y]).collect()
}

pub fn straight_winding(whole: &WholeOutline, x: i64, y: i64) -> Raw {
    let answer = entries::straight_winding(&whole_numbers(whole), whole.vertices().count(), x, y);
    Raw::of("mask_straight_winding", answer, vec![])
}

pub fn straight_area(whole: &WholeOutline) -> Raw {
    let answer = entries::straight_area(&whole_numbers(whole), whole.vertices().count());
    Raw::of("mask_straight_area", answer, vec![])
}

pub fn straight_report(outlines: &[WholeOutline]) -> Raw {
    let (mut points, mut ends) = (Vec::new(), Vec::new());
    for one in outlines {
        points.extend(whole_numbers(one));
        ends.push(points.len() / 2);
    }
    Raw::of("mask_straight_report", entries::straight_report(&points, &ends, outlines.len()), vec![])
}

/// The four lists of a store, which the raw entries are lent beside the typed store.
pub struct RawStore {
    held: Vec<usize>,
    slice_at: Vec<usize>,
    slice: Vec<f64>,
    slice_edition: Vec<u32>,
}

impl RawStore {
    /// A store in its bytes, as the typed store writes them.
    pub fn of(store: &Store) -> RawStore {
        let bytes = store.to_bytes();
        let (words, editions) = bytes.split_at(8 * 11 * 1792);
        let words: Vec<u64> = words.chunks_exact(8).map(|w| u64::from_le_bytes(w.try_into().unwrap())).collect();
        let whole = |part: &[u64]| part.iter().map(|&w| w as usize).collect();
        RawStore {
            held: whole(&words[..1792]),
            slice_at: whole(&words[1792..5 * 1792]),
            slice: words[5 * 1792..].iter().map(|&w| f64::from_bits(w)).collect(),
            slice_edition: editions.chunks_exact(4).map(|e| u32::from_le_bytes(e.try_into().unwrap())).collect(),
        }
    }

    pub fn words(&self) -> Vec<u64> {
        words![self.held, self.slice_at, self.slice, self.slice_edition]
    }

    #[rustfmt::skip] // as many parameters to a line as go on it
    pub fn put(&mut self, party: u32, slice: Slice) -> Raw {
        let put = flat_slices(std::iter::once(coded(slice)));
        let answer = entries::store_put(
            &mut self.held, &mut self.slice_at, &mut self.slice, &mut self.slice_edition, party, &put.at, &put.numbers, put.editions[0],
        );
        Raw::of("mask_store_put", answer, vec![])
    }

    pub fn release(&mut self, party: u32, handle: usize) -> Raw {
        let answer = entries::store_release(&mut self.held, &self.slice_at, &self.slice, &self.slice_edition, party, handle);
        Raw::of("mask_store_release", answer, vec![])
    }

    #[rustfmt::skip] // as many parameters to a line as go on it
    pub fn list(&self, party: u32) -> Raw {
        let mut handles = room(896, 0);
        let (mut at, mut slice, mut editions) = slice_room(896, NEED);
        let answer = entries::store_list(
            &self.held, &self.slice_at, &self.slice, &self.slice_edition, party, &mut handles, &mut at, &mut slice, &mut editions,
        );
        Raw::of("mask_store_list", answer, vec![words![handles], words![at], words![slice], words![editions]])
    }

    pub fn compact(&mut self, party: u32) -> Raw {
        let answer = entries::store_compact(&mut self.held, &mut self.slice_at, &mut self.slice, &mut self.slice_edition, party);
        Raw::of("mask_store_compact", answer, vec![])
    }
}
