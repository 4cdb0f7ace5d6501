//! The realistic family: two outlines, the crate's own intersections and overlaps, and every stage in
//! turn as a host would run them, up to the whole operation.

use crate::call::{Outcome, numbers_of};
use crate::cases::{self, CandidateLists, CreateCase, Shared, Slices, ViewCase};
use crate::random::Random;
use crate::shapes;
use crate::stages::{self, Info};
use crate::tally::{Family, Tally};
use crate::theirs::{self, PruneSource};
use cavalier_contours::core::math::Vector2;
use cavalier_contours::polyline::internal::pline_boolean::polyline_boolean;
use cavalier_contours::polyline::{
    BooleanOp, BooleanResultInfo, PlineBooleanOptions, PlineOrientation, PlineSource, PlineVertex,
    PlineViewData, Polyline, own,
};

const FAMILY: Family = Family::Realistic;

/// One pair of outlines through all stages.
pub fn scenario(tally: &mut Tally, rng: &mut Random) {
    let largest = rng.pick(&[4, 6, 8, 12, 24, 48]);
    let [a, b] = shapes::pair(rng, largest);
    let tolerance = rng.pick(&[1e-5, 1e-5, 1.0 / 1024.0, 1e-8, 0.01]);
    let limit = rng.pick(&[0.0, 1e-5, 0.5, 4.0]);
    Pair::new(a, b, tolerance).run(tally, rng, limit);
}

/// Two outlines and what they share.
pub struct Pair {
    outlines: [Vec<f64>; 2],
    plines: [Polyline; 2],
    pub info: Info,
    pub shared: Shared,
    tolerance: f64,
}

/// The crate's intersections and overlaps in the form of the lists.
fn shared_lists(info: &Info) -> Shared {
    let mut shared = Shared::default();
    for hit in &info.intersects {
        shared.hit_at.extend([hit.start_index1, hit.start_index2]);
        shared.hit.extend([hit.point.x, hit.point.y]);
    }
    for lap in &info.overlapping_slices {
        let view = &lap.view_data;
        shared.lap_at.extend([
            lap.start_indexes.0,
            lap.start_indexes.1,
            lap.end_indexes.0,
            lap.end_indexes.1,
            usize::from(lap.opposing_directions),
            view.start_index,
            view.end_index_offset,
        ]);
        shared.lap.extend(stages::view_numbers(view));
    }
    shared
}

/// The splits that a host supplies for cuts in a given order, by the crate's own helper.
pub fn host_splits(pline: &Polyline, order: &Outcome, tolerance: f64) -> Vec<f64> {
    let count = order.answer[1] as usize;
    let segment = |k: usize| order.lent[0][3 * k] as usize;
    let mut splits = Vec::new();
    let mut running = PlineVertex::new(0.0, 0.0, 0.0);
    for k in 0..count {
        let start = pline.at(segment(k));
        let end = pline.at(pline.next_wrapping_index(segment(k)));
        if k == 0 || segment(k) != segment(k - 1) {
            running = start;
        }
        let at = numbers_of(&order.lent[1][2 * k..2 * k + 2]);
        let at = Vector2::new(at[0], at[1]);
        let split = own::seg_split_at_point(running, end, at, tolerance);
        running = split.split_vertex;
        let is_last = k + 1 == count || segment(k) != segment(k + 1);
        let whole = if is_last {
            own::seg_split_at_point(start, end, at, tolerance).split_vertex
        } else {
            PlineVertex::new(0.0, 0.0, 0.0)
        };
        for v in [split.updated_start, split.split_vertex, whole] {
            splits.extend([v.x, v.y, v.bulge]);
        }
    }
    splits
}

/// One outline's way up to its candidates.
struct Sliced {
    splits: Vec<f64>,
    lists: CandidateLists,
}

impl Pair {
    pub fn new(a: Vec<f64>, b: Vec<f64>, tolerance: f64) -> Pair {
        let plines = [stages::outline(&a), stages::outline(&b)];
        let info = stages::find_shared(&plines[0], &plines[1], tolerance);
        let mut shared = shared_lists(&info);
        shared.lap_edition = vec![cases::edition_of(&b); shared.laps()];
        Pair {
            outlines: [a, b],
            plines,
            info,
            shared,
            tolerance,
        }
    }

    /// Moves each overlap's view to where the overlap starts. The crate leaves the start index as it was
    /// where it joins the last overlap to the first.
    pub fn repair_overlaps(&mut self) {
        let pline2 = &self.plines[1];
        for at in self.shared.lap_at.chunks_exact_mut(7) {
            if at[5] == at[1] {
                continue;
            }
            at[5] = at[1];
            at[6] = match pline2.fwd_wrapping_dist(at[1], at[3]) {
                0 => pline2.vertex_count(),
                offset => offset,
            };
        }
        let shared = &self.shared;
        self.info = stages::info(
            &shared.hit_at,
            &shared.hit,
            &shared.lap_at,
            &shared.lap,
            self.info.opposing_directions(),
        );
    }

    pub fn outlines(&self) -> [&[f64]; 2] {
        self.outlines.each_ref().map(Vec::as_slice)
    }

    /// The slices that a mode keeps: what the archive's prune left, or none where a stage is refused.
    pub fn slices(&self, tally: &mut Tally, rng: &mut Random, mode: u64) -> Option<Outcome> {
        let first = self.slice(tally, rng, 0).ok()?;
        let second = self.slice(tally, rng, 1).ok()?;
        let pruned = self.prune(tally, rng, mode, &first, &second);
        (pruned.answer[0] == 0).then_some(pruned)
    }

    /// The archive's union, or the number with which a call on the way is refused.
    pub fn union(&self, tally: &mut Tally, rng: &mut Random) -> Result<Vec<Vec<f64>>, u64> {
        let first = self.slice(tally, rng, 0)?;
        let second = self.slice(tally, rng, 1)?;
        let pruned = self.prune(tally, rng, 0, &first, &second);
        if pruned.answer[0] != 0 {
            return Err(pruned.answer[0]);
        }
        self.loops(tally, rng, &pruned, 0).ok_or(0)
    }

    fn run(&self, tally: &mut Tally, rng: &mut Random, limit: f64) {
        for which in 0..2 {
            self.whole_outline(tally, which);
            self.creations(tally, rng, which);
        }
        for lap in 0..self.shared.laps() {
            self.overlap_view(tally, rng, lap);
        }
        let first = self.slice(tally, rng, 0);
        let second = self.slice(tally, rng, 1);
        let (Ok(first), Ok(second)) = (first, second) else {
            return;
        };
        let mut loops: Vec<Option<Vec<Vec<f64>>>> = Vec::new();
        for mode in 0..4 {
            loops.push(self.mode(tally, rng, mode, &first, &second, limit));
        }
        self.whole_operation(tally, &loops, limit);
    }

    fn whole_outline(&self, tally: &mut Tally, which: usize) {
        for closed in [false, true] {
            let call = cases::from_entire_pline(&self.outlines[which], closed);
            tally.compare(FAMILY, &call);
        }
    }

    /// A point of a segment: its start, its end, or one between on the chord or the arc.
    fn point_on(&self, rng: &mut Random, which: usize, segment: usize) -> Vector2 {
        let pline = &self.plines[which];
        let start = pline.at(segment);
        let end = pline.at(pline.next_wrapping_index(segment));
        match rng.below(4) {
            0 => start.pos(),
            1 => end.pos(),
            2 => own::seg_midpoint(start, end),
            _ => start.pos() + (end.pos() - start.pos()).scale(rng.part()),
        }
    }

    /// Views made by both constructors between points of the outline.
    fn creations(&self, tally: &mut Tally, rng: &mut Random, which: usize) {
        let (outline, pline) = (&self.outlines[which], &self.plines[which]);
        let vc = pline.vertex_count();
        for _ in 0..3 {
            let start = rng.below(vc);
            let traverse_count = rng.from(1, vc);
            let intersect_index = (start + traverse_count) % vc;
            let begin = self.point_on(rng, which, start);
            let end = self.point_on(rng, which, intersect_index);
            let split = |segment: usize, point| {
                let v2 = pline.at(pline.next_wrapping_index(segment));
                own::seg_split_at_point(pline.at(segment), v2, point, self.tolerance)
            };
            let updated_start = split(start, begin).split_vertex;
            let at_end = split(intersect_index, end);
            let (u, v) = (at_end.updated_start, at_end.split_vertex);
            let case = CreateCase {
                start,
                end: [end.x, end.y],
                intersect_index,
                updated_start: [updated_start.x, updated_start.y, updated_start.bulge],
                traverse_count,
                tolerance: self.tolerance.into(),
                split: [u.x, u.y, u.bulge, v.x, v.y, v.bulge],
            };
            let call = cases::create(outline, &case);
            let made = tally.compare(FAMILY, &call);
            tally.check("create, the crate's own split", &call, || {
                let view = stages::create(
                    pline,
                    start,
                    end,
                    intersect_index,
                    updated_start,
                    traverse_count,
                    self.tolerance,
                );
                view_outcome(&view)
            });
            self.view_of(tally, rng, which, &made);

            let end = self.point_on(rng, which, start);
            let call = cases::create_on_single_segment(
                outline,
                start,
                &[updated_start.x, updated_start.y, updated_start.bulge],
                &[end.x, end.y],
                self.tolerance,
            );
            let made = tally.compare(FAMILY, &call);
            self.view_of(tally, rng, which, &made);
        }
    }

    /// The vertices and the verdict of a view that a constructor answered.
    fn view_of(&self, tally: &mut Tally, rng: &mut Random, which: usize, made: &Outcome) {
        if made.answer[0] == 0 && made.answer[1] == 1 {
            let numbers = numbers_of(&made.answer[4..10]);
            let view = ViewCase {
                start: made.answer[2] as usize,
                offset: made.answer[3] as usize,
                numbers: numbers.try_into().unwrap(),
                inverted: rng.once_in(2),
            };
            self.view(tally, rng, which, view);
        }
    }

    /// A few vertices of a view one by one, all of them in one call, and its verdict.
    fn view(&self, tally: &mut Tally, rng: &mut Random, which: usize, view: ViewCase) {
        let outline = &self.outlines[which];
        let indexes = [0, 1, view.offset / 2, view.offset, view.offset + 1];
        for index in indexes.into_iter().chain([view.offset + 2]) {
            if index > 2 && index < view.offset && !rng.once_in(3) {
                continue;
            }
            tally.compare(FAMILY, &cases::view_vertex(outline, &view, index));
        }
        let rooms = &mut Random::new(tally.scenario);
        tally.compare(FAMILY, &cases::view_vertices(rooms, outline, &view));
        self.verdict(tally, which, &view);
    }

    /// The verdict of a view, with the crate's own answers on the segments. Gives it back.
    pub fn verdict(&self, tally: &mut Tally, which: usize, view: &ViewCase) -> u64 {
        let pline = &self.plines[which];
        let n = view.numbers;
        let [start_on, end_on] = on_segments(&self.outlines[which], view);
        let call = cases::validate(&self.outlines[which], view, start_on, end_on);
        let ours = tally.compare(FAMILY, &call);
        tally.check("verdict, the crate's own closest point", &call, || {
            let data = stages::view_data(view.start, view.offset, &n, view.inverted);
            theirs::verdict_answer(stages::validate(pline, &data))
        });
        ours.answer[1]
    }

    /// The view of an overlap, as the crate joined it.
    pub fn lap_view(&self, lap: usize) -> ViewCase {
        let at = &self.shared.lap_at[7 * lap..];
        ViewCase {
            start: at[5],
            offset: at[6],
            numbers: self.shared.lap[6 * lap..6 * lap + 6].try_into().unwrap(),
            inverted: false,
        }
    }

    fn overlap_view(&self, tally: &mut Tally, rng: &mut Random, lap: usize) {
        let view = self.lap_view(lap);
        if view.offset <= self.plines[1].vertex_count() {
            self.view(tally, rng, 1, view);
        }
    }

    /// Order of cuts, candidates and their inside answers, or the number with which a call is refused.
    fn slice(&self, tally: &mut Tally, rng: &mut Random, which: usize) -> Result<Sliced, u64> {
        let (outline, pline) = (&self.outlines[which], &self.plines[which]);
        let source = which as u64 + 1;
        let call = cases::cut_order(rng, outline, source, &self.shared, self.tolerance);
        let order = tally.compare(FAMILY, &call);
        if order.answer[0] != 0 {
            return Err(order.answer[0]);
        }
        let splits = host_splits(pline, &order, self.tolerance);
        let call = cases::candidates(rng, outline, source, &self.shared, &splits, self.tolerance);
        let found = tally.compare(FAMILY, &call);
        if found.answer[0] != 0 {
            return Err(found.answer[0]);
        }
        tally.check("candidates, the crate's own splits", &call, || {
            theirs::candidates_with_own_splits(&call)
        });
        let lists = self.with_inside(&found, which);
        for k in 0..lists.inside.len().min(4) {
            let numbers = numbers_of(&lists.numbers[6 * k..6 * k + 6]);
            let view = ViewCase {
                start: lists.at[2 * k] as usize,
                offset: lists.at[2 * k + 1] as usize,
                numbers: numbers.try_into().unwrap(),
                inverted: rng.once_in(2),
            };
            self.view(tally, rng, which, view);
        }
        Ok(Sliced { splits, lists })
    }

    /// The candidates, each with the winding number's answer for the midpoint of its probe.
    fn with_inside(&self, found: &Outcome, which: usize) -> CandidateLists {
        let count = found.answer[1] as usize;
        let other = &self.plines[1 - which];
        let probes = stages::vertices(&numbers_of(&found.lent[2][..6 * count]));
        let inside = probes.chunks_exact(2).map(|probe| {
            let midpoint = own::seg_midpoint(probe[0], probe[1]);
            u64::from(other.winding_number(midpoint) != 0)
        });
        CandidateLists {
            at: found.lent[0][..2 * count].to_vec(),
            numbers: found.lent[1][..6 * count].to_vec(),
            edition: found.lent[3][..count].to_vec(),
            inside: inside.collect(),
        }
    }

    fn prune(
        &self,
        tally: &mut Tally,
        rng: &mut Random,
        mode: u64,
        first: &Sliced,
        second: &Sliced,
    ) -> Outcome {
        let opposing = self.info.opposing_directions();
        let vc = self.plines.each_ref().map(PlineSource::vertex_count);
        let call = cases::prune(
            rng,
            mode,
            opposing,
            vc,
            &first.lists,
            &second.lists,
            &self.shared,
        );
        let pruned = tally.compare_with(FAMILY, &call, || {
            let source = PruneSource {
                outline1: &self.outlines[0],
                outline2: &self.outlines[1],
                hit_at: &self.shared.hit_at,
                hit: &self.shared.hit,
                splits1: &first.splits,
                splits2: &second.splits,
                tolerance: self.tolerance,
            };
            theirs::prune_of(&call, &source)
        });
        tally.check("prune, the crate's own splits and winding", &call, || {
            let [pline1, pline2] = &self.plines;
            let pruned = stages::prune(pline1, pline2, &self.info, mode, self.tolerance);
            let candidates = first.lists.inside.len() + second.lists.inside.len();
            let need = candidates + 2 * self.shared.laps();
            theirs::prune_outcome(&pruned, need, &call)
        });
        pruned
    }

    /// Prune, both stitches and the area pass of one mode. Gives the loops that the mode's own
    /// selector makes and that the area pass keeps.
    fn mode(
        &self,
        tally: &mut Tally,
        rng: &mut Random,
        mode: u64,
        first: &Sliced,
        second: &Sliced,
        limit: f64,
    ) -> Option<Vec<Vec<f64>>> {
        let pruned = self.prune(tally, rng, mode, first, second);
        if pruned.answer[0] != 0 {
            return None;
        }
        let own_selector = u64::from(mode >= 2);
        let mut result = None;
        for selector in 0..2 {
            let loops = self.loops(tally, rng, &pruned, selector);
            let kept = self.kept(tally, rng, &loops?, limit);
            if selector == own_selector {
                result = Some(kept);
            }
        }
        result
    }

    /// The loops of pruned slices.
    fn loops(
        &self,
        tally: &mut Tally,
        rng: &mut Random,
        pruned: &Outcome,
        selector: u64,
    ) -> Option<Vec<Vec<f64>>> {
        let outlines = [&self.outlines[0][..], &self.outlines[1]];
        let slices = Slices::of(pruned);
        let call = cases::stitch(rng, outlines, &slices, selector, self.tolerance);
        let stitched = tally.compare(FAMILY, &call);
        (stitched.answer[0] == 0).then(|| loops_of(&stitched))
    }

    /// The loops that remain, by their signed areas.
    fn kept(
        &self,
        tally: &mut Tally,
        rng: &mut Random,
        loops: &[Vec<f64>],
        limit: f64,
    ) -> Vec<Vec<f64>> {
        let areas: Vec<f64> = loops.iter().map(|l| stages::outline(l).area()).collect();
        let kept = tally.compare(FAMILY, &cases::area_pass(rng, &areas, limit));
        let numbers = &kept.lent[0][..kept.answer[1] as usize];
        numbers.iter().map(|n| loops[*n as usize].clone()).collect()
    }

    /// The crate's own operation gives the same loops, in the same order.
    fn whole_operation(&self, tally: &mut Tally, loops: &[Option<Vec<Vec<f64>>>], limit: f64) {
        let [pline1, pline2] = &self.plines;
        let [Some(or), Some(and), Some(not), Some(not_other)] = loops else {
            return;
        };
        let both = [&not[..], &not_other[..]].concat();
        let operations = [
            (BooleanOp::Or, or),
            (BooleanOp::And, and),
            (BooleanOp::Not, not),
            (BooleanOp::Xor, &both),
        ];
        for (operation, ours) in operations {
            let options = PlineBooleanOptions {
                pline1_aabb_index: None,
                pos_equal_eps: self.tolerance,
                collapsed_area_eps: Some(limit),
            };
            let result = polyline_boolean::<_, _, Polyline, _>(pline1, pline2, operation, &options);
            if result.result_info != BooleanResultInfo::Intersected {
                continue;
            }
            let numbers = |p: &Polyline| -> Vec<f64> {
                let one = |v: &PlineVertex| [v.x, v.y, v.bulge];
                p.vertex_data.iter().flat_map(one).collect()
            };
            let positive: Vec<_> = result
                .pos_plines
                .iter()
                .map(|r| numbers(&r.pline))
                .collect();
            let negative: Vec<_> = result
                .neg_plines
                .iter()
                .map(|r| numbers(&r.pline))
                .collect();
            let (p, n) = if operation == BooleanOp::Or {
                parted(ours, self.info.pline2_orientation)
            } else {
                (ours.clone(), Vec::new())
            };
            let same = bits(&p) == bits(&positive) && bits(&n) == bits(&negative);
            tally.claim("whole operation", same, || {
                format!(
                    "{operation:?} a = {:?} b = {:?} t = {:?} limit = {limit:?}",
                    self.outlines[0], self.outlines[1], self.tolerance
                )
            });
        }
    }
}

pub fn bits(loops: &[Vec<f64>]) -> Vec<Vec<u64>> {
    let one = |l: &Vec<f64>| l.iter().map(|n| n.to_bits()).collect();
    loops.iter().map(one).collect()
}

/// A union's loops: those that run as the second outline does, and the others.
pub fn parted(loops: &[Vec<f64>], orientation: PlineOrientation) -> (Vec<Vec<f64>>, Vec<Vec<f64>>) {
    let runs_alike = |l: &Vec<f64>| stages::outline(l).orientation() == orientation;
    loops.iter().cloned().partition(runs_alike)
}

/// The loops of a stitch, each as x, y, bulge.
pub fn loops_of(stitched: &Outcome) -> Vec<Vec<f64>> {
    let ends = &stitched.lent[1][..stitched.answer[2] as usize];
    let mut from = 0;
    let mut loops = Vec::new();
    for end in ends {
        let end = 3 * *end as usize;
        loops.push(numbers_of(&stitched.lent[0][from..end]));
        from = end;
    }
    loops
}

/// The crate's own answers on where a view's ends lie. A view that starts past the outline gets a no:
/// it is refused.
pub fn on_segments(outline: &[f64], view: &ViewCase) -> [bool; 2] {
    let pline = stages::outline(outline);
    let (n, vc) = (view.numbers, pline.vertex_count());
    if view.start >= vc {
        return [false; 2];
    }
    let end_segment = (view.start + view.offset.min(vc)) % vc;
    [
        on_segment(&pline, view.start, Vector2::new(n[0], n[1])),
        on_segment(&pline, end_segment, Vector2::new(n[4], n[5])),
    ]
}

/// The crate's test beyond the near vertices, with its two tolerances.
fn on_segment(pline: &Polyline, segment: usize, point: Vector2) -> bool {
    let v1 = pline.at(segment);
    let v2 = pline.at(pline.next_wrapping_index(segment));
    let closest = own::seg_closest_point(v1, v2, point, 1e-5);
    closest.fuzzy_eq_eps(point, 1e-3)
}

fn view_outcome(view: &PlineViewData) -> Outcome {
    let mut answer = vec![0, 1, view.start_index as u64, view.end_index_offset as u64];
    answer.extend(stages::view_numbers(view).map(f64::to_bits));
    answer.push(0);
    Outcome {
        answer,
        lent: Vec::new(),
    }
}
