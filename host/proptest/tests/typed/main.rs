//! The typed layer over drawn input: it never panics, it never lends less than the need (so that
//! number 9 is never answered), and every call answers what the raw entry answers, bit for bit.
//!
//! `draw` draws, `raw` makes the raw call of the same input, `same` compares. A property names the
//! typed call and the raw one beside each other, and nothing more.

#[macro_use]
#[path = "../../../rust/src/ffi/declare.rs"]
mod declare;
mod draw;
mod entries;
mod raw;
mod same;
mod words;

use draw::*;
use mask_tools::lent::{self, CandidateRoom, SliceRoom, StitchRoom};
use mask_tools::*;
use proptest::collection::vec;
use proptest::prelude::*;
use raw::{room, Cutting, RawStore, Spare, StitchLists, Written, NEED};
use same::{for_drawn, same, same_lent, Raw, Told};
use words::{words, Words};

/// A host that answers what was drawn, one split after the other, and keeps what it gave.
struct Drawn<'a> {
    splits: &'a [Split],
    given: Vec<Split>,
}

impl<'a> Drawn<'a> {
    fn new(splits: &'a [Split]) -> Drawn<'a> {
        Drawn { splits, given: Vec::new() }
    }

    /// The start's split and the end's. One that it was not asked for can be any.
    fn start_and_end(&self, first_is_start: bool) -> [Split; 2] {
        let any = Vertex::new(1.5, -2.5, 0.25);
        let unused = Split { updated_start: any, split_vertex: any };
        match self.given[..] {
            [start, end] => [start, end],
            [start] if first_is_start => [start, unused],
            [end] => [unused, end],
            _ => [unused, unused],
        }
    }
}

impl Host for Drawn<'_> {
    fn split(&mut self, _from: Vertex, _to: Vertex, _at: Point) -> Split {
        let split = self.splits[self.given.len() % self.splits.len()];
        self.given.push(split);
        split
    }

    fn inside(&mut self, source: Source, outline: &Outline, probe: Probe) -> bool {
        StraightHost.inside(source, outline, probe)
    }

    fn area(&mut self, vertices: &[Vertex]) -> f64 {
        StraightHost.area(vertices)
    }
}

fn mode() -> impl Strategy<Value = Mode> {
    (0..4usize).prop_map(|number| Mode::ALL[number])
}

fn selector() -> impl Strategy<Value = Selector> {
    prop_oneof![Just(Selector::OrAnd), Just(Selector::NotXor)]
}

/// Room that is just the need, some more, or less in some lists.
fn spare() -> impl Strategy<Value = Spare> {
    let some = |least| vec(least..3i8, 5).prop_map(|list| -> Spare { list.try_into().unwrap() });
    prop_oneof![4 => Just(NEED), 2 => some(0), 1 => some(-1)]
}

/// A record of one setting, or of none where it was refused.
fn record_of(setting: Setting) -> Settings {
    let mut settings = Settings::new();
    let entered = settings.enter(setting);
    assert_eq!(entered.is_ok(), settings.len() == 1);
    settings
}

#[test]
fn vertices_of_a_view() {
    for_drawn((outline(), view(), any_index()), |(source, view, index)| {
        same(&view.vertices(&source), &raw::view_vertices(&view, &source, NEED));
        same(&view.get_vertex(&source, index), &raw::view_vertex(&view, &source, index));
    });
}

#[test]
fn views_that_are_made() {
    for_drawn((outline(), walk(), tolerance(), any::<bool>()), |(source, walk, t, closed)| {
        let (start, from, to) = (walk.start_index, walk.updated_start, walk.end_intersect);
        same(&View::create(&source, &walk, t), &raw::create(&source, &walk, t));
        same(&View::create_on_single_segment(&source, start, from, to, t), &raw::create_on_single_segment(&source, &walk, t));
        same(&View::from_entire_pline(&source, closed), &raw::from_entire_pline(&source, closed));
    });
}

#[test]
fn verdicts() {
    let on_segment = (any::<bool>(), any::<bool>()).prop_map(|(start, end)| OnSegment { start, end });
    for_drawn((old_and_new(), view(), on_segment), |((old, new), view, on)| {
        same(&view.validate_for_source(&new, on), &raw::validate_for_source(&view, &new, on));
        let mut reopened = view;
        let verdict = reopened.reopen(&new, on);
        same(&verdict.map(|verdict| (verdict, reopened.edition)), &raw::reopen(&view, &new, on));
        assert_eq!(words![View { edition: view.edition, ..reopened }], words![view]);
        assert!(verdict.is_ok() || reopened.edition == view.edition);
        let moved = view.first_moved(&old, &new);
        same(&moved, &raw::unmoved(&view, &old, &new));
        assert_eq!(view.unmoved(&old, &new), moved.map(|first| first.is_none()));
    });
}

#[test]
fn starts_anywhere() {
    for_drawn((outline(), place(), place(), any::<bool>(), tolerance(), vec(split(), 2)), |(source, from, to, closed, t, drawn)| {
        same(&slice_span(&source, closed, from, to, t), &raw::slice_span(&source, closed, from, to, t));
        let mut host = Drawn::new(&drawn);
        let between = View::from_slice_points(&source, closed, from, to, t, &mut host);
        same(&between, &raw::from_slice_points(&source, closed, from, to, t, host.start_and_end(false)));
        let mut host = Drawn::new(&drawn);
        let started = View::from_new_start(&source, closed, from, t, &mut host);
        same(&started, &raw::from_new_start(&source, closed, from, t, host.start_and_end(closed)));
    });
}

/// The candidates, without a hint and with one, which is the order of the cuts or any other list.
fn candidates_as_raw(c: Cutting<'_>, way: usize) -> Result<Candidates, Refusal> {
    let found = candidates(c.source, c.of, c.hits, c.laps, c.splits, c.tolerance);
    same(&found, &raw::candidates(c, None, NEED));
    let mut cuts: Vec<Cut> = cut_order(c.source, c.of, c.hits, c.laps, c.tolerance).unwrap_or_default().iter().collect();
    match way % 5 {
        0 => cuts.reverse(),
        1 => cuts.truncate(way),
        2 => cuts.extend(vec![Cut { segment: way, overlap_mark: true, arrival: way, point: Point::default() }; way]),
        _ => {}
    }
    let hint: Cuts = cuts.into_iter().collect();
    let along = candidates_along(c.source, c.of, c.hits, c.laps, &hint, c.splits, c.tolerance);
    same(&along, &raw::candidates(c, Some(&raw::flat_cuts(&hint)), NEED));
    assert_eq!(along, found);
    found
}

#[test]
fn cuts_candidates_and_slices() {
    let lists = (intersections(), overlaps(), drawn_splits(), vec(any::<bool>(), 1..30));
    for_drawn((outline(), source(), lists, tolerance(), mode(), any::<[bool; 2]>()), |(source, of, lists, t, mode, [opposing, exact])| {
        let (hits, laps, drawn, answers) = lists;
        same(&cut_order(&source, of, &hits, &laps, t), &raw::cut_order(&source, of, &hits, &laps, t, NEED));
        let splits = splits_for(if answers.len() == 7 { 3 } else { hits.len() + 2 * laps.len() }, &drawn);
        let found = candidates_as_raw(Cutting { source: &source, of, hits: &hits, laps: &laps, splits: &splits, tolerance: t }, answers.len());
        if let Ok(candidates) = found {
            let inside = answers.iter().copied().cycle();
            let inside = inside.take(if exact { candidates.len() } else { answers.len() }).collect();
            let (one, counts) = (Answered { candidates, inside }, [source.vertex_count(); 2]);
            let answered = [&one, &one];
            same(&prune(mode, opposing, counts, answered, &laps), &raw::prune(mode, opposing, counts, answered, &laps, NEED));
        }
    });
}

#[test]
fn straight_slices_in_one_call() {
    let outlines = (whole_outline(), whole_outline());
    let lists = (whole_intersections(), whole_overlaps());
    for_drawn((outlines, lists, tolerance(), mode(), any::<bool>(), spare()), |((pline1, pline2), (hits, laps), t, mode, opposing, spare)| {
        let both = [&pline1, &pline2];
        same(&straight_slices(mode, opposing, both, &hits, &laps, t), &raw::straight_slices(mode, opposing, both, &hits, &laps, t, NEED));
        let need = lent::straight_slices_needed(&hits, &laps);
        let (typed, rooms) = with_slice_room(need, spare, |room| lent::straight_slices(mode, opposing, both, &hits, &laps, t, room));
        same_lent(&typed, rooms, &raw::straight_slices(mode, opposing, both, &hits, &laps, t, spare));
    });
}

#[test]
fn stitches() {
    for_drawn((outline(), outline(), slices(), selector(), setting(), 0usize..30), |(pline1, pline2, slices, selector, entered, asked)| {
        let settings = record_of(entered);
        let setting = settings.named(if asked == 0 { 2 } else { 1 });
        same(&stitch(&pline1, &pline2, &slices, selector, setting), &raw::stitch([&pline1, &pline2], &slices, selector, setting, NEED));
    });
}

#[test]
fn records_of_stitches() {
    for_drawn((recorded_outline(), recorded_outline(), recorded_slices(), selector(), tolerance()), |(pline1, pline2, slices, selector, t)| {
        let handed = Written::of([&pline1, &pline2], &slices, selector, t);
        for version in RecordVersion::ALL {
            let written = Record::write(version, &pline1, &pline2, &slices, selector, t);
            same(&written, &raw::record_write(version.number(), &handed, NEED));
            if let Ok(record) = written {
                replayed_as_raw(&record);
            }
        }
    });
}

/// Any record, replayed and taken apart and written again.
fn replayed_as_raw(record: &Record) {
    let raw = raw::record_replay(record.bytes(), NEED);
    same(&record.replay(), &raw);
    let contents = record.contents();
    assert_eq!(contents.as_ref().err().map_or(0, |refusal| refusal.number()), if (11..14).contains(&raw.refusal) { raw.refusal } else { 0 });
    if let Ok(contents) = contents {
        let handed = Written::of_contents(&contents);
        for version in RecordVersion::ALL {
            let written = contents.write(version);
            same(&written, &raw::record_write(version.number(), &handed, NEED));
            assert!(!raw.accepted() || version != contents.version || written.as_ref() == Ok(record));
        }
    }
}

#[test]
fn replays_of_any_bytes() {
    let (vc, slices) = (prop_oneof![4 => 2u8..5, 1 => 0u8..2], prop_oneof![2 => Just(0u8), 1 => 1u8..4]);
    for_drawn((vec(any::<u8>(), 0..400), 1u8..4, 0u8..9, vc, slices), |(bytes, version, whole, vc, slices)| {
        let mut bytes = bytes;
        if whole > 0 && bytes.len() >= 60 {
            bytes[..10].copy_from_slice(&[b'P', b'B', b'R', version, 0, vc, 0, vc, 0, version & 1]);
            let (head, width) = if version == 1 { (26, 54) } else { (42, 58) };
            bytes[head - 8..head].copy_from_slice(&[0, 0, 0, 0, 0, 0, slices, 0]);
            bytes.resize(head + 24 * 2 * usize::from(vc) + width * usize::from(slices), 0);
        }
        if whole > 4 {
            // Numbers in range: the tolerance, then all others.
            bytes.iter_mut().skip(10).for_each(|byte| *byte &= 0x3f);
        }
        replayed_as_raw(&Record::from_bytes(bytes));
    });
}

#[test]
fn settings_and_areas() {
    let any_content = vec(any::<u8>(), Settings::BYTES);
    let calls = vec((setting(), 0usize..20, vec(area(), 0..20)), 0..24);
    for_drawn((prop_oneof![4 => Just(None), 1 => any_content.prop_map(Some)], calls, 0u8..40), |(content, calls, many)| {
        let kept: Option<[u8; Settings::BYTES]> = content.map(|bytes| bytes.try_into().unwrap());
        let mut settings = kept.map_or_else(Settings::new, |bytes| Settings::from_bytes(&bytes));
        for (entry, asked, mut areas) in calls {
            let (raw, behind) = raw::settings_enter(&settings, entry);
            same(&settings.enter(entry), &raw);
            let (entered, numbers) = raw::settings(&settings);
            assert_eq!(words![entered, numbers], behind, "the record behind the call");
            same(&settings.ask(asked), &raw::settings_ask(&settings, asked));
            if many == 0 {
                areas.resize(1790 + asked % 6, 1.0);
            }
            let setting = settings.named(asked);
            same(&area_pass(&areas, setting), &raw::area_pass(&areas, setting, NEED));
        }
    });
}

/// A store of any content: marks of few handles or all, codes that are codes, any bits beside them.
fn store_of(seed: u64, all_live: bool) -> Store {
    let mut bytes = Store::new().to_bytes();
    let mut drawn = seed;
    for (place, word) in bytes.chunks_exact_mut(8).enumerate() {
        drawn = drawn.wrapping_mul(0x5851_f42d_4c95_7f2d).wrapping_add(0x1405_7b7e_f767_814f);
        let number = match (place, place % 4) {
            (0..=1791, _) if all_live => place as u64 % 896 + 1,
            (0..=1791, _) => drawn >> 55,
            (1792..=8959, 0) => 1 + (drawn >> 63), // a source
            (1792..=8959, 1) => drawn >> 63,       // a direction
            _ => drawn,
        };
        word.copy_from_slice(&number.to_le_bytes());
    }
    Store::from_bytes(&bytes).unwrap()
}

/// Bytes that no store wrote can hold codes that are none. The types have no such code, so they read
/// as outline 2 and as inverted; the list itself has them still, and a stitch refuses them.
#[test]
fn codes_that_are_none() {
    let mut bytes = Store::new().to_bytes();
    bytes[0] = 1; // party 0's handle 0, at place 0
    bytes[8 * 1792] = 7;
    let listed = Store::from_bytes(&bytes).unwrap().list(First).unwrap();
    assert_eq!(listed.iter().map(|kept| kept.slice.source).collect::<Vec<Source>>(), [Source::Pline2]);
    let square = Outline::straight(&[(0.0, 0.0), (4.0, 0.0), (4.0, 4.0), (0.0, 4.0)]);
    let settings = record_of(Setting { tolerance: Tolerance::new(0.5), area_limit: 0.0 });
    let stitched = stitch(&square, &square, &listed.into_slices(Starts::default()), Selector::OrAnd, settings.named(1));
    assert_eq!(stitched, Err(Refusal::Code));
}

/// One call of a party, on the typed store and on the raw one.
fn call_store<P: Party>(party: P, code: u32, store: &mut Store, raw: &mut RawStore, (what, slice, handle): (u8, Slice, usize)) {
    match what {
        0..=3 => same(&store.put(party, slice), &raw.put(code, slice)),
        4..=6 => same(&store.release(Handle::of_number(party, handle)), &raw.release(code, handle)),
        7 => same(&store.list(party), &raw.list(code)),
        _ => same(&store.compact(party), &raw.compact(code)),
    }
    assert_eq!(RawStore::of(store).words(), raw.words(), "the store behind the call");
}

#[test]
fn histories_of_a_store() {
    let slice = (source(), view()).prop_map(|(source, view)| Slice { source, view });
    let calls = vec((any::<bool>(), (0u8..9, slice, prop_oneof![9 => 0usize..12, 1 => any::<usize>()])), 0..16);
    for_drawn((prop_oneof![2 => Just(None), 1 => any::<u64>().prop_map(Some)], calls), |(content, calls)| {
        let mut store = content.map_or_else(Store::new, |seed| store_of(seed, seed % 4 == 0));
        let mut raw = RawStore::of(&store);
        for (first, call) in calls {
            if first {
                call_store(First, 0, &mut store, &mut raw, call);
            } else {
                call_store(Second, 1, &mut store, &mut raw, call);
            }
        }
        // What is listed goes on as slices, and has the editions that it lists.
        let listed = store.list(First).unwrap();
        let editions: Vec<u32> = listed.iter().map(|kept| kept.slice.view.edition).collect();
        assert_eq!(listed.editions(), editions);
        let (lists, slices) = (listed.lists(), listed.into_slices(Starts::default()));
        assert_eq!(slices.lists(), lists[1..]);
    });
}

#[test]
fn whole_outlines() {
    let x = prop_oneof![12 => -400_000_000i64..400_000_001, 40 => -6i64..7, 1 => any::<i64>()];
    // The largest square, run round so often that its area takes two words.
    let most = 400_000_000i64;
    let corners = [(-most, -most), (most, -most), (most, most), (-most, most)];
    let round_and_round = (20usize..250, any::<bool>()).prop_map(move |(turns, back)| {
        let round: Vec<(i64, i64)> = corners.repeat(turns);
        if back {
            round.into_iter().rev().collect()
        } else {
            round
        }
    });
    let one = prop_oneof![
        30 => vec((x, -6i64..7), 2..20),
        2 => round_and_round,
        1 => vec((-6i64..7, -6i64..7), 0..2),
        1 => vec((-6i64..7, -6i64..7), 1022..1027)
    ];
    let many = prop_oneof![30 => 1usize..5, 1 => 4095usize..4098];
    for_drawn((vec(one, 0..4), -14i64..15, prop_oneof![20 => -14i64..15, 1 => any::<i64>()], many), |(outlines, x, y, many)| {
        let whole: Vec<WholeOutline> = outlines.iter().map(|vertices| WholeOutline::new(vertices)).collect();
        for one in &whole {
            let winding = one.winding(x, y);
            same(&winding, &raw::straight_winding(one, x, y));
            assert_eq!(one.is_inside(x, y), winding.map(|turns| turns != 0));
            same(&one.doubled_area(), &raw::straight_area(one));
        }
        let report: Vec<WholeOutline> = if many > 4 { vec![WholeOutline::new(&[(0, 0), (x, y)]); many] } else { whole };
        same(&straight_report(&report), &raw::straight_report(&report));
    });
}

/// The calls that a host lends room for: the answer and all that the room holds behind the call.
#[test]
fn lent_room() {
    let lists = (intersections(), overlaps(), drawn_splits(), slices(), vec(area(), 0..20));
    let how = (source(), tolerance(), mode(), selector(), setting());
    for_drawn((outline(), view(), lists, how, spare()), |(source, view, lists, how, spare)| {
        let ((hits, laps, drawn, slices, areas), (of, t, mode, selector, entered)) = (lists, how);

        let mut vertices: Vec<f64> = room(3 * (view.end_index_offset.min(1024) + 2), spare[0]);
        let typed = lent::view_vertices(&view, &source, &mut vertices);
        same_lent(&typed, vec![words![vertices]], &raw::view_vertices(&view, &source, spare));

        let cuts = lent::cuts_needed(&hits, &laps);
        let (mut cut_at, mut cut) = (room(3 * cuts, spare[0]), room(2 * cuts, spare[1]));
        let typed = lent::cut_order(&source, of, &hits, &laps, t, &mut cut_at, &mut cut);
        same_lent(&typed, vec![words![cut_at], words![cut]], &raw::cut_order(&source, of, &hits, &laps, t, spare));

        let splits = splits_for(cuts, &drawn);
        let cutting = Cutting { source: &source, of, hits: &hits, laps: &laps, splits: &splits, tolerance: t };
        let (typed, rooms) = with_candidate_room(cuts, spare, |room| lent::candidates(&source, of, &hits, &laps, &splits, t, room));
        same_lent(&typed, rooms, &raw::candidates(cutting, None, spare));
        let along = |room: CandidateRoom<'_>| lent::candidates_along(&source, of, &hits, &laps, &cut_at, &splits, t, room);
        let (typed, rooms) = with_candidate_room(cuts, spare, along);
        same_lent(&typed, rooms, &raw::candidates(cutting, Some(&cut_at), spare));

        let opposing = cuts % 2 == 1;
        let candidates = candidates(&source, of, &hits, &laps, &splits, t).unwrap_or_default();
        let answered = Answered { inside: candidates.iter().map(|c| c.view.start_index % 2 == 0).collect(), candidates };
        let codes: Vec<u8> = answered.inside.iter().map(|&yes| yes.into()).collect();
        let (counts, both) = ([source.vertex_count(); 2], [(&answered.candidates, &codes[..]); 2]);
        let need = lent::slices_needed([&answered.candidates; 2], &laps);
        let (typed, rooms) = with_slice_room(need, spare, |room| lent::prune(mode, opposing, counts, both, &laps, room));
        same_lent(&typed, rooms, &raw::prune(mode, opposing, counts, [&answered; 2], &laps, spare));

        let settings = record_of(entered);
        let setting = settings.named(1);
        // Beyond the most offset the call is refused, whatever the room.
        let need = lent::vertices_needed(&slices).min(raw::vertices_needed(&slices));
        let mut lists = StitchLists::new(need, slices.len(), spare);
        let typed = lent::stitch(&source, &source, &slices, selector, setting, stitch_room(&mut lists));
        same_lent(&typed, lists.words(), &raw::stitch([&source; 2], &slices, selector, setting, spare));

        let mut kept: Vec<usize> = room(areas.len(), spare[0]);
        let typed = lent::area_pass(&areas, setting, &mut kept);
        same_lent(&typed, vec![words![kept]], &raw::area_pass(&areas, setting, spare));
    });
}

/// Each call that writes lists, with the largest inputs, so with room for the most items.
#[test]
fn the_largest_inputs() {
    let vertex = |i: usize| Vertex::new(2.0 * i as f64, 2.0 * (i % 2) as f64, 0.0);
    let outline_of = |vertices: usize| (0..vertices).map(vertex).collect::<Outline>();
    let at = |i: usize| Point::new(2.0 * i as f64 + 1.0, 1.0);
    let view = |start_index, end_index_offset| View {
        start_index,
        end_index_offset,
        updated_start: vertex(start_index),
        end_point: at(start_index),
        ..View::default()
    };
    let (source, t) = (outline_of(1024), Tolerance::new(0.5));
    let longest = view(1023, 1024);
    accepted(longest.vertices(&source), &raw::view_vertices(&longest, &source, NEED));

    let hits: Intersections = (0..512).map(|i| Intersection { start_index1: i, start_index2: i, point: at(i) }).collect();
    let lap = |i| Overlap { start_indexes: (i, i), end_indexes: (i + 1, i + 1), view_data: view(i, 1), opposing_directions: false };
    let (laps, both): (Overlaps, _) = ((0..128).map(|i| lap(600 + 2 * i)).collect(), [&source; 2]);
    accepted(cut_order(&source, Source::Pline2, &hits, &laps, t), &raw::cut_order(&source, Source::Pline2, &hits, &laps, t, NEED));
    let splits = splits_for(768, &[Split::default()]);
    let cutting = Cutting { source: &source, of: Source::Pline1, hits: &hits, laps: &laps, splits: &splits, tolerance: t };
    let candidates = candidates_as_raw(cutting, 4).expect("the largest are accepted");
    let most = Candidates::from_iter((0..768).map(|i| candidates.get(i % candidates.len()).unwrap()));
    let answered = Answered { inside: vec![false; most.len()], candidates: most };
    let (counts, mode) = ([1024; 2], Mode::Union);
    accepted(prune(mode, false, counts, [&answered; 2], &laps), &raw::prune(mode, false, counts, [&answered; 2], &laps, NEED));
    accepted(straight_slices(mode, false, both, &hits, &laps, t), &raw::straight_slices(mode, false, both, &hits, &laps, t, NEED));

    let settings = record_of(Setting { tolerance: t, area_limit: 1.0 });
    let slices_of = |count, offset| Slices {
        list: (0..count).map(|i| Slice { source: Source::Pline1, view: view(i % 64, offset) }).collect(),
        starts: Starts { pline2: count, pline1_overlapping: count, pline2_overlapping: count },
    };
    let (slices, selector, setting) = (slices_of(1792, 1024), Selector::OrAnd, settings.named(1));
    accepted(stitch(&source, &source, &slices, selector, setting), &raw::stitch(both, &slices, selector, setting, NEED));
    accepted(area_pass(&[2.0; 1792], setting), &raw::area_pass(&[2.0; 1792], setting, NEED));

    let (small, few) = (outline_of(64), slices_of(28, 64));
    let handed = Written::of([&small; 2], &few, selector, t);
    for version in RecordVersion::ALL {
        let written = Record::write(version, &small, &small, &few, selector, t);
        let record = accepted(written, &raw::record_write(version.number(), &handed, NEED));
        accepted(record.replay(), &raw::record_replay(record.bytes(), NEED));
    }
    let full = store_of(1, true);
    accepted(full.list(Second), &RawStore::of(&full).list(1));
}

/// The same as the raw entry, and accepted.
fn accepted<T: Told>(typed: Result<T, Refusal>, raw: &Raw) -> T {
    same(&typed, raw);
    typed.unwrap_or_else(|refusal| panic!("{}: {refusal}", raw.entry))
}

/// A call with room for the candidates of so many cuts, and what the room holds behind it.
fn with_candidate_room<T>(cuts: usize, spare: Spare, call: impl FnOnce(CandidateRoom<'_>) -> T) -> (T, Vec<Vec<u64>>) {
    let (mut at, mut cand) = (room(2 * cuts, spare[0]), room(6 * cuts, spare[1]));
    let (mut probe, mut edition) = (room(6 * cuts, spare[2]), room(cuts, spare[3]));
    let typed = call(CandidateRoom { cand_at: &mut at, cand: &mut cand, probe: &mut probe, cand_edition: &mut edition });
    (typed, vec![words![at], words![cand], words![probe], words![edition]])
}

/// A call with room for so many slices, and what the room holds behind it.
fn with_slice_room<T>(need: usize, spare: Spare, call: impl FnOnce(SliceRoom<'_>) -> T) -> (T, Vec<Vec<u64>>) {
    let (mut at, mut slice, mut edition) = (room(4 * need, spare[0]), room(6 * need, spare[1]), room(need, spare[2]));
    let typed = call(SliceRoom { slice_at: &mut at, slice: &mut slice, slice_edition: &mut edition });
    (typed, vec![words![at], words![slice], words![edition]])
}

fn stitch_room(lists: &mut StitchLists) -> StitchRoom<'_> {
    let [ends, chain, chain_ends, chain_how] = &mut lists.of_slices;
    StitchRoom { room: &mut lists.room, ends, chain, chain_ends, chain_how }
}

#[test]
fn lent_room_for_records() {
    for_drawn(
        (recorded_outline(), recorded_outline(), recorded_slices(), selector(), tolerance(), spare()),
        |(pline1, pline2, slices, selector, t, spare)| {
            let handed = Written::of([&pline1, &pline2], &slices, selector, t);
            let counts = [pline1.vertex_count(), pline2.vertex_count()];
            for version in RecordVersion::ALL {
                let need = lent::record_bytes_needed(version, counts, slices.len());
                let mut bytes: Vec<u8> = room(need, spare[0]);
                let typed = lent::record_write(version, &pline1, &pline2, &slices, selector, t, &mut bytes);
                same_lent(&typed, vec![words![bytes]], &raw::record_write(version.number(), &handed, spare));
                let mut lists = StitchLists::new(Record::MOST_ROOM, Record::MOST_SLICES, spare);
                let typed = lent::record_replay(&bytes, stitch_room(&mut lists));
                same_lent(&typed, lists.words(), &raw::record_replay(&bytes, spare));
            }
        },
    );
}

/// All steps from where two masks meet to the loops: each step as the raw entry, and `combine` as the
/// steps in turn.
#[test]
fn two_masks() {
    let straight = (whole_outline(), whole_outline(), whole_intersections(), whole_overlaps());
    let arcs = (outline(), outline(), intersections(), overlaps());
    let input = (prop_oneof![straight.boxed(), arcs.boxed()], mode(), setting(), 0usize..40);
    for_drawn(input, |((pline1, pline2, hits, laps), mode, entered, known)| {
        let settings = record_of(entered);
        let setting = settings.named(if known == 0 { 0 } else { 1 });
        let masks = Masks { pline1: &pline1, pline2: &pline2, intersections: &hits, overlaps: &laps, setting };
        let combined = masks.combine(mode, &mut StraightHost);
        assert_eq!(combined, step_by_step(&masks, mode));
    });
}

fn step_by_step(masks: &Masks<'_>, mode: Mode) -> Result<Combined, Refusal> {
    let (setting, both, laps) = (masks.setting, [masks.pline1, masks.pline2], masks.overlaps);
    let asked = setting.ask();
    same(&asked, &raw::settings_ask(setting.settings, setting.edition));
    let (t, hits) = (asked?.tolerance, masks.intersections);
    let opposing = || StraightHost.opposing_directions(masks.pline1, masks.pline2);
    let slices = if masks.is_straight_and_whole() {
        let slices = straight_slices(mode, opposing(), both, hits, laps, t);
        same(&slices, &raw::straight_slices(mode, opposing(), both, hits, laps, t, NEED));
        slices?
    } else {
        let one = answered(masks, Source::Pline1, t)?;
        let two = answered(masks, Source::Pline2, t)?;
        let (counts, answered) = (both.map(Outline::vertex_count), [&one, &two]);
        let slices = prune(mode, opposing(), counts, answered, laps);
        same(&slices, &raw::prune(mode, opposing(), counts, answered, laps, NEED));
        slices?
    };
    let stitched = stitch(masks.pline1, masks.pline2, &slices, mode.selector(), setting);
    same(&stitched, &raw::stitch(both, &slices, mode.selector(), setting, NEED));
    let stitched = stitched?;
    let areas: Vec<f64> = stitched.loops().map(|vertices| StraightHost.area(vertices)).collect();
    let kept = area_pass(&areas, setting);
    same(&kept, &raw::area_pass(&areas, setting, NEED));
    Ok(Combined { slices, stitched, kept: kept? })
}

fn answered(masks: &Masks<'_>, of: Source, t: Tolerance) -> Result<Answered, Refusal> {
    let (outline, other) = match of {
        Source::Pline1 => (masks.pline1, masks.pline2),
        Source::Pline2 => (masks.pline2, masks.pline1),
    };
    let (hits, laps) = (masks.intersections, masks.overlaps);
    let cuts = cut_order(outline, of, hits, laps, t);
    same(&cuts, &raw::cut_order(outline, of, hits, laps, t, NEED));
    let splits = split_cuts(outline, &cuts?, &mut StraightHost)?;
    let candidates = candidates_as_raw(Cutting { source: outline, of, hits, laps, splits: &splits, tolerance: t }, 4)?;
    let inside = candidates.probes().map(|probe| StraightHost.inside(of.other(), other, probe)).collect();
    Ok(Answered { candidates, inside })
}
