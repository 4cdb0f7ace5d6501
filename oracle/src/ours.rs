//! A call of the archive, with guards round every list.

use crate::call::{Call, Entry, Kind, Outcome, Param, Reader};
use crate::tally::order_of;
use archive::*;

/// Words kept on each side of every list. A write past a list shows in them.
const GUARD: usize = 8;
const GUARD_WORD: u64 = 0xa5c3_96e1_5a3c_691e;

/// An element of a list: a word of the call, kept in the width that the archive takes.
trait Element: Copy + PartialEq {
    fn of(word: u64) -> Self;
    fn word(self) -> u64;
}

macro_rules! elements {
    ($($kind:ty),*) => {
        $(
            impl Element for $kind {
                fn of(word: u64) -> Self {
                    word as $kind
                }

                fn word(self) -> u64 {
                    self.into()
                }
            }
        )*
    };
}

elements!(u64, u32, u8);

/// A list between two guards.
struct Held<T> {
    elements: Vec<T>,
    length: usize,
}

impl<T: Element> Held<T> {
    fn new(list: &[u64]) -> Held<T> {
        let guard = [T::of(GUARD_WORD); GUARD];
        let mut elements = Vec::with_capacity(list.len() + 2 * GUARD);
        elements.extend(guard);
        elements.extend(list.iter().map(|word| T::of(*word)));
        elements.extend(guard);
        Held {
            elements,
            length: list.len(),
        }
    }

    fn content(&self) -> Vec<u64> {
        let list = &self.elements[GUARD..GUARD + self.length];
        list.iter().map(|element| element.word()).collect()
    }

    fn guards_hold(&self) -> bool {
        let untouched = |side: &[T]| side.iter().all(|element| *element == T::of(GUARD_WORD));
        untouched(&self.elements[..GUARD]) && untouched(&self.elements[GUARD + self.length..])
    }
}

/// The same, of 8-byte words, of editions or of bytes.
enum Guarded {
    Words(Held<u64>),
    Editions(Held<u32>),
    Bytes(Held<u8>),
}

macro_rules! held {
    ($guarded:expr, $held:ident => $do:expr) => {
        match $guarded {
            Guarded::Words($held) => $do,
            Guarded::Editions($held) => $do,
            Guarded::Bytes($held) => $do,
        }
    };
}

impl Guarded {
    fn new(list: &[u64], kind: Kind) -> Guarded {
        match kind {
            Kind::Bytes => Guarded::Bytes(Held::new(list)),
            Kind::Editions => Guarded::Editions(Held::new(list)),
            _ => Guarded::Words(Held::new(list)),
        }
    }

    fn length(&self) -> usize {
        held!(self, held => held.length)
    }

    fn start<T>(&mut self) -> *mut T {
        held!(self, held => held.elements[GUARD..].as_mut_ptr().cast())
    }

    fn start_or_null<T>(&mut self) -> *const T {
        if self.length() == 0 {
            std::ptr::null()
        } else {
            self.start::<T>()
        }
    }

    fn content(&self) -> Vec<u64> {
        held!(self, held => held.content())
    }

    fn guards_hold(&self) -> bool {
        held!(self, held => held.guards_hold())
    }
}

/// The numbers of a record of settings.
const RECORD: usize = 48;

/// A record of settings that has the numbers of a call under some edition, which the call names. The
/// settings before it are others. Behind it are NaNs: nothing looks at them.
struct Record {
    entered: Guarded,
    settings: Guarded,
    edition: usize,
}

impl Record {
    /// A setting in range is entered, as a host enters it. One that is not stands there all the same:
    /// any numbers are some record.
    fn of(setting: [f64; 3]) -> Record {
        let mut record = Record {
            entered: Guarded::new(&[0], Kind::Counts),
            settings: Guarded::new(&[f64::NAN.to_bits(); RECORD], Kind::Numbers),
            edition: edition_for(setting),
        };
        for other in 1..record.edition {
            let small = 1.0 / (other + 1) as f64;
            assert_eq!(record.enter([small, small / 2.0, small]), 0);
        }
        if record.enter(setting) != 0 {
            record.put(setting);
        }
        record
    }

    fn enter(&mut self, [x, y, limit]: [f64; 3]) -> u32 {
        let (entered, settings) = (self.entered.start(), self.settings.start());
        // Both lists live until the call is over; nothing else is lent.
        unsafe { mask_settings_enter(entered, 1, settings, RECORD, x, y, limit) }.refusal
    }

    fn put(&mut self, setting: [f64; 3]) {
        let mut words = self.settings.content();
        for (place, number) in words[3 * (self.edition - 1)..].iter_mut().zip(setting) {
            *place = number.to_bits();
        }
        self.settings = Guarded::new(&words, Kind::Numbers);
        self.entered = Guarded::new(&[self.edition as u64], Kind::Counts);
    }

    /// Lends the record to a call, which may only read it.
    fn lend<A>(mut self, call: impl FnOnce(*const usize, *const f64, usize) -> A) -> A {
        let before = (self.entered.content(), self.settings.content());
        let (entered, settings) = (self.entered.start::<usize>(), self.settings.start::<f64>());
        let answer = call(entered, settings, self.edition);
        let after = (self.entered.content(), self.settings.content());
        assert!(before == after && self.entered.guards_hold() && self.settings.guards_hold());
        answer
    }
}

/// An edition from 1 to 16. It follows from the numbers, so that nothing is drawn for it.
fn edition_for(setting: [f64; 3]) -> usize {
    let word = setting.iter().fold(1, |word: u64, number| {
        let mixed = (word ^ number.to_bits()).wrapping_mul(0x9e37_79b9_7f4a_7c15);
        mixed.rotate_left(29)
    });
    1 + (word % 16) as usize
}

fn point(r: &mut Reader) -> Point {
    let [x, y] = r.some();
    Point { x, y }
}

fn vertex(r: &mut Reader) -> Vertex {
    let [x, y, bulge] = r.some();
    Vertex { x, y, bulge }
}

fn view(r: &mut Reader) -> View {
    View {
        start_index: r.count(),
        end_index_offset: r.count(),
        updated_start: vertex(r),
        updated_end_bulge: r.number(),
        end_point: point(r),
        inverted_direction: r.code(),
    }
}

fn split(r: &mut Reader) -> Split {
    Split {
        updated_start: vertex(r),
        split_vertex: vertex(r),
    }
}

fn vertex_words(v: &Vertex) -> [u64; 3] {
    [v.x.to_bits(), v.y.to_bits(), v.bulge.to_bits()]
}

fn view_words(a: &ViewAnswer) -> Vec<u64> {
    let v = &a.view;
    let mut words = vec![u64::from(a.refusal), u64::from(a.found)];
    words.extend([v.start_index as u64, v.end_index_offset as u64]);
    words.extend(vertex_words(&v.updated_start));
    words.push(v.updated_end_bulge.to_bits());
    words.extend([v.end_point.x.to_bits(), v.end_point.y.to_bits()]);
    words.push(u64::from(v.inverted_direction));
    words
}

fn verdict_words(a: &VerdictAnswer) -> Vec<u64> {
    let mut words = vec![u64::from(a.refusal), u64::from(a.verdict)];
    words.extend([a.offset as u64, a.source_length as u64]);
    words.extend([a.point.x.to_bits(), a.point.y.to_bits()]);
    words.extend(vertex_words(&a.vertex));
    words.extend([a.updated_bulge.to_bits(), a.expected.to_bits()]);
    words
}

/// Those of the verdict, and the edition.
fn reopen_words(a: &ReopenAnswer) -> Vec<u64> {
    let mut words = verdict_words(&VerdictAnswer {
        refusal: a.refusal,
        verdict: a.verdict,
        offset: a.offset,
        source_length: a.source_length,
        point: a.point,
        vertex: a.vertex,
        updated_bulge: a.updated_bulge,
        expected: a.expected,
    });
    words.push(u64::from(a.edition));
    words
}

fn count_words(a: &CountAnswer) -> Vec<u64> {
    vec![u64::from(a.refusal), a.count as u64]
}

/// Calls the archive. Says `Err` where it wrote to a list that is only read, or past a list's end. The
/// candidates are asked for by both entries: by `mask_candidates`, and by `mask_candidates_along` with
/// the order and with lists that are not the order. It says `Err` where one of these answers differs.
pub fn answer(call: &Call) -> Result<Outcome, String> {
    let plain = made(call, None)?;
    if call.entry == Entry::Candidates {
        for hint in hints(call)? {
            if made(call, Some(&hint))? != plain {
                return Err(format!("mask_candidates_along differs with {hint:?}"));
            }
        }
    }
    Ok(plain)
}

/// The order of a call's cuts as `mask_cut_order` writes it; and lists that are nearly that, of another
/// length, or of any numbers.
fn hints(call: &Call) -> Result<Vec<Vec<u64>>, String> {
    let order = made(&order_of(call), None)?;
    let order = &order.lent[0][..3 * order.answer[1] as usize];
    let cuts = order.len() / 3;
    let mut hints = vec![order.to_vec(), vec![], vec![1; 3 * cuts]];
    if cuts > 0 {
        hints.push(order[3..].to_vec());
        hints.push([order, &order[..3]].concat());
        hints.push(order.chunks_exact(3).rev().flatten().copied().collect());
        let changed = |change: &dyn Fn(&mut [u64])| {
            let mut hint = order.to_vec();
            change(&mut hint);
            hint
        };
        let (middle, last) = (cuts / 2, cuts - 1);
        hints.push(changed(&|hint| hint[3 * middle..].rotate_left(3)));
        hints.push(changed(&|hint| hint.copy_within(0..3, 3 * last)));
        hints.push(changed(&|hint| hint[3 * last + 2] = cuts as u64));
        hints.push(changed(&|hint| hint[3 * middle + 2] = u64::MAX));
        hints.push(changed(&|hint| hint[3 * middle] ^= 1));
        hints.push(changed(&|hint| hint[3 * last + 1] ^= 1));
    }
    Ok(hints)
}

fn made(call: &Call, hint: Option<&[u64]>) -> Result<Outcome, String> {
    let mut inputs: Vec<Guarded> = Vec::new();
    for (param, (_, kind)) in call.inputs.iter().zip(call.entry.shape()) {
        if let Param::List(words) = param {
            inputs.push(Guarded::new(words, *kind));
        }
    }
    let mut lent: Vec<Guarded> = Vec::new();
    for (content, (_, kind)) in call.lent.iter().zip(call.entry.room()) {
        lent.push(Guarded::new(content, *kind));
    }
    let mut told = hint.map(|words| Guarded::new(words, Kind::Counts));
    let answer = enter(call, &mut inputs, told.as_mut(), &mut lent);
    if !told.is_none_or(|held| held.guards_hold() && hint == Some(&held.content()[..])) {
        return Err("the hint was written to".into());
    }
    let mut inputs = inputs.iter();
    for param in &call.inputs {
        let Param::List(words) = param else { continue };
        let held = inputs.next().unwrap();
        if !held.guards_hold() || held.content() != *words {
            return Err("a list that is only read was written to".into());
        }
    }
    if !lent.iter().all(Guarded::guards_hold) {
        return Err("memory beside a lent list was written to".into());
    }
    Ok(Outcome {
        answer,
        lent: lent.iter().map(Guarded::content).collect(),
    })
}

/// The call itself. Lists are taken from the guarded copies, in the order of the parameters.
fn enter(
    call: &Call,
    inputs: &mut [Guarded],
    hint: Option<&mut Guarded>,
    lent: &mut [Guarded],
) -> Vec<u64> {
    let r = &mut call.read();
    let mut lists = inputs.iter_mut();
    // A list of no elements may have any pointer. One that is only read gets NULL.
    macro_rules! list {
        () => {{
            r.list();
            let held = lists.next().unwrap();
            (held.start_or_null(), held.length())
        }};
    }
    let mut rooms = lent.iter_mut();
    macro_rules! room {
        () => {{
            let held = rooms.next().unwrap();
            (held.start(), held.length())
        }};
    }
    // Each pointer and length is of a list that lives until the call is over; nothing else is lent.
    unsafe {
        match call.entry {
            Entry::ViewVertex => {
                let (outline, length) = list!();
                let a = mask_view_vertex(outline, length, r.count(), view(r), r.count());
                let mut words = vec![u64::from(a.refusal), u64::from(a.found)];
                words.extend(vertex_words(&a.vertex));
                words
            }
            Entry::Create => {
                let (outline, length) = list!();
                view_words(&mask_create(
                    outline,
                    length,
                    r.count(),
                    r.count(),
                    point(r),
                    r.count(),
                    vertex(r),
                    r.count(),
                    r.number(),
                    r.number(),
                    split(r),
                ))
            }
            Entry::CreateOnSingleSegment => {
                let (outline, length) = list!();
                view_words(&mask_create_on_single_segment(
                    outline,
                    length,
                    r.count(),
                    r.count(),
                    vertex(r),
                    point(r),
                    r.number(),
                    r.number(),
                ))
            }
            Entry::FromEntirePline => {
                let (outline, length) = list!();
                view_words(&mask_from_entire_pline(
                    outline,
                    length,
                    r.count(),
                    r.code(),
                ))
            }
            Entry::ValidateForSource => {
                let (outline, length) = list!();
                verdict_words(&mask_validate_for_source(
                    outline,
                    length,
                    r.count(),
                    r.edition(),
                    view(r),
                    r.edition(),
                    r.code(),
                    r.code(),
                ))
            }
            Entry::Reopen => {
                let (outline, length) = list!();
                reopen_words(&mask_reopen(
                    outline,
                    length,
                    r.count(),
                    r.edition(),
                    view(r),
                    r.edition(),
                    r.code(),
                    r.code(),
                ))
            }
            Entry::Unmoved => {
                let (outline1, outline1_len) = list!();
                let vc1 = r.count();
                let (outline2, outline2_len) = list!();
                let vc2 = r.count();
                let a = mask_unmoved(
                    outline1,
                    outline1_len,
                    vc1,
                    outline2,
                    outline2_len,
                    vc2,
                    view(r),
                );
                vec![u64::from(a.refusal), u64::from(a.unmoved), a.first as u64]
            }
            Entry::CutOrder => {
                let (outline, outline_len) = list!();
                let (vc, source) = (r.count(), r.code());
                let (hit_at, hit_at_len) = list!();
                let (hit, hit_len) = list!();
                let hits = r.count();
                let (lap_at, lap_at_len) = list!();
                let (lap, lap_len) = list!();
                let (laps, tolerance) = (r.count(), r.axes());
                let (cut_at, cut_at_len) = room!();
                let (cut, cut_len) = room!();
                count_words(&mask_cut_order(
                    outline,
                    outline_len,
                    vc,
                    source,
                    hit_at,
                    hit_at_len,
                    hit,
                    hit_len,
                    hits,
                    lap_at,
                    lap_at_len,
                    lap,
                    lap_len,
                    laps,
                    tolerance.x,
                    tolerance.y,
                    cut_at,
                    cut_at_len,
                    cut,
                    cut_len,
                ))
            }
            Entry::Candidates => {
                let (outline, outline_len) = list!();
                let (vc, edition, source) = (r.count(), r.edition(), r.code());
                let (hit_at, hit_at_len) = list!();
                let (hit, hit_len) = list!();
                let hits = r.count();
                let (lap_at, lap_at_len) = list!();
                let (lap, lap_len) = list!();
                let laps = r.count();
                let (splits, splits_len) = list!();
                let tolerance = r.axes();
                let (cand_at, cand_at_len) = room!();
                let (cand, cand_len) = room!();
                let (probe, probe_len) = room!();
                let (cand_edition, cand_edition_len) = room!();
                if let Some(hint) = hint {
                    return count_words(&mask_candidates_along(
                        outline,
                        outline_len,
                        vc,
                        edition,
                        source,
                        hit_at,
                        hit_at_len,
                        hit,
                        hit_len,
                        hits,
                        lap_at,
                        lap_at_len,
                        lap,
                        lap_len,
                        laps,
                        hint.start_or_null(),
                        hint.length(),
                        splits,
                        splits_len,
                        tolerance.x,
                        tolerance.y,
                        cand_at,
                        cand_at_len,
                        cand,
                        cand_len,
                        probe,
                        probe_len,
                        cand_edition,
                        cand_edition_len,
                    ));
                }
                count_words(&mask_candidates(
                    outline,
                    outline_len,
                    vc,
                    edition,
                    source,
                    hit_at,
                    hit_at_len,
                    hit,
                    hit_len,
                    hits,
                    lap_at,
                    lap_at_len,
                    lap,
                    lap_len,
                    laps,
                    splits,
                    splits_len,
                    tolerance.x,
                    tolerance.y,
                    cand_at,
                    cand_at_len,
                    cand,
                    cand_len,
                    probe,
                    probe_len,
                    cand_edition,
                    cand_edition_len,
                ))
            }
            Entry::Prune => {
                let (mode, opposing) = (r.code(), r.code());
                let (vc1, vc2) = (r.count(), r.count());
                let (cand_at1, cand_at1_len) = list!();
                let (cand1, cand1_len) = list!();
                let (cand_edition1, cand_edition1_len) = list!();
                let (inside1, inside1_len) = list!();
                let count1 = r.count();
                let (cand_at2, cand_at2_len) = list!();
                let (cand2, cand2_len) = list!();
                let (cand_edition2, cand_edition2_len) = list!();
                let (inside2, inside2_len) = list!();
                let count2 = r.count();
                let (lap_at, lap_at_len) = list!();
                let (lap, lap_len) = list!();
                let (lap_edition, lap_edition_len) = list!();
                let laps = r.count();
                let (slice_at, slice_at_len) = room!();
                let (slice, slice_len) = room!();
                let (slice_edition, slice_edition_len) = room!();
                let a = mask_prune(
                    mode,
                    opposing,
                    vc1,
                    vc2,
                    cand_at1,
                    cand_at1_len,
                    cand1,
                    cand1_len,
                    cand_edition1,
                    cand_edition1_len,
                    inside1,
                    inside1_len,
                    count1,
                    cand_at2,
                    cand_at2_len,
                    cand2,
                    cand2_len,
                    cand_edition2,
                    cand_edition2_len,
                    inside2,
                    inside2_len,
                    count2,
                    lap_at,
                    lap_at_len,
                    lap,
                    lap_len,
                    lap_edition,
                    lap_edition_len,
                    laps,
                    slice_at,
                    slice_at_len,
                    slice,
                    slice_len,
                    slice_edition,
                    slice_edition_len,
                );
                vec![
                    u64::from(a.refusal),
                    a.slices as u64,
                    a.starts.pline2 as u64,
                    a.starts.pline1_overlapping as u64,
                    a.starts.pline2_overlapping as u64,
                ]
            }
            Entry::Stitch => {
                let (outline1, outline1_len) = list!();
                let (vc1, edition1) = (r.count(), r.edition());
                let (outline2, outline2_len) = list!();
                let (vc2, edition2) = (r.count(), r.edition());
                let (slice_at, slice_at_len) = list!();
                let (slice, slice_len) = list!();
                let (slice_edition, slice_edition_len) = list!();
                let slices = r.count();
                let (pline2, pline1_overlapping, pline2_overlapping) =
                    (r.count(), r.count(), r.count());
                let (selector, tolerance) = (r.code(), r.axes());
                let (room, room_len) = room!();
                let (ends, ends_len) = room!();
                let (chain, chain_len) = room!();
                let (chain_ends, chain_ends_len) = room!();
                let (chain_how, chain_how_len) = room!();
                let record = Record::of([tolerance.x, tolerance.y, 0.0]);
                let a = record.lend(|entered, settings, setting| {
                    mask_stitch(
                        outline1,
                        outline1_len,
                        vc1,
                        edition1,
                        outline2,
                        outline2_len,
                        vc2,
                        edition2,
                        slice_at,
                        slice_at_len,
                        slice,
                        slice_len,
                        slice_edition,
                        slice_edition_len,
                        slices,
                        pline2,
                        pline1_overlapping,
                        pline2_overlapping,
                        selector,
                        entered,
                        1,
                        settings,
                        RECORD,
                        setting,
                        room,
                        room_len,
                        ends,
                        ends_len,
                        chain,
                        chain_len,
                        chain_ends,
                        chain_ends_len,
                        chain_how,
                        chain_how_len,
                    )
                });
                vec![
                    u64::from(a.refusal),
                    a.rounds as u64,
                    a.loops as u64,
                    a.chains as u64,
                ]
            }
            Entry::ViewVertices => {
                let (outline, length) = list!();
                let (vc, view) = (r.count(), view(r));
                let (vertices, vertices_len) = room!();
                count_words(&mask_view_vertices(
                    outline,
                    length,
                    vc,
                    view,
                    vertices,
                    vertices_len,
                ))
            }
            Entry::AreaPass => {
                let (areas, areas_len) = list!();
                let (loops, limit) = (r.count(), r.number());
                let (kept, kept_len) = room!();
                let record = Record::of([1.0, 1.0, limit]);
                count_words(&record.lend(|entered, settings, setting| {
                    mask_area_pass(
                        areas, areas_len, loops, entered, 1, settings, RECORD, setting, kept,
                        kept_len,
                    )
                }))
            }
            Entry::SliceSpan => {
                let (outline, length) = list!();
                let a = mask_slice_span(
                    outline,
                    length,
                    r.count(),
                    r.code(),
                    r.count(),
                    point(r),
                    r.count(),
                    point(r),
                    r.number(),
                    r.number(),
                );
                vec![
                    u64::from(a.refusal),
                    u64::from(a.moved),
                    a.start_index as u64,
                    a.traverse_count as u64,
                ]
            }
            Entry::FromSlicePoints => {
                let (outline, length) = list!();
                view_words(&mask_from_slice_points(
                    outline,
                    length,
                    r.count(),
                    r.code(),
                    r.count(),
                    point(r),
                    r.count(),
                    point(r),
                    r.number(),
                    r.number(),
                    split(r),
                    split(r),
                ))
            }
            Entry::FromNewStart => {
                let (outline, length) = list!();
                view_words(&mask_from_new_start(
                    outline,
                    length,
                    r.count(),
                    r.code(),
                    r.count(),
                    point(r),
                    r.number(),
                    r.number(),
                    split(r),
                    split(r),
                ))
            }
        }
    }
}
