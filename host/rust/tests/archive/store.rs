//! The store beside a plain list, and a stitch of what it lists.

use crate::shapes::{a, b, hits, masks, plain, Draw};
use mask_tools::{
    stitch, First, Handle, Mode, Overlaps, Party, Refusal, Second, Slice, Source, Store,
    StraightHost, View,
};

fn drawn_slice(draw: &mut Draw, edition: u32) -> Slice {
    let mut view = View {
        start_index: draw.below(1024),
        end_index_offset: draw.below(1025),
        updated_end_bulge: draw.between(-1.0, 1.0),
        inverted_direction: draw.below(2) == 1,
        edition,
        ..View::default()
    };
    view.updated_start.x = draw.between(-9.0, 9.0);
    view.end_point.y = draw.between(-9.0, 9.0);
    let source = [Source::Pline1, Source::Pline2][draw.below(2)];
    Slice { source, view }
}

/// The live slices in the order put, said as the request says it.
#[derive(Default)]
struct Plain {
    live: Vec<(usize, Slice)>,
}

impl Plain {
    fn put(&mut self, slice: Slice, most: usize) -> Result<usize, Refusal> {
        if self.live.len() == most {
            return Err(Refusal::Full);
        }
        let free = (0..).find(|h| self.live.iter().all(|kept| kept.0 != *h));
        let handle = free.expect("fewer are live than numbers");
        self.live.push((handle, slice));
        Ok(handle)
    }

    fn release(&mut self, handle: usize) -> Result<(), Refusal> {
        let at = self.live.iter().position(|kept| kept.0 == handle);
        self.live.remove(at.ok_or(Refusal::Handle)?);
        Ok(())
    }
}

fn listed<P: Party>(store: &Store, party: P) -> Vec<(usize, Slice)> {
    let list = store.list(party).unwrap();
    list.iter()
        .map(|kept| (kept.handle.number(), kept.slice))
        .collect()
}

/// A drawn call of a party, beside its plain list.
fn call<P: Party>(draw: &mut Draw, store: &mut Store, plain: &mut Plain, party: P, edition: u32) {
    if draw.below(100) < 60 {
        let slice = drawn_slice(draw, edition);
        let given = store.put(party, slice).map(|h| h.number());
        assert_eq!(given, plain.put(slice, Store::SHARE));
    } else {
        let handle = draw.below(plain.live.len() + 3);
        let given = store.release(Handle::of_number(party, handle));
        assert_eq!(given, plain.release(handle));
    }
    if draw.below(50) == 0 {
        store.compact(party).unwrap();
    }
}

#[test]
fn drawn_calls_of_two_parties_answer_as_two_plain_lists() {
    let mut draw = Draw(20260210);
    let mut store = Store::new();
    let (mut ours, mut theirs) = (Plain::default(), Plain::default());
    for step in 0..5000 {
        if draw.below(3) > 0 {
            call(&mut draw, &mut store, &mut ours, First, step);
        } else {
            call(&mut draw, &mut store, &mut theirs, Second, step);
        }
        if draw.below(20) == 0 {
            assert_eq!(listed(&store, First), ours.live);
            assert_eq!(listed(&store, Second), theirs.live);
        }
    }
    assert_eq!(listed(&store, First), ours.live);
    assert_eq!(listed(&store, Second), theirs.live);
}

#[test]
fn a_full_half_is_20_and_the_other_has_room() {
    let mut store = Store::new();
    let slice = drawn_slice(&mut Draw(7), 3);
    for number in 0..Store::SHARE {
        assert_eq!(store.put(First, slice).map(|h| h.number()), Ok(number));
    }
    assert_eq!(store.put(First, slice), Err(Refusal::Full));
    assert_eq!(store.put(Second, slice).map(|h| h.number()), Ok(0));
    let mut bad = slice;
    bad.view.end_point.x = f64::INFINITY;
    assert_eq!(store.put(First, bad), Err(Refusal::Number));
    store.release(Handle::of_number(First, 5)).unwrap();
    assert_eq!(
        store.release(Handle::of_number(Second, 5)),
        Err(Refusal::Handle)
    );
    assert_eq!(store.put(First, slice).map(|h| h.number()), Ok(5));
}

#[test]
fn a_union_is_stitched_from_what_is_listed() {
    let (a, b) = (a(), b());
    let union = masks(&a, &b, &hits(), &Overlaps::new())
        .combine(Mode::Union, &mut StraightHost)
        .unwrap();
    let mut store = Store::new();
    for slice in union.slices.iter() {
        store.put(Second, slice).unwrap();
    }
    let store = Store::from_bytes(&store.to_bytes()).unwrap();
    let slices = store.list(Second).unwrap().into_slices(union.slices.starts);
    assert_eq!(slices, union.slices);
    let stitched = stitch(&a, &b, &slices, Mode::Union.selector(), plain()).unwrap();
    assert_eq!(stitched, union.stitched);
}
