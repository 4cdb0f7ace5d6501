//! Slices kept between two runs. The slices of a union are put into a store. Then both outlines come
//! again in a later edition, one as it was and one with a corner moved. The slices that are late are
//! found by their edition; what has not moved is reopened, what has is cut again; and what the store
//! lists is stitched.

use mask_tools::{
    stitch, First, Intersection, Intersections, Masks, Mode, Named, OnSegment, Outline, Overlaps,
    Point, Refusal, Second, Setting, Settings, Slices, Source, Store, StraightHost, Tolerance,
    Verdict, Vertex,
};

/// Both outlines cut, and what the union keeps of them: one call, since both are straight and whole.
fn cut(
    a: &Outline,
    b: &Outline,
    crossings: &Intersections,
    setting: Named<'_>,
) -> Result<Slices, Refusal> {
    let masks = Masks {
        pline1: a,
        pline2: b,
        intersections: crossings,
        overlaps: &Overlaps::new(),
        setting,
    };
    masks.slices(Mode::Union, &mut StraightHost)
}

fn main() -> Result<(), Refusal> {
    let mut settings = Settings::new();
    let edition = settings.enter(Setting {
        tolerance: Tolerance::new(1.0 / 1024.0),
        area_limit: 0.0,
    })?;
    let setting = settings.named(edition);
    let a = Outline::straight(&[(0.0, 0.0), (4.0, 0.0), (4.0, 4.0), (0.0, 4.0)]);
    let b = Outline::straight(&[(2.0, 2.0), (6.0, 2.0), (6.0, 6.0), (2.0, 6.0)]);
    let crossing = |start_index1, start_index2, x, y| Intersection {
        start_index1,
        start_index2,
        point: Point::new(x, y),
    };
    let crossings = Intersections::from([crossing(1, 0, 4.0, 2.0), crossing(2, 3, 2.0, 4.0)]);

    // The first run. The slices are put in the order of pruning.
    let slices = cut(&a, &b, &crossings, setting)?;
    let mut store = Store::new();
    for slice in slices.iter() {
        store.put(First, slice)?;
    }
    // Another fleet shares the store. What it does changes nothing of ours.
    if let Some(slice) = slices.iter().next() {
        store.put(Second, slice)?;
        store.compact(Second)?;
    }

    // Outline 1 comes again as it was, outline 2 with a corner moved out. Where they cross they stayed.
    let late_a = a.replaced_by(a.vertices().to_vec());
    let mut corners = b.vertices().to_vec();
    corners[2] = Vertex::new(7.0, 7.0, 0.0);
    let late_b = b.replaced_by(corners);
    let outlines = |source| match source {
        Source::Pline1 => (&a, &late_a),
        Source::Pline2 => (&b, &late_b),
    };
    let selector = Mode::Union.selector();
    let old = store.list(First)?.into_slices(slices.starts);
    let stitched = stitch(&late_a, &late_b, &old, selector, setting);
    assert_eq!(stitched, Err(Refusal::Edition));

    // The late ones, by their edition. Each is put again where it stood in the order, which the stitch
    // goes by: here all are late.
    let again = cut(&late_a, &late_b, &crossings, setting)?;
    for kept in store.list(First)?.iter() {
        let mut slice = kept.slice;
        let (before, now) = outlines(slice.source);
        assert_ne!(slice.view.edition, now.edition());
        // The host says whether the ends lie on their segments: they do, on the sides that stayed.
        let on_segment = OnSegment {
            start: true,
            end: true,
        };
        let number = kept.handle.number();
        store.release(kept.handle)?;
        if slice.view.unmoved(before, now)?
            && slice.view.reopen(now, on_segment)? == Verdict::IsValid
        {
            println!("slice {number} is reopened");
        } else {
            let new = again.iter().find(|new| new.source == slice.source);
            slice = new.expect("the union keeps one slice of each outline");
            println!("slice {number} is cut again");
        }
        store.put(First, slice)?;
    }

    // What is listed goes straight into a stitch.
    store.compact(First)?;
    let kept = store.list(First)?.into_slices(slices.starts);
    for lp in stitch(&late_a, &late_b, &kept, selector, setting)?.loops() {
        let corners: Vec<String> = lp.iter().map(|v| format!("({},{})", v.x, v.y)).collect();
        println!("{}", corners.join(" "));
    }
    Ok(())
}
