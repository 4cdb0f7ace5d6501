//! A stitch that goes into the vault and is run again. The union of two squares is written as a record;
//! the record is all that a later run needs. A record of version 1 is written again as version 2. And
//! after a late packet the old slices are not archived with the new outline.

use mask_tools::{
    Intersection, Intersections, Masks, Mode, Outline, Overlaps, Point, Record, RecordVersion,
    Refusal, Setting, Settings, StraightHost, Tolerance,
};

fn main() -> Result<(), Refusal> {
    let a = Outline::straight(&[(0.0, 0.0), (4.0, 0.0), (4.0, 4.0), (0.0, 4.0)]).with_edition(7);
    let b = Outline::straight(&[(2.0, 2.0), (6.0, 2.0), (6.0, 6.0), (2.0, 6.0)]).with_edition(3);
    let crossing = |start_index1, start_index2, x, y| Intersection {
        start_index1,
        start_index2,
        point: Point::new(x, y),
    };
    let tolerance = Tolerance::new(1.0 / 1024.0);
    let mut settings = Settings::new();
    let edition = settings.enter(Setting {
        tolerance,
        area_limit: 0.0,
    })?;
    let masks = Masks {
        pline1: &a,
        pline2: &b,
        intersections: &Intersections::from([crossing(1, 0, 4.0, 2.0), crossing(2, 3, 2.0, 4.0)]),
        overlaps: &Overlaps::new(),
        setting: settings.named(edition),
    };
    let union = masks.combine(Mode::Union, &mut StraightHost)?;

    // Into the vault, in both versions.
    let selector = Mode::Union.selector();
    for version in RecordVersion::ALL {
        let record = Record::write(version, &a, &b, &union.slices, selector, tolerance)?;
        println!(
            "version {}: {} bytes",
            version.number(),
            record.bytes().len()
        );

        // Later, after an upgrade: the bytes alone give the same loops.
        let replay = Record::from_bytes(record.bytes()).replay()?;
        assert_eq!(replay.stitched, union.stitched);
        print!("{replay}");

        // What it holds can be shown, and written again as version 2: the same stitch.
        let contents = record.contents()?;
        let editions = (contents.pline1.edition(), contents.pline2.edition());
        println!("editions {editions:?}, tolerance {:?}", contents.tolerance);
        let again = contents.write(RecordVersion::Two)?;
        assert_eq!(again.replay()?.stitched, union.stitched);
    }

    // A late packet: A comes again with the next edition. The old slices are refused, in both versions.
    let late = a.replaced_by(a.vertices().to_vec());
    for version in RecordVersion::ALL {
        let record = Record::write(version, &late, &b, &union.slices, selector, tolerance);
        assert_eq!(record, Err(Refusal::Edition));
    }
    println!("{}", Refusal::Edition);
    Ok(())
}
