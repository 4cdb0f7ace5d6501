//! The two squares of document 01's sheet: their union, intersection and differences. They are straight
//! and in whole numbers, so `combine` cuts, asks and prunes in one call.

use mask_tools::{
    Intersection, Intersections, Masks, Mode, Outline, Overlaps, Point, Refusal, Setting, Settings,
    StraightHost, Tolerance,
};

fn main() -> Result<(), Refusal> {
    let a = Outline::straight(&[(0.0, 0.0), (4.0, 0.0), (4.0, 4.0), (0.0, 4.0)]);
    let b = Outline::straight(&[(2.0, 2.0), (6.0, 2.0), (6.0, 6.0), (2.0, 6.0)]);
    let crossing = |start_index1, start_index2, x, y| Intersection {
        start_index1,
        start_index2,
        point: Point::new(x, y),
    };
    let mut settings = Settings::new();
    let edition = settings.enter(Setting {
        // Finer in elevation. `Tolerance::new(t)` is the same on both axes.
        tolerance: Tolerance {
            x: 1.0 / 1024.0,
            y: 1.0 / 4096.0,
        },
        area_limit: 0.001,
    })?;
    let masks = Masks {
        pline1: &a,
        pline2: &b,
        intersections: &Intersections::from([crossing(1, 0, 4.0, 2.0), crossing(2, 3, 2.0, 4.0)]),
        overlaps: &Overlaps::new(),
        setting: settings.named(edition),
    };
    assert!(masks.is_straight_and_whole());
    for mode in Mode::ALL {
        println!("{mode:?}");
        for lp in masks.combine(mode, &mut StraightHost)?.loops() {
            let corners: Vec<String> = lp.iter().map(|v| format!("({},{})", v.x, v.y)).collect();
            println!("  {}", corners.join(" "));
        }
    }
    Ok(())
}
