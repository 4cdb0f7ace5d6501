
// What follows is not of the crate. `tools/bench` puts it after the bytes of `pline_boolean.rs`, in a
// module of its own, so that the private function which orders the cuts can be timed alone.

/// Orders the cuts of one outline and drops what was built.
pub fn order_cuts<P, T>(
    pline: &P,
    boolean_info: &ProcessForBooleanResult<T>,
    use_second_index: bool,
    pos_equal_eps: T,
) where
    P: PlineSource<Num = T> + ?Sized,
    T: Real,
{
    let lookup = build_intersects_lookup(pline, boolean_info, use_second_index, pos_equal_eps);
    std::hint::black_box(&lookup);
}

/// The cuts in order: segment, mark, point.
pub fn listed_cuts<P, T>(
    pline: &P,
    boolean_info: &ProcessForBooleanResult<T>,
    use_second_index: bool,
    pos_equal_eps: T,
) -> Vec<(usize, bool, Vector2<T>)>
where
    P: PlineSource<Num = T> + ?Sized,
    T: Real,
{
    let lookup = build_intersects_lookup(pline, boolean_info, use_second_index, pos_equal_eps);
    let mut result = Vec::new();
    for (segment, cuts) in &lookup {
        for cut in cuts {
            result.push((*segment, cut.is_start_of_overlapping_slice, cut.pos));
        }
    }
    result
}
