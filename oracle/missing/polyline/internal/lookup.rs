
// What follows is not of the crate. The build puts it after the bytes of `pline_boolean.rs`, in a
// module of its own, so that it can call the private function.

/// The cuts of one outline as `build_intersects_lookup` holds them: segment by segment, and along
/// each segment the point and the overlap mark.
pub fn cuts_in_order<P, T>(
    pline: &P,
    boolean_info: &ProcessForBooleanResult<T>,
    use_second_index: bool,
    pos_equal_eps: T,
) -> Vec<(usize, Vec<(Vector2<T>, bool)>)>
where
    P: PlineSource<Num = T> + ?Sized,
    T: Real,
{
    build_intersects_lookup(pline, boolean_info, use_second_index, pos_equal_eps)
        .into_iter()
        .map(|(segment, cuts)| {
            let cuts = cuts
                .iter()
                .map(|cut| (cut.pos, cut.is_start_of_overlapping_slice))
                .collect();
            (segment, cuts)
        })
        .collect()
}
