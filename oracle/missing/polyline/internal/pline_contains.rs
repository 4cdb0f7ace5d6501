//! Stands for a file that no ported stage uses.

use crate::polyline::{PlineContainsOptions, PlineContainsResult, PlineSource};

pub fn polyline_contains<P, R>(
    _pline1: &P,
    _pline2: &R,
    _options: &PlineContainsOptions<P::Num>,
) -> PlineContainsResult
where
    P: PlineSource + ?Sized,
    R: PlineSource<Num = P::Num> + ?Sized,
{
    unimplemented!("not part of the comparison")
}
