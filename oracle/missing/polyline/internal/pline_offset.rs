//! Stands for a file that no ported stage uses.

use crate::polyline::{PlineOffsetOptions, PlineSource};

pub fn parallel_offset<P>(
    _polyline: &P,
    _offset: P::Num,
    _options: &PlineOffsetOptions<P::Num>,
) -> Vec<P::OutputPolyline>
where
    P: PlineSource + ?Sized,
{
    unimplemented!("not part of the comparison")
}
