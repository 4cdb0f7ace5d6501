//! Stands for the crate's option and result types. The fields and functions are those that the
//! sources name. A default is ours where the sources do not tell it; the comparison passes every
//! option itself.

use super::internal::pline_intersects::OverlappingSlice;
use super::{PlineSegIntr, PlineSource, PlineVertex, PlineView, PlineViewData};
use crate::core::{
    math::Vector2,
    traits::{ControlFlow, Real},
};
use static_aabb2d_index::StaticAABB2DIndex;

/// The crate's default epsilon of positions.
fn default_epsilon<T: Real>() -> T {
    T::from(1e-5).unwrap()
}

#[derive(Debug, Clone, Copy, PartialEq, Eq)]
pub enum PlineOrientation {
    Open,
    Clockwise,
    CounterClockwise,
}

#[derive(Debug, Clone, Copy)]
pub struct ClosestPointResult<T> {
    pub seg_start_index: usize,
    pub seg_point: Vector2<T>,
    pub distance: T,
}

#[derive(Debug, Clone, Copy, PartialEq, Eq)]
pub enum BooleanOp {
    Or,
    And,
    Not,
    Xor,
}

#[derive(Debug, Clone, Copy, PartialEq, Eq)]
pub enum BooleanResultInfo {
    InvalidInput,
    Pline1InsidePline2,
    Pline2InsidePline1,
    Disjoint,
    Overlapping,
    Intersected,
}

/// Stands for the slice that is pruned and stitched: a view, and the outline it is a part of. An
/// overlap is always a part of the second outline, as `OverlappingSlice` says of its view.
#[derive(Debug, Clone, Copy)]
pub struct BooleanPlineSlice<T = f64> {
    pub view_data: PlineViewData<T>,
    pub source_is_pline1: bool,
    pub overlapping: bool,
}

impl<T: Real> BooleanPlineSlice<T> {
    /// The third argument is read as "inverted". The sources only ever pass `false`.
    pub fn from_open_pline_slice(
        slice: &PlineViewData<T>,
        source_is_pline1: bool,
        inverted_direction: bool,
    ) -> Self {
        BooleanPlineSlice {
            view_data: PlineViewData {
                inverted_direction,
                ..*slice
            },
            source_is_pline1,
            overlapping: false,
        }
    }

    pub fn from_overlapping<P>(
        _source: &P,
        overlapping_slice: &OverlappingSlice<T>,
        inverted_direction: bool,
    ) -> Self
    where
        P: PlineSource<Num = T> + ?Sized,
    {
        BooleanPlineSlice {
            view_data: PlineViewData {
                inverted_direction,
                ..overlapping_slice.view_data
            },
            source_is_pline1: false,
            overlapping: true,
        }
    }

    #[inline]
    pub fn view<'a, P>(&self, source: &'a P) -> PlineView<'a, P>
    where
        P: PlineSource<Num = T> + ?Sized,
    {
        self.view_data.view(source)
    }
}

#[derive(Debug, Clone)]
pub struct BooleanResultPline<P>
where
    P: PlineSource,
{
    pub pline: P,
    pub subslices: Vec<BooleanPlineSlice<P::Num>>,
}

impl<P: PlineSource> BooleanResultPline<P> {
    pub fn new(pline: P, subslices: Vec<BooleanPlineSlice<P::Num>>) -> Self {
        BooleanResultPline { pline, subslices }
    }
}

#[derive(Debug, Clone)]
pub struct BooleanResult<P>
where
    P: PlineSource,
{
    pub pos_plines: Vec<BooleanResultPline<P>>,
    pub neg_plines: Vec<BooleanResultPline<P>>,
    pub result_info: BooleanResultInfo,
}

impl<P: PlineSource> BooleanResult<P> {
    pub fn new(
        pos_plines: Vec<BooleanResultPline<P>>,
        neg_plines: Vec<BooleanResultPline<P>>,
        result_info: BooleanResultInfo,
    ) -> Self {
        BooleanResult {
            pos_plines,
            neg_plines,
            result_info,
        }
    }

    pub fn empty(result_info: BooleanResultInfo) -> Self {
        Self::new(Vec::new(), Vec::new(), result_info)
    }

    pub fn from_whole_plines(
        pos_plines: Vec<P>,
        neg_plines: Vec<P>,
        result_info: BooleanResultInfo,
    ) -> Self {
        let whole = |plines: Vec<P>| {
            let with_no_slices = |pline| BooleanResultPline::new(pline, Vec::new());
            plines.into_iter().map(with_no_slices).collect()
        };
        Self::new(whole(pos_plines), whole(neg_plines), result_info)
    }
}

#[derive(Clone, Copy)]
pub struct PlineBooleanOptions<'a, T> {
    pub pline1_aabb_index: Option<&'a StaticAABB2DIndex<T>>,
    pub pos_equal_eps: T,
    pub collapsed_area_eps: Option<T>,
}

impl<T: Real> Default for PlineBooleanOptions<'_, T> {
    fn default() -> Self {
        PlineBooleanOptions {
            pline1_aabb_index: None,
            pos_equal_eps: default_epsilon(),
            collapsed_area_eps: Some(default_epsilon()),
        }
    }
}

#[derive(Clone, Copy)]
pub struct FindIntersectsOptions<'a, T> {
    pub pline1_aabb_index: Option<&'a StaticAABB2DIndex<T>>,
    pub pos_equal_eps: T,
}

impl<T: Real> Default for FindIntersectsOptions<'_, T> {
    fn default() -> Self {
        FindIntersectsOptions {
            pline1_aabb_index: None,
            pos_equal_eps: default_epsilon(),
        }
    }
}

#[derive(Debug, Clone, Copy, PartialEq, Eq)]
pub enum SelfIntersectsInclude {
    All,
    Local,
    Global,
}

#[derive(Clone, Copy)]
pub struct PlineSelfIntersectOptions<'a, T> {
    pub aabb_index: Option<&'a StaticAABB2DIndex<T>>,
    pub pos_equal_eps: T,
    pub include: SelfIntersectsInclude,
}

impl<T: Real> Default for PlineSelfIntersectOptions<'_, T> {
    fn default() -> Self {
        PlineSelfIntersectOptions {
            aabb_index: None,
            pos_equal_eps: default_epsilon(),
            include: SelfIntersectsInclude::All,
        }
    }
}

/// Of an operation that no ported stage uses. Only the name is needed.
pub struct PlineOffsetOptions<T>(std::marker::PhantomData<T>);

impl<T> Default for PlineOffsetOptions<T> {
    fn default() -> Self {
        PlineOffsetOptions(std::marker::PhantomData)
    }
}

/// Of an operation that no ported stage uses. Only the name is needed.
pub struct PlineContainsOptions<T>(std::marker::PhantomData<T>);

impl<T> Default for PlineContainsOptions<T> {
    fn default() -> Self {
        PlineContainsOptions(std::marker::PhantomData)
    }
}

/// Of an operation that no ported stage uses. Only the name is needed.
pub struct PlineContainsResult;

#[derive(Debug, Clone, Copy)]
pub struct PlineBasicIntersect<T = f64> {
    pub start_index1: usize,
    pub start_index2: usize,
    pub point: Vector2<T>,
}

impl<T> PlineBasicIntersect<T> {
    pub fn new(start_index1: usize, start_index2: usize, point: Vector2<T>) -> Self {
        PlineBasicIntersect {
            start_index1,
            start_index2,
            point,
        }
    }
}

#[derive(Debug, Clone, Copy)]
pub struct PlineOverlappingIntersect<T = f64> {
    pub start_index1: usize,
    pub start_index2: usize,
    pub point1: Vector2<T>,
    pub point2: Vector2<T>,
}

impl<T> PlineOverlappingIntersect<T> {
    pub fn new(
        start_index1: usize,
        start_index2: usize,
        point1: Vector2<T>,
        point2: Vector2<T>,
    ) -> Self {
        PlineOverlappingIntersect {
            start_index1,
            start_index2,
            point1,
            point2,
        }
    }
}

#[derive(Debug, Clone, Copy)]
pub enum PlineIntersect<T = f64> {
    Basic(PlineBasicIntersect<T>),
    Overlapping(PlineOverlappingIntersect<T>),
}

#[derive(Debug, Clone)]
pub struct PlineIntersectsCollection<T = f64> {
    pub basic_intersects: Vec<PlineBasicIntersect<T>>,
    pub overlapping_intersects: Vec<PlineOverlappingIntersect<T>>,
}

impl<T> PlineIntersectsCollection<T> {
    pub fn new_empty() -> Self {
        PlineIntersectsCollection {
            basic_intersects: Vec::new(),
            overlapping_intersects: Vec::new(),
        }
    }
}

#[derive(Debug, Clone, Copy)]
pub struct PlineIntersectVisitContext<T> {
    pub vertex_index: usize,
    pub v1: PlineVertex<T>,
    pub v2: PlineVertex<T>,
}

#[derive(Debug, Clone, Copy)]
pub enum PlineIntersectFilterItem {
    LocalSegment(usize),
    GlobalAabbItem(usize),
}

impl PlineIntersectFilterItem {
    pub fn index(self) -> usize {
        match self {
            Self::LocalSegment(index) | Self::GlobalAabbItem(index) => index,
        }
    }
}

#[derive(Debug, Clone, Copy)]
pub enum TwoPlinesIntersectFilterItem {
    Pline2Segment(usize),
    Pline1AabbItem(usize),
}

impl TwoPlinesIntersectFilterItem {
    pub fn index(self) -> usize {
        match self {
            Self::Pline2Segment(index) | Self::Pline1AabbItem(index) => index,
        }
    }
}

pub trait PlineIntersectVisitor<T: Real, C: ControlFlow> {
    fn filter_map(&self, item: PlineIntersectFilterItem) -> Option<usize>;
    fn visit(&mut self, intersect: PlineIntersect<T>) -> C;
}

/// A closure visits everything.
impl<T: Real, C: ControlFlow, F> PlineIntersectVisitor<T, C> for F
where
    F: FnMut(PlineIntersect<T>) -> C,
{
    fn filter_map(&self, item: PlineIntersectFilterItem) -> Option<usize> {
        Some(item.index())
    }

    fn visit(&mut self, intersect: PlineIntersect<T>) -> C {
        self(intersect)
    }
}

pub trait TwoPlinesIntersectVisitor<T: Real, C: ControlFlow> {
    fn filter(&self, item: TwoPlinesIntersectFilterItem) -> Option<usize>;
    fn visit(
        &mut self,
        intersect: PlineSegIntr<T>,
        pline1_context: &PlineIntersectVisitContext<T>,
        pline2_context: &PlineIntersectVisitContext<T>,
    ) -> C;
}

/// A closure visits everything.
impl<T: Real, C: ControlFlow, F> TwoPlinesIntersectVisitor<T, C> for F
where
    F: FnMut(PlineSegIntr<T>, &PlineIntersectVisitContext<T>, &PlineIntersectVisitContext<T>) -> C,
{
    fn filter(&self, item: TwoPlinesIntersectFilterItem) -> Option<usize> {
        Some(item.index())
    }

    fn visit(
        &mut self,
        intersect: PlineSegIntr<T>,
        pline1_context: &PlineIntersectVisitContext<T>,
        pline2_context: &PlineIntersectVisitContext<T>,
    ) -> C {
        self(intersect, pline1_context, pline2_context)
    }
}
