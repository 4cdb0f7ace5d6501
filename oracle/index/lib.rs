//! Stands for the crate `static_aabb2d_index`, which is not among the sources.
//!
//! The real one is a packed tree of boxes, and visits what it finds in the tree's order. This one
//! is a plain list, looked through from the first box to the last. Both find the same boxes: those
//! that share a point with the box asked for, sides included. Only the order may be another.
//! Document 01 asks for the ascending order, so that is the order here.

use std::cell::Cell;
use std::cmp::Ordering;
use std::fmt;

thread_local! {
    static QUERIES: Cell<usize> = const { Cell::new(0) };
}

/// How many queries this thread has made so far. Ours: a round of the stitch is one query.
pub fn queries() -> usize {
    QUERIES.get()
}

/// Stands for the trait of numbers that can be indexed. Of the original we know the name, and that
/// it brings `total_cmp`. That such a number becomes an f64 only the tree of the benchmark asks for.
pub trait IndexableNum: Copy + PartialOrd + num_traits::Num + num_traits::ToPrimitive {
    fn total_cmp(&self, other: &Self) -> Ordering;
}

impl IndexableNum for f32 {
    fn total_cmp(&self, other: &Self) -> Ordering {
        f32::total_cmp(self, other)
    }
}

impl IndexableNum for f64 {
    fn total_cmp(&self, other: &Self) -> Ordering {
        f64::total_cmp(self, other)
    }
}

/// Stands for the trait of what a visitor answers: go on, or stop.
pub trait ControlFlow {
    fn continuing() -> Self;
    fn should_break(&self) -> bool;
}

impl ControlFlow for () {
    fn continuing() -> Self {}

    fn should_break(&self) -> bool {
        false
    }
}

/// Stands for the answer of a visitor that may stop.
#[derive(Debug, Clone, Copy, PartialEq, Eq)]
pub enum Control<B = ()> {
    Continue,
    Break(B),
}

impl<B> ControlFlow for Control<B> {
    fn continuing() -> Self {
        Control::Continue
    }

    fn should_break(&self) -> bool {
        matches!(self, Control::Break(_))
    }
}

/// A box with its sides parallel to the axes.
#[derive(Debug, Clone, Copy, PartialEq)]
pub struct AABB<T = f64> {
    pub min_x: T,
    pub min_y: T,
    pub max_x: T,
    pub max_y: T,
}

impl<T: IndexableNum> AABB<T> {
    pub fn new(min_x: T, min_y: T, max_x: T, max_y: T) -> Self {
        AABB {
            min_x,
            min_y,
            max_x,
            max_y,
        }
    }

    /// Whether the two share a point, sides included.
    pub fn touches(&self, other: &Self) -> bool {
        self.min_x <= other.max_x
            && self.max_x >= other.min_x
            && self.min_y <= other.max_y
            && self.max_y >= other.min_y
    }
}

#[derive(Debug)]
pub enum StaticAABB2DIndexBuildError {
    ItemCountError { added: usize, expected: usize },
    NumericCastError,
}

impl fmt::Display for StaticAABB2DIndexBuildError {
    fn fmt(&self, f: &mut fmt::Formatter<'_>) -> fmt::Result {
        write!(f, "{self:?}")
    }
}

pub struct StaticAABB2DIndexBuilder<T> {
    expected: usize,
    boxes: Vec<AABB<T>>,
}

impl<T: IndexableNum> StaticAABB2DIndexBuilder<T> {
    pub fn new(count: usize) -> Self {
        StaticAABB2DIndexBuilder {
            expected: count,
            boxes: Vec::with_capacity(count),
        }
    }

    pub fn add(&mut self, min_x: T, min_y: T, max_x: T, max_y: T) -> &mut Self {
        self.boxes.push(AABB::new(min_x, min_y, max_x, max_y));
        self
    }

    pub fn build(self) -> Result<StaticAABB2DIndex<T>, StaticAABB2DIndexBuildError> {
        if self.boxes.len() != self.expected {
            return Err(StaticAABB2DIndexBuildError::ItemCountError {
                added: self.boxes.len(),
                expected: self.expected,
            });
        }
        Ok(StaticAABB2DIndex {
            numbers: (0..self.boxes.len()).collect(),
            boxes: self.boxes,
        })
    }
}

pub struct StaticAABB2DIndex<T> {
    numbers: Vec<usize>,
    boxes: Vec<AABB<T>>,
}

impl<T: IndexableNum> StaticAABB2DIndex<T> {
    pub fn item_indices(&self) -> &[usize] {
        &self.numbers
    }

    pub fn item_boxes(&self) -> &[AABB<T>] {
        &self.boxes
    }

    /// Visits each box that touches the one asked for, in ascending number, until told to stop. The
    /// stack is the original's working memory; a plain list needs none.
    pub fn visit_query_with_stack<V, C>(
        &self,
        min_x: T,
        min_y: T,
        max_x: T,
        max_y: T,
        visitor: &mut V,
        _stack: &mut Vec<usize>,
    ) where
        V: FnMut(usize) -> C,
        C: ControlFlow,
    {
        QUERIES.set(QUERIES.get() + 1);
        let asked = AABB::new(min_x, min_y, max_x, max_y);
        for (number, held) in self.boxes.iter().enumerate() {
            if held.touches(&asked) && visitor(number).should_break() {
                return;
            }
        }
    }
}
