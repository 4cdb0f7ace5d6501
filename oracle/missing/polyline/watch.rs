//! Ours: where a comparison looks in. The ported stages call three helpers of `pline_seg.rs`. Here
//! each call is handed to the host that this thread has set, if there is one. Without a host the
//! crate's own helper answers.

use super::pline_seg::{self, SplitResult};
use super::pline_vertex::PlineVertex;
use crate::core::math::Vector2;
use crate::core::traits::Real;
use std::any::Any;
use std::cell::RefCell;

/// What answers in place of the crate's helpers. Numbers are f64 here.
pub trait Host {
    /// The split of v1 to v2 at the point, or `None` for the crate's own.
    fn split(&mut self, v1: PlineVertex, v2: PlineVertex, point: Vector2) -> Option<SplitResult>;

    /// The point of v1 to v2 that is closest, or `None` for the crate's own.
    fn closest(&mut self, v1: PlineVertex, v2: PlineVertex, point: Vector2) -> Option<Vector2>;

    /// The two vertices whose midpoint is asked. The answer is always the crate's own.
    fn midpoint(&mut self, v1: PlineVertex, v2: PlineVertex);
}

thread_local! {
    static HOST: RefCell<Option<Box<dyn Host>>> = const { RefCell::new(None) };
}

/// Sets the host, or none, and gives back the one before.
pub fn set_host(host: Option<Box<dyn Host>>) -> Option<Box<dyn Host>> {
    HOST.with(|held| held.replace(host))
}

/// The same value, read as another type. It is the value itself where the types are one.
fn as_type<A: Copy + 'static, B: Copy + 'static>(value: A) -> B {
    *(&value as &dyn Any)
        .downcast_ref::<B>()
        .expect("the comparison runs on f64 only")
}

fn ask<A>(question: impl FnOnce(&mut dyn Host) -> Option<A>) -> Option<A> {
    HOST.with(|held| {
        let mut held = held.borrow_mut();
        held.as_mut().and_then(|host| question(host.as_mut()))
    })
}

pub fn seg_split_at_point<T>(
    v1: PlineVertex<T>,
    v2: PlineVertex<T>,
    point: Vector2<T>,
    pos_equal_eps: T,
) -> SplitResult<T>
where
    T: Real,
{
    let told = ask(|host| host.split(as_type(v1), as_type(v2), as_type(point)));
    match told {
        Some(split) => SplitResult {
            updated_start: as_type(split.updated_start),
            split_vertex: as_type(split.split_vertex),
        },
        None => pline_seg::seg_split_at_point(v1, v2, point, pos_equal_eps),
    }
}

pub fn seg_closest_point<T>(
    v1: PlineVertex<T>,
    v2: PlineVertex<T>,
    point: Vector2<T>,
    epsilon: T,
) -> Vector2<T>
where
    T: Real,
{
    let told = ask(|host| host.closest(as_type(v1), as_type(v2), as_type(point)));
    match told {
        Some(closest) => as_type(closest),
        None => pline_seg::seg_closest_point(v1, v2, point, epsilon),
    }
}

pub fn seg_midpoint<T>(v1: PlineVertex<T>, v2: PlineVertex<T>) -> Vector2<T>
where
    T: Real,
{
    ask(|host| {
        host.midpoint(as_type(v1), as_type(v2));
        None::<()>
    });
    pline_seg::seg_midpoint(v1, v2)
}
