//! Stands for the crate's `Polyline`: a list of vertices that is open or closed. Every method that
//! the traits provide is the crate's own; here is only the storage.

use super::{PlineCreation, PlineSource, PlineSourceMut, PlineVertex};
use crate::core::traits::Real;

#[derive(Debug, Clone, Default)]
pub struct Polyline<T = f64> {
    pub vertex_data: Vec<PlineVertex<T>>,
    pub is_closed: bool,
    pub userdata: Vec<u64>,
}

impl<T: Real> Polyline<T> {
    pub fn from_vertexes(vertex_data: Vec<PlineVertex<T>>, is_closed: bool) -> Self {
        Polyline {
            vertex_data,
            is_closed,
            userdata: Vec::new(),
        }
    }
}

impl<T: Real> PlineSource for Polyline<T> {
    type Num = T;
    type OutputPolyline = Polyline<T>;

    fn get_userdata_count(&self) -> usize {
        self.userdata.len()
    }

    fn get_userdata_values(&self) -> impl Iterator<Item = u64> + '_ {
        self.userdata.iter().copied()
    }

    #[inline]
    fn vertex_count(&self) -> usize {
        self.vertex_data.len()
    }

    #[inline]
    fn is_closed(&self) -> bool {
        self.is_closed
    }

    #[inline]
    fn get(&self, index: usize) -> Option<PlineVertex<T>> {
        self.vertex_data.get(index).copied()
    }

    #[inline]
    fn at(&self, index: usize) -> PlineVertex<T> {
        self.vertex_data[index]
    }
}

impl<T: Real> PlineSourceMut for Polyline<T> {
    fn set_userdata_values(&mut self, values: impl IntoIterator<Item = u64>) {
        self.userdata.clear();
        self.userdata.extend(values);
    }

    fn add_userdata_values(&mut self, values: impl IntoIterator<Item = u64>) {
        self.userdata.extend(values);
    }

    fn set_vertex(&mut self, index: usize, vertex: PlineVertex<T>) {
        self.vertex_data[index] = vertex;
    }

    fn insert_vertex(&mut self, index: usize, vertex: PlineVertex<T>) {
        self.vertex_data.insert(index, vertex);
    }

    fn remove(&mut self, index: usize) -> PlineVertex<T> {
        self.vertex_data.remove(index)
    }

    fn clear(&mut self) {
        self.vertex_data.clear();
    }

    fn add_vertex(&mut self, vertex: PlineVertex<T>) {
        self.vertex_data.push(vertex);
    }

    fn extend_vertexes<I>(&mut self, vertexes: I)
    where
        I: IntoIterator<Item = PlineVertex<T>>,
    {
        self.vertex_data.extend(vertexes);
    }

    fn reserve(&mut self, additional: usize) {
        self.vertex_data.reserve(additional);
    }

    fn set_is_closed(&mut self, is_closed: bool) {
        self.is_closed = is_closed;
    }
}

impl<T: Real> PlineCreation for Polyline<T> {
    fn with_capacity(capacity: usize, is_closed: bool) -> Self {
        Polyline::from_vertexes(Vec::with_capacity(capacity), is_closed)
    }

    fn from_iter<I>(iter: I, is_closed: bool) -> Self
    where
        I: Iterator<Item = PlineVertex<T>>,
    {
        Polyline::from_vertexes(iter.collect(), is_closed)
    }
}
