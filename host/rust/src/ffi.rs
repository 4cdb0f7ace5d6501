//! The boundary to the archive. Only this module and the one below it have unsafe code.
//!
//! In the tests of this crate's own modules a stand-in takes the place of the archive, so that they
//! run also where the archive does not. The tests in `tests` call the archive.

mod archive;
#[cfg(test)]
mod header;
#[cfg(test)]
pub(crate) mod standin;

pub(crate) use archive::*;
pub use archive::{Point, Split, Starts, Vertex};
#[cfg(test)]
pub(crate) use standin::entries::*;

/// The numbers of vertices: x, y, bulge of each.
pub(crate) fn numbers_of(vertices: &[Vertex]) -> &[f64] {
    // SAFETY: a `Vertex` is `repr(C)` and three f64 without padding, so the memory of the slice is
    // that of three times as many f64; the length in bytes is that of the slice.
    unsafe { std::slice::from_raw_parts(vertices.as_ptr().cast(), vertices.len() * 3) }
}

/// The vertices of numbers: three numbers each. A rest of one or two is left out.
pub(crate) fn vertices_of(numbers: &[f64]) -> &[Vertex] {
    // SAFETY: a `Vertex` is `repr(C)`, three f64 without padding, and has the alignment of f64; all
    // bits are good in an f64; and no more numbers are taken than there are.
    unsafe { std::slice::from_raw_parts(numbers.as_ptr().cast(), numbers.len() / 3) }
}

#[cfg(test)]
mod tests {
    use super::*;

    #[test]
    fn vertices_and_numbers_are_the_same_memory() {
        let vertices = [Vertex::new(1.0, 2.0, 3.0), Vertex::new(4.0, 5.0, 6.0)];
        let numbers = numbers_of(&vertices);
        assert_eq!(numbers, [1.0, 2.0, 3.0, 4.0, 5.0, 6.0]);
        assert_eq!(vertices_of(numbers), vertices);
        assert_eq!(numbers.as_ptr(), vertices.as_ptr().cast());
    }

    #[test]
    fn a_rest_is_no_vertex() {
        for (numbers, vertices) in [(0, 0), (1, 0), (2, 0), (3, 1), (5, 1), (6, 2)] {
            assert_eq!(vertices_of(&vec![0.0; numbers]).len(), vertices);
        }
        assert!(numbers_of(&[]).is_empty());
    }
}
