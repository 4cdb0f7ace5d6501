//! Every value as words of 64 bits, so that two answers are compared as bits: NaNs with their
//! payloads, and -0 beside +0.

use crate::entries;
use mask_tools::{Point, Starts, Tolerance, Vertex, View};

pub trait Words {
    fn add_to(&self, words: &mut Vec<u64>);
}

/// The words of some values, one after the other.
macro_rules! words {
    ($($value:expr),* $(,)?) => {{
        #[allow(unused_mut)]
        let mut words: Vec<u64> = Vec::new();
        $(Words::add_to(&$value, &mut words);)*
        words
    }};
}
pub(crate) use words;

macro_rules! whole_numbers {
    ($($kind:ty),*) => {$(
        impl Words for $kind {
            fn add_to(&self, words: &mut Vec<u64>) {
                words.push(*self as u64);
            }
        }
    )*};
}
whole_numbers!(u8, u32, u64, usize, i64, bool);

impl Words for f64 {
    fn add_to(&self, words: &mut Vec<u64>) {
        words.push(self.to_bits());
    }
}

impl<T: Words> Words for [T] {
    fn add_to(&self, words: &mut Vec<u64>) {
        self.iter().for_each(|item| item.add_to(words));
    }
}

impl<T: Words> Words for Vec<T> {
    fn add_to(&self, words: &mut Vec<u64>) {
        self.as_slice().add_to(words);
    }
}

impl<T: Words, const N: usize> Words for [T; N] {
    fn add_to(&self, words: &mut Vec<u64>) {
        self.as_slice().add_to(words);
    }
}

macro_rules! field_by_field {
    ($($kind:ty: $($field:ident),+;)*) => {$(
        impl Words for $kind {
            fn add_to(&self, words: &mut Vec<u64>) {
                $(self.$field.add_to(words);)+
            }
        }
    )*};
}
field_by_field! {
    Point: x, y;
    Vertex: x, y, bulge;
    Tolerance: x, y;
    Starts: pline2, pline1_overlapping, pline2_overlapping;
    View: start_index, end_index_offset, updated_start, updated_end_bulge, end_point, inverted_direction;
    entries::View: start_index, end_index_offset, updated_start, updated_end_bulge, end_point, inverted_direction;
}
