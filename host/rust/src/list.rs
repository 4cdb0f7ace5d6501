//! Lists, laid out as the library takes them.

use std::fmt;
use std::marker::PhantomData;
use std::ops::Range;

/// How an item of a list is laid out: some indexes or codes, some numbers, and, where it was cut from
/// an outline, that one's edition.
pub trait Layout: Sized {
    /// How many indexes and codes an item has.
    const INDEXES: usize;
    /// How many numbers an item has; at least 1.
    const NUMBERS: usize;
    /// How many editions an item has: 1 or 0.
    const EDITIONS: usize;

    /// Adds the item at the end of the lists.
    fn write(&self, to: &mut Flat);

    /// The item that lies in these places.
    fn read(indexes: &[usize], numbers: &[f64], editions: &[u32]) -> Self;
}

/// The items of a list as the library takes them, each kind of value in a list of its own.
#[derive(Debug, Clone, PartialEq)]
pub struct Flat {
    pub(crate) indexes: Vec<usize>,
    pub(crate) numbers: Vec<f64>,
    pub(crate) editions: Vec<u32>,
}

impl Flat {
    const fn new() -> Self {
        Flat {
            indexes: Vec::new(),
            numbers: Vec::new(),
            editions: Vec::new(),
        }
    }
}

/// A list that owns its items. It holds them as the library takes them: the indexes in one flat
/// list, the numbers in another, the editions in a third.
///
/// ```
/// use mask_tools::{Intersection, Intersections, Point};
///
/// let corner = Intersection {
///     start_index1: 1,
///     start_index2: 0,
///     point: Point::new(4.0, 2.0),
/// };
/// let mut list = Intersections::new();
/// list.push(corner);
/// assert_eq!(list.len(), 1);
/// assert_eq!(list.get(0), Some(corner));
/// assert_eq!(list, Intersections::from([corner]));
/// ```
#[derive(Clone, PartialEq)]
pub struct List<T> {
    flat: Flat,
    items: PhantomData<T>,
}

impl<T> List<T> {
    /// A list without items.
    pub const fn new() -> Self {
        List {
            flat: Flat::new(),
            items: PhantomData,
        }
    }

    pub(crate) fn indexes(&self) -> &[usize] {
        &self.flat.indexes
    }

    pub(crate) fn numbers(&self) -> &[f64] {
        &self.flat.numbers
    }

    pub(crate) fn editions(&self) -> &[u32] {
        &self.flat.editions
    }

    /// The lists, to be written.
    pub(crate) fn room(&mut self) -> &mut Flat {
        &mut self.flat
    }
}

impl<T: Layout> List<T> {
    /// Room for so many items, all 0.
    pub(crate) fn with_room(count: usize) -> Self {
        List {
            flat: Flat {
                indexes: vec![0; count * T::INDEXES],
                numbers: vec![0.0; count * T::NUMBERS],
                editions: vec![0; count * T::EDITIONS],
            },
            items: PhantomData,
        }
    }

    /// Keeps the first `count` items.
    pub(crate) fn truncate(&mut self, count: usize) {
        self.flat.indexes.truncate(count * T::INDEXES);
        self.flat.numbers.truncate(count * T::NUMBERS);
        self.flat.editions.truncate(count * T::EDITIONS);
    }

    /// Adds an item at the end.
    pub fn push(&mut self, item: T) {
        item.write(&mut self.flat);
    }

    /// How many items it has.
    pub fn len(&self) -> usize {
        self.flat.numbers.len() / T::NUMBERS
    }

    /// Whether it has none.
    pub fn is_empty(&self) -> bool {
        self.flat.numbers.is_empty()
    }

    /// Item number `index`; none where there is no such item.
    pub fn get(&self, index: usize) -> Option<T> {
        (index < self.len()).then(|| self.item(index))
    }

    /// The items, in order.
    pub fn iter(&self) -> Iter<'_, T> {
        Iter {
            list: self,
            left: 0..self.len(),
        }
    }

    fn item(&self, index: usize) -> T {
        T::read(
            &self.flat.indexes[index * T::INDEXES..][..T::INDEXES],
            &self.flat.numbers[index * T::NUMBERS..][..T::NUMBERS],
            &self.flat.editions[index * T::EDITIONS..][..T::EDITIONS],
        )
    }
}

impl<T> Default for List<T> {
    fn default() -> Self {
        List::new()
    }
}

impl<T: Layout + fmt::Debug> fmt::Debug for List<T> {
    fn fmt(&self, f: &mut fmt::Formatter<'_>) -> fmt::Result {
        f.debug_list().entries(self).finish()
    }
}

impl<T: Layout> Extend<T> for List<T> {
    fn extend<I: IntoIterator<Item = T>>(&mut self, items: I) {
        items.into_iter().for_each(|item| self.push(item));
    }
}

impl<T: Layout> FromIterator<T> for List<T> {
    fn from_iter<I: IntoIterator<Item = T>>(items: I) -> Self {
        let mut list = List::new();
        list.extend(items);
        list
    }
}

impl<T: Layout, const N: usize> From<[T; N]> for List<T> {
    fn from(items: [T; N]) -> Self {
        items.into_iter().collect()
    }
}

impl<'a, T: Layout> IntoIterator for &'a List<T> {
    type Item = T;
    type IntoIter = Iter<'a, T>;

    fn into_iter(self) -> Iter<'a, T> {
        self.iter()
    }
}

/// The items of a [`List`], in order.
#[derive(Clone)]
pub struct Iter<'a, T> {
    list: &'a List<T>,
    left: Range<usize>,
}

impl<T: Layout> Iterator for Iter<'_, T> {
    type Item = T;

    fn next(&mut self) -> Option<T> {
        self.left.next().map(|index| self.list.item(index))
    }

    fn size_hint(&self) -> (usize, Option<usize>) {
        self.left.size_hint()
    }
}

impl<T: Layout> DoubleEndedIterator for Iter<'_, T> {
    fn next_back(&mut self) -> Option<T> {
        self.left.next_back().map(|index| self.list.item(index))
    }
}

impl<T: Layout> ExactSizeIterator for Iter<'_, T> {}

#[cfg(test)]
mod tests {
    use super::*;
    use crate::{Intersection, Overlap, Point, Probe, Vertex, View};

    fn hit(i: usize) -> Intersection {
        Intersection {
            start_index1: i,
            start_index2: i + 10,
            point: Point::new(i as f64, -1.0),
        }
    }

    #[test]
    fn items_come_back_in_order() {
        let list: List<Intersection> = (0..5).map(hit).collect();
        assert_eq!(list.len(), 5);
        assert_eq!(list.iter().len(), 5);
        assert!(list.iter().eq((0..5).map(hit)));
        assert!(list.iter().rev().eq((0..5).rev().map(hit)));
        assert_eq!(list.get(4), Some(hit(4)));
        assert_eq!(list.get(5), None);
        assert_eq!(list.get(usize::MAX), None);
        assert_eq!(
            format!("{list:?}"),
            format!("{:?}", [0, 1, 2, 3, 4].map(hit))
        );
    }

    #[test]
    fn items_lie_flat() {
        let list = List::from([hit(3), hit(4)]);
        assert_eq!(list.indexes(), [3, 13, 4, 14]);
        assert_eq!(list.numbers(), [3.0, -1.0, 4.0, -1.0]);
    }

    #[test]
    fn room_is_0_until_it_is_written() {
        let mut list: List<Intersection> = List::with_room(2);
        assert_eq!(list.get(1), Some(Intersection::default()));
        let room = list.room();
        room.indexes[1] = 7;
        room.numbers[0] = 2.5;
        assert!(room.editions.is_empty());
        list.truncate(1);
        assert_eq!(list.len(), 1);
        assert_eq!(
            (list.indexes(), list.numbers()),
            (&[0, 7][..], &[2.5, 0.0][..])
        );
    }

    #[test]
    fn what_was_cut_keeps_its_edition() {
        let lap = |edition| Overlap {
            view_data: View {
                edition,
                ..View::default()
            },
            ..Overlap::default()
        };
        let mut list = List::from([lap(0), lap(u32::MAX), lap(3)]);
        assert_eq!(list.editions(), [0, u32::MAX, 3]);
        assert!(list.iter().eq([lap(0), lap(u32::MAX), lap(3)]));
        list.truncate(2);
        assert_eq!(list.editions(), [0, u32::MAX]);
        assert_ne!(list, List::from([lap(0), lap(1)]));
    }

    #[test]
    fn a_list_of_numbers_alone_has_a_length_too() {
        let probe = Probe {
            start: Vertex::new(1.0, 2.0, 3.0),
            end: Vertex::new(4.0, 5.0, 6.0),
        };
        let list = List::from([probe, probe]);
        assert_eq!(list.len(), 2);
        assert!(list.indexes().is_empty());
        assert_eq!(list.get(1), Some(probe));
        assert!(List::<Probe>::default().is_empty());
    }
}
