//! Slices kept between runs.

use crate::ffi;
use crate::list::{Layout, List};
use crate::{Refusal, Slice, Slices, Starts};

/// How many slices a store has places for, and how many of them are a party's.
const PLACES: usize = 1792;
const SHARE: usize = 896;

mod sealed {
    pub trait Coded {
        const CODE: u32;
    }
}

/// One of the two parties that share a store: [`First`] or [`Second`].
pub trait Party: sealed::Coded + Copy {}

/// Party 0 of a store.
#[derive(Debug, Clone, Copy, PartialEq, Eq, PartialOrd, Ord, Hash, Default)]
pub struct First;

/// Party 1 of a store.
#[derive(Debug, Clone, Copy, PartialEq, Eq, PartialOrd, Ord, Hash, Default)]
pub struct Second;

impl sealed::Coded for First {
    const CODE: u32 = 0;
}

impl sealed::Coded for Second {
    const CODE: u32 = 1;
}

impl Party for First {}
impl Party for Second {}

/// The handle of a slice of party `P` in a store. The slice keeps it until it is released.
///
/// A handle of one party is of another type than a handle of the other:
///
/// ```compile_fail
/// use mask_tools::{First, Handle, Second};
///
/// fn release_ours(handle: Handle<First>) {}
///
/// release_ours(Handle::of_number(Second, 3));
/// ```
#[derive(Debug, Clone, Copy, PartialEq, Eq, PartialOrd, Ord, Hash)]
pub struct Handle<P> {
    number: usize,
    party: P,
}

impl<P: Party> Handle<P> {
    /// The party's handle of this number. Whether a live slice has it, the store says when it is
    /// used.
    pub const fn of_number(party: P, number: usize) -> Handle<P> {
        Handle { number, party }
    }

    /// Its number: the lowest from 0 on that no live slice of the party had when it was given.
    pub const fn number(self) -> usize {
        self.number
    }
}

/// A live slice as a store lists it.
#[derive(Debug, Clone, Copy, PartialEq)]
pub struct Kept<P> {
    /// Its handle.
    pub handle: Handle<P>,
    /// The slice, with the edition of the outline that it was cut from.
    pub slice: Slice,
}

/// Slices of two parties, kept between runs: up to 896 of each.
///
/// Whatever is called in whatever order, a party's part answers as a plain list of its live slices
/// would, and what the other party does changes no answer. This is proved of the library, for every
/// content of the store's memory. [`to_bytes`](Store::to_bytes) and
/// [`from_bytes`](Store::from_bytes) write a store to a file and read it back; no content is
/// refused but one of another length.
///
/// ```
/// use mask_tools::{First, Refusal, Second, Slice, Source, Store, View};
///
/// # fn main() -> Result<(), Refusal> {
/// let slice = |edition| Slice {
///     source: Source::Pline1,
///     view: View { edition, ..View::default() },
/// };
/// let mut store = Store::new();
/// let first = store.put(First, slice(7))?;
/// store.put(First, slice(8))?;
/// let theirs = store.put(Second, slice(1))?;
/// assert_eq!((first.number(), theirs.number()), (0, 0)); // handles count within a party
///
/// store.release(first)?;
/// assert_eq!(store.release(first), Err(Refusal::Handle));
/// let third = store.put(First, slice(9))?;
/// assert_eq!(third, first); // the lowest that is free
///
/// store.compact(First)?;
/// assert_eq!(store.list(First)?.editions(), [8, 9]); // in the order put
/// assert_eq!(store.list(Second)?.editions(), [1]);
/// # Ok(())
/// # }
/// ```
#[derive(Debug, Clone, PartialEq)]
pub struct Store {
    held: Vec<usize>,
    slice_at: Vec<usize>,
    slice: Vec<f64>,
    slice_edition: Vec<u32>,
}

impl Store {
    /// How many slices a party may hold.
    pub const SHARE: usize = SHARE;

    /// The empty store.
    pub fn new() -> Store {
        Store {
            held: vec![0; PLACES],
            slice_at: vec![0; Slice::INDEXES * PLACES],
            slice: vec![0.0; Slice::NUMBERS * PLACES],
            slice_edition: vec![0; PLACES],
        }
    }

    /// Puts a slice of a party. It gets the lowest handle that no live slice of the party has.
    ///
    /// # Errors
    ///
    /// [`Refusal::Number`], and [`Refusal::Full`] where 896 slices of the party are live.
    pub fn put<P: Party>(&mut self, party: P, slice: Slice) -> Result<Handle<P>, Refusal> {
        let put = List::from([slice]);
        let answer = ffi::store_put(
            &mut self.held,
            &mut self.slice_at,
            &mut self.slice,
            &mut self.slice_edition,
            P::CODE,
            put.indexes(),
            put.numbers(),
            slice.view.edition,
        );
        Refusal::check(answer.refusal, Handle::of_number(party, answer.handle))
    }

    /// Lets a slice go. Whose it is, the handle says.
    ///
    /// # Errors
    ///
    /// [`Refusal::Handle`] where no live slice of the party has the handle; then nothing changes.
    pub fn release<P: Party>(&mut self, handle: Handle<P>) -> Result<(), Refusal> {
        let answer = ffi::store_release(
            &mut self.held,
            &self.slice_at,
            &self.slice,
            &self.slice_edition,
            P::CODE,
            handle.number,
        );
        Refusal::check(answer.refusal, ())
    }

    /// The live slices of a party, in the order put.
    ///
    /// # Errors
    ///
    /// None: the room lent is what the library needs.
    pub fn list<P: Party>(&self, party: P) -> Result<Listed<P>, Refusal> {
        let mut handles = vec![0; SHARE];
        let mut list = List::with_room(SHARE);
        let room = list.room();
        let answer = ffi::store_list(
            &self.held,
            &self.slice_at,
            &self.slice,
            &self.slice_edition,
            P::CODE,
            &mut handles,
            &mut room.indexes,
            &mut room.numbers,
            &mut room.editions,
        );
        let count = Refusal::check(answer.refusal, answer.count)?;
        handles.truncate(count);
        list.truncate(count);
        Ok(Listed {
            party,
            handles,
            list,
        })
    }

    /// Moves the live slices of a party to the front of its half of the store's memory, in the
    /// order put, and clears the rest of that half. Neither the list nor a handle changes.
    ///
    /// # Errors
    ///
    /// None.
    pub fn compact<P: Party>(&mut self, _party: P) -> Result<(), Refusal> {
        let answer = ffi::store_compact(
            &mut self.held,
            &mut self.slice_at,
            &mut self.slice,
            &mut self.slice_edition,
            P::CODE,
        );
        Refusal::check(answer.refusal, ())
    }

    /// Its whole memory, little endian: the marks, the codes, the numbers, the editions.
    pub fn to_bytes(&self) -> Vec<u8> {
        let words = self.held.iter().chain(&self.slice_at);
        let mut bytes: Vec<u8> = words.flat_map(|&w| (w as u64).to_le_bytes()).collect();
        bytes.extend(self.slice.iter().flat_map(|z| z.to_le_bytes()));
        bytes.extend(self.slice_edition.iter().flat_map(|e| e.to_le_bytes()));
        bytes
    }

    /// The store of this memory; none where it has another length. Memory that no store wrote can
    /// hold unknown codes. A list reads an unknown source as outline 2 and an unknown direction as
    /// inverted, and a stitch of that list refuses them with [`Refusal::Code`].
    pub fn from_bytes(bytes: &[u8]) -> Option<Store> {
        let mut store = Store::new();
        if bytes.len() != store.to_bytes().len() {
            return None;
        }
        let mut rest = bytes;
        let mut next = |n: usize| {
            let (front, after) = rest.split_at(n);
            rest = after;
            front
        };
        for word in store.held.iter_mut().chain(&mut store.slice_at) {
            *word = u64::from_le_bytes(next(8).try_into().expect("eight bytes")) as usize;
        }
        for number in &mut store.slice {
            *number = f64::from_le_bytes(next(8).try_into().expect("eight bytes"));
        }
        for edition in &mut store.slice_edition {
            *edition = u32::from_le_bytes(next(4).try_into().expect("four bytes"));
        }
        Some(store)
    }
}

impl Default for Store {
    fn default() -> Store {
        Store::new()
    }
}

/// The live slices of a party in a store, in the order put.
#[derive(Debug, Clone, PartialEq)]
pub struct Listed<P> {
    party: P,
    handles: Vec<usize>,
    list: List<Slice>,
}

impl<P: Party> Listed<P> {
    /// How many slices are live.
    pub fn len(&self) -> usize {
        self.handles.len()
    }

    /// Whether none is.
    pub fn is_empty(&self) -> bool {
        self.handles.is_empty()
    }

    /// The live slices, in the order put.
    pub fn iter(&self) -> impl Iterator<Item = Kept<P>> + '_ {
        let slices = self.handles.iter().zip(&self.list);
        slices.map(|(&number, slice)| Kept {
            handle: Handle::of_number(self.party, number),
            slice,
        })
    }

    /// The editions, in the order put.
    pub fn editions(&self) -> &[u32] {
        self.list.editions()
    }

    /// The list as a stitch takes it: nothing is copied. `starts` says where the classes begin, as
    /// [`prune`](crate::prune) gave it when the slices were put in its order.
    pub fn into_slices(self, starts: Starts) -> Slices {
        Slices {
            list: self.list,
            starts,
        }
    }
}

#[cfg(test)]
mod tests {
    use super::*;
    use crate::ffi::standin::{told, Lent, Reply};
    use crate::ffi::{CountAnswer, DoneAnswer, HandleAnswer};
    use crate::{Source, View};

    fn slice() -> Slice {
        let view = View {
            inverted_direction: true,
            ..View::of_numbers(3, 4, &[1.0, 2.0, 3.0, 4.0, 5.0, 6.0], 77)
        };
        Slice {
            source: Source::Pline2,
            view,
        }
    }

    #[test]
    fn put_lends_the_store_and_the_slice() {
        let answer = HandleAnswer {
            refusal: 0,
            handle: 11,
        };
        let mut store = Store::new();
        let (handle, calls) = told([Reply::of(answer)], || store.put(Second, slice()));
        assert_eq!(handle.map(|h| h.number()), Ok(11));
        let call = &calls[0];
        assert_eq!(call.entry, "store_put");
        assert_eq!(call.lent("put_at"), Lent::Counts(vec![2, 1, 3, 4]));
        let numbers = vec![1.0, 2.0, 3.0, 4.0, 5.0, 6.0];
        assert_eq!(call.lent("put"), Lent::Numbers(numbers));
        assert_eq!(call.lent("put_edition"), Lent::Code(77));
        assert_eq!(call.lent("party"), Lent::Code(1));
        assert_eq!(call.lent("held"), Lent::Room(1792));
        assert_eq!(call.lent("slice_at"), Lent::Room(7168));
        assert_eq!(call.lent("slice"), Lent::Room(10752));
        assert_eq!(call.lent("slice_edition"), Lent::Room(1792));
    }

    #[test]
    fn a_list_is_cut_to_its_count_and_stitched_as_it_stands() {
        let answer = CountAnswer {
            refusal: 0,
            count: 2,
        };
        let reply = Reply::writing(
            answer,
            vec![vec![5, 0], vec![1, 1, 7, 9, 2, 0, 8, 9]],
            vec![vec![1.0; 12]],
        )
        .with_editions(&[3, 4]);
        let (listed, calls) = told([reply], || Store::new().list(First));
        let listed = listed.unwrap();
        assert_eq!((listed.len(), listed.is_empty()), (2, false));
        let kept: Vec<Kept<First>> = listed.iter().collect();
        assert_eq!(kept[0].handle, Handle::of_number(First, 5));
        assert_eq!(kept[1].slice.view.start_index, 8);
        assert_eq!(listed.editions(), [3, 4]);
        assert_eq!(kept[1].slice.view.edition, 4);
        let call = &calls[0];
        assert_eq!(call.lent("held"), Lent::Counts(vec![0; 1792]));
        assert_eq!(call.lent("slice_edition"), Lent::Editions(vec![0; 1792]));
        assert_eq!(call.lent("party"), Lent::Code(0));
        for (room, len) in [
            ("handles", 896),
            ("list_at", 3584),
            ("list", 5376),
            ("list_edition", 896),
        ] {
            assert_eq!(call.lent(room), Lent::Room(len));
        }
        let starts = Starts {
            pline2: 1,
            pline1_overlapping: 2,
            pline2_overlapping: 2,
        };
        let slices = listed.into_slices(starts);
        assert_eq!((slices.len(), slices.starts), (2, starts));
        assert_eq!(slices.list.get(0), Some(kept[0].slice));
    }

    #[test]
    fn release_and_compaction_pass_their_refusals_on() {
        let mut store = Store::new();
        let dead = Reply::of(DoneAnswer { refusal: 21 });
        let done = Reply::of(DoneAnswer { refusal: 0 });
        let ((released, compacted), calls) = told([dead, done], || {
            (
                store.release(Handle::of_number(Second, 9)),
                store.compact(First),
            )
        });
        assert_eq!((released, compacted), (Err(Refusal::Handle), Ok(())));
        assert_eq!(calls[0].lent("handle"), Lent::Count(9));
        let parties = [calls[0].lent("party"), calls[1].lent("party")];
        assert_eq!(parties, [Lent::Code(1), Lent::Code(0)]);
        assert_eq!(
            calls[0].lent("slice_edition"),
            Lent::Editions(vec![0; 1792])
        );
        assert_eq!(calls[1].lent("slice"), Lent::Room(10752));
    }

    #[test]
    fn memory_there_and_back() {
        let mut store = Store::new();
        store.held[0] = 1;
        store.slice_at[7167] = usize::MAX;
        store.slice[10751] = -0.5;
        store.slice_edition[1791] = 4_000_000_000;
        let bytes = store.to_bytes();
        assert_eq!(bytes.len(), 8 * (1792 + 7168 + 10752) + 4 * 1792);
        assert_eq!(Store::from_bytes(&bytes), Some(store));
        assert_eq!(Store::from_bytes(&bytes[1..]), None);
        assert_eq!(Store::from_bytes(&[]), None);
    }
}
