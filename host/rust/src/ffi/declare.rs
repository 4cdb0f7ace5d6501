//! How an entry of the archive is declared: once, with a slice for each list.

/// Declares entries: of each the archive's function, and one that takes slices and hands the pointer
/// and the length of each on, in the order of the parameters.
macro_rules! declare_entries {
    ($($entry:ident as $name:ident($($parameters:tt)*) -> $answer:ident;)*) => {
        $(declare_entries!(@ $entry $name $answer [] [] [] $($parameters)*);)*
    };
    (@ $entry:ident $name:ident $answer:ident [$($told:tt)*] [$($taken:tt)*] [$($handed:tt)*]) => {
        extern "C" {
            pub fn $entry($($told)*) -> $answer;
        }

        #[inline]
        #[allow(clippy::too_many_arguments)] // those of the header
        pub fn $name($($taken)*) -> $answer {
            // SAFETY: each pointer is lent with the length of its slice; a slice of length 0 has a
            // pointer that is not read; what is written is `&mut`, so nothing shares it; the
            // function keeps no pointer, reads and writes nothing beyond the lengths, and refuses
            // what it does not take, by the contract that was proved of it.
            unsafe { $entry($($handed)*) }
        }
    };
    (@ $entry:ident $name:ident $answer:ident [$($told:tt)*] [$($taken:tt)*] [$($handed:tt)*]
        $list:ident: &[$of:ty] $(, $($rest:tt)*)?) => {
        declare_entries!(@ $entry $name $answer [$($told)* _: *const $of, _: usize,]
            [$($taken)* $list: &[$of],] [$($handed)* $list.as_ptr(), $list.len(),] $($($rest)*)?);
    };
    (@ $entry:ident $name:ident $answer:ident [$($told:tt)*] [$($taken:tt)*] [$($handed:tt)*]
        $list:ident: &mut [$of:ty] $(, $($rest:tt)*)?) => {
        declare_entries!(@ $entry $name $answer [$($told)* _: *mut $of, _: usize,]
            [$($taken)* $list: &mut [$of],] [$($handed)* $list.as_mut_ptr(), $list.len(),] $($($rest)*)?);
    };
    (@ $entry:ident $name:ident $answer:ident [$($told:tt)*] [$($taken:tt)*] [$($handed:tt)*]
        $value:ident: $kind:ty $(, $($rest:tt)*)?) => {
        declare_entries!(@ $entry $name $answer [$($told)* _: $kind,] [$($taken)* $value: $kind,]
            [$($handed)* $value,] $($($rest)*)?);
    };
}
