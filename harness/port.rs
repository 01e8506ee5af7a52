//! The port's C entries over bytes behind safe functions, and the library of all its entries.
//!
//! A slice passes as a pointer and a length in bytes, a bitmap of a column with its starting bit
//! behind them. The entries demand nothing of their caller
//! but that each pointer is not null and may be read, or written, for its length, and that no output
//! overlaps another slice. Rust's borrow rules give all: a `&mut [u8]` overlaps no other borrow.

#[cfg(mock)]
pub use crate::mock::LIBRARY;

#[cfg(not(mock))]
use crate::grade_port::GRADES;
#[cfg(not(mock))]
use crate::library::Library;
#[cfg(not(mock))]
use crate::typed_port::{large, narrow, HASHED, VIEWS, WINDOWS};

/// The safe function of an entry: the code, if it takes one, or the station and the number of
/// columns, then the names of its input slices, those of bitmaps with that of their starting bit,
/// then those of its output slices; the counts come last, and only the tally behind them.
#[cfg(not(mock))]
macro_rules! entry {
    (list) => {
        entry! { list = duthlan_bytes_list (op)
            [offsets rows:rows_start values elements:elements_start]
            [out_offsets out_rows out_values out_elements] }
    };
    (any_value) => {
        entry! { any_value = duthlan_bytes_any_value ()
            [offsets rows:rows_start values elements:elements_start]
            [out_values out_rows] }
    };
    (element) => {
        entry! { element = duthlan_bytes_element ()
            [offsets rows:rows_start values elements:elements_start
             indexes index_bits:index_start]
            [out_values out_rows] }
    };
    (lists) => {
        entry! { lists = duthlan_bytes_lists (op)
            [offsets rows:rows_start values elements:elements_start
             right_offsets right_rows:right_rows_start
             right_values right_elements:right_elements_start]
            [out_offsets out_rows out_values out_elements] }
    };
    (list_with) => {
        entry! { list_with = duthlan_bytes_list_with (op)
            [offsets rows:rows_start values elements:elements_start
             first first_bits:first_start second second_bits:second_start
             third third_bits:third_start]
            [out_offsets out_rows out_values out_elements] }
    };
    (list_repeat) => {
        entry! { list_repeat = duthlan_bytes_list_repeat ()
            [offsets rows:rows_start values elements:elements_start
             times times_bits:times_start]
            [out_offsets out_rows inner_offsets inner_rows out_values out_elements] }
    };
    (recipe) => {
        entry! { recipe = duthlan_bytes_recipe (station columns)
            [numbers offsets rows:rows_start values elements:elements_start
             second_offsets second_rows:second_rows_start
             second_values second_elements:second_elements_start
             arguments argument_bits:argument_start]
            [one_offsets one_rows one_values one_elements
             two_offsets two_rows two_values two_elements
             out_offsets out_rows out_values out_elements]
            tally }
    };
    ($name:ident = $symbol:ident ($($code:ident)*)
        [$($input:ident $(: $start:ident)?)+] [$($output:ident)+] $($tally:ident)?) => {
        fn $name(
            $($code: u32,)*
            [$($input),+]: [&[u8]; [$(stringify!($input)),+].len()],
            [$($($start,)?)+]: [u32; [$($(stringify!($start),)?)+].len()],
            [$($output,)+ $($tally)?]: [
                &mut [u8];
                [$(stringify!($output),)+ $(stringify!($tally))?].len()
            ],
            counts: &mut [u8],
        ) -> u32 {
            extern "C" {
                fn $symbol(
                    $($code: u32,)*
                    $($input: *const u8, _: usize, $($start: u32,)?)+
                    $($output: *mut u8, _: usize,)+
                    counts: *mut u8, _: usize,
                    $($tally: *mut u8, _: usize,)?
                ) -> u32;
            }
            // Sound: each pointer and length come from one slice, and no mutable slice overlaps
            // another.
            unsafe {
                $symbol(
                    $($code,)*
                    $($input.as_ptr(), $input.len(), $($start,)?)+
                    $($output.as_mut_ptr(), $output.len(),)+
                    counts.as_mut_ptr(), counts.len(),
                    $($tally.as_mut_ptr(), $tally.len(),)?
                )
            }
        }
    };
}

/// Declares the entries and makes a library of them.
#[cfg(not(mock))]
macro_rules! archive {
    ($($name:ident)+) => {
        #[link(name = "duthlan_bytes", kind = "static")]
        extern "C" {}

        $(entry! { $name })+

        pub const LIBRARY: Library = Library {
            $($name: Some($name),)+
            typed: Some(narrow::TYPED),
            large: Some(large::TYPED),
            grades: Some(GRADES),
            views: Some(VIEWS),
            windows: Some(WINDOWS),
            hashed: Some(HASHED),
            ..Library::EMPTY
        };
    };
}

// The entries that the archive has. Only these are declared and linked; the groups of the others
// are not run.
#[cfg(not(mock))]
archive! {
    list
    any_value
    element
    lists
    list_with
    list_repeat
    recipe
}
