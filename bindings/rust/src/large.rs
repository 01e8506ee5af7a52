//! Large lists: the same operations on columns with signed 64-bit offsets, which Arrow calls LargeList.
//!
//! All that the crate has, but for ListView columns, work areas, recipes for some rows and grades, is here
//! under the same name, over `i64` offsets; the functions are the same, and take columns of either width.
//!
//! ```
//! use duthlan::large::{reverse, List, ListOut};
//! let list = List::new(&[0, 3, 3, 5], &[1, 2, 3, 7, 9]);      // [1, 2, 3] [] [7, 9]
//! let mut out = ListOut {
//!     offsets: &mut [0_i64; 4],
//!     rows: &mut [0; 1],
//!     values: &mut [0; 5],
//!     elements: &mut [0; 1],
//! };
//! let counts = reverse(list, &mut out)?;
//! assert_eq!(out.written(&counts).values, [3, 2, 1, 9, 7]);
//! # Ok::<(), duthlan::Refusal>(())
//! ```
//!
//! What differs, besides the offsets:
//!
//! - Any `i64` is an index, a bound or a stride: [`Refusal::WideIndex`] (4) and [`Refusal::WideStride`]
//!   (6) never occur.
//! - [`Refusal::TooMany`] (8) comes for more than 1152921504606846975 elements of [`resize`] or repeated
//!   values of [`list_repeat`], more than 1152921504606846974 outer lists of that, and more than
//!   9223372036854775807 elements of [`union`]; and where a running sum of resize's counts passes
//!   18446744073709551615, as in lists.
//! - [`recipe_limits`] are at most 9223372036854775807.
//!
//! ```
//! use duthlan::large::{element, list_repeat_lengths, List, Refusal, ValueOut, Values};
//! let list = List::new(&[0, 0], &[]);      // []
//! let mut out = ValueOut { values: &mut [0; 1], rows: &mut [0; 1] };
//! let counts = element(list, Values::from(&[i64::MAX]), &mut out)?;      // no 4: outside gives null
//! assert_eq!(counts.null_rows, 1);
//!
//! let most = list_repeat_lengths(list, Values::from(&[1152921504606846974]))?;
//! assert_eq!(most.inner_offsets, 1152921504606846975);
//! let more = list_repeat_lengths(list, Values::from(&[1152921504606846975]));
//! assert_eq!(more, Err(Refusal::TooMany));
//! # Ok::<(), Refusal>(())
//! ```
//!
//! The module is there with the feature `large`, which is on by default, and for which the crate links
//! `libduthlan_large.a` too.

pub use crate::{
    any_value, any_value_lengths, bitmap_bytes, distinct, distinct_lengths, element,
    element_lengths, intersect, intersect_lengths, list_repeat, list_repeat_lengths, pop_back,
    pop_back_lengths, pop_front, pop_front_lengths, recipe_limits, remove, remove_lengths, replace,
    replace_lengths, resize, resize_lengths, reverse, reverse_lengths, run_recipe, slice,
    slice_lengths, union, union_lengths,
};
pub use crate::{
    Bits, Elements, ListCounts, ListLengths, Recipe, RecipeLimits, Refusal, RepeatCounts,
    RepeatLengths, Tally, ValueCounts, ValueLengths, ValueOut, Values,
};

/// A large list column that is lent to a call: see [`ListOf`](crate::ListOf).
pub type List<'a> = crate::ListOf<'a, i64>;

/// The rows of a large list column: see [`RowsOf`](crate::RowsOf).
pub type Rows<'a> = crate::RowsOf<'a, i64>;

/// A column of large lists of large lists: see [`NestedListOf`](crate::NestedListOf).
pub type NestedList<'a> = crate::NestedListOf<'a, i64>;

/// The outer rows of such a column: see [`OuterRowsOf`](crate::OuterRowsOf).
pub type OuterRows<'a> = crate::OuterRowsOf<'a, i64>;

/// Room for a large list column: see [`ListOutOf`](crate::ListOutOf).
pub type ListOut<'a> = crate::ListOutOf<'a, i64>;

/// Room for what [`list_repeat`] makes: see [`RepeatOutOf`](crate::RepeatOutOf).
pub type RepeatOut<'a> = crate::RepeatOutOf<'a, i64>;

/// What a recipe works on: see [`RecipeInputsOf`](crate::RecipeInputsOf).
pub type RecipeInputs<'a> = crate::RecipeInputsOf<'a, i64>;

/// The trays of a recipe: see [`TraysOf`](crate::TraysOf).
pub type Trays<'a> = crate::TraysOf<'a, i64>;

/// Large list columns and room for results in vectors, for programs that have a heap.
///
/// ```
/// use duthlan::large::owned::ListBuf;
/// let rows = [Some(vec![Some(12), Some(-3), None]), None, Some(vec![])];
/// let column = ListBuf::from_rows(&rows)?;
/// let mut room = ListBuf::with_room(3, 3);
/// let counts = duthlan::large::reverse(column.list(), &mut room.out())?;
/// let reversed = room.out().written(&counts).to_rows()?;
/// assert_eq!(reversed, [Some(vec![None, Some(-3), Some(12)]), None, Some(vec![])]);
/// # Ok::<(), duthlan::Refusal>(())
/// ```
#[cfg(feature = "std")]
pub mod owned {
    pub use crate::owned::{OuterRow, Row, ValuesBuf};

    /// A large list column in vectors: see [`ListBufOf`](crate::owned::ListBufOf).
    pub type ListBuf = crate::owned::ListBufOf<i64>;

    /// Room for what list-repeat makes: see [`RepeatBufOf`](crate::owned::RepeatBufOf).
    pub type RepeatBuf = crate::owned::RepeatBufOf<i64>;
}
