//! Duthlan: thirteen operations on Arrow list columns of 64-bit integers, and chains of them, over
//! borrowed slices. Nothing is allocated. The operations are written in Rattle and proved equal to a
//! row-by-row definition: values under a null row, spare bits and whatever else a column does not show
//! change no answer.
//!
//! ```
//! use duthlan::{reverse, Bits, List, ListOut};
//!
//! // [12, -3, null], a null row over 40 and 41, [], [7, 7, 9]
//! let list = List {
//!     offsets: &[0, 3, 5, 5, 8],
//!     rows: Bits::from(&[0b1101]),
//!     values: &[12, -3, 99, 40, 41, 7, 7, 9],
//!     elements: Bits::from(&[0b1111_1011]),
//! };
//! let mut out = ListOut {
//!     offsets: &mut [0; 5],
//!     rows: &mut [0; 1],
//!     values: &mut [0; 8],
//!     elements: &mut [0; 1],
//! };
//! let counts = reverse(list, &mut out)?;
//! assert_eq!((counts.elements, counts.null_rows, counts.null_elements), (6, 1, 1));
//! let reversed = out.written(&counts);
//! assert_eq!(reversed.offsets, [0, 3, 3, 3, 6]);
//! assert_eq!(reversed.values, [i64::MIN, -3, 12, 9, 7, 7]);      // a null element holds i64::MIN
//! # Ok::<(), duthlan::Refusal>(())
//! ```
//!
//! - A column that is lent is a [`List`], or [`Values`] for an argument; both are borrowed slices of any
//!   length and content. What cannot be used gets a [`Refusal`], and a refused call changes no output.
//! - A result goes into a [`ListOut`], [`ValueOut`] or [`RepeatOut`]: mutable slices, which can overlap no
//!   other slice of the call. `written` reads it back, and gives a column to lend on.
//! - How long those slices must be can be asked first: [`reverse_lengths`] for [`reverse`], and so for
//!   every operation. Slices of the lengths told are never refused by 9.
//! - A [`Recipe`] chains list operations through two trays; [`run_recipe`] runs it, [`run_recipe_rows`]
//!   runs it for some rows, and [`recipe_limits`] tells how many elements the trays and the output must
//!   hold.
//! - For rows of thousands of elements, [`distinct_hashed`], [`union_hashed`] and [`intersect_hashed`] do
//!   the same as the three without the ending, with a lent work area.
//! - A ListView column is a [`View`]; [`import_view`] reads it into a list column, and [`export_view`]
//!   writes a list column to a [`ViewOut`].
//! - [`grade`] writes a [`Grade`] for each row of a list, by runs of equal elements, and [`grade_recipe`]
//!   for each row of a recipe's result.
//! - With the feature `std`, which is on by default, [`owned`] has columns in vectors, built from rows
//!   and read back as rows. Without it the crate is `no_std` and has no heap.
//! - With the feature `large`, also on by default, [`large`] has all of this but ListView columns, work
//!   areas, recipes for some rows and grades, for columns with 64-bit offsets.
//!
//! The crate links `libduthlan.a`, and for large lists `libduthlan_large.a`, from the folder that
//! `DUTHLAN_LIB_DIR` names, by an absolute path, when the crate is built; or from `target/staticlib` of
//! its repository, where `bindings/archive duthlan` and `bindings/archive duthlan_large` write them.

#![no_std]
#![deny(missing_docs, unsafe_code)]

#[cfg(feature = "std")]
extern crate std;

mod columns;
mod grades;
mod hashed;
#[cfg(feature = "large")]
pub mod large;
mod lengths;
mod offset;
mod operations;
mod outputs;
#[cfg(feature = "std")]
pub mod owned;
#[allow(unsafe_code)]
mod raw;
mod recipe;
mod refusal;
mod views;

pub use columns::{Bits, Elements, List, NestedList, OuterRows, Rows, Values};
pub use columns::{ListOf, NestedListOf, OuterRowsOf, RowsOf};
pub use grades::{grade, grade_recipe, Grade};
pub use hashed::{distinct_hashed, intersect_hashed, union_hashed};
pub use lengths::{
    any_value_lengths, distinct_lengths, element_lengths, intersect_lengths, list_repeat_lengths,
    pop_back_lengths, pop_front_lengths, recipe_limits, remove_lengths, replace_lengths,
    resize_lengths, reverse_lengths, slice_lengths, union_lengths, ListLengths, RecipeLimits,
    RepeatLengths, ValueLengths,
};
pub use offset::Offset;
pub use operations::{
    any_value, distinct, element, intersect, list_repeat, pop_back, pop_front, remove, replace,
    resize, reverse, slice, union,
};
pub use outputs::{
    bitmap_bytes, ListCounts, ListOut, RepeatCounts, RepeatOut, ValueCounts, ValueOut,
};
pub use outputs::{ListOutOf, RepeatOutOf};
pub use recipe::{run_recipe, run_recipe_rows, Recipe, RecipeInputs, Tally, Trays};
pub use recipe::{RecipeInputsOf, TraysOf};
pub use refusal::Refusal;
pub use views::{export_view, import_view, View, ViewOut};
