//! The entries of the archives: their declarations, and all the unsafe code of this crate.
//!
//! An entry tests everything but its pointers. It asks that each is aligned, not null and good for its
//! length, also for a length of 0, and that no output overlaps another slice. A `&` and a `&mut` slice
//! are just that, and what is mutably borrowed overlaps nothing else that the call borrows. An entry
//! keeps no pointer.

use crate::{
    ListCounts, ListLengths, ListOf, ListOutOf, RecipeInputsOf, RecipeLimits, Refusal,
    RepeatCounts, RepeatLengths, RepeatOutOf, TraysOf, ValueCounts, ValueLengths, ValueOut, Values,
    View, ViewOut,
};
use core::ops::Range;

/// The entries of one width of offsets.
#[rustfmt::skip]
pub trait Entries: Sized {
    fn list(op: u32, list: ListOf<Self>, arguments: [Values; 3], out: &mut ListOutOf<Self>) -> Result<ListCounts, Refusal>;
    fn lists(op: u32, left: ListOf<Self>, right: ListOf<Self>, out: &mut ListOutOf<Self>) -> Result<ListCounts, Refusal>;
    fn any_value(list: ListOf<Self>, out: &mut ValueOut) -> Result<ValueCounts, Refusal>;
    fn element(list: ListOf<Self>, index: Values, out: &mut ValueOut) -> Result<ValueCounts, Refusal>;
    fn list_repeat(list: ListOf<Self>, times: Values, out: &mut RepeatOutOf<Self>) -> Result<RepeatCounts, Refusal>;
    fn recipe(
        station: u32, numbers: &[u32], inputs: RecipeInputsOf<Self>,
        trays: &mut TraysOf<Self>, out: &mut ListOutOf<Self>, tally: &mut [u64; 32],
    ) -> Result<ListCounts, Refusal>;
    fn list_lengths(op: u32, list: ListOf<Self>, arguments: [Values; 3]) -> Result<ListLengths, Refusal>;
    fn lists_lengths(op: u32, left: ListOf<Self>, right: ListOf<Self>) -> Result<ListLengths, Refusal>;
    fn any_value_lengths(list: ListOf<Self>) -> Result<ValueLengths, Refusal>;
    fn element_lengths(list: ListOf<Self>, index: Values) -> Result<ValueLengths, Refusal>;
    fn list_repeat_lengths(list: ListOf<Self>, times: Values) -> Result<RepeatLengths, Refusal>;
    fn recipe_limits(
        numbers: &[u32], inputs: RecipeInputsOf<Self>,
    ) -> Result<RecipeLimits, Refusal>;
}

/// The counts of an accepted call, or the refusal.
fn told<const N: usize>(number: u32, counts: [u64; N]) -> Result<[u64; N], Refusal> {
    match number {
        0 => Ok(counts),
        number => Err(Refusal::of(number)),
    }
}

fn list_counts([rows, elements, null_rows, null_elements]: [u64; 4]) -> ListCounts {
    ListCounts { rows, elements, null_rows, null_elements }
}

fn value_counts([rows, null_rows]: [u64; 2]) -> ValueCounts {
    ValueCounts { rows, null_rows }
}

/// The lengths that an entry told, or the refusal. All of them fit: they are one more than the rows lent,
/// at most 2147483648, or, told by the entries of large lists where a `usize` has 64 bits, at most
/// 9223372036854775807.
fn told_lengths<const N: usize>(number: u32, lengths: [u64; N]) -> Result<[usize; N], Refusal> {
    let lengths = told(number, lengths)?;
    Ok(lengths.map(|length| usize::try_from(length).unwrap_or(usize::MAX)))
}

fn list_room([offsets, row_bytes, values, element_bytes]: [usize; 4]) -> ListLengths {
    ListLengths { offsets, row_bytes, values, element_bytes }
}

fn value_room([values, row_bytes]: [usize; 2]) -> ValueLengths {
    ValueLengths { values, row_bytes }
}

/// Declares the entries of one width by their names, and lets the type of an offset reach them.
macro_rules! entries {
    ($offset:ty:
        $list:ident $lists:ident $any_value:ident $element:ident $list_repeat:ident $recipe:ident
        $list_lengths:ident $lists_lengths:ident $any_value_lengths:ident $element_lengths:ident
        $list_repeat_lengths:ident $recipe_limits:ident) => {
        // Each declaration has a column, or a tray, to a line: offsets, row bitmap, values, element bitmap.
        extern "C" {
            fn $list(
                op: u32,
                offsets: *const $offset,
                _: usize,
                rows: *const u8,
                _: usize,
                rows_start: usize,
                values: *const i64,
                _: usize,
                elements: *const u8,
                _: usize,
                elements_start: usize,
                first: *const i64,
                _: usize,
                first_bits: *const u8,
                _: usize,
                first_start: usize,
                second: *const i64,
                _: usize,
                second_bits: *const u8,
                _: usize,
                second_start: usize,
                third: *const i64,
                _: usize,
                third_bits: *const u8,
                _: usize,
                third_start: usize,
                out_offsets: *mut $offset,
                _: usize,
                out_rows: *mut u8,
                _: usize,
                out_values: *mut i64,
                _: usize,
                out_elements: *mut u8,
                _: usize,
                counts: *mut u64,
                _: usize,
            ) -> u32;
            fn $lists(
                op: u32,
                l_offsets: *const $offset,
                _: usize,
                l_rows: *const u8,
                _: usize,
                l_rows_start: usize,
                l_values: *const i64,
                _: usize,
                l_elements: *const u8,
                _: usize,
                l_elements_start: usize,
                r_offsets: *const $offset,
                _: usize,
                r_rows: *const u8,
                _: usize,
                r_rows_start: usize,
                r_values: *const i64,
                _: usize,
                r_elements: *const u8,
                _: usize,
                r_elements_start: usize,
                out_offsets: *mut $offset,
                _: usize,
                out_rows: *mut u8,
                _: usize,
                out_values: *mut i64,
                _: usize,
                out_elements: *mut u8,
                _: usize,
                counts: *mut u64,
                _: usize,
            ) -> u32;
            fn $any_value(
                offsets: *const $offset,
                _: usize,
                rows: *const u8,
                _: usize,
                rows_start: usize,
                values: *const i64,
                _: usize,
                elements: *const u8,
                _: usize,
                elements_start: usize,
                out_values: *mut i64,
                _: usize,
                out_rows: *mut u8,
                _: usize,
                counts: *mut u64,
                _: usize,
            ) -> u32;
            fn $element(
                offsets: *const $offset,
                _: usize,
                rows: *const u8,
                _: usize,
                rows_start: usize,
                values: *const i64,
                _: usize,
                elements: *const u8,
                _: usize,
                elements_start: usize,
                indexes: *const i64,
                _: usize,
                index_bits: *const u8,
                _: usize,
                index_start: usize,
                out_values: *mut i64,
                _: usize,
                out_rows: *mut u8,
                _: usize,
                counts: *mut u64,
                _: usize,
            ) -> u32;
            fn $list_repeat(
                offsets: *const $offset,
                _: usize,
                rows: *const u8,
                _: usize,
                rows_start: usize,
                values: *const i64,
                _: usize,
                elements: *const u8,
                _: usize,
                elements_start: usize,
                times: *const i64,
                _: usize,
                times_bits: *const u8,
                _: usize,
                times_start: usize,
                out_offsets: *mut $offset,
                _: usize,
                out_rows: *mut u8,
                _: usize,
                inner_offsets: *mut $offset,
                _: usize,
                inner_rows: *mut u8,
                _: usize,
                out_values: *mut i64,
                _: usize,
                out_elements: *mut u8,
                _: usize,
                counts: *mut u64,
                _: usize,
            ) -> u32;
            fn $recipe(
                station: u32,
                numbers: *const u32,
                _: usize,
                columns: usize,
                offsets: *const $offset,
                _: usize,
                rows: *const u8,
                _: usize,
                rows_start: usize,
                values: *const i64,
                _: usize,
                elements: *const u8,
                _: usize,
                elements_start: usize,
                second_offsets: *const $offset,
                _: usize,
                second_rows: *const u8,
                _: usize,
                second_rows_start: usize,
                second_values: *const i64,
                _: usize,
                second_elements: *const u8,
                _: usize,
                second_elements_start: usize,
                arguments: *const i64,
                _: usize,
                argument_bits: *const u8,
                _: usize,
                argument_start: usize,
                one_offsets: *mut $offset,
                _: usize,
                one_rows: *mut u8,
                _: usize,
                one_values: *mut i64,
                _: usize,
                one_elements: *mut u8,
                _: usize,
                two_offsets: *mut $offset,
                _: usize,
                two_rows: *mut u8,
                _: usize,
                two_values: *mut i64,
                _: usize,
                two_elements: *mut u8,
                _: usize,
                out_offsets: *mut $offset,
                _: usize,
                out_rows: *mut u8,
                _: usize,
                out_values: *mut i64,
                _: usize,
                out_elements: *mut u8,
                _: usize,
                counts: *mut u64,
                _: usize,
                tally: *mut u64,
                _: usize,
            ) -> u32;
            // How much to lend for each of these: they take the same, but no outputs, and lengths in place of counts.
            fn $list_lengths(
                op: u32,
                offsets: *const $offset,
                _: usize,
                rows: *const u8,
                _: usize,
                rows_start: usize,
                values: *const i64,
                _: usize,
                elements: *const u8,
                _: usize,
                elements_start: usize,
                first: *const i64,
                _: usize,
                first_bits: *const u8,
                _: usize,
                first_start: usize,
                second: *const i64,
                _: usize,
                second_bits: *const u8,
                _: usize,
                second_start: usize,
                third: *const i64,
                _: usize,
                third_bits: *const u8,
                _: usize,
                third_start: usize,
                lengths: *mut u64,
                _: usize,
            ) -> u32;
            fn $lists_lengths(
                op: u32,
                l_offsets: *const $offset,
                _: usize,
                l_rows: *const u8,
                _: usize,
                l_rows_start: usize,
                l_values: *const i64,
                _: usize,
                l_elements: *const u8,
                _: usize,
                l_elements_start: usize,
                r_offsets: *const $offset,
                _: usize,
                r_rows: *const u8,
                _: usize,
                r_rows_start: usize,
                r_values: *const i64,
                _: usize,
                r_elements: *const u8,
                _: usize,
                r_elements_start: usize,
                lengths: *mut u64,
                _: usize,
            ) -> u32;
            fn $any_value_lengths(
                offsets: *const $offset,
                _: usize,
                rows: *const u8,
                _: usize,
                rows_start: usize,
                values: *const i64,
                _: usize,
                elements: *const u8,
                _: usize,
                elements_start: usize,
                lengths: *mut u64,
                _: usize,
            ) -> u32;
            fn $element_lengths(
                offsets: *const $offset,
                _: usize,
                rows: *const u8,
                _: usize,
                rows_start: usize,
                values: *const i64,
                _: usize,
                elements: *const u8,
                _: usize,
                elements_start: usize,
                indexes: *const i64,
                _: usize,
                index_bits: *const u8,
                _: usize,
                index_start: usize,
                lengths: *mut u64,
                _: usize,
            ) -> u32;
            fn $list_repeat_lengths(
                offsets: *const $offset,
                _: usize,
                rows: *const u8,
                _: usize,
                rows_start: usize,
                values: *const i64,
                _: usize,
                elements: *const u8,
                _: usize,
                elements_start: usize,
                times: *const i64,
                _: usize,
                times_bits: *const u8,
                _: usize,
                times_start: usize,
                lengths: *mut u64,
                _: usize,
            ) -> u32;
            fn $recipe_limits(
                numbers: *const u32,
                _: usize,
                columns: usize,
                offsets: *const $offset,
                _: usize,
                rows: *const u8,
                _: usize,
                rows_start: usize,
                values: *const i64,
                _: usize,
                elements: *const u8,
                _: usize,
                elements_start: usize,
                second_offsets: *const $offset,
                _: usize,
                second_rows: *const u8,
                _: usize,
                second_rows_start: usize,
                second_values: *const i64,
                _: usize,
                second_elements: *const u8,
                _: usize,
                second_elements_start: usize,
                arguments: *const i64,
                _: usize,
                argument_bits: *const u8,
                _: usize,
                argument_start: usize,
                limits: *mut u64,
                _: usize,
            ) -> u32;
        }

        // SAFETY, of every block below: each pointer stands before the length of the slice that it comes from, a
        // shared borrow for an input and a mutable one for an output, and the borrows outlive the call.
        impl Entries for $offset {
            fn list(
                op: u32,
                list: ListOf<$offset>,
                [first, second, third]: [Values; 3],
                out: &mut ListOutOf<$offset>,
            ) -> Result<ListCounts, Refusal> {
                let mut counts = [0; 4];
                let number = unsafe {
                    $list(
                        op,
                        list.offsets.as_ptr(),
                        list.offsets.len(),
                        list.rows.bytes.as_ptr(),
                        list.rows.bytes.len(),
                        list.rows.start,
                        list.values.as_ptr(),
                        list.values.len(),
                        list.elements.bytes.as_ptr(),
                        list.elements.bytes.len(),
                        list.elements.start,
                        first.values.as_ptr(),
                        first.values.len(),
                        first.valid.bytes.as_ptr(),
                        first.valid.bytes.len(),
                        first.valid.start,
                        second.values.as_ptr(),
                        second.values.len(),
                        second.valid.bytes.as_ptr(),
                        second.valid.bytes.len(),
                        second.valid.start,
                        third.values.as_ptr(),
                        third.values.len(),
                        third.valid.bytes.as_ptr(),
                        third.valid.bytes.len(),
                        third.valid.start,
                        out.offsets.as_mut_ptr(),
                        out.offsets.len(),
                        out.rows.as_mut_ptr(),
                        out.rows.len(),
                        out.values.as_mut_ptr(),
                        out.values.len(),
                        out.elements.as_mut_ptr(),
                        out.elements.len(),
                        counts.as_mut_ptr(),
                        counts.len(),
                    )
                };
                told(number, counts).map(list_counts)
            }

            fn lists(
                op: u32,
                left: ListOf<$offset>,
                right: ListOf<$offset>,
                out: &mut ListOutOf<$offset>,
            ) -> Result<ListCounts, Refusal> {
                let mut counts = [0; 4];
                let number = unsafe {
                    $lists(
                        op,
                        left.offsets.as_ptr(),
                        left.offsets.len(),
                        left.rows.bytes.as_ptr(),
                        left.rows.bytes.len(),
                        left.rows.start,
                        left.values.as_ptr(),
                        left.values.len(),
                        left.elements.bytes.as_ptr(),
                        left.elements.bytes.len(),
                        left.elements.start,
                        right.offsets.as_ptr(),
                        right.offsets.len(),
                        right.rows.bytes.as_ptr(),
                        right.rows.bytes.len(),
                        right.rows.start,
                        right.values.as_ptr(),
                        right.values.len(),
                        right.elements.bytes.as_ptr(),
                        right.elements.bytes.len(),
                        right.elements.start,
                        out.offsets.as_mut_ptr(),
                        out.offsets.len(),
                        out.rows.as_mut_ptr(),
                        out.rows.len(),
                        out.values.as_mut_ptr(),
                        out.values.len(),
                        out.elements.as_mut_ptr(),
                        out.elements.len(),
                        counts.as_mut_ptr(),
                        counts.len(),
                    )
                };
                told(number, counts).map(list_counts)
            }

            fn any_value(
                list: ListOf<$offset>,
                out: &mut ValueOut,
            ) -> Result<ValueCounts, Refusal> {
                let mut counts = [0; 2];
                let number = unsafe {
                    $any_value(
                        list.offsets.as_ptr(),
                        list.offsets.len(),
                        list.rows.bytes.as_ptr(),
                        list.rows.bytes.len(),
                        list.rows.start,
                        list.values.as_ptr(),
                        list.values.len(),
                        list.elements.bytes.as_ptr(),
                        list.elements.bytes.len(),
                        list.elements.start,
                        out.values.as_mut_ptr(),
                        out.values.len(),
                        out.rows.as_mut_ptr(),
                        out.rows.len(),
                        counts.as_mut_ptr(),
                        counts.len(),
                    )
                };
                told(number, counts).map(value_counts)
            }

            fn element(
                list: ListOf<$offset>,
                index: Values,
                out: &mut ValueOut,
            ) -> Result<ValueCounts, Refusal> {
                let mut counts = [0; 2];
                let number = unsafe {
                    $element(
                        list.offsets.as_ptr(),
                        list.offsets.len(),
                        list.rows.bytes.as_ptr(),
                        list.rows.bytes.len(),
                        list.rows.start,
                        list.values.as_ptr(),
                        list.values.len(),
                        list.elements.bytes.as_ptr(),
                        list.elements.bytes.len(),
                        list.elements.start,
                        index.values.as_ptr(),
                        index.values.len(),
                        index.valid.bytes.as_ptr(),
                        index.valid.bytes.len(),
                        index.valid.start,
                        out.values.as_mut_ptr(),
                        out.values.len(),
                        out.rows.as_mut_ptr(),
                        out.rows.len(),
                        counts.as_mut_ptr(),
                        counts.len(),
                    )
                };
                told(number, counts).map(value_counts)
            }

            fn list_repeat(
                list: ListOf<$offset>,
                times: Values,
                out: &mut RepeatOutOf<$offset>,
            ) -> Result<RepeatCounts, Refusal> {
                let mut counts = [0; 6];
                let number = unsafe {
                    $list_repeat(
                        list.offsets.as_ptr(),
                        list.offsets.len(),
                        list.rows.bytes.as_ptr(),
                        list.rows.bytes.len(),
                        list.rows.start,
                        list.values.as_ptr(),
                        list.values.len(),
                        list.elements.bytes.as_ptr(),
                        list.elements.bytes.len(),
                        list.elements.start,
                        times.values.as_ptr(),
                        times.values.len(),
                        times.valid.bytes.as_ptr(),
                        times.valid.bytes.len(),
                        times.valid.start,
                        out.offsets.as_mut_ptr(),
                        out.offsets.len(),
                        out.rows.as_mut_ptr(),
                        out.rows.len(),
                        out.inner_offsets.as_mut_ptr(),
                        out.inner_offsets.len(),
                        out.inner_rows.as_mut_ptr(),
                        out.inner_rows.len(),
                        out.values.as_mut_ptr(),
                        out.values.len(),
                        out.elements.as_mut_ptr(),
                        out.elements.len(),
                        counts.as_mut_ptr(),
                        counts.len(),
                    )
                };
                let [rows, elements, null_rows, null_elements, inner_rows, null_inner_rows] =
                    told(number, counts)?;
                Ok(RepeatCounts {
                    rows,
                    elements,
                    null_rows,
                    null_elements,
                    inner_rows,
                    null_inner_rows,
                })
            }

            fn recipe(
                station: u32,
                numbers: &[u32],
                RecipeInputsOf { list, second, columns, arguments }: RecipeInputsOf<$offset>,
                TraysOf { one, two }: &mut TraysOf<$offset>,
                out: &mut ListOutOf<$offset>,
                tally: &mut [u64; 32],
            ) -> Result<ListCounts, Refusal> {
                let mut counts = [0; 4];
                let number = unsafe {
                    $recipe(
                        station,
                        numbers.as_ptr(),
                        numbers.len(),
                        columns,
                        list.offsets.as_ptr(),
                        list.offsets.len(),
                        list.rows.bytes.as_ptr(),
                        list.rows.bytes.len(),
                        list.rows.start,
                        list.values.as_ptr(),
                        list.values.len(),
                        list.elements.bytes.as_ptr(),
                        list.elements.bytes.len(),
                        list.elements.start,
                        second.offsets.as_ptr(),
                        second.offsets.len(),
                        second.rows.bytes.as_ptr(),
                        second.rows.bytes.len(),
                        second.rows.start,
                        second.values.as_ptr(),
                        second.values.len(),
                        second.elements.bytes.as_ptr(),
                        second.elements.bytes.len(),
                        second.elements.start,
                        arguments.values.as_ptr(),
                        arguments.values.len(),
                        arguments.valid.bytes.as_ptr(),
                        arguments.valid.bytes.len(),
                        arguments.valid.start,
                        one.offsets.as_mut_ptr(),
                        one.offsets.len(),
                        one.rows.as_mut_ptr(),
                        one.rows.len(),
                        one.values.as_mut_ptr(),
                        one.values.len(),
                        one.elements.as_mut_ptr(),
                        one.elements.len(),
                        two.offsets.as_mut_ptr(),
                        two.offsets.len(),
                        two.rows.as_mut_ptr(),
                        two.rows.len(),
                        two.values.as_mut_ptr(),
                        two.values.len(),
                        two.elements.as_mut_ptr(),
                        two.elements.len(),
                        out.offsets.as_mut_ptr(),
                        out.offsets.len(),
                        out.rows.as_mut_ptr(),
                        out.rows.len(),
                        out.values.as_mut_ptr(),
                        out.values.len(),
                        out.elements.as_mut_ptr(),
                        out.elements.len(),
                        counts.as_mut_ptr(),
                        counts.len(),
                        tally.as_mut_ptr(),
                        tally.len(),
                    )
                };
                told(number, counts).map(list_counts)
            }

            fn list_lengths(
                op: u32,
                list: ListOf<$offset>,
                [first, second, third]: [Values; 3],
            ) -> Result<ListLengths, Refusal> {
                let mut lengths = [0; 4];
                let number = unsafe {
                    $list_lengths(
                        op,
                        list.offsets.as_ptr(),
                        list.offsets.len(),
                        list.rows.bytes.as_ptr(),
                        list.rows.bytes.len(),
                        list.rows.start,
                        list.values.as_ptr(),
                        list.values.len(),
                        list.elements.bytes.as_ptr(),
                        list.elements.bytes.len(),
                        list.elements.start,
                        first.values.as_ptr(),
                        first.values.len(),
                        first.valid.bytes.as_ptr(),
                        first.valid.bytes.len(),
                        first.valid.start,
                        second.values.as_ptr(),
                        second.values.len(),
                        second.valid.bytes.as_ptr(),
                        second.valid.bytes.len(),
                        second.valid.start,
                        third.values.as_ptr(),
                        third.values.len(),
                        third.valid.bytes.as_ptr(),
                        third.valid.bytes.len(),
                        third.valid.start,
                        lengths.as_mut_ptr(),
                        lengths.len(),
                    )
                };
                told_lengths(number, lengths).map(list_room)
            }

            fn lists_lengths(
                op: u32,
                left: ListOf<$offset>,
                right: ListOf<$offset>,
            ) -> Result<ListLengths, Refusal> {
                let mut lengths = [0; 4];
                let number = unsafe {
                    $lists_lengths(
                        op,
                        left.offsets.as_ptr(),
                        left.offsets.len(),
                        left.rows.bytes.as_ptr(),
                        left.rows.bytes.len(),
                        left.rows.start,
                        left.values.as_ptr(),
                        left.values.len(),
                        left.elements.bytes.as_ptr(),
                        left.elements.bytes.len(),
                        left.elements.start,
                        right.offsets.as_ptr(),
                        right.offsets.len(),
                        right.rows.bytes.as_ptr(),
                        right.rows.bytes.len(),
                        right.rows.start,
                        right.values.as_ptr(),
                        right.values.len(),
                        right.elements.bytes.as_ptr(),
                        right.elements.bytes.len(),
                        right.elements.start,
                        lengths.as_mut_ptr(),
                        lengths.len(),
                    )
                };
                told_lengths(number, lengths).map(list_room)
            }

            fn any_value_lengths(list: ListOf<$offset>) -> Result<ValueLengths, Refusal> {
                let mut lengths = [0; 2];
                let number = unsafe {
                    $any_value_lengths(
                        list.offsets.as_ptr(),
                        list.offsets.len(),
                        list.rows.bytes.as_ptr(),
                        list.rows.bytes.len(),
                        list.rows.start,
                        list.values.as_ptr(),
                        list.values.len(),
                        list.elements.bytes.as_ptr(),
                        list.elements.bytes.len(),
                        list.elements.start,
                        lengths.as_mut_ptr(),
                        lengths.len(),
                    )
                };
                told_lengths(number, lengths).map(value_room)
            }

            fn element_lengths(
                list: ListOf<$offset>,
                index: Values,
            ) -> Result<ValueLengths, Refusal> {
                let mut lengths = [0; 2];
                let number = unsafe {
                    $element_lengths(
                        list.offsets.as_ptr(),
                        list.offsets.len(),
                        list.rows.bytes.as_ptr(),
                        list.rows.bytes.len(),
                        list.rows.start,
                        list.values.as_ptr(),
                        list.values.len(),
                        list.elements.bytes.as_ptr(),
                        list.elements.bytes.len(),
                        list.elements.start,
                        index.values.as_ptr(),
                        index.values.len(),
                        index.valid.bytes.as_ptr(),
                        index.valid.bytes.len(),
                        index.valid.start,
                        lengths.as_mut_ptr(),
                        lengths.len(),
                    )
                };
                told_lengths(number, lengths).map(value_room)
            }

            fn list_repeat_lengths(
                list: ListOf<$offset>,
                times: Values,
            ) -> Result<RepeatLengths, Refusal> {
                let mut lengths = [0; 6];
                let number = unsafe {
                    $list_repeat_lengths(
                        list.offsets.as_ptr(),
                        list.offsets.len(),
                        list.rows.bytes.as_ptr(),
                        list.rows.bytes.len(),
                        list.rows.start,
                        list.values.as_ptr(),
                        list.values.len(),
                        list.elements.bytes.as_ptr(),
                        list.elements.bytes.len(),
                        list.elements.start,
                        times.values.as_ptr(),
                        times.values.len(),
                        times.valid.bytes.as_ptr(),
                        times.valid.bytes.len(),
                        times.valid.start,
                        lengths.as_mut_ptr(),
                        lengths.len(),
                    )
                };
                let [offsets, row_bytes, inner_offsets, inner_row_bytes, values, element_bytes] =
                    told_lengths(number, lengths)?;
                Ok(RepeatLengths {
                    offsets,
                    row_bytes,
                    inner_offsets,
                    inner_row_bytes,
                    values,
                    element_bytes,
                })
            }

            fn recipe_limits(
                numbers: &[u32],
                RecipeInputsOf { list, second, columns, arguments }: RecipeInputsOf<$offset>,
            ) -> Result<RecipeLimits, Refusal> {
                let mut limits = [0; 3];
                let number = unsafe {
                    $recipe_limits(
                        numbers.as_ptr(),
                        numbers.len(),
                        columns,
                        list.offsets.as_ptr(),
                        list.offsets.len(),
                        list.rows.bytes.as_ptr(),
                        list.rows.bytes.len(),
                        list.rows.start,
                        list.values.as_ptr(),
                        list.values.len(),
                        list.elements.bytes.as_ptr(),
                        list.elements.bytes.len(),
                        list.elements.start,
                        second.offsets.as_ptr(),
                        second.offsets.len(),
                        second.rows.bytes.as_ptr(),
                        second.rows.bytes.len(),
                        second.rows.start,
                        second.values.as_ptr(),
                        second.values.len(),
                        second.elements.bytes.as_ptr(),
                        second.elements.bytes.len(),
                        second.elements.start,
                        arguments.values.as_ptr(),
                        arguments.values.len(),
                        arguments.valid.bytes.as_ptr(),
                        arguments.valid.bytes.len(),
                        arguments.valid.start,
                        limits.as_mut_ptr(),
                        limits.len(),
                    )
                };
                let [one, two, output] = told_lengths(number, limits)?;
                Ok(RecipeLimits { one, two, output })
            }
        }
    };
}

entries!(
    i32:
    duthlan_typed_list duthlan_typed_lists duthlan_typed_any_value duthlan_typed_element
    duthlan_typed_list_repeat duthlan_typed_recipe
    duthlan_typed_list_lengths duthlan_typed_lists_lengths duthlan_typed_any_value_lengths
    duthlan_typed_element_lengths duthlan_typed_list_repeat_lengths duthlan_typed_recipe_limits
);

#[cfg(feature = "large")]
entries!(
    i64:
    duthlan_large_list duthlan_large_lists duthlan_large_any_value duthlan_large_element
    duthlan_large_list_repeat duthlan_large_recipe
    duthlan_large_list_lengths duthlan_large_lists_lengths duthlan_large_any_value_lengths
    duthlan_large_element_lengths duthlan_large_list_repeat_lengths duthlan_large_recipe_limits
);

extern "C" {
    fn duthlan_typed_grade(
        k: u64,
        offsets: *const i32,
        _: usize,
        rows: *const u8,
        _: usize,
        rows_start: usize,
        values: *const i64,
        _: usize,
        elements: *const u8,
        _: usize,
        elements_start: usize,
        grades: *mut u8,
        _: usize,
        counts: *mut u64,
        _: usize,
    ) -> u32;
    fn duthlan_typed_grade_recipe(
        k: u64,
        station: u32,
        numbers: *const u32,
        _: usize,
        columns: usize,
        offsets: *const i32,
        _: usize,
        rows: *const u8,
        _: usize,
        rows_start: usize,
        values: *const i64,
        _: usize,
        elements: *const u8,
        _: usize,
        elements_start: usize,
        second_offsets: *const i32,
        _: usize,
        second_rows: *const u8,
        _: usize,
        second_rows_start: usize,
        second_values: *const i64,
        _: usize,
        second_elements: *const u8,
        _: usize,
        second_elements_start: usize,
        arguments: *const i64,
        _: usize,
        argument_bits: *const u8,
        _: usize,
        argument_start: usize,
        one_offsets: *mut i32,
        _: usize,
        one_rows: *mut u8,
        _: usize,
        one_values: *mut i64,
        _: usize,
        one_elements: *mut u8,
        _: usize,
        two_offsets: *mut i32,
        _: usize,
        two_rows: *mut u8,
        _: usize,
        two_values: *mut i64,
        _: usize,
        two_elements: *mut u8,
        _: usize,
        out_offsets: *mut i32,
        _: usize,
        out_rows: *mut u8,
        _: usize,
        out_values: *mut i64,
        _: usize,
        out_elements: *mut u8,
        _: usize,
        grades: *mut u8,
        _: usize,
        counts: *mut u64,
        _: usize,
        tally: *mut u64,
        _: usize,
    ) -> u32;
}

// SAFETY, of both blocks: as above.

pub fn grade(k: u64, list: ListOf<i32>, grades: &mut [u8]) -> Result<u64, Refusal> {
    let mut counts = [0; 1];
    let number = unsafe {
        duthlan_typed_grade(
            k,
            list.offsets.as_ptr(),
            list.offsets.len(),
            list.rows.bytes.as_ptr(),
            list.rows.bytes.len(),
            list.rows.start,
            list.values.as_ptr(),
            list.values.len(),
            list.elements.bytes.as_ptr(),
            list.elements.bytes.len(),
            list.elements.start,
            grades.as_mut_ptr(),
            grades.len(),
            counts.as_mut_ptr(),
            counts.len(),
        )
    };
    told(number, counts).map(|[rows]| rows)
}

#[allow(clippy::too_many_arguments)]
pub fn grade_recipe(
    k: u64,
    station: u32,
    numbers: &[u32],
    inputs: RecipeInputsOf<i32>,
    trays: &mut TraysOf<i32>,
    out: &mut ListOutOf<i32>,
    grades: &mut [u8],
    tally: &mut [u64; 32],
) -> Result<ListCounts, Refusal> {
    let RecipeInputsOf { list, second, columns, arguments } = inputs;
    let TraysOf { one, two } = trays;
    let mut counts = [0; 4];
    let number = unsafe {
        duthlan_typed_grade_recipe(
            k,
            station,
            numbers.as_ptr(),
            numbers.len(),
            columns,
            list.offsets.as_ptr(),
            list.offsets.len(),
            list.rows.bytes.as_ptr(),
            list.rows.bytes.len(),
            list.rows.start,
            list.values.as_ptr(),
            list.values.len(),
            list.elements.bytes.as_ptr(),
            list.elements.bytes.len(),
            list.elements.start,
            second.offsets.as_ptr(),
            second.offsets.len(),
            second.rows.bytes.as_ptr(),
            second.rows.bytes.len(),
            second.rows.start,
            second.values.as_ptr(),
            second.values.len(),
            second.elements.bytes.as_ptr(),
            second.elements.bytes.len(),
            second.elements.start,
            arguments.values.as_ptr(),
            arguments.values.len(),
            arguments.valid.bytes.as_ptr(),
            arguments.valid.bytes.len(),
            arguments.valid.start,
            one.offsets.as_mut_ptr(),
            one.offsets.len(),
            one.rows.as_mut_ptr(),
            one.rows.len(),
            one.values.as_mut_ptr(),
            one.values.len(),
            one.elements.as_mut_ptr(),
            one.elements.len(),
            two.offsets.as_mut_ptr(),
            two.offsets.len(),
            two.rows.as_mut_ptr(),
            two.rows.len(),
            two.values.as_mut_ptr(),
            two.values.len(),
            two.elements.as_mut_ptr(),
            two.elements.len(),
            out.offsets.as_mut_ptr(),
            out.offsets.len(),
            out.rows.as_mut_ptr(),
            out.rows.len(),
            out.values.as_mut_ptr(),
            out.values.len(),
            out.elements.as_mut_ptr(),
            out.elements.len(),
            grades.as_mut_ptr(),
            grades.len(),
            counts.as_mut_ptr(),
            counts.len(),
            tally.as_mut_ptr(),
            tally.len(),
        )
    };
    told(number, counts).map(list_counts)
}

extern "C" {
    fn duthlan_typed_import_view(
        offsets: *const i32,
        _: usize,
        sizes: *const i32,
        _: usize,
        rows: *const u8,
        _: usize,
        rows_start: usize,
        values: *const i64,
        _: usize,
        elements: *const u8,
        _: usize,
        elements_start: usize,
        out_offsets: *mut i32,
        _: usize,
        out_rows: *mut u8,
        _: usize,
        out_values: *mut i64,
        _: usize,
        out_elements: *mut u8,
        _: usize,
        counts: *mut u64,
        _: usize,
    ) -> u32;
    fn duthlan_typed_export_view(
        offsets: *const i32,
        _: usize,
        rows: *const u8,
        _: usize,
        rows_start: usize,
        values: *const i64,
        _: usize,
        elements: *const u8,
        _: usize,
        elements_start: usize,
        out_offsets: *mut i32,
        _: usize,
        out_sizes: *mut i32,
        _: usize,
        out_rows: *mut u8,
        _: usize,
        out_values: *mut i64,
        _: usize,
        out_elements: *mut u8,
        _: usize,
        counts: *mut u64,
        _: usize,
    ) -> u32;
    fn duthlan_typed_distinct_hashed(
        offsets: *const i32,
        _: usize,
        rows: *const u8,
        _: usize,
        rows_start: usize,
        values: *const i64,
        _: usize,
        elements: *const u8,
        _: usize,
        elements_start: usize,
        out_offsets: *mut i32,
        _: usize,
        out_rows: *mut u8,
        _: usize,
        out_values: *mut i64,
        _: usize,
        out_elements: *mut u8,
        _: usize,
        area: *mut u32,
        _: usize,
        counts: *mut u64,
        _: usize,
    ) -> u32;
    fn duthlan_typed_lists_hashed(
        op: u32,
        l_offsets: *const i32,
        _: usize,
        l_rows: *const u8,
        _: usize,
        l_rows_start: usize,
        l_values: *const i64,
        _: usize,
        l_elements: *const u8,
        _: usize,
        l_elements_start: usize,
        r_offsets: *const i32,
        _: usize,
        r_rows: *const u8,
        _: usize,
        r_rows_start: usize,
        r_values: *const i64,
        _: usize,
        r_elements: *const u8,
        _: usize,
        r_elements_start: usize,
        out_offsets: *mut i32,
        _: usize,
        out_rows: *mut u8,
        _: usize,
        out_values: *mut i64,
        _: usize,
        out_elements: *mut u8,
        _: usize,
        area: *mut u32,
        _: usize,
        counts: *mut u64,
        _: usize,
    ) -> u32;
    fn duthlan_typed_recipe_rows(
        begin: usize,
        end: usize,
        numbers: *const u32,
        _: usize,
        columns: usize,
        offsets: *const i32,
        _: usize,
        rows: *const u8,
        _: usize,
        rows_start: usize,
        values: *const i64,
        _: usize,
        elements: *const u8,
        _: usize,
        elements_start: usize,
        second_offsets: *const i32,
        _: usize,
        second_rows: *const u8,
        _: usize,
        second_rows_start: usize,
        second_values: *const i64,
        _: usize,
        second_elements: *const u8,
        _: usize,
        second_elements_start: usize,
        arguments: *const i64,
        _: usize,
        argument_bits: *const u8,
        _: usize,
        argument_start: usize,
        one_offsets: *mut i32,
        _: usize,
        one_rows: *mut u8,
        _: usize,
        one_values: *mut i64,
        _: usize,
        one_elements: *mut u8,
        _: usize,
        two_offsets: *mut i32,
        _: usize,
        two_rows: *mut u8,
        _: usize,
        two_values: *mut i64,
        _: usize,
        two_elements: *mut u8,
        _: usize,
        out_offsets: *mut i32,
        _: usize,
        out_rows: *mut u8,
        _: usize,
        out_values: *mut i64,
        _: usize,
        out_elements: *mut u8,
        _: usize,
        counts: *mut u64,
        _: usize,
    ) -> u32;
}

// SAFETY, of all blocks: as above.

pub fn import_view(view: View, out: &mut ListOutOf<i32>) -> Result<ListCounts, Refusal> {
    let mut counts = [0; 4];
    let number = unsafe {
        duthlan_typed_import_view(
            view.offsets.as_ptr(),
            view.offsets.len(),
            view.sizes.as_ptr(),
            view.sizes.len(),
            view.rows.bytes.as_ptr(),
            view.rows.bytes.len(),
            view.rows.start,
            view.values.as_ptr(),
            view.values.len(),
            view.elements.bytes.as_ptr(),
            view.elements.bytes.len(),
            view.elements.start,
            out.offsets.as_mut_ptr(),
            out.offsets.len(),
            out.rows.as_mut_ptr(),
            out.rows.len(),
            out.values.as_mut_ptr(),
            out.values.len(),
            out.elements.as_mut_ptr(),
            out.elements.len(),
            counts.as_mut_ptr(),
            counts.len(),
        )
    };
    told(number, counts).map(list_counts)
}

pub fn export_view(list: ListOf<i32>, out: &mut ViewOut) -> Result<ListCounts, Refusal> {
    let mut counts = [0; 4];
    let number = unsafe {
        duthlan_typed_export_view(
            list.offsets.as_ptr(),
            list.offsets.len(),
            list.rows.bytes.as_ptr(),
            list.rows.bytes.len(),
            list.rows.start,
            list.values.as_ptr(),
            list.values.len(),
            list.elements.bytes.as_ptr(),
            list.elements.bytes.len(),
            list.elements.start,
            out.offsets.as_mut_ptr(),
            out.offsets.len(),
            out.sizes.as_mut_ptr(),
            out.sizes.len(),
            out.rows.as_mut_ptr(),
            out.rows.len(),
            out.values.as_mut_ptr(),
            out.values.len(),
            out.elements.as_mut_ptr(),
            out.elements.len(),
            counts.as_mut_ptr(),
            counts.len(),
        )
    };
    told(number, counts).map(list_counts)
}

pub fn recipe_rows(
    Range { start: begin, end }: Range<usize>,
    numbers: &[u32],
    RecipeInputsOf { list, second, columns, arguments }: RecipeInputsOf<i32>,
    TraysOf { one, two }: &mut TraysOf<i32>,
    out: &mut ListOutOf<i32>,
) -> Result<ListCounts, Refusal> {
    let mut counts = [0; 4];
    let number = unsafe {
        duthlan_typed_recipe_rows(
            begin,
            end,
            numbers.as_ptr(),
            numbers.len(),
            columns,
            list.offsets.as_ptr(),
            list.offsets.len(),
            list.rows.bytes.as_ptr(),
            list.rows.bytes.len(),
            list.rows.start,
            list.values.as_ptr(),
            list.values.len(),
            list.elements.bytes.as_ptr(),
            list.elements.bytes.len(),
            list.elements.start,
            second.offsets.as_ptr(),
            second.offsets.len(),
            second.rows.bytes.as_ptr(),
            second.rows.bytes.len(),
            second.rows.start,
            second.values.as_ptr(),
            second.values.len(),
            second.elements.bytes.as_ptr(),
            second.elements.bytes.len(),
            second.elements.start,
            arguments.values.as_ptr(),
            arguments.values.len(),
            arguments.valid.bytes.as_ptr(),
            arguments.valid.bytes.len(),
            arguments.valid.start,
            one.offsets.as_mut_ptr(),
            one.offsets.len(),
            one.rows.as_mut_ptr(),
            one.rows.len(),
            one.values.as_mut_ptr(),
            one.values.len(),
            one.elements.as_mut_ptr(),
            one.elements.len(),
            two.offsets.as_mut_ptr(),
            two.offsets.len(),
            two.rows.as_mut_ptr(),
            two.rows.len(),
            two.values.as_mut_ptr(),
            two.values.len(),
            two.elements.as_mut_ptr(),
            two.elements.len(),
            out.offsets.as_mut_ptr(),
            out.offsets.len(),
            out.rows.as_mut_ptr(),
            out.rows.len(),
            out.values.as_mut_ptr(),
            out.values.len(),
            out.elements.as_mut_ptr(),
            out.elements.len(),
            counts.as_mut_ptr(),
            counts.len(),
        )
    };
    told(number, counts).map(list_counts)
}

pub fn distinct_hashed(
    list: ListOf<i32>,
    area: &mut [u32],
    out: &mut ListOutOf<i32>,
) -> Result<ListCounts, Refusal> {
    let mut counts = [0; 4];
    let number = unsafe {
        duthlan_typed_distinct_hashed(
            list.offsets.as_ptr(),
            list.offsets.len(),
            list.rows.bytes.as_ptr(),
            list.rows.bytes.len(),
            list.rows.start,
            list.values.as_ptr(),
            list.values.len(),
            list.elements.bytes.as_ptr(),
            list.elements.bytes.len(),
            list.elements.start,
            out.offsets.as_mut_ptr(),
            out.offsets.len(),
            out.rows.as_mut_ptr(),
            out.rows.len(),
            out.values.as_mut_ptr(),
            out.values.len(),
            out.elements.as_mut_ptr(),
            out.elements.len(),
            area.as_mut_ptr(),
            area.len(),
            counts.as_mut_ptr(),
            counts.len(),
        )
    };
    told(number, counts).map(list_counts)
}

pub fn lists_hashed(
    op: u32,
    left: ListOf<i32>,
    right: ListOf<i32>,
    area: &mut [u32],
    out: &mut ListOutOf<i32>,
) -> Result<ListCounts, Refusal> {
    let mut counts = [0; 4];
    let number = unsafe {
        duthlan_typed_lists_hashed(
            op,
            left.offsets.as_ptr(),
            left.offsets.len(),
            left.rows.bytes.as_ptr(),
            left.rows.bytes.len(),
            left.rows.start,
            left.values.as_ptr(),
            left.values.len(),
            left.elements.bytes.as_ptr(),
            left.elements.bytes.len(),
            left.elements.start,
            right.offsets.as_ptr(),
            right.offsets.len(),
            right.rows.bytes.as_ptr(),
            right.rows.bytes.len(),
            right.rows.start,
            right.values.as_ptr(),
            right.values.len(),
            right.elements.bytes.as_ptr(),
            right.elements.bytes.len(),
            right.elements.start,
            out.offsets.as_mut_ptr(),
            out.offsets.len(),
            out.rows.as_mut_ptr(),
            out.rows.len(),
            out.values.as_mut_ptr(),
            out.values.len(),
            out.elements.as_mut_ptr(),
            out.elements.len(),
            area.as_mut_ptr(),
            area.len(),
            counts.as_mut_ptr(),
            counts.len(),
        )
    };
    told(number, counts).map(list_counts)
}
