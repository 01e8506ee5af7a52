//! The port's typed C entries behind safe functions, those of large lists, of ListView columns, of
//! recipes over some of their rows and of operations with a work area too.
//!
//! A slice passes as a pointer and a length in numbers, a bitmap of a column with its starting bit
//! behind them. The entries demand of their caller what the byte entries do, and that each pointer is
//! aligned for its numbers; Rust's slices give all of it, empty ones too.

use crate::typed::{Hashed, List, Recipe, Room, RowsOfRecipe, View, ViewRoom, Views, Windows};
use crate::windows::Window;

#[link(name = "duthlan", kind = "static")]
extern "C" {}

#[link(name = "duthlan_large", kind = "static")]
extern "C" {}

/// The safe function of an entry: the numbers that it takes first, if it takes any, then its input
/// slices, those of bitmaps with their starting bit (a recipe's numbers with how many columns it
/// has), then its output slices.
macro_rules! entry {
    ($symbol:ident ($($code:ident: $number:ty),*)
        [$($input:ident: $of:ty $(, $start:ident)?);+] [$($output:ident: $to:ty),+]) => {
        #[allow(clippy::too_many_arguments)]
        fn $symbol(
            $($code: $number,)*
            $($input: &[$of], $($start: usize,)?)+
            $($output: &mut [$to],)+
        ) -> u32 {
            extern "C" {
                fn $symbol(
                    $($code: $number,)*
                    $($input: *const $of, _: usize, $($start: usize,)?)+
                    $($output: *mut $to, _: usize,)+
                ) -> u32;
            }
            // Sound: each pointer and length come from one slice, and no mutable slice overlaps
            // another.
            unsafe {
                $symbol(
                    $($code,)*
                    $($input.as_ptr(), $input.len(), $($start,)?)+
                    $($output.as_mut_ptr(), $output.len(),)+
                )
            }
        }
    };
}

/// The entries of one width: the type of an offset, and their names in the archive.
macro_rules! entries {
    ($module:ident $offset:ty:
        $list:ident $lists:ident $any_value:ident $element:ident $list_repeat:ident $recipe:ident
        $list_lengths:ident $lists_lengths:ident $any_value_lengths:ident $element_lengths:ident
        $list_repeat_lengths:ident $recipe_limits:ident) => {
        pub mod $module {
            use crate::typed::{Lending, List, OuterRoom, Recipe, Room, Typed, Values};

            pub const TYPED: Typed<$offset> = Typed {
                list,
                lists,
                any_value,
                element,
                list_repeat,
                recipe,
                lending: Lending {
                    list: list_lengths,
                    lists: lists_lengths,
                    any_value: any_value_lengths,
                    element: element_lengths,
                    list_repeat: list_repeat_lengths,
                    limits: recipe_limits,
                },
            };

            entry!(
                $list (op: u32)
                [offsets: $offset; rows: u8, rows_start; values: i64; elements: u8, elements_start;
                 first: i64; first_bits: u8, first_start; second: i64; second_bits: u8, second_start;
                 third: i64; third_bits: u8, third_start]
                [out_offsets: $offset, out_rows: u8, out_values: i64, out_elements: u8, counts: u64]
            );

            entry!(
                $lists (op: u32)
                [l_offsets: $offset; l_rows: u8, l_rows_start;
                 l_values: i64; l_elements: u8, l_elements_start;
                 r_offsets: $offset; r_rows: u8, r_rows_start;
                 r_values: i64; r_elements: u8, r_elements_start]
                [out_offsets: $offset, out_rows: u8, out_values: i64, out_elements: u8, counts: u64]
            );

            entry!(
                $any_value ()
                [offsets: $offset; rows: u8, rows_start; values: i64; elements: u8, elements_start]
                [out_values: i64, out_rows: u8, counts: u64]
            );

            entry!(
                $element ()
                [offsets: $offset; rows: u8, rows_start; values: i64; elements: u8, elements_start;
                 indexes: i64; index_bits: u8, index_start]
                [out_values: i64, out_rows: u8, counts: u64]
            );

            entry!(
                $list_repeat ()
                [offsets: $offset; rows: u8, rows_start; values: i64; elements: u8, elements_start;
                 times: i64; times_bits: u8, times_start]
                [out_offsets: $offset, out_rows: u8, inner_offsets: $offset, inner_rows: u8,
                 out_values: i64, out_elements: u8, counts: u64]
            );

            entry!(
                $recipe (station: u32)
                [numbers: u32, columns;
                 offsets: $offset; rows: u8, rows_start; values: i64; elements: u8, elements_start;
                 second_offsets: $offset; second_rows: u8, second_rows_start;
                 second_values: i64; second_elements: u8, second_elements_start;
                 arguments: i64; argument_bits: u8, argument_start]
                [one_offsets: $offset, one_rows: u8, one_values: i64, one_elements: u8,
                 two_offsets: $offset, two_rows: u8, two_values: i64, two_elements: u8,
                 out_offsets: $offset, out_rows: u8, out_values: i64, out_elements: u8,
                 counts: u64, tally: u64]
            );

            #[rustfmt::skip]
            fn list(
                op: u32, l: List<$offset>, [x, y, z]: [Values; 3], out: Room<$offset>,
                counts: &mut [u64],
            ) -> u32 {
                $list(
                    op, l.offsets, l.rows, l.rows_start, l.values, l.elements, l.elements_start,
                    x.values, x.bits, x.start, y.values, y.bits, y.start, z.values, z.bits, z.start,
                    out.offsets, out.rows, out.values, out.elements, counts,
                )
            }

            #[rustfmt::skip]
            fn lists(
                op: u32, [l, r]: [List<$offset>; 2], out: Room<$offset>, counts: &mut [u64],
            ) -> u32 {
                $lists(
                    op, l.offsets, l.rows, l.rows_start, l.values, l.elements, l.elements_start,
                    r.offsets, r.rows, r.rows_start, r.values, r.elements, r.elements_start,
                    out.offsets, out.rows, out.values, out.elements, counts,
                )
            }

            #[rustfmt::skip]
            fn any_value(
                l: List<$offset>, out_values: &mut [i64], out_rows: &mut [u8], counts: &mut [u64],
            ) -> u32 {
                $any_value(
                    l.offsets, l.rows, l.rows_start, l.values, l.elements, l.elements_start,
                    out_values, out_rows, counts,
                )
            }

            #[rustfmt::skip]
            fn element(
                l: List<$offset>, x: Values, out_values: &mut [i64], out_rows: &mut [u8],
                counts: &mut [u64],
            ) -> u32 {
                $element(
                    l.offsets, l.rows, l.rows_start, l.values, l.elements, l.elements_start,
                    x.values, x.bits, x.start, out_values, out_rows, counts,
                )
            }

            #[rustfmt::skip]
            fn list_repeat(
                l: List<$offset>, x: Values, outer: OuterRoom<$offset>, inner: Room<$offset>,
                counts: &mut [u64],
            ) -> u32 {
                $list_repeat(
                    l.offsets, l.rows, l.rows_start, l.values, l.elements, l.elements_start,
                    x.values, x.bits, x.start,
                    outer.offsets, outer.rows, inner.offsets, inner.rows,
                    inner.values, inner.elements, counts,
                )
            }

            #[rustfmt::skip]
            fn recipe(
                recipe: Recipe<$offset>, rooms: [Room<$offset>; 3], counts: &mut [u64],
                tally: &mut [u64],
            ) -> u32 {
                let Recipe { station, numbers, columns, lists: [l, r], arguments: x } = recipe;
                let [one, two, out] = rooms;
                $recipe(
                    station, numbers, columns,
                    l.offsets, l.rows, l.rows_start, l.values, l.elements, l.elements_start,
                    r.offsets, r.rows, r.rows_start, r.values, r.elements, r.elements_start,
                    x.values, x.bits, x.start,
                    one.offsets, one.rows, one.values, one.elements,
                    two.offsets, two.rows, two.values, two.elements,
                    out.offsets, out.rows, out.values, out.elements, counts, tally,
                )
            }

            // How much to lend.

            entry!(
                $list_lengths (op: u32)
                [offsets: $offset; rows: u8, rows_start; values: i64; elements: u8, elements_start;
                 first: i64; first_bits: u8, first_start; second: i64; second_bits: u8, second_start;
                 third: i64; third_bits: u8, third_start]
                [lengths: u64]
            );

            entry!(
                $lists_lengths (op: u32)
                [l_offsets: $offset; l_rows: u8, l_rows_start;
                 l_values: i64; l_elements: u8, l_elements_start;
                 r_offsets: $offset; r_rows: u8, r_rows_start;
                 r_values: i64; r_elements: u8, r_elements_start]
                [lengths: u64]
            );

            entry!(
                $any_value_lengths ()
                [offsets: $offset; rows: u8, rows_start; values: i64; elements: u8, elements_start]
                [lengths: u64]
            );

            entry!(
                $element_lengths ()
                [offsets: $offset; rows: u8, rows_start; values: i64; elements: u8, elements_start;
                 indexes: i64; index_bits: u8, index_start]
                [lengths: u64]
            );

            entry!(
                $list_repeat_lengths ()
                [offsets: $offset; rows: u8, rows_start; values: i64; elements: u8, elements_start;
                 times: i64; times_bits: u8, times_start]
                [lengths: u64]
            );

            entry!(
                $recipe_limits ()
                [numbers: u32, columns;
                 offsets: $offset; rows: u8, rows_start; values: i64; elements: u8, elements_start;
                 second_offsets: $offset; second_rows: u8, second_rows_start;
                 second_values: i64; second_elements: u8, second_elements_start;
                 arguments: i64; argument_bits: u8, argument_start]
                [limits: u64]
            );

            #[rustfmt::skip]
            fn list_lengths(
                op: u32, l: List<$offset>, [x, y, z]: [Values; 3], lengths: &mut [u64],
            ) -> u32 {
                $list_lengths(
                    op, l.offsets, l.rows, l.rows_start, l.values, l.elements, l.elements_start,
                    x.values, x.bits, x.start, y.values, y.bits, y.start, z.values, z.bits, z.start,
                    lengths,
                )
            }

            #[rustfmt::skip]
            fn lists_lengths(op: u32, [l, r]: [List<$offset>; 2], lengths: &mut [u64]) -> u32 {
                $lists_lengths(
                    op, l.offsets, l.rows, l.rows_start, l.values, l.elements, l.elements_start,
                    r.offsets, r.rows, r.rows_start, r.values, r.elements, r.elements_start, lengths,
                )
            }

            #[rustfmt::skip]
            fn any_value_lengths(l: List<$offset>, lengths: &mut [u64]) -> u32 {
                $any_value_lengths(
                    l.offsets, l.rows, l.rows_start, l.values, l.elements, l.elements_start, lengths,
                )
            }

            #[rustfmt::skip]
            fn element_lengths(l: List<$offset>, x: Values, lengths: &mut [u64]) -> u32 {
                $element_lengths(
                    l.offsets, l.rows, l.rows_start, l.values, l.elements, l.elements_start,
                    x.values, x.bits, x.start, lengths,
                )
            }

            #[rustfmt::skip]
            fn list_repeat_lengths(l: List<$offset>, x: Values, lengths: &mut [u64]) -> u32 {
                $list_repeat_lengths(
                    l.offsets, l.rows, l.rows_start, l.values, l.elements, l.elements_start,
                    x.values, x.bits, x.start, lengths,
                )
            }

            #[rustfmt::skip]
            fn recipe_limits(recipe: Recipe<$offset>, limits: &mut [u64]) -> u32 {
                let Recipe { numbers, columns, lists: [l, r], arguments: x, .. } = recipe;
                $recipe_limits(
                    numbers, columns,
                    l.offsets, l.rows, l.rows_start, l.values, l.elements, l.elements_start,
                    r.offsets, r.rows, r.rows_start, r.values, r.elements, r.elements_start,
                    x.values, x.bits, x.start, limits,
                )
            }
        }
    };
}

entries!(
    narrow i32:
    duthlan_typed_list duthlan_typed_lists duthlan_typed_any_value duthlan_typed_element
    duthlan_typed_list_repeat duthlan_typed_recipe
    duthlan_typed_list_lengths duthlan_typed_lists_lengths duthlan_typed_any_value_lengths
    duthlan_typed_element_lengths duthlan_typed_list_repeat_lengths duthlan_typed_recipe_limits
);

entries!(
    large i64:
    duthlan_large_list duthlan_large_lists duthlan_large_any_value duthlan_large_element
    duthlan_large_list_repeat duthlan_large_recipe
    duthlan_large_list_lengths duthlan_large_lists_lengths duthlan_large_any_value_lengths
    duthlan_large_element_lengths duthlan_large_list_repeat_lengths duthlan_large_recipe_limits
);

// ListView columns.

pub const VIEWS: Views = Views { import: import_view, export: export_view };

entry!(
    duthlan_typed_import_view ()
    [offsets: i32; sizes: i32; rows: u8, rows_start; values: i64; elements: u8, elements_start]
    [out_offsets: i32, out_rows: u8, out_values: i64, out_elements: u8, counts: u64]
);

entry!(
    duthlan_typed_export_view ()
    [offsets: i32; rows: u8, rows_start; values: i64; elements: u8, elements_start]
    [out_offsets: i32, out_sizes: i32, out_rows: u8, out_values: i64, out_elements: u8, counts: u64]
);

#[rustfmt::skip]
fn import_view(v: View, out: Room<i32>, counts: &mut [u64]) -> u32 {
    duthlan_typed_import_view(
        v.offsets, v.sizes, v.rows, v.rows_start, v.values, v.elements, v.elements_start,
        out.offsets, out.rows, out.values, out.elements, counts,
    )
}

#[rustfmt::skip]
fn export_view(l: List<i32>, out: ViewRoom, counts: &mut [u64]) -> u32 {
    duthlan_typed_export_view(
        l.offsets, l.rows, l.rows_start, l.values, l.elements, l.elements_start,
        out.offsets, out.sizes, out.rows, out.values, out.elements, counts,
    )
}

// Recipes over some of their rows.

pub const WINDOWS: Windows = Windows { recipe_rows };

entry!(
    duthlan_typed_recipe_rows (begin: usize, end: usize)
    [numbers: u32, columns;
     offsets: i32; rows: u8, rows_start; values: i64; elements: u8, elements_start;
     second_offsets: i32; second_rows: u8, second_rows_start;
     second_values: i64; second_elements: u8, second_elements_start;
     arguments: i64; argument_bits: u8, argument_start]
    [one_offsets: i32, one_rows: u8, one_values: i64, one_elements: u8,
     two_offsets: i32, two_rows: u8, two_values: i64, two_elements: u8,
     out_offsets: i32, out_rows: u8, out_values: i64, out_elements: u8, counts: u64]
);

#[rustfmt::skip]
fn recipe_rows(of: RowsOfRecipe, rooms: [Room<i32>; 3], counts: &mut [u64]) -> u32 {
    let RowsOfRecipe { window: Window { begin, end }, recipe } = of;
    let Recipe { numbers, columns, lists: [l, r], arguments: x, .. } = recipe;
    let [one, two, out] = rooms;
    duthlan_typed_recipe_rows(
        begin, end, numbers, columns,
        l.offsets, l.rows, l.rows_start, l.values, l.elements, l.elements_start,
        r.offsets, r.rows, r.rows_start, r.values, r.elements, r.elements_start,
        x.values, x.bits, x.start,
        one.offsets, one.rows, one.values, one.elements,
        two.offsets, two.rows, two.values, two.elements,
        out.offsets, out.rows, out.values, out.elements, counts,
    )
}

// Operations with a work area.

pub const HASHED: Hashed = Hashed { distinct: distinct_hashed, lists: lists_hashed };

entry!(
    duthlan_typed_distinct_hashed ()
    [offsets: i32; rows: u8, rows_start; values: i64; elements: u8, elements_start]
    [out_offsets: i32, out_rows: u8, out_values: i64, out_elements: u8, area: u32, counts: u64]
);

entry!(
    duthlan_typed_lists_hashed (op: u32)
    [l_offsets: i32; l_rows: u8, l_rows_start; l_values: i64; l_elements: u8, l_elements_start;
     r_offsets: i32; r_rows: u8, r_rows_start; r_values: i64; r_elements: u8, r_elements_start]
    [out_offsets: i32, out_rows: u8, out_values: i64, out_elements: u8, area: u32, counts: u64]
);

#[rustfmt::skip]
fn distinct_hashed(l: List<i32>, out: Room<i32>, area: &mut [u32], counts: &mut [u64]) -> u32 {
    duthlan_typed_distinct_hashed(
        l.offsets, l.rows, l.rows_start, l.values, l.elements, l.elements_start,
        out.offsets, out.rows, out.values, out.elements, area, counts,
    )
}

#[rustfmt::skip]
fn lists_hashed(
    op: u32, [l, r]: [List<i32>; 2], out: Room<i32>, area: &mut [u32], counts: &mut [u64],
) -> u32 {
    duthlan_typed_lists_hashed(
        op, l.offsets, l.rows, l.rows_start, l.values, l.elements, l.elements_start,
        r.offsets, r.rows, r.rows_start, r.values, r.elements, r.elements_start,
        out.offsets, out.rows, out.values, out.elements, area, counts,
    )
}
