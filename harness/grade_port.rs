//! The port's entries for grades behind safe functions.
//!
//! Slices pass as they do to the other typed entries; k comes first, and the grades stand before the
//! counts.

use crate::grades::Grades;
use crate::typed::{List, Recipe, Room};

pub const GRADES: Grades = Grades { column, recipe };

#[rustfmt::skip]
extern "C" {
    fn duthlan_typed_grade(
        k: u64,
        offsets: *const i32, _: usize, rows: *const u8, _: usize, rows_start: usize,
        values: *const i64, _: usize, elements: *const u8, _: usize, elements_start: usize,
        grades: *mut u8, _: usize, counts: *mut u64, _: usize,
    ) -> u32;

    fn duthlan_typed_grade_recipe(
        k: u64, station: u32, numbers: *const u32, _: usize, columns: usize,
        offsets: *const i32, _: usize, rows: *const u8, _: usize, rows_start: usize,
        values: *const i64, _: usize, elements: *const u8, _: usize, elements_start: usize,
        second_offsets: *const i32, _: usize, second_rows: *const u8, _: usize,
        second_rows_start: usize, second_values: *const i64, _: usize,
        second_elements: *const u8, _: usize, second_elements_start: usize,
        arguments: *const i64, _: usize, argument_bits: *const u8, _: usize, argument_start: usize,
        one_offsets: *mut i32, _: usize, one_rows: *mut u8, _: usize,
        one_values: *mut i64, _: usize, one_elements: *mut u8, _: usize,
        two_offsets: *mut i32, _: usize, two_rows: *mut u8, _: usize,
        two_values: *mut i64, _: usize, two_elements: *mut u8, _: usize,
        out_offsets: *mut i32, _: usize, out_rows: *mut u8, _: usize,
        out_values: *mut i64, _: usize, out_elements: *mut u8, _: usize,
        grades: *mut u8, _: usize, counts: *mut u64, _: usize, tally: *mut u64, _: usize,
    ) -> u32;
}

#[rustfmt::skip]
fn column(k: u64, l: List<i32>, grades: &mut [u8], counts: &mut [u64]) -> u32 {
    // Sound: each pointer and length come from one slice, and no mutable slice overlaps another.
    unsafe {
        duthlan_typed_grade(
            k,
            l.offsets.as_ptr(), l.offsets.len(), l.rows.as_ptr(), l.rows.len(), l.rows_start,
            l.values.as_ptr(), l.values.len(),
            l.elements.as_ptr(), l.elements.len(), l.elements_start,
            grades.as_mut_ptr(), grades.len(), counts.as_mut_ptr(), counts.len(),
        )
    }
}

#[rustfmt::skip]
fn recipe(
    k: u64, recipe: Recipe<i32>, rooms: [Room<i32>; 3], grades: &mut [u8], counts: &mut [u64],
    tally: &mut [u64],
) -> u32 {
    let Recipe { station, numbers, columns, lists: [l, r], arguments: x } = recipe;
    let [one, two, out] = rooms;
    // Sound: as above.
    unsafe {
        duthlan_typed_grade_recipe(
            k, station, numbers.as_ptr(), numbers.len(), columns,
            l.offsets.as_ptr(), l.offsets.len(), l.rows.as_ptr(), l.rows.len(), l.rows_start,
            l.values.as_ptr(), l.values.len(),
            l.elements.as_ptr(), l.elements.len(), l.elements_start,
            r.offsets.as_ptr(), r.offsets.len(), r.rows.as_ptr(), r.rows.len(), r.rows_start,
            r.values.as_ptr(), r.values.len(),
            r.elements.as_ptr(), r.elements.len(), r.elements_start,
            x.values.as_ptr(), x.values.len(), x.bits.as_ptr(), x.bits.len(), x.start,
            one.offsets.as_mut_ptr(), one.offsets.len(), one.rows.as_mut_ptr(), one.rows.len(),
            one.values.as_mut_ptr(), one.values.len(),
            one.elements.as_mut_ptr(), one.elements.len(),
            two.offsets.as_mut_ptr(), two.offsets.len(), two.rows.as_mut_ptr(), two.rows.len(),
            two.values.as_mut_ptr(), two.values.len(),
            two.elements.as_mut_ptr(), two.elements.len(),
            out.offsets.as_mut_ptr(), out.offsets.len(), out.rows.as_mut_ptr(), out.rows.len(),
            out.values.as_mut_ptr(), out.values.len(),
            out.elements.as_mut_ptr(), out.elements.len(),
            grades.as_mut_ptr(), grades.len(), counts.as_mut_ptr(), counts.len(),
            tally.as_mut_ptr(), tally.len(),
        )
    }
}
