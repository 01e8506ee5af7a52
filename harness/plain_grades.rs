//! Grading in plain Rust: one walk over each row, which ends at the first run that is long enough.

use crate::grades::Grades;
use crate::plain::{self, Lists};
use crate::typed::{List, Recipe, Room};

pub const GRADES: Grades = Grades { column, recipe };

fn bit(bits: &[u8], place: usize) -> bool {
    bits.is_empty() || bits[place / 8] >> (place % 8) & 1 == 1
}

fn grade(list: List<i32>, row: usize, k: u64) -> u8 {
    if !bit(list.rows, list.rows_start + row) {
        return 0;
    }
    let (mut last, mut run, mut grade) = (None, 0, 1);
    for place in list.offsets[row] as usize..list.offsets[row + 1] as usize {
        let valid = bit(list.elements, list.elements_start + place);
        let element = valid.then(|| list.values[place]);
        run = if element == last { run + 1 } else { 1 };
        if valid {
            grade = 3;
            if run >= k {
                return 2;
            }
        }
        last = element;
    }
    grade
}

fn row_count(list: List<i32>) -> usize {
    list.offsets.len().saturating_sub(1)
}

/// 12, then 9 for the grades.
fn check(k: u64, list: List<i32>, grades: &[u8]) -> Result<(), u32> {
    match k {
        0 => Err(12),
        _ if grades.len() < row_count(list) => Err(9),
        _ => Ok(()),
    }
}

fn write(k: u64, list: List<i32>, grades: &mut [u8]) {
    for (row, slot) in grades.iter_mut().enumerate().take(row_count(list)) {
        *slot = grade(list, row, k);
    }
}

fn column(k: u64, list: List<i32>, grades: &mut [u8], counts: &mut [u64]) -> u32 {
    let Some(rows) = counts.first_mut() else {
        return 100;
    };
    if let Err(number) = check(k, list, grades) {
        return number;
    }
    let number = (plain::typed().lending.any_value)(list, &mut [0; 2]);
    if number == 0 {
        write(k, list, grades);
        *rows = row_count(list) as u64;
    }
    number
}

fn recipe(
    k: u64,
    recipe: Recipe<i32>,
    [one, two, output]: [Room<i32>; 3],
    grades: &mut [u8],
    counts: &mut [u64],
    tally: &mut [u64],
) -> u32 {
    let refused = match check(k, recipe.lists[0], grades) {
        _ if counts.len() < 4 || tally.len() < 32 => Some(100),
        checked => checked.err(),
    };
    if let Some(number) = refused {
        for Lists { offsets, rows, values, elements } in [one, two] {
            offsets.fill(0);
            rows.fill(0);
            values.fill(0);
            elements.fill(0);
        }
        return number;
    }
    let Lists { offsets, rows, values, elements } = output;
    let room = Lists {
        offsets: &mut *offsets,
        rows: &mut *rows,
        values: &mut *values,
        elements: &mut *elements,
    };
    let number = (plain::typed().recipe)(recipe, [one, two, room], counts, tally);
    if number == 0 {
        let made = List {
            offsets: &offsets[..counts[0] as usize + 1],
            rows,
            rows_start: 0,
            values,
            elements,
            elements_start: 0,
        };
        write(k, made, grades);
    }
    number
}
