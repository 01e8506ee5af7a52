//! Strided slices, whose places are counted: strides at and beside the ends of 32 signed bits (in
//! large lists of 64 too), 1, -1 and the row's length, in short rows with every bound about their ends, and in a long row.

use crate::compare::Checker;
use crate::entry::Entry;
use crate::generate::{input_of, lend, random_layouts, Room};
use crate::model::{Element, Operation, RecipeShown, Row, Shown, Width};
use crate::recipe_generate::{code_of, lend_recipe, recipe_input};
use crate::rng::Rng;

/// The longest of the short rows.
const SHORT: i64 = 9;

/// The length of the long row.
pub const LONG: i64 = 4000;

/// At and beside both ends of 32 signed bits, and of an eighth of them.
const ENDS: [i64; 12] = [
    -2147483649,
    -2147483648,
    -2147483647,
    -268435457,
    -268435456,
    -268435455,
    268435455,
    268435456,
    268435457,
    2147483646,
    2147483647,
    2147483648,
];

/// The same of 64 signed bits, and the first ones beyond 32.
const LARGE_ENDS: [i64; 10] = [
    i64::MIN,
    i64::MIN + 1,
    i64::MIN / 8 - 1,
    i64::MIN / 8,
    -2147483649,
    2147483648,
    -(i64::MIN / 8),
    -(i64::MIN / 8) + 1,
    i64::MAX - 1,
    i64::MAX,
];

fn ends(width: Width) -> &'static [i64] {
    match width {
        Width::Narrow => &ENDS,
        Width::Wide => &LARGE_ENDS,
    }
}

pub fn is_for(entry: Entry) -> bool {
    entry.operation() == Some(Operation::Slice)
}

/// A row of different elements, of which the third and every eighth from there is null.
fn row_of(length: i64) -> Row {
    Some((1..=length).map(|place| (place % 8 != 3).then_some(10 * place)).collect())
}

/// Strides about a row's length, about its half, its eighth and 1, and the ends.
fn strides_about(length: i64, width: Width) -> Vec<i64> {
    let about = |size: i64| [size - 1, size, size + 1];
    let sizes = [2, length / 8, length / 2, length].into_iter().flat_map(about);
    let ends = ends(width).iter().copied();
    sorted(sizes.flat_map(|size| [size, -size]).chain([0]).chain(ends))
}

fn sorted(numbers: impl Iterator<Item = i64>) -> Vec<i64> {
    let mut numbers: Vec<i64> = numbers.collect();
    numbers.sort();
    numbers.dedup();
    numbers
}

/// Every from and to from two before a short row to two behind it, by every stride up to one more
/// than its length and those at the ends.
fn short_slices(width: Width) -> Vec<(i64, [i64; 3])> {
    let mut slices = Vec::new();
    for length in 0..=SHORT {
        let bounds = -length - 2..=length + 2;
        let strides = sorted((-length - 1..=length + 1).chain(ends(width).iter().copied()));
        for from in bounds.clone() {
            for to in bounds.clone() {
                slices.extend(strides.iter().map(|stride| (length, [from, to, *stride])));
            }
        }
    }
    slices
}

/// Bounds at and beside the ends of the long row and in its middle, by the strides about its length.
fn long_slices(width: Width) -> Vec<(i64, [i64; 3])> {
    let bounds = [-LONG - 1, -LONG, -2, -1, 0, 1, 2, LONG / 2, LONG - 1, LONG, LONG + 1];
    let mut slices = Vec::new();
    for (from, to) in bounds.iter().flat_map(|from| bounds.map(|to| (*from, to))) {
        let strides = strides_about(LONG, width).into_iter();
        slices.extend(strides.map(|stride| (LONG, [from, to, stride])));
    }
    slices
}

/// One row with its arguments beside it.
fn columns_of(arguments: [i64; 3]) -> Vec<Vec<Element>> {
    arguments.iter().map(|argument| vec![Some(*argument)]).collect()
}

/// Every slice above; outputs are exact or longer by turns.
pub fn every_stride(checker: &mut Checker, entry: Entry, rng: &mut Rng, _calls: u64) {
    let width = entry.width;
    for (length, arguments) in [short_slices(width), long_slices(width)].concat() {
        let shown = Shown { lists: vec![vec![row_of(length)]], arguments: columns_of(arguments) };
        let layouts = random_layouts(entry, rng);
        let input = input_of(entry, &shown, &layouts, rng);
        let room = [Room::Exact, Room::Longer(1)][checker.calls as usize % 2];
        checker.check(&lend(&input, room, rng));
    }
}

/// Some of the same as the second step of a recipe, behind a reverse.
pub fn every_stride_of_a_step(checker: &mut Checker, entry: Entry, rng: &mut Rng, _calls: u64) {
    let width = entry.width;
    let (mut short, mut long) = (short_slices(width), long_slices(width));
    short.retain(|_| rng.chance(1, 16));
    long.retain(|_| rng.chance(1, 4));
    let steps = vec![[code_of(Operation::Reverse), 0, 0, 0], [code_of(Operation::Slice), 0, 1, 2]];
    for (length, arguments) in [short, long].concat() {
        let (row, columns) = (row_of(length), columns_of(arguments));
        let lists = [vec![row], vec![None]];
        let shown = RecipeShown { width, steps: steps.clone(), lists, columns };
        let input = recipe_input(&shown, &random_layouts(entry, rng), rng);
        checker.check(&lend_recipe(&input, Room::Longer(1), rng));
    }
}
