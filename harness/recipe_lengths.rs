//! A few fixed recipes with each slice of the trays and of the output at every length around what
//! the steps take.

use crate::compare::Checker;
use crate::entry::{Case, Entry, Input, RECIPE_RESULT, TALLY};
use crate::generate::Room;
use crate::model::{Element, RecipeShown, Row};
use crate::recipe_generate::{lend_recipe, recipe_slots};
use crate::recipe_groups::{laid_out, require_number};
use crate::rng::Rng;

const POP_FRONT: [u32; 4] = [2, 0, 0, 0];
const POP_BACK: [u32; 4] = [3, 0, 0, 0];
const RESIZE: [u32; 4] = [6, 0, 1, 0];
const UNION: [u32; 4] = [9, 0, 0, 0];

/// The steps, and the slots that they take in tray one, tray two and the output, counted by hand.
/// The elements carried become fewer or more, so that no two places take the same.
const RECIPES: [(&[[u32; 4]], [[usize; 4]; 3]); 4] = [
    (&[UNION, POP_FRONT, POP_BACK], [[10, 2, 19, 3], [10, 2, 13, 2], [10, 2, 8, 1]]),
    (&[POP_BACK, UNION, RESIZE], [[10, 2, 5, 1], [10, 2, 18, 3], [10, 2, 30, 4]]),
    (&[UNION], [[0; 4], [0; 4], [10, 2, 19, 3]]),
    (&[], [[0; 4], [0; 4], [10, 2, 11, 2]]),
];

/// Nine rows beside nine others: their union has 19 elements, in all rows but 1, 3 and 5.
fn lists() -> [Vec<Row>; 2] {
    let row = |elements: &[Element]| Some(elements.to_vec());
    let first = vec![
        row(&[Some(1), Some(2), Some(3)]),
        None,
        row(&[]),
        row(&[Some(4), None]),
        row(&[Some(5)]),
        None,
        row(&[Some(6), Some(6), Some(7)]),
        row(&[Some(8)]),
        row(&[None]),
    ];
    let second = vec![
        row(&[Some(3), Some(9)]),
        row(&[Some(1)]),
        row(&[Some(2)]),
        None,
        row(&[Some(5), Some(1), Some(2), Some(3)]),
        row(&[]),
        row(&[Some(7), None, Some(9)]),
        row(&[Some(4), None]),
        row(&[None, Some(1), Some(2)]),
    ];
    [first, second]
}

/// A count and a fill for each row.
fn columns() -> Vec<Vec<Element>> {
    let fill = |row: i64| (row % 3 != 0).then_some(row);
    vec![vec![Some(5); 9], (0..9).map(fill).collect()]
}

/// Each slice from no slots to two more than the steps take, the others just as long as they take.
/// Trays that no step writes take nothing: their slices go up to two more than the output takes,
/// once with the other trays empty and once with them as long as the output.
pub fn every_slice(checker: &mut Checker, entry: Entry, rng: &mut Rng, _calls: u64) {
    for (steps, needed) in RECIPES.into_iter().flat_map(|recipe| [recipe; 4]) {
        let (width, steps_taken) = (entry.width, steps.to_vec());
        let shown = RecipeShown { width, steps: steps_taken, lists: lists(), columns: columns() };
        let input = laid_out(&shown, rng);
        let of_output = [needed[2]; 3].concat();
        let needed = needed.concat();
        let case = lend_slots(&input, &needed, rng);
        checker.require(recipe_slots(&input) == needed, &case, "not what the steps take");
        check_around(checker, &input, &needed, &needed, rng);
        if steps.len() <= 1 {
            check_around(checker, &input, &needed, &of_output, rng);
        }
    }
}

/// Each slice at every length, with the others of these slots; 9 where it takes more than it has.
fn check_around(
    checker: &mut Checker,
    input: &Input,
    needed: &[usize],
    others: &[usize],
    rng: &mut Rng,
) {
    for slice in 0..TALLY {
        let most = needed[slice].max(needed[RECIPE_RESULT.start + slice % 4]);
        for slots in 0..=most + 2 {
            let mut lent = others.to_vec();
            lent[slice] = slots;
            let number = if slots < needed[slice] { 9 } else { 0 };
            let case = lend_slots(input, &lent, rng);
            require_number(checker, &case, number, "the length of a slice misjudged");
        }
    }
}

/// The call with this many slots in each slice of the trays and of the output; no byte in them is 0.
fn lend_slots(input: &Input, slots: &[usize], rng: &mut Rng) -> Case {
    let mut case = lend_recipe(input, Room::Exact, rng);
    let kinds = input.entry.outputs().iter().zip(slots);
    for (bytes, (kind, slots)) in case.outputs.iter_mut().zip(kinds) {
        *bytes = rng.bytes(slots * kind.width);
        bytes.iter_mut().for_each(|byte| *byte |= 1);
    }
    case
}
