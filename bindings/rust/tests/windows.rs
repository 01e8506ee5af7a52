//! Recipes for some rows over the archive: every window beside the recipe on a copy of its rows, rows
//! outside that are refused or hold anything, each refusal, what is kept, and the trays.
#![cfg(feature = "std")]

use duthlan::owned::{ListBuf, Row, ValuesBuf};
use duthlan::{run_recipe, run_recipe_rows, Bits, List, ListOut, Recipe, RecipeInputs, Refusal};
use duthlan::{Tally, Trays, Values};
use std::ops::Range;

/// [12, -3, null], a null row over 40 and 41, [], [7, 7, 9]; both bitmaps from the middle of a byte.
const LIST: List = List {
    offsets: &[1, 4, 6, 6, 9],
    rows: Bits { bytes: &[0b1111_0111], start: 2 },
    values: &[5, 12, -3, 99, 40, 41, 7, 7, 9, 8],
    elements: Bits { bytes: &[0b1011_1111, 0xff], start: 3 },
};

/// [9, 12] [1] [3] [7]
const OTHER: List = List {
    offsets: &[0, 2, 3, 4, 5],
    rows: Bits::ALL,
    values: &[9, 12, 1, 3, 7],
    elements: Bits::ALL,
};

/// From 2, 1, 1, null; to -1, -1, -1, 2; counts 4, 2, 3, -1: of the last row, 7.
const ARGUMENTS: Values = Values {
    values: &[2, 1, 1, 77, -1, -1, -1, 2, 4, 2, 3, -1],
    valid: Bits { bytes: &[0b0111_1111, 0xff], start: 4 },
};

const INPUTS: RecipeInputs =
    RecipeInputs { list: LIST, second: OTHER, columns: 3, arguments: ARGUMENTS };

/// Two trays of room for eight rows, full of numbers.
fn dirty() -> [ListBuf; 2] {
    let mut tray = ListBuf::with_room(8, 20);
    tray.offsets.fill(85);
    tray.rows.fill(85);
    tray.values.fill(85);
    tray.elements.fill(85);
    [tray.clone(), tray]
}

fn assert_zero(trays: &[ListBuf]) {
    for tray in trays {
        assert!(tray.offsets.iter().all(|&offset| offset == 0));
        assert!(tray.values.iter().all(|&value| value == 0));
        assert!(tray.rows.iter().chain(&tray.elements).all(|&byte| byte == 0));
    }
}

/// What a recipe makes of some rows, with ample room; the trays are zero after it.
fn run(window: Range<usize>, recipe: &Recipe, inputs: RecipeInputs) -> Result<Vec<Row>, Refusal> {
    let mut trays = dirty();
    let [one, two] = &mut trays;
    let mut room = ListBuf::with_room(8, 20);
    let mut out = room.out();
    let mut lent = Trays { one: one.out(), two: two.out() };
    let answer = run_recipe_rows(window, recipe, inputs, &mut lent, &mut out);
    let made = answer.map(|counts| out.written(&counts).to_rows().expect("a column"));
    assert_zero(&trays);
    made
}

/// The recipe itself, on a copy that holds just these rows.
fn run_copy(window: Range<usize>, recipe: &Recipe) -> Result<Vec<Row>, Refusal> {
    let copy_of = |list: List| {
        let rows = list.to_rows().expect("a column");
        ListBuf::from_rows(&rows[window.clone()]).expect("few rows")
    };
    let (list, second) = (copy_of(LIST), copy_of(OTHER));
    let shown = ARGUMENTS.to_vec().expect("a column");
    let columns = shown.chunks(4).flat_map(|column| column[window.clone()].to_vec());
    let arguments = ValuesBuf::from_values(&columns.collect::<Vec<_>>());
    let inputs = RecipeInputs {
        list: list.list(),
        second: second.list(),
        columns: 3,
        arguments: arguments.values(),
    };
    let [mut one, mut two] = dirty();
    let mut room = ListBuf::with_room(8, 20);
    let mut out = room.out();
    let mut trays = Trays { one: one.out(), two: two.out() };
    let answer = run_recipe(0, recipe, inputs, &mut trays, &mut out, &mut Tally::default());
    answer.map(|counts| out.written(&counts).to_rows().expect("a column"))
}

fn recipes() -> [Recipe; 6] {
    [
        Recipe::new(),
        Recipe::new().union(),
        Recipe::new().slice_without_stride(0, 1).reverse(),
        Recipe::new().intersect().pop_front().union(),
        Recipe::new().resize(2, 0),
        Recipe::new().reverse().resize(2, 1).distinct().union(),
    ]
}

#[test]
fn every_window_is_the_recipe_on_a_copy() {
    for recipe in recipes() {
        for (begin, end) in (0..=4).flat_map(|begin| (begin..=4).map(move |end| (begin, end))) {
            assert_eq!(run(begin..end, &recipe, INPUTS), run_copy(begin..end, &recipe));
        }
    }
}

#[test]
fn rows_as_worked_by_hand() {
    let row = |values: &[i64]| Some(values.iter().copied().map(Some).collect::<Vec<_>>());
    let recipe = Recipe::new().slice_without_stride(0, 1).reverse();
    assert_eq!(run(0..1, &recipe, INPUTS), Ok(vec![Some(vec![None, Some(-3)])]));
    assert_eq!(run(1..4, &recipe, INPUTS), Ok(vec![None, row(&[]), None]));
    assert_eq!(run(3..4, &Recipe::new().union(), INPUTS), Ok(vec![row(&[7, 9])]));
    assert_eq!(run(2..2, &recipe, INPUTS), Ok(vec![]));
}

#[test]
fn rows_outside_are_not_looked_at() {
    let recipe = Recipe::new().resize(2, 0);
    assert_eq!(run(0..4, &recipe, INPUTS), Err(Refusal::NegativeCount));
    assert_eq!(run(3..4, &recipe, INPUTS), Err(Refusal::NegativeCount));
    let made = run(0..3, &recipe, INPUTS);
    assert_eq!(made.as_ref().map(Vec::len), Ok(3));
    let mut other = ARGUMENTS.values.to_vec();
    for place in [3, 7, 11] {
        other[place] = i64::MAX;
    }
    let arguments = Values { values: &other, valid: ARGUMENTS.valid };
    assert_eq!(run(0..3, &recipe, RecipeInputs { arguments, ..INPUTS }), made);
}

/// Ranges that begin behind their end are among them.
#[test]
#[allow(clippy::reversed_empty_ranges)]
fn refusals_come_in_their_order() {
    let recipe = Recipe::new().union();
    for window in [1..0, 4..3, 0..5, 5..5, 0..usize::MAX, usize::MAX..0, usize::MAX..usize::MAX] {
        assert_eq!(run(window.clone(), &recipe, INPUTS), Err(Refusal::RowsOutside));
        let malformed = Recipe::new().resize(3, 0);
        assert_eq!(run(window.clone(), &malformed, INPUTS), Err(Refusal::MalformedRecipe));
        let rows = Bits { bytes: &[], start: 8 };
        let inputs = RecipeInputs { second: List { rows, ..OTHER }, ..INPUTS };
        assert_eq!(run(window.clone(), &recipe, inputs), Err(Refusal::BadStartingBit));
        let inputs = RecipeInputs { list: List::new(&[0, 1, 0, 1, 1], &[1]), ..INPUTS };
        assert_eq!(run(window.clone(), &recipe, inputs), Err(Refusal::BadOffsets));
        let rows = Bits { bytes: &[255], start: 5 };
        let inputs = RecipeInputs { list: List { rows, ..LIST }, ..INPUTS };
        assert_eq!(run(window.clone(), &recipe, inputs), Err(Refusal::ShortBitmap));
        let inputs = RecipeInputs { columns: 2, ..INPUTS };
        assert_eq!(run(window, &recipe, inputs), Err(Refusal::RowCountsDiffer));
    }
}

#[test]
fn columns_are_refused_whole() {
    let recipe = Recipe::new();
    let falling = List::new(&[0, 1, 2, 1, 1], &[1, 2]);
    let inputs = RecipeInputs { list: falling, ..INPUTS };
    assert_eq!(run(0..1, &recipe, inputs), Err(Refusal::BadOffsets));
    let rows = Bits { bytes: &[255], start: 5 };
    let inputs = RecipeInputs { second: List { rows, ..OTHER }, ..INPUTS };
    assert_eq!(run(0..1, &recipe, inputs), Err(Refusal::ShortBitmap));
    let inputs = RecipeInputs { second: List::new(&[0, 2], &[9, 12]), ..INPUTS };
    assert_eq!(run(0..1, &recipe, inputs), Err(Refusal::RowCountsDiffer));
}

#[test]
fn room_for_the_rows_is_enough() {
    let recipe = Recipe::new().reverse();
    for less in 0..5 {
        let mut offsets = vec![85; if less == 1 { 2 } else { 3 }];
        let mut rows = vec![85; usize::from(less != 2)];
        let mut values = vec![85; if less == 3 { 2 } else { 3 }];
        let mut elements = vec![85; usize::from(less != 4)];
        let mut out = ListOut {
            offsets: &mut offsets,
            rows: &mut rows,
            values: &mut values,
            elements: &mut elements,
        };
        let answer = run_recipe_rows(0..2, recipe, INPUTS, &mut Trays::default(), &mut out);
        if less == 0 {
            assert_eq!(answer.map(|counts| [counts.rows, counts.elements]), Ok([2, 3]));
            assert_eq!((&offsets[..], &values[..]), (&[0, 3, 3][..], &[i64::MIN, -3, 12][..]));
        } else {
            assert_eq!(answer, Err(Refusal::ShortOutput));
            assert!(offsets.iter().all(|&offset| offset == 85));
        }
    }
    let mut one_slot = ListOut { offsets: &mut [9], ..ListOut::default() };
    assert!(run_recipe_rows(4..4, recipe, INPUTS, &mut Trays::default(), &mut one_slot).is_ok());
    assert_eq!(one_slot.offsets, [0]);
    let mut no_slot = ListOut::default();
    let none = run_recipe_rows(4..4, recipe, INPUTS, &mut Trays::default(), &mut no_slot);
    assert_eq!(none, Err(Refusal::ShortOutput));
}

#[test]
fn the_number_has_a_name() {
    assert_eq!(Refusal::RowsOutside.number(), 16);
    assert!(Refusal::RowsOutside.to_string().contains("behind the last row"));
}
