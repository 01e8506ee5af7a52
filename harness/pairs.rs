//! Sets of calls that show the same in other bytes. Whatever the answer, they must share it: a round
//! makes a set for every answer that well-formed columns can be given, each way to come to it apart,
//! and beside each of these a set whose answer is left to chance.

use crate::compare::{Checker, Observed};
use crate::coverage;
use crate::entry::{Case, Entry, Input, AREA, MOST_ARGUMENTS, TALLY, TALLY_BYTES, TRAYS};
use crate::generate::*;
use crate::model::{self, RecipeShown, Role, Row, Shown, Width};
use crate::recipe_generate::*;
use crate::recipe_groups::{columns_of, shape_with_rows, WAYS};
use crate::rng::Rng;

/// What the calls of a set are to be answered, and by what.
#[derive(Clone, Copy)]
enum Wanted {
    Any,
    Accepted,
    /// 3, by the length of this column alone.
    Unequal(Column),
    /// A refusal of a row; in a recipe behind so many steps, and with so many behind it.
    Refused(u32, [usize; 2]),
    /// 14, by a work area one slot short.
    ShortArea,
    /// 9, by this output alone; in a recipe perhaps at this of four steps, or at 0 without steps.
    Short(usize, Option<usize>),
    /// 10, malformed in this one way, and with the condition of 3 or without it.
    Malformed(usize, bool),
    /// 15, with the condition of 10 or without it.
    NoStation(bool),
}

/// The first step, a later even and a later odd one, and the last: the steps before it and behind.
const STEPS: [[usize; 2]; 4] = [[0, 1], [1, 1], [2, 2], [3, 0]];

/// The values of the place that each of four steps writes, and of the output without steps.
const VALUES_AT: [(usize, usize); 5] = [(2, 1), (6, 2), (2, 3), (10, 4), (10, 0)];

impl Wanted {
    /// Every answer that well-formed columns can be given, by each column, row or step, output or
    /// way to be malformed that it can come from.
    fn all(entry: Entry) -> Vec<Wanted> {
        let (numbers, steps, slices) = if entry.is_recipe() {
            (refusals_of_steps(entry.width).to_vec(), &STEPS[..], TALLY)
        } else {
            (coverage::answers(entry), &STEPS[..1], entry.results().len())
        };
        let mut all = vec![Wanted::Accepted];
        all.extend(Column::all(entry).into_iter().skip(1).map(Wanted::Unequal));
        for number in numbers.into_iter().filter(|number| (4..=8).contains(number)) {
            all.extend(steps.iter().map(|at| Wanted::Refused(number, *at)));
        }
        all.extend((0..slices).map(|slice| Wanted::Short(slice, None)));
        all.extend(entry.is_hashed().then_some(Wanted::ShortArea));
        if entry.is_recipe() {
            all.extend(VALUES_AT.map(|(slice, step)| Wanted::Short(slice, Some(step))));
            let ways = 0..WAYS.len();
            all.extend(ways.flat_map(|way| [false, true].map(|both| Wanted::Malformed(way, both))));
            all.extend([false, true].map(Wanted::NoStation));
        }
        all
    }

    fn number(self) -> Option<u32> {
        match self {
            Wanted::Any => None,
            Wanted::Accepted => Some(0),
            Wanted::Unequal(_) => Some(3),
            Wanted::Refused(number, _) => Some(number),
            Wanted::Short(..) => Some(9),
            Wanted::ShortArea => Some(14),
            Wanted::Malformed(..) => Some(10),
            Wanted::NoStation(_) => Some(15),
        }
    }

    fn room(self, rng: &mut Rng) -> Room {
        match self {
            Wanted::Any => rng.pick(&[Room::Exact, Room::Longer(3), Room::Any]),
            Wanted::Accepted | Wanted::Refused(..) => rng.pick(&[Room::Exact, Room::Longer(3)]),
            Wanted::Short(slice, _) => Room::Short(slice, rng.pick(&[0, 2])),
            Wanted::ShortArea => Room::Short(AREA, rng.pick(&[0, 2])),
            Wanted::Unequal(_) | Wanted::Malformed(..) | Wanted::NoStation(_) => Room::Any,
        }
    }
}

pub fn same_rows(checker: &mut Checker, entry: Entry, rng: &mut Rng, calls: u64) {
    while checker.calls < calls.max(300) {
        for wanted in Wanted::all(entry).into_iter().flat_map(|wanted| [wanted, Wanted::Any]) {
            if entry.is_recipe() {
                let call = recipe_call(entry.width, wanted, rng);
                check_set(checker, entry, wanted, rng, |layouts, rng| call.laid_out(layouts, rng));
            } else {
                let shown = operation_shown(entry, wanted, rng);
                check_set(checker, entry, wanted, rng, |layouts, rng| {
                    input_of(entry, &shown, layouts, rng)
                });
            }
        }
    }
}

/// What is shown, in each fixed layout and in some random ones.
fn check_set(
    checker: &mut Checker,
    entry: Entry,
    wanted: Wanted,
    rng: &mut Rng,
    input: impl Fn(&[Layout], &mut Rng) -> Input,
) {
    let room = wanted.room(rng);
    let fixed = layouts().into_iter().map(|layout| vec![layout]);
    let random: Vec<Vec<Layout>> = (0..4).map(|_| random_layouts(entry, rng)).collect();
    let mut calls: Vec<(Case, Observed)> = Vec::new();
    for layouts in fixed.chain(random) {
        let mut case = lend(&input(&layouts, rng), room, rng);
        if let Some((first, _)) = calls.first() {
            lend_as_before(&mut case, first, rng);
        }
        let observed = checker.check(&case);
        calls.push((case, observed));
    }
    let (first, _) = &calls[0];
    let is_wanted = |number| number == first.expected().number;
    let as_stated = wanted.number().is_none_or(is_wanted);
    checker.require(as_stated, first, "not the answer that the calls were made for");
    checker.agree(&calls);
}

/// Lends as much as the first call did, with other bytes in it, and an equal tally.
fn lend_as_before(case: &mut Case, first: &Case, rng: &mut Rng) {
    for (slice, before) in case.outputs.iter_mut().zip(&first.outputs) {
        *slice = rng.bytes(before.len());
    }
    if case.entry.is_recipe() {
        case.outputs[TALLY][..TALLY_BYTES].copy_from_slice(&first.outputs[TALLY][..TALLY_BYTES]);
    }
    case.counts = rng.bytes(first.counts.len());
}

/// A number of rows that a column may not have beside so many: none, one fewer or more, or others.
fn other_length(rows: usize, others: &[usize], rng: &mut Rng) -> usize {
    let mut lengths = [&[0, rows.max(1) - 1, rows + 1, 2 * rows + 2], others].concat();
    lengths.retain(|length| *length != rows);
    rng.pick(&lengths)
}

fn resize_list(list: &mut Vec<Row>, rows: usize, rng: &mut Rng) {
    list.resize_with(rows, || (!rng.chance(1, 4)).then(|| vec![Some(1), None]));
}

// Operations.

fn operation_shown(entry: Entry, wanted: Wanted, rng: &mut Rng) -> Shown {
    let shape = small_shape(rng);
    match wanted {
        Wanted::Any if rng.chance(1, 200) => random_shown_or_refused(entry, large_shape(rng), rng),
        Wanted::Any => random_shown_or_refused(entry, shape, rng),
        Wanted::Refused(number, _) => refused_shown(entry, number, rng),
        Wanted::Short(slice, _) => filling_shown(entry, slice, rng),
        Wanted::ShortArea => filling_shown(entry, AREA, rng),
        Wanted::Unequal(column) => {
            let mut shown = random_shown(entry, shape, rng);
            make_unequal(entry, &mut shown, column, rng);
            shown
        }
        Wanted::Accepted => random_shown(entry, shape, rng),
        Wanted::Malformed(..) | Wanted::NoStation(_) => {
            unreachable!("an operation has no recipe")
        }
    }
}

/// Rows of which one is refused with this number.
fn refused_shown(entry: Entry, number: u32, rng: &mut Rng) -> Shown {
    loop {
        let shape = RowShape { count: 1 + rng.below(20), ..small_shape(rng) };
        let mut shown = random_shown(entry, shape, rng);
        let row = rng.below(shape.count);
        if refuse_row(entry, &mut shown, row, number, rng) {
            return shown;
        }
    }
}

/// Rows that are accepted, of which something comes into this output.
fn filling_shown(entry: Entry, slice: usize, rng: &mut Rng) -> Shown {
    loop {
        let shown = random_shown(entry, small_shape(rng), rng);
        let input = input_of(entry, &shown, &[Layout::default()], rng);
        if needed_slots(&input)[slice] > 0 {
            return shown;
        }
    }
}

/// Gives one column another length; a limit column of one value would hold for all rows.
fn make_unequal(entry: Entry, shown: &mut Shown, column: Column, rng: &mut Rng) {
    let rows = shown.lists[0].len();
    let mut length = other_length(rows, &[], rng);
    match column {
        Column::List(at) => resize_list(&mut shown.lists[at], length, rng),
        Column::Argument(at) => {
            while length == 1 && entry.roles()[at] == Role::Limit {
                length = other_length(rows, &[], rng);
            }
            shown.arguments[at].resize_with(length, || random_element(1, rng));
        }
    }
}

// Recipes.

fn recipe_call(width: Width, wanted: Wanted, rng: &mut Rng) -> RecipeCall {
    let shape = shape_with_rows(rng);
    match wanted {
        Wanted::Any if rng.chance(1, 400) => {
            RecipeCall::new(&random_recipe(width, large_shape(rng), rng), rng)
        }
        Wanted::Any => RecipeCall::new(&random_recipe(width, shape, rng), rng),
        Wanted::Accepted => {
            RecipeCall::new(&accepted_recipe(width, shape, random_steps(rng), rng), rng)
        }
        Wanted::Refused(number, steps) => refused_call(width, number, steps, rng),
        Wanted::Short(slice, step) => filling_call(width, slice, step, rng),
        Wanted::Unequal(column) => {
            let mut call = RecipeCall::new(&random_recipe(width, shape, rng), rng);
            make_call_unequal(&mut call, column, rng);
            call
        }
        Wanted::ShortArea => unreachable!("a recipe has no work area"),
        Wanted::Malformed(way, both) => malformed_call(width, way, both, rng),
        Wanted::NoStation(malformed) => {
            let mut call = RecipeCall::new(&random_recipe(width, shape, rng), rng);
            call.numbers.extend(malformed.then_some(0));
            RecipeCall { station: no_station(rng), ..call }
        }
    }
}

/// A recipe of which one step is refused with this number, behind so many steps and before others.
fn refused_call(
    width: Width,
    number: u32,
    [before, behind]: [usize; 2],
    rng: &mut Rng,
) -> RecipeCall {
    loop {
        let shape = RowShape { longest: 4, ..shape_with_rows(rng) };
        if let Some(shown) = refused_recipe(width, shape, before, number, behind, rng) {
            return RecipeCall::new(&shown, rng);
        }
    }
}

/// A recipe that is accepted, of which something comes into this slice of a tray or of the output;
/// if a step is given, that one is the first to take the most of it.
fn filling_call(width: Width, slice: usize, step: Option<usize>, rng: &mut Rng) -> RecipeCall {
    loop {
        let steps = match step {
            Some(0) => 0,
            Some(_) => 4,
            None if TRAYS.contains(&slice) => 3 + rng.below(3),
            None => random_steps(rng),
        };
        let shown = accepted_recipe(width, shape_with_rows(rng), steps, rng);
        let (slots, first) = most_slots(&shown, slice);
        if slots > 0 && step.is_none_or(|step| step == first) {
            return RecipeCall::new(&shown, rng);
        }
    }
}

/// The most slots that a step takes in this slice, and the first step that does; 0 without steps.
fn most_slots(shown: &RecipeShown, slice: usize) -> (u64, usize) {
    let (mut most, mut first) = (0, 0);
    let mut step = usize::from(!shown.steps.is_empty());
    let carried = model::carry(shown, |place, slots| {
        if place as usize == slice / 4 && slots[slice % 4] > most {
            (most, first) = (slots[slice % 4], step);
        }
        step += 1;
        true
    });
    assert!(carried.is_ok(), "a recipe that is made to be accepted");
    (most, first)
}

/// Gives the second list, or the slice of all argument columns, another length.
fn make_call_unequal(call: &mut RecipeCall, column: Column, rng: &mut Rng) {
    let (rows, columns) = (call.lists[0].len(), call.columns);
    match column {
        Column::List(_) => {
            let length = other_length(rows, &[], rng);
            resize_list(&mut call.lists[1], length, rng);
        }
        // One column fewer or more, or one value for each.
        Column::Argument(_) => {
            let values = rows * columns;
            let others = [values - rows.min(values), values + rows, columns];
            let length = other_length(values, &others, rng);
            call.arguments.resize_with(length, || random_element(1, rng));
        }
    }
}

/// A recipe that is malformed in this way alone, with the condition of 3 besides or without it;
/// without it, over more rows than random bytes and short recipes have.
fn malformed_call(width: Width, way: usize, both: bool, rng: &mut Rng) -> RecipeCall {
    loop {
        let count = if both { rng.below(10) } else { 7 + rng.below(20) };
        let shape = RowShape { count, ..shape_with_rows(rng) };
        let mut call = RecipeCall::new(&random_recipe(width, shape, rng), rng);
        let mut input = call.laid_out(&[Layout::default()], rng);
        WAYS[way](&mut input, rng);
        (call.columns, call.numbers) = (columns_of(&input), input.numbers);
        let values = call.wanted_values();
        if values <= MOST_ARGUMENTS as u64 {
            call.arguments.resize_with(values as usize, || random_element(1, rng));
        }
        if both {
            make_call_unequal(&mut call, Column::List(1), rng);
        }
        let is_unequal = call.lists[1].len() != count || call.arguments.len() as u64 != values;
        let ways = model::malformed(&call.numbers, call.columns);
        if ways.len() == 1 && is_unequal == both {
            return call;
        }
    }
}
