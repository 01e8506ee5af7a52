//! Columns with no offsets at all, which have no rows: in each list alone and in both, beside values
//! and bitmaps or without them, with a slot for the one offset of the result or without it. Beside
//! each such call stands the same call with one offset in these lists: both must answer alike.

use crate::compare::Checker;
use crate::entry::{Case, Content, Entry, Input, Kind};
use crate::generate::{input_of, lend, random_element, random_layouts, Column, Room};
use crate::model::{self, Bitmap, ListColumn, Role, Shown};
use crate::recipe_generate::{code_of, random_station, RecipeCall};
use crate::rng::Rng;

/// Values lent beside no offsets, and the bytes of their bitmap; nine values take two bytes.
const BESIDE: [(usize, usize); 9] =
    [(0, 0), (0, 1), (3, 0), (3, 1), (8, 1), (9, 0), (9, 1), (9, 2), (9, 3)];

pub fn every_form(checker: &mut Checker, entry: Entry, rng: &mut Rng, _calls: u64) {
    for _ in 0..4 {
        check_forms(checker, &input_without_rows(entry, rng), rng);
    }
}

pub fn every_form_of_recipes(checker: &mut Checker, entry: Entry, rng: &mut Rng, _calls: u64) {
    for steps in 0..4 {
        check_forms(checker, &recipe_without_rows(entry, steps, rng), rng);
    }
    let mut malformed = recipe_without_rows(entry, 1, rng);
    malformed.numbers.push(0);
    check_forms(checker, &malformed, rng);
}

/// No rows in any column; one limit may still be lent.
fn input_without_rows(entry: Entry, rng: &mut Rng) -> Input {
    let argument = |role: &Role| match role {
        Role::Limit if rng.chance(1, 2) => vec![random_element(1, rng)],
        _ => Vec::new(),
    };
    let arguments = entry.roles().iter().map(argument).collect();
    let shown = Shown { lists: vec![Vec::new(); entry.lists()], arguments };
    input_of(entry, &shown, &random_layouts(entry, rng), rng)
}

fn recipe_without_rows(entry: Entry, steps: usize, rng: &mut Rng) -> Input {
    let columns = rng.pick(&[1, 8]);
    let step = |_| {
        let operation = rng.pick(&model::CODES);
        let mut step = [code_of(operation), 0, 0, 0];
        step[1..1 + operation.roles().len()].fill_with(|| rng.below(columns) as u32);
        step
    };
    let numbers = (0..steps).flat_map(step).collect();
    let lists = [Vec::new(), Vec::new()];
    let station = random_station(rng);
    let (width, arguments) = (entry.width, Vec::new());
    let call = RecipeCall { width, station, numbers, columns, lists, arguments };
    call.laid_out(&random_layouts(entry, rng), rng)
}

/// Every choice of lists without offsets and of what stands beside them; the other columns have no
/// rows either, or one of them has nine.
fn check_forms(checker: &mut Checker, input: &Input, rng: &mut Rng) {
    for lists in 1..1usize << input.lists.len() {
        let lists: Vec<usize> = (0..input.lists.len()).filter(|at| lists >> at & 1 == 1).collect();
        for beside in BESIDE {
            let mut none = input.clone();
            for at in &lists {
                let beside = if *at == lists[0] { beside } else { rng.pick(&BESIDE) };
                none.lists[*at] = list_beside(beside, rng);
            }
            check_rooms(checker, &none, &lists, rng);
            if make_unequal(&mut none, &lists, rng) {
                check_rooms(checker, &none, &lists, rng);
            }
        }
    }
}

fn list_beside((values, bytes): (usize, usize), rng: &mut Rng) -> ListColumn {
    let row_bytes = rng.below(3);
    ListColumn {
        offsets: Vec::new(),
        rows: Bitmap::from_0(rng.bytes(row_bytes)),
        values: (0..values).map(|_| rng.next() as i64).collect(),
        elements: Bitmap::from_0(rng.bytes(bytes)),
    }
}

/// Gives nine rows to some column other than these lists; false where there is no other.
fn make_unequal(input: &mut Input, lists: &[usize], rng: &mut Rng) -> bool {
    let mut columns = Column::all(input.entry);
    columns.retain(|column| !lists.iter().any(|at| *column == Column::List(*at)));
    if columns.is_empty() {
        return false;
    }
    match rng.pick(&columns) {
        Column::List(at) => {
            input.lists[at] = ListColumn { offsets: vec![0; 10], ..ListColumn::default() };
        }
        Column::Argument(at) => {
            input.arguments[at].values = vec![1; 9];
            input.arguments[at].bits.bytes.clear();
        }
    }
    true
}

/// Each slice of offsets that is lent for a tray or a result with a slot and without.
fn check_rooms(checker: &mut Checker, none: &Input, lists: &[usize], rng: &mut Rng) {
    let mut one = none.clone();
    for at in lists {
        let first = rng.below(none.lists[*at].values.len() + 1);
        one.lists[*at].offsets = vec![first as i64];
    }
    let slices = none.entry.outputs().iter().enumerate();
    let slices = slices.filter(|(_, kind)| kind.content == Content::Offsets);
    let slices: Vec<usize> = slices.map(|(at, _)| at).collect();
    for lent in 0..1usize << slices.len() {
        let mut case = lend(none, Room::Longer(rng.below(3)), rng);
        for (place, at) in slices.iter().enumerate() {
            let slots = if lent >> place & 1 == 1 { 1 + rng.below(2) } else { 0 };
            case.outputs[*at] = rng.bytes(none.entry.width.bytes() * slots);
        }
        check_both(checker, &case, &one, wanted(none, &case));
    }
}

/// The answer, by hand: 10 for a recipe with a number too many, 2 for a bitmap that does not cover
/// the values, 3 for a column with rows, 9 where a place that is written has no slot for its offset.
fn wanted(none: &Input, case: &Case) -> u32 {
    let is_short = |list: &ListColumn| list.values.len() == 9 && list.elements.bytes.len() == 1;
    let has_rows = none.lists.iter().any(|list| list.offsets.len() > 1)
        || none.taken().iter().any(|argument| argument.values.len() > 1);
    let offsets = |at: usize| case.outputs[at].is_empty();
    let no_slot = match none.entry.kind {
        Kind::AnyValue | Kind::Element | Kind::ExportView => false,
        Kind::ListRepeat => offsets(0) || offsets(2),
        Kind::Recipe { .. } => {
            let steps = none.numbers.len() / 4;
            steps > 1 && offsets(0) || steps > 2 && offsets(4) || offsets(8)
        }
        _ => offsets(0),
    };
    match () {
        _ if none.numbers.len() % 4 != 0 => 10,
        _ if none.lists.iter().any(is_short) => 2,
        _ if has_rows => 3,
        _ if no_slot => 9,
        _ => 0,
    }
}

/// The call, and the same with one offset in the lists that have none.
fn check_both(checker: &mut Checker, none: &Case, one: &Input, number: u32) {
    let mut other = none.clone();
    other.lend(one);
    let calls = [none, &other].map(|case| (case.clone(), checker.check(case)));
    let as_stated = none.expected().number == number;
    checker.require(as_stated, none, "a column with no offsets misjudged");
    if none.start().is_some() {
        checker.agree(&calls);
    } else {
        let alike = calls[0].1 == calls[1].1;
        checker.require(alike, none, "not refused as with one offset");
    }
}
