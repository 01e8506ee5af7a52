//! What typed calls alone meet: the one answer of a typed entry's own, starting bits and column
//! counts beyond 32 bits, inputs that are one slice, and columns beyond the sizes of the byte
//! entries, which refuse them.

use crate::compare::Checker;
use crate::entry::{Case, Content, Entry, Input, Kind, Route};
use crate::entry::{MOST_ROWS, MOST_VALUES, NOT_SERVED, TALLY};
use crate::generate::*;
use crate::groups::{check_answer, damage_some_column};
use crate::model::{ArgumentColumn, Row, Shown, Width};
use crate::recipe_generate::{accepted_recipe, no_station, recipe_input, Draft};
use crate::recipe_groups::{laid_out, shape_with_rows};
use crate::rng::Rng;

/// The typed call must be given this answer.
fn require_typed(checker: &mut Checker, case: &Case, number: u32, what: &str) {
    let observed = checker.check_typed(case);
    checker.require(observed.number == number, case, what);
}

// 100.

/// What a call is made to be, besides what gives it 100.
#[derive(Clone, Copy, PartialEq)]
enum Otherwise {
    Accepted,
    /// Refused with 13, 1, 2 or 3, or with 10 or 15 if it is a recipe.
    Refused(u32),
    Short,
}

/// Codes that a typed entry serves or not: all the first ones, and such as a part of whose bits is
/// one of these.
fn codes() -> Vec<u32> {
    let mut codes: Vec<u32> = (0..=40).collect();
    codes.extend((8..32).flat_map(|bit| (0..=13).map(move |code| (1u32 << bit) | code)));
    codes.extend([255, 65535, u32::MAX - 1, u32::MAX]);
    codes
}

/// Whether the typed entry of this one serves a code, by the table of codes.
fn is_served(entry: Entry, code: u32) -> bool {
    match entry.kind {
        Kind::Lists(_) | Kind::ListsHashed(_) => matches!(code, 9 | 10),
        _ => matches!(code, 0..=8 | 11),
    }
}

/// A call that is accepted, refused for a column, or refused for its first output; its code and its
/// counts are good.
fn call_of(entry: Entry, otherwise: Otherwise, rng: &mut Rng) -> Case {
    loop {
        let shown = damageable_shown(entry, rng);
        let mut input = input_of(entry, &shown, &[damageable_layout(rng)], rng);
        if let Otherwise::Refused(number) = otherwise {
            if damage_some_column(&mut input, number, rng).is_none() {
                return call_of(entry, Otherwise::Refused(1), rng);
            }
        }
        let room = if otherwise == Otherwise::Short { Room::Short(0, 1) } else { Room::Longer(1) };
        let case = lend(&input, room, rng);
        if needed_slots(&input)[0] > 0 {
            return case;
        }
    }
}

const OTHERWISE: [Otherwise; 6] = [
    Otherwise::Accepted,
    Otherwise::Refused(13),
    Otherwise::Refused(1),
    Otherwise::Refused(2),
    Otherwise::Refused(3),
    Otherwise::Short,
];

/// Every code, and counts of every length to two more than are needed, beside calls that are
/// accepted and refused.
pub fn entry_answers(checker: &mut Checker, entry: Entry, rng: &mut Rng, _calls: u64) {
    let needed = entry.count_bytes() / 8;
    for otherwise in OTHERWISE {
        for counts in 0..=needed + 2 {
            let mut case = call_of(entry, otherwise, rng);
            case.counts = rng.bytes(8 * counts);
            let observed = checker.check_typed(&case);
            let short = observed.number == NOT_SERVED;
            checker.require(short == (counts < needed), &case, "typed counts misjudged");
            for code in (0..=13).filter_map(|code| entry.with_code(code)) {
                let mut case = Case { entry: code, ..call_of(entry, otherwise, rng) };
                case.counts = rng.bytes(8 * counts);
                checker.check_typed(&case);
            }
        }
        for code in codes() {
            let Some(coded) = entry.with_code(code) else {
                continue;
            };
            let case = Case { entry: coded, ..call_of(entry, otherwise, rng) };
            let observed = checker.check_typed(&case);
            let served = observed.number != NOT_SERVED;
            checker.require(served == is_served(entry, code), &case, "a typed code misjudged");
        }
    }
}

/// Counts of every length to 6 and tallies of every length to 34 beside recipes that are accepted
/// and refused, for a station or for none; the trays are dirty.
pub fn recipe_answers(checker: &mut Checker, entry: Entry, rng: &mut Rng, _calls: u64) {
    for counts in 0..=6 {
        for tally in 0..=34 {
            for otherwise in [
                Otherwise::Accepted,
                Otherwise::Refused(15),
                Otherwise::Refused(10),
                Otherwise::Refused(13),
                Otherwise::Short,
            ] {
                let mut case = recipe_call(entry.width, otherwise, rng);
                case.counts = rng.bytes(8 * counts);
                case.outputs[TALLY] = rng.bytes(8 * tally);
                let short = counts < 4 || tally < 32;
                let number = match otherwise {
                    _ if short => NOT_SERVED,
                    Otherwise::Accepted => 0,
                    Otherwise::Refused(number) => number,
                    Otherwise::Short => 9,
                };
                require_typed(checker, &case, number, "typed counts or a tally misjudged");
            }
        }
    }
}

fn recipe_call(width: Width, otherwise: Otherwise, rng: &mut Rng) -> Case {
    let shape = RowShape { count: 1 + rng.below(12), ..shape_with_rows(rng) };
    let mut input = laid_out(&accepted_recipe(width, shape, rng.below(4), rng), rng);
    match otherwise {
        Otherwise::Refused(10) => input.numbers.push(0),
        Otherwise::Refused(15) => input.entry = input.entry.with_station(no_station(rng)),
        Otherwise::Refused(_) => input.lists[1].elements.start = start_over_7(rng),
        Otherwise::Accepted | Otherwise::Short => (),
    }
    let room = if otherwise == Otherwise::Short { Room::Short(8, 1) } else { Room::Longer(2) };
    let mut case = lend(&input, room, rng);
    for tray in &mut case.outputs[..TALLY] {
        tray.iter_mut().for_each(|byte| *byte |= 1);
    }
    case
}

// Numbers beyond 32 bits.

/// Such as are 0 to 7 in their lowest 32 bits, and the largest.
pub const FAR_STARTS: [usize; 7] =
    [1 << 32, (1 << 32) | 3, (1 << 32) | 8, (5 << 32) | 7, 1 << 63, usize::MAX - 7, usize::MAX];

/// A starting bit beyond 32 bits gives 13, beside a bitmap or without one; that of a column which
/// is not taken is not looked at. A recipe of so many columns is malformed.
pub fn far_starts(checker: &mut Checker, entry: Entry, rng: &mut Rng, _calls: u64) {
    for start in FAR_STARTS {
        for at in 0..entry.bitmaps().len() {
            for absent in [false, true] {
                let mut case = accepted_call(entry, rng);
                let bits = bitmap_slice(entry, at);
                case.starts[at] = start;
                if absent {
                    case.inputs[bits].clear();
                }
                let taken = at < entry.taken_bitmaps().len();
                let number = if taken { 13 } else { 0 };
                require_typed(checker, &case, number, "a starting bit beyond 32 bits misjudged");
            }
        }
        if entry.is_recipe() {
            for less in 0..8 {
                let mut case = accepted_call(entry, rng);
                case.entry = case.entry.with_columns(start - start.min(less));
                require_typed(checker, &case, 10, "columns beyond 32 bits misjudged");
            }
        }
    }
}

fn accepted_call(entry: Entry, rng: &mut Rng) -> Case {
    if entry.is_recipe() {
        return recipe_call(entry.width, Otherwise::Accepted, rng);
    }
    let shape = RowShape { count: 1 + rng.below(9), longest: 3, ..small_shape(rng) };
    let layouts = random_layouts(entry, rng);
    lend(&input_of(entry, &random_shown(entry, shape, rng), &layouts, rng), Room::Longer(1), rng)
}

/// The input slice of a bitmap.
fn bitmap_slice(entry: Entry, bitmap: usize) -> usize {
    let kinds = entry.inputs().into_iter().enumerate();
    let mut bitmaps = kinds.filter(|(_, kind)| kind.content == Content::Bits);
    bitmaps.nth(bitmap).expect("a bitmap of the entry").0
}

// Inputs that lie in one place.

/// A list beside itself, and argument columns that are one, or the values of the list; inputs that
/// are equal are lent as one slice.
pub fn shared_inputs(checker: &mut Checker, entry: Entry, rng: &mut Rng, _calls: u64) {
    checker.shares = true;
    for _ in 0..60 {
        let shape = RowShape { longest: 3, ..small_shape(rng) };
        let rows: Vec<Row> = match rng.below(2) {
            0 => random_rows(shape, rng),
            _ => (0..shape.count).map(|_| Some(vec![Some(rng.between(1, 3))])).collect(),
        };
        let layout = Layout { absent_bitmaps: rng.chance(1, 2), ..Layout::default() };
        let list = lay_out(&rows, layout, rng);
        let column = match list.values.len() == rows.len() {
            true => ArgumentColumn { values: list.values.clone(), bits: list.elements.clone() },
            false => lay_out_argument(&vec![Some(rng.between(1, 3)); rows.len()], layout, rng),
        };
        let lists = vec![list; entry.lists()];
        let arguments = vec![column; entry.arguments()];
        checker.check(&lend(
            &Input { entry, numbers: Vec::new(), lists, arguments },
            Room::Any,
            rng,
        ));
    }
}

/// The same for recipes, of up to three steps.
pub fn shared_inputs_of_recipes(checker: &mut Checker, entry: Entry, rng: &mut Rng, _calls: u64) {
    checker.shares = true;
    for _ in 0..200 {
        let shape = shape_with_rows(rng);
        let mut shown = accepted_recipe(entry.width, shape, rng.below(4), rng);
        shown.lists[1] = shown.lists[0].clone();
        let layout = Layout { absent_bitmaps: rng.chance(1, 2), ..Layout::default() };
        checker.check(&lend(&recipe_input(&shown, &[layout], rng), Room::Any, rng));
    }
}

// Sizes.

/// The typed call must be given this answer, whatever its sizes; the byte entry, if there is one,
/// refuses them.
fn require_over(checker: &mut Checker, case: &Case, number: u32, what: &str) {
    require_typed(checker, case, number, what);
    if checker.makes(Route::Bytes) && !case.entry.is_typed_only() {
        check_answer(checker, case, 101);
    }
}

/// Shapes of more rows, or of more values, than the byte entries take.
const SHAPES_OVER: [(usize, usize); 6] =
    [(MOST_ROWS + 1, 3), (5000, 9), (9000, 2), (80, 900), (MOST_ROWS + 8, 1), (7000, 4)];

fn shape_over((count, longest): (usize, usize), rng: &mut Rng) -> RowShape {
    let null_rows = rng.pick(&[0, 1]);
    RowShape { count, longest, null_rows, most_values: 9 * MOST_VALUES, ..small_shape(rng) }
}

/// Rows and arguments over size; no row is refused.
fn shown_over(entry: Entry, shape: RowShape, rng: &mut Rng) -> Shown {
    let lists = random_lists(entry, shape, rng);
    let left = Left { inner_rows: 100_000, elements: 200_000 };
    let null_eighths = rng.pick(&[0, 1]);
    Shown { arguments: columns_within(entry, &lists, null_eighths, left, rng), lists }
}

/// The same rows over size in each fixed layout: all calls share one answer.
pub fn same_rows_over_sizes(checker: &mut Checker, entry: Entry, rng: &mut Rng, _calls: u64) {
    for shape in [SHAPES_OVER[0], SHAPES_OVER[3]] {
        let shown = shown_over(entry, shape_over(shape, rng), rng);
        let mut first = None;
        for layout in layouts() {
            let input = input_of(entry, &shown, &[layout], rng);
            let case = lend_typed(&input, Room::Longer(1), rng);
            let observed = checker.check_typed(&case);
            let shared = first.get_or_insert_with(|| observed.clone()) == &observed;
            checker.require(shared, &case, "another answer than in the first layout");
        }
    }
}

/// Columns a row or a value over size and more; every damage done to one of them; outputs one slot
/// short; and rows over size that are not shown.
pub fn over_sizes(checker: &mut Checker, entry: Entry, rng: &mut Rng, _calls: u64) {
    for (round, shape) in SHAPES_OVER.into_iter().enumerate() {
        let shown = shown_over(entry, shape_over(shape, rng), rng);
        let layouts = random_layouts(entry, rng);
        let input = input_of(entry, &shown, &layouts, rng);
        let room = if round % 2 == 0 { Room::Exact } else { Room::Longer(3) };
        require_over(checker, &lend_typed(&input, room, rng), 0, "over size, and yet refused");
        let slice = round % entry.results().len();
        if needed_slots(&input)[slice] > 0 {
            let case = lend_typed(&input, Room::Short(slice, 1), rng);
            require_over(checker, &case, 9, "too short, and yet accepted");
        }
    }
    for harm in Harm::of(entry) {
        let mut input = hidden_over(entry, rng);
        if !harm.is_possible(&input) {
            continue;
        }
        let before = lend_typed(&input, Room::Longer(1), rng);
        require_over(checker, &before, 0, "values that are not shown misjudged");
        harm.apply(&mut input, rng);
        let case = lend_typed(&input, Room::Longer(1), rng);
        match harm.refusal() {
            Some(number) => require_over(checker, &case, number, "damage over size misjudged"),
            None => drop(checker.check_typed(&case)),
        }
    }
}

/// Few rows shown, and more values than the byte entries take behind them and under null rows.
fn hidden_over(entry: Entry, rng: &mut Rng) -> Input {
    let shown = damageable_shown(entry, rng);
    let layout = Layout { behind: 9, ..damageable_layout(rng) };
    let mut input = input_of(entry, &shown, &[layout], rng);
    for list in &mut input.lists {
        let more = MOST_VALUES + rng.below(1000);
        list.values.extend((0..more).map(|_| random_value(rng)));
        let bytes = list.elements.needed(list.values.len());
        let missing = bytes - list.elements.bytes.len();
        list.elements.bytes.extend(rng.bytes(missing));
    }
    input
}

/// Recipes over more rows, values and arguments than the byte entry takes.
pub fn recipes_over_sizes(checker: &mut Checker, entry: Entry, rng: &mut Rng, _calls: u64) {
    for steps in [0, 1, 2, 3, 5, 8] {
        for shape in [SHAPES_OVER[0], SHAPES_OVER[2], SHAPES_OVER[3]] {
            let width = entry.width;
            let lists = random_lists(Kind::Lists(9).at(width), shape_over(shape, rng), rng);
            let lists = [lists[0].clone(), lists[1].clone()];
            let mut draft = Draft::over(width, lists, 8, 0, rng);
            draft.most = 20 * MOST_VALUES;
            (0..steps).for_each(|_| draft.add_some(rng));
            let input = laid_out(&draft.finish(rng).accepted, rng);
            for room in [Room::Exact, Room::Longer(2)] {
                let case = lend_typed(&input, room, rng);
                require_over(checker, &case, 0, "over size, and yet refused");
            }
            let case = lend_typed(&input, Room::Short(8, 1), rng);
            require_over(checker, &case, 9, "too short, and yet accepted");
        }
    }
}
