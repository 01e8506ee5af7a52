//! The groups of checks for recipes.

use crate::compare::Checker;
use crate::entry::{
    encode_u32, Case, Entry, Input, Kind, SliceKind, MOST_ARGUMENTS, MOST_ROWS, MOST_VALUES,
};
use crate::entry::{TALLY, TALLY_BYTES, TRAYS};
use crate::generate::*;
use crate::groups::random_starts;
use crate::groups::{check_answer, check_first, counts_of_every_length, damage_some_column};
use crate::groups::{grow, make_ragged, not_served, over_size, ragged_slice, random_slice};
use crate::groups::{ragged_end, slice_over_size, Holding, NumberSlice, Run};
use crate::model::{self, Element, RecipeShown, Row, Width, CODES, UNDER_NULL};
use crate::no_offsets;
use crate::pairs;
use crate::recipe_generate::*;
use crate::recipe_lengths;
use crate::rng::Rng;
use crate::starts;
use crate::stations::{self, set_tally, tally_with};
use crate::strides;
use crate::worked;

/// Each group with its part of the random calls; those that take long come last.
pub const ALL: [(&str, Run, u64); 20] = [
    ("random recipes", random_recipes, 14),
    ("layouts of the same rows", pairs::same_rows, 10),
    ("refused steps", refused_steps, 8),
    ("malformed recipes", malformed_recipes, 6),
    ("damaged columns", damaged_columns, 3),
    ("order of refusals", order_of_refusals, 6),
    ("tray and output lengths", lengths, 6),
    ("tallies", tallies, 1),
    ("one tally through many calls", stations::chains, 1),
    ("answers of the entry", entry_answers, 1),
    ("random bytes", random_bytes, 6),
    ("worked cases", worked::recipes, 0),
    ("every station, exhaustive", stations::every_station, 0),
    ("trays and output of every length, exhaustive", recipe_lengths::every_slice, 0),
    ("strides in a step", strides::every_stride_of_a_step, 0),
    ("no offsets, exhaustive", no_offsets::every_form_of_recipes, 0),
    ("starting bits, exhaustive", starts::every_start, 0),
    ("row counts and argument lengths, exhaustive", every_length, 0),
    ("short recipes, exhaustive", short_recipes, 0),
    ("codes one after another, exhaustive", every_pair, 0),
];

/// A shape with few null rows, so that steps have something to do.
pub fn shape_with_rows(rng: &mut Rng) -> RowShape {
    RowShape { null_rows: rng.pick(&[0, 1, 1, 4]), ..small_shape(rng) }
}

fn some_shape(rng: &mut Rng) -> RowShape {
    match rng.below(200) {
        0 => large_shape(rng),
        1 => long_row_shape(rng),
        2..60 => small_shape(rng),
        _ => shape_with_rows(rng),
    }
}

pub fn laid_out(shown: &RecipeShown, rng: &mut Rng) -> Input {
    let layouts = random_layouts(Entry::recipes(shown.width), rng);
    recipe_input(shown, &layouts, rng)
}

pub fn require_number(checker: &mut Checker, case: &Case, number: u32, what: &str) {
    checker.check(case);
    checker.require(case.expected().number == number, case, what);
}

// Random recipes.

fn random_recipes(checker: &mut Checker, entry: Entry, rng: &mut Rng, calls: u64) {
    for steps in (0..=32).flat_map(|steps| [steps; 3]) {
        let shape = RowShape { longest: 4, ..shape_with_rows(rng) };
        let shown = accepted_recipe(entry.width, shape, steps, rng);
        let room = rng.pick(&[Room::Exact, Room::Longer(1)]);
        let case = lend_recipe(&laid_out(&shown, rng), room, rng);
        require_number(checker, &case, 0, "made to be accepted, and yet refused");
    }
    for count in [0, 1, 7, 8, 9, 15, 16, 17, 4095, 4096] {
        let shape = RowShape { count, most_values: MOST_VALUES, ..shape_with_rows(rng) };
        let shape = RowShape { longest: 2, ..shape };
        let shown = accepted_recipe(entry.width, shape, rng.below(5), rng);
        checker.check(&lend_recipe(&laid_out(&shown, rng), Room::Exact, rng));
    }
    while checker.calls < calls {
        let input = random_input(entry, some_shape(rng), rng);
        checker.check(&lend_recipe(&input, Room::Any, rng));
    }
}

// Refused steps.

/// Each refusal of a step at each of the first steps, with steps behind it; now and then a tray or
/// the output is short besides.
fn refused_steps(checker: &mut Checker, entry: Entry, rng: &mut Rng, calls: u64) {
    while checker.calls < calls.max(1000) {
        for number in refusals_of_steps(entry.width).iter().copied() {
            let (before, behind) = (rng.pick(&[0, 1, 2, 3, 4, 9, 30]), rng.pick(&[0, 0, 1, 4]));
            let behind = behind.min(31 - before);
            let shape = RowShape { longest: 4, ..shape_with_rows(rng) };
            let Some(shown) = refused_recipe(entry.width, shape, before, number, behind, rng)
            else {
                continue;
            };
            let input = laid_out(&shown, rng);
            let room = rng.pick(&[Room::Exact, Room::Longer(2)]);
            let case = lend_recipe(&input, room, rng);
            require_number(checker, &case, number, "a step is made to be refused, and is not");
            let slice = rng.below(TRAYS.len());
            checker.check(&lend_recipe(&input, Room::Short(slice, 1), rng));
        }
    }
}

// Malformed recipes.

/// The ways to make a recipe malformed; they change its numbers or how many columns it has.
pub const WAYS: [fn(&mut Input, &mut Rng); 6] = [
    spoil_length,
    spoil_step_count,
    spoil_code,
    spoil_column_count,
    spoil_used_number,
    spoil_unused_number,
];

fn spoil_length(input: &mut Input, rng: &mut Rng) {
    let odd = 1 + rng.below(3);
    if input.numbers.is_empty() || rng.chance(1, 2) {
        input.numbers.extend((0..odd).map(|_| rng.below(11) as u32));
    } else {
        input.numbers.truncate(input.numbers.len() - odd);
    }
}

/// Reverses until there are too many steps.
fn spoil_step_count(input: &mut Input, rng: &mut Rng) {
    let steps = rng.pick(&[33, 33, 33, 34, 64, 256, 257, 3000]);
    input.numbers.resize(4 * steps, 0);
}

/// A step of the recipe, which may have to be added.
fn some_step(input: &mut Input, wanted: impl Fn(u32) -> bool, rng: &mut Rng) -> usize {
    let steps = input.numbers.chunks_exact(4).enumerate();
    let steps = steps.filter(|(_, step)| wanted(step[0])).map(|(at, _)| 4 * at);
    let steps: Vec<usize> = steps.collect();
    if !steps.is_empty() {
        return rng.pick(&steps);
    }
    let codes: Vec<u32> = (0..11).filter(|code| wanted(*code)).collect();
    let at = input.numbers.len().min(4 * 31);
    input.numbers.truncate(at);
    input.numbers.extend([rng.pick(&codes), 0, 0, 0]);
    at
}

fn roles_of(code: u32) -> usize {
    CODES.get(code as usize).map_or(0, |operation| operation.roles().len())
}

fn spoil_code(input: &mut Input, rng: &mut Rng) {
    let at = some_step(input, |_| true, rng);
    let code = input.numbers[at];
    let far = [11, 11, 12, 255, 256 + code, 65536 + code, 1 << 31 | code, u32::MAX];
    input.numbers[at] = rng.pick(&far);
}

fn spoil_column_count(input: &mut Input, rng: &mut Rng) {
    let columns = rng.pick(&[9, 9, 9, 10, 16, 256, 264, 1 << 31, u32::MAX as usize]);
    input.entry = input.entry.with_columns(columns);
}

/// Lends values for all columns, unless these are too many.
pub fn suit_arguments(input: &mut Input) {
    let rows = input.lists[0].row_count();
    let values = columns_of(input) * rows;
    let arguments = &mut input.arguments[0];
    if arguments.values.len() < values && values <= MOST_ARGUMENTS {
        arguments.values.resize(values, 1);
        let bytes = arguments.bits.needed(values);
        arguments.bits.bytes = vec![0xff; bytes];
    }
}

pub fn columns_of(input: &Input) -> usize {
    input.entry.columns()
}

fn spoil_used_number(input: &mut Input, rng: &mut Rng) {
    let columns = columns_of(input) as u32;
    let at = some_step(input, |code| roles_of(code) > 0, rng);
    let place = at + 1 + rng.below(roles_of(input.numbers[at]));
    let number = input.numbers[place];
    let next = columns.saturating_add(1);
    let absent = [columns, columns, next, 8, 256 + number, 1 << 31 | number, u32::MAX];
    input.numbers[place] = rng.pick(&absent).max(columns);
}

fn spoil_unused_number(input: &mut Input, rng: &mut Rng) {
    let at = some_step(input, |code| roles_of(code) < 3, rng);
    let used = roles_of(input.numbers[at]);
    let place = at + 1 + used + rng.below(3 - used);
    input.numbers[place] = rng.pick(&[1, 1, 2, 8, 256, 1 << 16, 1 << 24, 1 << 31, u32::MAX]);
}

fn malformed_recipes(checker: &mut Checker, entry: Entry, rng: &mut Rng, calls: u64) {
    while checker.calls < calls.max(1200) {
        for spoil in WAYS {
            let mut input = damageable_recipe(entry.width, rng.below(5), rng);
            spoil(&mut input, rng);
            suit_arguments(&mut input);
            if rng.chance(1, 8) {
                // Not the length once more, which could become whole again.
                rng.pick(&WAYS[1..])(&mut input, rng);
            }
            if rng.chance(1, 2) {
                damage_some_column(&mut input, rng.pick(&[1, 2, 3, 13]), rng);
            }
            let case = lend_recipe(&input, Room::Any, rng);
            require_number(checker, &case, 10, "the model does not see that it is malformed");
        }
    }
}

// Damage, and the order of refusals.

/// Lists that every damage can be done to.
pub fn damageable_lists(width: Width, rng: &mut Rng) -> [Vec<Row>; 2] {
    let shown = damageable_shown(Entry::of(model::Operation::Union, width), rng);
    let [first, second] = &shown.lists[..] else { panic!("two lists of a union") };
    [first.clone(), second.clone()]
}

/// A recipe that every damage can be done to, with one argument column or more.
pub fn damageable_recipe(width: Width, steps: usize, rng: &mut Rng) -> Input {
    let columns = rng.pick(&[1, 2, 3, 8]);
    let mut draft = Draft::over(width, damageable_lists(width, rng), columns, 1, rng);
    (0..steps).for_each(|_| draft.add_some(rng));
    let shown = draft.finish(rng).accepted;
    recipe_input(&shown, &[damageable_layout(rng)], rng)
}

fn damaged_columns(checker: &mut Checker, entry: Entry, rng: &mut Rng, calls: u64) {
    let harms = Harm::of(entry);
    while checker.calls < calls.max(harms.len() as u64 * 20) {
        for harm in &harms {
            let mut input = damageable_recipe(entry.width, rng.below(4), rng);
            if !harm.is_possible(&input) {
                continue;
            }
            harm.apply(&mut input, rng);
            let case = lend_recipe(&input, Room::Longer(2), rng);
            let number = case.expected().number;
            let as_stated = match harm.refusal() {
                Some(refusal) => number == refusal,
                None => number == 0 || (4..=9).contains(&number),
            };
            checker.check(&case);
            checker.require(as_stated, &case, "the model does not see the damage that was done");
            checker.covered(&case, "damage", harm.name(entry));
        }
    }
}

/// A call, and the conditions of refusals that were made to hold in it, the last one the first to
/// be answered.
struct Refused {
    finished: Finished,
    layout: Layout,
    input: Input,
    case: Case,
    holding: Holding,
}

/// One condition is added after another, from the last refusal to the first.
fn order_of_refusals(checker: &mut Checker, entry: Entry, rng: &mut Rng, calls: u64) {
    while checker.calls < calls.max(1500) {
        let of_step = rng.pick(refusals_of_steps(entry.width));
        let Some(mut refused) = Refused::new(entry.width, of_step, rng) else {
            continue;
        };
        require_number(checker, &refused.case, 0, "made to be accepted, and yet refused");
        for number in [9, of_step, 3, 2, 1, 13, 10, 15, 101, 100] {
            if !rng.chance(1, 3) && refused.add(number, rng) {
                check_first(checker, entry, &refused.case, &refused.holding);
            }
        }
    }
}

impl Refused {
    /// A call that is accepted, whose first step can be made to give this refusal; the others write
    /// behind it.
    fn new(width: Width, of_step: u32, rng: &mut Rng) -> Option<Refused> {
        let lists = damageable_lists(width, rng);
        let mut draft = Draft::over(width, lists, 3 + rng.below(6), 0, rng);
        if !draft.add_refusable(of_step, rng) {
            return None;
        }
        (0..rng.below(4)).for_each(|_| draft.add_some(rng));
        let (finished, layout) = (draft.finish(rng), damageable_layout(rng));
        let input = recipe_input(&finished.accepted, &[layout], rng);
        let case = lend_recipe(&input, Room::Exact, rng);
        Some(Refused { finished, layout, input, case, holding: Holding::new() })
    }

    /// Makes the condition of a refusal hold; false where it cannot.
    fn add(&mut self, number: u32, rng: &mut Rng) -> bool {
        let mut column = None;
        match number {
            1..=3 | 13 => {
                column = damage_some_column(&mut self.input, number, rng);
                if column.is_none() {
                    return false;
                }
            }
            9 => shorten_some_slice(&mut self.case, rng),
            10 => rng.pick(&WAYS)(&mut self.input, rng),
            15 => self.input.entry = self.input.entry.with_station(no_station(rng)),
            100 if self.case.entry.is_wide() => drop(not_served(&mut self.case, rng)),
            101 if self.case.entry.is_wide() => return false,
            100 => drop(make_ragged(&mut self.case, rng)),
            101 => drop(over_size(&mut self.case, rng)),
            _ => self.input = recipe_input(&self.finished.refused, &[self.layout], rng),
        }
        if number != 9 && number <= 15 {
            self.case.lend(&self.input);
        }
        self.holding.push((number, column));
        true
    }
}

/// Cuts a slice of a tray or of the output, which were lent exactly, by one slot or to nothing.
pub fn shorten_some_slice(case: &mut Case, rng: &mut Rng) {
    let mut slices: Vec<usize> = (0..TALLY).collect();
    slices.retain(|slice| !case.outputs[*slice].is_empty());
    let slice = rng.pick(&slices);
    let less = case.outputs[slice].len() - case.entry.outputs()[slice].width;
    case.outputs[slice].truncate(rng.pick(&[less, less, 0]));
}

// Lengths of trays and outputs.

/// Every slice that is written exactly long enough, longer and one slot short; those that no step
/// writes are empty, or lent for nothing.
fn lengths(checker: &mut Checker, entry: Entry, rng: &mut Rng, calls: u64) {
    while checker.calls < calls.max(600) {
        let shape = if rng.chance(1, 200) { large_shape(rng) } else { shape_with_rows(rng) };
        let shown = accepted_recipe(entry.width, shape, random_steps(rng), rng);
        let input = laid_out(&shown, rng);
        for room in [Room::Exact, Room::Longer(1), Room::Longer(9)] {
            let case = lend_recipe(&input, room, rng);
            require_number(checker, &case, 0, "long enough, and yet refused");
        }
        for (slice, needed) in recipe_slots(&input).into_iter().enumerate() {
            if needed > 0 {
                let case = lend_recipe(&input, Room::Short(slice, rng.pick(&[0, 2])), rng);
                require_number(checker, &case, 9, "too short, and yet accepted");
            }
        }
    }
}

// Tallies.

const COUNTS: [u64; 10] = [
    0,
    1,
    255,
    65535,
    4294967295,
    4294967296,
    i64::MAX as u64,
    i64::MAX as u64 + 1,
    u64::MAX - 1,
    u64::MAX,
];

fn tallies(checker: &mut Checker, entry: Entry, rng: &mut Rng, calls: u64) {
    while checker.calls < calls.max(300) {
        for finished in COUNTS {
            for refused in COUNTS {
                let mut input = damageable_recipe(entry.width, rng.below(3), rng);
                match rng.below(8) {
                    0 => rng.pick(&WAYS)(&mut input, rng),
                    1 => drop(damage_some_column(&mut input, 1 + rng.below(3) as u32, rng)),
                    _ => (),
                }
                let room = rng.pick(&[Room::Exact, Room::Short(8, 0)]);
                let mut case = lend_recipe(&input, room, rng);
                let station = input.entry.recipe().0;
                set_tally(&mut case, tally_with(station, [finished, refused], rng));
                checker.check(&case);
            }
        }
    }
}

// Answers of the entry itself.

fn entry_answers(checker: &mut Checker, entry: Entry, rng: &mut Rng, calls: u64) {
    sizes_met_exactly(checker, rng);
    counts_of_every_length(checker, entry, rng);
    tallies_of_every_length(checker, entry, rng);
    for (slice, kind) in NumberSlice::all(entry) {
        ragged_slice(checker, entry, slice, kind, rng);
    }
    for (slice, kind) in NumberSlice::limited(entry) {
        slice_over_size(checker, entry, slice, kind, rng);
        many_numbers_beside(checker, entry, slice, kind, rng);
    }
    while checker.calls < calls {
        let mut case = lend_recipe(&random_input(entry, small_shape(rng), rng), Room::Any, rng);
        make_ragged(&mut case, rng);
        checker.check(&case);
    }
}

/// More numbers than a recipe has, beside a slice over size: 101 comes first.
fn many_numbers_beside(
    checker: &mut Checker,
    entry: Entry,
    slice: NumberSlice,
    kind: SliceKind,
    rng: &mut Rng,
) {
    let mut input = random_input(entry, small_shape(rng), rng);
    input.numbers.resize(rng.pick(&[129, 132, 1025, 1028, 5000]), 0);
    let mut case = lend_recipe(&input, Room::Any, rng);
    grow(slice.of(&mut case), kind.most.unwrap_or(0) + 1, kind, rng);
    check_answer(checker, &case, 101);
}

/// Every slice of numbers exactly as large as the entry takes: accepted. More numbers than a recipe
/// has are malformed, however many.
fn sizes_met_exactly(checker: &mut Checker, rng: &mut Rng) {
    let shape = RowShape {
        count: MOST_ROWS,
        longest: 3,
        most_values: MOST_VALUES,
        null_rows: 1,
        null_elements: 1,
    };
    for steps in [0, 1, 2, 5] {
        let mut draft = Draft::new(Width::Narrow, shape, 8, rng);
        (0..steps).for_each(|_| draft.add_some(rng));
        let shown = draft.finish(rng).accepted;
        let layout = Layout { behind: MOST_VALUES, numbers_under_nulls: true, ..Layout::default() };
        let input = recipe_input(&shown, &[layout], rng);
        let mut case = lend_recipe(&input, Room::Exact, rng);
        for (slice, kind) in NumberSlice::limited(case.entry) {
            grow(slice.of(&mut case), kind.most.unwrap_or(0), kind, rng);
        }
        for bitmap in case.outputs[..TALLY].iter_mut().skip(1).step_by(2) {
            // Bitmaps may have any length.
            bitmap.extend(rng.bytes(70_000));
        }
        require_number(checker, &case, 0, "at size, and yet refused");
        for numbers in [129, 132, 1024, 1025, 1028, 20_000] {
            case.inputs[0].resize(4 * numbers, 0);
            check_answer(checker, &case, 10);
        }
    }
}

fn tallies_of_every_length(checker: &mut Checker, entry: Entry, rng: &mut Rng) {
    for length in 0..TALLY_BYTES + 10 {
        let input = random_input(entry, RowShape { count: 3, ..small_shape(rng) }, rng);
        let mut case = lend_recipe(&input, Room::Longer(1), rng);
        case.outputs[TALLY] = rng.bytes(length);
        checker.check(&case);
        let short = case.expected().number == 100;
        checker.require(short == (length < TALLY_BYTES), &case, "a tally misjudged");
        if short {
            checker.covered(&case, "ragged", "tally");
        }
    }
}

// Random bytes in slices of random lengths.

/// The numbers of a few steps, well-formed or not.
pub fn random_numbers(rng: &mut Rng) -> Vec<u8> {
    let mut numbers = Vec::new();
    for _ in 0..rng.below(5) {
        let code = if rng.chance(1, 64) { rng.next() as u32 } else { rng.below(11) as u32 };
        numbers.push(code);
        for place in 0..3 {
            let used = place < roles_of(code) || rng.chance(1, 64);
            numbers.push(if used { rng.below(4) as u32 } else { 0 });
        }
    }
    if rng.chance(1, 64) {
        numbers.pop();
    }
    encode_u32(&numbers)
}

fn random_bytes(checker: &mut Checker, entry: Entry, rng: &mut Rng, calls: u64) {
    while checker.calls < calls.max(500) {
        checker.check(&random_case(entry.width, rng));
    }
}

pub fn random_case(width: Width, rng: &mut Rng) -> Case {
    let (rows, columns) = (rng.below(4), rng.pick(&[0, 2, 4, 4, 4, 8, 9]));
    let station = if rng.chance(1, 16) { no_station(rng) } else { random_station(rng) };
    let entry = Kind::Recipe { station, columns }.at(width);
    let arguments = rows * columns;
    let slice = |(at, kind)| random_slice(kind, if at == 9 { arguments } else { rows }, rng);
    let inputs = entry.inputs().into_iter().enumerate().map(slice).collect();
    let mut outputs = Vec::new();
    for kind in &entry.outputs()[..TALLY] {
        let bytes = rng.pick(&[0, 3, 6, 12, 20, 20]) * kind.width + ragged_end(*kind, rng);
        outputs.push(rng.bytes(bytes));
    }
    let near = |needed: usize, rng: &mut Rng| {
        let bytes = if rng.chance(1, 64) { rng.below(needed + 8) } else { needed + rng.below(9) };
        rng.bytes(bytes)
    };
    outputs.push(near(TALLY_BYTES, rng));
    let (starts, counts) = (random_starts(entry, rng), near(entry.count_bytes(), rng));
    Case { entry, inputs, starts, outputs, counts }
}

// Short recipes, all of them.

/// Elements over a small alphabet, null and the number of null slots among them.
const ELEMENTS: [Element; 5] = [None, Some(0), Some(UNDER_NULL), Some(7), Some(7)];

fn short_list(rows: usize, rng: &mut Rng) -> Vec<Row> {
    let row = |rng: &mut Rng| {
        let length = rng.below(5);
        (!rng.chance(1, 6)).then(|| (0..length).map(|_| rng.pick(&ELEMENTS)).collect())
    };
    (0..rows).map(|_| row(rng)).collect()
}

/// Argument columns of every length beside no rows to five and no columns to eight; and second
/// lists of every row count.
fn every_length(checker: &mut Checker, entry: Entry, rng: &mut Rng, _calls: u64) {
    for (rows, columns) in (0..=5).flat_map(|rows| (0..=8).map(move |columns| (rows, columns))) {
        for values in 0..=rows * columns + 2 {
            check_arguments(checker, entry.width, [rows, columns, values], rng);
        }
        for second in (0..=6).filter(|second| *second != rows) {
            let shown = recipe_over(entry.width, [rows, second], columns, rng);
            let input = laid_out(&shown, rng);
            let case = lend_recipe(&input, Room::Longer(1), rng);
            require_number(checker, &case, 3, "the rows of the second list misjudged");
        }
    }
}

/// So many argument values for these rows and columns, with bitmaps of every length.
fn check_arguments(
    checker: &mut Checker,
    width: Width,
    [rows, columns, values]: [usize; 3],
    rng: &mut Rng,
) {
    for more in [0, 1, 2] {
        let mut input = laid_out(&recipe_over(width, [rows, rows], columns, rng), rng);
        let arguments = &mut input.arguments[0];
        arguments.values = (0..values).map(|_| rng.between(-1, 3)).collect();
        let needed = arguments.bits.needed(values);
        arguments.bits.bytes = rng.bytes((needed + more).max(1) - 1);
        let bytes = arguments.bits.bytes.len();
        let case = lend_recipe(&input, Room::Longer(1), rng);
        checker.check(&case);
        let number = case.expected().number;
        let as_stated = match () {
            _ if bytes > 0 && bytes < needed => number == 2,
            _ if values != rows * columns => number == 3,
            _ => number == 0 || (4..=9).contains(&number),
        };
        checker.require(as_stated, &case, "the length of the arguments misjudged");
    }
}

/// A recipe of no steps to two over short rows.
fn recipe_over(width: Width, rows: [usize; 2], columns: usize, rng: &mut Rng) -> RecipeShown {
    let lists = rows.map(|rows| short_list(rows, rng));
    let beside = [lists[0].clone(), short_list(rows[0], rng)];
    let mut draft = Draft::over(width, beside, columns, 1, rng);
    (0..rng.below(3)).for_each(|_| draft.add_some(rng));
    RecipeShown { lists, ..draft.finish(rng).accepted }
}

/// Every recipe of one step over a few numbers, beside each number of columns, well-formed or not;
/// and reverses in every number, whole steps or not.
fn short_recipes(checker: &mut Checker, entry: Entry, rng: &mut Rng, _calls: u64) {
    const NUMBERS: [u32; 5] = [0, 1, 2, 7, 8];
    for columns in [0, 1, 2, 3, 8, 9] {
        for code in (0..=11).chain([u32::MAX]) {
            for first in NUMBERS {
                for second in NUMBERS {
                    for third in NUMBERS {
                        let numbers = [code, first, second, third];
                        check_short(checker, entry.width, columns, &numbers, rng);
                    }
                }
            }
        }
    }
    for length in 0..=140 {
        check_short(checker, entry.width, 1, &vec![0; length], rng);
    }
}

fn check_short(
    checker: &mut Checker,
    width: Width,
    columns: usize,
    numbers: &[u32],
    rng: &mut Rng,
) {
    const VALUES: [Element; 6] = [None, Some(-1), Some(0), Some(1), Some(1), Some(2)];
    let shown = RecipeShown {
        width,
        steps: Vec::new(),
        columns: (0..columns).map(|_| vec![rng.pick(&VALUES), rng.pick(&VALUES)]).collect(),
        lists: [short_list(2, rng), short_list(2, rng)],
    };
    let mut input = laid_out(&shown, rng);
    input.numbers = numbers.to_vec();
    checker.check(&lend_recipe(&input, Room::Any, rng));
}

/// The columns of a step in the group below, by the roles of its operation.
const COLUMNS_OF: [[u32; 3]; 11] = [
    [0, 0, 0],
    [0, 0, 0],
    [0, 0, 0],
    [0, 0, 0],
    [4, 1, 6],
    [4, 1, 0],
    [2, 5, 0],
    [3, 5, 0],
    [3, 7, 0],
    [0, 0, 0],
    [0, 0, 0],
];

/// What may stand in each of these columns.
const CHOICES: [&[Element]; 8] = [
    &[Some(1), Some(2), Some(9), None],
    &[Some(-1), Some(2), Some(3), Some(9)],
    &[Some(0), Some(2), Some(3), Some(5)],
    &[Some(7), Some(0), Some(UNDER_NULL), None],
    &[Some(1), Some(0), Some(2), Some(-3)],
    &[Some(7), Some(UNDER_NULL), None],
    &[Some(1), Some(1), Some(2), Some(-1)],
    &[Some(1), Some(2), Some(0), None],
];

/// Every code, every two and every three of them one after another, over short rows.
fn every_pair(checker: &mut Checker, entry: Entry, rng: &mut Rng, _calls: u64) {
    let width = entry.width;
    for first in 0..11 {
        (0..10).for_each(|_| check_codes(checker, width, &[first], rng));
        for second in 0..11 {
            (0..10).for_each(|_| check_codes(checker, width, &[first, second], rng));
            for third in 0..11 {
                (0..2).for_each(|_| check_codes(checker, width, &[first, second, third], rng));
            }
        }
    }
}

fn check_codes(checker: &mut Checker, width: Width, codes: &[u32], rng: &mut Rng) {
    let rows = 1 + rng.below(3);
    let shown = shown_by_codes(width, codes, rows, rng);
    checker.check(&lend_recipe(&laid_out(&shown, rng), Room::Any, rng));
}

/// A recipe of these codes over so many short rows.
pub fn shown_by_codes(width: Width, codes: &[u32], rows: usize, rng: &mut Rng) -> RecipeShown {
    let step = |code: &u32| {
        let [first, second, third] = COLUMNS_OF[*code as usize];
        [*code, first, second, third]
    };
    let column = |choices: &&[Element]| (0..rows).map(|_| rng.pick(choices)).collect();
    let columns = CHOICES.iter().map(column).collect();
    RecipeShown {
        width,
        steps: codes.iter().map(step).collect(),
        columns,
        lists: [short_list(rows, rng), short_list(rows, rng)],
    }
}
