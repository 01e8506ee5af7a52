//! What large lists alone meet: numbers about 2 to the 31, 32, 60, 63 and 64, which no index, bound,
//! stride or offset of 32 bits can be; sums at their limits, by rows that take no memory and by asking
//! how much to lend; and the same columns at both widths, which show equal rows where both calls are
//! accepted.

use crate::compare::{Checker, Observed};
use crate::entry::{decode_offsets, Case, Content, Entry, Input};
use crate::exhaustive::words;
use crate::generate::*;
use crate::lending_groups::{asking, require_limits};
use crate::model::{Element, ListColumn, Operation, RecipeShown, Role, Row, Shown, Width};
use crate::recipe_generate::{accepted_recipe, code_of, recipe_input};
use crate::recipe_groups::{laid_out, shape_with_rows};
use crate::rng::Rng;

/// About the ends of 32 bits with a sign and without, of 60 and of 64.
const FAR: [i64; 24] = [
    2147483647,
    2147483648,
    2147483649,
    -2147483647,
    -2147483648,
    -2147483649,
    4294967295,
    4294967296,
    4294967297,
    -4294967295,
    -4294967296,
    -4294967297,
    1152921504606846974,
    1152921504606846975,
    1152921504606846976,
    -1152921504606846975,
    -1152921504606846976,
    -1152921504606846977,
    9223372036854775806,
    9223372036854775807,
    -9223372036854775806,
    -9223372036854775807,
    -9223372036854775808,
    4611686018427387904,
];

/// Some of them, for arguments that are all far.
const FEW: [i64; 7] = [
    2147483648,
    -2147483649,
    4294967297,
    -4294967297,
    1152921504606846976,
    9223372036854775807,
    -9223372036854775808,
];

const NEAR: [i64; 7] = [-4, -3, -1, 0, 1, 2, 3];

// The same columns at both widths.

/// The call of large lists, with as many slots in each slice; the tally is the same.
fn widened(case: &Case, input: &Input, rng: &mut Rng) -> Case {
    let wide = Input { entry: Entry { width: Width::Wide, ..input.entry }, ..input.clone() };
    let kinds = case.entry.outputs().iter().zip(wide.entry.outputs());
    let slices = kinds.zip(&case.outputs).map(|((kind, wide_kind), bytes)| match kind.content {
        Content::Offsets => rng.bytes(bytes.len() / kind.width * wide_kind.width),
        _ => bytes.clone(),
    });
    Case::new(&wide, slices.collect(), case.counts.clone())
}

/// What a call gave, its offsets as numbers of 64 bits.
fn as_wide(entry: Entry, observed: &Observed) -> Observed {
    let kinds = entry.outputs()[entry.results()].iter().zip(&observed.written);
    let written = kinds.map(|(kind, bytes)| match kind.content {
        Content::Offsets => decode_offsets(bytes, entry.width)
            .iter()
            .flat_map(|offset| offset.to_le_bytes())
            .collect(),
        _ => bytes.clone(),
    });
    Observed { written: written.collect(), ..observed.clone() }
}

/// Random columns as lists and as large lists: the answers are equal, but where 4, 6 or 8 is given to
/// the former.
pub fn beside_narrow(checker: &mut Checker, entry: Entry, rng: &mut Rng, _calls: u64) {
    let narrow = Entry { width: Width::Narrow, ..entry };
    for round in 0..400 {
        let shape = match round % 40 {
            0 => long_row_shape(rng),
            _ if entry.is_recipe() => shape_with_rows(rng),
            _ => small_shape(rng),
        };
        let input = random_input(narrow, shape, rng);
        let case = lend_typed(&input, Room::Any, rng);
        let wide_case = widened(&case, &input, rng);
        let (one, other) = (checker.check_typed(&case), checker.check(&wide_case));
        let alike = as_wide(case.entry, &one) == as_wide(wide_case.entry, &other);
        let is_apart = matches!(one.number, 4 | 6 | 8);
        checker.require(alike || is_apart, &wide_case, "not answered as the narrow call");
        if alike && one.number == 0 {
            checker.covered(&wide_case, "beside the narrow call", "equal rows");
        }
    }
}

// Offsets.

/// Of a column of three values; some are 0, 1 or 3 in their lowest 32 bits.
const OFFSETS: [i64; 13] = [
    0,
    1,
    3,
    4,
    2147483648,
    4294967296,
    4294967297,
    4294967299,
    9223372036854775807,
    -1,
    -4294967295,
    -4294967296,
    -9223372036854775808,
];

/// Every one to three offsets over these in each list: 1, but where none is negative or falls and the
/// last is 3 at most.
pub fn far_offsets(checker: &mut Checker, entry: Entry, rng: &mut Rng, _calls: u64) {
    for offsets in (1..=3).flat_map(|slots| words(&OFFSETS, slots)) {
        let rows = vec![Some(vec![Some(7)]); offsets.len() - 1];
        for place in 0..entry.lists() {
            let mut input = input_beside(entry, place, &rows, rng);
            input.lists[place] = ListColumn {
                offsets: offsets.clone(),
                values: vec![5, 6, 7],
                ..ListColumn::default()
            };
            let case = lend(&input, Room::Longer(3), rng);
            let observed = checker.check(&case);
            let rising = offsets.windows(2).all(|pair| pair[0] <= pair[1]);
            let good = rising && offsets[0] >= 0 && offsets[offsets.len() - 1] <= 3;
            checker.require((observed.number != 1) == good, &case, "a far offset misjudged");
        }
    }
}

/// Columns that suit these rows of one list.
fn input_beside(entry: Entry, place: usize, rows: &[Row], rng: &mut Rng) -> Input {
    if !entry.is_recipe() {
        let shown = random_beside(entry, place, rows, rng);
        return input_of(entry, &shown, &random_layouts(entry, rng), rng);
    }
    let shape = RowShape { count: rows.len(), longest: 2, ..small_shape(rng) };
    laid_out(&accepted_recipe(entry.width, shape, rng.below(3), rng), rng)
}

// Arguments.

pub fn has_numbers(entry: Entry) -> bool {
    let is_number = |role: &Role| matches!(role, Role::Index | Role::From | Role::Limit);
    entry.roles().iter().any(is_number)
}

/// The arguments of one row: each role far beside near ones, and all of them far.
fn far_words(roles: &[Role]) -> Vec<Vec<i64>> {
    let mut all = words(&FEW, roles.len());
    for at in 0..roles.len() {
        for others in words(&NEAR, roles.len() - 1) {
            all.extend(FAR.map(|far| [&others[..at], &[far], &others[at..]].concat()));
        }
    }
    all
}

/// Rows of every length to four, whose elements differ, and the null row.
fn rows() -> Vec<Row> {
    let elements = [Some(1), None, Some(0), Some(-3)];
    (0..=4).map(|length| Some(elements[..length].to_vec())).chain([None]).collect()
}

/// Every far index, bound, stride and limit beside rows of every length to four: none is refused but
/// a stride of 0; an index gives null, and a limit changes all or nothing.
pub fn far_arguments(checker: &mut Checker, entry: Entry, rng: &mut Rng, _calls: u64) {
    let rows = rows();
    for word in far_words(entry.roles()) {
        let column = |argument: &i64| vec![Some(*argument); rows.len()];
        let arguments: Vec<Vec<Element>> = word.iter().map(column).collect();
        let shown = Shown { lists: vec![rows.clone()], arguments };
        let input = input_of(entry, &shown, &random_layouts(entry, rng), rng);
        let case = lend(&input, Room::Longer(1), rng);
        let observed = checker.check(&case);
        let has_stride_0 = entry.known_operation() == Operation::Slice && word[2] == 0;
        let accepted = observed.number == 0 || has_stride_0 && observed.number == 5;
        checker.require(accepted, &case, "a far argument refused");
        if entry.known_operation() == Operation::Element {
            let nulls = observed.counts == [rows.len() as u64, rows.len() as u64];
            checker.require(nulls, &case, "a far index that gives a value");
        }
    }
}

/// Slices, resizes and replaces by far numbers as a step of a recipe, behind another and before one.
pub fn far_arguments_of_a_step(checker: &mut Checker, entry: Entry, rng: &mut Rng, _calls: u64) {
    let lists = [rows(), rows()];
    for operation in [Operation::Slice, Operation::SliceWithoutStride, Operation::Replace] {
        let mut all = far_words(operation.roles());
        all.retain(|_| rng.chance(1, 2 + operation.roles().len() * 4));
        for word in all {
            let mut step = [code_of(operation), 0, 0, 0];
            (1..=word.len()).for_each(|place| step[place] = place as u32 - 1);
            let reverse = [code_of(Operation::Reverse), 0, 0, 0];
            let column = |argument: &i64| vec![Some(*argument); lists[0].len()];
            let shown = RecipeShown {
                width: entry.width,
                steps: vec![reverse, step, reverse],
                lists: lists.clone(),
                columns: word.iter().map(column).collect(),
            };
            let input = recipe_input(&shown, &random_layouts(entry, rng), rng);
            let case = lend(&input, Room::Longer(1), rng);
            let observed = checker.check(&case);
            let accepted = matches!(observed.number, 0 | 5);
            checker.require(accepted, &case, "a far argument of a step refused");
        }
    }
}

// Sums.

pub fn has_sums(entry: Entry) -> bool {
    entry.roles().iter().any(|role| matches!(role, Role::Count | Role::Times))
}

/// A row's length, or -1 for a null row, with its count.
type Counted = (i64, i64);

/// The elements of resize's result, or its refusal.
const RESIZED: [(&[Counted], Result<u64, u32>); 20] = [
    (&[(0, 2147483648)], Ok(2147483648)),
    (&[(1, 4294967296)], Ok(4294967296)),
    (&[(0, 4294967297), (0, 1)], Ok(4294967298)),
    (&[(0, 1152921504606846974)], Ok(1152921504606846974)),
    (&[(2, 1152921504606846975)], Ok(1152921504606846975)),
    (&[(0, 1152921504606846976)], Err(8)),
    (&[(0, 1152921504606846974), (3, 1)], Ok(1152921504606846975)),
    (&[(0, 1152921504606846974), (3, 2)], Err(8)),
    (&[(0, 576460752303423488), (0, 576460752303423487)], Ok(1152921504606846975)),
    (&[(0, 576460752303423488), (0, 576460752303423488)], Err(8)),
    (&[(-1, 1152921504606846976), (0, 1152921504606846975)], Ok(1152921504606846975)),
    (&[(-1, 9223372036854775807), (1, 0)], Ok(0)),
    (&[(-1, -1), (1, 0)], Ok(0)),
    (&[(0, 9223372036854775807)], Err(8)),
    (&[(0, 1152921504606846976), (0, -1)], Err(7)),
    (&[(0, -1), (0, 1152921504606846976)], Err(7)),
    (&[(0, 9223372036854775807), (0, 9223372036854775807), (0, 1), (0, -1)], Err(7)),
    (&[(0, 9223372036854775807), (0, 9223372036854775807), (0, 2), (0, -1)], Err(8)),
    (&[(0, 9223372036854775807), (0, 9223372036854775807), (0, 2)], Err(8)),
    (&[(0, -9223372036854775808)], Err(7)),
];

/// The lists and the values of list-repeat's result, or its refusal. 16 values 2 to the 59 times are 2
/// to the 63, 32 of them 2 to the 64, and 33 of them 2 to the 59 more.
const REPEATED: [(&[Counted], Result<[u64; 2], u32>); 29] = [
    (&[(0, 2147483648)], Ok([2147483648, 0])),
    (&[(1, 4294967296)], Ok([4294967296, 4294967296])),
    (&[(2, 2147483648), (-1, 2147483648)], Ok([4294967296, 4294967296])),
    (&[(0, 1152921504606846974)], Ok([1152921504606846974, 0])),
    (&[(0, 1152921504606846975)], Err(8)),
    (&[(-1, 1152921504606846974)], Ok([1152921504606846974, 0])),
    (&[(-1, 1152921504606846975)], Err(8)),
    (&[(1, 1152921504606846974)], Ok([1152921504606846974, 1152921504606846974])),
    (&[(1, 1152921504606846975)], Err(8)),
    (&[(0, 1152921504606846973), (-1, 1)], Ok([1152921504606846974, 0])),
    (&[(0, 1152921504606846973), (-1, 2)], Err(8)),
    (&[(2, 576460752303423487)], Ok([576460752303423487, 1152921504606846974])),
    (&[(2, 576460752303423487), (1, 1)], Ok([576460752303423488, 1152921504606846975])),
    (&[(2, 576460752303423487), (2, 1)], Err(8)),
    (&[(2, 576460752303423488)], Err(8)),
    (&[(3, 384307168202282325)], Ok([384307168202282325, 1152921504606846975])),
    (&[(3, 384307168202282325), (-1, 9)], Ok([384307168202282334, 1152921504606846975])),
    (&[(3, 384307168202282325), (1, 1)], Err(8)),
    (&[(3, 384307168202282326)], Err(8)),
    (&[(16, 576460752303423488)], Err(8)),
    (&[(31, 595056260442243600)], Err(8)),
    (&[(32, 576460752303423488)], Err(8)),
    (&[(33, 576460752303423488)], Err(8)),
    (&[(32, 144115188075855872); 4], Err(8)),
    (&[(3, 6148914691236517206)], Err(8)),
    (&[(0, 9223372036854775807); 2], Err(8)),
    (&[(0, 9223372036854775807), (0, 9223372036854775807), (0, 2)], Err(8)),
    (&[(-1, 9223372036854775807), (-1, 9223372036854775807), (-1, 3)], Err(8)),
    (&[(4, -9223372036854775808), (4, 0)], Ok([0, 0])),
];

/// The rows and the counts of these.
fn counted(entry: Entry, word: &[Counted]) -> Shown {
    let row = |length: i64| usize::try_from(length).ok().map(|length| vec![Some(4); length]);
    let mut arguments = vec![word.iter().map(|(_, count)| Some(*count)).collect()];
    if entry.roles().len() == 2 {
        arguments.push(vec![Some(3); word.len()]);
    }
    Shown { lists: vec![word.iter().map(|(length, _)| row(*length)).collect()], arguments }
}

fn list_slots(rows: u64, elements: u64) -> [u64; 4] {
    [rows + 1, rows.div_ceil(8), elements, elements.div_ceil(8)]
}

/// The lengths that the answer takes, worked out by hand, in every fixed layout.
pub fn worked_sums(checker: &mut Checker, entry: Entry, rng: &mut Rng, _calls: u64) {
    if entry.known_operation() == Operation::ListRepeat {
        for (word, wanted) in REPEATED {
            let outer = list_slots(word.len() as u64, 0);
            let slots =
                |[lists, values]: [u64; 2]| [&outer[..2], &list_slots(lists, values)[..]].concat();
            check_sum(checker, entry, word, wanted.map(slots), rng);
        }
        return;
    }
    for (word, wanted) in RESIZED {
        let slots = |elements: u64| list_slots(word.len() as u64, elements).to_vec();
        check_sum(checker, entry, word, wanted.map(slots), rng);
    }
}

/// Asks, and runs the call with nothing lent: 9, or the refusal.
fn check_sum(
    checker: &mut Checker,
    entry: Entry,
    word: &[Counted],
    wanted: Result<Vec<u64>, u32>,
    rng: &mut Rng,
) {
    for layout in layouts() {
        let input = input_of(entry, &counted(entry, word), &[layout], rng);
        let case = asking(&input, entry.outputs().len(), rng);
        let asked = checker.ask(&case);
        let number = wanted.as_ref().err().copied().unwrap_or(0);
        let lengths = wanted.clone().unwrap_or_default();
        let as_stated = asked.number == number && asked.counts == lengths;
        checker.require(as_stated, &case, "not the lengths worked out by hand");
        let observed = checker.check_typed(&case);
        let run = if number == 0 { 9 } else { number };
        checker.require(observed.number == run, &case, "a far sum misjudged by the run");
        if number == 0 {
            checker.covered(&case, "sums", "accepted when asked, and 9");
        }
    }
}

const LENGTHS: [i64; 7] = [-1, 0, 1, 2, 3, 16, 32];

const COUNTS: [i64; 9] = [
    -1,
    1,
    144115188075855872,
    384307168202282325,
    576460752303423487,
    576460752303423488,
    1152921504606846974,
    1152921504606846975,
    9223372036854775807,
];

/// Every two rows of these lengths, this often: asked, and run with little.
pub fn far_sums(checker: &mut Checker, entry: Entry, rng: &mut Rng, _calls: u64) {
    let letters: Vec<Counted> =
        LENGTHS.iter().flat_map(|length| COUNTS.map(|count| (*length, count))).collect();
    for word in words(&letters, 2) {
        let shown = counted(entry, &word);
        let input = input_of(entry, &shown, &random_layouts(entry, rng), rng);
        let case = lend(&input, Room::Exact, rng);
        checker.ask(&case);
        checker.check_typed(&case);
    }
}

// Limits of recipes.

const RESIZE: [u32; 4] = [6, 0, 0, 0];
const UNION: [u32; 4] = [9, 0, 0, 0];
const REVERSE: [u32; 4] = [0, 0, 0, 0];

const LARGEST: u64 = 9223372036854775807;

/// Steps over two empty rows, with [1] and [2, 3] beside them, the counts of a resize, and the limits.
const LIMITS: [(&[[u32; 4]], [i64; 2], [u64; 3]); 13] = [
    (&[RESIZE], [2147483647, 1], [0, 0, 2147483648]),
    (&[RESIZE], [4294967296, -1], [0, 0, 4294967296]),
    (&[RESIZE], [1152921504606846975, 1], [0, 0, 1152921504606846976]),
    (&[RESIZE], [4611686018427387904, 4611686018427387902], [0, 0, LARGEST - 1]),
    (&[RESIZE], [4611686018427387904, 4611686018427387903], [0, 0, LARGEST]),
    (&[RESIZE], [4611686018427387904, 4611686018427387904], [0, 0, LARGEST]),
    (&[RESIZE], [9223372036854775807, 9223372036854775807], [0, 0, LARGEST]),
    (&[RESIZE], [-9223372036854775808, 9223372036854775807], [0, 0, LARGEST]),
    (&[RESIZE, UNION], [2147483647, 0], [2147483647, 0, 2147483650]),
    (&[RESIZE, UNION], [9223372036854775803, 0], [LARGEST - 4, 0, LARGEST - 1]),
    (&[RESIZE, UNION], [9223372036854775804, 0], [LARGEST - 3, 0, LARGEST]),
    (&[RESIZE, UNION, REVERSE], [9223372036854775805, 1], [LARGEST - 1, LARGEST, LARGEST]),
    (&[UNION, RESIZE, UNION], [9223372036854775807, 1], [3, LARGEST, LARGEST]),
];

/// Limits that were worked out by hand, in every fixed layout.
pub fn worked_limits(checker: &mut Checker, entry: Entry, rng: &mut Rng, _calls: u64) {
    let second = vec![Some(vec![Some(1)]), Some(vec![Some(2), Some(3)])];
    for (steps, counts, limits) in LIMITS {
        let shown = RecipeShown {
            width: entry.width,
            steps: steps.to_vec(),
            lists: [vec![Some(Vec::new()); 2], second.clone()],
            columns: vec![counts.map(Some).to_vec()],
        };
        require_limits(checker, &shown, limits, rng);
    }
}
