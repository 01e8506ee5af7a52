//! How much to lend, beside the run: what is asked for an operation is just enough, and its refusal
//! is the run's; a recipe that is lent its limits never answers 9, whatever its levels are.

use crate::compare::{Checker, Observed};
use crate::entry::{Case, Entry, Input, NOT_SERVED, TALLY};
use crate::exhaustive::words;
use crate::generate::*;
use crate::groups::damage_some_column;
use crate::lending::{self, slots_by_limits};
use crate::model::{Element, RecipeShown, Row, Width};
use crate::recipe_generate::*;
use crate::recipe_groups::{damageable_recipe, laid_out, shape_with_rows, WAYS};
use crate::rng::Rng;

/// The most slots in all that are lent by what was asked.
const MOST_LENT: u64 = 300_000;

/// A call that asks, with this many places for the answer; it is lent nothing else.
pub fn asking(input: &Input, places: usize, rng: &mut Rng) -> Case {
    let mut outputs = Vec::new();
    outputs.resize(input.entry.outputs().len(), Vec::new());
    Case::new(input, outputs, rng.bytes(8 * places))
}

fn ask(checker: &mut Checker, input: &Input, rng: &mut Rng) -> Observed {
    let places = lending::places(input.entry) + rng.pick(&[0, 0, 1, 2]);
    let case = asking(input, places, rng);
    checker.ask(&case)
}

/// The call with this many slots in each slice.
fn lend_slots(input: &Input, slots: &[usize], rng: &mut Rng) -> Case {
    let mut case = lend_typed(input, Room::Exact, rng);
    let kinds = input.entry.outputs().iter().zip(slots);
    for (bytes, (kind, slots)) in case.outputs.iter_mut().zip(kinds) {
        *bytes = rng.bytes(slots * kind.width);
    }
    case
}

/// Makes the typed call, which must be given this number.
fn require_run(checker: &mut Checker, case: &Case, number: u32, what: &str) {
    let observed = checker.check_typed(case);
    checker.require(observed.number == number, case, what);
}

// Operations.

/// Asks, and makes the call with just so much, with one slot less in each slice in turn, and where
/// it is refused, with more than enough and with nothing.
fn check_lengths(checker: &mut Checker, input: &Input, rng: &mut Rng) {
    let Observed { number, counts: lengths, .. } = ask(checker, input, rng);
    if number != 0 {
        let what = "not refused as it was when asked";
        let generous = lend_typed(input, Room::Longer(40), rng);
        require_run(checker, &generous, number, what);
        let none = vec![0; input.entry.outputs().len()];
        require_run(checker, &lend_slots(input, &none, rng), number, what);
        return;
    }
    if lengths.iter().any(|length| *length > MOST_LENT) {
        let none = vec![0; lengths.len()];
        let case = lend_slots(input, &none, rng);
        return require_run(checker, &case, 9, "nothing is lent, and yet accepted");
    }
    let slots: Vec<usize> = lengths.iter().map(|length| *length as usize).collect();
    let case = lend_slots(input, &slots, rng);
    require_run(checker, &case, 0, "lent what was asked, and yet refused");
    for slice in 0..slots.len() {
        let more = rng.pick(&[0, 0, 3]);
        let mut fewer: Vec<usize> = slots.iter().map(|slots| slots + more).collect();
        if slots[slice] > 0 {
            fewer[slice] = slots[slice] - 1;
            let case = lend_slots(input, &fewer, rng);
            require_run(checker, &case, 9, "one slot less than was asked, and yet not 9");
        }
    }
}

/// Random columns, refused or not, and every damage done to one of them.
pub fn lengths(checker: &mut Checker, entry: Entry, rng: &mut Rng, _calls: u64) {
    for round in 0..240 {
        let shape = match round % 40 {
            0 => long_row_shape(rng),
            1 => RowShape { count: 700, longest: 3, ..small_shape(rng) },
            _ => small_shape(rng),
        };
        check_lengths(checker, &random_input(entry, shape, rng), rng);
    }
    for harm in Harm::of(entry).into_iter().flat_map(|harm| [harm; 3]) {
        let shown = damageable_shown(entry, rng);
        let mut input = input_of(entry, &shown, &[damageable_layout(rng)], rng);
        if harm.is_possible(&input) {
            harm.apply(&mut input, rng);
            check_lengths(checker, &input, rng);
        }
    }
}

// Recipes.

const REVERSE: [u32; 4] = [0, 0, 0, 0];
const POP_BACK: [u32; 4] = [3, 0, 0, 0];
const RESIZE: [u32; 4] = [6, 0, 1, 0];
const OTHER_RESIZE: [u32; 4] = [6, 1, 0, 0];
const UNION: [u32; 4] = [9, 0, 0, 0];
const INTERSECT: [u32; 4] = [10, 0, 0, 0];

/// Asks for the limits, and makes the call with just so much, or with little where it is too much to lend.
fn check_limits(checker: &mut Checker, input: &Input, rng: &mut Rng) -> Observed {
    let asked = ask(checker, input, rng);
    let steps = input.numbers.len() / 4;
    let limits = match asked.counts[..] {
        [one, two, output] => [one, two, output],
        _ => {
            let generous = lend_typed(input, Room::Longer(40), rng);
            let what = "not refused as it was when asked";
            require_run(checker, &generous, asked.number, what);
            return asked;
        }
    };
    let lent = limits.map(|limit| if limit > MOST_LENT { 40 } else { limit });
    let slots = slots_by_limits(input.lists[0].row_count(), steps, lent);
    let case = lend_slots(input, &slots, rng);
    let observed = checker.check_typed(&case);
    let may_be_9 = limits != lent;
    checker.require(observed.number != 9 || may_be_9, &case, "lent its limits, and yet 9");
    asked
}

/// The number that is wanted, or the limits, all worked out by hand.
type Worked = (&'static [[u32; 4]], [u64; 3]);

/// Over [1,2], null, [], [3] with [1,2,3], [4], [5], null beside them; counts 3, 4, -1 and null over
/// 9, then 1, 1, 1, 1.
const WORKED: [Worked; 16] = [
    (&[], [0, 0, 3]),
    (&[REVERSE], [0, 0, 3]),
    (&[RESIZE], [0, 0, 3]),
    (&[OTHER_RESIZE], [0, 0, 3]),
    (&[UNION], [0, 0, 8]),
    (&[INTERSECT], [0, 0, 3]),
    (&[UNION, POP_BACK], [8, 0, 8]),
    (&[UNION, UNION], [8, 0, 13]),
    (&[UNION, UNION, UNION], [8, 13, 18]),
    (&[UNION, UNION, RESIZE], [8, 13, 3]),
    (&[UNION, UNION, RESIZE, REVERSE], [8, 13, 3]),
    (&[REVERSE, UNION, RESIZE, UNION], [3, 8, 8]),
    (&[UNION, RESIZE, UNION, UNION, REVERSE], [8, 13, 13]),
    (&[RESIZE, UNION, UNION, RESIZE, POP_BACK], [13, 8, 3]),
    (&[UNION, OTHER_RESIZE, RESIZE], [8, 3, 3]),
    (&[RESIZE, RESIZE, RESIZE], [3, 3, 3]),
];

/// Limits that were worked out by hand, in every fixed layout; and the two of the open points.
pub fn worked_limits(checker: &mut Checker, entry: Entry, rng: &mut Rng, _calls: u64) {
    let row = |elements: &[i64]| Some(elements.iter().copied().map(Some).collect());
    let first: Vec<Row> = vec![row(&[1, 2]), None, row(&[]), row(&[3])];
    let second: Vec<Row> = vec![row(&[1, 2, 3]), row(&[4]), row(&[5]), None];
    let counts = vec![Some(3), Some(4), Some(-1), None];
    let (lists, width) = ([first, second], entry.width);
    for (steps, limits) in WORKED {
        let columns = vec![counts.clone(), vec![Some(1); 4]];
        let shown = RecipeShown { width, steps: steps.to_vec(), lists: lists.clone(), columns };
        require_limits(checker, &shown, limits, rng);
    }
    let steps = vec![[6, 0, 0, 0]];
    let largest = width.largest_offset();
    let most = largest as u64;
    for (rows, counts, limit) in [
        (vec![Some(Vec::new())], vec![Some(3)], 3),
        (lists[0][..3].to_vec(), counts[..3].to_vec(), 3),
        (vec![None], vec![Some(3)], 0),
        (vec![Some(Vec::new()); 3], vec![Some(i64::MAX); 3], most),
        (vec![Some(Vec::new()); 2], vec![Some(largest - 1), Some(1)], most),
        (vec![Some(Vec::new()); 2], vec![Some(largest - 1), Some(2)], most),
        (vec![Some(Vec::new()); 2], vec![Some(largest - 2), Some(1)], most - 1),
    ] {
        let lists = [rows, vec![None; counts.len()]];
        let shown = RecipeShown { width, steps: steps.clone(), lists, columns: vec![counts] };
        require_limits(checker, &shown, [0, 0, limit], rng);
    }
}

pub fn require_limits(checker: &mut Checker, shown: &RecipeShown, limits: [u64; 3], rng: &mut Rng) {
    for layout in layouts() {
        let input = recipe_input(shown, &[layout], rng);
        let asked = check_limits(checker, &input, rng);
        let case = asking(&input, 3, rng);
        checker.require(asked.counts == limits, &case, "not the limits worked out by hand");
    }
}

/// Recipes of every number of steps, refused at a step or not.
pub fn limits(checker: &mut Checker, entry: Entry, rng: &mut Rng, _calls: u64) {
    for steps in (0..=32).flat_map(|steps| [steps; 12]) {
        let shape = RowShape { longest: 4, ..shape_with_rows(rng) };
        let shown = accepted_recipe(entry.width, shape, steps, rng);
        check_limits(checker, &laid_out(&shown, rng), rng);
        let mut draft = Draft::new(entry.width, shape, 1 + rng.below(8), rng);
        (0..steps).for_each(|_| draft.add_any(rng));
        check_limits(checker, &laid_out(&draft.finish(rng).accepted, rng), rng);
    }
    for _ in 0..1500 {
        let mut input = random_input(entry, shape_with_rows(rng), rng);
        input.entry = input.entry.with_station(random_station(rng));
        check_limits(checker, &input, rng);
    }
}

/// Other levels, with all lengths, validity and arguments kept: the same limits, and no 9 with them.
pub fn other_levels(checker: &mut Checker, entry: Entry, rng: &mut Rng, _calls: u64) {
    for _ in 0..300 {
        let shape = RowShape { longest: 5, ..shape_with_rows(rng) };
        let mut input = laid_out(&random_recipe(entry.width, shape, rng), rng);
        let first = check_limits(checker, &input, rng);
        for kind in 0..4 {
            for list in &mut input.lists {
                let mut level = 0;
                list.values.fill_with(|| {
                    level += 1;
                    match kind {
                        0 => 7,
                        1 => level,
                        2 => -level,
                        _ => random_value(rng),
                    }
                });
            }
            let asked = check_limits(checker, &input, rng);
            let case = asking(&input, 3, rng);
            checker.require(asked == first, &case, "other limits by other levels");
        }
    }
}

/// Counts whose sums lie about 2147483647 and beyond 64 bits.
const COUNTS: [Element; 10] = [
    None,
    Some(i64::MIN),
    Some(-1),
    Some(0),
    Some(1),
    Some(2147483646),
    Some(2147483647),
    Some(2147483648),
    Some(4294967296),
    Some(i64::MAX),
];

/// The same about 9223372036854775807.
const LARGE_COUNTS: [Element; 10] = [
    None,
    Some(i64::MIN),
    Some(-1),
    Some(0),
    Some(1),
    Some(2147483648),
    Some(1152921504606846976),
    Some(4611686018427387904),
    Some(i64::MAX - 1),
    Some(i64::MAX),
];

fn counts_of(width: Width) -> &'static [Element] {
    match width {
        Width::Narrow => &COUNTS,
        Width::Wide => &LARGE_COUNTS,
    }
}

const SUMMED: [&[[u32; 4]]; 5] = [
    &[RESIZE],
    &[RESIZE, UNION],
    &[UNION, RESIZE, REVERSE],
    &[RESIZE, UNION, UNION],
    &[OTHER_RESIZE, RESIZE, UNION, OTHER_RESIZE, UNION],
];

/// Every short column of counts, and longer ones; null rows among the others.
pub fn sums(checker: &mut Checker, entry: Entry, rng: &mut Rng, _calls: u64) {
    let (width, counts) = (entry.width, counts_of(entry.width));
    let mut all: Vec<Vec<Element>> = (0..=3).flat_map(|rows| words(counts, rows)).collect();
    for _ in 0..400 {
        let rows = 4 + rng.below(6);
        all.push((0..rows).map(|_| rng.pick(counts)).collect());
    }
    all.extend((3..6).map(|rows| vec![Some(i64::MAX); rows]));
    for (at, counts) in all.into_iter().enumerate() {
        let rows = counts.len();
        for steps in [SUMMED[at % 5], SUMMED[(at / 5 + 1) % 5]] {
            let null_rows = rng.pick(&[0, 0, 2]);
            let shape = RowShape { count: rows, longest: 2, null_rows, ..small_shape(rng) };
            let lists = [random_rows(shape, rng), random_rows(shape, rng)];
            let others = (0..rows).map(|_| rng.pick(&[Some(1), Some(2), None])).collect();
            let columns = vec![counts.clone(), others];
            let shown = RecipeShown { width, steps: steps.to_vec(), lists, columns };
            check_limits(checker, &laid_out(&shown, rng), rng);
        }
    }
}

/// The conditions of 10, 13, 1, 2 and 3, all sets of them, brought about in any order.
pub fn refused(checker: &mut Checker, entry: Entry, rng: &mut Rng, _calls: u64) {
    for set in (0..32).flat_map(|set| [set; 24]) {
        let numbers = [10, 13, 1, 2, 3].into_iter().enumerate();
        let held = numbers.filter(|(at, _)| set >> at & 1 == 1).map(|(_, number)| number);
        let mut held: Vec<u32> = held.collect();
        let in_order = rng.chance(1, 2);
        if in_order {
            held.reverse();
        } else {
            shuffle(&mut held, rng);
        }
        let mut input = damageable_recipe(entry.width, rng.below(5), rng);
        let mut done = Vec::new();
        for number in held {
            let is_done = match number {
                10 => {
                    rng.pick(&WAYS)(&mut input, rng);
                    true
                }
                _ => damage_some_column(&mut input, number, rng).is_some(),
            };
            done.extend(is_done.then_some(number));
        }
        let asked = check_limits(checker, &input, rng);
        let case = asking(&input, 3, rng);
        let first = [10, 13, 1, 2, 3].into_iter().find(|number| done.contains(number));
        let as_stated = !in_order || asked.number == first.unwrap_or(0);
        checker.require(as_stated, &case, "another refusal than the first of those that hold");
    }
}

/// Places of every number to two more than three, beside recipes that are refused and not; and the
/// run's station is none of theirs.
pub fn places(checker: &mut Checker, entry: Entry, rng: &mut Rng, _calls: u64) {
    for places in (0..=5).flat_map(|places| [places; 8]) {
        for number in [0, 10, 13, 1, 2, 3] {
            let mut input = damageable_recipe(entry.width, rng.below(5), rng);
            match number {
                0 => (),
                10 => rng.pick(&WAYS)(&mut input, rng),
                _ => drop(damage_some_column(&mut input, number, rng)),
            }
            let case = asking(&input, places, rng);
            let observed = checker.ask(&case);
            let wanted = if places < 3 { NOT_SERVED } else { number };
            checker.require(observed.number == wanted, &case, "places for limits misjudged");
            assert!(case.outputs[..TALLY].iter().all(Vec::is_empty), "nothing else is lent");
        }
    }
}
