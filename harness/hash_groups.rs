//! The groups that operations with a work area have beside those of the operation without one: areas of
//! every length, beside the plain entry; rows of many equal values and nulls; rows whose values have one
//! hash; and rows of thousands.

use crate::compare::{Checker, Observed};
use crate::entry::{Case, Entry, Expected, Input, AREA};
use crate::exhaustive::words;
use crate::generate::*;
use crate::groups::{check_answer, Run};
use crate::hashed;
use crate::model::{self, Element, ListColumn, Operation, Row, Shown, Width, UNDER_NULL};
use crate::rng::Rng;

pub const ALL: [(&str, Run, u64); 8] = [
    ("worked cases", worked_cases, 0),
    ("beside the plain entry", beside_plain, 3),
    ("areas of every length, exhaustive", every_area, 0),
    ("the longest row, exhaustive", every_longest, 0),
    ("equal values and nulls, exhaustive", every_equality, 0),
    ("values with one hash", one_hash, 0),
    ("rows of thousands", thousands, 0),
    ("one area through many calls", one_area, 1),
];

/// The call with so many slots in its work area, whose bytes are not 0.
fn with_area(case: &Case, slots: usize, rng: &mut Rng) -> Case {
    let mut case = case.clone();
    case.outputs[AREA] = rng.bytes(4 * slots);
    case.outputs[AREA].iter_mut().for_each(|byte| *byte |= 1);
    case
}

/// Makes the call, and that of the entry without a work area with the same outputs: but for 14, they
/// answer and write the same.
fn check_beside(checker: &mut Checker, case: &Case) -> Observed {
    let observed = checker.check(case);
    let mut plain = Case { entry: case.entry.without_area(), ..case.clone() };
    plain.outputs.truncate(AREA);
    let answer = checker.check_typed(&plain);
    let is_same = observed.number == 14 || observed == answer;
    checker.require(is_same, case, "not what the entry without a work area gives");
    checker.covered(case, "beside the plain entry", observed.number.to_string());
    observed
}

fn input_in(entry: Entry, lists: Vec<Vec<Row>>, layout: Layout, rng: &mut Rng) -> Input {
    input_of(entry, &Shown { lists, arguments: Vec::new() }, &[layout], rng)
}

/// Elements of which many are equal, null and the number of null slots among them.
const FEW: [Element; 7] =
    [None, None, Some(UNDER_NULL), Some(0), Some(0), Some(-1), Some(4294967296)];

fn row_of_few(length: usize, kinds: usize, rng: &mut Rng) -> Vec<Element> {
    (0..length).map(|_| FEW[rng.below(kinds)]).collect()
}

fn rows_of_few(rows: usize, longest: usize, rng: &mut Rng) -> Vec<Row> {
    let kinds = rng.pick(&[2, 3, 5, 7]);
    let mut row = || {
        let length = rng.below(longest + 1);
        (!rng.chance(1, 6)).then(|| row_of_few(length, kinds, rng))
    };
    (0..rows).map(|_| row()).collect()
}

fn beside_plain(checker: &mut Checker, entry: Entry, rng: &mut Rng, calls: u64) {
    while checker.calls < calls.max(1200) {
        let rows = rng.pick(&ROW_COUNTS);
        let longest = rng.pick(&[1, 3, 9, 23, 24, 25, 26, 60]);
        let lists = (0..entry.lists()).map(|_| rows_of_few(rows, longest, rng)).collect();
        let layout = random_layout(rng);
        let case = lend(&input_in(entry, lists, layout, rng), Room::Any, rng);
        check_beside(checker, &case);
    }
}

// The area.

/// Areas from none to three slots more than are needed: 14 where they are too few, and nowhere else.
fn every_area(checker: &mut Checker, entry: Entry, rng: &mut Rng, _calls: u64) {
    for rows in [0, 1, 2, 3, 9] {
        for longest in [0, 1, 2, 5] {
            for _ in 0..3 {
                let lists: Vec<Vec<Row>> =
                    (0..entry.lists()).map(|_| rows_of_few(rows, longest, rng)).collect();
                let least = hashed::least_area(&lists);
                let layout = random_layout(rng);
                let case = lend(&input_in(entry, lists, layout, rng), Room::Longer(1), rng);
                for slots in 0..=least + 3 {
                    let case = with_area(&case, slots, rng);
                    check_answer(checker, &case, if slots < least { 14 } else { 0 });
                    check_beside(checker, &case);
                }
            }
        }
    }
}

/// Rows of every length to two, each of them null or not, on every side: the longest valid one, counted
/// by hand, decides, and neither a longer null one nor a longer row on one side alone.
fn every_longest(checker: &mut Checker, entry: Entry, rng: &mut Rng, _calls: u64) {
    let rows: Vec<(usize, bool)> = [(0, true), (1, true), (2, true), (0, false), (3, false)].into();
    let sides = words(&rows, if entry.lists() == 2 { 4 } else { 3 });
    for word in sides {
        let lists: Vec<&[(usize, bool)]> =
            word.chunks(word.len().div_ceil(entry.lists())).collect();
        let count = lists[0].len();
        let longest = (0..count)
            .filter(|row| lists.iter().all(|list| list[*row].1))
            .map(|row| lists.iter().map(|list| list[row].0).sum::<usize>())
            .max();
        let least = 2 * longest.unwrap_or(0);
        let columns = lists.iter().map(|list| column_of(list, rng)).collect();
        let input = Input { entry, numbers: Vec::new(), lists: columns, arguments: Vec::new() };
        let case = lend(&input, Room::Longer(1), rng);
        check_answer(checker, &with_area(&case, least, rng), 0);
        if least > 0 {
            check_answer(checker, &with_area(&case, least - 1, rng), 14);
        }
    }
}

/// A column of rows of these lengths, valid or not, over values in any case.
fn column_of(rows: &[(usize, bool)], rng: &mut Rng) -> ListColumn {
    let mut offsets = vec![0];
    for (length, _) in rows {
        offsets.push(offsets[offsets.len() - 1] + *length as i64);
    }
    let valid: Vec<bool> = rows.iter().map(|(_, valid)| *valid).collect();
    let values = (0..offsets[rows.len()]).map(|_| rng.between(0, 2)).collect();
    let start = random_start(rng);
    let rows = bitmap_of(&valid, start, Layout::default(), rng);
    ListColumn { offsets, rows, values, ..ListColumn::default() }
}

/// The same area through many calls, one after another, whatever they are: zero before, zero after.
fn one_area(checker: &mut Checker, entry: Entry, rng: &mut Rng, calls: u64) {
    while checker.calls < calls.max(300) {
        let slots = rng.below(40);
        for _ in 0..6 {
            let shape = RowShape { longest: 9, ..small_shape(rng) };
            let mut case = lend(&random_input(entry, shape, rng), Room::Any, rng);
            case.outputs[AREA] = vec![0; 4 * slots];
            check_beside(checker, &case);
        }
    }
}

// Equal values.

/// Every row of up to six elements over null, what null slots hold and a level; of two lists, every pair
/// of rows of up to three.
fn every_equality(checker: &mut Checker, entry: Entry, rng: &mut Rng, _calls: u64) {
    const LETTERS: [Element; 3] = [None, Some(UNDER_NULL), Some(7)];
    let most = if entry.lists() == 2 { 3 } else { 6 };
    let rows: Vec<Row> = (0..=most).flat_map(|length| words(&LETTERS, length)).map(Some).collect();
    let layout = Layout { numbers_under_nulls: true, ..Layout::default() };
    if entry.lists() == 1 {
        for part in rows.chunks(40) {
            let case = lend(&input_in(entry, vec![part.to_vec()], layout, rng), Room::Exact, rng);
            check_beside(checker, &case);
        }
        return;
    }
    for left in &rows {
        let lists = vec![vec![left.clone(); rows.len()], rows.clone()];
        let case = lend(&input_in(entry, lists, layout, rng), Room::Exact, rng);
        check_beside(checker, &case);
    }
}

/// Rows whose values have one hash, so that all of them lie in one bucket, whatever the length; with
/// repeats, nulls and values of other hashes between them.
fn one_hash(checker: &mut Checker, entry: Entry, rng: &mut Rng, _calls: u64) {
    for (round, length) in [2usize, 3, 5, 8, 20, 25, 40, 100, 400].into_iter().enumerate() {
        for kinds in [length, length.div_ceil(2), 2] {
            let values = hashed::colliding(kinds.max(2), 1 + round as u64);
            let is_one = values.iter().all(|one| hashed::hash(*one) == hashed::hash(values[0]));
            let mut lists = Vec::new();
            for _ in 0..entry.lists() {
                let mut row: Vec<Element> =
                    (0..length).map(|at| Some(values[at % values.len()])).collect();
                row.extend([None, Some(UNDER_NULL), Some(values[0] ^ 1), None]);
                shuffle(&mut row, rng);
                lists.push(vec![Some(row.clone()), None, Some(row[..length / 2].to_vec())]);
            }
            let layout = random_layout(rng);
            let case = lend(&input_in(entry, lists, layout, rng), Room::Exact, rng);
            checker.require(is_one, &case, "values with other hashes");
            let observed = check_beside(checker, &case);
            checker.require(observed.number == 0, &case, "made to be accepted, and yet refused");
            checker.covered(&case, "hash", "values with one hash");
        }
    }
}

/// Rows of the levels 1 to 4000 and near that, and of more that are scattered, against themselves and
/// against others, without nulls and with them, some levels once more at their end; beside short rows.
fn thousands(checker: &mut Checker, entry: Entry, rng: &mut Rng, _calls: u64) {
    let scattered = |at: i64| Rng::new(at as u64, "levels").next() as i64;
    let levels: [fn(i64) -> i64; 4] = [|at| at, |at| -7 * at, |at| at << 33, scattered];
    let counts = [(4000, 0, false), (4000, 9, true), (3999, 50, false), (6000, 3000, true)];
    for (level, (count, again, nulls)) in levels.into_iter().zip(counts) {
        let long = |from: i64| -> Vec<Element> {
            let levels = (from..from + count).chain(from..from + again);
            levels.map(|at| (!nulls || at % 8 > 0).then(|| level(at))).collect()
        };
        for second in [1, 2000] {
            let rows = |from: i64| vec![Some(vec![Some(1)]), Some(long(from)), None, Some(vec![])];
            let lists = [1, second].iter().take(entry.lists()).map(|from| rows(*from)).collect();
            let layout = random_layout(rng);
            let input = input_in(entry, lists, layout, rng);
            let case = lend_typed(&input, Room::Exact, rng);
            let observed = check_beside(checker, &case);
            checker.require(observed.number == 0, &case, "made to be accepted, and yet refused");
            let slots = case.outputs[AREA].len() / 4;
            checker.require(slots >= 2 * count as usize, &case, "less than a long row needs");
            check_answer(checker, &with_area(&case, slots - 1, rng), 14);
            checker.covered(&case, "hash", "a row of thousands");
        }
    }
}

// Worked cases.

type Rows = &'static [Option<&'static [Element]>];

/// The lists, the least area, and what comes back of distinct; of union and of intersect.
const OF_DISTINCT: &[(Rows, usize, Rows)] = &[
    (&[], 0, &[]),
    (&[None, Some(&[])], 0, &[None, Some(&[])]),
    (&[None, Some(&[Some(4)])], 2, &[None, Some(&[Some(4)])]),
    (
        &[Some(&[Some(3), None, Some(3), None, Some(1)]), None, Some(&[Some(3)])],
        10,
        &[Some(&[Some(3), None, Some(1)]), None, Some(&[Some(3)])],
    ),
    (
        &[Some(&[Some(UNDER_NULL), None, Some(UNDER_NULL), None])],
        8,
        &[Some(&[Some(UNDER_NULL), None])],
    ),
];

const OF_TWO: &[([Rows; 2], usize, Rows, Rows)] = &[
    ([&[], &[]], 0, &[], &[]),
    (
        [
            &[Some(&[Some(1), Some(2)]), Some(&[Some(1), Some(2), Some(3), Some(4)])],
            &[Some(&[Some(3)]), None],
        ],
        6,
        &[Some(&[Some(1), Some(2), Some(3)]), None],
        &[Some(&[]), None],
    ),
    (
        [
            &[Some(&[Some(1), Some(2), Some(3)]), Some(&[Some(5)])],
            &[Some(&[Some(2)]), Some(&[Some(5), None, Some(6)])],
        ],
        8,
        &[Some(&[Some(1), Some(2), Some(3)]), Some(&[Some(5), None, Some(6)])],
        &[Some(&[Some(2)]), Some(&[Some(5)])],
    ),
    (
        [&[Some(&[Some(1), Some(2)])], &[Some(&[Some(2), Some(9), Some(1)])]],
        10,
        &[Some(&[Some(1), Some(2), Some(9)])],
        &[Some(&[Some(2), Some(1)])],
    ),
    (
        [&[Some(&[None, Some(UNDER_NULL)])], &[Some(&[Some(UNDER_NULL), None, None])]],
        10,
        &[Some(&[None, Some(UNDER_NULL)])],
        &[Some(&[Some(UNDER_NULL), None])],
    ),
    ([&[None], &[Some(&[Some(1), Some(1)])]], 0, &[None], &[None]),
];

fn rows_of(rows: Rows) -> Vec<Row> {
    rows.iter().map(|row| row.map(<[Element]>::to_vec)).collect()
}

fn worked_cases(checker: &mut Checker, entry: Entry, rng: &mut Rng, _calls: u64) {
    let operation = entry.known_operation();
    if operation == Operation::Distinct {
        for (list, least, made) in OF_DISTINCT {
            check_worked(checker, entry, vec![rows_of(list)], *least, &rows_of(made), rng);
        }
        return;
    }
    for (lists, least, union, intersect) in OF_TWO {
        let made = if operation == Operation::Union { union } else { intersect };
        let lists = lists.map(rows_of).to_vec();
        check_worked(checker, entry, lists, *least, &rows_of(made), rng);
    }
}

fn check_worked(
    checker: &mut Checker,
    entry: Entry,
    lists: Vec<Vec<Row>>,
    least: usize,
    made: &[Row],
    rng: &mut Rng,
) {
    for layout in layouts() {
        let case = lend(&input_in(entry, lists.clone(), layout, rng), Room::Longer(1), rng);
        let observed = checker.check(&with_area(&case, least, rng));
        let wanted = Expected::accepted(&model::list_form(made), Width::Narrow).written;
        let is_as_worked = observed.number == 0 && observed.written == wanted;
        checker.require(is_as_worked, &case, "not as worked by hand");
        if least > 0 {
            check_answer(checker, &with_area(&case, least - 1, rng), 14);
        }
    }
}
