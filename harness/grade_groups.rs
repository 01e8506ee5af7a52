//! The groups of grading: runs at every place, split by nulls and between rows, over numbers that are
//! not shown; every k about them; every refusal in its order, with the two 9s; grades of every length;
//! and graded and plain recipes over one tally.

use crate::compare::Checker;
use crate::entry::{Case, Entry, Input, TALLY, TALLY_BYTES, TRAYS};
use crate::exhaustive::words;
use crate::generate::*;
use crate::grades::{any_k, longest_run, Graded};
use crate::groups::{damage_some_column, Run};
use crate::model::{self, Bitmap, Element, ListColumn, RecipeShown, Row, Tally, Width};
use crate::model::{STATIONS, UNDER_NULL};
use crate::recipe_generate::*;
use crate::recipe_groups::{damageable_recipe, laid_out, shape_with_rows, WAYS};
use crate::rng::Rng;
use crate::stations::set_tally;
use crate::worked::list_column;

pub const OF_COLUMNS: [(&str, Run); 9] = [
    ("worked cases", worked_columns),
    ("short rows, exhaustive", short_rows),
    ("runs at each place", placed_runs),
    ("order of refusals, exhaustive", column_orders),
    ("grades of every length, exhaustive", column_lengths),
    ("counts of every length", column_counts),
    ("layouts of the same rows", same_columns),
    ("damaged columns", damaged_columns),
    ("large columns", large_columns),
];

pub const OF_RECIPES: [(&str, Run); 7] = [
    ("worked cases", worked_recipes),
    ("runs made and ended by a step, exhaustive", steps_on_runs),
    ("order of refusals, exhaustive", recipe_orders),
    ("grades of every length, exhaustive", recipe_lengths),
    ("graded and plain over one tally", chains),
    ("layouts of the same rows, equal grades", same_recipes),
    ("recipes on runs", recipes_on_runs),
];

/// The groups of export whose columns are graded too.
pub const GRADED: [&str; 8] = [
    "random columns",
    "random bytes",
    "no offsets, exhaustive",
    "starting bits, exhaustive",
    "short columns, exhaustive",
    "short offsets, exhaustive",
    "typed starting bits beyond 32 bits",
    "typed inputs that are one slice",
];

/// The groups of recipes that are graded too.
pub const GRADED_RECIPES: [&str; 17] = [
    "random recipes",
    "layouts of the same rows",
    "refused steps",
    "malformed recipes",
    "damaged columns",
    "order of refusals",
    "tray and output lengths",
    "tallies",
    "one tally through many calls",
    "random bytes",
    "every station, exhaustive",
    "no offsets, exhaustive",
    "starting bits, exhaustive",
    "typed answers of the entry, exhaustive",
    "typed starting bits and columns beyond 32 bits",
    "typed inputs that are one slice",
    "typed recipes over the byte entry's sizes",
];

// Rows with runs.

/// The levels that runs are of.
const LEVELS: [i64; 4] = [7, 8, 0, UNDER_NULL];

/// A row of a few runs, some of which are of nulls.
fn row_of_runs(rng: &mut Rng) -> Vec<Element> {
    let mut row = Vec::new();
    for _ in 0..rng.below(5) {
        let element = if rng.chance(1, 3) { None } else { Some(rng.pick(&LEVELS)) };
        row.extend(vec![element; 1 + rng.below(4)]);
    }
    row
}

fn rows_of_runs(count: usize, rng: &mut Rng) -> Vec<Row> {
    (0..count).map(|_| (!rng.chance(1, 6)).then(|| row_of_runs(rng))).collect()
}

/// Puts the number before it, or the next one, in each place that is not shown, so that runs would go
/// on there.
fn hide_alike(list: &mut ListColumn) {
    let mut shown = vec![false; list.values.len()];
    for row in (0..list.row_count()).filter(|row| list.rows.is_valid(*row)) {
        let places = list.offsets[row] as usize..list.offsets[row + 1] as usize;
        places.for_each(|place| shown[place] = list.elements.is_valid(place));
    }
    let first = shown.iter().position(|shown| *shown).map_or(7, |place| list.values[place]);
    let mut last = first;
    for (value, shown) in list.values.iter_mut().zip(shown) {
        last = if shown { *value } else { last };
        *value = last;
    }
}

/// A column that shows these rows in some layout; mostly with runs that would go on.
fn laid_out_alike(rows: &[Row], rng: &mut Rng) -> ListColumn {
    let mut list = lay_out(rows, random_layout(rng), rng);
    if rng.chance(3, 4) {
        hide_alike(&mut list);
    }
    list
}

// Calls.

/// The case of a column, with more places for the counts than it needs now and then.
fn case_of(list: &ListColumn, rng: &mut Rng) -> Case {
    let (numbers, arguments) = (Vec::new(), Vec::new());
    let input = Input { entry: Entry::EXPORT, numbers, lists: vec![list.clone()], arguments };
    let counts = 8 * rng.pick(&[1, 1, 2, 5]);
    Case::new(&input, Vec::new(), rng.bytes(counts))
}

fn check_column(checker: &mut Checker, list: &ListColumn, k: u64, rng: &mut Rng) -> Vec<u8> {
    let more = rng.pick(&[0, 0, 1, 5]);
    let call = Graded::new(k, &case_of(list, rng), list.row_count() + more, rng);
    let (_, grades) = checker.check_graded(&call);
    grades
}

/// The answer that the reading must give.
fn require_graded(checker: &mut Checker, call: &Graded, number: u32, what: &str) {
    let expected = call.expected().call.number;
    checker.check_graded(call);
    checker.require(expected == number, &call.case, what);
}

// Columns worked by hand.

const MAX: u64 = u64::MAX;

/// A column, k, and the grades or the refusal; 77 lies under null elements.
type WorkedColumn = (&'static str, u64, Result<&'static [u8], u32>);

const COLUMNS: &[WorkedColumn] = &[
    ("", 1, Ok(&[])),
    ("", 0, Err(12)),
    ("[4,4,-,4] null(5,5) [] [-,-] [7] [4,4,4]", 0, Err(12)),
    ("[4,4,-,4] null(5,5) [] [-,-] [7] [4,4,4]", 1, Ok(&[2, 0, 1, 1, 2, 2])),
    ("[4,4,-,4] null(5,5) [] [-,-] [7] [4,4,4]", 2, Ok(&[2, 0, 1, 1, 3, 2])),
    ("[4,4,-,4] null(5,5) [] [-,-] [7] [4,4,4]", 3, Ok(&[3, 0, 1, 1, 3, 2])),
    ("[4,4,-,4] null(5,5) [] [-,-] [7] [4,4,4]", 4, Ok(&[3, 0, 1, 1, 3, 3])),
    ("[4,4,-,4] null(5,5) [] [-,-] [7] [4,4,4]", MAX, Ok(&[3, 0, 1, 1, 3, 3])),
    ("[1,2,2] [2,2,1]", 2, Ok(&[2, 2])),
    ("[1,2,2] [2,2,1]", 3, Ok(&[3, 3])),
    ("[2] [2] [2]", 2, Ok(&[3, 3, 3])),
    ("[2] null(2,2) [2] [] [2]", 2, Ok(&[3, 0, 3, 1, 3])),
    ("[77,-,77]", 2, Ok(&[3])),
    ("[77,-] [-,77] [-,-,77]", 2, Ok(&[3, 3, 3])),
    ("[77,-,77,77]", 3, Ok(&[3])),
    ("[-,-,-]", 2, Ok(&[1])),
    ("[5,-,-,-]", 2, Ok(&[3])),
    ("[5,-,-,-]", 1, Ok(&[2])),
    ("[1,1,2,2,2,3]", 3, Ok(&[2])),
    ("[2,2,2,1] [1,2,2,2] [2,1,2,2]", 3, Ok(&[2, 2, 3])),
    ("[1,2,1,2,1,2]", 2, Ok(&[3])),
    ("[1,1,2,2,1,1]", 3, Ok(&[3])),
    ("[-9223372036854775808,-,-9223372036854775808]", 2, Ok(&[3])),
    ("[-9223372036854775808,-9223372036854775808]", 2, Ok(&[2])),
    ("[0,0] [0,-,0] [-,0,0]", 2, Ok(&[2, 3, 2])),
    ("[9223372036854775807,9223372036854775807,-1]", 2, Ok(&[2])),
    ("[3,3]", 4294967298, Ok(&[3])),
    ("[3,3]", 9223372036854775810, Ok(&[3])),
    ("[0,4294967296]", 2, Ok(&[3])),
];

fn worked_columns(checker: &mut Checker, _entry: Entry, rng: &mut Rng, _calls: u64) {
    for (text, k, wanted) in COLUMNS {
        let list = list_column(text);
        let call = Graded::new(*k, &case_of(&list, rng), list.row_count() + 1, rng);
        let (observed, grades) = checker.check_graded(&call);
        let good = match wanted {
            Err(number) => observed.number == *number,
            Ok(wanted) => observed.number == 0 && grades == *wanted,
        };
        checker.require(good, &call.case, "not as worked by hand");
    }
}

// Runs.

/// A column of these rows as they are, with this number under nulls.
fn column_over(rows: &[Vec<Element>], under: i64) -> ListColumn {
    let mut offsets = vec![0];
    let elements: Vec<Element> = rows.concat();
    rows.iter().for_each(|row| offsets.push(offsets[offsets.len() - 1] + row.len() as i64));
    ListColumn {
        offsets,
        rows: Bitmap::from_0(Vec::new()),
        values: elements.iter().map(|one| one.unwrap_or(under)).collect(),
        elements: Bitmap::from_0(model::bitmap_of(elements.iter().map(Option::is_some))),
    }
}

const LETTERS: [Element; 3] = [None, Some(7), Some(8)];

/// Every row of up to five elements over a null and two levels, all of one length in one column and
/// short ones alone and in pairs, with either level under the nulls and each k up to one more.
fn short_rows(checker: &mut Checker, _entry: Entry, rng: &mut Rng, _calls: u64) {
    for length in 0..=5 {
        let rows = words(&LETTERS, length);
        for under in [7, 8, UNDER_NULL] {
            for k in (1..=length as u64 + 1).chain([MAX]) {
                check_column(checker, &column_over(&rows, under), k, rng);
            }
        }
    }
    let short: Vec<Vec<Element>> = (0..=2).flat_map(|length| words(&LETTERS, length)).collect();
    let more: Vec<Vec<Element>> = (3..=4).flat_map(|length| words(&LETTERS, length)).collect();
    for row in short.iter().chain(&more) {
        for k in 1..=row.len() as u64 + 1 {
            check_column(checker, &column_over(std::slice::from_ref(row), 7), k, rng);
        }
    }
    for row in &short {
        for next in &short {
            for k in 2..=4 {
                check_column(checker, &column_over(&[row.clone(), next.clone()], 8), k, rng);
            }
        }
    }
}

/// Where a run lies in its row.
const PLACES: [fn(usize) -> usize; 3] = [|_| 0, |spare| spare / 2, |spare| spare];

/// A run at the front, inside and at the end of rows of many lengths, beside rows that begin and end
/// with its level and a null row over it, whole and split by a null over its level, with each k about
/// it.
fn placed_runs(checker: &mut Checker, _entry: Entry, rng: &mut Rng, _calls: u64) {
    for length in [1, 2, 3, 8, 9, 17, 64, 65, 255, 256, 257, 300] {
        for run in [1, 2, length / 2, length - 1, length] {
            for place in PLACES {
                if run > 0 && run <= length {
                    let level = rng.pick(&LEVELS);
                    let mut row: Vec<Element> = (0..length as i64).map(|at| Some(at + 9)).collect();
                    let start = place(length - run);
                    row[start..start + run].fill(Some(level));
                    check_placed(checker, &row, level, rng);
                    row[start + rng.below(run)] = None;
                    check_placed(checker, &row, level, rng);
                }
            }
        }
    }
}

fn check_placed(checker: &mut Checker, row: &[Element], level: i64, rng: &mut Rng) {
    let one = Some(vec![Some(level)]);
    let rows = [one.clone(), Some(row.to_vec()), one, None];
    let layout = Layout { under_null_rows: 3, lead: 2, behind: 2, ..random_layout(rng) };
    let mut list = lay_out(&rows, layout, rng);
    hide_alike(&mut list);
    let (length, run) = (row.len() as u64, longest_run(row));
    let mut ks = vec![run, run + 1, length, length + 1, MAX, (1 << 32) + run, (1 << 63) + run];
    ks.extend([1, 2, run.max(2) - 1]);
    ks.sort();
    ks.dedup();
    for k in ks.into_iter().filter(|k| *k > 0) {
        check_column(checker, &list, k, rng);
    }
}

// Refusals.

/// The input of a column that every damage can be done to.
fn damageable_column(rng: &mut Rng) -> Input {
    let mut shown = damageable_shown(Entry::EXPORT, rng);
    for row in shown.lists[0].iter_mut().skip(1) {
        *row = (!rng.chance(1, 6)).then(|| row_of_runs(rng));
    }
    input_of(Entry::EXPORT, &shown, &[damageable_layout(rng)], rng)
}

/// Cuts the grades, which are just long enough, by one or to nothing.
fn cut_grades(call: &mut Graded, rng: &mut Rng) {
    let rows = call.rows();
    call.grades.truncate(rng.pick(&[rows - 1, rows - 1, 0, rows / 2]));
}

/// Every choice of the conditions of 100, 12, 9, 13, 1 and 2: the first of them is answered.
fn column_orders(checker: &mut Checker, _entry: Entry, rng: &mut Rng, _calls: u64) {
    const ORDER: [u32; 6] = [100, 12, 9, 13, 1, 2];
    for chosen in (0..64).flat_map(|chosen| [chosen; 12]) {
        let holds = |at: usize| chosen >> at & 1 == 1;
        let mut input = damageable_column(rng);
        for at in (3..6).rev().filter(|at| holds(*at)) {
            damage_some_column(&mut input, ORDER[at], rng);
        }
        let counts = if holds(0) { 0 } else { 8 * rng.pick(&[1, 2]) };
        let case = Case::new(&input, Vec::new(), rng.bytes(counts));
        let k = if holds(1) { 0 } else { any_k(rng) };
        let mut call = Graded::new(k, &case, case.row_count(), rng);
        if holds(2) {
            cut_grades(&mut call, rng);
        }
        let first = (0..6).find(|at| holds(*at)).map_or(0, |at| ORDER[at]);
        require_graded(checker, &call, first, "the reading does not give what comes first");
    }
}

/// Grades of every length beside columns of 0 to 18 rows, well-formed, malformed and with no offsets.
fn column_lengths(checker: &mut Checker, _entry: Entry, rng: &mut Rng, _calls: u64) {
    for rows in 0..=18 {
        for grades in 0..=rows + 3 {
            for way in 0..5 {
                let mut list = laid_out_alike(&rows_of_runs(rows, rng), rng);
                let mut wanted = 0;
                match way {
                    1 => (list.rows.start, wanted) = (start_over_7(rng), 13),
                    2 if rows > 0 => (list.offsets[rows], wanted) = (i64::from(i32::MAX), 1),
                    3 if rows > 0 => (list.offsets[0], wanted) = (-1, 1),
                    4 if rows == 0 => list.offsets.clear(),
                    _ => (),
                }
                let wanted = if grades < rows { 9 } else { wanted };
                let call = Graded::new(any_k(rng), &case_of(&list, rng), grades, rng);
                require_graded(checker, &call, wanted, "the grades that are lent are misjudged");
            }
        }
    }
}

/// Counts of every length in bytes up to three places, beside calls that are accepted and refused.
fn column_counts(checker: &mut Checker, _entry: Entry, rng: &mut Rng, _calls: u64) {
    for places in (0..=3).flat_map(|places| [places; 20]) {
        let list = laid_out_alike(&rows_of_runs(rng.below(10), rng), rng);
        let mut case = case_of(&list, rng);
        case.counts = rng.bytes(8 * places);
        let k = rng.pick(&[0, 1, 2, MAX]);
        let call = Graded::new(k, &case, list.row_count(), rng);
        let wanted = match (places, k) {
            (0, _) => 100,
            (_, 0) => 12,
            _ => 0,
        };
        require_graded(checker, &call, wanted, "the counts that are lent are misjudged");
    }
}

/// Each damage alone, and none.
fn damaged_columns(checker: &mut Checker, entry: Entry, rng: &mut Rng, _calls: u64) {
    for harm in (0..20).flat_map(|_| Harm::of(entry)) {
        let mut input = damageable_column(rng);
        if !harm.is_possible(&input) {
            continue;
        }
        harm.apply(&mut input, rng);
        let case = Case::new(&input, Vec::new(), rng.bytes(8));
        let call = Graded::new(any_k(rng), &case, case.row_count(), rng);
        let wanted = harm.refusal().unwrap_or(0);
        require_graded(checker, &call, wanted, "the reading does not see the damage");
    }
}

// Layouts of the same rows.

/// The same rows in each fixed layout and in some random ones: one answer, and equal grades.
fn same_columns(checker: &mut Checker, _entry: Entry, rng: &mut Rng, _calls: u64) {
    for _ in 0..60 {
        let rows = rows_of_runs(rng.pick(&ROW_COUNTS), rng);
        let (k, lent) = (any_k(rng), rows.len() + rng.pick(&[0, 0, 2]));
        let random: Vec<Layout> = (0..4).map(|_| random_layout(rng)).collect();
        let mut first = None;
        for layout in layouts().into_iter().chain(random) {
            let mut list = lay_out(&rows, layout, rng);
            if rng.chance(1, 2) {
                hide_alike(&mut list);
            }
            let call = Graded::new(k, &case_of(&list, rng), lent, rng);
            let answer = checker.check_graded(&call);
            let alike = *first.get_or_insert_with(|| answer.clone()) == answer;
            checker.require(alike, &call.case, "equal rows, and another answer or other grades");
        }
    }
}

// Large columns.

/// Runs and rows beyond 16 bits, whole, one short and split.
fn large_columns(checker: &mut Checker, _entry: Entry, rng: &mut Rng, _calls: u64) {
    const LONG: usize = 70_000;
    for split in [None, Some(0), Some(65_536), Some(LONG - 1)] {
        let mut row = vec![Some(7); LONG];
        split.into_iter().for_each(|at| row[at] = None);
        let list = column_over(&[vec![Some(7)], row, vec![Some(7)]], 7);
        let long = LONG as u64;
        for k in [1, 255, 256, 65_535, 65_536, 65_537, long - 1, long, long + 1, MAX] {
            check_column(checker, &list, k, rng);
        }
    }
    for k in [1, 2, 3] {
        let row = |at: usize| Some(vec![Some((at / 2) as i64); at % 4]).filter(|_| at % 9 > 0);
        let rows: Vec<Row> = (0..LONG).map(row).collect();
        check_column(checker, &lay_out(&rows, Layout::default(), rng), k, rng);
    }
    for count in [4095, 4096] {
        check_column(checker, &laid_out_alike(&rows_of_runs(count, rng), rng), 2, rng);
    }
}

// Recipes.

/// A recipe of these steps, with columns that hold one element for all rows.
fn recipe_of(rows: [Vec<Row>; 2], steps: &[[u32; 4]], columns: &[Element]) -> RecipeShown {
    let of_all = |element: &Element| vec![*element; rows[0].len()];
    let columns = columns.iter().map(of_all).collect();
    RecipeShown { width: Width::Narrow, steps: steps.to_vec(), lists: rows, columns }
}

/// The call of a recipe that has room for its result, with this k and just enough grades, or more.
fn lend_graded(input: &Input, k: u64, room: Room, rng: &mut Rng) -> Graded {
    let case = lend_recipe(input, room, rng);
    let lent = case.row_count() + rng.pick(&[0, 0, 1, 4]);
    let mut call = Graded::new(k, &case, lent, rng);
    make_dirty(&mut call);
    call
}

/// No byte of a tray is zero before.
fn make_dirty(call: &mut Graded) {
    for tray in &mut call.case.outputs[TRAYS] {
        tray.iter_mut().for_each(|byte| *byte |= 1);
    }
}

/// The first list and the second, the steps, the columns, k and the grades.
type WorkedRecipe =
    (&'static str, &'static str, &'static [[u32; 4]], &'static [Element], u64, &'static [u8]);

const RECIPES: &[WorkedRecipe] = &[
    ("[4,4] null []", "[] [] []", &[], &[], 2, &[2, 0, 1]),
    ("[1]", "[]", &[[2, 0, 0, 0]], &[], 1, &[1]),
    ("[7,7,7]", "[]", &[[2, 0, 0, 0]], &[], 3, &[3]),
    ("[7,7,7]", "[]", &[[3, 0, 0, 0]], &[], 2, &[2]),
    ("[7,7,8]", "[]", &[[0, 0, 0, 0]], &[], 2, &[2]),
    ("[7,7,8]", "[]", &[[1, 0, 0, 0]], &[], 2, &[3]),
    ("[7,8,7]", "[]", &[[8, 0, 1, 0]], &[Some(8), Some(1)], 2, &[2]),
    ("[7,8,7]", "[]", &[[8, 0, 1, 0]], &[None, Some(1)], 1, &[0]),
    ("[7,-,7]", "[]", &[[7, 0, 1, 2]], &[None, Some(7), Some(1)], 3, &[2]),
    ("[7,7,7]", "[]", &[[7, 0, 1, 2]], &[Some(7), None, Some(9)], 1, &[1]),
    ("[7] []", "[] []", &[[6, 0, 1, 0]], &[Some(3), Some(7)], 3, &[2, 2]),
    ("[7] []", "[] []", &[[6, 0, 1, 0]], &[Some(3), None], 1, &[2, 1]),
    ("[7,1,7,2,7]", "[]", &[[4, 0, 1, 2]], &[Some(1), Some(-1), Some(2)], 3, &[2]),
    ("[7,7] [7]", "[7] null", &[[9, 0, 0, 0]], &[], 2, &[3, 0]),
    ("[7,8] [1]", "[8,9] [2]", &[[10, 0, 0, 0]], &[], 1, &[2, 1]),
    ("[1,7,7]", "[]", &[[0, 0, 0, 0], [3, 0, 0, 0], [2, 0, 0, 0]], &[], 1, &[2]),
];

fn worked_recipes(checker: &mut Checker, _entry: Entry, rng: &mut Rng, _calls: u64) {
    for (first, second, steps, columns, k, wanted) in RECIPES {
        let rows = [first, second].map(|text| model::shown_rows(&list_column(text)));
        let shown = recipe_of(rows, steps, columns);
        for layouts in [vec![Layout::default()], vec![random_layout(rng)]] {
            let input = recipe_input(&shown, &layouts, rng);
            let call = lend_graded(&input, *k, Room::Longer(1), rng);
            let (observed, grades) = checker.check_graded(&call);
            let good = observed.number == 0 && grades == *wanted;
            checker.require(good, &call.case, "not as worked by hand");
        }
    }
}

/// Steps that make runs, end them and leave them, with the columns 7, 3, null, 1, -1 and 2.
const STEPS: [[u32; 4]; 13] = [
    [0, 0, 0, 0],
    [1, 0, 0, 0],
    [2, 0, 0, 0],
    [3, 0, 0, 0],
    [4, 3, 4, 5],
    [5, 5, 4, 0],
    [6, 1, 0, 0],
    [6, 1, 2, 0],
    [7, 2, 0, 3],
    [7, 0, 2, 5],
    [8, 0, 3, 0],
    [9, 0, 0, 0],
    [10, 0, 0, 0],
];
const COLUMNS_OF_STEPS: [Element; 6] = [Some(7), Some(3), None, Some(1), Some(-1), Some(2)];

/// Each of these steps, alone and with another behind it, on every row of up to four elements over a
/// null and two levels.
fn steps_on_runs(checker: &mut Checker, _entry: Entry, rng: &mut Rng, _calls: u64) {
    for length in 0..=4 {
        let mut rows: Vec<Row> = words(&LETTERS, length).into_iter().map(Some).collect();
        rows.push(None);
        let second: Vec<Row> = rows.iter().map(|_| Some(vec![Some(7), None])).collect();
        for (at, step) in STEPS.iter().enumerate() {
            let other = STEPS[(at + length + 1) % STEPS.len()];
            for steps in [&[*step][..], &[*step, other], &[other, *step, [0, 0, 0, 0]]] {
                let lists = [rows.clone(), second.clone()];
                let shown = recipe_of(lists, steps, &COLUMNS_OF_STEPS);
                let layout = rng.pick(&layouts());
                let input = recipe_input(&shown, &[layout], rng);
                let k = rng.pick(&[1, 2, 2, 3, 3, 4, 5, MAX]);
                let call = lend_graded(&input, k, Room::Exact, rng);
                require_graded(checker, &call, 0, "made to be accepted, and yet refused");
            }
        }
    }
}

/// A recipe over rows with runs, none of whose steps is refused.
fn recipe_on_runs(rng: &mut Rng) -> RecipeShown {
    let count = rng.pick(&ROW_COUNTS);
    let lists = [rows_of_runs(count, rng), rows_of_runs(count, rng)];
    let mut draft = Draft::over(Width::Narrow, lists, rng.pick(&[0, 2, 3, 8]), 1, rng);
    (0..rng.below(5)).for_each(|_| draft.add_some(rng));
    draft.finish(rng).accepted
}

fn recipes_on_runs(checker: &mut Checker, _entry: Entry, rng: &mut Rng, _calls: u64) {
    for _ in 0..600 {
        let mut input = laid_out(&recipe_on_runs(rng), rng);
        input.lists.iter_mut().for_each(hide_alike);
        let k = any_k(rng);
        let call = lend_graded(&input, k, Room::Longer(rng.below(2)), rng);
        require_graded(checker, &call, 0, "made to be accepted, and yet refused");
    }
}

/// The same recipe in each fixed layout and in some random ones: one answer, and equal grades.
fn same_recipes(checker: &mut Checker, _entry: Entry, rng: &mut Rng, _calls: u64) {
    for _ in 0..30 {
        let shown = RecipeCall::new(&recipe_on_runs(rng), rng);
        let (k, more) = (any_k(rng), rng.below(3));
        let random: Vec<Layout> = (0..4).map(|_| random_layout(rng)).collect();
        let mut first = None;
        for layout in layouts().into_iter().chain(random) {
            let mut input = shown.laid_out(&[layout], rng);
            if rng.chance(1, 2) {
                input.lists.iter_mut().for_each(hide_alike);
            }
            let mut case = lend_recipe(&input, Room::Longer(more), rng);
            set_tally(&mut case, [5; 2 * STATIONS]);
            let call = Graded::new(k, &case, case.row_count() + more, rng);
            let answer = checker.check_graded(&call);
            let alike = *first.get_or_insert_with(|| answer.clone()) == answer;
            checker.require(alike, &call.case, "equal rows, and another answer or other grades");
        }
    }
}

// Refusals of recipes.

/// The call of a recipe of more than one row that is accepted, or refused with this number.
fn call_of(number: u32, rng: &mut Rng) -> Option<Case> {
    let shape = RowShape { count: 2 + rng.below(8), longest: 4, ..shape_with_rows(rng) };
    let steps = rng.below(4);
    let mut input = match number {
        4..=8 => {
            let shown = refused_recipe(Width::Narrow, shape, steps, number, rng.below(2), rng)?;
            laid_out(&shown, rng)
        }
        1..=3 | 13 | 10 => damageable_recipe(Width::Narrow, steps, rng),
        _ => laid_out(&accepted_recipe(Width::Narrow, shape, steps, rng), rng),
    };
    match number {
        1..=3 | 13 => drop(damage_some_column(&mut input, number, rng)?),
        10 => rng.pick(&WAYS)(&mut input, rng),
        15 => input.entry = input.entry.with_station(no_station(rng)),
        _ => (),
    }
    let room = match number {
        9 => Room::Short(8, 1),
        _ => rng.pick(&[Room::Exact, Room::Longer(2)]),
    };
    Some(lend_recipe(&input, room, rng))
}

/// Every choice of the conditions of 100, 12 and 9 for the grades, beside runs that come to each
/// number: the first of them is answered.
fn recipe_orders(checker: &mut Checker, _entry: Entry, rng: &mut Rng, _calls: u64) {
    for by_itself in [0, 15, 10, 13, 1, 2, 3, 4, 5, 6, 7, 8, 9].into_iter().flat_map(|one| [one; 8])
    {
        for chosen in 0..8 {
            let holds = |at: usize| chosen >> at & 1 == 1;
            let Some(mut case) = call_of(by_itself, rng) else {
                continue;
            };
            if holds(0) && rng.chance(1, 2) {
                case.counts.truncate(8 * rng.below(4));
            } else if holds(0) {
                case.outputs[TALLY].truncate(8 * rng.below(TALLY_BYTES / 8));
            }
            let k = if holds(1) { 0 } else { any_k(rng) };
            let mut call = Graded::new(k, &case, case.row_count(), rng);
            make_dirty(&mut call);
            if holds(2) {
                cut_grades(&mut call, rng);
            }
            let first = (0..3).find(|at| holds(*at));
            let wanted = first.map_or(by_itself, |at| [100, 12, 9][at]);
            require_graded(checker, &call, wanted, "the reading does not give what comes first");
        }
    }
}

/// Grades of every length beside recipes on 0 to 12 rows; the second list may have another number of
/// rows, and the output may be short: the rows of the first list decide.
fn recipe_lengths(checker: &mut Checker, _entry: Entry, rng: &mut Rng, _calls: u64) {
    for rows in 0..=12 {
        for grades in 0..=rows + 3 {
            for way in 0..4 {
                let lists = [rows_of_runs(rows, rng), rows_of_runs(rows, rng)];
                let mut draft = Draft::over(Width::Narrow, lists, 3, 1, rng);
                (0..rng.below(3)).for_each(|_| draft.add_some(rng));
                let mut shown = draft.finish(rng).accepted;
                let mut room = Room::Longer(rng.below(2));
                let mut wanted = 0;
                match way {
                    1 => (room, wanted) = (Room::Short(8, 0), 9),
                    2 => {
                        shown.lists[1].push(None);
                        wanted = 3;
                    }
                    3 if rows > 0 => {
                        shown.lists[1].pop();
                        wanted = 3;
                    }
                    _ => (),
                }
                let wanted = if grades < rows { 9 } else { wanted };
                let case = lend_recipe(&laid_out(&shown, rng), room, rng);
                let mut call = Graded::new(any_k(rng), &case, grades, rng);
                make_dirty(&mut call);
                require_graded(checker, &call, wanted, "the grades that are lent are misjudged");
            }
        }
    }
}

// One tally.

/// How a call of a chain is made.
#[derive(Clone, Copy, PartialEq)]
enum Way {
    Plain,
    Graded,
    ZeroRun,
    ShortGrades,
}

/// One tally through plain recipes and graded ones, of all stations and of none, some refused by 12
/// or for their grades: "the sums over stations grow by the calls made", these and calls that name no
/// such station left out, and only its own calls change a station's counts.
fn chains(checker: &mut Checker, entry: Entry, rng: &mut Rng, _calls: u64) {
    for _ in 0..8 {
        let from_0 = rng.chance(1, 2);
        let first: Tally = std::array::from_fn(|_| if from_0 { 0 } else { rng.next() >> 1 });
        let (mut tally, mut wanted) = (first, first);
        for _ in 0..100 {
            let way = rng.pick(&[Way::Plain, Way::Graded, Way::ZeroRun, Way::ShortGrades]);
            let mut input = random_input(entry, shape_with_rows(rng), rng);
            let none = rng.chance(1, 6);
            let station = if none { no_station(rng) } else { random_station(rng) };
            input.entry = input.entry.with_station(station);
            let mut case = lend_recipe(&input, Room::Any, rng);
            set_tally(&mut case, tally);
            let rows = case.row_count();
            let (way, grades) = match way {
                Way::ShortGrades if rows == 0 => (Way::Graded, 0),
                Way::ShortGrades => (way, rng.below(rows)),
                Way::ZeroRun => (way, rng.below(rows + 2)),
                _ => (way, rows + rng.below(2)),
            };
            let observed = match way {
                Way::Plain => {
                    checker.grades = false;
                    let observed = checker.check_typed(&case);
                    checker.grades = true;
                    observed
                }
                _ => {
                    let k = if way == Way::ZeroRun { 0 } else { any_k(rng) };
                    checker.check_graded(&Graded::new(k, &case, grades, rng)).0
                }
            };
            if !none && matches!(way, Way::Plain | Way::Graded) {
                let refused = usize::from(observed.number != 0);
                wanted[refused * STATIONS + station as usize] += 1;
            }
            let number = match way {
                Way::ZeroRun => observed.number == 12,
                Way::ShortGrades => observed.number == 9,
                _ => none == (observed.number == 15),
            };
            checker.require(number, &case, "a call of a chain misjudged");
            tally = observed.tally.unwrap_or(tally);
            checker.require(tally == wanted, &case, "the counts are not those of the calls made");
        }
    }
}
