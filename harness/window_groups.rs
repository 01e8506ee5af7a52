//! The groups of a recipe over some of its rows: every window of short columns, beside the model and
//! beside the recipe on a copy of these rows; windows that begin and end inside a byte; rows outside the
//! window that are refused, or hold anything; columns that are malformed where the window is not; the
//! ends of the window; and every refusal from both sides.

use crate::compare::{Checker, Observed};
use crate::entry::{Case, Entry, Expected, Input, Kind, TALLY, TRAYS};
use crate::generate::*;
use crate::groups::{check_answer, check_first, damage_some_column, not_served, Holding, Run};
use crate::model::{self, ArgumentColumn, Bitmap, Element, ListColumn, RecipeShown, Row, Width};
use crate::recipe_generate::*;
use crate::recipe_groups::{self, damageable_lists, damageable_recipe, laid_out, require_number};
use crate::recipe_groups::{shape_with_rows, shorten_some_slice, shown_by_codes, WAYS};
use crate::rng::Rng;
use crate::starts;
use crate::typed_groups::FAR_STARTS;
use crate::windows::{self, Window};

pub const ALL: [(&str, Run, u64); 19] = [
    ("worked cases", worked_cases, 0),
    ("random windows", random_windows, 4),
    ("layouts of the same rows", same_rows, 4),
    ("rows outside", rows_outside, 3),
    ("refused rows", refused_rows, 3),
    ("malformed recipes", malformed_recipes, 1),
    ("damaged columns", damaged_columns, 3),
    ("order of refusals", order_of_refusals, 3),
    ("tray and output lengths", lengths, 3),
    ("random bytes", random_bytes, 3),
    ("every window, exhaustive", every_window, 0),
    ("windows inside a byte, exhaustive", inside_a_byte, 0),
    ("ends of the window, exhaustive", every_end, 0),
    ("sums, exhaustive", every_sum, 0),
    ("starting bits, exhaustive", starts::every_start, 0),
    ("starting bits and columns beyond 32 bits", far_numbers, 0),
    ("answers of the entry, exhaustive", entry_answers, 0),
    ("inputs that are one slice", shared_inputs, 0),
    ("large columns", large_columns, 0),
];

const NARROW: Width = Width::Narrow;

fn window(begin: usize, end: usize) -> Window {
    Window { begin, end }
}

/// Every window of so many rows that is not refused.
fn windows_of(rows: usize) -> Vec<Window> {
    let all = (0..=rows).flat_map(|begin| (begin..=rows).map(move |end| window(begin, end)));
    all.collect()
}

/// A window that is refused beside so many rows: it ends behind them, or before it begins.
fn window_outside(rows: usize, rng: &mut Rng) -> Window {
    let Window { begin, end } = random_window(rows, rng);
    match rng.below(6) {
        0 => window(begin, rows + 1),
        1 => window(rows + 1, rows + 1),
        2 => window(rows + 1, rows),
        3 => window(end + 1, end),
        4 => window(begin, rng.pick(&[usize::MAX, 1 << 63, (1 << 32) | end, rows + 2])),
        _ => window(rng.pick(&[usize::MAX, 1 << 63, (1 << 32) | begin]), end),
    }
}

// The recipe on a copy.

/// Some bits of a bitmap, from bit 0 on; where there is none, none.
fn bits_between(bitmap: &Bitmap, places: impl Iterator<Item = usize>) -> Bitmap {
    match bitmap.bytes.is_empty() {
        true => Bitmap::from_0(Vec::new()),
        false => Bitmap::from_0(model::bitmap_of(places.map(|place| bitmap.is_valid(place)))),
    }
}

/// A list column that holds just these rows, their values and their bits, cut out of the column.
fn list_between(list: &ListColumn, Window { begin, end }: Window) -> ListColumn {
    let Some(offsets) = list.offsets.get(begin..=end) else {
        return ListColumn::default();
    };
    let (first, last) = (offsets[0] as usize, offsets[end - begin] as usize);
    ListColumn {
        offsets: offsets.iter().map(|offset| offset - first as i64).collect(),
        rows: bits_between(&list.rows, begin..end),
        values: list.values[first..last].to_vec(),
        elements: bits_between(&list.elements, first..last),
    }
}

/// The argument columns of just these rows, cut out of their one slice.
fn arguments_between(input: &Input, Window { begin, end }: Window) -> ArgumentColumn {
    let (rows, lent) = (input.lists[0].row_count(), &input.arguments[0]);
    let place = |column: usize| (begin..end).map(move |row| column * rows + row);
    let places: Vec<usize> = (0..input.entry.columns()).flat_map(place).collect();
    ArgumentColumn {
        values: places.iter().map(|place| lent.values[*place]).collect(),
        bits: bits_between(&lent.bits, places.into_iter()),
    }
}

/// The recipe's own call on a copy that holds just the rows of the window, as they lie.
fn cut_out(input: &Input, rng: &mut Rng) -> Input {
    let part = input.entry.window();
    let columns = input.entry.columns();
    Input {
        entry: Kind::Recipe { station: random_station(rng), columns }.at(NARROW),
        numbers: input.numbers.clone(),
        lists: input.lists.iter().map(|list| list_between(list, part)).collect(),
        arguments: vec![arguments_between(input, part)],
    }
}

/// The same on a copy of what they show, in a layout of its own.
fn laid_out_anew(input: &Input, rng: &mut Rng) -> Input {
    let (recipe, part) = input.recipe_of_rows().expect("the call of a window");
    laid_out(&windows::shown(&recipe, part), rng)
}

/// Makes the call; where its steps are reached, the recipe on copies of these rows, with rooms as long,
/// must come to the same.
fn check_beside_copies(
    checker: &mut Checker,
    input: &Input,
    case: &Case,
    rng: &mut Rng,
) -> Observed {
    let observed = checker.check(case);
    let (recipe, part) = input.recipe_of_rows().expect("the call of a window");
    if windows::refusal_before_steps(&recipe, part).is_none() {
        for copy in [cut_out(input, rng), laid_out_anew(input, rng)] {
            let mut other = lend_recipe(&copy, Room::Exact, rng);
            for (slice, lent) in other.outputs.iter_mut().zip(&case.outputs) {
                *slice = rng.bytes(lent.len());
            }
            let answer = checker.check_typed(&other);
            let is_same = (answer.number, &answer.counts, &answer.written)
                == (observed.number, &observed.counts, &observed.written);
            checker.require(is_same, case, "not what the recipe gives on a copy of these rows");
        }
        checker.covered(case, "beside a copy", observed.number.to_string());
    }
    observed
}

/// A recipe of each code, of some codes one after another, and of none.
fn some_codes(rng: &mut Rng) -> Vec<Vec<u32>> {
    let mut all: Vec<Vec<u32>> = (0..11).map(|code| vec![code]).collect();
    all.push(Vec::new());
    for length in [2, 2, 3, 3, 4] {
        all.push((0..length).map(|_| rng.below(11) as u32).collect());
    }
    all
}

/// Every window of few rows, those that are refused too.
fn every_window(checker: &mut Checker, _entry: Entry, rng: &mut Rng, _calls: u64) {
    for rows in [0, 1, 2, 3, 4, 9] {
        for codes in some_codes(rng) {
            let input = laid_out(&shown_by_codes(NARROW, &codes, rows, rng), rng);
            for (begin, end) in
                (0..rows + 2).flat_map(|begin| (0..rows + 2).map(move |end| (begin, end)))
            {
                let input = over_rows(&input, window(begin, end));
                let case = lend_recipe(&input, Room::Any, rng);
                let observed = check_beside_copies(checker, &input, &case, rng);
                let is_outside = begin > end || end > rows;
                checker.require((observed.number == 16) == is_outside, &case, "16 misjudged");
            }
        }
    }
}

fn some_input(rng: &mut Rng) -> Input {
    let shape = match rng.below(100) {
        0 => large_shape(rng),
        1 => long_row_shape(rng),
        2..20 => small_shape(rng),
        _ => shape_with_rows(rng),
    };
    laid_out(&random_recipe(NARROW, shape, rng), rng)
}

fn random_windows(checker: &mut Checker, _entry: Entry, rng: &mut Rng, calls: u64) {
    while checker.calls < calls.max(900) {
        let input = some_input(rng);
        let rows = input.lists[0].row_count();
        for _ in 0..3 {
            let part = match rng.chance(1, 16) {
                true => window_outside(rows, rng),
                false => random_window(rows, rng),
            };
            let input = over_rows(&input, part);
            let case = lend_recipe(&input, Room::Any, rng);
            check_beside_copies(checker, &input, &case, rng);
        }
    }
}

/// A recipe of which a step is refused with this number.
fn refused_shown(number: u32, rng: &mut Rng) -> RecipeShown {
    loop {
        let shape = RowShape { longest: 4, ..shape_with_rows(rng) };
        let (before, behind) = (rng.below(3), rng.below(2));
        if let Some(shown) = refused_recipe(NARROW, shape, before, number, behind, rng) {
            return shown;
        }
    }
}

/// What is shown, in each fixed layout and in some random ones: all calls share one answer. A round has
/// every answer that well-formed columns can be given.
fn same_rows(checker: &mut Checker, entry: Entry, rng: &mut Rng, calls: u64) {
    let numbers = [[0, 3, 9, 10, 16].to_vec(), refusals_of_steps(NARROW).to_vec()].concat();
    while checker.calls < calls.max(1200) {
        for number in numbers.iter().copied() {
            same_rows_once(checker, entry, number, rng);
        }
    }
}

fn same_rows_once(checker: &mut Checker, entry: Entry, number: u32, rng: &mut Rng) {
    let shown = match number {
        4..=8 => refused_shown(number, rng),
        _ => random_recipe(NARROW, shape_with_rows(rng), rng),
    };
    let mut call = RecipeCall::new(&shown, rng);
    let rows = call.lists[0].len();
    let mut part = random_window(rows, rng);
    let mut room = rng.pick(&[Room::Exact, Room::Longer(2), Room::Any]);
    match number {
        3 => call.lists[1].push(None),
        4..=8 if rng.chance(3, 4) => (part, room) = (window(0, rows), Room::Longer(1)),
        9 => room = Room::Short(rng.below(TALLY), 1),
        10 => call.numbers.push(0),
        16 => part = window_outside(rows, rng),
        _ => (),
    }
    let fixed = layouts().into_iter().map(|layout| vec![layout]);
    let random: Vec<Vec<Layout>> = (0..4).map(|_| random_layouts(entry, rng)).collect();
    let mut calls: Vec<(Case, Observed)> = Vec::new();
    for layouts in fixed.chain(random) {
        let input = over_rows(&call.laid_out(&layouts, rng), part);
        let mut case = lend_recipe(&input, room, rng);
        if let Some((first, _)) = calls.first() {
            case.outputs = first.outputs.iter().map(|slice| rng.bytes(slice.len())).collect();
        }
        let observed = checker.check(&case);
        calls.push((case, observed));
    }
    checker.agree(&calls);
}

// Rows outside the window.

/// Flips the bits of a bitmap that are for no place of the window.
fn flip_outside(bitmap: &mut Bitmap, is_inside: impl Fn(usize) -> bool) {
    for bit in 0..8 * bitmap.bytes.len() {
        if bit < bitmap.start || !is_inside(bit - bitmap.start) {
            bitmap.bytes[bit / 8] ^= 1 << (bit % 8);
        }
    }
}

/// Flips the unseen bits of one of the five bitmaps: rows and elements of both lists, and arguments.
fn flip_one(input: &mut Input, at: usize, Window { begin, end }: Window) {
    let rows = input.lists[0].row_count();
    if at == 4 {
        let is_inside = |place: usize| (begin..end).contains(&(place % rows.max(1)));
        return flip_outside(&mut input.arguments[0].bits, is_inside);
    }
    let ListColumn { offsets, rows, elements, .. } = &mut input.lists[at / 2];
    match at % 2 {
        0 => flip_outside(rows, |place| (begin..end).contains(&place)),
        _ => {
            let shown = offsets[begin] as usize..offsets[end] as usize;
            flip_outside(elements, |place| shown.contains(&place));
        }
    }
}

/// Offsets of rows outside the window that go anywhere, and numbers outside it that hold anything.
fn scramble(input: &mut Input, Window { begin, end }: Window, rng: &mut Rng) {
    let rows = input.lists[0].row_count();
    for list in &mut input.lists {
        let (first, last) = (list.offsets[begin], list.offsets[end]);
        let most = list.values.len() as i64;
        let mut before: Vec<i64> = (0..begin).map(|_| rng.between(0, first)).collect();
        let mut behind: Vec<i64> = (end..rows).map(|_| rng.between(last, most)).collect();
        before.sort();
        behind.sort();
        list.offsets = [before, list.offsets[begin..=end].to_vec(), behind].concat();
        for (place, value) in list.values.iter_mut().enumerate() {
            if !(first..last).contains(&(place as i64)) {
                *value = random_value(rng);
            }
        }
    }
    for (place, value) in input.arguments[0].values.iter_mut().enumerate() {
        if !(begin..end).contains(&(place % rows.max(1))) {
            *value = rng.pick(&[-1, 0, i64::MIN, i64::MAX, 2147483648, -2147483649, 7]);
        }
    }
}

/// The call, and the same with other bits, offsets and numbers outside the window: one answer.
fn rows_outside(checker: &mut Checker, _entry: Entry, rng: &mut Rng, calls: u64) {
    while checker.calls < calls.max(900) {
        let shape = RowShape { longest: 4, ..shape_with_rows(rng) };
        let layout = Layout { no_offsets: false, ..random_layout(rng) };
        let shown = random_recipe(NARROW, shape, rng);
        let part = random_window(shape.count, rng);
        let input = over_rows(&recipe_input(&shown, &[layout], rng), part);
        let case = lend_recipe(&input, Room::Any, rng);
        let observed = checker.check(&case);
        for round in 0..3 {
            let mut other = input.clone();
            if round > 0 {
                (0..5).for_each(|at| flip_one(&mut other, at, part));
            }
            if round != 1 {
                scramble(&mut other, part, rng);
            }
            let mut other_case = case.clone();
            other_case.lend(&other);
            let answer = checker.check(&other_case);
            checker.require(answer == observed, &other_case, "changed by rows outside the window");
            checker.covered(&case, "rows outside", observed.number.to_string());
        }
    }
}

/// Each bitmap from each bit, and windows that begin and end at each bit of a byte: the bits outside
/// them change nothing.
fn inside_a_byte(checker: &mut Checker, _entry: Entry, rng: &mut Rng, _calls: u64) {
    const ROWS: usize = 19;
    for (start, at) in (0..8).flat_map(|start| (0..5).map(move |at| (start, at))) {
        for (begin, length) in (0..9).flat_map(|begin| [0, 1, 7, 8, 10].map(|one| (begin, one))) {
            let shape = RowShape {
                count: ROWS,
                longest: 3,
                most_values: 400,
                null_rows: 2,
                null_elements: 3,
            };
            let columns = if at == 4 { 2 } else { rng.below(3) };
            let mut draft = Draft::new(NARROW, shape, columns, rng);
            (0..rng.below(3)).for_each(|_| draft.add_some(rng));
            let layout = Layout { rows_start: start, elements_start: start, ..Layout::default() };
            let part = window(begin, begin + length);
            let input = over_rows(&recipe_input(&draft.finish(rng).accepted, &[layout], rng), part);
            let case = lend_recipe(&input, Room::Exact, rng);
            let observed = checker.check(&case);
            checker.require(observed.number == 0, &case, "made to be accepted, and yet refused");
            let mut other = input.clone();
            flip_one(&mut other, at, part);
            let mut other_case = case.clone();
            other_case.lend(&other);
            let answer = checker.check(&other_case);
            checker.require(answer == observed, &other_case, "changed by bits outside the window");
        }
    }
}

// Refusals of rows.

/// Recipes of which a row is refused: a window without such a row is accepted, one of such a row alone
/// gets its number, and any other as the recipe on its copy.
fn refused_rows(checker: &mut Checker, _entry: Entry, rng: &mut Rng, calls: u64) {
    while checker.calls < calls.max(1500) {
        for number in refusals_of_steps(NARROW).iter().copied() {
            let shape = RowShape {
                count: 2 + rng.below(5),
                longest: 4,
                null_rows: 0,
                ..shape_with_rows(rng)
            };
            let (before, behind) = (rng.pick(&[0, 0, 1, 2, 3]), rng.pick(&[0, 1]));
            let Some(shown) = refused_recipe(NARROW, shape, before, number, behind, rng) else {
                continue;
            };
            check_refused(checker, &laid_out(&shown, rng), rng);
        }
    }
}

fn check_refused(checker: &mut Checker, input: &Input, rng: &mut Rng) {
    let rows = input.lists[0].row_count();
    let mut call = |begin: usize, end: usize, rng: &mut Rng| {
        let input = over_rows(input, window(begin, end));
        let case = lend_recipe(&input, Room::Exact, rng);
        let number = check_beside_copies(checker, &input, &case, rng).number;
        (case, number)
    };
    let alone: Vec<u32> = (0..rows).map(|row| call(row, row + 1, rng).1).collect();
    let mut faults = Vec::new();
    for Window { begin, end } in windows_of(rows) {
        let (case, number) = call(begin, end, rng);
        let are_good = alone[begin..end].iter().all(|one| *one == 0);
        // Rows that are good alone may have counts that are not, together.
        if are_good && !matches!(number, 0 | 8 | 9) {
            faults.push(case);
        }
    }
    for case in faults {
        checker.require(false, &case, "refused for a row outside the window");
    }
}

/// Counts of resize: 8 goes by the sum of those in the window.
fn every_sum(checker: &mut Checker, _entry: Entry, rng: &mut Rng, _calls: u64) {
    const COUNTS: [i64; 5] = [0, 1, 2147483646, 2147483647, i64::MAX];
    let three = COUNTS.iter().flat_map(|one| COUNTS.map(|two| (*one, two)));
    for (one, two) in three {
        for three in COUNTS {
            let counts = [one, two, three];
            let shown = RecipeShown {
                width: NARROW,
                steps: vec![[6, 0, 1, 0]],
                columns: vec![counts.map(Some).to_vec(), vec![None; 3]],
                lists: [vec![Some(vec![]); 3], vec![None; 3]],
            };
            let input = laid_out(&shown, rng);
            for part in windows_of(3) {
                let case = lend_recipe(&over_rows(&input, part), Room::Exact, rng);
                let sum: i128 = counts[part.begin..part.end].iter().map(|one| *one as i128).sum();
                let number = match sum {
                    ..=100 => 0,
                    101..=2147483647 => 9,
                    _ => 8,
                };
                require_number(checker, &case, number, "a sum of counts misjudged");
            }
        }
    }
}

// Damage, and the order of refusals.

fn malformed_recipes(checker: &mut Checker, _entry: Entry, rng: &mut Rng, calls: u64) {
    while checker.calls < calls.max(300) {
        for spoil in WAYS {
            let mut input = damageable_recipe(NARROW, rng.below(4), rng);
            spoil(&mut input, rng);
            recipe_groups::suit_arguments(&mut input);
            if rng.chance(1, 2) {
                damage_some_column(&mut input, rng.pick(&[1, 2, 3, 13]), rng);
            }
            let rows = input.lists[0].row_count();
            let part =
                rng.pick(&[window(0, rows), window(1, 1), window(1, 0), window(0, usize::MAX)]);
            let case = lend_recipe(&over_rows(&input, part), Room::Any, rng);
            require_number(checker, &case, 10, "the model does not see that it is malformed");
        }
    }
}

/// Columns that are malformed are refused whichever rows are looked at, also where those are not
/// concerned, or are none, or are outside.
fn damaged_columns(checker: &mut Checker, entry: Entry, rng: &mut Rng, calls: u64) {
    let harms = Harm::of(entry);
    while checker.calls < calls.max(harms.len() as u64 * 24) {
        for harm in &harms {
            let mut input = damageable_recipe(NARROW, rng.below(4), rng);
            if !harm.is_possible(&input) {
                continue;
            }
            harm.apply(&mut input, rng);
            let rows = input.lists[0].row_count();
            let parts = [
                window(0, 0),
                window(rows, rows),
                window(0, rows),
                window(3, 5),
                window(rows - 1, rows),
                random_window(rows, rng),
                window_outside(rows, rng),
            ];
            for part in parts {
                let case = lend_recipe(&over_rows(&input, part), Room::Longer(2), rng);
                let number = case.expected().number;
                let as_stated = match harm.refusal() {
                    Some(refusal) => number == refusal,
                    None => matches!(number, 0 | 4..=9 | 16),
                };
                checker.check(&case);
                checker.require(as_stated, &case, "the model does not see the damage");
                checker.covered(&case, "damage", harm.name(entry));
            }
        }
    }
}

/// A call, and the conditions of refusals that were made to hold in it, the last one the first to be
/// answered.
struct Refused {
    finished: Finished,
    layout: Layout,
    input: Input,
    part: Window,
    case: Case,
    holding: Holding,
}

/// One condition is added after another, from the last refusal to the first.
fn order_of_refusals(checker: &mut Checker, entry: Entry, rng: &mut Rng, calls: u64) {
    while checker.calls < calls.max(1500) {
        let of_step = rng.pick(refusals_of_steps(NARROW));
        let Some(mut refused) = Refused::new(of_step, rng) else {
            continue;
        };
        require_number(checker, &refused.case, 0, "made to be accepted, and yet refused");
        for number in [9, of_step, 16, 3, 2, 1, 13, 10, 100] {
            if !rng.chance(1, 3) && refused.add(number, rng) {
                check_first(checker, entry, &refused.case, &refused.holding);
            }
        }
    }
}

impl Refused {
    /// A call that is accepted, a step of which can be made to give this refusal within its window.
    fn new(of_step: u32, rng: &mut Rng) -> Option<Refused> {
        let lists = damageable_lists(NARROW, rng);
        let rows = lists[0].len();
        let mut draft = Draft::over(NARROW, lists, 3 + rng.below(6), 0, rng);
        if !draft.add_refusable(of_step, rng) {
            return None;
        }
        (0..rng.below(4)).for_each(|_| draft.add_some(rng));
        let (finished, layout) = (draft.finish(rng), damageable_layout(rng));
        let refused = recipe_input(&finished.refused, &[layout], rng);
        let gives = |part: &Window| {
            let case = lend_recipe(&over_rows(&refused, *part), Room::Exact, &mut Rng::new(0, ""));
            case.expected().number == of_step
        };
        let tried: Vec<Window> = (0..6).map(|_| random_window(rows, rng)).collect();
        let part = tried.into_iter().find(gives).unwrap_or(window(0, rows));
        let input = recipe_input(&finished.accepted, &[layout], rng);
        let case = lend_recipe(&over_rows(&input, part), Room::Exact, rng);
        Some(Refused { finished, layout, input, part, case, holding: Holding::new() })
    }

    /// Makes the condition of a refusal hold; false where it cannot.
    fn add(&mut self, number: u32, rng: &mut Rng) -> bool {
        let mut column = None;
        match number {
            1..=3 | 13 => {
                column = damage_some_column(&mut self.input, number, rng);
                if column.is_none() {
                    return false;
                }
            }
            9 => shorten_some_slice(&mut self.case, rng),
            10 => rng.pick(&WAYS)(&mut self.input, rng),
            16 => self.part = window_outside(self.input.lists[0].row_count(), rng),
            100 => drop(not_served(&mut self.case, rng)),
            _ => self.input = recipe_input(&self.finished.refused, &[self.layout], rng),
        }
        if number != 9 && number != 100 {
            self.case.lend(&over_rows(&self.input, self.part));
        }
        self.holding.push((number, column));
        true
    }
}

// Lengths of trays and outputs.

/// Every slice that is written exactly as long as these rows take, longer and one slot short.
fn lengths(checker: &mut Checker, entry: Entry, rng: &mut Rng, calls: u64) {
    while checker.calls < calls.max(900) {
        let shape = shape_with_rows(rng);
        let input = laid_out(&accepted_recipe(NARROW, shape, random_steps(rng), rng), rng);
        let input = over_rows(&input, random_window(shape.count, rng));
        for room in [Room::Exact, Room::Longer(1), Room::Longer(9)] {
            let case = lend_recipe(&input, room, rng);
            require_number(checker, &case, 0, "long enough, and yet refused");
        }
        for (slice, needed) in recipe_slots(&input).into_iter().enumerate() {
            if needed > 0 {
                let case = lend_recipe(&input, Room::Short(slice, rng.pick(&[0, 2])), rng);
                require_number(checker, &case, 9, "too short, and yet accepted");
                checker.covered(&case, "one slot short", entry.outputs()[slice].name);
            }
        }
    }
}

// The ends of the window.

/// Ends at and beside the rows, at and beside the ends of 32 and 63 bits, and the largest.
fn ends(rows: usize) -> Vec<usize> {
    let mut ends = vec![0, 1, rows, rows + 1, rows + 2, usize::MAX];
    ends.extend(rows.checked_sub(1));
    for far in [1 << 31, 1 << 32, 1 << 63] {
        ends.extend([far - 1, far, far + 1, far + rows, far + rows + 1]);
    }
    ends.push(usize::MAX - rows);
    ends.sort();
    ends.dedup();
    ends
}

fn every_end(checker: &mut Checker, _entry: Entry, rng: &mut Rng, _calls: u64) {
    for (rows, no_offsets) in
        [(0, true), (0, false), (1, false), (3, false), (8, false), (9, false)]
    {
        let layout = Layout { no_offsets, ..random_layout(rng) };
        for begin in ends(rows) {
            for end in ends(rows) {
                let codes: &[u32] = rng.pick(&[&[], &[0], &[6, 9], &[4, 1, 10]]);
                let shown = shown_by_codes(NARROW, codes, rows, rng);
                let input = over_rows(&recipe_input(&shown, &[layout], rng), window(begin, end));
                let case = lend_recipe(&input, Room::Longer(1), rng);
                let number = checker.check(&case).number;
                let is_outside = begin > end || end > rows;
                checker.require((number == 16) == is_outside, &case, "an end misjudged");
                checker.require(matches!(number, 0 | 16), &case, "room, and yet refused");
            }
        }
    }
}

// Random bytes in slices of random lengths.

fn random_bytes(checker: &mut Checker, _entry: Entry, rng: &mut Rng, calls: u64) {
    while checker.calls < calls.max(900) {
        let mut case = recipe_groups::random_case(NARROW, rng);
        let part = match rng.below(8) {
            0 => window(rng.below(6), rng.below(6)),
            _ => random_window(case.row_count(), rng),
        };
        let columns = case.entry.columns();
        case.entry = Kind::RecipeRows { window: part, columns }.at(NARROW);
        case.outputs.truncate(TALLY);
        checker.check(&case);
    }
}

// Numbers beyond 32 bits, and answers of the entry.

/// A call that is accepted, with trays and an output whose bytes are not 0.
fn accepted_call(rng: &mut Rng) -> (Input, Case) {
    let shape = RowShape { count: 1 + rng.below(12), ..shape_with_rows(rng) };
    let shown = accepted_recipe(NARROW, shape, rng.below(4), rng);
    let input = over_rows(&laid_out(&shown, rng), random_window(shape.count, rng));
    let mut case = lend_recipe(&input, Room::Longer(2), rng);
    case.outputs.iter_mut().flatten().for_each(|byte| *byte |= 1);
    (input, case)
}

fn far_numbers(checker: &mut Checker, entry: Entry, rng: &mut Rng, _calls: u64) {
    for start in FAR_STARTS {
        for at in 0..entry.bitmaps().len() {
            let (mut input, mut case) = accepted_call(rng);
            input.bitmaps_mut()[at].start = start;
            case.lend(&input);
            check_answer(checker, &case, 13);
        }
        for less in 0..8 {
            let (_, mut case) = accepted_call(rng);
            let (window, columns) = (case.entry.window(), start - start.min(less));
            case.entry = Kind::RecipeRows { window, columns }.at(NARROW);
            check_answer(checker, &case, 10);
        }
    }
}

/// Counts of every length to 6 beside calls that are accepted and refused; the trays are dirty.
fn entry_answers(checker: &mut Checker, _entry: Entry, rng: &mut Rng, _calls: u64) {
    for counts in 0..=6 {
        for number in [0, 10, 13, 1, 16, 9].into_iter().flat_map(|number| [number; 8]) {
            let (mut input, mut case) = accepted_call(rng);
            let rows = input.lists[0].row_count();
            match number {
                10 => input.numbers.push(0),
                13 => input.lists[1].elements.start = start_over_7(rng),
                1 => input.lists[0].offsets[0] = -1,
                16 => input = over_rows(&input, window_outside(rows, rng)),
                9 => case.outputs[TRAYS.end].truncate(0),
                _ => (),
            }
            case.lend(&input);
            case.counts = rng.bytes(8 * counts);
            let number = if counts < 4 { 100 } else { number };
            check_answer(checker, &case, number);
        }
    }
}

/// A list beside itself, lent as one slice.
fn shared_inputs(checker: &mut Checker, _entry: Entry, rng: &mut Rng, _calls: u64) {
    checker.shares = true;
    for _ in 0..200 {
        let shape = shape_with_rows(rng);
        let mut shown = accepted_recipe(NARROW, shape, rng.below(4), rng);
        shown.lists[1] = shown.lists[0].clone();
        let layout = Layout { absent_bitmaps: rng.chance(1, 2), ..Layout::default() };
        let input =
            over_rows(&recipe_input(&shown, &[layout], rng), random_window(shape.count, rng));
        checker.check(&lend_recipe(&input, Room::Any, rng));
    }
}

/// Few rows of very many: no slice is as long as the columns.
fn large_columns(checker: &mut Checker, _entry: Entry, rng: &mut Rng, _calls: u64) {
    const ROWS: usize = 140_000;
    for steps in [0, 1, 3] {
        let shape = RowShape {
            count: ROWS,
            longest: 2,
            most_values: 4 * ROWS,
            null_rows: 1,
            null_elements: 1,
        };
        let mut draft = Draft::new(NARROW, shape, 3, rng);
        draft.most = 9 * ROWS;
        (0..steps).for_each(|_| draft.add_some(rng));
        let input = recipe_input(
            &draft.finish(rng).accepted,
            &random_layouts(Entry::RECIPE_ROWS, rng),
            rng,
        );
        for (begin, end) in
            [(65530, 65545), (131071, 131073), (ROWS - 3, ROWS), (ROWS, ROWS), (5, 70_000)]
        {
            let input = over_rows(&input, window(begin, end));
            let case = lend_typed(&input, Room::Exact, rng);
            require_number(checker, &case, 0, "long enough, and yet refused");
            checker.covered(&case, "window", "of very many rows");
        }
        let case = lend_typed(&over_rows(&input, window(0, ROWS + 1)), Room::Exact, rng);
        require_number(checker, &case, 16, "one row too many, and yet accepted");
    }
}

// Worked cases.

/// Both lists, two argument columns, the steps, the window, and the rows that come back or the number.
type Worked = (
    [&'static [Option<&'static [Element]>]; 2],
    [&'static [Element]; 2],
    &'static [[u32; 4]],
    (usize, usize),
    Result<&'static [Option<&'static [Element]>], u32>,
);

const FIRST: &[Option<&[Element]>] =
    &[Some(&[Some(1), Some(2)]), None, Some(&[Some(3), None, Some(3)]), Some(&[])];
const SECOND: &[Option<&[Element]>] =
    &[Some(&[Some(2), Some(9)]), Some(&[Some(7)]), Some(&[None, Some(5)]), None];
const COUNTS: &[Element] = &[Some(-1), Some(4), Some(2), Some(1)];
const FILLS: &[Element] = &[Some(10), Some(20), Some(30), Some(40)];

const RESIZE: [u32; 4] = [6, 0, 1, 0];
const UNION: [u32; 4] = [9, 0, 0, 0];
const REVERSE: [u32; 4] = [0, 0, 0, 0];

const WORKED: &[Worked] = &[
    ([FIRST, SECOND], [COUNTS, FILLS], &[], (1, 3), Ok(&[None, Some(&[Some(3), None, Some(3)])])),
    ([FIRST, SECOND], [COUNTS, FILLS], &[], (0, 0), Ok(&[])),
    ([FIRST, SECOND], [COUNTS, FILLS], &[], (4, 4), Ok(&[])),
    ([FIRST, SECOND], [COUNTS, FILLS], &[], (5, 5), Err(16)),
    ([FIRST, SECOND], [COUNTS, FILLS], &[], (4, 3), Err(16)),
    ([FIRST, SECOND], [COUNTS, FILLS], &[], (0, 5), Err(16)),
    ([FIRST, SECOND], [COUNTS, FILLS], &[RESIZE], (0, 4), Err(7)),
    ([FIRST, SECOND], [COUNTS, FILLS], &[RESIZE], (0, 1), Err(7)),
    (
        [FIRST, SECOND],
        [COUNTS, FILLS],
        &[RESIZE],
        (1, 4),
        Ok(&[None, Some(&[Some(3), None]), Some(&[Some(40)])]),
    ),
    ([FIRST, SECOND], [COUNTS, FILLS], &[RESIZE], (0, 5), Err(16)),
    ([FIRST, SECOND], [COUNTS, FILLS], &[[6, 1, 0, 0], REVERSE], (3, 4), Err(9)),
    ([FIRST, SECOND], [COUNTS, FILLS], &[[6, 2, 0, 0]], (5, 4), Err(10)),
    (
        [FIRST, SECOND],
        [COUNTS, FILLS],
        &[UNION],
        (2, 4),
        Ok(&[Some(&[Some(3), None, Some(5)]), None]),
    ),
    (
        [FIRST, SECOND],
        [COUNTS, FILLS],
        &[REVERSE, UNION, REVERSE],
        (0, 1),
        Ok(&[Some(&[Some(9), Some(1), Some(2)])]),
    ),
    ([FIRST, SECOND], [COUNTS, FILLS.split_at(3).0], &[RESIZE], (2, 1), Err(3)),
    ([FIRST, SECOND.split_at(3).0], [COUNTS, FILLS], &[RESIZE], (0, 9), Err(3)),
    ([&[], &[]], [&[], &[]], &[UNION], (0, 0), Ok(&[])),
    ([&[], &[]], [&[], &[]], &[UNION], (0, 1), Err(16)),
];

fn worked_cases(checker: &mut Checker, _entry: Entry, rng: &mut Rng, _calls: u64) {
    for (lists, columns, steps, (begin, end), wanted) in WORKED {
        let rows = |rows: &[Option<&[Element]>]| -> Vec<Row> {
            rows.iter().map(|row| row.map(<[Element]>::to_vec)).collect()
        };
        let call = RecipeCall {
            width: NARROW,
            station: 0,
            numbers: steps.concat(),
            columns: 2,
            lists: lists.map(rows),
            arguments: columns.concat(),
        };
        let room = if *wanted == Err(9) { Room::Short(2, 1) } else { Room::Longer(1) };
        for layout in layouts() {
            let input = over_rows(&call.laid_out(&[layout], rng), window(*begin, *end));
            let case = lend_recipe(&input, room, rng);
            let observed = checker.check(&case);
            let is_as_worked = match wanted {
                Err(number) => observed.number == *number,
                Ok(made) => {
                    let form = Expected::accepted(&model::list_form(&rows(made)), NARROW);
                    observed.number == 0 && observed.written == form.written
                }
            };
            checker.require(is_as_worked, &case, "not as worked by hand");
        }
    }
}
