//! The named groups of checks. A group gets a generator of its own, so that it can be run alone
//! from the seed.

use crate::compare::Checker;
use crate::entry::{encode_offsets, Case, Content, Entry, Input, Kind, SliceKind};
use crate::entry::{AREA, MOST_ROWS, MOST_VALUES, TALLY, TALLY_BYTES};
use crate::exhaustive::{every_argument, every_limit_length, every_sum};
use crate::exhaustive::{short_columns, short_offsets};
use crate::generate::*;
use crate::grade_groups;
use crate::grades;
use crate::hash_groups;
use crate::large;
use crate::lending_groups;
use crate::library::Library;
use crate::model::{Role, Row, Shown, Width};
use crate::no_offsets;
use crate::pairs;
use crate::recipe_groups;
use crate::rng::Rng;
use crate::starts;
use crate::strides;
use crate::typed_groups;
use crate::view_groups;
use crate::wide;
use crate::window_groups;
use crate::worked;

type Applies = fn(Entry) -> bool;
pub type Run = fn(&mut Checker, Entry, &mut Rng, u64);

pub struct Group {
    pub name: String,
    pub entry: Entry,
    /// Whether it is for what typed calls alone meet.
    pub typed: bool,
    /// Whether it asks how much is to be lent for the calls of another group.
    asks: bool,
    /// Whether its calls are graded.
    grades: bool,
    run: Run,
    /// Its part of the random calls, in shares.
    shares: u64,
}

/// The groups that each operation has, if it is one for which they are meant; those that take long
/// come last.
const FOR_EACH: [(&str, Applies, Run, u64); 16] = [
    ("random columns", always, random_columns, 6),
    ("layouts of the same rows", always, pairs::same_rows, 6),
    ("damaged columns", always, damaged_columns, 4),
    ("order of refusals", always, order_of_refusals, 4),
    ("first bad row", has_row_refusals, first_bad_row, 2),
    ("output lengths", always, output_lengths, 4),
    (OWN_ANSWERS, always, entry_answers, 1),
    ("random bytes", always, random_bytes, 5),
    ("boundary arguments, exhaustive", has_others, every_argument, 0),
    ("strides, exhaustive", strides::is_for, strides::every_stride, 0),
    ("sums, exhaustive", has_sums, every_sum, 0),
    ("limit columns, exhaustive", has_limit, every_limit_length, 0),
    ("no offsets, exhaustive", always, no_offsets::every_form, 0),
    ("starting bits, exhaustive", always, starts::every_start, 0),
    ("short columns, exhaustive", always, short_columns, 0),
    ("short offsets, exhaustive", always, short_offsets, 0),
];

/// The group for what the byte entries answer by themselves, which large lists have not.
const OWN_ANSWERS: &str = "answers of the entry";

fn always(_entry: Entry) -> bool {
    true
}

fn has_others(entry: Entry) -> bool {
    entry.lists() + entry.roles().len() > 1
}

fn has_sums(entry: Entry) -> bool {
    entry.roles().iter().any(|role| matches!(role, Role::Count | Role::Times))
}

fn has_limit(entry: Entry) -> bool {
    entry.roles().contains(&Role::Limit)
}

/// Refusals that one row gives, whatever the others hold.
fn has_row_refusals(entry: Entry) -> bool {
    entry.refusals().iter().any(|number| matches!(number, 4 | 5))
}

/// The groups for what typed calls alone meet that each operation has, and those of recipes.
const TYPED_FOR_EACH: [(&str, Run); 8] = [
    ("typed answers of the entry, exhaustive", typed_groups::entry_answers),
    ("typed starting bits beyond 32 bits", typed_groups::far_starts),
    ("typed inputs that are one slice", typed_groups::shared_inputs),
    ("typed columns over the byte entry's sizes", typed_groups::over_sizes),
    ("typed layouts of the same rows, over size", typed_groups::same_rows_over_sizes),
    ("typed large columns, refused", large::refused),
    ("typed large columns", large::columns),
    ("lengths to lend, and the run", lending_groups::lengths),
];

const TYPED_OF_RECIPES: [(&str, Run); 11] = [
    ("typed answers of the entry, exhaustive", typed_groups::recipe_answers),
    ("typed starting bits and columns beyond 32 bits", typed_groups::far_starts),
    ("typed inputs that are one slice", typed_groups::shared_inputs_of_recipes),
    ("typed recipes over the byte entry's sizes", typed_groups::recipes_over_sizes),
    ("typed large columns", large::recipes),
    ("limits to lend, worked cases", lending_groups::worked_limits),
    ("limits to lend, and the run", lending_groups::limits),
    ("limits to lend, other levels", lending_groups::other_levels),
    ("limits to lend, sums, exhaustive", lending_groups::sums),
    ("limits to lend, refused, exhaustive", lending_groups::refused),
    ("limits to lend, places, exhaustive", lending_groups::places),
];

/// The groups for what large lists alone meet, if the operation is one for which they are meant, and
/// those of recipes.
const LARGE_FOR_EACH: [(&str, Applies, Run); 5] = [
    ("beside the narrow call", always, wide::beside_narrow),
    ("far offsets, exhaustive", always, wide::far_offsets),
    ("far arguments, exhaustive", wide::has_numbers, wide::far_arguments),
    ("sums worked by hand", wide::has_sums, wide::worked_sums),
    ("far sums, exhaustive", wide::has_sums, wide::far_sums),
];

const LARGE_OF_RECIPES: [(&str, Run); 4] = [
    ("beside the narrow call", wide::beside_narrow),
    ("far offsets, exhaustive", wide::far_offsets),
    ("far arguments in a step", wide::far_arguments_of_a_step),
    ("limits to lend, far sums worked by hand", wide::worked_limits),
];

/// The groups whose calls are asked about too, with a quarter of their random calls.
const ASKED: [&str; 14] = [
    "random columns",
    "layouts of the same rows",
    "damaged columns",
    "order of refusals",
    "first bad row",
    "random bytes",
    "boundary arguments, exhaustive",
    "strides, exhaustive",
    "sums, exhaustive",
    "limit columns, exhaustive",
    "no offsets, exhaustive",
    "starting bits, exhaustive",
    "short columns, exhaustive",
    "short offsets, exhaustive",
];

const ASKED_TYPED: [(&str, Run); 2] = [
    ("places and codes, exhaustive", typed_groups::entry_answers),
    ("starting bits beyond 32 bits", typed_groups::far_starts),
];

const ASKED_OF_RECIPES: [&str; 12] = [
    "random recipes",
    "layouts of the same rows",
    "refused steps",
    "malformed recipes",
    "damaged columns",
    "order of refusals",
    "random bytes",
    "no offsets, exhaustive",
    "starting bits, exhaustive",
    "row counts and argument lengths, exhaustive",
    "short recipes, exhaustive",
    "codes one after another, exhaustive",
];

pub fn all() -> Vec<Group> {
    let mut groups = of_width(Width::Narrow);
    for (name, kind) in CODED {
        let name = format!("{name}: unknown operations");
        groups.push(Group::new(kind.at(Width::Narrow), name, unknown_operations, 1, false));
    }
    groups.extend(of_width(Width::Wide));
    groups.extend(of_grades());
    groups.extend(of_views());
    for (name, run, shares) in window_groups::ALL {
        let name = format!("{}: {name}", Entry::RECIPE_ROWS.name());
        groups.push(Group::new(Entry::RECIPE_ROWS, name, run, shares, true));
    }
    groups.extend(of_hashed());
    groups
}

/// The groups of ListView columns, all of whose calls are typed. Export has those of an operation on
/// one list, but for what nothing is asked about.
fn of_views() -> Vec<Group> {
    let mut groups = Vec::new();
    let mut add = |entry: Entry, name: &str, run: Run, shares: u64| {
        let name = format!("{}: {name}", entry.name());
        groups.push(Group::new(entry, name, run, shares, true));
    };
    for (name, run, shares) in view_groups::OF_IMPORT {
        add(Entry::IMPORT, name, run, shares);
    }
    for (name, run) in view_groups::OF_EXPORT {
        add(Entry::EXPORT, name, run, 0);
    }
    let own = FOR_EACH.into_iter().filter(|(name, ..)| *name != OWN_ANSWERS);
    for (name, _, run, shares) in own.filter(|(_, applies, ..)| applies(Entry::EXPORT)) {
        add(Entry::EXPORT, name, run, shares);
    }
    for (name, run) in TYPED_FOR_EACH.into_iter().filter(|(name, _)| !name.contains(" to lend, ")) {
        add(Entry::EXPORT, name, run, 0);
    }
    groups
}

/// The groups of grading, all of whose calls are typed: those of its own, and some of export and of
/// recipes, whose columns and recipes are graded instead.
fn of_grades() -> Vec<Group> {
    let mut groups = Vec::new();
    let mut add = |entry: Entry, name: &str, run: Run, shares: u64| {
        let name = format!("{}: {name}", grades::name(entry));
        groups.push(Group::new(entry, name, run, shares, true));
    };
    let (columns, recipes) = (Entry::EXPORT, Entry::recipes(Width::Narrow));
    let is_graded = |name: &str| grade_groups::GRADED.contains(&name);
    for (name, run) in grade_groups::OF_COLUMNS {
        add(columns, name, run, 0);
    }
    for (name, _, run, shares) in FOR_EACH.into_iter().filter(|(name, ..)| is_graded(name)) {
        add(columns, name, run, shares);
    }
    for (name, run) in TYPED_FOR_EACH.into_iter().filter(|(name, _)| is_graded(name)) {
        add(columns, name, run, 0);
    }
    for (name, run) in grade_groups::OF_RECIPES {
        add(recipes, name, run, 0);
    }
    let own = recipe_groups::ALL.into_iter();
    for (name, run, shares) in own.filter(|(name, ..)| grade_groups::GRADED_RECIPES.contains(name))
    {
        add(recipes, name, run, shares);
    }
    let typed = TYPED_OF_RECIPES.into_iter();
    for (name, run) in typed.filter(|(name, _)| grade_groups::GRADED_RECIPES.contains(name)) {
        add(recipes, name, run, 0);
    }
    groups
}

/// The groups of operations with a work area, all of whose calls are typed: those of the operation
/// without one, but for what nothing is asked about, and their own.
fn of_hashed() -> Vec<Group> {
    let mut groups = Vec::new();
    for entry in Entry::HASHED {
        let mut add = |name: &str, run: Run, shares: u64| {
            let name = format!("{}: {name}", entry.name());
            groups.push(Group::new(entry, name, run, shares, true));
        };
        for (name, run, shares) in hash_groups::ALL {
            add(name, run, shares);
        }
        let own = FOR_EACH.into_iter().filter(|(name, ..)| *name != OWN_ANSWERS);
        for (name, _, run, shares) in own.filter(|(_, applies, ..)| applies(entry)) {
            add(name, run, shares / 2);
        }
        let typed = TYPED_FOR_EACH.into_iter().filter(|(name, _)| !name.contains(" to lend, "));
        for (name, run) in typed {
            add(name, run, 0);
        }
    }
    groups
}

/// The groups of lists, or those of large lists, all of whose calls are typed.
fn of_width(width: Width) -> Vec<Group> {
    let mut groups = Vec::new();
    let mut add = |entry: Entry, name: &str, run: Run, shares: u64, typed: bool| {
        let name = format!("{}: {name}", entry.name());
        groups.push(Group::new(entry, name, run, shares, typed));
    };
    let is_wide = width == Width::Wide;
    for entry in Entry::all(width) {
        let own = FOR_EACH
            .into_iter()
            .filter(|(name, applies, ..)| applies(entry) && !(is_wide && *name == OWN_ANSWERS));
        for (name, _, run, shares) in own.clone() {
            add(entry, name, run, shares, is_wide);
        }
        for (name, run) in TYPED_FOR_EACH {
            add(entry, name, run, 0, true);
        }
        for (name, _, run, shares) in own.filter(|(name, ..)| ASKED.contains(name)) {
            add(entry, &format!("asked, {name}"), run, shares, true);
        }
        for (name, run) in ASKED_TYPED {
            add(entry, &format!("asked, {name}"), run, 0, true);
        }
        for (name, applies, run) in LARGE_FOR_EACH {
            if is_wide && applies(entry) {
                add(entry, name, run, 0, true);
            }
        }
    }
    let recipes = Entry::recipes(width);
    let own = recipe_groups::ALL.into_iter();
    let own = own.filter(|(name, ..)| !(is_wide && *name == OWN_ANSWERS));
    for (name, run, shares) in own.clone() {
        add(recipes, name, run, shares, is_wide);
    }
    for (name, run) in TYPED_OF_RECIPES {
        add(recipes, name, run, 0, true);
    }
    for (name, run, shares) in own.filter(|(name, ..)| ASKED_OF_RECIPES.contains(name)) {
        add(recipes, &format!("asked, {name}"), run, shares, true);
    }
    let (name, run) = ASKED_TYPED[1];
    add(recipes, &format!("asked, {name}"), run, 0, true);
    for (name, run) in LARGE_OF_RECIPES {
        if is_wide {
            add(recipes, name, run, 0, true);
        }
    }
    let name = ["worked cases", "large worked cases"][width as usize].to_string();
    groups.push(Group::new(Kind::List(0).at(width), name, worked::cases, 0, is_wide));
    groups
}

/// The entries that take a code, each with one of its operations.
const CODED: [(&str, Kind); 3] = [
    ("list entry", Kind::List(0)),
    ("lists entry", Kind::Lists(9)),
    ("list with entry", Kind::ListWith(7)),
];

impl Group {
    fn new(entry: Entry, name: String, run: Run, shares: u64, typed: bool) -> Group {
        let asks = name.contains(": asked, ");
        let grades = name.starts_with(grades::name(Entry::EXPORT));
        Group { name, entry, typed, asks, grades, run, shares }
    }

    /// Whether the group is one of those that this operation has.
    pub fn is_of(&self, operation: &str) -> bool {
        self.name.strip_prefix(operation).is_some_and(|rest| rest.starts_with(": "))
    }

    /// Whether it is one of those for how much to lend.
    pub fn is_lending(&self) -> bool {
        self.asks || self.name.contains(" to lend, ")
    }

    /// Whether the library has the entries that its calls are for.
    pub fn is_in(&self, library: &Library) -> bool {
        library.has(self.entry) && (library.grades.is_some() || !self.grades)
    }

    /// Whether it is one of those of large lists.
    pub fn is_large(&self) -> bool {
        self.entry.is_wide()
    }

    /// Runs the group with its part of the random calls of its width; the checker then holds its
    /// record.
    pub fn run(&self, checker: &mut Checker, seed: u64, random_calls: u64) {
        let made = of_width(self.entry.width).into_iter().filter(|group| !group.asks);
        let shares: u64 = made.map(|group| group.shares).sum();
        let calls = random_calls * self.shares / shares / if self.asks { 4 } else { 1 };
        checker.start_group(&self.name);
        (checker.asks, checker.grades) = (self.asks, self.grades);
        (self.run)(checker, self.entry, &mut Rng::new(seed, &self.name), calls);
    }
}

// Random columns about each boundary.

fn random_columns(checker: &mut Checker, entry: Entry, rng: &mut Rng, calls: u64) {
    for rows in [0, 1, 7, 8, 9, 15, 16, 17, 4095, 4096] {
        let shape = RowShape { count: rows, most_values: MOST_VALUES, ..small_shape(rng) };
        let shape = RowShape { null_rows: 1, longest: 3, ..shape };
        let shown = random_shown(entry, shape, rng);
        let layouts = random_layouts(entry, rng);
        checker.check(&lend(&input_of(entry, &shown, &layouts, rng), Room::Exact, rng));
    }
    while checker.calls < calls {
        let shape = match rng.below(100) {
            0 => large_shape(rng),
            1 => long_row_shape(rng),
            _ => small_shape(rng),
        };
        let input = random_input(entry, shape, rng);
        checker.check(&lend(&input, Room::Any, rng));
    }
}

// Damage.

fn damageable_input(entry: Entry, rng: &mut Rng) -> Input {
    let shown = damageable_shown(entry, rng);
    let layout = damageable_layout(rng);
    input_of(entry, &shown, &[layout], rng)
}

fn damaged_columns(checker: &mut Checker, entry: Entry, rng: &mut Rng, calls: u64) {
    let harms = Harm::of(entry);
    while checker.calls < calls.max(harms.len() as u64 * 20) {
        for harm in &harms {
            let mut input = damageable_input(entry, rng);
            if !harm.is_possible(&input) {
                continue;
            }
            harm.apply(&mut input, rng);
            let case = lend(&input, Room::Longer(2), rng);
            let number = case.expected().number;
            let as_stated = match harm.refusal() {
                Some(refusal) => number == refusal,
                None => number == 0 || (4..=9).contains(&number),
            };
            checker.check(&case);
            checker.require(as_stated, &case, "the model does not see the damage that was done");
            checker.covered(&case, "damage", harm.name(entry));
        }
    }
}

// Order: one condition is added after another, from the last refusal to the first.

/// A call, and the conditions of refusals that were made to hold in it, the last one the first to
/// be answered; those of 13, 1, 2 and 3 with the column in which they hold.
struct Refused {
    shown: Shown,
    layout: Layout,
    input: Input,
    case: Case,
    holding: Holding,
}

/// Refusals whose conditions hold, with the column in which they do.
pub type Holding = Vec<(u32, Option<Column>)>;

fn order_of_refusals(checker: &mut Checker, entry: Entry, rng: &mut Rng, calls: u64) {
    while checker.calls < calls.max(1200) {
        let shown = damageable_shown(entry, rng);
        let layout = damageable_layout(rng);
        let input = input_of(entry, &shown, &[layout], rng);
        let case = lend(&input, Room::Exact, rng);
        checker.check(&case);
        let mut refused = Refused { shown, layout, input, case, holding: Vec::new() };
        let of_rows = rng.pick(&[&[0][..], entry.refusals()].concat());
        let of_area: &[u32] = if entry.is_hashed() { &[14] } else { &[] };
        let numbers = [&[9, of_rows], of_area, &[3, 2, 1, 13, 101, 100, 102]].concat();
        for number in numbers {
            if !rng.chance(1, 3) && refused.add(number, rng) {
                let entry = refused.input.entry;
                check_first(checker, entry, &refused.case, &refused.holding);
            }
        }
    }
}

/// The last of the conditions that hold is the one that is answered.
pub fn check_first(checker: &mut Checker, entry: Entry, case: &Case, holding: &Holding) {
    let Some(((number, column), others)) = holding.split_last() else {
        return;
    };
    checker.check(case);
    let first = case.expected().number == *number;
    checker.require(first, case, "the model does not give the refusal that comes first");
    for (other, other_column) in others {
        checker.coverage.count(entry.name(), "order", format!("{number} before {other}"));
        if let (Some(column), Some(other_column)) = (column, other_column) {
            let (column, other_column) = (column.name(entry), other_column.name(entry));
            let subject = format!("{number} of {column} before {other} of {other_column}");
            checker.coverage.count(entry.name(), "order", subject);
        }
    }
}

impl Refused {
    /// Makes the condition of a refusal hold; false where the operation does not give it.
    fn add(&mut self, number: u32, rng: &mut Rng) -> bool {
        let mut column = None;
        let possible = match number {
            1..=3 | 13 => {
                column = self.damage(number, rng);
                column.is_some()
            }
            4..=8 => self.refuse_some_row(number, rng),
            9 => shorten_an_output(&mut self.case, rng),
            14 => shorten_area(&mut self.case, rng),
            100 if self.case.entry.is_typed_only() => not_served(&mut self.case, rng),
            101 | 102 if self.case.entry.is_typed_only() => false,
            100 => make_ragged(&mut self.case, rng),
            101 => over_size(&mut self.case, rng),
            102 => {
                let code = unknown_code(self.case.entry, rng);
                let unknown = self.case.entry.with_code(code);
                self.case.entry = unknown.unwrap_or(self.case.entry);
                unknown.is_some()
            }
            _ => false,
        };
        if possible {
            self.holding.push((number, column));
        }
        possible
    }

    fn damage(&mut self, number: u32, rng: &mut Rng) -> Option<Column> {
        let column = damage_some_column(&mut self.input, number, rng);
        self.case.lend(&self.input);
        column
    }

    fn refuse_some_row(&mut self, number: u32, rng: &mut Rng) -> bool {
        let entry = self.input.entry;
        let full = |row: &Row| row.as_ref().is_some_and(|row| !row.is_empty());
        let mut rows: Vec<usize> = (0..self.shown.lists[0].len()).collect();
        rows.retain(|row| full(&self.shown.lists[0][*row]));
        let refused = refuse_row(entry, &mut self.shown, rng.pick(&rows), number, rng);
        self.input = input_of(entry, &self.shown, &[self.layout], rng);
        self.case.lend(&self.input);
        refused
    }
}

/// Does some damage that brings this refusal, and gives the column that it is done to; other damage
/// stays.
pub fn damage_some_column(input: &mut Input, number: u32, rng: &mut Rng) -> Option<Column> {
    let mut harms = Harm::of(input.entry);
    harms.retain(|harm| harm.refusal() == Some(number) && harm.is_possible(input));
    harms.retain(|harm| !harm.takes_bitmap());
    if harms.is_empty() {
        return None;
    }
    // Columns have equal chances, whatever can be done to them.
    let mut columns: Vec<Column> = harms.iter().map(|harm| harm.column).collect();
    columns.dedup();
    let column = rng.pick(&columns);
    harms.retain(|harm| harm.column == column);
    rng.pick(&harms).apply(input, rng);
    Some(column)
}

/// Cuts one output, which was lent exactly, by one slot or to nothing.
fn shorten_an_output(case: &mut Case, rng: &mut Rng) -> bool {
    let mut slices: Vec<usize> = case.entry.results().collect();
    slices.retain(|slice| !case.outputs[*slice].is_empty());
    let slice = rng.pick(&slices);
    let less = case.outputs[slice].len() - case.entry.outputs()[slice].width;
    case.outputs[slice].truncate(rng.pick(&[less, less, 0]));
    true
}

/// The same of a work area.
fn shorten_area(case: &mut Case, rng: &mut Rng) -> bool {
    let area = &mut case.outputs[AREA];
    let less = area.len().saturating_sub(4);
    let is_short = !area.is_empty();
    area.truncate(rng.pick(&[less, less, 0]));
    is_short
}

/// Two rows are refused, each with a number of its own: the first decides.
fn first_bad_row(checker: &mut Checker, entry: Entry, rng: &mut Rng, calls: u64) {
    while checker.calls < calls.max(300) {
        let shape = RowShape { count: 2 + rng.below(8), longest: 4, ..small_shape(rng) };
        let mut shown = random_shown(entry, RowShape { null_elements: 1, ..shape }, rng);
        let mut rows: Vec<usize> = (0..shape.count).collect();
        shuffle(&mut rows, rng);
        let mut bad = [rows[0], rows[1]];
        bad.sort();
        let numbers = [rng.pick(entry.refusals()), rng.pick(entry.refusals())];
        for (row, number) in bad.into_iter().zip(numbers) {
            shown.lists[0][row] = Some(vec![Some(5); 1 + rng.below(3)]);
            refuse_row(entry, &mut shown, row, number, rng);
        }
        let layouts = random_layouts(entry, rng);
        let case = lend(&input_of(entry, &shown, &layouts, rng), Room::Exact, rng);
        check_answer(checker, &case, numbers[0]);
        let subject = format!("{} in a row before {}", numbers[0], numbers[1]);
        checker.covered(&case, "order", subject);
    }
}

// Output lengths.

fn output_lengths(checker: &mut Checker, entry: Entry, rng: &mut Rng, calls: u64) {
    while checker.calls < calls.max(200) {
        let shape = if rng.chance(1, 200) { large_shape(rng) } else { small_shape(rng) };
        let shown = random_shown(entry, shape, rng);
        let layouts = random_layouts(entry, rng);
        check_lengths(checker, &input_of(entry, &shown, &layouts, rng), rng);
    }
}

fn check_lengths(checker: &mut Checker, input: &Input, rng: &mut Rng) {
    for room in [Room::Exact, Room::Longer(1), Room::Longer(9)] {
        let case = lend(input, room, rng);
        checker.check(&case);
        checker.require(case.expected().number == 0, &case, "long enough, and yet refused");
    }
    let needed = needed_slots(input);
    for (slice, kind) in input.entry.outputs().iter().enumerate() {
        if needed[slice] == 0 {
            continue;
        }
        for more in [0, 2] {
            let case = lend(input, Room::Short(slice, more), rng);
            checker.check(&case);
            let number = if kind.content == Content::Area { 14 } else { 9 };
            checker.require(case.expected().number == number, &case, "too short, and yet accepted");
            checker.covered(&case, "one slot short", kind.name);
        }
    }
}

// Answers of the entry itself.

/// A slice of numbers of a case, by its place among the inputs or the outputs.
#[derive(Clone, Copy)]
pub enum NumberSlice {
    Input(usize),
    Output(usize),
}

impl NumberSlice {
    pub fn all(entry: Entry) -> Vec<(NumberSlice, SliceKind)> {
        let inputs = entry.inputs().into_iter().enumerate();
        let outputs = entry.outputs().iter().copied().enumerate();
        let mut all: Vec<_> = inputs.map(|(at, kind)| (NumberSlice::Input(at), kind)).collect();
        all.extend(outputs.map(|(at, kind)| (NumberSlice::Output(at), kind)));
        all.retain(|(_, kind)| kind.width > 1);
        all
    }

    /// Those of which the entry takes only so many slots.
    pub fn limited(entry: Entry) -> Vec<(NumberSlice, SliceKind)> {
        let mut all = NumberSlice::all(entry);
        all.retain(|(_, kind)| kind.most.is_some());
        all
    }

    pub fn of(self, case: &mut Case) -> &mut Vec<u8> {
        match self {
            NumberSlice::Input(at) => &mut case.inputs[at],
            NumberSlice::Output(at) => &mut case.outputs[at],
        }
    }
}

/// Fills a slice of numbers to this many slots.
pub fn grow(bytes: &mut Vec<u8>, slots: usize, kind: SliceKind, rng: &mut Rng) {
    let more = (slots * kind.width).saturating_sub(bytes.len());
    bytes.extend(rng.bytes(more));
}

/// Makes some slice of numbers larger than the entry takes.
pub fn over_size(case: &mut Case, rng: &mut Rng) -> bool {
    let (slice, kind) = rng.pick(&NumberSlice::limited(case.entry));
    let slots = kind.most.unwrap_or(0) + rng.pick(&[1, 1, 2, 4096, 20000]);
    grow(slice.of(case), slots, kind, rng);
    true
}

/// Makes the counts or a recipe's tally too short, which a typed entry answers with 100.
pub fn not_served(case: &mut Case, rng: &mut Rng) -> bool {
    if case.entry.is_recipe() && rng.chance(1, 2) {
        case.outputs[TALLY].truncate(rng.below(TALLY_BYTES));
    } else {
        case.counts.truncate(rng.below(case.entry.count_bytes()));
    }
    true
}

/// Makes some slice of numbers ragged, or the counts or the tally too short.
pub fn make_ragged(case: &mut Case, rng: &mut Rng) -> bool {
    let slices = NumberSlice::all(case.entry);
    let at = rng.below(slices.len() + 1 + usize::from(case.entry.is_recipe()));
    if at == slices.len() {
        case.counts.truncate(rng.below(case.entry.count_bytes()));
    } else if at > slices.len() {
        case.outputs[TALLY].truncate(rng.below(TALLY_BYTES));
    } else {
        let (slice, kind) = slices[at];
        let more = 1 + rng.below(kind.width - 1);
        slice.of(case).extend(rng.bytes(more));
    }
    true
}

fn entry_answers(checker: &mut Checker, entry: Entry, rng: &mut Rng, calls: u64) {
    sizes_met_exactly(checker, entry, rng);
    counts_of_every_length(checker, entry, rng);
    for _ in 0..2 {
        for (slice, kind) in NumberSlice::all(entry) {
            ragged_slice(checker, entry, slice, kind, rng);
        }
        for (slice, kind) in NumberSlice::limited(entry) {
            slice_over_size(checker, entry, slice, kind, rng);
        }
    }
    while checker.calls < calls {
        let mut case = lend(&random_input(entry, small_shape(rng), rng), Room::Any, rng);
        make_ragged(&mut case, rng);
        checker.check(&case);
    }
}

/// Every slice of numbers exactly as large as the entry takes: accepted.
fn sizes_met_exactly(checker: &mut Checker, entry: Entry, rng: &mut Rng) {
    for null_rows in [0, 1] {
        let shape = RowShape {
            count: MOST_ROWS,
            longest: 4,
            most_values: MOST_VALUES,
            null_rows,
            null_elements: 1,
        };
        let mut lists = random_lists(entry, shape, rng);
        for list in &mut lists {
            let shown: usize = list.iter().flatten().map(Vec::len).sum();
            list[MOST_ROWS - 1] = last_row(list, MOST_VALUES - shown);
        }
        let mut shown = Shown { arguments: accepted_columns(entry, &lists, rng), lists };
        for column in &mut shown.arguments {
            // One limit for all rows, written out.
            column.resize(MOST_ROWS, column[0]);
        }
        let layout = Layout { behind: MOST_VALUES, numbers_under_nulls: true, ..Layout::default() };
        let mut case = lend(&input_of(entry, &shown, &[layout], rng), Room::Exact, rng);
        for (slice, kind) in NumberSlice::all(entry) {
            grow(slice.of(&mut case), kind.most.unwrap_or(0), kind, rng);
        }
        checker.check(&case);
        checker.require(case.expected().number == 0, &case, "at size, and yet refused");
    }
}

/// The last row with some of the values that are left, so that the result is as large as may be.
fn last_row(rows: &[Row], left: usize) -> Row {
    let mut last = rows[rows.len() - 1].clone().unwrap_or_default();
    last.extend((0..left.min(3000)).map(|place| Some(place as i64)));
    Some(last)
}

pub fn counts_of_every_length(checker: &mut Checker, entry: Entry, rng: &mut Rng) {
    for length in 0..entry.count_bytes() + 10 {
        let input = random_input(entry, RowShape { count: 3, ..small_shape(rng) }, rng);
        let mut case = lend(&input, Room::Longer(1), rng);
        case.counts = rng.bytes(length);
        checker.check(&case);
        let short = case.expected().number == 100;
        checker.require(short == (length < entry.count_bytes()), &case, "counts misjudged");
        if short {
            checker.covered(&case, "ragged", "counts");
        }
    }
}

/// One slice with each ragged end, longer and shorter, alone and beside each slice over size.
pub fn ragged_slice(
    checker: &mut Checker,
    entry: Entry,
    slice: NumberSlice,
    kind: SliceKind,
    rng: &mut Rng,
) {
    for more in 1..kind.width {
        let mut case = lend(&random_input(entry, small_shape(rng), rng), Room::Any, rng);
        let bytes = slice.of(&mut case);
        if rng.chance(1, 2) && bytes.len() >= kind.width {
            bytes.truncate(bytes.len() - more);
        } else {
            bytes.extend(rng.bytes(more));
        }
        check_answer(checker, &case, 100);
        checker.covered(&case, "ragged", kind.name);
    }
    for (other, other_kind) in NumberSlice::limited(entry) {
        let mut case = lend(&random_input(entry, small_shape(rng), rng), Room::Any, rng);
        grow(other.of(&mut case), other_kind.most.unwrap_or(0) + 1, other_kind, rng);
        slice.of(&mut case).push(0);
        check_answer(checker, &case, 100);
    }
}

/// One slice a slot over size, or far over.
pub fn slice_over_size(
    checker: &mut Checker,
    entry: Entry,
    slice: NumberSlice,
    kind: SliceKind,
    rng: &mut Rng,
) {
    for more in [1, 1, 3, 5000] {
        let mut case = lend(&random_input(entry, small_shape(rng), rng), Room::Any, rng);
        grow(slice.of(&mut case), kind.most.unwrap_or(0) + more, kind, rng);
        check_answer(checker, &case, 101);
        checker.covered(&case, "over size", kind.name);
    }
}

pub fn check_answer(checker: &mut Checker, case: &Case, number: u32) {
    checker.check(case);
    let as_stated = case.expected().number == number;
    checker.require(as_stated, case, &format!("{number} must be answered here"));
}

/// A code that the entry does not know, near those that it or another entry knows, or far away.
fn unknown_code(entry: Entry, rng: &mut Rng) -> u32 {
    loop {
        let near = rng.below(13) as u32;
        let code = match rng.below(4) {
            0 => near,
            1 => near + (1 << (4 + rng.below(28))),
            2 => u32::MAX - near,
            _ => rng.next() as u32,
        };
        if entry.with_code(code).is_none_or(|entry| entry.operation().is_none()) {
            return code;
        }
    }
}

fn unknown_operations(checker: &mut Checker, entry: Entry, rng: &mut Rng, calls: u64) {
    let mut codes: Vec<u32> = (0..300).collect();
    codes.extend((8..32).flat_map(|bit| (0..12).map(move |code| (1u32 << bit) + code)));
    codes.extend(u32::MAX - 4..=u32::MAX);
    for unknown in codes.into_iter().filter_map(|code| entry.with_code(code)) {
        if unknown.operation().is_none() {
            let mut case = lend(&random_input(entry, small_shape(rng), rng), Room::Longer(1), rng);
            case.entry = unknown;
            check_answer(checker, &case, 102);
        }
    }
    while checker.calls < calls {
        let mut case = random_case(entry, rng);
        case.entry = entry.with_code(unknown_code(entry, rng)).unwrap_or(entry);
        check_answer(checker, &case, 102);
    }
}

// Random bytes in slices of random lengths.

pub fn random_bytes(checker: &mut Checker, entry: Entry, rng: &mut Rng, calls: u64) {
    while checker.calls < calls.max(500) {
        checker.check(&random_case(entry, rng));
    }
}

fn random_case(entry: Entry, rng: &mut Rng) -> Case {
    let rows = rng.below(4);
    let inputs = entry.inputs().iter().map(|kind| random_slice(*kind, rows, rng)).collect();
    let outputs = entry.outputs().iter();
    let outputs = outputs.map(|kind| {
        let bytes = rng.below(9) * kind.width + ragged_end(*kind, rng);
        rng.bytes(bytes)
    });
    let outputs = outputs.collect();
    let needed = entry.count_bytes();
    let counts = if rng.chance(1, 64) { rng.below(needed + 8) } else { needed + rng.below(9) };
    Case { entry, inputs, starts: random_starts(entry, rng), outputs, counts: rng.bytes(counts) }
}

/// A starting bit for each bitmap, now and then one over 7.
pub fn random_starts(entry: Entry, rng: &mut Rng) -> Vec<usize> {
    let start = |_| if rng.chance(1, 64) { start_over_7(rng) } else { random_start(rng) };
    entry.bitmaps().iter().map(start).collect()
}

/// Now and then some bytes that are no whole number.
pub fn ragged_end(kind: SliceKind, rng: &mut Rng) -> usize {
    if rng.chance(1, 128) {
        rng.below(kind.width)
    } else {
        0
    }
}

pub fn random_slice(kind: SliceKind, rows: usize, rng: &mut Rng) -> Vec<u8> {
    let mut bytes = match kind.content {
        Content::Offsets if kind.width == 8 => random_offsets(rows, Width::Wide, rng),
        Content::Offsets => random_offsets(rows, Width::Narrow, rng),
        Content::Values => {
            let slots = rng.below(9);
            rng.bytes(8 * slots)
        }
        Content::RowValues => {
            let slots = if rng.chance(1, 16) { rng.below(5) } else { rows };
            (0..slots)
                .flat_map(|_| rng.pick(&[-2i64, -1, 0, 1, 2, 3, 1 << 31]).to_le_bytes())
                .collect()
        }
        Content::Bits => {
            let slots = rng.below(3);
            rng.bytes(slots)
        }
        Content::Numbers => recipe_groups::random_numbers(rng),
        Content::ViewOffsets | Content::Sizes => random_views(rows, rng),
        Content::Tally | Content::Area => unreachable!("a tally or an area is no input"),
    };
    let more = ragged_end(kind, rng);
    bytes.extend(rng.bytes(more));
    bytes
}

/// Offsets or sizes of views over a small alphabet, now and then one too few or too many.
fn random_views(rows: usize, rng: &mut Rng) -> Vec<u8> {
    let slots = if rng.chance(1, 32) { rng.below(rows + 2) } else { rows };
    let least = if rng.chance(1, 16) { -1 } else { 0 };
    let most = rng.pick(&[0, 1, 2, 4, 8]);
    let numbers: Vec<i64> = (0..slots).map(|_| rng.between(least, most)).collect();
    encode_offsets(&numbers, Width::Narrow)
}

/// Offsets over a small alphabet, in order more often than not.
fn random_offsets(rows: usize, width: Width, rng: &mut Rng) -> Vec<u8> {
    let slots = if rng.chance(1, 32) { 0 } else { rows + 1 };
    let mut offsets: Vec<i64> = (0..slots).map(|_| rng.between(0, 8)).collect();
    if !rng.chance(1, 8) {
        offsets.sort();
    }
    if rng.chance(1, 32) && slots > 0 {
        offsets[0] = -1;
    }
    encode_offsets(&offsets, width)
}
