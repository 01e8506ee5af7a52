//! Time of typed calls, beside the same calls in plain safe Rust in place, beside a plain copy of the
//! bytes that the result has and of its values alone, beside the byte entries, beside calls of large
//! lists and of bitmaps that start elsewhere, of recipes beside their steps, and of operations with a
//! work area beside those without; all from one driver, in turns, in the same buffers, which are not
//! cleared between calls. Beside a figure of large columns stands what it is to be at most, and a star
//! where it is over. A plot has the times over row lengths; a count of instructions is made by
//! `harness/instructions`. A benchmark, and no test.

use crate::decoded;
use crate::entry::{Case, Entry, Kind, MOST_ROWS, MOST_VALUES, RECIPE_RESULT, TRAYS};
use crate::generate::{input_of, lend_typed, shuffle, Layout, Room};
use crate::library::Library;
use crate::model::{ArgumentColumn, Element, Operation, RecipeShown, Role, Row, Shown, Width};
use crate::numbers::{bytes_of, bytes_of_mut, of_bytes};
use crate::plain;
use crate::plot::{self, Panel};
use crate::recipe_generate::recipe_input;
use crate::rng::Rng;
use crate::typed::{Hashed, Typed};
use std::fs;
use std::hint::black_box;
use std::ops::Range;
use std::path::Path;
use std::process::ExitCode;
use std::time::{Duration, Instant};

/// A line has as many alternating rounds as fit its time, between these; short rounds, for what
/// else runs on the machine stops long ones. A point of the plot has few.
const ROUNDS: Range<usize> = 21..60;
const LARGE_ROUNDS: Range<usize> = 5..30;
const PLOT_ROUNDS: Range<usize> = 3..12;
const LINE_TIME: Duration = Duration::from_millis(400);
const LARGE_LINE_TIME: Duration = Duration::from_millis(1000);
const PLOT_LINE_TIME: Duration = Duration::from_millis(150);
const ROUND_TIME: Duration = Duration::from_micros(700);
const MOST_REPEATS: u128 = 20_000;

/// The values of a column: as many as the byte entries take, and some millions.
const LARGE_VALUES: usize = 3 << 20;

const LENGTHS: [usize; 3] = [8, 100, 4000];
const PLOT_LENGTHS: [usize; 10] = [1, 2, 4, 8, 16, 32, 100, 316, 1000, 4000];

/// Where the plot is written with all tables, if there is such a folder.
const PLOT_FOLDER: &str = "docs";
const PLOT_FILE: &str = "docs/speed.svg";

/// What stands in the bitmaps.
#[derive(Clone, Copy, PartialEq)]
enum Nulls {
    NoBitmaps,
    None,
    OneInEight,
}

impl Nulls {
    const ALL: [Nulls; 3] = [Nulls::NoBitmaps, Nulls::None, Nulls::OneInEight];

    fn name(self) -> &'static str {
        match self {
            Nulls::NoBitmaps => "no bits",
            Nulls::None => "none",
            Nulls::OneInEight => "1 in 8",
        }
    }

    /// Whether every eighth is null, counted from some place on.
    fn is_null(self, at: usize, from: usize) -> bool {
        self == Nulls::OneInEight && at % 8 == from
    }
}

/// What a call is lent: so many values, in rows of a length, with such bitmaps from a starting bit.
#[derive(Clone, Copy)]
struct Load {
    values: usize,
    length: usize,
    nulls: Nulls,
    start: usize,
}

impl Load {
    /// Whether it has more values than a byte entry takes.
    fn is_large(self) -> bool {
        self.values > MOST_VALUES
    }
}

fn level(rng: &mut Rng) -> i64 {
    rng.between(-32768, 32767)
}

fn row_of(length: usize, nulls: Nulls, rng: &mut Rng) -> Vec<Element> {
    let element = |_| {
        let null = nulls == Nulls::OneInEight && rng.chance(1, 8);
        (!null).then(|| level(rng))
    };
    (0..length).map(element).collect()
}

/// Rows of so many values in all, or of half as many where the result is larger than the list.
fn rows_of(entry: Entry, load: Load, rng: &mut Rng) -> Vec<Row> {
    let Load { values, length, nulls, .. } = load;
    let grows = entry.lists() == 2
        || entry.roles().iter().any(|role| matches!(role, Role::Count | Role::Times));
    let count = if grows { values / 2 } else { values } / length;
    let count = if values == MOST_VALUES { count.min(MOST_ROWS) } else { count };
    (0..count).map(|at| (!nulls.is_null(at, 3)).then(|| row_of(length, nulls, rng))).collect()
}

/// A second list that shares about half of its elements with the first.
fn right_of(rows: &[Row], nulls: Nulls, rng: &mut Rng) -> Vec<Row> {
    let beside = |(at, row): (usize, &Row)| {
        let row = row.as_ref().filter(|_| !nulls.is_null(at, 6))?;
        let mut right = row_of(row.len(), nulls, rng);
        right[row.len() / 2..].copy_from_slice(&row[row.len() / 2..]);
        shuffle(&mut right, rng);
        Some(right)
    };
    rows.iter().enumerate().map(beside).collect()
}

fn argument_of(role: Role, length: usize, row: &Row, rng: &mut Rng) -> i64 {
    let length = length as i64;
    let middle = row.as_ref().and_then(|row| row[row.len() / 2]);
    match role {
        Role::Index => rng.between(-length, length),
        Role::From => rng.between(1, 3),
        Role::To => rng.between(-3, -1),
        Role::Stride => rng.between(1, 3),
        Role::Count => (length + rng.between(-4, 4)).max(0),
        Role::Fill | Role::New => level(rng),
        Role::Old => middle.unwrap_or(0),
        Role::Limit | Role::Times => 2,
    }
}

/// The argument columns of these roles, in turn null at other rows.
fn columns_of(
    roles: &[Role],
    rows: &[Row],
    length: usize,
    nulls: Nulls,
    rng: &mut Rng,
) -> Vec<Vec<Element>> {
    let column = |(place, role): (usize, &Role)| -> Vec<Element> {
        let value = |(at, row): (usize, &Row)| {
            (!nulls.is_null(at, (5 + place) % 8)).then(|| argument_of(*role, length, row, rng))
        };
        rows.iter().enumerate().map(value).collect()
    };
    roles.iter().enumerate().map(column).collect()
}

fn layout_of(Load { nulls, start, .. }: Load) -> Layout {
    Layout {
        rows_start: start,
        elements_start: start,
        absent_bitmaps: nulls == Nulls::NoBitmaps,
        under_null_rows: usize::from(nulls == Nulls::OneInEight),
        numbers_under_nulls: true,
        ..Layout::default()
    }
}

/// A call of an entry.
fn load(entry: Entry, load: Load) -> Case {
    if entry.is_recipe() {
        return load_recipe(entry.width, load);
    }
    let mut rng = Rng::new(1, "bench");
    let rows = rows_of(entry, load, &mut rng);
    let arguments = columns_of(entry.roles(), &rows, load.length, load.nulls, &mut rng);
    let mut lists = vec![rows];
    if entry.lists() == 2 {
        lists.push(right_of(&lists[0], load.nulls, &mut rng));
    }
    let input = input_of(entry, &Shown { lists, arguments }, &[layout_of(load)], &mut rng);
    lend_typed(&input, Room::Exact, &mut rng)
}

/// The columns of the recipe below.
const RECIPE_ROLES: [Role; 8] = [
    Role::From,
    Role::To,
    Role::Stride,
    Role::Old,
    Role::New,
    Role::Limit,
    Role::Count,
    Role::Fill,
];

/// Reverse, pop front, slice, replace, remove, resize, pop back, reverse: eight steps, each linear.
const RECIPE: [[u32; 4]; 8] = [
    [0, 0, 0, 0],
    [2, 0, 0, 0],
    [4, 0, 1, 2],
    [7, 3, 4, 5],
    [8, 3, 5, 0],
    [6, 6, 7, 0],
    [3, 0, 0, 0],
    [0, 0, 0, 0],
];

fn load_recipe(width: Width, load: Load) -> Case {
    let mut rng = Rng::new(1, "bench");
    let rows = rows_of(Entry::of(Operation::Resize, width), load, &mut rng);
    let second = right_of(&rows, load.nulls, &mut rng);
    let columns = columns_of(&RECIPE_ROLES, &rows, load.length, load.nulls, &mut rng);
    let (steps, lists) = (RECIPE.to_vec(), [rows, second]);
    let shown = RecipeShown { width, steps, lists, columns };
    let input = recipe_input(&shown, &[layout_of(load)], &mut rng);
    lend_typed(&input, Room::Exact, &mut rng)
}

// Sides.

/// Bytes that are aligned for any number.
struct Words {
    words: Vec<u64>,
    length: usize,
}

impl Words {
    fn new(bytes: &[u8]) -> Words {
        let mut words = Words { words: vec![0; bytes.len().div_ceil(8)], length: bytes.len() };
        words.bytes_mut().copy_from_slice(bytes);
        words
    }

    fn bytes(&self) -> &[u8] {
        &bytes_of(&self.words)[..self.length]
    }

    fn bytes_mut(&mut self) -> &mut [u8] {
        &mut bytes_of_mut(&mut self.words)[..self.length]
    }
}

/// What does a call's work.
#[derive(Clone, Copy)]
enum Side<'a> {
    Typed(&'a Typed<i32>),
    /// A call of large lists.
    Large(&'a Typed<i64>),
    /// A call with a work area.
    Hashed(&'a Hashed),
    Bytes(&'a Library),
    /// Copies the bytes that the result has.
    Memcpy,
    /// Copies the values that the result has, and neither offsets nor bitmaps.
    MemcpyValues,
    /// The steps of the recipe as typed calls one after another, and zeroing its trays.
    Steps(&'a Typed<i32>),
    /// A typed call whose instructions are counted.
    Counted(&'a Typed<i32>),
}

impl Side<'_> {
    /// Whether it writes this output of a result.
    fn writes(self, entry: Entry, output: usize) -> bool {
        !matches!(self, Side::MemcpyValues) || output == entry.value_slices().0
    }
}

/// Makes a call; a tool that counts instructions counts those in here alone, by this name.
#[inline(never)]
fn counted_call(
    typed: &Typed<i32>,
    entry: Entry,
    lent: &[&[u8]],
    starts: &[usize],
    outputs: &mut [&mut [u8]],
    counts: &mut [u8],
) -> u32 {
    typed.call(entry, lent, starts, outputs, counts)
}

/// Makes the steps of the recipe as calls of their own, each over the list that the one before has
/// written, in the trays and the output of the recipe, and zeroes the trays.
fn make_steps(
    typed: &Typed<i32>,
    lent: &[&[u8]],
    starts: &[usize],
    outputs: &mut [&mut [u8]],
    counts: &mut [u8],
) -> u32 {
    let rows = lent[1].len() / Width::Narrow.bytes() - 1;
    let (trays, output) = outputs.split_at_mut(TRAYS.end);
    let (mut next, mut before) = trays.split_at_mut(TRAYS.end / 2);
    for (at, [code, columns @ ..]) in RECIPE.iter().enumerate() {
        let mut slices = lent[1..5].to_vec();
        let mut bits = starts[..2].to_vec();
        if at > 0 {
            let elements = of_bytes::<u64>(counts)[1] as usize;
            slices = before.iter().map(|slice| &**slice).collect();
            slices[2] = &slices[2][..8 * elements];
            bits = vec![0, 0];
        }
        for column in columns {
            let (values, bitmap, start) = column_of(lent, starts[4], rows, *column as usize);
            slices.extend([values, bitmap]);
            bits.push(start);
        }
        let entry = Kind::ListWith(*code).at(Width::Narrow);
        let is_last = at + 1 == RECIPE.len();
        let room = if is_last { &mut output[..RECIPE_RESULT.len()] } else { &mut *next };
        let answer = typed.call(entry, &slices, &bits, room, counts);
        if answer != 0 {
            return answer;
        }
        std::mem::swap(&mut before, &mut next);
    }
    outputs[TRAYS].iter_mut().for_each(|slice| slice.fill(0));
    0
}

/// The values, the bitmap and the starting bit of one of the recipe's argument columns, where all of
/// them lie.
fn column_of<'a>(
    lent: &[&'a [u8]],
    start: usize,
    rows: usize,
    column: usize,
) -> (&'a [u8], &'a [u8], usize) {
    let (values, bitmap) = (&lent[9][8 * rows * column..][..8 * rows], lent[10]);
    let first = start + rows * column;
    if bitmap.is_empty() {
        (values, bitmap, 0)
    } else {
        (values, &bitmap[first / 8..], first % 8)
    }
}

/// A call in its buffers: its slices over bytes are the first of those of the typed call.
struct Bench {
    entry: Entry,
    typed_entry: Entry,
    starts: Vec<usize>,
    inputs: Vec<Words>,
    outputs: Vec<Words>,
    counts: Words,
    /// The slices of the result, once the call has been made.
    result: Vec<Words>,
}

impl Bench {
    /// With the result that this side gives.
    fn new(case: &Case, side: Side) -> Bench {
        let typed_case = case.typed(ArgumentColumn::default);
        let mut bench = Bench {
            entry: case.entry,
            typed_entry: typed_case.entry,
            starts: typed_case.starts.clone(),
            inputs: typed_case.inputs.iter().map(|slice| Words::new(slice)).collect(),
            outputs: typed_case.outputs.iter().map(|slice| Words::new(slice)).collect(),
            counts: Words::new(&typed_case.counts),
            result: Vec::new(),
        };
        bench.time(side, 1);
        let results = bench.entry.results();
        let results = bench.outputs[results].iter();
        bench.result = results.map(|slice| Words::new(slice.bytes())).collect();
        bench
    }

    fn rows(&self) -> usize {
        let offsets = self.inputs[usize::from(self.entry.is_recipe())].length;
        offsets / self.entry.width.bytes() - 1
    }

    /// The values that the result has.
    fn result_values(&self) -> usize {
        self.result[self.entry.value_slices().0 - self.entry.results().start].length / 8
    }

    /// Nanoseconds a call, over this many calls.
    fn time(&mut self, side: Side, repeats: u128) -> f64 {
        let lent: Vec<&[u8]> = self.inputs.iter().map(Words::bytes).collect();
        let mut outputs: Vec<&mut [u8]> = self.outputs.iter_mut().map(Words::bytes_mut).collect();
        let counts = self.counts.bytes_mut();
        let (inputs, bitmaps) = (self.entry.inputs().len(), self.entry.bitmaps().len());
        let start = Instant::now();
        for _ in 0..repeats {
            let (lent, starts) = (black_box(&lent), black_box(&self.starts));
            let answer = match side {
                Side::Typed(typed) => {
                    typed.call(self.typed_entry, lent, starts, &mut outputs, counts)
                }
                Side::Large(large) => {
                    large.call(self.typed_entry, lent, starts, &mut outputs, counts)
                }
                Side::Hashed(hashed) => {
                    hashed.call(self.typed_entry, lent, starts, &mut outputs, counts)
                }
                Side::Bytes(library) => {
                    let (lent, starts) = (&lent[..inputs], &starts[..bitmaps]);
                    library.call(self.entry, lent, starts, &mut outputs, counts)
                }
                Side::Steps(typed) => make_steps(typed, lent, starts, &mut outputs, counts),
                Side::Counted(typed) => {
                    counted_call(typed, self.typed_entry, lent, starts, &mut outputs, counts)
                }
                Side::Memcpy | Side::MemcpyValues => {
                    for at in self.entry.results().filter(|at| side.writes(self.entry, *at)) {
                        let from = &self.result[at - self.entry.results().start];
                        outputs[at].copy_from_slice(black_box(from.bytes()));
                    }
                    0
                }
            };
            assert_eq!(black_box(answer), 0, "a benchmark call is accepted");
        }
        start.elapsed().as_nanos() as f64 / repeats as f64
    }

    /// All sides must give the same bytes before they are timed.
    fn check_equal(&mut self, sides: &[Side]) {
        let results = self.entry.results();
        for side in sides {
            self.outputs[results.clone()].iter_mut().for_each(|slice| slice.bytes_mut().fill(1));
            self.time(*side, 1);
            let written = results.clone().zip(&self.result);
            for (output, result) in written.filter(|(at, _)| side.writes(self.entry, *at)) {
                let same = self.outputs[output].bytes() == result.bytes();
                assert!(same, "all sides of the benchmark agree");
            }
        }
    }

    /// The least nanoseconds a call of each side.
    fn least(&mut self, sides: &[Side], pace: Pace) -> Vec<f64> {
        self.check_equal(sides);
        least(sides.len(), pace, |side, repeats| self.time(sides[side], repeats))
    }
}

/// How long a line is measured.
#[derive(Clone, Copy)]
enum Pace {
    Small,
    Large,
    Plot,
}

impl Pace {
    fn of(load: Load) -> Pace {
        if load.is_large() {
            Pace::Large
        } else {
            Pace::Small
        }
    }

    fn limits(self) -> (Range<usize>, Duration) {
        match self {
            Pace::Small => (ROUNDS, LINE_TIME),
            Pace::Large => (LARGE_ROUNDS, LARGE_LINE_TIME),
            Pace::Plot => (PLOT_ROUNDS, PLOT_LINE_TIME),
        }
    }
}

/// The least nanoseconds a call of each of so many sides, in alternating rounds; each round gives
/// those over some calls.
fn least(sides: usize, pace: Pace, mut time: impl FnMut(usize, u128) -> f64) -> Vec<f64> {
    let (rounds, most_time) = pace.limits();
    let one = (0..sides).map(|side| time(side, 2)).fold(1.0, f64::max);
    let repeats = (ROUND_TIME.as_nanos() / one as u128).clamp(1, MOST_REPEATS);
    let mut least = vec![f64::INFINITY; sides];
    let begun = Instant::now();
    for round in 0..rounds.end {
        if round >= rounds.start && begun.elapsed() > most_time {
            break;
        }
        for (side, least) in least.iter_mut().enumerate() {
            *least = least.min(time(side, repeats));
        }
    }
    least
}

// Tables.

/// The nanoseconds of each side for each load; none where it is not measured.
struct Line {
    entry: Entry,
    name: &'static str,
    times: Vec<Option<Vec<f64>>>,
}

/// What stands in a table: a name, a figure of the times of a load, and what it is to be at most.
type Figure<'a> = (&'a str, &'a dyn Fn(&[f64]) -> f64, Most);

/// What a figure of an operation is to be at most for a load, if that is said.
type Most = fn(Entry, Load) -> Option<f64>;

fn nothing_said(_: Entry, _: Load) -> Option<f64> {
    None
}

/// What a typed call of large columns is to take at most, in times of a copy of the result's values.
fn most_copies(entry: Entry, Load { length, nulls, .. }: Load) -> Option<f64> {
    let (short, without_bits) = (length <= 8, nulls == Nulls::NoBitmaps);
    match entry.operation()? {
        _ if nulls == Nulls::None => None,
        Operation::Replace | Operation::Remove if short => Some(4.0),
        Operation::Replace | Operation::Remove => Some(if without_bits { 3.0 } else { 4.0 }),
        Operation::Reverse
        | Operation::PopFront
        | Operation::PopBack
        | Operation::Slice
        | Operation::SliceWithoutStride
        | Operation::Resize
        | Operation::ResizeWithoutFill
        | Operation::ListRepeat => Some(match (short, without_bits) {
            (true, true) => 2.5,
            (true, false) => 4.0,
            (false, true) => 1.5,
            (false, false) => 2.5,
        }),
        _ => None,
    }
}

/// As long as what it is set beside, and no longer.
fn most_once(_: Entry, _: Load) -> Option<f64> {
    Some(1.0)
}

/// A figure beside what it is to be at most, with a star where it is over as it is printed.
fn beside_most(figure: f64, most: Option<f64>) -> String {
    let Some(most) = most else { return format!("{figure:.2}") };
    let star = if (figure * 100.0).round() > (most * 100.0).round() { " *" } else { "" };
    format!("{figure:.2} (≤ {most:.1}){star}")
}

fn print_table((name, figure, most): Figure, loads: &[Load], lines: &[Line]) {
    println!("\n{name}:\n");
    print!("| Operation |");
    loads.iter().for_each(|load| print!(" {}, {} |", load.length, load.nulls.name()));
    println!("\n|---|{}", "---|".repeat(loads.len()));
    for line in lines {
        print!("| {} |", line.name);
        for (load, times) in loads.iter().zip(&line.times) {
            match times {
                Some(times) => {
                    print!(" {} |", beside_most(figure(times), most(line.entry, *load)));
                }
                None => print!(" – |"),
            }
        }
        println!();
    }
}

fn loads(values: usize, start: usize) -> Vec<Load> {
    let all = LENGTHS.iter().flat_map(|length| Nulls::ALL.map(|nulls| (*length, nulls)));
    let lent = all.filter(|(_, nulls)| start == 0 || *nulls != Nulls::NoBitmaps);
    lent.map(|(length, nulls)| Load { values, length, nulls, start }).collect()
}

/// Whether the operation compares each element of a row with others, and this is a large column of
/// long rows.
fn takes_too_long(entry: Entry, load: Load) -> bool {
    let quadratic = matches!(
        entry.operation(),
        Some(Operation::Distinct | Operation::Union | Operation::Intersect)
    );
    quadratic && load.is_large() && load.length > 100
}

/// Measures these sides for each load, and prints the times as they come.
fn measure(
    entry: Entry,
    name: &'static str,
    sides: &[Side],
    loads: &[Load],
    typed: &Typed<i32>,
) -> Line {
    let mut times = Vec::new();
    for one in loads {
        if takes_too_long(entry, *one) {
            times.push(None);
            continue;
        }
        let mut bench = Bench::new(&load(entry, *one), Side::Typed(typed));
        let least = bench.least(sides, Pace::of(*one));
        print_line(name, *one, bench.rows(), &least);
        times.push(Some(least));
    }
    Line { entry, name, times }
}

fn print_line(name: &str, Load { length, nulls, start, .. }: Load, rows: usize, times: &[f64]) {
    print!("{name:<22} {length:>6} {rows:>7} {:>7} {start:>5}", nulls.name());
    times.iter().for_each(|time| print!(" {:>11.2}", time / 1000.0));
    println!();
}

/// Measures two calls for each load, each by its side.
fn measure_two(
    entry: Entry,
    name: &'static str,
    sides: [Side; 2],
    loads: &[Load],
    calls: impl Fn(Load) -> [Case; 2],
) -> Line {
    let mut times = Vec::new();
    for one in loads {
        if takes_too_long(entry, *one) {
            times.push(None);
            continue;
        }
        let calls = calls(*one);
        let mut benches = [0, 1].map(|at| Bench::new(&calls[at], sides[at]));
        let time = |side: usize, repeats| benches[side].time(sides[side], repeats);
        let least = least(2, Pace::of(*one), time);
        print_line(name, *one, benches[0].rows(), &least);
        times.push(Some(least));
    }
    Line { entry, name, times }
}

fn print_heading(what: &str, sides: &[&str]) {
    println!("\n{what}, microseconds a call:");
    print!("{:<22} {:>6} {:>7} {:>7} {:>5}", "operation", "length", "rows", "nulls", "start");
    sides.iter().for_each(|name| print!(" {name:>11}"));
    println!();
}

/// The operations, and a recipe, or the one that is wanted.
fn subjects(wanted: Option<&str>) -> Vec<(Entry, &'static str)> {
    let recipe = Entry::recipes(Width::Narrow).with_columns(RECIPE_ROLES.len());
    let operations = Entry::all(Width::Narrow).map(|entry| (entry, entry.name()));
    let all = operations.chain([(recipe, "recipe of 8 steps")]);
    all.filter(|(entry, _)| wanted.is_none_or(|name| name == entry.name())).collect()
}

/// The same, of which there must be one.
fn wanted_subjects(wanted: Option<&str>) -> Result<Vec<(Entry, &'static str)>, String> {
    let subjects = subjects(wanted);
    if let (Some(name), []) = (wanted, &subjects[..]) {
        return Err(format!("no operation '{name}'"));
    }
    Ok(subjects)
}

/// Does what the words behind `bench` ask for.
pub fn run(port: &Library, words: &[String]) -> ExitCode {
    let words: Vec<&str> = words.iter().map(String::as_str).collect();
    let done = match words[..] {
        [] => print(port, None).and_then(|()| plot_in_folder(port)),
        ["large", ref rest @ ..] => print_large_alone(port, rest.first().copied()),
        ["plot", file, ref rest @ ..] => plot(port, file, rest.first().copied()),
        ["count", name, length, nulls, calls] => count(port, name, length, nulls, calls),
        ["plot" | "count", ..] => {
            Err("wants: plot FILE.svg [NAME] | count NAME LENGTH NULLS CALLS".to_string())
        }
        [name, ..] => print(port, Some(name)),
    };
    match done {
        Ok(()) => ExitCode::SUCCESS,
        Err(message) => {
            eprintln!("harness bench: {message}");
            ExitCode::from(2)
        }
    }
}

/// The typed entries of the port and of the plain Rust.
fn both(port: &Library) -> Result<(&Typed<i32>, &'static Typed<i32>), String> {
    let absent = "no typed entries in the archive";
    Ok((port.typed.as_ref().ok_or(absent)?, plain::LIBRARY.typed.as_ref().ok_or(absent)?))
}

/// The tables of large columns, of one operation or all.
fn print_large_alone(port: &Library, wanted: Option<&str>) -> Result<(), String> {
    let (typed, plain) = both(port)?;
    print_sides();
    print_large(&wanted_subjects(wanted)?, port, typed, plain);
    Ok(())
}

/// All tables, or those of one operation.
fn print(port: &Library, wanted: Option<&str>) -> Result<(), String> {
    let (typed, plain) = both(port)?;
    print_sides();
    if let Some(hashed) = &port.hashed {
        print_hashed(hashed, typed, wanted);
    }
    let subjects = subjects(wanted);
    if !subjects.is_empty() {
        print_small(&subjects, port, typed, plain);
        print_large(&subjects, port, typed, plain);
    }
    Ok(())
}

/// Says what the sides are.
fn print_sides() {
    println!("the least of {ROUNDS:?} alternating rounds, {LARGE_ROUNDS:?} for large columns");
    println!("plain: plain safe Rust reads and writes the same numbers where they lie");
    println!("memcpy: a copy of the bytes that the result has, offsets and bitmaps too");
    println!("values: a copy of the values that the result has, and of nothing else");
    println!("bytes: the byte entry of the port, which decodes and encodes");
    println!("decoded: plain safe Rust that decodes and encodes as the byte entry does");
    println!("large: the same call of large lists, which have offsets of 64 bits");
    println!(
        "steps: the steps of a recipe as typed calls one after another, and zeroing its trays"
    );
    println!("start: the starting bit of all bitmaps lent");
    println!("(≤ 1.0): what a figure is to be at most; * where it is over");
}

/// What is lent to an operation with a work area, and how many times the plain call's time it may take.
struct HashedLoad {
    name: &'static str,
    rows: Vec<Row>,
    right: Vec<Row>,
    nulls: Nulls,
    most: f64,
}

/// A row of the levels 1 to 4000 against itself; and rows of eight, without nulls and with them.
fn hashed_loads() -> Vec<HashedLoad> {
    let levels: Vec<Row> = vec![Some((1..=4000).map(Some).collect())];
    let (name, right) = ("levels 1 to 4000", levels.clone());
    let long = HashedLoad { name, rows: levels, right, nulls: Nulls::NoBitmaps, most: 0.1 };
    let of_eight = |(name, nulls): (&'static str, Nulls)| {
        let mut rng = Rng::new(1, "bench");
        let load = Load { values: MOST_VALUES, length: 8, nulls, start: 0 };
        let rows = rows_of(Entry::of(Operation::Union, Width::Narrow), load, &mut rng);
        let right = right_of(&rows, nulls, &mut rng);
        HashedLoad { name, rows, right, nulls, most: 1.2 }
    };
    let eights = [("rows of 8", Nulls::NoBitmaps), ("rows of 8, nulls", Nulls::OneInEight)];
    [long].into_iter().chain(eights.map(of_eight)).collect()
}

/// Distinct, union and intersect with a work area beside the same without one.
fn print_hashed(hashed: &Hashed, typed: &Typed<i32>, wanted: Option<&str>) {
    let names = |entry: Entry| [entry.name(), entry.without_area().name()];
    let is_wanted = |entry: &Entry| wanted.is_none_or(|name| names(*entry).contains(&name));
    let entries: Vec<Entry> = Entry::HASHED.into_iter().filter(is_wanted).collect();
    if entries.is_empty() {
        return;
    }
    println!("\nwith a work area and without, microseconds a call:\n");
    println!("| Operation | Lent | hashed | typed | hashed / typed | to be at most |");
    println!("|---|---|---|---|---|---|");
    for entry in entries {
        for load in hashed_loads() {
            let lists: Vec<Vec<Row>> =
                [&load.rows, &load.right].into_iter().take(entry.lists()).cloned().collect();
            let shown = Shown { lists, arguments: Vec::new() };
            let nulls = load.nulls;
            let layout = layout_of(Load { values: 0, length: 0, nulls, start: 0 });
            let mut rng = Rng::new(1, "bench");
            let calls = [entry, entry.without_area()].map(|entry| {
                let input = input_of(entry, &shown, &[layout], &mut Rng::new(1, "bench"));
                lend_typed(&input, Room::Exact, &mut rng)
            });
            let sides = [Side::Hashed(hashed), Side::Typed(typed)];
            let mut benches = [0, 1].map(|at| Bench::new(&calls[at], sides[at]));
            let results = benches.each_ref().map(|bench| bench.result.iter().map(Words::bytes));
            let [result, plain_result] = results;
            assert!(result.eq(plain_result), "both sides of the benchmark agree");
            let time = |side: usize, repeats| benches[side].time(sides[side], repeats);
            let times = least(2, Pace::Small, time);
            let (one, other) = (times[0] / 1000.0, times[1] / 1000.0);
            let (name, most) = (load.name, load.most);
            let ratio = one / other;
            println!("| {} | {name} | {one:.2} | {other:.2} | {ratio:.3} | {most} |", entry.name());
        }
    }
}

/// Operations with their names.
type Subjects<'a> = &'a [(Entry, &'static str)];

fn print_small(subjects: Subjects, port: &Library, typed: &Typed<i32>, plain: &Typed<i32>) {
    let bytes = [Side::Bytes(port), Side::Bytes(&decoded::LIBRARY)];
    let sides = [&[Side::Typed(typed), Side::Typed(plain), Side::Memcpy][..], &bytes].concat();
    let what = format!("{MOST_VALUES} values, or half of that where the result grows");
    print_heading(&what, &["typed", "plain", "memcpy", "bytes", "decoded"]);
    let (from_0, from_3) = (loads(MOST_VALUES, 0), loads(MOST_VALUES, 3));
    let (mut lines, mut lines_from_3) = (Vec::new(), Vec::new());
    for (entry, name) in subjects {
        lines.push(measure(*entry, name, &sides, &from_0, typed));
        lines_from_3.push(measure(*entry, name, &sides, &from_3, typed));
    }
    println!("\n{what}");
    let figures: [Figure; 5] = [
        ("typed, microseconds a call", &|times| times[0] / 1000.0, nothing_said),
        ("typed / plain in place", &|times| times[0] / times[1], nothing_said),
        ("typed / memcpy", &|times| times[0] / times[2], nothing_said),
        ("bytes / typed", &|times| times[3] / times[0], nothing_said),
        ("bytes / plain that decodes", &|times| times[3] / times[4], nothing_said),
    ];
    figures.into_iter().for_each(|figure| print_table(figure, &from_0, &lines));
    let name = "typed / plain in place, all bitmaps from bit 3";
    print_table((name, &|times| times[0] / times[1], nothing_said), &from_3, &lines_from_3);
    if subjects.iter().any(|(entry, _)| entry.operation() == Some(Operation::Distinct)) {
        print_by_set(typed, plain, &from_0);
    }
    if let Some(large) = &port.large {
        print_widths(subjects, MOST_VALUES, large, typed, nothing_said);
    }
}

/// Distinct beside plain Rust with a set on the heap.
fn print_by_set(typed: &Typed<i32>, plain: &Typed<i32>, loads: &[Load]) {
    let by_set = Typed { list: plain::typed_distinct_by_set, ..*plain };
    let sides = [Side::Typed(typed), Side::Typed(&by_set)];
    print_heading("distinct beside a hash set on the heap", &["typed", "hash set"]);
    let entry = Entry::of(Operation::Distinct, Width::Narrow);
    let line = measure(entry, "distinct", &sides, loads, typed);
    let figure: Figure = ("typed / hash set", &|times| times[0] / times[1], nothing_said);
    print_table(figure, loads, &[line]);
}

/// Large lists beside lists of the same columns.
fn print_widths(
    subjects: Subjects,
    values: usize,
    large: &Typed<i64>,
    typed: &Typed<i32>,
    most: Most,
) {
    let what = format!("{values} values as large lists and as lists");
    print_heading(&what, &["large", "typed"]);
    let (loads, sides) = (loads(values, 0), [Side::Large(large), Side::Typed(typed)]);
    let line = |(entry, name): &(Entry, &'static str)| {
        let entries = [Width::Wide, Width::Narrow].map(|width| Entry { width, ..*entry });
        measure_two(*entry, name, sides, &loads, |one| entries.map(|entry| load(entry, one)))
    };
    let lines: Vec<Line> = subjects.iter().map(line).collect();
    println!("\n{what}");
    print_table(("large / typed", &|times| times[0] / times[1], most), &loads, &lines);
}

/// Bitmaps from bit 3 beside the same bitmaps from bit 0.
fn print_starts(subjects: Subjects, typed: &Typed<i32>) {
    let what = format!("{LARGE_VALUES} values, all bitmaps from bit 3 and from bit 0");
    print_heading(&what, &["from bit 3", "from bit 0"]);
    let (loads, sides) = (loads(LARGE_VALUES, 3), [Side::Typed(typed); 2]);
    let line = |(entry, name): &(Entry, &'static str)| {
        let starts = |one: Load| [one, Load { start: 0, ..one }];
        measure_two(*entry, name, sides, &loads, |one| starts(one).map(|one| load(*entry, one)))
    };
    let lines: Vec<Line> = subjects.iter().map(line).collect();
    println!("\n{what}");
    let figure: Figure =
        ("from bit 3 / from bit 0", &|times| times[0] / times[1], |_, _| Some(1.2));
    print_table(figure, &loads, &lines);
}

/// The recipe beside its steps.
fn print_steps(subjects: Subjects, typed: &Typed<i32>) {
    let Some((entry, name)) = subjects.iter().find(|(entry, _)| entry.is_recipe()) else { return };
    let what = format!("{} values, the recipe and its steps with zeroing", LARGE_VALUES / 2);
    print_heading(&what, &["typed", "steps"]);
    let loads = loads(LARGE_VALUES, 0);
    let sides = [Side::Typed(typed), Side::Steps(typed)];
    let line = measure(*entry, name, &sides, &loads, typed);
    println!("\n{what}");
    let figure: Figure =
        ("recipe / its steps and zeroing its trays", &|times| times[0] / times[1], most_once);
    print_table(figure, &loads, &[line]);
}

/// All tables of large columns.
fn print_large(subjects: Subjects, port: &Library, typed: &Typed<i32>, plain: &Typed<i32>) {
    print_beside(subjects, typed, plain);
    print_starts(subjects, typed);
    if let Some(large) = &port.large {
        print_widths(subjects, LARGE_VALUES, large, typed, |_, _| Some(1.1));
    }
    print_steps(subjects, typed);
}

/// Large columns beside plain Rust and copies.
fn print_beside(subjects: Subjects, typed: &Typed<i32>, plain: &Typed<i32>) {
    let sides = [Side::Typed(typed), Side::Typed(plain), Side::Memcpy, Side::MemcpyValues];
    let what = format!("{LARGE_VALUES} values, or half of that where the result grows");
    print_heading(&what, &["typed", "plain", "memcpy", "values"]);
    let loads = loads(LARGE_VALUES, 0);
    let measured = subjects.iter();
    let lines: Vec<Line> =
        measured.map(|(entry, name)| measure(*entry, name, &sides, &loads, typed)).collect();
    println!("\n{what}");
    let figures: [Figure; 4] = [
        ("typed, microseconds a call", &|times| times[0] / 1000.0, nothing_said),
        ("typed / plain in place", &|times| times[0] / times[1], most_once),
        ("typed / memcpy of values", &|times| times[0] / times[3], most_copies),
        ("typed / memcpy of all that the result has", &|times| times[0] / times[2], nothing_said),
    ];
    figures.into_iter().for_each(|figure| print_table(figure, &loads, &lines));
}

// Plot.

/// Measures the points of the plot, and prints them as they come.
fn panels(subjects: Subjects, typed: &Typed<i32>, plain: &Typed<i32>) -> Vec<Panel> {
    let names = ["typed", "plain", "values"];
    print!("\nnanoseconds an element of the first list:\n{:<22} {:>6}", "operation", "length");
    println!(" {:>7}{}", "nulls", names.map(|name| format!(" {name:>10}")).concat());
    let panel = |(entry, name): &(Entry, &'static str)| {
        let mut panel = Panel::new(name);
        for nulls in [Nulls::NoBitmaps, Nulls::OneInEight] {
            let loads = PLOT_LENGTHS
                .map(|length| Load { values: LARGE_VALUES, length, nulls, start: 0 })
                .into_iter()
                .filter(|load| !takes_too_long(*entry, *load));
            for one in loads {
                let times = point(*entry, one, typed, plain);
                print!("{name:<22} {:>6} {:>7}", one.length, nulls.name());
                println!("{}", times.map(|time| format!(" {time:>10.6}")).concat());
                panel.add(nulls == Nulls::OneInEight, one.length, times);
            }
        }
        panel
    };
    subjects.iter().map(panel).collect()
}

/// Nanoseconds an element of the first list; not a number for a copy where the result has no values.
fn point(entry: Entry, one: Load, typed: &Typed<i32>, plain: &Typed<i32>) -> [f64; 3] {
    let mut bench = Bench::new(&load(entry, one), Side::Typed(typed));
    let sides = [Side::Typed(typed), Side::Typed(plain), Side::MemcpyValues];
    let least = bench.least(&sides, Pace::Plot);
    let elements = (bench.rows() * one.length) as f64;
    let is_empty = bench.result_values() == 0;
    let copy = if is_empty { f64::NAN } else { least[2] };
    [least[0], least[1], copy].map(|time| time / elements)
}

/// Writes the plot of one operation or all.
fn plot(port: &Library, file: &str, wanted: Option<&str>) -> Result<(), String> {
    let (typed, plain) = both(port)?;
    let panels = panels(&wanted_subjects(wanted)?, typed, plain);
    fs::write(file, plot::svg(&panels, LARGE_VALUES))
        .map_err(|error| format!("{file}: {error}"))?;
    println!("\nwritten: {file}");
    Ok(())
}

/// Writes the plot of all where it is kept, if that folder is there.
fn plot_in_folder(port: &Library) -> Result<(), String> {
    if Path::new(PLOT_FOLDER).is_dir() {
        plot(port, PLOT_FILE, None)
    } else {
        Ok(())
    }
}

// Instructions.

/// Makes one call so many times, for a tool that counts the instructions of `counted_call`, and says
/// how many there were, over how many rows and values.
fn count(port: &Library, name: &str, length: &str, nulls: &str, calls: &str) -> Result<(), String> {
    let (typed, _) = both(port)?;
    let (entry, _) = wanted_subjects(Some(name))?[0];
    let number = |text: &str| match text.parse() {
        Ok(number) if number > 0 => Ok(number),
        _ => Err(format!("'{text}' is no number over 0")),
    };
    let (length, calls) = (number(length)?, number(calls)?);
    let nulls = Nulls::ALL.into_iter().find(|one| one.name() == nulls);
    let nulls = nulls.ok_or("nulls are 'no bits', 'none' or '1 in 8'")?;
    let one = Load { values: MOST_VALUES, length, nulls, start: 0 };
    let mut bench = Bench::new(&load(entry, one), Side::Typed(typed));
    if bench.rows() == 0 {
        return Err(format!("no row of {length} in {MOST_VALUES} values"));
    }
    bench.time(Side::Counted(typed), calls as u128);
    println!("calls {calls} rows {} values {}", bench.rows(), bench.rows() * length);
    Ok(())
}
