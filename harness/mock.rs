//! Stands in for the archive when the harness is built with `--cfg mock`, to test the harness
//! itself. With no HARNESS_DEFECT in the environment it is the plain Rust; with one of the names in
//! defects.rs it is a second, simple version that is wrong in that one way, and with "none" that
//! version without a fault. The harness must pass the first and the last and report every other.

use crate::defects::{defect, is, NULL_ROWS};
use crate::library::Library;
use crate::mock_grades::GRADES;
use crate::mock_hashed::HASHED;
use crate::mock_recipe::recipe;
use crate::mock_rows::{
    distinct, intersect, is_beyond, place_of, pop, remove, replace, resize, reverse, slice, union,
};
use crate::mock_typed::typed;
use crate::mock_views::VIEWS;
use crate::mock_windows::WINDOWS;
use crate::model::Width;
use crate::plain;
use std::ops::Range;

// Entries.

pub const LIBRARY: Library = Library {
    list: Some(list),
    any_value: Some(any_value),
    element: Some(element),
    lists: Some(lists),
    list_with: Some(list_with),
    list_repeat: Some(list_repeat),
    recipe: Some(recipe),
    typed: Some(typed()),
    large: Some(typed()),
    grades: Some(GRADES),
    views: Some(VIEWS),
    windows: Some(WINDOWS),
    hashed: Some(HASHED),
};

/// How many lists an entry takes, with argument columns behind them, the kind of its answer, and the
/// width of its offsets.
#[derive(Clone, Copy)]
pub struct Shape {
    pub lists: usize,
    pub answer: Answer,
    pub width: Width,
}

impl Shape {
    const fn narrow(lists: usize, answer: Answer) -> Shape {
        Shape { lists, answer, width: Width::Narrow }
    }
}

/// Whether a number fits the offsets; in large lists all do, but for the version of this name.
pub fn fits(width: Width, number: i64, wrong: &str) -> bool {
    width == Width::Wide && !is(wrong) || i32::try_from(number).is_ok()
}

/// A number of large lists as it is, or cut to 32 bits by the version of this name.
pub fn cut(width: Width, number: i64, wrong: &str) -> i64 {
    match width {
        Width::Wide if is(wrong) => i64::from(number as i32),
        _ => number,
    }
}

#[derive(Clone, Copy, PartialEq)]
pub enum Answer {
    Values,
    Lists,
    Nested,
}

const SLICE: u32 = 4;
const SLICE_WITHOUT_STRIDE: u32 = 5;
const RESIZE: u32 = 6;
const REPLACE: u32 = 7;
const REMOVE: u32 = 8;
pub const UNION: u32 = 9;
pub const INTERSECT: u32 = 10;
pub const RESIZE_WITHOUT_FILL: u32 = 11;
/// Operations that have an entry of their own, and no code.
pub const ANY_VALUE: u32 = 1000;
pub const ELEMENT: u32 = 1001;
pub const LIST_REPEAT: u32 = 1002;

pub fn list(
    op: u32,
    inputs: [&[u8]; 4],
    starts: [u32; 2],
    mut outputs: [&mut [u8]; 4],
    counts: &mut [u8],
) -> u32 {
    if defect().is_empty() {
        return plain::list(op, inputs, starts, outputs, counts);
    }
    let shape = Shape::narrow(1, Answer::Lists);
    answer(op, 0..=3, shape, &inputs, &wide(starts), &mut outputs, counts)
}

pub fn lists(
    op: u32,
    inputs: [&[u8]; 8],
    starts: [u32; 4],
    mut outputs: [&mut [u8]; 4],
    counts: &mut [u8],
) -> u32 {
    if defect().is_empty() {
        return plain::lists(op, inputs, starts, outputs, counts);
    }
    let shape = Shape::narrow(2, Answer::Lists);
    answer(op, 9..=10, shape, &inputs, &wide(starts), &mut outputs, counts)
}

pub fn list_with(
    op: u32,
    inputs: [&[u8]; 10],
    starts: [u32; 5],
    mut outputs: [&mut [u8]; 4],
    counts: &mut [u8],
) -> u32 {
    if defect().is_empty() {
        return plain::list_with(op, inputs, starts, outputs, counts);
    }
    let shape = Shape::narrow(1, Answer::Lists);
    let codes = if op == RESIZE_WITHOUT_FILL { 11..=11 } else { 4..=8 };
    answer(op, codes, shape, &inputs, &wide(starts), &mut outputs, counts)
}

pub fn any_value(
    inputs: [&[u8]; 4],
    starts: [u32; 2],
    mut outputs: [&mut [u8]; 2],
    counts: &mut [u8],
) -> u32 {
    if defect().is_empty() {
        return plain::any_value(inputs, starts, outputs, counts);
    }
    let shape = Shape::narrow(1, Answer::Values);
    answer(ANY_VALUE, ANY_VALUE..=ANY_VALUE, shape, &inputs, &wide(starts), &mut outputs, counts)
}

pub fn element(
    inputs: [&[u8]; 6],
    starts: [u32; 3],
    mut outputs: [&mut [u8]; 2],
    counts: &mut [u8],
) -> u32 {
    if defect().is_empty() {
        return plain::element(inputs, starts, outputs, counts);
    }
    let shape = Shape::narrow(1, Answer::Values);
    answer(ELEMENT, ELEMENT..=ELEMENT, shape, &inputs, &wide(starts), &mut outputs, counts)
}

pub fn list_repeat(
    inputs: [&[u8]; 6],
    starts: [u32; 3],
    mut outputs: [&mut [u8]; 6],
    counts: &mut [u8],
) -> u32 {
    if defect().is_empty() {
        return plain::list_repeat(inputs, starts, outputs, counts);
    }
    let shape = Shape::narrow(1, Answer::Nested);
    answer(
        LIST_REPEAT,
        LIST_REPEAT..=LIST_REPEAT,
        shape,
        &inputs,
        &wide(starts),
        &mut outputs,
        counts,
    )
}

fn wide<const N: usize>(starts: [u32; N]) -> [usize; N] {
    starts.map(|start| start as usize)
}

/// The whole call: its own answers, the refusals, and the result if it fits.
fn answer(
    op: u32,
    codes: std::ops::RangeInclusive<u32>,
    shape: Shape,
    inputs: &[&[u8]],
    starts: &[usize],
    outputs: &mut [&mut [u8]],
    counts: &mut [u8],
) -> u32 {
    let op = if is("operation-code-cut-to-a-byte") && op < ANY_VALUE { op % 256 } else { op };
    let mut op = op;
    let mut unknown = !codes.contains(&op);
    if unknown && is("unknown-operation-done") {
        (op, unknown) = (*codes.start(), false);
    }
    if is("operations-of-other-entries-done") && op <= 3 {
        unknown = false;
    }
    let own = own_answer(&shape, inputs, outputs, counts.len(), taken(op));
    let own = if unknown && !(is("100-before-102") && own == Some(100)) { Some(102) } else { own };
    answer_after(op, own, shape, inputs, starts, outputs, counts)
}

/// The call after the entry's own answer, if it has one.
pub fn answer_after(
    op: u32,
    own: Option<u32>,
    shape: Shape,
    inputs: &[&[u8]],
    starts: &[usize],
    outputs: &mut [&mut [u8]],
    counts: &mut [u8],
) -> u32 {
    let (lists, arguments) = inputs.split_at(4 * shape.lists);
    let (list_starts, starts) = starts.split_at(2 * shape.lists);
    let width = shape.width;
    let list = |(at, part)| Column::new(at, part, &list_starts[2 * at..][..2], width);
    let lists: Vec<Column> = lists.chunks(4).enumerate().map(list).collect();
    let argument = |(at, part)| Argument::new(at, part, starts[at]);
    let mut arguments: Vec<Argument> = arguments.chunks(2).enumerate().map(argument).collect();
    if is("start-of-the-first-argument-for-all") {
        arguments.iter_mut().for_each(|one| one.bits.read = starts[0]);
    }
    let call = Call { op, lists, arguments, width };
    let mut output = Output::new(shape.answer, width, outputs, counts);
    let number = match own.map_or(Ok(()), Err).and_then(|()| call.made(&output)) {
        Ok(made) => output.write(&call, made),
        Err(number) => number,
    };
    if number != 0 {
        output.refused(number);
    }
    output.stray(&call);
    number
}

/// How many argument columns an operation takes.
pub fn taken(op: u32) -> usize {
    match op {
        SLICE | REPLACE => 3,
        SLICE_WITHOUT_STRIDE | RESIZE | REMOVE => 2,
        RESIZE_WITHOUT_FILL | ELEMENT | LIST_REPEAT => 1,
        _ => 0,
    }
}

fn own_answer(
    shape: &Shape,
    inputs: &[&[u8]],
    outputs: &[&mut [u8]],
    counts: usize,
    taken: usize,
) -> Option<u32> {
    // Each slice of numbers as bytes, bytes a slot and most slots.
    let mut numbers = Vec::new();
    let (lists, arguments) = inputs.split_at(4 * shape.lists);
    for list in lists.chunks(4) {
        numbers.extend([(list[0].len(), 4, 4097), (list[2].len(), 8, 16384)]);
    }
    let mut arguments: Vec<_> =
        arguments.chunks(2).map(|argument| (argument[0].len(), 8, 4096)).collect();
    let mut over_numbers = [&numbers[..], &arguments].concat();
    if is("untaken-size-not-tested") {
        over_numbers = [&numbers[..], &arguments[..taken]].concat();
    }
    if is("untaken-ragged-accepted") {
        arguments.truncate(taken);
    }
    numbers.extend(arguments);
    let lengths: Vec<usize> = outputs.iter().map(|output| output.len()).collect();
    let results = match shape.answer {
        Answer::Values => vec![(lengths[0], 8, 4096)],
        Answer::Lists => vec![(lengths[0], 4, 4097), (lengths[2], 8, 16384)],
        Answer::Nested => {
            vec![(lengths[0], 4, 4097), (lengths[2], 4, 16385), (lengths[4], 8, 16384)]
        }
    };
    if !is("ragged-output-accepted") {
        numbers.extend(&results);
    }
    over_numbers.extend(&results);
    let ragged = numbers.iter().any(|(bytes, width, _)| bytes % width != 0);
    let ragged = ragged && !is("ragged-accepted");
    let ragged = ragged || counts < 8 * outputs.len() && !is("short-counts-accepted");
    let over = over_numbers.iter().any(|(bytes, width, most)| {
        let slots = bytes / width;
        match defect() {
            "size-one-over-accepted" => slots > most + 1,
            "at-size-refused" => slots >= *most,
            _ => slots > *most,
        }
    });
    match (ragged, over) {
        (true, true) if is("101-before-100") => Some(101),
        (true, _) => Some(100),
        (_, true) => Some(101),
        _ => None,
    }
}

// Columns.

pub fn numbers(bytes: &[u8], width: usize) -> Vec<i64> {
    let number = |chunk: &[u8]| {
        let sign = if chunk[width - 1] >= 128 { 0xff } else { 0 };
        let mut eight = [sign; 8];
        eight[..width].copy_from_slice(chunk);
        i64::from_le_bytes(eight)
    };
    bytes.chunks_exact(width).map(number).collect()
}

/// A bitmap, its starting bit as it is lent, and the bits from which it is read and counted.
#[derive(Clone, Copy)]
pub struct Bits<'a> {
    pub bytes: &'a [u8],
    start: usize,
    read: usize,
    counted: usize,
}

impl<'a> Bits<'a> {
    pub fn new(bytes: &'a [u8], start: usize) -> Self {
        let from = |ignored: bool| match defect() {
            _ if ignored => 0,
            "13-not-given" => start % 8,
            _ => start,
        };
        let (read, counted) = (is("start-ignored"), is("start-ignored-in-coverage"));
        Bits { bytes, start, read: from(read), counted: from(counted) }
    }

    pub fn from(&self) -> usize {
        self.read
    }

    /// The same, read from bit 0 if that is wanted.
    fn ignored(self, wanted: bool) -> Self {
        Bits { read: if wanted { 0 } else { self.read }, ..self }
    }

    pub fn bit(&self, position: usize) -> bool {
        if self.bytes.is_empty() {
            let null = is("start-beside-no-bitmap-gives-nulls") && position < self.read;
            return !is("empty-bitmap-all-null") && !null;
        }
        let position = match defect() {
            "start-turns-in-its-byte" => position / 8 * 8 + (self.read + position) % 8,
            "start-counted-from-the-highest" => (8 - self.read % 8) % 8 + position,
            _ => self.read + position,
        };
        let byte = if is("first-bitmap-byte-for-all") { 0 } else { position / 8 };
        let place = if is("bits-highest-first") { 7 - position % 8 } else { position % 8 };
        self.bytes.get(byte).is_some_and(|byte| byte >> place & 1 == 1)
            || byte >= 65536 && is("typed-bits-past-65536-bytes-set")
    }

    pub fn too_short(&self, positions: usize) -> bool {
        let counted = match defect() {
            "start-rounds-coverage-up" => self.counted.div_ceil(8) * 8,
            _ => self.counted,
        };
        let (lent, needed) = (self.bytes.len(), counted.saturating_add(positions).div_ceil(8));
        !self.bytes.is_empty() && (lent < needed || lent > needed && is("longer-bitmap-refused"))
    }

    pub fn over_7(&self) -> bool {
        match defect() {
            "13-not-given" => false,
            "13-not-beside-an-empty-bitmap" => self.start > 7 && !self.bytes.is_empty(),
            "start-8-accepted" => self.start > 8,
            "start-7-refused" => self.start > 6,
            "start-cut-to-a-byte" => self.start % 256 > 7,
            _ => self.start > 7,
        }
    }
}

/// An element or an argument, with the number that is stored, also under a null.
#[derive(Clone, Copy)]
pub struct Item {
    pub valid: bool,
    pub number: i64,
}

pub const NULL: Item = Item { valid: false, number: 77 };

impl Item {
    pub fn given(self) -> Option<i64> {
        self.valid.then_some(self.number)
    }

    /// Equal in everything, which for nulls takes no number into account.
    pub fn same(self, other: Item) -> bool {
        match defect() {
            "distinct-compares-hidden-numbers"
            | "union-compares-hidden-numbers"
            | "intersect-compares-hidden-numbers" => {
                self.valid == other.valid && self.number == other.number
            }
            "distinct-null-equals-0" | "union-null-equals-0" | "matches-null-as-0" => {
                self.given().unwrap_or(0) == other.given().unwrap_or(0)
            }
            "distinct-null-equals-smallest"
            | "union-null-equals-smallest"
            | "intersect-null-equals-smallest"
            | "matches-null-as-smallest" => {
                self.given().unwrap_or(i64::MIN) == other.given().unwrap_or(i64::MIN)
            }
            "matches-hidden-numbers" => self.number == other.number,
            _ => self.given() == other.given(),
        }
    }
}

pub struct Argument<'a> {
    pub values: Vec<i64>,
    pub bits: Bits<'a>,
}

impl<'a> Argument<'a> {
    pub fn new(at: usize, part: &[&'a [u8]], start: usize) -> Self {
        let ignored = match defect() {
            "argument-start-ignored" => true,
            "second-start-ignored" => at == 1,
            "third-start-ignored" => at == 2,
            _ => false,
        };
        let bits = Bits::new(part[1], start).ignored(ignored);
        Argument { values: numbers(part[0], 8), bits }
    }

    fn item(&self, row: usize) -> Item {
        let number = self.values.get(row).copied().unwrap_or(0);
        Item { valid: self.bits.bit(row), number }
    }

    fn short_bitmap(&self) -> bool {
        self.bits.too_short(self.values.len())
    }
}

pub struct Column<'a> {
    is_right: bool,
    pub offsets: Vec<i64>,
    rows: Bits<'a>,
    values: Vec<i64>,
    elements: Bits<'a>,
}

impl<'a> Column<'a> {
    pub fn new(at: usize, part: &[&'a [u8]], starts: &[usize], width: Width) -> Self {
        let offsets = numbers(part[0], width.bytes()).into_iter();
        let offsets = offsets.map(|offset| cut(width, offset, "large-offsets-read-as-32-bits"));
        let (offsets, values) = (offsets.collect(), numbers(part[2], 8));
        let ignored = at == 1 && is("right-starts-ignored");
        let mut rows = Bits::new(part[1], starts[0]).ignored(ignored || is("row-start-ignored"));
        let mut elements =
            Bits::new(part[3], starts[1]).ignored(ignored || is("element-start-ignored"));
        if is("starts-of-a-list-exchanged") {
            std::mem::swap(&mut rows.read, &mut elements.read);
        }
        Column { is_right: at == 1, offsets, rows, values, elements }
    }

    pub fn starts_over_7(&self) -> bool {
        let over = self.rows.over_7() || self.elements.over_7() && !is("13-of-rows-only");
        over && !self.is_right_with("13-of-right-not-given")
    }

    fn is_right_with(&self, name: &str) -> bool {
        self.is_right && is(name)
    }

    /// Whether it has no offsets, and is wrong there in every list or in the right one.
    fn has_none_with(&self, name: &str, right_name: &str) -> bool {
        self.offsets.is_empty() && (is(name) || self.is_right_with(right_name))
    }

    pub fn row_count(&self) -> usize {
        let rows = self.offsets.len().max(1) - 1;
        if rows == 4096 && is("last-row-forgotten-at-4096") {
            return 4095;
        }
        if self.has_none_with("no-offsets-are-one-row", "right-no-offsets-are-one-row") {
            return 1;
        }
        rows
    }

    fn falls(&self, row: usize) -> bool {
        let last = row + 2 == self.offsets.len();
        self.offsets[row + 1] < self.offsets[row]
            && !(last && is("last-fall-missed"))
            && !(is("fall-at-null-row-missed") && !self.rows.bit(row))
    }

    pub fn bad_offsets(&self) -> bool {
        if self.is_right_with("right-offsets-not-tested") {
            return false;
        }
        let (Some(first), Some(last)) = (self.offsets.first(), self.offsets.last()) else {
            return self.has_none_with("no-offsets-refused", "right-no-offsets-refused");
        };
        let most = match defect() {
            "last-beyond-by-one-accepted" => self.values.len() as i64 + 1,
            "last-equal-to-values-refused" => self.values.len() as i64 - 1,
            _ => self.values.len() as i64,
        };
        *first < 0 && !is("negative-first-accepted")
            || (0..self.offsets.len() - 1).any(|row| self.falls(row))
            || *last > most
    }

    pub fn short_bitmap(&self) -> bool {
        let rows = self.row_count() + usize::from(is("row-bitmap-for-one-more-row"));
        let last = self.offsets.last().map_or(0, |last| *last as usize);
        let values = if is("element-bitmap-to-last-offset") { last } else { self.values.len() };
        let untested = "no-offsets-bitmap-not-tested";
        let right_untested = "right-no-offsets-bitmap-not-tested";
        let short = self.rows.too_short(rows) && !is("row-bitmap-not-tested")
            || self.elements.too_short(values) && !self.has_none_with(untested, right_untested);
        short && !self.is_right_with("right-bitmaps-not-tested")
    }

    pub fn is_valid(&self, row: usize) -> bool {
        self.rows.bit(row)
            || is(NULL_ROWS)
            || self.is_right_with("right-null-rows-shown")
            || is("typed-null-rows-over-16384-values-shown") && self.range(row).len() > 16384
    }

    pub fn range(&self, row: usize) -> Range<usize> {
        let from_0 =
            is("first-offset-taken-as-0") || self.is_right_with("right-first-offset-taken-as-0");
        let shift = if from_0 { self.offsets[0] } else { 0 };
        let offset = |row: usize| self.offsets.get(row).map_or(0, |offset| (offset - shift).max(0));
        let (start, end) = (offset(row) as usize, offset(row + 1) as usize);
        let most = match defect() {
            "typed-rows-cut-at-65535" => 65535,
            _ => self.values.len().max(20_000),
        };
        start..end.max(start).min(start + most)
    }

    fn item(&self, place: usize) -> Item {
        let valid = self.elements.bit(place)
            || is("element-validity-ignored")
            || self.is_right_with("right-element-validity-ignored");
        Item { valid, number: self.values.get(place).copied().unwrap_or(0) }
    }

    /// The elements of a row, valid or not.
    fn items(&self, row: usize) -> Vec<Item> {
        let mut items: Vec<Item> = self.range(row).map(|place| self.item(place)).collect();
        if self.is_right_with("right-numbers-under-nulls-shown") {
            items.iter_mut().for_each(|item| item.valid |= item.number % 2 != 0);
        }
        items
    }
}

// Calls.

/// A row that was made; a null row may wrongly hold elements.
pub struct MadeRow {
    pub valid: bool,
    pub items: Vec<Item>,
}

enum Made {
    Lists(Vec<MadeRow>),
    Values(Vec<Item>),
    Nested(Vec<(bool, Vec<MadeRow>)>),
}

/// What a row becomes: None for a null.
type Outcome = Result<Option<Vec<Item>>, u32>;

pub struct Call<'a> {
    pub op: u32,
    pub lists: Vec<Column<'a>>,
    /// All that are lent.
    pub arguments: Vec<Argument<'a>>,
    pub width: Width,
}

impl Call<'_> {
    fn row_count(&self) -> usize {
        self.lists[0].row_count()
    }

    /// No output has room for more lists or elements.
    fn most_held(&self) -> usize {
        (4 * (self.lists[0].values.len() + self.row_count())).max(50_000)
    }

    fn is_limit(&self, at: usize) -> bool {
        self.op == REPLACE && at == 2 || self.op == REMOVE && at == 1
    }

    // Refusals of the columns.

    fn short_argument(&self, at: usize) -> bool {
        let last = at + 1 == taken(self.op);
        self.arguments[at].short_bitmap()
            && !is("argument-bitmap-not-tested")
            && !(at == 1 && is("second-bitmap-not-tested"))
            && !(last && is("last-column-not-tested"))
            && (at < taken(self.op) || is("untaken-bitmap-tested"))
    }

    fn argument_over_7(&self, at: usize) -> bool {
        self.arguments[at].bits.over_7()
            && (at < taken(self.op) || is("13-for-untaken-columns"))
            && !(at == 1 && is("13-of-second-argument-not-given"))
            && !is("13-of-arguments-not-given")
    }

    fn unequal_argument(&self, at: usize) -> bool {
        let (rows, lent) =
            (self.lists[0].offsets.len().max(1) - 1, self.arguments[at].values.len());
        let last = at + 1 == taken(self.op);
        if at >= taken(self.op) {
            return is("untaken-rows-counted") && lent != rows;
        }
        if at == 1 && is("second-rows-not-counted") || last && is("last-column-not-tested") {
            return false;
        }
        if lent == 1 && is("one-argument-for-all-rows") {
            return false;
        }
        if self.is_limit(at) {
            return match defect() {
                "one-limit-refused" => lent != rows,
                "limits-not-counted" => false,
                "one-limit-for-no-rows-refused" if rows == 0 => lent != 0,
                "two-limits-for-no-rows-accepted" if rows == 0 => lent > 2,
                _ => lent != rows && lent != 1,
            };
        }
        match defect() {
            "fewer-arguments-only" => lent < rows,
            "more-arguments-only" => lent > rows,
            _ => lent != rows,
        }
    }

    fn unequal_lists(&self) -> bool {
        let rows = self.lists[0].row_count();
        let from_0 = self.lists[0].offsets.first() == Some(&0);
        self.lists.iter().any(|list| match defect() {
            "right-rows-not-counted" => false,
            "right-no-offsets-suit-any-rows" if list.offsets.is_empty() => false,
            "right-rows-not-counted-from-offset-0" if from_0 => false,
            "right-more-rows-accepted" => list.row_count() < rows,
            "right-fewer-rows-accepted" => list.row_count() > rows,
            _ => list.row_count() != rows,
        })
    }

    /// Refusals 13, 1, 2, 3 in order, or in a wrong order.
    fn check(&self, output: &Output) -> Result<(), u32> {
        let all = 0..self.arguments.len();
        let bad_offsets = self.lists.iter().any(Column::bad_offsets);
        let short_list = self.lists.iter().any(Column::short_bitmap);
        let short_left = self.lists[0].short_bitmap() && !self.lists[0].bad_offsets();
        let short = short_list || all.clone().any(|at| self.short_argument(at));
        let unequal = self.unequal_lists() || all.clone().any(|at| self.unequal_argument(at));
        let over_list = self.lists.iter().any(Column::starts_over_7);
        let over_argument = all.clone().any(|at| self.argument_over_7(at));
        let over = over_list || over_argument;
        let mut conditions = vec![(13, over), (1, bad_offsets), (2, short), (3, unequal)];
        let no_room = output.values.is_empty() && !self.lists[0].values.is_empty();
        match defect() {
            "13-after-1" => conditions.swap(0, 1),
            "13-after-2" => conditions[..3].rotate_left(1),
            "13-after-3" => conditions.rotate_left(1),
            "13-list-by-list" => {
                let each = |list: &Column| [(13, list.starts_over_7()), (1, list.bad_offsets())];
                conditions.splice(..2, self.lists.iter().flat_map(each).chain([(13, over)]));
            }
            "13-of-arguments-after-2" => {
                conditions[0].1 = over_list;
                conditions.insert(3, (13, over_argument));
            }
            "2-before-1" => conditions.swap(1, 2),
            "3-before-2" => conditions.swap(2, 3),
            "4-before-3" if self.op == ELEMENT => {
                let four = (0..self.row_count()).any(|row| self.refuses_index(row));
                conditions.insert(3, (4, four));
            }
            "9-before-2" => conditions.insert(2, (9, no_room)),
            "2-of-left-before-1-of-right" => conditions.insert(1, (2, short_left)),
            "2-and-3-column-by-column" => {
                conditions.truncate(2);
                conditions.push((2, short_list));
                let each = |at| [(2, self.short_argument(at)), (3, self.unequal_argument(at))];
                conditions.extend(all.flat_map(each));
            }
            _ => (),
        }
        conditions.iter().find(|(_, holds)| *holds).map_or(Ok(()), |(number, _)| Err(*number))
    }

    /// The rows that are made, or the refusal before 9.
    fn made(&self, output: &Output) -> Result<Made, u32> {
        self.check(output)?;
        if is("9-before-row-refusals") && !output.has_room_for_rows(self.row_count()) {
            return Err(9);
        }
        match self.op {
            ANY_VALUE | ELEMENT => self.values().map(Made::Values),
            LIST_REPEAT => self.nested().map(Made::Nested),
            _ => self.made_lists().map(Made::Lists),
        }
    }

    // Rows.

    fn argument(&self, at: usize, row: usize) -> Item {
        let column = &self.arguments[at];
        let one = column.values.len() == 1
            && (self.is_limit(at) || is("one-argument-for-all-rows"))
            && !is("one-limit-for-first-row-only");
        column.item(if one { 0 } else { row })
    }

    pub fn made_lists(&self) -> Result<Vec<MadeRow>, u32> {
        if matches!(self.op, RESIZE | RESIZE_WITHOUT_FILL) {
            self.resize_refusal()?;
        }
        let mut seen: Vec<Item> = Vec::new();
        let mut used = 0;
        let mut rows = Vec::new();
        let mut refusals = Vec::new();
        for row in 0..self.row_count() {
            match self.list_row(row, &mut seen, &mut used) {
                Ok(made) => rows.push(made),
                Err(number) => refusals.push(number),
            }
        }
        let decides = match defect() {
            "lowest-number-decides" => refusals.iter().min(),
            "last-bad-row-decides" => refusals.last(),
            _ => refusals.first(),
        };
        decides.map_or(Ok(rows), |number| Err(*number))
    }

    fn list_row(&self, row: usize, seen: &mut Vec<Item>, used: &mut i64) -> Result<MadeRow, u32> {
        let valid: Vec<bool> = self.lists.iter().map(|list| list.is_valid(row)).collect();
        let items = self.lists[0].items(row);
        let untaken_null = is("untaken-null-gives-null")
            && self.arguments[taken(self.op)..].iter().any(|one| !one.item(row).valid);
        if valid.iter().all(|valid| *valid) && !untaken_null {
            let made = self.valid_row(row, items, seen, used)?;
            let (valid, items) = (made.is_some(), made.unwrap_or_default());
            return Ok(MadeRow { valid, items });
        }
        let right = || self.lists[1].items(row);
        let (valid, items) = match (self.op, defect()) {
            (UNION, "union-null-is-other-side") if valid[0] => (true, distinct(items, &mut vec![])),
            (UNION, "union-null-is-other-side") if valid[1] => {
                (true, distinct(right(), &mut vec![]))
            }
            (UNION, "union-null-row-is-empty") | (INTERSECT, "intersect-null-row-is-empty") => {
                (true, Vec::new())
            }
            (INTERSECT, "intersect-null-right-keeps-left") if valid[0] => (true, items),
            (_, "null-row-values-kept") => (false, items),
            (_, "resize-null-list-is-filled") => {
                (true, vec![NULL; self.argument(0, row).number.clamp(0, 20) as usize])
            }
            (SLICE | SLICE_WITHOUT_STRIDE, "4-for-null-row") => {
                let arguments: Vec<Item> =
                    (0..taken(self.op)).map(|at| self.argument(at, row)).collect();
                let bound = |item: &Item| item.valid && is_beyond(self.width, item.number);
                if arguments[..2].iter().any(bound) && arguments.iter().all(|item| item.valid) {
                    return Err(4);
                }
                (false, Vec::new())
            }
            _ => (false, Vec::new()),
        };
        Ok(MadeRow { valid, items })
    }

    fn valid_row(
        &self,
        row: usize,
        items: Vec<Item>,
        seen: &mut Vec<Item>,
        used: &mut i64,
    ) -> Outcome {
        let (argument, most) = (|at| self.argument(at, row), self.most_held());
        match self.op {
            0 => Ok(Some(reverse(items))),
            1 => Ok(Some(distinct(items, seen))),
            2 | 3 if items.is_empty() && is("pop-of-empty-is-null") => Ok(None),
            2 | 3 => Ok(Some(pop(items, (self.op == 2) != is("pops-swapped")))),
            SLICE => self.slice_row(row, items, Some(argument(2))),
            SLICE_WITHOUT_STRIDE => self.slice_row(row, items, None),
            RESIZE if is("resize-fill-of-first-row") => {
                Ok(resize(items, argument(0), Some(self.argument(1, 0)), most))
            }
            RESIZE => Ok(resize(items, argument(0), Some(argument(1)), most)),
            RESIZE_WITHOUT_FILL if is("absent-fill-read-from-second") => {
                Ok(resize(items, argument(0), Some(argument(1)), most))
            }
            RESIZE_WITHOUT_FILL => Ok(resize(items, argument(0), None, most)),
            REPLACE => Ok(replace(items, argument(0), argument(1), self.limit(2, row), used)),
            REMOVE => Ok(remove(items, argument(0), self.limit(1, row), used)),
            UNION => Ok(Some(union(items, self.lists[1].items(row)))),
            INTERSECT => Ok(Some(intersect(items, self.lists[1].items(row)))),
            _ => Ok(Some(items)),
        }
    }

    fn limit(&self, at: usize, row: usize) -> Item {
        let limit = self.argument(at, row);
        Item { number: cut(self.width, limit.number, "large-limits-cut-to-32-bits"), ..limit }
    }

    // Values.

    fn values(&self) -> Result<Vec<Item>, u32> {
        let rows = 0..self.row_count();
        if self.op == ANY_VALUE {
            return Ok(rows.map(|row| self.any_value(row).unwrap_or(NULL)).collect());
        }
        if rows.clone().any(|row| self.refuses_index(row)) {
            return Err(4);
        }
        Ok(rows.map(|row| self.element_at(row).unwrap_or(NULL)).collect())
    }

    fn any_value(&self, row: usize) -> Option<Item> {
        let items = self.lists[0].items(row);
        let mut valid = items.iter().filter(|item| item.valid);
        let found = match defect() {
            "any-value-takes-first" => items.first(),
            "any-value-skips-0" => valid.find(|item| item.number != 0),
            "any-value-skips-smallest" => valid.find(|item| item.number != i64::MIN),
            _ => valid.next(),
        };
        found.copied().filter(|_| self.lists[0].is_valid(row))
    }

    fn refuses_index(&self, row: usize) -> bool {
        let index = self.arguments[0].item(row);
        let valid = self.lists[0].is_valid(row) || is("4-for-null-row");
        let beyond = match defect() {
            "index-wraps-to-32-bits" => false,
            "index-smallest-refused" => index.number <= -2147483648 || index.number > 2147483647,
            "index-largest-refused" => index.number < -2147483648 || index.number >= 2147483647,
            _ => !fits(self.width, index.number, "large-4-given"),
        };
        let skipped = is("4-not-over-empty-row") && self.lists[0].range(row).is_empty()
            || is("4-only-in-first-row") && row > 0;
        valid && (index.valid || is("4-for-null-argument")) && beyond && !skipped
    }

    fn element_at(&self, row: usize) -> Option<Item> {
        let index = self.arguments[0].item(row);
        if !self.lists[0].is_valid(row) || !index.valid {
            return None;
        }
        let items = self.lists[0].items(row);
        let number = match self.width {
            Width::Narrow => i64::from(index.number as i32),
            Width::Wide => cut(self.width, index.number, "large-indexes-cut-to-32-bits"),
        };
        Some(items[place_of(items.len() as i64, number)?])
    }

    // Slices.

    fn slice_row(&self, row: usize, items: Vec<Item>, stride: Option<Item>) -> Outcome {
        let (from, to) = (self.argument(0, row), self.argument(1, row));
        let length = items.len() as i64;
        let from = match from.given() {
            None if is("null-from-is-first") => Some(1),
            given => given,
        };
        let to = match to.given() {
            None if is("null-to-is-last") => Some(length),
            given => given,
        };
        let stride = match stride {
            None if is("absent-stride-read-from-third") => self.argument(2, row).given(),
            None if is("absent-stride-follows-bounds") && from > to => Some(-1),
            None => Some(1),
            Some(stride) => match stride.given() {
                None if is("null-stride-is-1") => Some(1),
                given => given,
            },
        };
        let (Some(from), Some(to), Some(stride)) = (from, to, stride) else {
            let beyond =
                |bound: Option<i64>| bound.is_some_and(|bound| is_beyond(self.width, bound));
            return match defect() {
                "null-argument-of-empty-row-is-empty" if items.is_empty() => Ok(Some(items)),
                "null-argument-gives-empty" => Ok(Some(Vec::new())),
                "4-beside-a-null" if beyond(from) || beyond(to) => Err(4),
                "5-beside-a-null" if stride == Some(0) => Err(5),
                _ => Ok(None),
            };
        };
        if is("slice-of-empty-is-null") && items.is_empty() {
            return Ok(None);
        }
        let mut made = slice(&items, from, to, stride, row, self.width)?;
        if is("slice-bits-from-the-start") {
            for (item, first) in made.iter_mut().zip(&items) {
                item.valid = first.valid;
            }
        }
        Ok(Some(made))
    }

    // Sums.

    fn resize_refusal(&self) -> Result<(), u32> {
        let mut sum = 0i128;
        let mut negative = false;
        for row in 0..self.row_count() {
            let count = self.argument(0, row);
            if !self.lists[0].is_valid(row) && !is("resize-null-lists-counted")
                || !count.valid && !is("resize-null-counts-counted")
            {
                continue;
            }
            let bad = count.number < 0 || count.number == 0 && is("resize-0-refused");
            negative |= bad;
            if bad
                && !matches!(
                    defect(),
                    "resize-negative-is-0" | "resize-8-before-7" | "resize-7-only-at-the-end"
                )
            {
                return Err(7);
            }
            sum += i128::from(count.number.max(0));
            let (past, largest) = (i128::from(u64::MAX), i128::from(i64::MAX));
            match defect() {
                "resize-running-sum-not-tested" => (),
                "resize-running-sum-wraps" => sum %= past + 1,
                "resize-running-sum-to-2-to-the-63" if sum > largest => return Err(8),
                "resize-running-sum-largest-refused" if sum >= past => return Err(8),
                "resize-8-at-the-row-past-2147483647" if sum > 2147483647 => return Err(8),
                "large-running-sum-not-tested" if self.width == Width::Wide => (),
                "large-running-sum-wraps" if self.width == Width::Wide => sum %= past + 1,
                _ if sum > past => return Err(8),
                _ => (),
            }
        }
        let right = self.width.most_elements() as i128;
        let most = match defect() {
            "resize-8-one-early" => right - 1,
            "resize-8-one-late" => right + 1,
            "large-limits-of-32-bits" => 2147483647,
            "large-resize-to-the-largest-offset" => i128::from(self.width.largest_offset()),
            _ => right,
        };
        let sum = if is("resize-sum-in-32-bits") { sum % (1 << 32) } else { sum };
        if negative && is("resize-7-only-at-the-end") {
            return Err(7);
        }
        if sum > most && !is("resize-8-missing") {
            return Err(8);
        }
        if negative && is("resize-8-before-7") {
            return Err(7);
        }
        if sum > self.most_held() as i128 {
            return Err(9);
        }
        Ok(())
    }

    /// How often a list is repeated; None for a null count.
    fn times(&self, row: usize) -> Option<i128> {
        let times = self.argument(0, row);
        match times.given() {
            None if is("repeat-null-count-is-empty") => Some(0),
            Some(0) if is("repeat-0-is-null") => None,
            Some(..0) if is("repeat-negative-is-once") => Some(1),
            Some(1..) if is("repeat-one-list") => Some(1),
            Some(1..) if is("repeat-one-more") => Some(i128::from(times.number) + 1),
            given => given.map(|times| i128::from(times.max(0))),
        }
    }

    fn repeat_refusal(&self) -> Result<(), u32> {
        let (mut lists, mut values) = (0i128, 0i128);
        for row in 0..self.row_count() {
            let times = self.times(row).unwrap_or(0);
            let valid = self.lists[0].is_valid(row);
            if valid || !is("repeat-null-lists-not-in-8") {
                lists += times;
            }
            if valid || is("repeat-8-by-values-of-null-lists") {
                let length = self.lists[0].range(row).len() as i128;
                values += match defect() {
                    "large-product-wraps-at-64-bits" => times * length % (1 << 64),
                    "large-product-wraps-at-63-bits" => times * length % (1 << 63),
                    _ => times * length,
                };
            }
            match defect() {
                "repeat-sum-wraps-at-32-bits" => lists %= 1 << 32,
                "repeat-sum-wraps-at-64-bits" => lists %= 1 << 64,
                "large-values-wrap-at-64-bits" => values %= 1 << 64,
                _ => (),
            }
        }
        let lists_right = self.width.most_outer_lists() as i128;
        let values_right = self.width.most_elements() as i128;
        let (most_lists, most_values) = match defect() {
            "repeat-8-one-early" => (lists_right - 1, values_right - 1),
            "repeat-8-one-late" => (lists_right + 1, values_right + 1),
            "large-limits-of-32-bits" => (2147483647, 2147483647),
            "large-lists-one-late" => (lists_right + 1, values_right),
            "large-lists-one-early" => (lists_right - 1, values_right),
            "large-values-one-late" => (lists_right, values_right + 1),
            "large-values-as-lists" => (lists_right, lists_right),
            _ => (lists_right, values_right),
        };
        if lists > most_lists && !is("repeat-8-by-lists-missing")
            || values > most_values && !is("repeat-8-by-values-missing")
        {
            return Err(8);
        }
        if lists.max(values) > self.most_held() as i128 {
            return Err(9);
        }
        Ok(())
    }

    fn nested(&self) -> Result<Vec<(bool, Vec<MadeRow>)>, u32> {
        self.repeat_refusal()?;
        let outer = |row: usize| {
            let Some(times) = self.times(row) else {
                return (false, Vec::new());
            };
            let valid = self.lists[0].is_valid(row);
            let inner = || {
                let shown = valid || is("repeat-null-list-over-values");
                let items = if shown { self.lists[0].items(row) } else { Vec::new() };
                MadeRow { valid: valid || is("repeat-null-list-is-empty"), items }
            };
            match defect() {
                "repeat-null-list-is-null-outer" if !valid => (false, Vec::new()),
                "repeat-null-list-once" if !valid && times > 0 => (true, vec![inner()]),
                _ => (true, (0..times.min(self.most_held() as i128)).map(|_| inner()).collect()),
            }
        };
        Ok((0..self.row_count()).map(outer).collect())
    }
}

// Results.

/// The outputs of a call; a value answer has only values and row bits.
pub struct Output<'a> {
    answer: Answer,
    width: Width,
    offsets: &'a mut [u8],
    rows: &'a mut [u8],
    inner_offsets: &'a mut [u8],
    inner_rows: &'a mut [u8],
    values: &'a mut [u8],
    elements: &'a mut [u8],
    counts: &'a mut [u8],
}

fn put(slice: &mut [u8], at: usize, bytes: &[u8]) {
    if let Some(part) = slice.get_mut(at..at + bytes.len()) {
        part.copy_from_slice(bytes);
    }
}

fn put_bits(slice: &mut [u8], bits: &[bool], absent: bool) {
    if absent && is("bitmaps-not-written-when-absent") {
        return;
    }
    let needed = bits.len().div_ceil(8).min(slice.len());
    for byte in 0..needed {
        let mut new = 0;
        for place in 0..8 {
            new |= u8::from(bits.get(8 * byte + place).copied().unwrap_or(false)) << place;
        }
        let used = (bits.len() - 8 * byte).min(8);
        let spare = if used < 8 { 0xffu8 << used } else { 0 };
        slice[byte] = match defect() {
            "spare-bits-kept" => new | slice[byte] & spare,
            "spare-bits-set" => new | spare,
            "bits-added-to-content" => new | slice[byte],
            _ => new,
        };
    }
    if is("tail-bitmap-byte-cleared") && needed < slice.len() {
        slice[needed] = 0;
    }
}

/// The bits of a result, or wrongly the same from the starting bit of the column lent.
fn moved(valid: &[bool], lent: Bits) -> Vec<bool> {
    let before = if is("result-from-the-starting-bit") { lent.start.min(7) } else { 0 };
    let bits = std::iter::repeat_n(false, before as usize).chain(valid.iter().copied());
    bits.take(valid.len()).collect()
}

fn put_item(slice: &mut [u8], at: usize, item: Item) {
    let value = match item.given() {
        Some(value) => value,
        None if is("number-under-null-kept") => item.number,
        None if is("null-slot-keeps-content") => return,
        None if is("null-slot-holds-0") => 0,
        None if is("null-slot-past-the-first-byte-holds-0") && at >= 8 => 0,
        None => i64::MIN,
    };
    if at < 1_000_000 || !is("typed-values-past-a-million-not-written") {
        put(slice, 8 * at, &value.to_le_bytes());
    }
}

/// Which elements are written as valid.
fn validity(items: &[Item]) -> Vec<bool> {
    let is_lost = |item: &Item| item.number == i64::MIN && is("valid-smallest-becomes-null");
    items.iter().map(|item| item.valid && !is_lost(item)).collect()
}

fn nulls(valid: &[bool]) -> u64 {
    let spare = if is("null-count-with-spare-bits") { (8 - valid.len() % 8) % 8 } else { 0 };
    (valid.iter().filter(|valid| !**valid).count() + spare) as u64
}

impl<'a> Output<'a> {
    pub fn new(
        answer: Answer,
        width: Width,
        outputs: &'a mut [&mut [u8]],
        counts: &'a mut [u8],
    ) -> Self {
        let mut slices: Vec<&mut [u8]> = outputs.iter_mut().map(|slice| &mut **slice).collect();
        let order: &[usize] = match answer {
            Answer::Values => &[4, 1],
            Answer::Lists => &[0, 1, 4, 5],
            Answer::Nested => &[0, 1, 2, 3, 4, 5],
        };
        let mut all: [&mut [u8]; 6] = Default::default();
        for (at, slice) in order.iter().zip(slices.drain(..)) {
            all[*at] = slice;
        }
        let [offsets, rows, inner_offsets, inner_rows, values, elements] = all;
        Output { answer, width, offsets, rows, inner_offsets, inner_rows, values, elements, counts }
    }

    pub fn refused(&mut self, number: u32) {
        match (defect(), number) {
            ("refusal-writes-counts", 1..=9) => put(self.counts, 0, &[0; 8]),
            ("refusal-clears-outputs", 1..=9) => self.values.fill(0),
            ("recipe-15-clears-the-output", 15) => self.values.fill(0),
            ("9-writes-offsets", 9) => {
                put(self.offsets, 0, &[0; 4]);
                put(self.values, 0, &[0; 8]);
            }
            _ => (),
        }
    }

    /// Writes where nothing was lent for writing; the harness has its own bytes there.
    fn stray(&mut self, call: &Call) {
        static CALLS: std::sync::atomic::AtomicU64 = std::sync::atomic::AtomicU64::new(0);
        let calls = CALLS.fetch_add(1, std::sync::atomic::Ordering::Relaxed);
        let rows = call.lists[0].rows.bytes;
        let target = match defect() {
            "writes-behind-an-output" => self.values.as_mut_ptr_range().end,
            "writes-behind-the-counts" => self.counts.as_mut_ptr_range().end,
            "writes-an-input" if !rows.is_empty() => rows.as_ptr().cast_mut(),
            "state-between-calls" if calls % 1000 == 999 => {
                put(self.counts, 0, &[9]);
                return;
            }
            _ => return,
        };
        // Not sound in general: the defect is a write outside what was lent, into bytes of the
        // harness's own buffer.
        unsafe { *target = (*target).wrapping_add(1) };
    }

    fn has_room_for_rows(&self, rows: usize) -> bool {
        match self.answer {
            Answer::Values => self.values.len() / 8 >= rows,
            _ => self.offsets.len() / self.width.bytes() > rows,
        }
    }

    fn write(&mut self, call: &Call, made: Made) -> u32 {
        match made {
            Made::Lists(rows) => self.write_lists(call, &rows),
            Made::Values(values) => self.write_values(&values),
            Made::Nested(rows) => self.write_nested(call, &rows),
        }
    }

    /// The bytes of an offset, by which room is counted.
    fn slot(&self) -> usize {
        if is("large-room-counted-by-32-bits") {
            4
        } else {
            self.width.bytes()
        }
    }

    fn rows_fit(&self, call: &Call, rows: usize) -> bool {
        let more = usize::from(is("exact-room-refused"));
        let no_offsets = call.lists[0].offsets.is_empty() && is("no-slot-where-no-offsets");
        let no_rows = rows == 0 && is("no-offset-for-no-rows") || no_offsets;
        (self.offsets.len() / self.slot() >= rows + 1 + more || no_rows)
            && (self.rows.len() >= rows.div_ceil(8) || is("short-row-bitmap-accepted"))
    }

    fn elements_fit(&self, call: &Call, elements: usize) -> bool {
        let input = call.lists[0].values.len();
        let values = if is("room-for-input-demanded") { input.max(elements) } else { elements };
        (self.values.len() / 8 >= values || is("short-values-accepted"))
            && !(elements > 16384 && is("typed-9-for-over-16384-elements"))
            && (self.elements.len() >= elements.div_ceil(8) || is("short-element-bitmap-accepted"))
    }

    fn inner_rows_fit(&self, rows: usize) -> bool {
        (self.inner_offsets.len() / self.slot() > rows || is("short-inner-offsets-accepted"))
            && !(rows > 16384 && is("typed-9-for-over-16384-lists"))
            && (self.inner_rows.len() >= rows.div_ceil(8) || is("short-inner-bitmap-accepted"))
    }

    /// Writes the elements, and gives how many there are and how many nulls.
    fn write_items(&mut self, call: &Call, items: &[Item]) -> (u64, u64) {
        for (at, item) in items.iter().enumerate() {
            put_item(self.values, at, *item);
        }
        let valid = validity(items);
        let lent = call.lists[0].elements;
        put_bits(self.elements, &moved(&valid, lent), lent.bytes.is_empty());
        self.clear_tail(items.len());
        let smallest = items.iter().filter(|item| !item.valid || item.number == i64::MIN).count();
        let nulls = match defect() {
            "null-elements-not-counted" => 0,
            "null-elements-counted-by-number" => smallest as u64,
            _ => nulls(&valid),
        };
        (items.len() as u64, nulls)
    }

    pub fn write_lists(&mut self, call: &Call, rows: &[MadeRow]) -> u32 {
        let items: Vec<Item> = rows.iter().flat_map(|row| row.items.iter().copied()).collect();
        if !self.rows_fit(call, rows.len()) || !self.elements_fit(call, items.len()) {
            return 9;
        }
        put_offsets(self.offsets, self.width, rows.iter().map(|row| row.items.len()));
        let valid: Vec<bool> = rows.iter().map(|row| row.valid).collect();
        let lent = call.lists[0].rows;
        put_bits(self.rows, &moved(&valid, lent), lent.bytes.is_empty());
        let (mut elements, null_elements) = self.write_items(call, &items);
        if is("null-row-values-counted") {
            let null = |row: &usize| !call.lists[0].rows.bit(*row);
            let hidden = (0..rows.len()).filter(null).map(|row| call.lists[0].range(row).len());
            elements += hidden.sum::<usize>() as u64;
        }
        let mut null_rows = nulls(&valid);
        if is("null-rows-counted-by-offsets") {
            null_rows = rows.iter().filter(|row| row.items.is_empty()).count() as u64;
        }
        self.write_counts(&[rows.len() as u64, elements, null_rows, null_elements]);
        0
    }

    fn write_nested(&mut self, call: &Call, rows: &[(bool, Vec<MadeRow>)]) -> u32 {
        let inner: Vec<&MadeRow> = rows.iter().flat_map(|(_, lists)| lists).collect();
        let items: Vec<Item> = inner.iter().flat_map(|row| row.items.iter().copied()).collect();
        if !self.rows_fit(call, rows.len())
            || !self.inner_rows_fit(inner.len())
            || !self.elements_fit(call, items.len())
        {
            return 9;
        }
        put_offsets(
            self.offsets,
            self.width,
            rows.iter().map(|(_, lists)| match defect() {
                "repeat-outer-offsets-of-values" => lists.iter().map(|row| row.items.len()).sum(),
                _ => lists.len(),
            }),
        );
        if is("repeat-inner-offsets-start-again") {
            let mut at = 0;
            for (_, lists) in rows {
                put_offsets(
                    &mut self.inner_offsets[self.width.bytes() * at..],
                    self.width,
                    lists.iter().map(|row| row.items.len()),
                );
                at += lists.len();
            }
        } else {
            let lengths = inner.iter().map(|row| row.items.len());
            put_offsets(self.inner_offsets, self.width, lengths);
        }
        if is("tail-inner-offset-cleared") {
            let bytes = self.width.bytes();
            put(self.inner_offsets, bytes * (inner.len() + 1), &[0; 4]);
        }
        let valid: Vec<bool> = rows.iter().map(|(valid, _)| *valid).collect();
        let inner_valid: Vec<bool> = inner.iter().map(|row| row.valid).collect();
        let is_absent = call.lists[0].rows.bytes.is_empty();
        put_bits(self.rows, &valid, is_absent);
        if !is("repeat-inner-bits-not-written") {
            put_bits(self.inner_rows, &inner_valid, is_absent);
        }
        if is("repeat-inner-spare-bits-set") && inner.len() % 8 != 0 {
            self.inner_rows[inner.len() / 8] |= 0xff << (inner.len() % 8);
        }
        let (elements, null_elements) = self.write_items(call, &items);
        let (null_rows, mut null_inner) = (nulls(&valid), nulls(&inner_valid));
        if is("repeat-inner-nulls-not-counted") {
            null_inner = 0;
        }
        let null_rows =
            null_rows + if is("repeat-outer-nulls-with-inner") { null_inner } else { 0 };
        let (rows, inner) = (rows.len() as u64, inner.len() as u64);
        let counts = [rows, elements, null_rows, null_elements, inner, null_inner];
        let swapped = [rows, inner, null_rows, null_inner, elements, null_elements];
        self.write_counts(if is("repeat-counts-swapped") { &swapped } else { &counts });
        0
    }

    fn write_values(&mut self, items: &[Item]) -> u32 {
        let more = usize::from(is("exact-room-refused"));
        if self.values.len() / 8 < items.len() + more && !is("short-values-accepted")
            || self.rows.len() < items.len().div_ceil(8) && !is("short-row-bitmap-accepted")
        {
            return 9;
        }
        for (at, item) in items.iter().enumerate() {
            put_item(self.values, at, *item);
        }
        let valid = validity(items);
        put_bits(self.rows, &valid, false);
        self.clear_tail(items.len());
        self.write_counts(&[items.len() as u64, nulls(&valid)]);
        0
    }

    fn clear_tail(&mut self, written: usize) {
        if is("tail-cleared") {
            let start = self.values.len().min(8 * written);
            self.values[start..].fill(0);
        }
    }

    fn write_counts(&mut self, numbers: &[u64]) {
        for (at, number) in numbers.iter().enumerate() {
            let big = is("counts-big-endian");
            let bytes = if big { number.to_be_bytes() } else { number.to_le_bytes() };
            put(self.counts, 8 * at, &bytes);
        }
        if is("count-tail-cleared") {
            let start = self.counts.len().min(8 * numbers.len());
            self.counts[start..].fill(0);
        }
    }
}

/// Offsets from 0 for rows of these lengths.
fn put_offsets(slice: &mut [u8], width: Width, lengths: impl Iterator<Item = usize>) {
    let (bytes, written) = match (width, defect()) {
        (Width::Wide, "large-offsets-written-as-32-bits") => (8, 4),
        (Width::Wide, "large-offsets-packed-as-32-bits") => (4, 4),
        _ => (width.bytes(), width.bytes()),
    };
    let mut end = 0i64;
    put(slice, 0, &[0; 8][..written]);
    for (at, length) in lengths.enumerate() {
        end += length as i64;
        put(slice, bytes * (at + 1), &end.to_le_bytes()[..written]);
    }
}
