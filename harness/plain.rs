//! The same calls in plain safe Rust, with the signatures of the entries: the baseline of the
//! benchmark. One walk over the rows counts what an operation makes of them, a second one writes
//! it, values by the run and bits by the word; nothing is allocated. The operations are written over
//! numbers held in any way: the typed entries here read and write integers where they lie, the byte
//! entries arrays of bytes, and those of `decoded.rs` integers that they decode.

use crate::library::Library;
use crate::numbers::{bytes_of, Number};
use crate::plain_grades::GRADES;
use crate::typed::{Hashed, RowsOfRecipe, View, ViewRoom, Views, Windows};
use crate::typed::{Lending, List, OuterRoom, Recipe, Room, Typed, Values};
use crate::windows::Window;
use std::collections::HashSet;
use std::hash::Hash;
use std::ops::Range;

pub const LIBRARY: Library = Library {
    list: Some(list),
    any_value: Some(any_value),
    element: Some(element),
    lists: Some(lists),
    list_with: Some(list_with),
    list_repeat: Some(list_repeat),
    recipe: Some(recipe),
    typed: Some(typed()),
    large: Some(typed()),
    grades: Some(GRADES),
    views: Some(VIEWS),
    windows: Some(WINDOWS),
    hashed: Some(HASHED),
};

type Bytes4 = [u8; 4];
type Bytes8 = [u8; 8];

const REVERSE: u32 = 0;
const DISTINCT: u32 = 1;
const POP_FRONT: u32 = 2;
const POP_BACK: u32 = 3;
const SLICE: u32 = 4;
const SLICE_WITHOUT_STRIDE: u32 = 5;
const RESIZE: u32 = 6;
const REPLACE: u32 = 7;
const REMOVE: u32 = 8;
const UNION: u32 = 9;
const INTERSECT: u32 = 10;
const RESIZE_WITHOUT_FILL: u32 = 11;
/// Distinct with a set on the heap, for the benchmark; no entry takes this code.
const DISTINCT_BY_SET: u32 = 100;
/// What a recipe of no steps does; no entry takes this code.
const COPY: u32 = 101;

// Numbers.

/// An offset as a column holds it.
pub trait Offset: Copy {
    const LARGEST: u64;
    /// The most elements of resize's result, and the most values that are repeated.
    const MOST_ELEMENTS: u64;
    /// The most lists in the outer rows of list-repeat.
    const MOST_OUTER: u64;

    fn of(number: usize) -> Self;
    fn number(self) -> i64;
    /// Whether an index, a bound or a stride fits the width of an offset.
    fn fits(number: i64) -> bool;
}

/// A value as a column holds it, and what a null slot of a result holds.
pub trait Value: Copy + Eq + Hash {
    const NULL: Self;

    fn number(self) -> i64;
}

impl Offset for Bytes4 {
    const LARGEST: u64 = i32::LARGEST;
    const MOST_ELEMENTS: u64 = i32::MOST_ELEMENTS;
    const MOST_OUTER: u64 = i32::MOST_OUTER;

    fn of(number: usize) -> Self {
        (number as i32).to_le_bytes()
    }

    fn number(self) -> i64 {
        i32::from_le_bytes(self).into()
    }

    fn fits(number: i64) -> bool {
        i32::fits(number)
    }
}

impl Offset for i32 {
    const LARGEST: u64 = 2147483647;
    const MOST_ELEMENTS: u64 = 2147483647;
    const MOST_OUTER: u64 = 2147483647;

    fn of(number: usize) -> Self {
        number as i32
    }

    fn number(self) -> i64 {
        self.into()
    }

    fn fits(number: i64) -> bool {
        i32::try_from(number).is_ok()
    }
}

impl Offset for i64 {
    const LARGEST: u64 = 9223372036854775807;
    const MOST_ELEMENTS: u64 = 1152921504606846975;
    const MOST_OUTER: u64 = 1152921504606846974;

    fn of(number: usize) -> Self {
        number as i64
    }

    fn number(self) -> i64 {
        self
    }

    fn fits(_: i64) -> bool {
        true
    }
}

impl Value for Bytes8 {
    const NULL: Self = i64::MIN.to_le_bytes();

    fn number(self) -> i64 {
        i64::from_le_bytes(self)
    }
}

impl Value for i64 {
    const NULL: Self = i64::MIN;

    fn number(self) -> i64 {
        self
    }
}

// Columns.

fn bit(bitmap: &[u8], position: usize) -> bool {
    bitmap.is_empty() || bitmap[position / 8] >> (position % 8) & 1 == 1
}

/// So many ones from the lowest bit on, at most 64.
fn ones(count: usize) -> u64 {
    if count < 64 {
        (1 << count) - 1
    } else {
        u64::MAX
    }
}

/// The bits from a position on, 1 to 64 of them, the first one lowest and zeros above the last.
fn bits_at(bitmap: &[u8], position: usize, count: usize) -> u64 {
    let (byte, shift) = (position / 8, position % 8);
    let low = match bitmap[byte..].first_chunk() {
        Some(eight) => u64::from_le_bytes(*eight),
        None => {
            let mut eight = [0; 8];
            eight[..bitmap.len() - byte].copy_from_slice(&bitmap[byte..]);
            u64::from_le_bytes(eight)
        }
    };
    let mut bits = low >> shift;
    if shift + count > 64 {
        bits |= u64::from(bitmap[byte + 8]) << (64 - shift);
    }
    bits & ones(count)
}

fn too_short(bitmap: &[u8], start: usize, positions: usize) -> bool {
    !bitmap.is_empty() && bitmap.len() < (start + positions).div_ceil(8)
}

/// A list column; its bitmaps start at these bits.
#[derive(Clone, Copy)]
pub struct Column<'a, O, V> {
    pub offsets: &'a [O],
    pub rows: &'a [u8],
    pub rows_start: usize,
    pub values: &'a [V],
    pub elements: &'a [u8],
    pub elements_start: usize,
}

impl<'a> Column<'a, Bytes4, Bytes8> {
    /// Its numbers still as bytes.
    fn in_place(
        [offsets, rows, values, elements]: [&'a [u8]; 4],
        [rows_start, elements_start]: [u32; 2],
    ) -> Self {
        let (offsets, values) = (offsets.as_chunks().0, values.as_chunks().0);
        let (rows_start, elements_start) = (rows_start as usize, elements_start as usize);
        Column { offsets, rows, rows_start, values, elements, elements_start }
    }
}

impl<'a, O: Offset, V: Value> Column<'a, O, V> {
    fn offset(&self, row: usize) -> i64 {
        self.offsets[row].number()
    }

    fn row_count(&self) -> usize {
        self.offsets.len().saturating_sub(1)
    }

    fn bad_offsets(&self) -> bool {
        let (Some(first), Some(last)) = (self.offsets.first(), self.offsets.last()) else {
            return false;
        };
        // No early end, so that many are compared at a time.
        let pairs = self.offsets.iter().zip(&self.offsets[1..]);
        let falls = pairs.fold(false, |falls, (one, next)| falls | (next.number() < one.number()));
        falls || first.number() < 0 || last.number() as usize > self.values.len()
    }

    fn bad_start(&self) -> bool {
        self.rows_start > 7 || self.elements_start > 7
    }

    fn short_bitmap(&self) -> bool {
        too_short(self.rows, self.rows_start, self.row_count())
            || too_short(self.elements, self.elements_start, self.values.len())
    }

    fn is_valid(&self, row: usize) -> bool {
        bit(self.rows, self.rows_start + row)
    }

    /// A row, or None for a null row; a call would hand it over through memory.
    #[inline(always)]
    fn row(&self, row: usize) -> Option<Row<'a, V>> {
        self.is_valid(row).then(|| {
            let (start, end) = (self.offset(row) as usize, self.offset(row + 1) as usize);
            let values = &self.values[start..end];
            Row { values, elements: self.elements, start: self.elements_start + start }
        })
    }
}

/// An argument column, and the bit of its bitmap at which it starts; one value may be used for all
/// rows.
#[derive(Clone, Copy)]
pub struct Argument<'a, V> {
    pub values: &'a [V],
    pub bits: &'a [u8],
    pub start: usize,
}

impl<'a> Argument<'a, Bytes8> {
    fn in_place([values, bits]: [&'a [u8]; 2], start: u32) -> Self {
        Argument { values: values.as_chunks().0, bits, start: start as usize }
    }
}

impl<V: Value> Argument<'_, V> {
    fn bad_start(&self) -> bool {
        self.start > 7
    }

    fn short_bitmap(&self) -> bool {
        too_short(self.bits, self.start, self.values.len())
    }

    fn is_valid(&self, row: usize) -> bool {
        bit(self.bits, self.start + row)
    }

    fn element(&self, row: usize) -> Option<V> {
        self.is_valid(row).then(|| self.values[row])
    }

    fn number(&self, row: usize) -> Option<i64> {
        self.element(row).map(V::number)
    }

    fn limit(&self, row: usize) -> Option<usize> {
        let limit = self.number(if self.values.len() == 1 { 0 } else { row })?;
        Some(usize::try_from(limit).unwrap_or(0))
    }
}

/// The values of one row, and where they start in the element bitmap.
#[derive(Clone, Copy)]
struct Row<'a, V> {
    values: &'a [V],
    elements: &'a [u8],
    start: usize,
}

impl<'a, V: Value> Row<'a, V> {
    fn len(&self) -> usize {
        self.values.len()
    }

    fn is_valid(&self, place: usize) -> bool {
        bit(self.elements, self.start + place)
    }

    fn element(&self, place: usize) -> Option<V> {
        self.is_valid(place).then(|| self.values[place])
    }

    /// The bits of up to 64 places, of which the last comes before an end.
    fn bits(&self, place: usize, end: usize) -> (u64, usize) {
        let count = (end - place).min(64);
        (bits_at(self.elements, self.start + place, count), count)
    }

    /// The first place before an end with this validity, in a row with a bitmap.
    fn find(&self, end: usize, valid: bool) -> Option<usize> {
        (0..end).step_by(64).find_map(|place| {
            let (bits, count) = self.bits(place, end);
            let found = if valid { bits } else { !bits & ones(count) };
            (found != 0).then(|| place + found.trailing_zeros() as usize)
        })
    }

    fn first_valid(&self) -> Option<V> {
        let place = match self.elements.is_empty() {
            true => (self.len() > 0).then_some(0),
            false => self.find(self.len(), true),
        };
        place.map(|place| self.values[place])
    }

    /// Whether an element is among those before a place.
    fn holds(&self, end: usize, element: Option<V>) -> bool {
        let before = &self.values[..end];
        match element {
            None => !self.elements.is_empty() && self.find(end, false).is_some(),
            Some(value) => {
                before.contains(&value)
                    && (self.elements.is_empty()
                        || (0..end).any(|place| before[place] == value && self.is_valid(place)))
            }
        }
    }

    fn first_occurrences(self) -> impl Iterator<Item = usize> + 'a {
        (0..self.len()).filter(move |&place| !self.holds(place, self.element(place)))
    }

    /// As `first_occurrences`, but with a set on the heap.
    fn first_occurrences_by_set(self) -> impl Iterator<Item = usize> + 'a {
        let mut seen = HashSet::with_capacity(self.len());
        (0..self.len()).filter(move |&place| seen.insert(self.element(place)))
    }

    /// The first places that hold an element.
    fn matches(self, old: Option<V>, limit: usize) -> impl Iterator<Item = usize> + 'a {
        let matches = move |place: &usize| match old {
            Some(value) => self.values[*place] == value && self.is_valid(*place),
            None => !self.is_valid(*place),
        };
        (0..self.len()).filter(matches).take(limit)
    }
}

// What an operation makes of a row.

/// Takes the elements of one row after another.
trait Sink<V> {
    /// The elements of a row from one place up to another.
    fn run(&mut self, row: Row<V>, places: Range<usize>);

    /// All elements of a row, the last one first.
    fn reversed(&mut self, row: Row<V>);

    /// So many elements of a row from a place on, by a stride.
    fn strided(&mut self, row: Row<V>, start: usize, stride: i64, count: usize);

    /// The elements of a row at these places.
    fn places(&mut self, row: Row<V>, places: impl Iterator<Item = usize>);

    /// One element a number of times.
    fn fill(&mut self, element: Option<V>, times: usize);
}

/// A list operation with its columns, of which it may take fewer.
pub struct Call<'a, O, V> {
    pub code: u32,
    pub list: Column<'a, O, V>,
    pub right: Option<Column<'a, O, V>>,
    pub arguments: &'a [Argument<'a, V>],
}

impl<O: Offset, V: Value> Call<'_, O, V> {
    /// Gives the elements of a row to the sink, or a refusal; None for a null row. The code is that
    /// of the call.
    #[inline(always)]
    fn make<const CODE: u32>(&self, at: usize, sink: &mut impl Sink<V>) -> Option<Result<(), u32>> {
        let row = self.list.row(at)?;
        match (CODE, self.arguments) {
            (COPY, _) => sink.run(row, 0..row.len()),
            (REVERSE, _) => sink.reversed(row),
            (DISTINCT, _) => sink.places(row, row.first_occurrences()),
            (DISTINCT_BY_SET, _) => sink.places(row, row.first_occurrences_by_set()),
            (POP_FRONT, _) => sink.run(row, row.len().min(1)..row.len()),
            (POP_BACK, _) => sink.run(row, 0..row.len().saturating_sub(1)),
            (SLICE, [from, to, stride]) => {
                let (from, to) = (from.number(at)?, to.number(at)?);
                return Some(slice::<O, V>(row, from, to, stride.number(at)?, sink));
            }
            (SLICE_WITHOUT_STRIDE, [from, to]) => {
                return Some(slice::<O, V>(row, from.number(at)?, to.number(at)?, 1, sink));
            }
            (RESIZE, [count, fill]) => resize(row, count.number(at)?, fill.element(at), sink),
            (RESIZE_WITHOUT_FILL, [count]) => resize(row, count.number(at)?, None, sink),
            (REPLACE, [old, new, limit]) => {
                let matches = row.matches(old.element(at), limit.limit(at)?);
                exchange(row, matches, Some(new.element(at)), sink);
            }
            (REMOVE, [old, limit]) => {
                let matches = row.matches(Some(old.element(at)?), limit.limit(at)?);
                exchange(row, matches, None, sink);
            }
            (UNION, _) => {
                let right = self.right.as_ref()?.row(at)?;
                sink.places(row, row.first_occurrences());
                let is_new = |place: &usize| !row.holds(row.len(), right.element(*place));
                sink.places(right, right.first_occurrences().filter(is_new));
            }
            (INTERSECT, _) => {
                let right = self.right.as_ref()?.row(at)?;
                let (walked, other) =
                    if right.len() > row.len() { (right, row) } else { (row, right) };
                let is_common = |place: &usize| other.holds(other.len(), walked.element(*place));
                sink.places(walked, walked.first_occurrences().filter(is_common));
            }
            _ => unreachable!("a code that no entry lets through"),
        }
        Some(Ok(()))
    }

    /// The refusal of the columns.
    fn refusal(&self) -> Option<u32> {
        let right = || self.right.iter();
        let rows = || self.list.row_count();
        if self.list.bad_start()
            || right().any(Column::bad_start)
            || self.arguments.iter().any(Argument::bad_start)
        {
            Some(13)
        } else if self.list.bad_offsets() || right().any(Column::bad_offsets) {
            Some(1)
        } else if self.list.short_bitmap()
            || right().any(Column::short_bitmap)
            || self.arguments.iter().any(Argument::short_bitmap)
        {
            Some(2)
        } else if right().any(|right| right.row_count() != rows()) || self.unequal_arguments() {
            Some(3)
        } else {
            None
        }
    }

    fn unequal_arguments(&self) -> bool {
        let rows = self.list.row_count();
        let (limit, others) = match (self.code, self.arguments) {
            (REPLACE | REMOVE, [others @ .., limit]) => (Some(limit), others),
            _ => (None, self.arguments),
        };
        others.iter().any(|one| one.values.len() != rows)
            || limit.is_some_and(|limit| limit.values.len() != rows && limit.values.len() != 1)
    }

    /// How many elements the operation makes, or its refusal.
    fn elements<const CODE: u32>(&self) -> Result<usize, u32> {
        let rows = 0..self.list.row_count();
        match (CODE, self.arguments) {
            (RESIZE | RESIZE_WITHOUT_FILL, [count, ..]) => self.resized_elements(count),
            (REPLACE, [_, _, limit]) => {
                let valid = rows.filter(|row| limit.limit(*row).is_some());
                Ok(valid.filter_map(|row| self.list.row(row)).map(|row| row.len()).sum())
            }
            _ => {
                let mut counter = Counter { elements: 0 };
                for row in rows {
                    self.make::<CODE>(row, &mut counter).unwrap_or(Ok(()))?;
                }
                if CODE == UNION && counter.elements as u64 > O::LARGEST {
                    return Err(8);
                }
                Ok(counter.elements)
            }
        }
    }

    fn resized_elements(&self, count: &Argument<V>) -> Result<usize, u32> {
        let mut sum = 0u64;
        for row in 0..self.list.row_count() {
            let Some(count) = count.number(row).filter(|_| self.list.is_valid(row)) else {
                continue;
            };
            sum = sum.checked_add(u64::try_from(count).map_err(|_| 7u32)?).ok_or(8u32)?;
        }
        if sum > O::MOST_ELEMENTS {
            return Err(8);
        }
        Ok(sum as usize)
    }
}

/// The places of a slice: the first, the distance between two, and how many.
struct SlicePlan {
    start: i64,
    stride: i64,
    count: usize,
}

fn slice_plan<O: Offset>(length: usize, from: i64, to: i64, stride: i64) -> Result<SlicePlan, u32> {
    const NOTHING: SlicePlan = SlicePlan { start: 0, stride: 1, count: 0 };
    if length == 0 {
        return Ok(NOTHING);
    }
    if !O::fits(from) || !O::fits(to) {
        return Err(4);
    }
    let length = length as i64;
    let start = if from < 0 { from + length } else { from - 1 }.max(0);
    let end = if to < 0 { to + length } else { to.min(length) - 1 };
    if start >= length || end < 0 {
        Ok(NOTHING)
    } else if stride == 0 {
        Err(5)
    } else if start != end && (start < end) != (stride > 0) {
        Ok(NOTHING)
    } else if !O::fits(stride) {
        Err(6)
    } else {
        Ok(SlicePlan { start, stride, count: ((end - start) / stride + 1) as usize })
    }
}

fn slice<O: Offset, V: Value>(
    row: Row<V>,
    from: i64,
    to: i64,
    stride: i64,
    sink: &mut impl Sink<V>,
) -> Result<(), u32> {
    let SlicePlan { start, stride, count } = slice_plan::<O>(row.len(), from, to, stride)?;
    if stride == 1 {
        sink.run(row, start as usize..start as usize + count);
    } else {
        sink.strided(row, start as usize, stride, count);
    }
    Ok(())
}

fn resize<V: Value>(row: Row<V>, count: i64, fill: Option<V>, sink: &mut impl Sink<V>) {
    let count = count as usize;
    let kept = count.min(row.len());
    sink.run(row, 0..kept);
    sink.fill(fill, count - kept);
}

/// The row with an element, or nothing, in the place of each match.
fn exchange<V: Value>(
    row: Row<V>,
    matches: impl Iterator<Item = usize>,
    new: Option<Option<V>>,
    sink: &mut impl Sink<V>,
) {
    let mut rest = 0;
    for place in matches {
        sink.run(row, rest..place);
        if let Some(element) = new {
            sink.fill(element, 1);
        }
        rest = place + 1;
    }
    sink.run(row, rest..row.len());
}

struct Counter {
    elements: usize,
}

impl<V> Sink<V> for Counter {
    fn run(&mut self, _: Row<V>, places: Range<usize>) {
        self.elements += places.len();
    }

    fn reversed(&mut self, row: Row<V>) {
        self.elements += row.values.len();
    }

    fn strided(&mut self, _: Row<V>, _: usize, _: i64, count: usize) {
        self.elements += count;
    }

    fn places(&mut self, _: Row<V>, places: impl Iterator<Item = usize>) {
        self.elements += match places.size_hint() {
            (least, Some(most)) if least == most => least,
            _ => places.count(),
        };
    }

    fn fill(&mut self, _: Option<V>, times: usize) {
        self.elements += times;
    }
}

// Results.

/// Writes bits one after another in words of 64; ones that come together wait until others come.
struct BitWriter<'a> {
    bytes: &'a mut [u8],
    /// The bytes of the words that are written.
    written: usize,
    current: u64,
    /// The bits of the current word, at most 63.
    filled: usize,
    zeros: u64,
    waiting: usize,
}

impl<'a> BitWriter<'a> {
    fn new(bytes: &'a mut [u8]) -> Self {
        BitWriter { bytes, written: 0, current: 0, filled: 0, zeros: 0, waiting: 0 }
    }

    fn push_ones(&mut self, times: usize) {
        self.waiting += times;
    }

    /// Up to 64 bits, and zeros above them.
    fn push_bits(&mut self, bits: u64, count: usize) {
        if self.waiting > 0 {
            self.write_waiting();
        }
        self.zeros += count as u64 - u64::from(bits.count_ones());
        self.append(bits, count);
    }

    fn push_bit(&mut self, bit: bool) {
        if self.waiting > 0 {
            self.write_waiting();
        }
        self.zeros += u64::from(!bit);
        self.append(u64::from(bit), 1);
    }

    fn push_zeros(&mut self, times: usize) {
        for done in (0..times).step_by(64) {
            self.push_bits(0, (times - done).min(64));
        }
    }

    fn append(&mut self, bits: u64, count: usize) {
        self.current |= bits << self.filled;
        let filled = self.filled + count;
        if filled >= 64 {
            let word = &mut self.bytes[self.written..self.written + 8];
            word.copy_from_slice(&self.current.to_le_bytes());
            self.written += 8;
            self.current = bits.checked_shr(64 - self.filled as u32).unwrap_or(0);
        }
        self.filled = filled % 64;
    }

    fn write_waiting(&mut self) {
        let waiting = std::mem::take(&mut self.waiting);
        let first = waiting.min(64 - self.filled);
        self.append(ones(first), first);
        let whole = (waiting - first) / 64;
        self.bytes[self.written..self.written + 8 * whole].fill(0xff);
        self.written += 8 * whole;
        let last = (waiting - first) % 64;
        self.append(ones(last), last);
    }

    /// Ends the last word, and gives the number of zeros.
    fn finish(mut self) -> u64 {
        self.write_waiting();
        let last = self.filled.div_ceil(8);
        let rest = &mut self.bytes[self.written..self.written + last];
        rest.copy_from_slice(&self.current.to_le_bytes()[..last]);
        self.zeros
    }
}

/// Offsets from 0 and row bits, written row by row.
struct RowWriter<'a, O> {
    offsets: &'a mut [O],
    bits: BitWriter<'a>,
    rows: usize,
}

impl<'a, O: Offset> RowWriter<'a, O> {
    fn new(offsets: &'a mut [O], bits: &'a mut [u8]) -> Self {
        offsets[0] = O::of(0);
        RowWriter { offsets, bits: BitWriter::new(bits), rows: 0 }
    }

    fn push(&mut self, valid: bool, end: usize) {
        self.bits.push_bit(valid);
        self.rows += 1;
        self.offsets[self.rows] = O::of(end);
    }
}

/// Values and their bits, written element by element.
struct ElementWriter<'a, V> {
    values: &'a mut [V],
    bits: BitWriter<'a>,
    elements: usize,
}

impl<'a, V> ElementWriter<'a, V> {
    fn new(values: &'a mut [V], bits: &'a mut [u8]) -> Self {
        ElementWriter { values, bits: BitWriter::new(bits), elements: 0 }
    }
}

fn copy_each<'a, V: Copy + 'a>(slots: &mut [V], values: impl Iterator<Item = &'a V>) {
    slots.iter_mut().zip(values).for_each(|(slot, value)| *slot = *value);
}

/// Copies as many values as there are slots; few of them without a call, as two parts that may
/// overlap.
fn copy_run<V: Copy>(slots: &mut [V], values: &[V]) {
    fn both_ends<V: Copy, const N: usize>(slots: &mut [V], values: &[V]) {
        if let (Some(slots), Some(values)) = (slots.first_chunk_mut::<N>(), values.first_chunk()) {
            *slots = *values;
        }
        if let (Some(slots), Some(values)) = (slots.last_chunk_mut::<N>(), values.last_chunk()) {
            *slots = *values;
        }
    }
    match values.len() {
        0 => (),
        1 => both_ends::<V, 1>(slots, values),
        2..=3 => both_ends::<V, 2>(slots, values),
        4..=8 => both_ends::<V, 4>(slots, values),
        9..=16 => both_ends::<V, 8>(slots, values),
        _ => slots.copy_from_slice(values),
    }
}

/// Writes what null slots hold where the bits of these slots, at most 64, are 0.
fn write_nulls<V: Value>(slots: &mut [V], bits: u64) {
    let mut nulls = !bits & ones(slots.len());
    while nulls != 0 {
        slots[nulls.trailing_zeros() as usize] = V::NULL;
        nulls &= nulls - 1;
    }
}

impl<V: Value> Sink<V> for ElementWriter<'_, V> {
    #[inline(always)]
    fn run(&mut self, row: Row<V>, places: Range<usize>) {
        let next = self.elements + places.len();
        let slots = &mut self.values[self.elements..next];
        copy_run(slots, &row.values[places.clone()]);
        self.elements = next;
        if row.elements.is_empty() {
            return self.bits.push_ones(places.len());
        }
        let end = places.end;
        for (slots, place) in slots.chunks_mut(64).zip(places.step_by(64)) {
            let (bits, count) = row.bits(place, end);
            write_nulls(slots, bits);
            self.bits.push_bits(bits, count);
        }
    }

    fn reversed(&mut self, row: Row<V>) {
        let next = self.elements + row.len();
        let slots = &mut self.values[self.elements..next];
        copy_each(slots, row.values.iter().rev());
        self.elements = next;
        if row.elements.is_empty() {
            return self.bits.push_ones(row.len());
        }
        let mut end = row.len();
        for slots in slots.chunks_mut(64) {
            let (bits, count) = row.bits(end - slots.len(), end);
            let bits = bits.reverse_bits() >> (64 - count);
            write_nulls(slots, bits);
            self.bits.push_bits(bits, count);
            end -= count;
        }
    }

    fn strided(&mut self, row: Row<V>, start: usize, stride: i64, count: usize) {
        let next = self.elements + count;
        let slots = &mut self.values[self.elements..next];
        let step = stride.unsigned_abs() as usize;
        if stride > 0 {
            copy_each(slots, row.values[start..].iter().step_by(step));
        } else {
            copy_each(slots, row.values[..=start].iter().rev().step_by(step));
        }
        self.elements = next;
        if row.elements.is_empty() {
            return self.bits.push_ones(count);
        }
        let mut place = (row.start + start) as i64;
        for slots in slots.chunks_mut(64) {
            let mut bits = 0;
            for at in 0..slots.len() {
                bits |= u64::from(bit(row.elements, place as usize)) << at;
                place = place.wrapping_add(stride);
            }
            write_nulls(slots, bits);
            self.bits.push_bits(bits, slots.len());
        }
    }

    fn places(&mut self, row: Row<V>, places: impl Iterator<Item = usize>) {
        let slots = self.values[self.elements..].iter_mut().zip(places);
        let mut written = 0;
        if row.elements.is_empty() {
            for (slot, place) in slots {
                *slot = row.values[place];
                written += 1;
            }
            self.bits.push_ones(written);
        } else {
            let mut bits = 0;
            for (slot, place) in slots {
                let valid = row.is_valid(place);
                *slot = if valid { row.values[place] } else { V::NULL };
                bits |= u64::from(valid) << (written % 64);
                written += 1;
                if written % 64 == 0 {
                    self.bits.push_bits(std::mem::take(&mut bits), 64);
                }
            }
            self.bits.push_bits(bits, written % 64);
        }
        self.elements += written;
    }

    fn fill(&mut self, element: Option<V>, times: usize) {
        let end = self.elements + times;
        self.values[self.elements..end].fill(element.unwrap_or(V::NULL));
        match element {
            Some(_) => self.bits.push_ones(times),
            None => self.bits.push_zeros(times),
        }
        self.elements = end;
    }
}

/// The room for a list answer.
pub struct Lists<'a, O, V> {
    pub offsets: &'a mut [O],
    pub rows: &'a mut [u8],
    pub values: &'a mut [V],
    pub elements: &'a mut [u8],
}

/// The room for the outer rows of a list-of-lists answer.
pub struct Outer<'a, O> {
    pub offsets: &'a mut [O],
    pub rows: &'a mut [u8],
}

/// Whether offsets and row bits, or values and element bits, are long enough.
fn rows_fit<O>(offsets: &[O], bits: &[u8], rows: usize) -> bool {
    rows < offsets.len() && rows.div_ceil(8) <= bits.len()
}

fn elements_fit<V>(values: &[V], bits: &[u8], elements: usize) -> bool {
    elements <= values.len() && elements.div_ceil(8) <= bits.len()
}

/// Writes the rows that a list operation makes, and gives the counts or the refusal.
pub fn write_lists<O: Offset, V: Value>(
    call: &Call<O, V>,
    room: Lists<O, V>,
) -> Result<[u64; 4], u32> {
    call.refusal().map_or(Ok(()), Err)?;
    write_rows(call, room)
}

/// The same for columns that are not refused; the operation is chosen once for all rows.
fn write_rows<O: Offset, V: Value>(call: &Call<O, V>, room: Lists<O, V>) -> Result<[u64; 4], u32> {
    macro_rules! by_code {
        ($($code:ident)+) => {
            match call.code {
                $($code => write_rows_of::<$code, O, V>(call, room),)+
                _ => unreachable!("a code that no entry lets through"),
            }
        };
    }
    by_code! {
        COPY REVERSE DISTINCT DISTINCT_BY_SET POP_FRONT POP_BACK SLICE SLICE_WITHOUT_STRIDE
        RESIZE RESIZE_WITHOUT_FILL REPLACE REMOVE UNION INTERSECT
    }
}

/// How many elements the rows of a list operation have, whose columns are not refused.
fn count_elements<O: Offset, V: Value>(call: &Call<O, V>) -> Result<usize, u32> {
    macro_rules! by_code {
        ($($code:ident)+) => {
            match call.code {
                $($code => call.elements::<$code>(),)+
                _ => unreachable!("a code that no entry lets through"),
            }
        };
    }
    by_code! {
        REVERSE DISTINCT POP_FRONT POP_BACK SLICE SLICE_WITHOUT_STRIDE RESIZE RESIZE_WITHOUT_FILL
        REPLACE REMOVE UNION INTERSECT
    }
}

fn write_rows_of<const CODE: u32, O: Offset, V: Value>(
    call: &Call<O, V>,
    room: Lists<O, V>,
) -> Result<[u64; 4], u32> {
    let rows = call.list.row_count();
    let elements = call.elements::<CODE>()?;
    if !rows_fit(room.offsets, room.rows, rows)
        || !elements_fit(room.values, room.elements, elements)
    {
        return Err(9);
    }
    let mut row_writer = RowWriter::new(room.offsets, room.rows);
    let mut element_writer = ElementWriter::new(&mut room.values[..elements], room.elements);
    for row in 0..rows {
        let valid = call.make::<CODE>(row, &mut element_writer).is_some();
        row_writer.push(valid, element_writer.elements);
    }
    let (null_rows, null_elements) = (row_writer.bits.finish(), element_writer.bits.finish());
    Ok([rows as u64, elements as u64, null_rows, null_elements])
}

/// Writes one value a row, and gives the counts or the refusal.
fn write_values<V: Value>(
    rows: usize,
    value: impl Fn(usize) -> Option<V>,
    out_values: &mut [V],
    out_rows: &mut [u8],
) -> Result<[u64; 2], u32> {
    if !elements_fit(out_values, out_rows, rows) {
        return Err(9);
    }
    let mut bits = BitWriter::new(out_rows);
    for (row, slot) in out_values[..rows].iter_mut().enumerate() {
        let value = value(row);
        *slot = value.unwrap_or(V::NULL);
        bits.push_bit(value.is_some());
    }
    Ok([rows as u64, bits.finish()])
}

fn check_column<O: Offset, V: Value>(column: Column<O, V>) -> Result<(), u32> {
    if column.bad_start() {
        return Err(13);
    }
    if column.bad_offsets() {
        return Err(1);
    }
    if column.short_bitmap() {
        return Err(2);
    }
    Ok(())
}

/// A list beside an argument column of one value a row.
fn check_beside<O: Offset, V: Value>(
    column: Column<O, V>,
    argument: Argument<V>,
) -> Result<(), u32> {
    if column.bad_start() || argument.bad_start() {
        return Err(13);
    }
    if column.bad_offsets() {
        return Err(1);
    }
    if column.short_bitmap() || argument.short_bitmap() {
        return Err(2);
    }
    if argument.values.len() != column.row_count() {
        return Err(3);
    }
    Ok(())
}

/// The first valid element of each row.
pub fn write_any_values<O: Offset, V: Value>(
    column: Column<O, V>,
    out_values: &mut [V],
    out_rows: &mut [u8],
) -> Result<[u64; 2], u32> {
    check_column(column)?;
    let value = |at| column.row(at)?.first_valid();
    write_values(column.row_count(), value, out_values, out_rows)
}

/// The place that an index names in a row of this length.
fn place_of(length: usize, index: i64) -> Option<usize> {
    let distance = index.unsigned_abs() as usize;
    if index == 0 || distance > length {
        None
    } else if index > 0 {
        Some(distance - 1)
    } else {
        Some(length - distance)
    }
}

fn check_indexes<O: Offset, V: Value>(
    column: Column<O, V>,
    indexes: Argument<V>,
) -> Result<(), u32> {
    check_beside(column, indexes)?;
    let both_valid = |row: usize| column.is_valid(row) && indexes.is_valid(row);
    let fits = |row: usize| O::fits(indexes.values[row].number());
    if (0..column.row_count()).any(|row| both_valid(row) && !fits(row)) {
        return Err(4);
    }
    Ok(())
}

/// The element of each row that its index names.
pub fn write_elements<O: Offset, V: Value>(
    column: Column<O, V>,
    indexes: Argument<V>,
    out_values: &mut [V],
    out_rows: &mut [u8],
) -> Result<[u64; 2], u32> {
    check_indexes(column, indexes)?;
    let rows = column.row_count();
    let value = |at| {
        let row = column.row(at)?;
        row.element(place_of(row.len(), indexes.number(at)?)?)
    };
    write_values(rows, value, out_values, out_rows)
}

/// How often a list is repeated, or None for a null count.
fn repeat_count<V: Value>(times: Argument<V>, row: usize) -> Option<u64> {
    times.number(row).map(|times| times.max(0) as u64)
}

/// The lists in all outer rows, and the values in them; each stops at its largest value.
fn repeated<O: Offset, V: Value>(column: Column<O, V>, times: Argument<V>) -> (u64, u64) {
    let (mut inner_rows, mut elements) = (0u64, 0u64);
    for row in 0..column.row_count() {
        let times = repeat_count(times, row).unwrap_or(0);
        let length = column.row(row).map_or(0, |row| row.len() as u64);
        inner_rows = inner_rows.saturating_add(times);
        elements = elements.saturating_add(times.saturating_mul(length));
    }
    (inner_rows, elements)
}

fn check_repeated<O: Offset, V: Value>(
    column: Column<O, V>,
    times: Argument<V>,
) -> Result<(u64, u64), u32> {
    check_beside(column, times)?;
    let (inner_rows, elements) = repeated(column, times);
    if inner_rows > O::MOST_OUTER || elements > O::MOST_ELEMENTS {
        return Err(8);
    }
    Ok((inner_rows, elements))
}

/// Each list as many times as its count says, as the lists of an outer row.
pub fn write_repeated<O: Offset, V: Value>(
    column: Column<O, V>,
    times: Argument<V>,
    outer: Outer<O>,
    inner: Lists<O, V>,
) -> Result<[u64; 6], u32> {
    let (inner_rows, elements) = check_repeated(column, times)?;
    let rows = column.row_count();
    if !rows_fit(outer.offsets, outer.rows, rows)
        || !rows_fit(inner.offsets, inner.rows, inner_rows as usize)
        || !elements_fit(inner.values, inner.elements, elements as usize)
    {
        return Err(9);
    }
    let mut outer = RowWriter::new(outer.offsets, outer.rows);
    let mut lists = RowWriter::new(inner.offsets, inner.rows);
    let slots = &mut inner.values[..elements as usize];
    let mut element_writer = ElementWriter::new(slots, inner.elements);
    for at in 0..rows {
        let times = repeat_count(times, at);
        let row = column.row(at);
        for _ in 0..times.unwrap_or(0) {
            if let Some(row) = row {
                element_writer.run(row, 0..row.len());
            }
            lists.push(row.is_some(), element_writer.elements);
        }
        outer.push(times.is_some(), lists.rows);
    }
    let null_rows = outer.bits.finish();
    let (null_inner_rows, null_elements) = (lists.bits.finish(), element_writer.bits.finish());
    Ok([rows as u64, elements, null_rows, null_elements, inner_rows, null_inner_rows])
}

// What an entry itself refuses, by the sizes of its slices.

pub const MOST_OFFSETS: usize = 4097;
pub const MOST_INNER_OFFSETS: usize = 16385;
pub const MOST_VALUES: usize = 16384;
pub const MOST_ROWS: usize = 4096;

/// A slice of numbers: its bytes, the bytes of a slot and the most slots.
type Numbers = (usize, usize, usize);

fn offsets_of(bytes: &[u8]) -> Numbers {
    (bytes.len(), 4, MOST_OFFSETS)
}

fn inner_offsets_of(bytes: &[u8]) -> Numbers {
    (bytes.len(), 4, MOST_INNER_OFFSETS)
}

fn values_of(bytes: &[u8]) -> Numbers {
    (bytes.len(), 8, MOST_VALUES)
}

fn row_values_of(bytes: &[u8]) -> Numbers {
    (bytes.len(), 8, MOST_ROWS)
}

/// From the slices of numbers, the bytes of the counts and those that are needed.
fn check_sizes(numbers: &[Numbers], counts: &[u8], needed: usize) -> Result<(), u32> {
    if numbers.iter().any(|(bytes, width, _)| bytes % width != 0) || counts.len() < needed {
        Err(100)
    } else if numbers.iter().any(|(bytes, width, most)| bytes / width > *most) {
        Err(101)
    } else {
        Ok(())
    }
}

type Inputs<'a, 'b, const N: usize> = &'a [&'b [u8]; N];
type Outputs<'a, 'b, const N: usize> = &'a [&'b mut [u8]; N];

pub fn check_list(
    code: u32,
    inputs: Inputs<4>,
    outputs: Outputs<4>,
    counts: &[u8],
) -> Result<(), u32> {
    if code > POP_BACK {
        return Err(102);
    }
    let numbers = [
        offsets_of(inputs[0]),
        values_of(inputs[2]),
        offsets_of(outputs[0]),
        values_of(outputs[2]),
    ];
    check_sizes(&numbers, counts, 32)
}

pub fn check_lists(
    code: u32,
    inputs: Inputs<8>,
    outputs: Outputs<4>,
    counts: &[u8],
) -> Result<(), u32> {
    if code != UNION && code != INTERSECT {
        return Err(102);
    }
    let numbers = [
        offsets_of(inputs[0]),
        values_of(inputs[2]),
        offsets_of(inputs[4]),
        values_of(inputs[6]),
        offsets_of(outputs[0]),
        values_of(outputs[2]),
    ];
    check_sizes(&numbers, counts, 32)
}

/// Gives the number of argument columns that the operation takes.
pub fn check_list_with(
    code: u32,
    inputs: Inputs<10>,
    outputs: Outputs<4>,
    counts: &[u8],
) -> Result<usize, u32> {
    let taken = match code {
        SLICE | REPLACE => 3,
        SLICE_WITHOUT_STRIDE | RESIZE | REMOVE => 2,
        RESIZE_WITHOUT_FILL => 1,
        _ => return Err(102),
    };
    let numbers = [
        offsets_of(inputs[0]),
        values_of(inputs[2]),
        row_values_of(inputs[4]),
        row_values_of(inputs[6]),
        row_values_of(inputs[8]),
        offsets_of(outputs[0]),
        values_of(outputs[2]),
    ];
    check_sizes(&numbers, counts, 32).map(|()| taken)
}

pub fn check_any_value(inputs: Inputs<4>, outputs: Outputs<2>, counts: &[u8]) -> Result<(), u32> {
    let numbers = [offsets_of(inputs[0]), values_of(inputs[2]), row_values_of(outputs[0])];
    check_sizes(&numbers, counts, 16)
}

pub fn check_element(inputs: Inputs<6>, outputs: Outputs<2>, counts: &[u8]) -> Result<(), u32> {
    let numbers = [
        offsets_of(inputs[0]),
        values_of(inputs[2]),
        row_values_of(inputs[4]),
        row_values_of(outputs[0]),
    ];
    check_sizes(&numbers, counts, 16)
}

pub fn check_list_repeat(inputs: Inputs<6>, outputs: Outputs<6>, counts: &[u8]) -> Result<(), u32> {
    let numbers = [
        offsets_of(inputs[0]),
        values_of(inputs[2]),
        row_values_of(inputs[4]),
        offsets_of(outputs[0]),
        inner_offsets_of(outputs[2]),
        values_of(outputs[4]),
    ];
    check_sizes(&numbers, counts, 48)
}

// Entries.

/// What an entry returns: 0, the counts being written, or a refusal.
pub fn answer<const N: usize>(result: Result<[u64; N], u32>, counts: &mut [u8]) -> u32 {
    match result {
        Ok(numbers) => {
            for (slot, number) in counts.as_chunks_mut().0.iter_mut().zip(numbers) {
                *slot = number.to_le_bytes();
            }
            0
        }
        Err(number) => number,
    }
}

fn lists_in_place<'a>(
    [offsets, rows, values, elements]: [&'a mut [u8]; 4],
) -> Lists<'a, Bytes4, Bytes8> {
    let (offsets, values) = (offsets.as_chunks_mut().0, values.as_chunks_mut().0);
    Lists { offsets, rows, values, elements }
}

pub fn list(
    code: u32,
    inputs: [&[u8]; 4],
    starts: [u32; 2],
    outputs: [&mut [u8]; 4],
    counts: &mut [u8],
) -> u32 {
    let result = check_list(code, &inputs, &outputs, counts).and_then(|()| {
        let list = Column::in_place(inputs, starts);
        let call = Call { code, list, right: None, arguments: &[] };
        write_lists(&call, lists_in_place(outputs))
    });
    answer(result, counts)
}

pub fn lists(
    code: u32,
    inputs: [&[u8]; 8],
    [s0, s1, s2, s3]: [u32; 4],
    outputs: [&mut [u8]; 4],
    counts: &mut [u8],
) -> u32 {
    let result = check_lists(code, &inputs, &outputs, counts).and_then(|()| {
        let [l0, l1, l2, l3, r0, r1, r2, r3] = inputs;
        let list = Column::in_place([l0, l1, l2, l3], [s0, s1]);
        let right = Some(Column::in_place([r0, r1, r2, r3], [s2, s3]));
        write_lists(&Call { code, list, right, arguments: &[] }, lists_in_place(outputs))
    });
    answer(result, counts)
}

pub fn list_with(
    code: u32,
    inputs: [&[u8]; 10],
    [s0, s1, s2, s3, s4]: [u32; 5],
    outputs: [&mut [u8]; 4],
    counts: &mut [u8],
) -> u32 {
    let result = check_list_with(code, &inputs, &outputs, counts).and_then(|taken| {
        let [offsets, rows, values, elements, first, b1, second, b2, third, b3] = inputs;
        let list = Column::in_place([offsets, rows, values, elements], [s0, s1]);
        let arguments = [([first, b1], s2), ([second, b2], s3), ([third, b3], s4)];
        let arguments = arguments.map(|(slices, start)| Argument::in_place(slices, start));
        let arguments = &arguments[..taken];
        write_lists(&Call { code, list, right: None, arguments }, lists_in_place(outputs))
    });
    answer(result, counts)
}

pub fn any_value(
    inputs: [&[u8]; 4],
    starts: [u32; 2],
    outputs: [&mut [u8]; 2],
    counts: &mut [u8],
) -> u32 {
    let result = check_any_value(&inputs, &outputs, counts).and_then(|()| {
        let [values, rows] = outputs;
        write_any_values(Column::in_place(inputs, starts), values.as_chunks_mut().0, rows)
    });
    answer(result, counts)
}

pub fn element(
    inputs: [&[u8]; 6],
    [s0, s1, s2]: [u32; 3],
    outputs: [&mut [u8]; 2],
    counts: &mut [u8],
) -> u32 {
    let result = check_element(&inputs, &outputs, counts).and_then(|()| {
        let [offsets, rows, values, elements, indexes, index_bits] = inputs;
        let column = Column::in_place([offsets, rows, values, elements], [s0, s1]);
        let indexes = Argument::in_place([indexes, index_bits], s2);
        let [values, rows] = outputs;
        write_elements(column, indexes, values.as_chunks_mut().0, rows)
    });
    answer(result, counts)
}

pub fn list_repeat(
    inputs: [&[u8]; 6],
    [s0, s1, s2]: [u32; 3],
    outputs: [&mut [u8]; 6],
    counts: &mut [u8],
) -> u32 {
    let result = check_list_repeat(&inputs, &outputs, counts).and_then(|()| {
        let [offsets, rows, values, elements, times, times_bits] = inputs;
        let column = Column::in_place([offsets, rows, values, elements], [s0, s1]);
        let times = Argument::in_place([times, times_bits], s2);
        let [offsets, rows, inner_offsets, inner_rows, values, elements] = outputs;
        let outer = Outer { offsets: offsets.as_chunks_mut().0, rows };
        let inner = lists_in_place([inner_offsets, inner_rows, values, elements]);
        write_repeated(column, times, outer, inner)
    });
    answer(result, counts)
}

// Recipes.

/// How many argument columns a code takes, if there is such a code.
fn columns_taken(code: u32) -> Option<usize> {
    match code {
        REVERSE | DISTINCT | POP_FRONT | POP_BACK | UNION | INTERSECT => Some(0),
        SLICE | REPLACE => Some(3),
        SLICE_WITHOUT_STRIDE | RESIZE | REMOVE => Some(2),
        _ => None,
    }
}

fn step_numbers(step: &[Bytes4; 4]) -> [u32; 4] {
    step.map(u32::from_le_bytes)
}

fn is_malformed_step(step: &[Bytes4; 4], columns: usize) -> bool {
    let [code, numbers @ ..] = step_numbers(step);
    let Some(taken) = columns_taken(code) else {
        return true;
    };
    let (used, unused) = numbers.split_at(taken);
    used.iter().any(|number| *number as usize >= columns)
        || unused.iter().any(|number| *number != 0)
}

/// The lists and the argument columns of a recipe, of which the latter lie in one slice.
pub struct RecipeColumns<'a, O, V> {
    pub list: Column<'a, O, V>,
    pub second: Column<'a, O, V>,
    pub arguments: Argument<'a, V>,
}

impl<'a, O: Offset, V: Value> RecipeColumns<'a, O, V> {
    fn refusal(&self, columns: usize) -> Option<u32> {
        let RecipeColumns { list, second, arguments } = self;
        if list.bad_start() || second.bad_start() || arguments.bad_start() {
            Some(13)
        } else if list.bad_offsets() || second.bad_offsets() {
            Some(1)
        } else if list.short_bitmap() || second.short_bitmap() || arguments.short_bitmap() {
            Some(2)
        } else if second.row_count() != list.row_count()
            || arguments.values.len() != columns * list.row_count()
        {
            Some(3)
        } else {
            None
        }
    }

    fn argument(&self, number: u32) -> Argument<'a, V> {
        let rows = self.list.row_count();
        let place = number as usize * rows;
        let Argument { values, bits, start } = self.arguments;
        Argument { values: &values[place..place + rows], bits, start: start + place }
    }

    /// Does a step on the carried rows; an unused number is 0, and its column is not looked at.
    fn step(
        &self,
        step: &[Bytes4; 4],
        list: Column<O, V>,
        target: Lists<O, V>,
    ) -> Result<[u64; 4], u32> {
        let [code, numbers @ ..] = step_numbers(step);
        let taken = columns_taken(code).unwrap_or(0);
        let mut arguments = [Argument { values: &[], bits: &[], start: 0 }; 3];
        for (argument, number) in arguments.iter_mut().zip(&numbers[..taken]) {
            *argument = self.argument(*number);
        }
        let arguments = &arguments[..taken];
        write_rows(&Call { code, list, right: Some(self.second), arguments }, target)
    }

    /// The rows that the step before left in a tray.
    fn in_tray<'b>(&self, tray: &'b Lists<O, V>) -> Column<'b, O, V> {
        let offsets = &tray.offsets[..=self.list.row_count()];
        let Lists { rows, values, elements, .. } = tray;
        Column { offsets, rows, rows_start: 0, values, elements, elements_start: 0 }
    }
}

fn reborrow<'a, O, V>(tray: &'a mut Lists<O, V>) -> Lists<'a, O, V> {
    let Lists { offsets, rows, values, elements } = tray;
    Lists { offsets, rows, values, elements }
}

/// Goes through the steps; the last one writes the output.
fn run_steps<O: Offset, V: Value>(
    columns: &RecipeColumns<O, V>,
    steps: &[[Bytes4; 4]],
    [mut one, mut two]: [Lists<O, V>; 2],
    output: Lists<O, V>,
) -> Result<[u64; 4], u32> {
    let Some((last, others)) = steps.split_last() else {
        let copy = Call { code: COPY, list: columns.list, right: None, arguments: &[] };
        return write_rows(&copy, output);
    };
    for (at, step) in others.iter().enumerate() {
        match at {
            0 => columns.step(step, columns.list, reborrow(&mut one))?,
            _ if at % 2 == 0 => columns.step(step, columns.in_tray(&two), reborrow(&mut one))?,
            _ => columns.step(step, columns.in_tray(&one), reborrow(&mut two))?,
        };
    }
    let list = match others.len() {
        0 => columns.list,
        done if done % 2 == 0 => columns.in_tray(&two),
        _ => columns.in_tray(&one),
    };
    columns.step(last, list, output)
}

/// The whole recipe but for the answers of the entry, the trays' zeros and the tally.
pub fn run_recipe<O: Offset, V: Value>(
    columns: usize,
    numbers: &[u8],
    lent: &RecipeColumns<O, V>,
    trays: [Lists<O, V>; 2],
    output: Lists<O, V>,
) -> Result<[u64; 4], u32> {
    let steps = check_steps(columns, numbers, lent)?;
    run_steps(lent, steps, trays, output)
}

/// The steps of a recipe that is not refused before them.
fn check_steps<'a, O: Offset, V: Value>(
    columns: usize,
    numbers: &'a [u8],
    lent: &RecipeColumns<O, V>,
) -> Result<&'a [[Bytes4; 4]], u32> {
    let numbers: &[Bytes4] = numbers.as_chunks().0;
    let (steps, rest) = numbers.as_chunks();
    let malformed = |step: &[Bytes4; 4]| is_malformed_step(step, columns);
    if !rest.is_empty() || steps.len() > 32 || columns > 8 || steps.iter().any(malformed) {
        return Err(10);
    }
    lent.refusal(columns).map_or(Ok(()), Err)?;
    Ok(steps)
}

pub const MOST_ARGUMENTS: usize = 32768;

pub fn check_recipe(inputs: Inputs<11>, outputs: Outputs<13>, counts: &[u8]) -> Result<(), u32> {
    let numbers = [
        (inputs[0].len(), 4, usize::MAX),
        offsets_of(inputs[1]),
        values_of(inputs[3]),
        offsets_of(inputs[5]),
        values_of(inputs[7]),
        (inputs[9].len(), 8, MOST_ARGUMENTS),
        offsets_of(outputs[0]),
        values_of(outputs[2]),
        offsets_of(outputs[4]),
        values_of(outputs[6]),
        offsets_of(outputs[8]),
        values_of(outputs[10]),
    ];
    if outputs[12].len() < 256 {
        return Err(100);
    }
    check_sizes(&numbers, counts, 32)
}

/// Sixteen counts finished, then sixteen refused.
fn add_to_tally(tally: &mut [u8], station: u32, finished: bool) {
    let at = station as usize + if finished { 0 } else { 16 };
    let count = &mut tally.as_chunks_mut::<8>().0[at];
    *count = u64::from_le_bytes(*count).saturating_add(1).to_le_bytes();
}

/// A recipe as its entry answers it, given what runs it on the trays and the output.
pub fn recipe_by(
    station: u32,
    inputs: [&[u8]; 11],
    mut outputs: [&mut [u8]; 13],
    counts: &mut [u8],
    run: impl FnOnce([&[u8]; 11], [&mut [u8]; 12]) -> Result<[u64; 4], u32>,
) -> u32 {
    let checked = check_recipe(&inputs, &outputs, counts);
    let [written @ .., tally] = &mut outputs;
    let result = checked.and_then(|()| {
        if station > 15 {
            return Err(15);
        }
        let result = run(inputs, written.each_mut().map(|slice| &mut **slice));
        add_to_tally(tally, station, result.is_ok());
        result
    });
    outputs[..8].iter_mut().for_each(|slice| slice.fill(0));
    answer(result, counts)
}

pub fn recipe(
    station: u32,
    columns: u32,
    inputs: [&[u8]; 11],
    [b0, b1, b2, b3, b4]: [u32; 5],
    outputs: [&mut [u8]; 13],
    counts: &mut [u8],
) -> u32 {
    recipe_by(station, inputs, outputs, counts, |inputs, outputs| {
        let [numbers, l0, l1, l2, l3, s0, s1, s2, s3, arguments, argument_bits] = inputs;
        let [o0, o1, o2, o3, t0, t1, t2, t3, r0, r1, r2, r3] = outputs;
        let lent = RecipeColumns {
            list: Column::in_place([l0, l1, l2, l3], [b0, b1]),
            second: Column::in_place([s0, s1, s2, s3], [b2, b3]),
            arguments: Argument::in_place([arguments, argument_bits], b4),
        };
        let trays = [[o0, o1, o2, o3], [t0, t1, t2, t3]].map(lists_in_place);
        let output = lists_in_place([r0, r1, r2, r3]);
        run_recipe(columns as usize, numbers, &lent, trays, output)
    })
}

// Typed entries.

/// Those of one width.
pub const fn typed<O: Offset + Number>() -> Typed<O> {
    Typed {
        list: typed_list,
        lists: typed_lists,
        any_value: typed_any_value,
        element: typed_element,
        list_repeat: typed_list_repeat,
        recipe: typed_recipe,
        lending: Lending {
            list: list_lengths,
            lists: lists_lengths,
            any_value: any_value_lengths,
            element: element_lengths,
            list_repeat: list_repeat_lengths,
            limits: recipe_limits,
        },
    }
}

/// A typed entry's only number of its own.
const NOT_SERVED: u32 = 100;

/// What a typed entry returns: 0, the counts being written, or a refusal; 100 before all else where
/// the counts are too few.
fn tell<const N: usize>(counts: &mut [u64], result: impl FnOnce() -> Result<[u64; N], u32>) -> u32 {
    let Some(places) = counts.first_chunk_mut() else {
        return NOT_SERVED;
    };
    match result() {
        Ok(numbers) => {
            *places = numbers;
            0
        }
        Err(number) => number,
    }
}

fn typed_list<O: Offset>(
    code: u32,
    list: List<O>,
    arguments: [Values; 3],
    room: Room<O>,
    counts: &mut [u64],
) -> u32 {
    let Some(taken) = columns_taken_by_list(code) else {
        return NOT_SERVED;
    };
    let call = Call { code, list, right: None, arguments: &arguments[..taken] };
    tell(counts, || write_lists(&call, room))
}

/// How many argument columns a code of the entry for one list takes, if that serves it.
fn columns_taken_by_list(code: u32) -> Option<usize> {
    match code {
        RESIZE_WITHOUT_FILL => Some(1),
        UNION | INTERSECT => None,
        _ => columns_taken(code),
    }
}

/// Distinct with a set on the heap, for the benchmark.
pub fn typed_distinct_by_set<O: Offset>(
    _: u32,
    list: List<O>,
    _: [Values; 3],
    room: Room<O>,
    counts: &mut [u64],
) -> u32 {
    let call = Call { code: DISTINCT_BY_SET, list, right: None, arguments: &[] };
    tell(counts, || write_lists(&call, room))
}

fn typed_lists<O: Offset>(
    code: u32,
    [list, right]: [List<O>; 2],
    room: Room<O>,
    counts: &mut [u64],
) -> u32 {
    if code != UNION && code != INTERSECT {
        return NOT_SERVED;
    }
    let call = Call { code, list, right: Some(right), arguments: &[] };
    tell(counts, || write_lists(&call, room))
}

fn typed_any_value<O: Offset>(
    list: List<O>,
    values: &mut [i64],
    rows: &mut [u8],
    counts: &mut [u64],
) -> u32 {
    tell(counts, || write_any_values(list, values, rows))
}

fn typed_element<O: Offset>(
    list: List<O>,
    indexes: Values,
    values: &mut [i64],
    rows: &mut [u8],
    counts: &mut [u64],
) -> u32 {
    tell(counts, || write_elements(list, indexes, values, rows))
}

fn typed_list_repeat<O: Offset>(
    list: List<O>,
    times: Values,
    outer: OuterRoom<O>,
    inner: Room<O>,
    counts: &mut [u64],
) -> u32 {
    tell(counts, || write_repeated(list, times, outer, inner))
}

fn typed_recipe<O: Offset>(
    recipe: Recipe<O>,
    [mut one, mut two, output]: [Room<O>; 3],
    counts: &mut [u64],
    tally: &mut [u64],
) -> u32 {
    let Recipe { station, numbers, columns, lists: [list, second], arguments } = recipe;
    let result = if tally.len() < 32 {
        NOT_SERVED
    } else {
        tell(counts, || {
            if station > 15 {
                return Err(15);
            }
            let lent = RecipeColumns { list, second, arguments };
            let trays = [reborrow(&mut one), reborrow(&mut two)];
            let result = run_recipe(columns, bytes_of(numbers), &lent, trays, output);
            let count = &mut tally[station as usize + if result.is_ok() { 0 } else { 16 }];
            *count = count.saturating_add(1);
            result
        })
    };
    clear([one, two]);
    result
}

fn clear<O: Offset>(trays: [Room<O>; 2]) {
    for Lists { offsets, rows, values, elements } in trays {
        offsets.fill(O::of(0));
        rows.fill(0);
        values.fill(0);
        elements.fill(0);
    }
}

// How much to lend.

fn row_slots(rows: u64) -> [u64; 2] {
    [rows + 1, rows.div_ceil(8)]
}

fn element_slots(elements: u64) -> [u64; 2] {
    [elements, elements.div_ceil(8)]
}

fn list_slots<O: Offset>(call: &Call<O, i64>) -> Result<[u64; 4], u32> {
    call.refusal().map_or(Ok(()), Err)?;
    let [offsets, rows] = row_slots(call.list.row_count() as u64);
    let [values, elements] = element_slots(count_elements(call)? as u64);
    Ok([offsets, rows, values, elements])
}

fn list_lengths<O: Offset>(
    code: u32,
    list: List<O>,
    arguments: [Values; 3],
    lengths: &mut [u64],
) -> u32 {
    let Some(taken) = columns_taken_by_list(code) else {
        return NOT_SERVED;
    };
    let call = Call { code, list, right: None, arguments: &arguments[..taken] };
    tell(lengths, || list_slots(&call))
}

fn lists_lengths<O: Offset>(code: u32, [list, right]: [List<O>; 2], lengths: &mut [u64]) -> u32 {
    if code != UNION && code != INTERSECT {
        return NOT_SERVED;
    }
    tell(lengths, || list_slots(&Call { code, list, right: Some(right), arguments: &[] }))
}

fn any_value_lengths<O: Offset>(list: List<O>, lengths: &mut [u64]) -> u32 {
    tell(lengths, || check_column(list).map(|()| element_slots(list.row_count() as u64)))
}

fn element_lengths<O: Offset>(list: List<O>, indexes: Values, lengths: &mut [u64]) -> u32 {
    tell(lengths, || check_indexes(list, indexes).map(|()| element_slots(list.row_count() as u64)))
}

fn list_repeat_lengths<O: Offset>(list: List<O>, times: Values, lengths: &mut [u64]) -> u32 {
    tell(lengths, || {
        let (inner_rows, elements) = check_repeated(list, times)?;
        let [offsets, rows] = row_slots(list.row_count() as u64);
        let [inner_offsets, inner_rows] = row_slots(inner_rows);
        let [values, elements] = element_slots(elements);
        Ok([offsets, rows, inner_offsets, inner_rows, values, elements])
    })
}

impl<O: Offset> RecipeColumns<'_, O, i64> {
    /// Whatever the levels are, no step has more elements; each limit stops at the most.
    fn limits(&self, steps: &[[Bytes4; 4]]) -> [u64; 3] {
        let mut limit = elements_shown(self.list);
        let mut limits = [0, 0, if steps.is_empty() { limit } else { 0 }];
        for (at, step) in steps.iter().enumerate() {
            let [code, count, ..] = step_numbers(step);
            limit = match code {
                RESIZE => self.resized_at_most(self.argument(count)),
                UNION => (limit + elements_shown(self.second)).min(O::LARGEST),
                _ => limit,
            };
            let written = &mut limits[if at + 1 == steps.len() { 2 } else { at % 2 }];
            *written = limit.max(*written);
        }
        limits
    }

    fn resized_at_most(&self, counts: Values) -> u64 {
        let rows = (0..self.list.row_count()).filter(|row| self.list.is_valid(*row));
        let counts = rows.filter_map(|row| counts.number(row));
        let sum = counts.fold(0u64, |sum, count| sum.saturating_add(count.max(0) as u64));
        sum.min(O::LARGEST)
    }
}

fn elements_shown<O: Offset>(column: List<O>) -> u64 {
    let rows = (0..column.row_count()).filter_map(|row| column.row(row));
    rows.map(|row| row.len() as u64).sum::<u64>().min(O::LARGEST)
}

fn recipe_limits<O: Offset>(recipe: Recipe<O>, limits: &mut [u64]) -> u32 {
    let Recipe { numbers, columns, lists: [list, second], arguments, .. } = recipe;
    tell(limits, || {
        let lent = RecipeColumns { list, second, arguments };
        let steps = check_steps(columns, bytes_of(numbers), &lent)?;
        Ok(lent.limits(steps))
    })
}

// ListView columns.

pub const VIEWS: Views = Views { import: import_view, export: export_view };

impl<'a> View<'a> {
    fn is_valid(&self, row: usize) -> bool {
        bit(self.rows, self.rows_start + row)
    }

    fn sizes(&self) -> impl Iterator<Item = usize> + use<'a, '_> {
        let valid = self.sizes.iter().enumerate().filter(|(row, _)| self.is_valid(*row));
        valid.map(|(_, size)| *size as usize)
    }

    fn row(&self, row: usize) -> Option<Row<'a, i64>> {
        self.is_valid(row).then(|| {
            let (start, size) = (self.offsets[row] as usize, self.sizes[row] as usize);
            let values = &self.values[start..start + size];
            Row { values, elements: self.elements, start: self.elements_start + start }
        })
    }

    /// How many elements are copied, if the column is not refused.
    fn check(&self) -> Result<usize, u32> {
        let rows = self.offsets.len();
        if self.rows_start > 7 || self.elements_start > 7 {
            return Err(13);
        }
        if too_short(self.rows, self.rows_start, rows)
            || too_short(self.elements, self.elements_start, self.values.len())
        {
            return Err(2);
        }
        if rows != self.sizes.len() {
            return Err(3);
        }
        // No early end, so that many are compared at a time; what is negative is far outside.
        let number = |number: &i32| i64::from(*number) as u64;
        let mut end = 0;
        for (offset, size) in self.offsets.iter().zip(self.sizes) {
            let (offset, size) = (number(offset), number(size));
            end = end.max(offset).max(size).max(offset.wrapping_add(size));
        }
        if end > self.values.len() as u64 {
            return Err(11);
        }
        let elements = self.sizes().sum();
        if elements as u64 > i32::LARGEST {
            return Err(8);
        }
        Ok(elements)
    }
}

fn import_view(view: View, room: Room<i32>, counts: &mut [u64]) -> u32 {
    tell(counts, || {
        let (rows, elements) = (view.offsets.len(), view.check()?);
        if !rows_fit(room.offsets, room.rows, rows)
            || !elements_fit(room.values, room.elements, elements)
        {
            return Err(9);
        }
        let mut row_writer = RowWriter::new(room.offsets, room.rows);
        let mut element_writer = ElementWriter::new(&mut room.values[..elements], room.elements);
        for row in 0..rows {
            let row = view.row(row);
            row.inspect(|row| element_writer.run(*row, 0..row.len()));
            row_writer.push(row.is_some(), element_writer.elements);
        }
        let (null_rows, null_elements) = (row_writer.bits.finish(), element_writer.bits.finish());
        Ok([rows as u64, elements as u64, null_rows, null_elements])
    })
}

fn export_view(list: List<i32>, room: ViewRoom, counts: &mut [u64]) -> u32 {
    tell(counts, || {
        check_column(list)?;
        let (rows, elements) = (list.row_count(), elements_shown(list) as usize);
        if room.offsets.len().min(room.sizes.len()) < rows
            || room.rows.len() < rows.div_ceil(8)
            || !elements_fit(room.values, room.elements, elements)
        {
            return Err(9);
        }
        let mut bits = BitWriter::new(room.rows);
        let mut element_writer = ElementWriter::new(&mut room.values[..elements], room.elements);
        let slots = room.offsets.iter_mut().zip(room.sizes).take(rows).enumerate();
        for (row, (offset, size)) in slots {
            let row = list.row(row);
            bits.push_bit(row.is_some());
            (*offset, *size) = match row {
                Some(row) => (element_writer.elements as i32, row.len() as i32),
                None => (0, 0),
            };
            row.inspect(|row| element_writer.run(*row, 0..row.len()));
        }
        let (null_rows, null_elements) = (bits.finish(), element_writer.bits.finish());
        Ok([rows as u64, elements as u64, null_rows, null_elements])
    })
}

// Recipes over some of their rows.

pub const WINDOWS: Windows = Windows { recipe_rows };

/// Some rows of a column, which has them; its starting bit may then be any.
fn rows_between<'a>(list: List<'a, i32>, Window { begin, end }: Window) -> List<'a, i32> {
    let offsets = list.offsets.get(begin..=end).unwrap_or(&[]);
    Column { offsets, rows_start: list.rows_start + begin, ..list }
}

/// The same rows of each argument column, copied: their values, and their bits from bit 0.
fn arguments_between(columns: &RecipeColumns<i32, i64>, window: Window) -> (Vec<i64>, Vec<u8>) {
    let Argument { values, bits, start } = columns.arguments;
    let rows = columns.list.row_count().max(1);
    let (mut copied, mut copied_bits) = (Vec::new(), Vec::new());
    for column in 0..values.len() / rows {
        for row in window.begin..window.end {
            let (to, from) = (copied.len(), column * rows + row);
            if to % 8 == 0 {
                copied_bits.push(0);
            }
            copied.push(values[from]);
            copied_bits[to / 8] |= u8::from(bit(bits, start + from)) << (to % 8);
        }
    }
    (copied, copied_bits)
}

fn recipe_rows(
    RowsOfRecipe { window, recipe }: RowsOfRecipe,
    [mut one, mut two, output]: [Room<i32>; 3],
    counts: &mut [u64],
) -> u32 {
    let Recipe { numbers, columns, lists: [list, second], arguments, .. } = recipe;
    let number = tell(counts, || {
        let lent = RecipeColumns { list, second, arguments };
        let steps = check_steps(columns, bytes_of(numbers), &lent)?;
        if window.begin > window.end || window.end > list.row_count() {
            return Err(16);
        }
        let (values, bits) = arguments_between(&lent, window);
        let part = RecipeColumns {
            list: rows_between(list, window),
            second: rows_between(second, window),
            arguments: Argument { values: &values, bits: &bits, start: 0 },
        };
        run_steps(&part, steps, [reborrow(&mut one), reborrow(&mut two)], output)
    });
    clear([one, two]);
    number
}

// Operations with a work area.

pub const HASHED: Hashed = Hashed { distinct: distinct_hashed, lists: lists_hashed };

/// The plain operation with another test before its rows; the area is zeroed, and not used.
fn with_area(call: &Call<i32, i64>, room: Room<i32>, area: &mut [u32], counts: &mut [u64]) -> u32 {
    let slots = area.len();
    area.fill(0);
    tell(counts, || {
        call.refusal().map_or(Ok(()), Err)?;
        let length = |row: usize| match call.right {
            Some(right) => Some(call.list.row(row)?.len() + right.row(row)?.len()),
            None => Some(call.list.row(row)?.len()),
        };
        let longest = (0..call.list.row_count()).filter_map(length).max().unwrap_or(0);
        if slots < 2 * longest {
            return Err(14);
        }
        write_rows(call, room)
    })
}

fn distinct_hashed(list: List<i32>, room: Room<i32>, area: &mut [u32], counts: &mut [u64]) -> u32 {
    let call = Call { code: DISTINCT, list, right: None, arguments: &[] };
    with_area(&call, room, area, counts)
}

fn lists_hashed(
    code: u32,
    [list, right]: [List<i32>; 2],
    room: Room<i32>,
    area: &mut [u32],
    counts: &mut [u64],
) -> u32 {
    if code != UNION && code != INTERSECT {
        area.fill(0);
        return NOT_SERVED;
    }
    let call = Call { code, list, right: Some(right), arguments: &[] };
    with_area(&call, room, area, counts)
}
