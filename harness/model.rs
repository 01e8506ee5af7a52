//! An independent reading of document 01 and of the notes that change it, row by row: which rows a
//! column shows, when a call is refused, what each row becomes, and the form of the result. Plain
//! and slow on purpose; sums are taken in 128 bits. The width of the offsets is a parameter, and
//! `Width` says all that depends on it.
//!
//! An operation is added by a variant of `Operation`, its columns and refusals, an arm of `make`
//! or of the row functions, and the function that says what one row becomes.
//!
//! A recipe carries rows through these operations; it is read from the definition that document 01
//! gives of it on rows. ListView columns are read in views.rs.

use crate::views;

/// A value, or None for a null.
pub type Element = Option<i64>;

/// The elements of a row, or None for a null row.
pub type Row = Option<Vec<Element>>;

/// The number of a refusal.
pub type Refusal = u32;

/// The width of signed offsets: lists have 32 bits, large lists 64.
#[derive(Clone, Copy, PartialEq, Eq, Debug, PartialOrd, Ord)]
pub enum Width {
    Narrow,
    Wide,
}

impl Width {
    pub const ALL: [Width; 2] = [Width::Narrow, Width::Wide];

    /// The bytes of an offset.
    pub const fn bytes(self) -> usize {
        match self {
            Width::Narrow => 4,
            Width::Wide => 8,
        }
    }

    /// A limit of a recipe stops here, and so does the result of a union.
    pub const fn largest_offset(self) -> i64 {
        match self {
            Width::Narrow => 2147483647,
            Width::Wide => 9223372036854775807,
        }
    }

    pub const fn smallest_offset(self) -> i64 {
        -self.largest_offset() - 1
    }

    /// The most elements of resize's result, and the most values that list-repeat repeats.
    pub const fn most_elements(self) -> u128 {
        match self {
            Width::Narrow => 2147483647,
            Width::Wide => 1152921504606846975,
        }
    }

    /// The most lists in the outer rows of list-repeat.
    pub const fn most_outer_lists(self) -> u128 {
        match self {
            Width::Narrow => 2147483647,
            Width::Wide => 1152921504606846974,
        }
    }

    /// Whether an index, a bound or a stride fits the offsets; of 64 bits all do.
    fn fits(self, number: i64) -> bool {
        (self.smallest_offset()..=self.largest_offset()).contains(&number)
    }
}

#[derive(Clone, Copy, PartialEq, Eq, Debug)]
pub enum Operation {
    Reverse,
    Distinct,
    PopFront,
    PopBack,
    AnyValue,
    Element,
    Union,
    Intersect,
    Slice,
    SliceWithoutStride,
    Resize,
    ResizeWithoutFill,
    Replace,
    Remove,
    ListRepeat,
    /// None of the thirteen: writes a column as a ListView, whose form is read in views.rs.
    ExportView,
}

/// What an argument column is to its operation; `Old` is the element that replace and remove look
/// for, `New` the one that replace puts in its place.
#[derive(Clone, Copy, PartialEq, Eq, Debug)]
pub enum Role {
    Index,
    From,
    To,
    Stride,
    Count,
    Fill,
    Old,
    New,
    Limit,
    Times,
}

impl Operation {
    /// The argument columns, in their order.
    pub fn roles(self) -> &'static [Role] {
        match self {
            Operation::Element => &[Role::Index],
            Operation::Slice => &[Role::From, Role::To, Role::Stride],
            Operation::SliceWithoutStride => &[Role::From, Role::To],
            Operation::Resize => &[Role::Count, Role::Fill],
            Operation::ResizeWithoutFill => &[Role::Count],
            Operation::Replace => &[Role::Old, Role::New, Role::Limit],
            Operation::Remove => &[Role::Old, Role::Limit],
            Operation::ListRepeat => &[Role::Times],
            _ => &[],
        }
    }

    /// The refusals that the operation gives after 3 and before 9; 4 and 6 never occur in large
    /// lists.
    pub fn refusals(self, width: Width) -> &'static [Refusal] {
        match (self, width) {
            (Operation::Element | Operation::SliceWithoutStride, Width::Narrow) => &[4],
            (Operation::Slice, Width::Narrow) => &[4, 5, 6],
            (Operation::Slice, Width::Wide) => &[5],
            (Operation::Union | Operation::ListRepeat, _) => &[8],
            (Operation::Resize | Operation::ResizeWithoutFill, _) => &[7, 8],
            _ => &[],
        }
    }
}

/// A bitmap of a column as it is lent, with the bit of its first byte at which it starts.
#[derive(Clone, Debug, Default)]
pub struct Bitmap {
    pub bytes: Vec<u8>,
    pub start: usize,
}

/// A list column as it is lent, its offsets of one width or the other.
#[derive(Clone, Debug, Default)]
pub struct ListColumn {
    pub offsets: Vec<i64>,
    pub rows: Bitmap,
    pub values: Vec<i64>,
    pub elements: Bitmap,
}

impl ListColumn {
    /// One fewer than the offsets; a column with no offsets at all has no rows.
    pub fn row_count(&self) -> usize {
        if self.offsets.is_empty() {
            0
        } else {
            self.offsets.len() - 1
        }
    }
}

/// An argument column as it is lent.
#[derive(Clone, Debug, Default)]
pub struct ArgumentColumn {
    pub values: Vec<i64>,
    pub bits: Bitmap,
}

/// What the columns of a call show: the rows of each list, the values of each argument column.
#[derive(Clone, Debug, Default, PartialEq)]
pub struct Shown {
    pub lists: Vec<Vec<Row>>,
    pub arguments: Vec<Vec<Element>>,
}

/// The rows that an operation makes.
#[derive(Clone, Debug, PartialEq)]
pub enum Made {
    Lists(Vec<Row>),
    Values(Vec<Element>),
    ListsOfLists(Vec<Option<Vec<Row>>>),
    /// Rows that are written as a ListView.
    Views(Vec<Row>),
    /// Rows too long to be held here: the slots that each slice of the result takes.
    TooLong(Vec<u64>),
}

/// One slice of a result, as slots.
#[derive(Clone, Debug, PartialEq)]
pub enum Slots {
    Offsets(Vec<i64>),
    Bits(Vec<u8>),
    Values(Vec<i64>),
}

/// A result as it is written: its slices in the order of the outputs, and its counts.
#[derive(Clone, Debug, PartialEq)]
pub struct ResultForm {
    pub slices: Vec<Slots>,
    pub counts: Vec<u64>,
}

/// What a null slot of a result holds; a valid element may hold it too.
pub const UNDER_NULL: i64 = -9223372036854775808;

/// The largest running sum of resize's counts.
const MOST_RUNNING_SUM: u128 = 18446744073709551615;

/// Results of more elements than this are measured, and not made; no slice that is lent is longer.
pub const MOST_HELD: usize = 8_000_000;

// What a column shows.

/// Position p is valid when bit p mod 8 of byte p div 8 is 1, bit 0 lowest; an empty bitmap means
/// that all are valid.
pub fn is_valid(bitmap: &[u8], position: usize) -> bool {
    bitmap.is_empty() || (bitmap[position / 8] >> (position % 8)) & 1 == 1
}

/// The bytes that a bitmap for this many positions takes.
pub fn bitmap_bytes(positions: usize) -> usize {
    positions / 8 + usize::from(positions % 8 != 0)
}

impl Bitmap {
    /// A bitmap that starts at bit 0.
    pub fn from_0(bytes: Vec<u8>) -> Bitmap {
        Bitmap { bytes, start: 0 }
    }

    /// The bytes that it takes for this many positions, which are counted from its starting bit.
    pub fn needed(&self, positions: usize) -> usize {
        bitmap_bytes(self.start + positions)
    }

    pub fn is_valid(&self, position: usize) -> bool {
        is_valid(&self.bytes, self.start + position)
    }

    /// A non-empty bitmap with fewer bits from its starting bit on than positions.
    pub fn is_too_short(&self, positions: usize) -> bool {
        !self.bytes.is_empty() && self.bytes.len() < self.needed(positions)
    }

    /// Condition of 13, whatever its bytes.
    pub fn starts_over_7(&self) -> bool {
        self.start > 7
    }
}

/// The rows that a well-formed list column shows.
pub fn shown_rows(column: &ListColumn) -> Vec<Row> {
    (0..column.row_count()).map(|row| shown_row(column, row)).collect()
}

fn shown_row(column: &ListColumn, row: usize) -> Row {
    if !column.rows.is_valid(row) {
        return None;
    }
    let start = column.offsets[row] as usize;
    let end = column.offsets[row + 1] as usize;
    Some((start..end).map(|place| shown_value(&column.values, &column.elements, place)).collect())
}

pub fn shown_value(values: &[i64], bitmap: &Bitmap, place: usize) -> Element {
    if bitmap.is_valid(place) {
        Some(values[place])
    } else {
        None
    }
}

/// The values that a well-formed argument column shows.
pub fn shown_arguments(column: &ArgumentColumn) -> Vec<Element> {
    (0..column.values.len()).map(|row| shown_value(&column.values, &column.bits, row)).collect()
}

pub fn shown(lists: &[ListColumn], arguments: &[ArgumentColumn]) -> Shown {
    Shown {
        lists: lists.iter().map(shown_rows).collect(),
        arguments: arguments.iter().map(shown_arguments).collect(),
    }
}

// Refusals 13, 1, 2, 3, which every operation gives first.

/// Condition of 13 for the lists and argument columns of a call: some starting bit over 7.
fn have_bad_start(lists: &[ListColumn], arguments: &[ArgumentColumn]) -> bool {
    let in_list = |list: &ListColumn| list.rows.starts_over_7() || list.elements.starts_over_7();
    lists.iter().any(in_list) || arguments.iter().any(|one| one.bits.starts_over_7())
}

/// Condition of 1: first negative, any falling, or last beyond the values; no offsets are none of
/// these.
fn has_bad_offsets(column: &ListColumn) -> bool {
    let offsets = &column.offsets;
    let (Some(&first), Some(&last)) = (offsets.first(), offsets.last()) else {
        return false;
    };
    let falling = offsets.windows(2).any(|pair| pair[1] < pair[0]);
    first < 0 || falling || last > column.values.len() as i64
}

/// Condition of 2 for a list: the rows, and all the values lent.
fn has_short_bitmap(column: &ListColumn) -> bool {
    column.rows.is_too_short(column.row_count())
        || column.elements.is_too_short(column.values.len())
}

/// Condition of 2 for an argument column.
fn is_short_argument(column: &ArgumentColumn) -> bool {
    column.bits.is_too_short(column.values.len())
}

/// Whether none of 13, 1 and 2 applies to any of these columns.
pub fn are_well_formed(lists: &[ListColumn], arguments: &[ArgumentColumn]) -> bool {
    let is_bad_list = |list: &ListColumn| has_bad_offsets(list) || has_short_bitmap(list);
    !have_bad_start(lists, arguments)
        && !lists.iter().any(is_bad_list)
        && !arguments.iter().any(is_short_argument)
}

/// Whether an argument column of this many values goes with this many rows: a limit column may
/// have one, used for all.
pub fn suits(role: Role, values: usize, rows: usize) -> bool {
    values == rows || role == Role::Limit && values == 1
}

/// The refusal that the columns alone give: 13 over all columns, 1 over all lists, 2 over all
/// columns, then 3.
pub fn column_refusal(
    operation: Operation,
    lists: &[ListColumn],
    arguments: &[ArgumentColumn],
) -> Option<Refusal> {
    let roles = operation.roles();
    assert_eq!(roles.len(), arguments.len(), "the columns that the operation takes");
    if have_bad_start(lists, arguments) {
        return Some(13);
    }
    if lists.iter().any(has_bad_offsets) {
        return Some(1);
    }
    if lists.iter().any(has_short_bitmap) || arguments.iter().any(is_short_argument) {
        return Some(2);
    }
    let rows = lists[0].row_count();
    let unequal_list = lists.iter().any(|one| one.row_count() != rows);
    let mut arguments = roles.iter().zip(arguments);
    if unequal_list || arguments.any(|(role, one)| !suits(*role, one.values.len(), rows)) {
        return Some(3);
    }
    None
}

// What each row becomes.

fn reverse(row: &[Element]) -> Vec<Element> {
    row.iter().rev().copied().collect()
}

/// First occurrences; null equals null.
fn distinct(row: &[Element]) -> Vec<Element> {
    let mut kept: Vec<Element> = Vec::new();
    for element in row {
        if !kept.contains(element) {
            kept.push(*element);
        }
    }
    kept
}

fn pop_front(row: &[Element]) -> Vec<Element> {
    row.iter().skip(1).copied().collect()
}

fn pop_back(row: &[Element]) -> Vec<Element> {
    row.iter().take(row.len().max(1) - 1).copied().collect()
}

/// The first valid element, else null.
fn any_value(row: &[Element]) -> Element {
    row.iter().copied().find(|element| element.is_some()).flatten()
}

/// 1 is first, -1 last; 0 or outside gives null; 4 for an index that does not fit the offsets, even
/// over an empty row.
fn element(width: Width, row: &[Element], index: i64) -> Result<Element, Refusal> {
    let length = row.len() as i64;
    if !width.fits(index) {
        return Err(4);
    }
    if 1 <= index && index <= length {
        Ok(row[(index - 1) as usize])
    } else if -length <= index && index <= -1 {
        Ok(row[(length + index) as usize])
    } else {
        Ok(None)
    }
}

/// Distinct of left then right.
fn union(left: &[Element], right: &[Element]) -> Vec<Element> {
    distinct(&[left, right].concat())
}

/// The longer row is walked, the left one on equal lengths; each common value once.
fn intersect(left: &[Element], right: &[Element]) -> Vec<Element> {
    let (walked, other) = if right.len() > left.len() { (right, left) } else { (left, right) };
    let common: Vec<Element> = walked.iter().copied().filter(|one| other.contains(one)).collect();
    distinct(&common)
}

/// The places of a from and a to, counted from 1 and perhaps outside the row: from 0 is the first
/// place, and so is a from below minus the length; a to past the end is the last place; other
/// negative bounds count from the end.
fn bound_places(length: i64, from: i64, to: i64) -> (i64, i64) {
    let first = if from == 0 || from < -length {
        1
    } else if from < 0 {
        length + 1 + from
    } else {
        from
    };
    let last = if to > length {
        length
    } else if to < 0 {
        length + 1 + to
    } else {
        to
    };
    (first, last)
}

/// The elements from one bound to the other, both included.
fn slice(
    width: Width,
    row: &[Element],
    from: i64,
    to: i64,
    stride: i64,
) -> Result<Vec<Element>, Refusal> {
    if row.is_empty() {
        return Ok(Vec::new());
    }
    if !width.fits(from) {
        return Err(4);
    }
    if !width.fits(to) {
        return Err(4);
    }
    let length = row.len() as i64;
    let (first, last) = bound_places(length, from, to);
    let is_outside = |place: i64| place < 1 || length < place;
    if is_outside(first) || is_outside(last) {
        return Ok(Vec::new());
    }
    if stride == 0 {
        return Err(5);
    }
    if stride > 0 && first > last || stride < 0 && first < last {
        return Ok(Vec::new());
    }
    if !width.fits(stride) {
        return Err(6);
    }
    let mut made = Vec::new();
    let (first, last, stride) = (i128::from(first), i128::from(last), i128::from(stride));
    let mut place = first;
    while first.min(last) <= place && place <= first.max(last) {
        made.push(row[place as usize - 1]);
        place += stride;
    }
    assert_eq!(made.len() as i128, (last - first).abs() / stride.abs() + 1, "places of a slice");
    Ok(made)
}

/// Cut, or filled.
fn resize(row: &[Element], count: i64, fill: Element) -> Vec<Element> {
    (0..count as usize).map(|place| row.get(place).copied().unwrap_or(fill)).collect()
}

/// The first matches become another; null matches null.
fn replace(row: &[Element], old: Element, new: Element, limit: i64) -> Vec<Element> {
    let mut left = limit;
    let mut made = Vec::new();
    for element in row {
        if left > 0 && *element == old {
            made.push(new);
            left -= 1;
        } else {
            made.push(*element);
        }
    }
    made
}

/// The row without the first matches.
fn remove(row: &[Element], old: i64, limit: i64) -> Vec<Element> {
    let mut left = limit;
    let mut made = Vec::new();
    for element in row {
        if left > 0 && *element == Some(old) {
            left -= 1;
        } else {
            made.push(*element);
        }
    }
    made
}

/// What the rows of the lists become beside one value of each argument column. A null list gives
/// null, and so does a null argument, but for a fill and for old and new of replace.
fn list_row(
    width: Width,
    operation: Operation,
    rows: &[&Row],
    arguments: &[Element],
) -> Result<Row, Refusal> {
    let Some(row) = rows[0] else {
        return Ok(None);
    };
    let made = match (operation, arguments) {
        (Operation::Reverse, []) => reverse(row),
        (Operation::Distinct, []) => distinct(row),
        (Operation::PopFront, []) => pop_front(row),
        (Operation::PopBack, []) => pop_back(row),
        (Operation::Union, []) => return Ok(rows[1].as_ref().map(|right| union(row, right))),
        (Operation::Intersect, []) => {
            return Ok(rows[1].as_ref().map(|right| intersect(row, right)));
        }
        (Operation::Slice, [Some(from), Some(to), Some(stride)]) => {
            slice(width, row, *from, *to, *stride)?
        }
        (Operation::SliceWithoutStride, [Some(from), Some(to)]) => {
            slice(width, row, *from, *to, 1)?
        }
        (Operation::Resize, [Some(count), fill]) => resize(row, *count, *fill),
        (Operation::ResizeWithoutFill, [Some(count)]) => resize(row, *count, None),
        (Operation::Replace, [old, new, Some(limit)]) => replace(row, *old, *new, *limit),
        (Operation::Remove, [Some(old), Some(limit)]) => remove(row, *old, *limit),
        _ => return Ok(None),
    };
    Ok(Some(made))
}

fn value_row(
    width: Width,
    operation: Operation,
    row: &Row,
    arguments: &[Element],
) -> Result<Element, Refusal> {
    match (operation, row, arguments) {
        (Operation::AnyValue, Some(row), []) => Ok(any_value(row)),
        (Operation::Element, Some(row), [Some(index)]) => element(width, row, *index),
        _ => Ok(None),
    }
}

/// The arguments of one row; a column of one value holds for every row.
fn row_arguments(shown: &Shown, row: usize) -> Vec<Element> {
    let value = |column: &Vec<Element>| if column.len() == 1 { column[0] } else { column[row] };
    shown.arguments.iter().map(value).collect()
}

/// Every row in turn: the first bad one decides.
fn each_list(width: Width, operation: Operation, shown: &Shown) -> Result<Vec<Row>, Refusal> {
    let rows = 0..shown.lists[0].len();
    rows.map(|row| {
        let rows: Vec<&Row> = shown.lists.iter().map(|list| &list[row]).collect();
        list_row(width, operation, &rows, &row_arguments(shown, row))
    })
    .collect()
}

fn each_value(width: Width, operation: Operation, shown: &Shown) -> Result<Vec<Element>, Refusal> {
    let rows = shown.lists[0].iter().enumerate();
    rows.map(|(at, row)| value_row(width, operation, row, &row_arguments(shown, at))).collect()
}

pub fn elements_in(rows: &[Row]) -> u128 {
    rows.iter().flatten().map(|row| row.len() as u128).sum()
}

/// 8 if the result exceeds the largest offset.
fn union_of_each(width: Width, shown: &Shown) -> Result<Made, Refusal> {
    let rows = each_list(width, Operation::Union, shown)?;
    if elements_in(&rows) > width.largest_offset() as u128 {
        return Err(8);
    }
    Ok(Made::Lists(rows))
}

/// The sum of the counts over rows with list and count valid: 7 at a negative count, or 8 where
/// the running sum passes its largest, whichever row comes first; then 8 if the sum is too large.
fn resized_elements(width: Width, shown: &Shown) -> Result<u128, Refusal> {
    let mut sum = 0;
    for (row, count) in shown.lists[0].iter().zip(&shown.arguments[0]) {
        let (Some(_), Some(count)) = (row, count) else {
            continue;
        };
        let Ok(count) = u128::try_from(*count) else {
            return Err(7);
        };
        sum += count;
        if sum > MOST_RUNNING_SUM {
            return Err(8);
        }
    }
    if sum > width.most_elements() {
        return Err(8);
    }
    Ok(sum)
}

fn resize_of_each(width: Width, operation: Operation, shown: &Shown) -> Result<Made, Refusal> {
    let elements = resized_elements(width, shown)?;
    if elements > MOST_HELD as u128 {
        return Ok(Made::TooLong(list_slots(shown.lists[0].len() as u128, elements)));
    }
    each_list(width, operation, shown).map(Made::Lists)
}

/// A null count gives null, 0 or less an empty outer row; a null list repeats as null lists of no
/// values. 8 if the lists in all outer rows, or the values they repeat, are too many.
fn list_repeat(width: Width, shown: &Shown) -> Result<Made, Refusal> {
    let (rows, times) = (&shown.lists[0], &shown.arguments[0]);
    let (mut inner_rows, mut elements) = (0, 0);
    for (row, times) in rows.iter().zip(times) {
        let times = times.unwrap_or(0).max(0) as u128;
        inner_rows += times;
        elements += times * row.as_ref().map_or(0, |row| row.len() as u128);
    }
    if inner_rows > width.most_outer_lists() || elements > width.most_elements() {
        return Err(8);
    }
    if inner_rows.max(elements) > MOST_HELD as u128 {
        let outer = &list_slots(rows.len() as u128, 0)[..2];
        return Ok(Made::TooLong([outer, &list_slots(inner_rows, elements)].concat()));
    }
    let repeat = |(row, times): (&Row, &Element)| {
        times.map(|times| vec![row.clone(); times.max(0) as usize])
    };
    Ok(Made::ListsOfLists(rows.iter().zip(times).map(repeat).collect()))
}

/// The rows that an operation makes of well-formed columns of equally many rows, or the refusal
/// that comes after 3 and before 9.
pub fn make(width: Width, operation: Operation, shown: &Shown) -> Result<Made, Refusal> {
    match operation {
        Operation::AnyValue | Operation::Element => {
            each_value(width, operation, shown).map(Made::Values)
        }
        Operation::Union => union_of_each(width, shown),
        Operation::Resize | Operation::ResizeWithoutFill => resize_of_each(width, operation, shown),
        Operation::ListRepeat => list_repeat(width, shown),
        Operation::ExportView => Ok(Made::Views(shown.lists[0].clone())),
        _ => each_list(width, operation, shown).map(Made::Lists),
    }
}

/// The same for columns of one row.
pub fn make_row(
    width: Width,
    operation: Operation,
    rows: &[&Row],
    arguments: &[Element],
) -> Result<Made, Refusal> {
    let shown = Shown {
        lists: rows.iter().map(|row| vec![(*row).clone()]).collect(),
        arguments: arguments.iter().map(|argument| vec![*argument]).collect(),
    };
    make(width, operation, &shown)
}

/// The rows that a call makes, or the refusal that comes before 9.
pub fn rows_made(
    width: Width,
    operation: Operation,
    lists: &[ListColumn],
    arguments: &[ArgumentColumn],
) -> Result<Made, Refusal> {
    match column_refusal(operation, lists, arguments) {
        Some(number) => Err(number),
        None => make(width, operation, &shown(lists, arguments)),
    }
}

// Result form.

/// Bits in their bytes, spare bits 0.
pub fn bitmap_of(valid: impl Iterator<Item = bool>) -> Vec<u8> {
    let mut bytes = Vec::new();
    for (position, bit) in valid.enumerate() {
        if position % 8 == 0 {
            bytes.push(0);
        }
        if bit {
            bytes[position / 8] |= 1 << (position % 8);
        }
    }
    bytes
}

pub fn nulls<T>(items: &[Option<T>]) -> u64 {
    items.iter().filter(|item| item.is_none()).count() as u64
}

/// Offsets from 0, null rows empty, and all that the rows hold, one after another.
fn laid_out<T: Clone>(rows: &[Option<Vec<T>>]) -> ([Slots; 2], Vec<T>) {
    let mut offsets = vec![0];
    let mut items: Vec<T> = Vec::new();
    for row in rows {
        items.extend(row.iter().flatten().cloned());
        offsets.push(items.len() as i64);
    }
    let bits = bitmap_of(rows.iter().map(Option::is_some));
    ([Slots::Offsets(offsets), Slots::Bits(bits)], items)
}

/// One number under all nulls.
pub fn elements_laid_out(elements: &[Element]) -> [Slots; 2] {
    let values = elements.iter().map(|element| element.unwrap_or(UNDER_NULL)).collect();
    [Slots::Values(values), Slots::Bits(bitmap_of(elements.iter().map(Option::is_some)))]
}

/// The counts are those of the rows.
pub fn list_form(rows: &[Row]) -> ResultForm {
    let (row_slices, elements) = laid_out(rows);
    ResultForm {
        counts: vec![rows.len() as u64, elements.len() as u64, nulls(rows), nulls(&elements)],
        slices: row_slices.into_iter().chain(elements_laid_out(&elements)).collect(),
    }
}

/// The counts are those of the slots.
fn value_form(values: &[Element]) -> ResultForm {
    ResultForm {
        counts: vec![values.len() as u64, nulls(values)],
        slices: elements_laid_out(values).to_vec(),
    }
}

/// The outer rows before the lists in them; the counts of a list answer, then those of the lists.
fn list_of_lists_form(rows: &[Option<Vec<Row>>]) -> ResultForm {
    let (row_slices, inner_rows) = laid_out(rows);
    let inner = list_form(&inner_rows);
    let [inner_count, elements, null_inner_rows, null_elements] = inner.counts[..] else {
        panic!("a list answer has four counts");
    };
    let outer = [rows.len() as u64, elements, nulls(rows), null_elements];
    ResultForm {
        counts: [&outer[..], &[inner_count, null_inner_rows]].concat(),
        slices: row_slices.into_iter().chain(inner.slices).collect(),
    }
}

/// The result as it is written.
pub fn result_form(made: &Made) -> ResultForm {
    match made {
        Made::Lists(rows) => list_form(rows),
        Made::Values(values) => value_form(values),
        Made::ListsOfLists(rows) => list_of_lists_form(rows),
        Made::Views(rows) => views::form(rows),
        Made::TooLong(_) => panic!("no slice that is lent is long enough for this result"),
    }
}

pub fn bitmap_slots(positions: u128) -> u128 {
    positions / 8 + u128::from(positions % 8 != 0)
}

pub fn list_slots(rows: u128, elements: u128) -> Vec<u64> {
    let slots = [rows + 1, bitmap_slots(rows), elements, bitmap_slots(elements)];
    slots.map(|slots| slots as u64).to_vec()
}

/// The slots that each slice of the result takes.
pub fn slots_needed(made: &Made) -> Vec<u64> {
    match made {
        Made::Lists(rows) => list_slots(rows.len() as u128, elements_in(rows)),
        Made::Values(values) => list_slots(0, values.len() as u128)[2..].to_vec(),
        Made::ListsOfLists(rows) => {
            let inner_rows: Vec<Row> = rows.iter().flatten().flatten().cloned().collect();
            let outer = &list_slots(rows.len() as u128, 0)[..2];
            let inner = list_slots(inner_rows.len() as u128, elements_in(&inner_rows));
            [outer, &inner].concat()
        }
        Made::Views(rows) => views::slots(rows),
        Made::TooLong(slots) => slots.clone(),
    }
}

/// The whole call: the result that is written, or the refusal; 9 comes last.
pub fn outcome(
    width: Width,
    operation: Operation,
    lists: &[ListColumn],
    arguments: &[ArgumentColumn],
    lengths: &[usize],
) -> Result<ResultForm, Refusal> {
    let made = rows_made(width, operation, lists, arguments)?;
    let mut slices = slots_needed(&made).into_iter().zip(lengths);
    if slices.all(|(needed, lent)| needed <= *lent as u64) {
        Ok(result_form(&made))
    } else {
        Err(9)
    }
}

// Recipes.

/// The operations by the codes of a recipe's steps.
pub const CODES: [Operation; 11] = [
    Operation::Reverse,
    Operation::Distinct,
    Operation::PopFront,
    Operation::PopBack,
    Operation::Slice,
    Operation::SliceWithoutStride,
    Operation::Resize,
    Operation::Replace,
    Operation::Remove,
    Operation::Union,
    Operation::Intersect,
];

pub const MOST_STEPS: usize = 32;

pub const MOST_COLUMNS: usize = 8;

/// A recipe as it is lent: the width of its offsets, the station that it is run for, the numbers of
/// its steps, how many argument columns there are, its two lists, and the one slice in which all its
/// argument columns lie.
#[derive(Clone, Copy)]
pub struct Recipe<'a> {
    pub width: Width,
    pub station: u32,
    pub numbers: &'a [u32],
    pub columns: usize,
    pub lists: &'a [ListColumn],
    pub arguments: &'a ArgumentColumn,
}

/// What a recipe shows: its steps, what both lists show, and its argument columns; and the width of
/// the offsets.
#[derive(Clone, Debug)]
pub struct RecipeShown {
    pub width: Width,
    pub steps: Vec<[u32; 4]>,
    pub lists: [Vec<Row>; 2],
    pub columns: Vec<Vec<Element>>,
}

/// A way in which a recipe is malformed.
#[derive(Clone, Copy, PartialEq, Eq, Debug)]
pub enum Malformed {
    Length,
    Steps,
    Code,
    Columns,
    AbsentColumn,
    UnusedNumber,
}

/// Where a step writes.
#[derive(Clone, Copy, PartialEq, Eq, Debug)]
pub enum Place {
    TrayOne,
    TrayTwo,
    Output,
}

/// The refusal of a recipe; the step that it comes from, counted from 1, or 0 where it comes before
/// the steps or there are none; and the place that is too short, if it is 9.
#[derive(Clone, Copy, PartialEq, Eq, Debug)]
pub struct RecipeRefusal {
    pub number: Refusal,
    pub step: usize,
    pub place: Option<Place>,
}

/// Every way in which a recipe is malformed: length not a multiple of 4, over 32 steps, code over
/// 10, over eight columns, a used column that isn't there, an unused number not 0.
pub fn malformed(numbers: &[u32], columns: usize) -> Vec<Malformed> {
    let mut ways = Vec::new();
    let mut add = |holds: bool, way: Malformed| ways.extend(holds.then_some(way));
    let steps: Vec<&[u32]> = numbers.chunks_exact(4).collect();
    let split = |step: &[u32]| {
        let used = CODES.get(step[0] as usize).map(|operation| operation.roles().len());
        used.map(|used| (step[1..1 + used].to_vec(), step[1 + used..].to_vec()))
    };
    let split: Vec<_> = steps.iter().filter_map(|step| split(step)).collect();
    add(numbers.len() % 4 != 0, Malformed::Length);
    add(steps.len() > MOST_STEPS, Malformed::Steps);
    add(steps.iter().any(|step| step[0] > 10), Malformed::Code);
    add(columns > MOST_COLUMNS, Malformed::Columns);
    let absent =
        split.iter().any(|(used, _)| used.iter().any(|number| *number as usize >= columns));
    add(absent, Malformed::AbsentColumn);
    let unused = split.iter().any(|(_, unused)| unused.iter().any(|number| *number != 0));
    add(unused, Malformed::UnusedNumber);
    ways
}

/// The refusal of a recipe's columns, of which the argument columns are one: 13, then 1, then 2,
/// then 3, where row counts differ or the arguments' length is not columns times rows.
pub fn recipe_column_refusal(recipe: &Recipe) -> Option<Refusal> {
    let (lists, arguments) = (recipe.lists, recipe.arguments);
    if have_bad_start(lists, std::slice::from_ref(arguments)) {
        return Some(13);
    }
    if lists.iter().any(has_bad_offsets) {
        return Some(1);
    }
    if lists.iter().any(has_short_bitmap) || is_short_argument(arguments) {
        return Some(2);
    }
    let rows = lists[0].row_count();
    let unequal = lists[1].row_count() != rows;
    if unequal || arguments.values.len() as u128 != recipe.columns as u128 * rows as u128 {
        return Some(3);
    }
    None
}

/// What a well-formed recipe shows whose columns are not refused.
pub fn recipe_shown(recipe: &Recipe) -> RecipeShown {
    let rows = shown_rows(&recipe.lists[0]);
    let arguments = shown_arguments(recipe.arguments);
    let column = |number: usize| arguments[number * rows.len()..][..rows.len()].to_vec();
    RecipeShown {
        width: recipe.width,
        steps: recipe.numbers.chunks(4).map(|step| [step[0], step[1], step[2], step[3]]).collect(),
        columns: (0..recipe.columns).map(column).collect(),
        lists: [rows, shown_rows(&recipe.lists[1])],
    }
}

/// Steps 1, 3, 5.. write tray one, 2, 4, 6.. tray two, the last the output.
pub fn place_of_step(step: usize, steps: usize) -> Place {
    if step == steps {
        Place::Output
    } else if step % 2 == 1 {
        Place::TrayOne
    } else {
        Place::TrayTwo
    }
}

/// What a step makes of the carried rows, or what its operation refuses after 3 and before 9.
pub fn step_made(shown: &RecipeShown, step: &[u32; 4], carried: &[Row]) -> Result<Made, Refusal> {
    let operation = CODES[step[0] as usize];
    let mut lists = vec![carried.to_vec()];
    if matches!(operation, Operation::Union | Operation::Intersect) {
        lists.push(shown.lists[1].clone());
    }
    let used = &step[1..1 + operation.roles().len()];
    let arguments = used.iter().map(|number| shown.columns[*number as usize].clone()).collect();
    make(shown.width, operation, &Shown { lists, arguments })
}

/// Carries rows from step to step, and gives those that the last one makes. The result form of what
/// each step makes must fit the place that it writes.
pub fn carry(
    shown: &RecipeShown,
    mut fits: impl FnMut(Place, &[u64]) -> bool,
) -> Result<Vec<Row>, RecipeRefusal> {
    let mut carried = shown.lists[0].clone();
    let steps = shown.steps.len();
    for (at, step) in shown.steps.iter().enumerate() {
        let place = place_of_step(at + 1, steps);
        let refusal = |number, place| RecipeRefusal { number, step: at + 1, place };
        let made = step_made(shown, step, &carried).map_err(|number| refusal(number, None))?;
        let too_short = refusal(9, Some(place));
        carried = match made {
            _ if !fits(place, &slots_needed(&made)) => return Err(too_short),
            Made::Lists(rows) => rows,
            _ => return Err(too_short),
        };
    }
    if steps == 0 && !fits(Place::Output, &list_slots(carried.len() as u128, elements_in(&carried)))
    {
        return Err(RecipeRefusal { number: 9, step: 0, place: Some(Place::Output) });
    }
    Ok(carried)
}

/// The refusal of a recipe before its steps: 15 for a station over 15, then 10, then 13, 1, 2, 3.
pub fn refusal_before_steps(recipe: &Recipe) -> Option<Refusal> {
    if recipe.station > 15 {
        Some(15)
    } else if malformed(recipe.numbers, recipe.columns).is_empty() {
        recipe_column_refusal(recipe)
    } else {
        Some(10)
    }
}

/// The whole call of a recipe, with this many slots in tray one, tray two and the output: what is
/// written into the output, or the refusal.
pub fn recipe_outcome(recipe: &Recipe, room: [&[u64]; 3]) -> Result<ResultForm, RecipeRefusal> {
    if let Some(number) = refusal_before_steps(recipe) {
        return Err(RecipeRefusal { number, step: 0, place: None });
    }
    steps_outcome(&recipe_shown(recipe), room)
}

/// What the steps come to over what a recipe shows.
pub fn steps_outcome(shown: &RecipeShown, room: [&[u64]; 3]) -> Result<ResultForm, RecipeRefusal> {
    let fits = |place: Place, needed: &[u64]| {
        needed.iter().zip(room[place as usize]).all(|(needed, lent)| needed <= lent)
    };
    carry(shown, fits).map(|rows| list_form(&rows))
}

/// The stations that a recipe may be run for.
pub const STATIONS: usize = 16;

/// Recipes finished for each station in order, then recipes refused for each.
pub type Tally = [u64; 2 * STATIONS];

/// An accepted call adds 1 to the finished recipes of its station, a refused one to the refused,
/// unless that count stands at its largest value.
pub fn tally_after(tally: Tally, station: u32, accepted: bool) -> Tally {
    let of_station = if accepted { station as usize } else { STATIONS + station as usize };
    let mut after = tally;
    if after[of_station] < u64::MAX {
        after[of_station] += 1;
    }
    after
}
