//! Makes columns and cases: rows at random, rows laid out in many ways, damage, and outputs lent
//! exactly long enough, longer, or one slot short.

use crate::entry::{Case, Content, Entry, Input, SliceKind, MOST_INNER_ROWS, MOST_VALUES};
use crate::hashed;
use crate::model::{self, bitmap_bytes, ArgumentColumn, Bitmap, Element, ListColumn, Made};
use crate::model::{Operation, Role, Row, Shown, Width, MOST_HELD, UNDER_NULL};
use crate::recipe_generate::{lend_recipe, lend_recipe_within};
use crate::recipe_generate::{no_station, random_recipe, recipe_input};
use crate::rng::Rng;

pub const EXTREMES: [i64; 7] = [i64::MIN, i64::MIN + 1, -1, 0, 1, i64::MAX - 1, i64::MAX];

pub const ROW_COUNTS: [usize; 12] = [0, 1, 2, 3, 7, 8, 9, 15, 16, 17, 31, 40];

// Rows.

/// What random rows look like; nulls are given in eighths.
#[derive(Clone, Copy)]
pub struct RowShape {
    pub count: usize,
    pub longest: usize,
    pub most_values: usize,
    pub null_rows: usize,
    pub null_elements: usize,
}

/// Often the number that null slots of results hold, as a level of its own.
pub fn random_value(rng: &mut Rng) -> i64 {
    match rng.below(8) {
        0 => rng.pick(&EXTREMES),
        1 | 2 => UNDER_NULL,
        3 | 4 | 5 => rng.between(-1, 3),
        _ => rng.next() as i64,
    }
}

pub fn random_element(null_eighths: usize, rng: &mut Rng) -> Element {
    if rng.chance(null_eighths, 8) {
        None
    } else {
        Some(random_value(rng))
    }
}

pub fn random_rows(shape: RowShape, rng: &mut Rng) -> Vec<Row> {
    let mut left = shape.most_values;
    let mut rows = Vec::new();
    for _ in 0..shape.count {
        if rng.chance(shape.null_rows, 8) {
            rows.push(None);
            continue;
        }
        let length = rng.below(shape.longest.min(left) + 1);
        left -= length;
        rows.push(Some((0..length).map(|_| random_element(shape.null_elements, rng)).collect()));
    }
    rows
}

/// A shape of a few rows, with a row count around the ends of bitmap bytes.
pub fn small_shape(rng: &mut Rng) -> RowShape {
    RowShape {
        count: rng.pick(&ROW_COUNTS),
        longest: rng.pick(&[0, 1, 2, 3, 9]),
        most_values: 400,
        null_rows: rng.pick(&[0, 1, 4, 8]),
        null_elements: rng.pick(&[0, 1, 4, 8]),
    }
}

/// A shape at or near the most rows and values that the entries take.
pub fn large_shape(rng: &mut Rng) -> RowShape {
    let count = rng.pick(&[1000, 4095, 4096]);
    RowShape { count, longest: rng.pick(&[1, 4, 8]), most_values: MOST_VALUES, ..small_shape(rng) }
}

/// A shape of few rows, one of them perhaps long.
pub fn long_row_shape(rng: &mut Rng) -> RowShape {
    RowShape { count: rng.pick(&[1, 2, 9]), longest: 300, ..small_shape(rng) }
}

// Layouts: the same rows in other bytes.

/// How rows lie in a column; the default is result form.
#[derive(Clone, Copy, Default)]
pub struct Layout {
    /// Values before the first offset.
    pub lead: usize,
    /// Values behind the last offset.
    pub behind: usize,
    /// At most this many values under a null row, and at least one if it is not 0.
    pub under_null_rows: usize,
    /// Any numbers under null elements and null arguments.
    pub numbers_under_nulls: bool,
    /// Ones behind the last position of a bitmap.
    pub spare_bits: bool,
    /// Bytes behind those that a bitmap needs.
    pub more_bitmap_bytes: usize,
    /// No bitmap where all is valid.
    pub absent_bitmaps: bool,
    /// No offsets where there are no rows.
    pub no_offsets: bool,
    /// The starting bit of a row bitmap; before it anything stands.
    pub rows_start: usize,
    /// The same of an element bitmap and of the bitmap of an argument column.
    pub elements_start: usize,
}

/// Each way alone, then all of them, without and with absent bitmaps and with no offsets.
pub fn layouts() -> Vec<Layout> {
    let plain = Layout::default();
    let all = Layout {
        lead: 3,
        behind: 9,
        under_null_rows: 3,
        numbers_under_nulls: true,
        spare_bits: true,
        more_bitmap_bytes: 2,
        absent_bitmaps: false,
        no_offsets: false,
        rows_start: 6,
        elements_start: 2,
    };
    vec![
        plain,
        Layout { lead: 1, ..plain },
        Layout { lead: 9, ..plain },
        Layout { behind: 1, ..plain },
        Layout { behind: 17, ..plain },
        Layout { under_null_rows: 2, ..plain },
        Layout { numbers_under_nulls: true, ..plain },
        Layout { spare_bits: true, ..plain },
        Layout { more_bitmap_bytes: 1, ..plain },
        Layout { more_bitmap_bytes: 700, spare_bits: true, ..plain },
        Layout { absent_bitmaps: true, ..plain },
        Layout { no_offsets: true, ..plain },
        Layout { rows_start: 3, elements_start: 5, ..plain },
        Layout { rows_start: 7, elements_start: 1, absent_bitmaps: true, ..plain },
        all,
        Layout { absent_bitmaps: true, ..all },
        Layout { no_offsets: true, ..all },
    ]
}

/// A starting bit, 0 more often than the others.
pub fn random_start(rng: &mut Rng) -> usize {
    rng.below(8).saturating_sub(rng.pick(&[0, 0, 0, 8]))
}

/// A starting bit over 7: the next ones, such as are 0 to 7 in a part of their bits, and the last.
pub fn start_over_7(rng: &mut Rng) -> usize {
    let far = (1 << (3 + rng.below(29))) | rng.below(8);
    rng.pick(&[8, 8, 9, 15, 16, far, u32::MAX as usize])
}

pub fn random_layout(rng: &mut Rng) -> Layout {
    Layout {
        lead: rng.pick(&[0, 0, 1, 8, 11]),
        behind: rng.pick(&[0, 0, 1, 8, 13]),
        under_null_rows: rng.pick(&[0, 1, 4]),
        numbers_under_nulls: rng.chance(1, 2),
        spare_bits: rng.chance(1, 2),
        more_bitmap_bytes: rng.pick(&[0, 0, 1, 5]),
        absent_bitmaps: rng.chance(1, 2),
        no_offsets: rng.chance(1, 2),
        rows_start: random_start(rng),
        elements_start: random_start(rng),
    }
}

/// Values and their validity, while a column is laid out.
#[derive(Default)]
pub struct Places {
    pub values: Vec<i64>,
    pub valid: Vec<bool>,
}

impl Places {
    pub fn push_hidden(&mut self, count: usize, rng: &mut Rng) {
        for _ in 0..count {
            self.values.push(random_value(rng));
            self.valid.push(rng.chance(1, 2));
        }
    }

    pub fn push_shown(&mut self, element: Element, layout: Layout, rng: &mut Rng) {
        let hidden = match layout.numbers_under_nulls {
            true if rng.chance(1, 4) => 0,
            true => random_value(rng) | 1,
            false => UNDER_NULL,
        };
        self.values.push(element.unwrap_or(hidden));
        self.valid.push(element.is_some());
    }
}

pub fn bitmap_of(valid: &[bool], start: usize, layout: Layout, rng: &mut Rng) -> Bitmap {
    let end = start + valid.len();
    let mut bytes = vec![0; bitmap_bytes(end)];
    if start > 0 {
        bytes[0] = rng.next() as u8 & !(0xff << start);
    }
    for (bit, valid) in (start..).zip(valid) {
        bytes[bit / 8] |= u8::from(*valid) << (bit % 8);
    }
    if layout.spare_bits && end % 8 != 0 {
        bytes[end / 8] |= 0xff << (end % 8);
    }
    bytes.extend(rng.bytes(layout.more_bitmap_bytes));
    Bitmap { bytes, start }
}

/// A column that shows these rows, of no more values than a byte entry takes, unless the rows have
/// more.
pub fn lay_out(rows: &[Row], layout: Layout, rng: &mut Rng) -> ListColumn {
    let shown: usize = rows.iter().flatten().map(Vec::len).sum();
    let mut room = MOST_VALUES.checked_sub(shown).unwrap_or(usize::MAX);
    let mut hide = |wanted: usize| {
        let granted = wanted.min(room);
        room -= granted;
        granted
    };
    let mut places = Places::default();
    places.push_hidden(hide(layout.lead), rng);
    let mut offsets = vec![places.values.len() as i64];
    for row in rows {
        match row {
            Some(row) => row.iter().for_each(|one| places.push_shown(*one, layout, rng)),
            None if layout.under_null_rows == 0 => (),
            None => places.push_hidden(hide(1 + rng.below(layout.under_null_rows)), rng),
        }
        offsets.push(places.values.len() as i64);
    }
    places.push_hidden(hide(layout.behind), rng);
    if rows.is_empty() && layout.no_offsets {
        offsets.clear();
    }

    let valid_rows: Vec<bool> = rows.iter().map(Option::is_some).collect();
    let all_elements_valid = rows.iter().flatten().flatten().all(Option::is_some);
    let absent_rows = layout.absent_bitmaps && valid_rows.iter().all(|valid| *valid);
    let absent_elements = layout.absent_bitmaps && all_elements_valid;
    let Layout { rows_start, elements_start, .. } = layout;
    let absent = |start: usize| Bitmap { bytes: Vec::new(), start };
    ListColumn {
        offsets,
        rows: match absent_rows {
            true => absent(rows_start),
            false => bitmap_of(&valid_rows, rows_start, layout, rng),
        },
        elements: match absent_elements {
            true => absent(elements_start),
            false => bitmap_of(&places.valid, elements_start, layout, rng),
        },
        values: places.values,
    }
}

/// An argument column that shows these values.
pub fn lay_out_argument(shown: &[Element], layout: Layout, rng: &mut Rng) -> ArgumentColumn {
    let mut places = Places::default();
    for element in shown {
        places.push_shown(*element, layout, rng);
    }
    let absent = layout.absent_bitmaps && places.valid.iter().all(|valid| *valid);
    let start = layout.elements_start;
    let bits = match absent {
        true => Bitmap { bytes: Vec::new(), start },
        false => bitmap_of(&places.valid, start, layout, rng),
    };
    ArgumentColumn { values: places.values, bits }
}

// Arguments.

/// The ends of 32 signed bits from both sides, the ends of 64, and numbers that are 0 or 1 modulo 2
/// to the 32.
pub const FAR: [i64; 11] = [
    2147483647,
    -2147483647,
    2147483648,
    -2147483648,
    2147483649,
    -2147483649,
    4294967296,
    4294967297,
    -4294967297,
    i64::MAX,
    i64::MIN,
];

/// What large lists meet besides: the ends of 60 signed bits and of 32 without a sign, and the
/// neighbours of the ends of 64.
const FARTHER: [i64; 10] = [
    4294967295,
    -4294967296,
    1152921504606846974,
    1152921504606846975,
    1152921504606846976,
    -1152921504606846975,
    -1152921504606846976,
    -1152921504606846977,
    i64::MAX - 1,
    i64::MIN + 1,
];

fn both_signs(number: &i64) -> [i64; 2] {
    [*number, -number]
}

/// The boundary numbers of an argument beside this row.
pub fn boundaries(width: Width, role: Role, row: &[Element]) -> Vec<i64> {
    let mut numbers = narrow_boundaries(role, row);
    if width == Width::Wide {
        match role {
            Role::Index => numbers.extend(FARTHER),
            Role::From | Role::To | Role::Stride => {
                numbers.extend([1152921504606846976, i64::MIN + 1]);
            }
            Role::Count => numbers.extend(&FARTHER[2..5]),
            Role::Limit => numbers.extend([1152921504606846975, i64::MIN + 1]),
            Role::Times => {
                numbers.extend([576460752303423487, 576460752303423488]);
                numbers.extend(&FARTHER[2..5]);
            }
            Role::Fill | Role::Old | Role::New => (),
        }
    }
    numbers.sort();
    numbers.dedup();
    numbers
}

/// Those that lists meet, and large lists too.
fn narrow_boundaries(role: Role, row: &[Element]) -> Vec<i64> {
    let length = row.len() as i64;
    match role {
        Role::Index | Role::From | Role::To => (-length - 2..=length + 2).chain(FAR).collect(),
        Role::Stride => {
            let mut strides = vec![0, 2147483646];
            strides.extend([1, 2, 3, length - 1, length, length + 1].iter().flat_map(both_signs));
            strides.extend(FAR);
            strides
        }
        Role::Count => {
            let mut counts = vec![i64::MIN, -2147483649, -1, 0, 1, 2147483646];
            counts.extend([2147483647, 2147483648, 4294967296, i64::MAX]);
            counts.extend(length - 1..=length + 2);
            counts
        }
        Role::Fill | Role::Old | Role::New => {
            let mut values = vec![0, 7, i64::MIN, i64::MAX];
            values.extend(row.iter().flatten());
            values
        }
        Role::Limit => vec![i64::MIN, -1, 0, 1, 2, 3, length, 2147483648, 4294967296, i64::MAX],
        Role::Times => {
            let mut times = vec![i64::MIN, -1, 0, 1, 2, 3, 1073741823, 1073741824];
            times.extend([2147483647, 2147483648, 4294967297, i64::MAX]);
            times
        }
    }
}

/// A number for an argument beside this row: one of its boundaries, or near the row's length.
fn random_argument(width: Width, role: Role, row: &[Element], rng: &mut Rng) -> i64 {
    let length = row.len() as i64;
    if rng.chance(1, 4) {
        return rng.pick(&boundaries(width, role, row));
    }
    match role {
        Role::Index | Role::From | Role::To => rng.between(-length - 1, length + 2),
        Role::Stride => rng.between(-length - 1, length + 1),
        Role::Count => rng.between((length - 2).max(0), length + 3),
        Role::Fill | Role::New => random_value(rng),
        Role::Old => match rng.below(length as usize + 1) {
            0 => random_value(rng),
            place => row[place - 1].unwrap_or(rng.pick(&[0, UNDER_NULL])),
        },
        Role::Limit => rng.between(-1, length + 1),
        Role::Times => rng.between(-1, 3),
    }
}

/// A value for each argument column beside one row of the first list.
fn random_arguments(entry: Entry, row: &Row, null_eighths: usize, rng: &mut Rng) -> Vec<Element> {
    let row = row.as_deref().unwrap_or(&[Some(1), None]);
    let one = |role: &Role| {
        or_null(null_eighths, rng, |rng| random_argument(entry.width, *role, row, rng))
    };
    entry.roles().iter().map(one).collect()
}

fn or_null(null_eighths: usize, rng: &mut Rng, value: impl Fn(&mut Rng) -> i64) -> Element {
    (!rng.chance(null_eighths, 8)).then(|| value(rng))
}

/// How large the result of a call may still become.
pub struct Left {
    pub inner_rows: u64,
    pub elements: u64,
}

impl Left {
    /// Takes a row away, if it is not too large.
    fn take(&mut self, made: &Made) -> bool {
        let slots = model::slots_needed(made);
        let (inner_rows, elements) = match slots[..] {
            [_, _, elements, _] => (0, elements),
            [_, _, inner_offsets, _, elements, _] => (inner_offsets - 1, elements),
            _ => (0, 0),
        };
        let fits = inner_rows <= self.inner_rows && elements <= self.elements;
        if fits {
            self.inner_rows -= inner_rows;
            self.elements -= elements;
        }
        fits
    }
}

/// Arguments beside one row that the operation does not refuse and whose result is not too large;
/// nulls where a few draws do not give them.
fn accepted_arguments(
    entry: Entry,
    rows: &[&Row],
    null_eighths: usize,
    left: &mut Left,
    rng: &mut Rng,
) -> Vec<Element> {
    for _ in 0..20 {
        let arguments = random_arguments(entry, rows[0], null_eighths, rng);
        let made = model::make_row(entry.width, entry.known_operation(), rows, &arguments);
        if made.is_ok_and(|made| left.take(&made)) {
            return arguments;
        }
    }
    vec![None; entry.roles().len()]
}

/// Argument columns for these lists, none of them refused; now and then one limit for all rows.
pub fn accepted_columns(entry: Entry, lists: &[Vec<Row>], rng: &mut Rng) -> Vec<Vec<Element>> {
    let roles = entry.roles();
    let null_eighths = rng.pick(&[0, 0, 1, 4]);
    let mut columns = full_columns(entry, lists, null_eighths, rng);
    if roles.last() == Some(&Role::Limit) && rng.chance(1, 4) {
        let limit = |rng: &mut Rng| random_argument(entry.width, Role::Limit, &[], rng);
        let limit = or_null(null_eighths, rng, limit);
        columns[roles.len() - 1] = vec![limit];
    }
    columns
}

/// The same, with a value for each row in every column.
pub fn full_columns(
    entry: Entry,
    lists: &[Vec<Row>],
    null_eighths: usize,
    rng: &mut Rng,
) -> Vec<Vec<Element>> {
    let left = Left { inner_rows: MOST_INNER_ROWS as u64, elements: MOST_VALUES as u64 };
    columns_within(entry, lists, null_eighths, left, rng)
}

/// The same for a result of this size at most.
pub fn columns_within(
    entry: Entry,
    lists: &[Vec<Row>],
    null_eighths: usize,
    mut left: Left,
    rng: &mut Rng,
) -> Vec<Vec<Element>> {
    let mut columns = vec![Vec::new(); entry.roles().len()];
    for row in 0..lists[0].len() {
        let rows: Vec<&Row> = lists.iter().map(|list| &list[row]).collect();
        let arguments = accepted_arguments(entry, &rows, null_eighths, &mut left, rng);
        for (column, argument) in columns.iter_mut().zip(arguments) {
            column.push(argument);
        }
    }
    columns
}

/// Whether some arguments beside this row are refused.
fn can_refuse(operation: Operation, row: &Row) -> bool {
    match operation {
        Operation::Union => false,
        Operation::Slice | Operation::SliceWithoutStride => {
            row.as_ref().is_some_and(|row| !row.is_empty())
        }
        Operation::ListRepeat => true,
        _ => row.is_some(),
    }
}

/// Gives one row arguments that the operation refuses with this number; false where it cannot.
pub fn refuse_row(entry: Entry, shown: &mut Shown, row: usize, number: u32, rng: &mut Rng) -> bool {
    let operation = entry.known_operation();
    let rows: Vec<&Row> = shown.lists.iter().map(|list| &list[row]).collect();
    if !entry.refusals().contains(&number) || !can_refuse(operation, rows[0]) {
        return false;
    }
    for _ in 0..2000 {
        let arguments = random_arguments(entry, rows[0], 0, rng);
        if model::make_row(entry.width, operation, &rows, &arguments) == Err(number) {
            for (column, argument) in shown.arguments.iter_mut().zip(arguments) {
                column[row] = argument;
            }
            return true;
        }
    }
    false
}

// Calls.

/// A second list beside the first: rows of their own, the same elements in another order, some of
/// them more than once, or a part of them.
fn random_right(left: &[Row], shape: RowShape, rng: &mut Rng) -> Vec<Row> {
    let own = random_rows(shape, rng);
    let beside = |(left, own): (&Row, Row)| {
        let (Some(left), Some(own)) = (left, &own) else {
            return own;
        };
        let mut row = left.clone();
        match rng.below(5) {
            0 => return Some(own.clone()),
            1 => row.extend(own.iter().take(2)),
            2 => row.truncate(rng.below(left.len() + 1)),
            3 => row.extend_from_within(..left.len().min(2)),
            _ => (),
        }
        shuffle(&mut row, rng);
        Some(row)
    };
    left.iter().zip(own).map(beside).collect()
}

pub fn shuffle<T>(items: &mut [T], rng: &mut Rng) {
    for last in (1..items.len()).rev() {
        items.swap(last, rng.below(last + 1));
    }
}

/// Lists of this shape, as many as the entry takes.
pub fn random_lists(entry: Entry, shape: RowShape, rng: &mut Rng) -> Vec<Vec<Row>> {
    // With a row of the right list up to two longer than that of the left, both and their union
    // still fit.
    let parts = 2 * entry.lists() - 1;
    let shape = RowShape { most_values: shape.most_values / parts, ..shape };
    let left = random_rows(shape, rng);
    let mut lists = vec![left];
    if entry.lists() == 2 {
        lists.push(random_right(&lists[0], shape, rng));
    }
    lists
}

/// Other lists and arguments beside these rows of one list, refused or not.
pub fn random_beside(entry: Entry, place: usize, rows: &[Row], rng: &mut Rng) -> Shown {
    let shape = RowShape { count: rows.len(), longest: 3, ..small_shape(rng) };
    let mut lists = vec![rows.to_vec()];
    if entry.lists() == 2 {
        lists.insert(1 - place, random_right(rows, shape, rng));
    }
    let mut shown = Shown { arguments: accepted_columns(entry, &lists, rng), lists };
    if rng.chance(1, 2) {
        for (role, column) in entry.roles().iter().zip(&mut shown.arguments) {
            for (row, argument) in rows.iter().zip(column) {
                let row = row.as_deref().unwrap_or(&[]);
                *argument = or_null(1, rng, |rng| random_argument(entry.width, *role, row, rng));
            }
        }
    }
    shown
}

/// Rows and arguments of this shape; no row is refused.
pub fn random_shown(entry: Entry, shape: RowShape, rng: &mut Rng) -> Shown {
    let lists = random_lists(entry, shape, rng);
    Shown { arguments: accepted_columns(entry, &lists, rng), lists }
}

/// The same, and now and then one row is refused.
pub fn random_shown_or_refused(entry: Entry, shape: RowShape, rng: &mut Rng) -> Shown {
    let mut shown = random_shown(entry, shape, rng);
    if shape.count > 0 && !entry.refusals().is_empty() && rng.chance(1, 8) {
        let (row, number) = (rng.below(shape.count), rng.pick(entry.refusals()));
        refuse_row(entry, &mut shown, row, number, rng);
    }
    shown
}

/// An argument column that the operation does not take: any content, any bitmap, any starting bit.
pub fn untaken_column(rows: usize, rng: &mut Rng) -> ArgumentColumn {
    let length = rng.pick(&[0, 0, rows, rows, rows + 1, 3, 40]).min(crate::entry::MOST_ROWS);
    let bits = rng.pick(&[0, 1, bitmap_bytes(length), 7]);
    let start = if rng.chance(1, 4) { start_over_7(rng) } else { random_start(rng) };
    ArgumentColumn {
        values: (0..length).map(|_| random_value(rng)).collect(),
        bits: Bitmap { bytes: rng.bytes(bits), start },
    }
}

/// The columns of a call that show these rows and arguments; the layouts are used in turn.
pub fn input_of(entry: Entry, shown: &Shown, layouts: &[Layout], rng: &mut Rng) -> Input {
    let mut turns = layouts.iter().copied().cycle();
    let mut next = || turns.next().expect("at least one layout");
    let lists = shown.lists.iter().map(|rows| lay_out(rows, next(), rng)).collect();
    let taken = shown.arguments.iter();
    let mut arguments: Vec<ArgumentColumn> =
        taken.map(|values| lay_out_argument(values, next(), rng)).collect();
    while arguments.len() < entry.arguments() {
        arguments.push(untaken_column(shown.lists[0].len(), rng));
    }
    Input { entry, numbers: Vec::new(), lists, arguments }
}

/// A layout for each column.
pub fn random_layouts(entry: Entry, rng: &mut Rng) -> Vec<Layout> {
    (0..entry.lists() + entry.arguments()).map(|_| random_layout(rng)).collect()
}

/// Random columns for an operation, or a random recipe, in random layouts.
pub fn random_input(entry: Entry, shape: RowShape, rng: &mut Rng) -> Input {
    if entry.is_recipe() {
        let shown = random_recipe(entry.width, shape, rng);
        let mut input = recipe_input(&shown, &random_layouts(entry, rng), rng);
        if rng.chance(1, 16) {
            input.entry = input.entry.with_station(no_station(rng));
        }
        return input;
    }
    let shown = random_shown_or_refused(entry, shape, rng);
    let layouts = random_layouts(entry, rng);
    input_of(entry, &shown, &layouts, rng)
}

// Damage.

/// A column of a call, by its place among the lists or among the argument columns.
#[derive(Clone, Copy, PartialEq, Debug)]
pub enum Column {
    List(usize),
    Argument(usize),
}

impl Column {
    pub fn name(self, entry: Entry) -> &'static str {
        match self {
            Column::List(0) => "list",
            Column::List(_) if entry.has_steps() => "second list",
            Column::List(_) => "right list",
            Column::Argument(_) if entry.has_steps() => "arguments",
            Column::Argument(at) => entry.roles()[at].name(),
        }
    }

    /// The columns that the operation takes.
    pub fn all(entry: Entry) -> Vec<Column> {
        let lists = (0..entry.lists()).map(Column::List);
        lists.chain((0..entry.taken()).map(Column::Argument)).collect()
    }
}

impl Role {
    pub fn name(self) -> &'static str {
        match self {
            Role::Index => "index",
            Role::From => "from",
            Role::To => "to",
            Role::Stride => "stride",
            Role::Count => "count",
            Role::Fill => "fill",
            Role::Old => "old",
            Role::New => "new",
            Role::Limit => "limit",
            Role::Times => "times",
        }
    }
}

#[derive(Clone, Copy, PartialEq, Debug)]
pub enum Damage {
    RowStartOver,
    RowStartOverAlone,
    ElementStartOver,
    ElementStartOverAlone,
    NegativeFirst,
    FallingAtFirst,
    FallingInside,
    FallingAtLast,
    LastBeyondByOne,
    LastFarBeyond,
    RowBitsShort,
    RowBitsOneBitShort,
    RowBitsEmpty,
    ElementBitsShort,
    ElementBitsOneBitShort,
    ElementBitsForShownOnly,
    ElementBitsEmpty,
    OneRowFewer,
    OneRowMore,
    NoRows,
    NoOffsets,
    ArgumentStartOver,
    ArgumentStartOverAlone,
    ArgumentBitsShort,
    ArgumentBitsOneBitShort,
    ArgumentBitsEmpty,
    ArgumentOneFewer,
    ArgumentOneMore,
    ArgumentEmpty,
}

/// Each damage with its name and the refusal that it alone brings; an emptied bitmap brings none.
const DAMAGES: [(Damage, &str, Option<u32>); 29] = [
    (Damage::RowStartOver, "row bitmap from a bit over 7", Some(13)),
    (Damage::RowStartOverAlone, "no row bitmap, from a bit over 7", Some(13)),
    (Damage::ElementStartOver, "element bitmap from a bit over 7", Some(13)),
    (Damage::ElementStartOverAlone, "no element bitmap, from a bit over 7", Some(13)),
    (Damage::NegativeFirst, "first offset negative", Some(1)),
    (Damage::FallingAtFirst, "offsets falling at the first row", Some(1)),
    (Damage::FallingInside, "offsets falling inside", Some(1)),
    (Damage::FallingAtLast, "offsets falling at the last row", Some(1)),
    (Damage::LastBeyondByOne, "last offset one beyond the values", Some(1)),
    (Damage::LastFarBeyond, "last offset far beyond the values", Some(1)),
    (Damage::RowBitsShort, "row bitmap one byte short", Some(2)),
    (Damage::RowBitsOneBitShort, "row bitmap one bit short", Some(2)),
    (Damage::RowBitsEmpty, "row bitmap emptied", None),
    (Damage::ElementBitsShort, "element bitmap one byte short", Some(2)),
    (Damage::ElementBitsOneBitShort, "element bitmap one bit short", Some(2)),
    (Damage::ElementBitsForShownOnly, "element bitmap for shown values only", Some(2)),
    (Damage::ElementBitsEmpty, "element bitmap emptied", None),
    (Damage::OneRowFewer, "one row fewer", Some(3)),
    (Damage::OneRowMore, "one row more", Some(3)),
    (Damage::NoRows, "no rows", Some(3)),
    (Damage::NoOffsets, "no offsets", Some(3)),
    (Damage::ArgumentStartOver, "bitmap from a bit over 7", Some(13)),
    (Damage::ArgumentStartOverAlone, "no bitmap, from a bit over 7", Some(13)),
    (Damage::ArgumentBitsShort, "bitmap one byte short", Some(2)),
    (Damage::ArgumentBitsOneBitShort, "bitmap one bit short", Some(2)),
    (Damage::ArgumentBitsEmpty, "bitmap emptied", None),
    (Damage::ArgumentOneFewer, "one value fewer", Some(3)),
    (Damage::ArgumentOneMore, "one value more", Some(3)),
    (Damage::ArgumentEmpty, "no values", Some(3)),
];

/// A damage and the column that it is done to.
#[derive(Clone, Copy, PartialEq, Debug)]
pub struct Harm {
    pub column: Column,
    pub damage: Damage,
}

impl Harm {
    /// Every damage that can be done to a call of this entry.
    pub fn of(entry: Entry) -> Vec<Harm> {
        let columns = Column::all(entry).into_iter();
        let harms = columns.flat_map(|column| {
            DAMAGES.into_iter().map(move |(damage, _, _)| Harm { column, damage })
        });
        harms.filter(|harm| harm.suits()).collect()
    }

    /// Rows are counted by the first list, so that another has too many or too few.
    fn suits(self) -> bool {
        use Damage::*;
        let of_argument = matches!(
            self.damage,
            ArgumentStartOver
                | ArgumentStartOverAlone
                | ArgumentBitsShort
                | ArgumentBitsOneBitShort
                | ArgumentBitsEmpty
                | ArgumentOneFewer
                | ArgumentOneMore
                | ArgumentEmpty
        );
        match self.column {
            Column::List(0) => !of_argument && self.refusal() != Some(3),
            Column::List(_) => !of_argument,
            Column::Argument(_) => of_argument,
        }
    }

    fn line(self) -> (Damage, &'static str, Option<u32>) {
        let line = DAMAGES.into_iter().find(|(damage, _, _)| *damage == self.damage);
        line.expect("every damage has a line")
    }

    pub fn name(self, entry: Entry) -> String {
        format!("{}: {}", self.column.name(entry), self.line().1)
    }

    pub fn refusal(self) -> Option<u32> {
        self.line().2
    }

    /// Whether a bitmap goes, which may have been damaged before.
    pub fn takes_bitmap(self) -> bool {
        use Damage::*;
        let damage = self.damage;
        matches!(damage, RowStartOverAlone | ElementStartOverAlone | ArgumentStartOverAlone)
    }

    /// A bitmap of one byte cannot be a byte short, for without it all is valid; and another damage
    /// may have left too few rows.
    pub fn is_possible(self, input: &Input) -> bool {
        match self.column {
            Column::List(at) => {
                let list = &input.lists[at];
                match self.damage {
                    Damage::NegativeFirst => !list.offsets.is_empty(),
                    Damage::ElementBitsShort | Damage::ElementBitsOneBitShort => true,
                    _ => list.row_count() > 8 || self.refusal() == Some(13),
                }
            }
            Column::Argument(at) => match self.damage {
                Damage::ArgumentBitsShort | Damage::ArgumentBitsOneBitShort => {
                    input.arguments[at].values.len() > 8
                }
                _ => true,
            },
        }
    }

    /// Damages columns that `damageable_shown` and `damageable_layout` made.
    pub fn apply(self, input: &mut Input, rng: &mut Rng) {
        match self.column {
            Column::List(at) => {
                self.damage.apply_to_list(&mut input.lists[at], input.entry.width, rng);
            }
            Column::Argument(at) => self.damage.apply_to_argument(&mut input.arguments[at], rng),
        }
    }
}

impl Damage {
    fn apply_to_list(self, list: &mut ListColumn, width: Width, rng: &mut Rng) {
        let rows = list.row_count();
        let last = list.offsets.last().copied().unwrap_or(0);
        match self {
            Damage::RowStartOver => list.rows.start = start_over_7(rng),
            Damage::RowStartOverAlone => list.rows = absent_over_7(rng),
            Damage::ElementStartOver => list.elements.start = start_over_7(rng),
            Damage::ElementStartOverAlone => list.elements = absent_over_7(rng),
            Damage::NegativeFirst => {
                list.offsets[0] = rng.pick(&[-1, -2, -2147483648, width.smallest_offset()]);
            }
            Damage::FallingAtFirst => fall_at(list, 1),
            Damage::FallingInside => fall_at(list, 2 + rng.below(rows - 2)),
            Damage::FallingAtLast => fall_at(list, rows),
            Damage::LastBeyondByOne => list.offsets[rows] = list.values.len() as i64 + 1,
            Damage::LastFarBeyond => {
                let (near, largest) = (list.values.len() as i64 + 9, width.largest_offset());
                list.offsets[rows] = rng.pick(&[near, 2147483647, largest - 1, largest]);
            }
            Damage::RowBitsShort => one_byte_short(&mut list.rows, rows),
            Damage::RowBitsOneBitShort => one_bit_short(&mut list.rows, rows),
            Damage::RowBitsEmpty => list.rows.bytes.clear(),
            Damage::ElementBitsShort => one_byte_short(&mut list.elements, list.values.len()),
            Damage::ElementBitsOneBitShort => one_bit_short(&mut list.elements, list.values.len()),
            Damage::ElementBitsForShownOnly => {
                let bytes = list.elements.needed(last as usize);
                list.elements.bytes.truncate(bytes);
            }
            Damage::ElementBitsEmpty => list.elements.bytes.clear(),
            Damage::OneRowFewer => list.offsets.truncate(rows),
            Damage::OneRowMore => {
                list.offsets.push(last);
                list.rows.bytes.push(0xff);
            }
            Damage::NoRows => list.offsets.truncate(1),
            Damage::NoOffsets => list.offsets.clear(),
            _ => unreachable!("damage of an argument column"),
        }
    }

    fn apply_to_argument(self, argument: &mut ArgumentColumn, rng: &mut Rng) {
        match self {
            Damage::ArgumentStartOver => argument.bits.start = start_over_7(rng),
            Damage::ArgumentStartOverAlone => argument.bits = absent_over_7(rng),
            Damage::ArgumentBitsShort => one_byte_short(&mut argument.bits, argument.values.len()),
            Damage::ArgumentBitsOneBitShort => {
                one_bit_short(&mut argument.bits, argument.values.len());
            }
            Damage::ArgumentBitsEmpty => argument.bits.bytes.clear(),
            Damage::ArgumentOneFewer => argument.values.truncate(argument.values.len() - 1),
            Damage::ArgumentOneMore => {
                argument.values.push(random_value(rng));
                argument.bits.bytes.push(0xff);
            }
            Damage::ArgumentEmpty => argument.values.clear(),
            _ => unreachable!("damage of a list column"),
        }
    }
}

pub fn absent_over_7(rng: &mut Rng) -> Bitmap {
    Bitmap { bytes: Vec::new(), start: start_over_7(rng) }
}

pub fn one_byte_short(bitmap: &mut Bitmap, positions: usize) {
    let bytes = bitmap.needed(positions) - 1;
    bitmap.bytes.truncate(bytes);
}

/// Moves the starting bit, so that the last position alone lies behind the last byte.
pub fn one_bit_short(bitmap: &mut Bitmap, positions: usize) {
    bitmap.start = (9 - positions % 8) % 8;
    one_byte_short(bitmap, positions);
}

/// Makes one offset one less than the offset before it; the pair is the only one that falls.
fn fall_at(list: &mut ListColumn, place: usize) {
    list.offsets[place] = list.offsets[place - 1] - 1;
}

/// Rows and arguments that every damage can be done to: more than eight rows, of which the first
/// is valid and not empty.
pub fn damageable_shown(entry: Entry, rng: &mut Rng) -> Shown {
    let shape = RowShape {
        count: rng.pick(&[9, 10, 16, 17, 33]),
        longest: 3,
        most_values: 400,
        null_rows: rng.pick(&[0, 1, 4]),
        null_elements: rng.pick(&[0, 1, 4]),
    };
    let mut lists = random_lists(entry, shape, rng);
    for list in &mut lists {
        list[0] = Some(vec![Some(1), None, Some(3)]);
    }
    Shown { arguments: accepted_columns(entry, &lists, rng), lists }
}

/// A layout that every damage can be done to: values before the first offset, more than eight
/// values behind the last, and bitmaps of just enough bytes.
pub fn damageable_layout(rng: &mut Rng) -> Layout {
    Layout {
        lead: 1 + rng.below(9),
        behind: 9 + rng.below(9),
        under_null_rows: rng.below(3),
        numbers_under_nulls: true,
        spare_bits: rng.chance(1, 2),
        rows_start: random_start(rng),
        elements_start: random_start(rng),
        ..Layout::default()
    }
}

// Outputs.

/// How long the outputs are, compared with what the result takes.
#[derive(Clone, Copy, PartialEq, Debug)]
pub enum Room {
    Exact,
    /// Each slice longer by this many slots.
    Longer(usize),
    /// The slice of this number one slot short, the others exact or longer by this many slots.
    Short(usize, usize),
    /// Each slice exact, or longer, or now and then shorter.
    Any,
}

/// The longest bitmap that is lent for a result: enough for the most values, and some more.
pub const MOST_BITMAP_BYTES: usize = 4096;

/// The longest work area that is lent: enough for two rows of the most values, and some more.
const MOST_AREA_SLOTS: usize = 4 * MOST_VALUES + 16;

/// Slots for a result that no slice has room for: few, or all that the byte entry takes.
fn too_few(most: usize, rng: &mut Rng) -> usize {
    if most < MOST_HELD && rng.chance(1, 32) {
        most
    } else {
        rng.below(9)
    }
}

/// The slots that the result takes in each output, and those that a work area must have; where the
/// columns are refused, slots that would be enough for a copy.
pub fn needed_slots(input: &Input) -> Vec<usize> {
    let mut slots = slots_of_result(input);
    if input.entry.is_hashed() {
        let shown = hashed::shown(input.entry.known_operation(), &input.lists);
        slots.push(shown.map_or(7, |shown| hashed::least_area(&shown.lists)));
    }
    slots
}

fn slots_of_result(input: &Input) -> Vec<usize> {
    let made = match input.entry.operation() {
        Some(operation) => {
            model::rows_made(input.entry.width, operation, &input.lists, input.taken())
        }
        None => Err(0),
    };
    if let Ok(made) = made {
        return model::slots_needed(&made).iter().map(|slots| *slots as usize).collect();
    }
    let list = &input.lists[0];
    let rows = list.row_count() as u64;
    let counts = [rows, list.values.len() as u64, 0, 0, rows, 0];
    input.entry.written_slots(&counts[..input.entry.results().len()])
}

pub fn room_for(needed: usize, slice: usize, room: Room, rng: &mut Rng) -> usize {
    match room {
        Room::Exact => needed,
        Room::Longer(more) => needed + more,
        Room::Short(short, _) if short == slice => needed.max(1) - 1,
        Room::Short(_, more) => needed + more,
        Room::Any => match rng.below(16) {
            0 => needed.max(1) - 1,
            1..=7 => needed,
            _ => needed + rng.below(5),
        },
    }
}

/// The call on these columns, with outputs of the given room that hold random bytes; no output is
/// larger than the byte entry takes.
pub fn lend(input: &Input, room: Room, rng: &mut Rng) -> Case {
    if input.entry.has_steps() {
        return lend_recipe(input, room, rng);
    }
    let most_free = |kind: &SliceKind| match kind.content {
        Content::Area => MOST_AREA_SLOTS,
        _ => MOST_BITMAP_BYTES,
    };
    lend_within(input, room, |kind| kind.most.unwrap_or(most_free(kind)), rng)
}

/// The same with outputs as long as a typed call needs them.
pub fn lend_typed(input: &Input, room: Room, rng: &mut Rng) -> Case {
    if input.entry.has_steps() {
        return lend_recipe_within(input, room, |_| MOST_HELD, rng);
    }
    lend_within(input, room, |_| MOST_HELD, rng)
}

fn lend_within(
    input: &Input,
    room: Room,
    most: impl Fn(&SliceKind) -> usize,
    rng: &mut Rng,
) -> Case {
    let needed = needed_slots(input);
    let mut outputs = Vec::new();
    for (slice, kind) in input.entry.outputs().iter().enumerate() {
        let most = most(kind);
        let slots = if needed[slice] > most {
            too_few(most, rng)
        } else {
            room_for(needed[slice], slice, room, rng).min(most)
        };
        outputs.push(rng.bytes(slots * kind.width));
    }
    let more_counts = rng.pick(&[0, 0, 1, 8, 9]);
    let counts = rng.bytes(input.entry.count_bytes() + more_counts);
    Case::new(input, outputs, counts)
}
