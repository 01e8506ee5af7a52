//! Large columns, which typed entries alone take: rows of 100000 elements, a million rows, some
//! millions of values, null rows over much that is not shown; from every starting bit, cut out of
//! more values, and refused for what lies at their far end. Elements take few different values, so
//! that the operations which compare elements stay linear.

use crate::compare::Checker;
use crate::entry::{Case, Entry, Expected, Input, Kind, AREA};
use crate::generate::{lend_typed, needed_slots, Damage, Harm, Room};
use crate::model::{self, ArgumentColumn, Bitmap, ListColumn, Operation, ResultForm};
use crate::model::{Role, Slots, Width, UNDER_NULL};
use crate::rng::Rng;

/// The elements of these columns.
const ALPHABET: [i64; 8] = [0, 7, -1, UNDER_NULL, i64::MAX, 7, 0, 3];

/// What a large column is like; nulls are given in eighths.
#[derive(Clone, Copy)]
struct Large {
    rows: usize,
    /// The least and the most elements of a valid row, and values under a null one.
    shown: (usize, usize),
    hidden: (usize, usize),
    null_rows: usize,
    null_elements: usize,
    /// Values before the first offset and behind the last.
    around: (usize, usize),
    /// No bitmaps at all, where nothing is null.
    no_bitmaps: bool,
    /// The starting bit of the row bitmap; those of the others are counted on from it.
    start: usize,
}

const LONG_ROWS: Large = Large {
    rows: 21,
    shown: (99_990, 100_010),
    hidden: (0, 9),
    null_rows: 1,
    null_elements: 1,
    around: (5, 3),
    no_bitmaps: false,
    start: 3,
};

const MANY_ROWS: Large = Large {
    rows: 1_000_000,
    shown: (0, 3),
    hidden: (0, 2),
    null_rows: 1,
    null_elements: 1,
    around: (1, 0),
    no_bitmaps: false,
    start: 5,
};

const MUCH_HIDDEN: Large = Large {
    rows: 24,
    shown: (0, 5),
    hidden: (100_000, 200_000),
    null_rows: 4,
    null_elements: 2,
    around: (100_000, 100_000),
    no_bitmaps: false,
    start: 1,
};

const MANY_VALUES: Large = Large {
    rows: 12_000,
    shown: (200, 300),
    hidden: (0, 0),
    null_rows: 0,
    null_elements: 0,
    around: (0, 7),
    no_bitmaps: true,
    start: 0,
};

/// Rows for every starting bit.
const SOME_ROWS: Large = Large { rows: 20_000, shown: (0, 9), ..MANY_ROWS };

/// Bits one after another from a starting bit on, behind some that are not seen.
struct Bits {
    bytes: Vec<u8>,
    start: usize,
    end: usize,
}

impl Bits {
    fn new(start: usize, rng: &mut Rng) -> Bits {
        Bits { bytes: vec![rng.next() as u8 & !(0xff << start)], start, end: start }
    }

    fn push(&mut self, bit: bool) {
        if self.end / 8 == self.bytes.len() {
            self.bytes.push(0);
        }
        self.bytes[self.end / 8] |= u8::from(bit) << (self.end % 8);
        self.end += 1;
    }

    fn finish(self, absent: bool) -> Bitmap {
        let start = self.start;
        Bitmap { bytes: if absent { Vec::new() } else { self.bytes }, start }
    }
}

/// Values and their bits, while a column is made.
struct Places {
    values: Vec<i64>,
    bits: Bits,
    null_eighths: usize,
}

impl Places {
    /// Adds this many, of which so many eighths are null, and gives how many there are.
    fn push(&mut self, count: usize, null_eighths: usize, rng: &mut Rng) -> i64 {
        for _ in 0..count {
            let word = rng.next() as usize;
            self.values.push(ALPHABET[word % 8]);
            self.bits.push(word / 8 % 8 >= null_eighths);
        }
        self.values.len() as i64
    }

    /// Adds a row. A long one ends with a value that it has once, and some have nulls before it.
    fn push_row(&mut self, row: usize, length: usize, rng: &mut Rng) -> i64 {
        if length < LONG {
            return self.push(length, self.null_eighths, rng);
        }
        let all_null = self.null_eighths > 0 && row % 4 == 2;
        self.push(length - 1, if all_null { 8 } else { self.null_eighths }, rng);
        self.values.push(1000 + row as i64);
        self.bits.push(true);
        self.values.len() as i64
    }
}

/// The least length of a long row.
const LONG: usize = 1000;

impl Large {
    /// A column like this, the first of a call, the second, and so on.
    fn column(self, at: usize, rng: &mut Rng) -> ListColumn {
        let mut rows = Bits::new((self.start + 3 * at) % 8, rng);
        let bits = Bits::new((self.start + 3 * at + 2) % 8, rng);
        let mut places = Places { values: Vec::new(), bits, null_eighths: self.null_elements };
        let mut offsets = vec![places.push(self.around.0, 4, rng)];
        for row in 0..self.rows {
            // The first row and the last are valid and not empty, and so is the third.
            let is_sure = row == 0 || row == 2 || row + 1 == self.rows;
            let valid = is_sure || !rng.chance(self.null_rows, 8);
            let (least, most) = if valid { self.shown } else { self.hidden };
            let least = if is_sure { least.max(1) } else { least };
            let length = rng.between(least as i64, most as i64) as usize;
            rows.push(valid);
            offsets.push(places.push_row(row, length, rng));
        }
        places.push(self.around.1, 4, rng);
        let (rows, elements) = (rows.finish(self.no_bitmaps), places.bits.finish(self.no_bitmaps));
        ListColumn { offsets, rows, values: places.values, elements }
    }

    /// An argument for each row of this column.
    fn argument(self, at: usize, role: Role, list: &ListColumn, rng: &mut Rng) -> ArgumentColumn {
        let mut bits = Bits::new((self.start + 3 * at + 1) % 8, rng);
        let value = |row: usize| {
            bits.push(!rng.chance(self.null_rows.min(1), 8));
            argument_of(role, list.offsets[row + 1] - list.offsets[row], rng)
        };
        let values = (0..self.rows).map(value).collect();
        ArgumentColumn { values, bits: bits.finish(self.no_bitmaps) }
    }

    fn input(self, entry: Entry, rng: &mut Rng) -> Input {
        let lists: Vec<ListColumn> = (0..entry.lists()).map(|at| self.column(at, rng)).collect();
        let roles = entry.roles().iter().enumerate();
        let mut arguments: Vec<ArgumentColumn> =
            roles.map(|(at, role)| self.argument(at, *role, &lists[0], rng)).collect();
        arguments.resize_with(entry.arguments(), ArgumentColumn::default);
        Input { entry, numbers: Vec::new(), lists, arguments }
    }
}

/// A number for an argument beside a row of this length; what it makes is not much longer.
fn argument_of(role: Role, length: i64, rng: &mut Rng) -> i64 {
    match role {
        Role::Index => rng.between(-length - 1, length + 1),
        Role::From => rng.pick(&[0, 1, 2, 3, -length, length / 2]),
        Role::To => rng.pick(&[-1, -2, length, length + 9, length / 2 + 1, 2147483647]),
        Role::Stride => rng.pick(&[1, 1, 2, 3, 70_000]),
        Role::Count => (length + rng.between(-3, 3)).max(0),
        Role::Fill | Role::Old | Role::New => rng.pick(&ALPHABET),
        Role::Limit => rng.pick(&[0, 1, 2, 1000, i64::MAX]),
        Role::Times => rng.pick(&[-1, 0, 1, 1, 2]),
    }
}

// Calls.

/// What an operation makes of columns that are not refused, with room for all of it.
fn form_of(input: &Input) -> Result<ResultForm, u32> {
    let room = vec![usize::MAX; input.entry.outputs().len()];
    let (width, operation) = (input.entry.width, input.entry.known_operation());
    model::outcome(width, operation, &input.lists, input.taken(), &room)
}

fn slots_of(slots: &Slots) -> usize {
    match slots {
        Slots::Offsets(offsets) => offsets.len(),
        Slots::Bits(bytes) => bytes.len(),
        Slots::Values(values) => values.len(),
    }
}

/// The call with outputs of this many slots more than the result takes, or fewer for one of them.
fn lend_for(input: &Input, form: &ResultForm, more: usize, short: usize, rng: &mut Rng) -> Case {
    let kinds = input.entry.outputs().iter().zip(&form.slices).enumerate();
    let outputs = kinds.map(|(at, (kind, slots))| {
        let slots = slots_of(slots) + more;
        rng.bytes(kind.width * if at == short { slots.saturating_sub(more + 1) } else { slots })
    });
    let mut outputs: Vec<Vec<u8>> = outputs.collect();
    if input.entry.is_hashed() {
        let slots = needed_slots(input)[AREA] + more;
        outputs.push(rng.bytes(4 * slots));
    }
    Case::new(input, outputs, rng.bytes(input.entry.count_bytes() + 8))
}

/// No output is short.
const NONE: usize = usize::MAX;

fn check_large(checker: &mut Checker, input: &Input, more: usize, rng: &mut Rng) {
    let form = form_of(input);
    let Ok(form) = &form else {
        let case = lend_typed(input, Room::Exact, rng);
        return checker.require(false, &case, "a large column that is refused");
    };
    let case = lend_for(input, form, more, NONE, rng);
    let expected = case.with_area(Expected::accepted(form, input.entry.width));
    checker.check_typed_as(&case, &expected);
}

/// Every kind of large column, and columns from every starting bit; as large lists fewer and smaller.
pub fn columns(checker: &mut Checker, entry: Entry, rng: &mut Rng, _calls: u64) {
    if entry.is_wide() {
        let long = Large { rows: 5, shown: (100_000, 100_010), ..LONG_ROWS };
        let hidden = Large { rows: 9, null_rows: 7, around: (9, 9), ..MUCH_HIDDEN };
        let many = Large { rows: 70_000, shown: (0, 5), ..MANY_ROWS };
        for large in [long, hidden, many] {
            let more = rng.below(2);
            check_large(checker, &large.input(entry, rng), more, rng);
        }
        return;
    }
    for start in 0..8 {
        let large = Large { start, null_rows: start % 3, ..SOME_ROWS };
        check_large(checker, &large.input(entry, rng), start % 2, rng);
    }
    for large in [LONG_ROWS, MUCH_HIDDEN, MANY_VALUES, MANY_ROWS] {
        let more = rng.below(2);
        check_large(checker, &large.input(entry, rng), more, rng);
    }
}

// Refusals.

/// What is wrong at the far end of a column.
const AT_THE_END: [Damage; 9] = [
    Damage::FallingAtLast,
    Damage::LastBeyondByOne,
    Damage::RowBitsOneBitShort,
    Damage::ElementBitsOneBitShort,
    Damage::OneRowFewer,
    Damage::OneRowMore,
    Damage::ArgumentBitsOneBitShort,
    Damage::ArgumentOneFewer,
    Damage::ArgumentOneMore,
];

/// Refused for the last offset, bit or value of a column, for the last row, or for the last slot of
/// an output.
pub fn refused(checker: &mut Checker, entry: Entry, rng: &mut Rng, _calls: u64) {
    let rows = 66_000 + rng.below(9);
    let large = Large { rows, shown: (1, 3), ..MANY_ROWS };
    let input = large.input(entry, rng);
    for harm in Harm::of(entry).into_iter().filter(|harm| AT_THE_END.contains(&harm.damage)) {
        let mut input = input.clone();
        harm.apply(&mut input, rng);
        let number = harm.refusal().expect("a damage that is refused");
        check_refused(checker, &input, number, rng);
    }
    for number in entry.refusals() {
        let mut input = input.clone();
        if refuse_last_row(&mut input, *number) {
            check_refused(checker, &input, *number, rng);
        }
    }
    if let Ok(form) = form_of(&input) {
        for short in entry.results() {
            let case = lend_for(&input, &form, 1, short, rng);
            checker.check_typed_as(&case, &case.with_area(Expected::refusal(9)));
        }
    }
}

fn check_refused(checker: &mut Checker, input: &Input, number: u32, rng: &mut Rng) {
    let case = lend_typed(input, Room::Longer(1), rng);
    let observed = checker.check_typed(&case);
    checker.require(observed.number == number, &case, "the end of a large column misjudged");
}

/// Gives the last row arguments that are refused with this number; union's 8 takes more memory than
/// there is.
fn refuse_last_row(input: &mut Input, number: u32) -> bool {
    let numbers: &[i64] = match (input.entry.known_operation(), number) {
        (Operation::Union, _) => return false,
        (Operation::Element, _) => &[2147483648],
        (_, 4) => &[2147483648, -1, 1],
        (_, 5) => &[1, -1, 0],
        (_, 6) => &[1, -1, 2147483648],
        (_, 7) => &[-1, 0],
        _ if input.entry.is_wide() => &[1152921504606846976, 0],
        _ => &[2147483648, 0],
    };
    for (column, number) in input.arguments.iter_mut().zip(numbers) {
        let Some(last) = column.values.len().checked_sub(1) else {
            continue;
        };
        column.values[last] = *number;
        let bit = column.bits.start + last;
        column.bits.bytes[bit / 8] |= 1 << (bit % 8);
    }
    true
}

// Recipes.

const REVERSE: [u32; 4] = [0, 0, 0, 0];
const POP_FRONT: [u32; 4] = [2, 0, 0, 0];
const SLICE: [u32; 4] = [4, 0, 1, 2];
const RESIZE: [u32; 4] = [6, 3, 4, 0];
const UNION: [u32; 4] = [9, 0, 0, 0];

/// The argument columns of these steps.
const ROLES: [Role; 5] = [Role::From, Role::To, Role::Stride, Role::Count, Role::Fill];

/// Large columns through no steps, one and four, and one that is refused at its end.
pub fn recipes(checker: &mut Checker, entry: Entry, rng: &mut Rng, _calls: u64) {
    let long = Large { rows: 7, ..LONG_ROWS };
    let many = Large { rows: 150_000, ..MANY_ROWS };
    let all: [(Large, &[[u32; 4]], u32); 6] = [
        (long, &[], 0),
        (MUCH_HIDDEN, &[UNION, REVERSE], 0),
        (long, &[REVERSE, SLICE, POP_FRONT, RESIZE], 0),
        (many, &[UNION, POP_FRONT, RESIZE, REVERSE], 0),
        (many, &[POP_FRONT, RESIZE], 7),
        (many, &[REVERSE, SLICE, REVERSE], 9),
    ];
    for (large, steps, number) in all {
        check_recipe(checker, entry.width, large, steps, number, rng);
    }
}

/// A recipe that is accepted, or refused for its last count or for the output.
fn check_recipe(
    checker: &mut Checker,
    width: Width,
    large: Large,
    steps: &[[u32; 4]],
    number: u32,
    rng: &mut Rng,
) {
    let lists: Vec<ListColumn> = (0..2).map(|at| large.column(at, rng)).collect();
    let (mut values, mut bits) = (Vec::new(), Bits::new(6, rng));
    for role in ROLES {
        let column = large.argument(0, role, &lists[0], rng);
        (0..large.rows).for_each(|row| bits.push(column.bits.is_valid(row)));
        values.extend(column.values);
    }
    if number == 7 {
        values[4 * large.rows - 1] = -1;
        let bit = 6 + 4 * large.rows - 1;
        bits.bytes[bit / 8] |= 1 << (bit % 8);
    }
    let entry = Kind::Recipe { station: rng.below(16) as u32, columns: ROLES.len() }.at(width);
    let arguments = vec![ArgumentColumn { values, bits: bits.finish(false) }];
    let input = Input { entry, numbers: steps.concat(), lists, arguments };
    let room = if number == 9 { Room::Short(8, 1) } else { Room::Longer(1) };
    let case = lend_typed(&input, room, rng);
    let observed = checker.check_typed(&case);
    checker.require(observed.number == number, &case, "a recipe on large columns misjudged");
}
