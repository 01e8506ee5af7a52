//! Short columns and boundary arguments, all of them: every offset and bitmap of a list, every
//! boundary number of an argument, every sum of counts, over small alphabets.

use crate::compare::Checker;
use crate::entry::{Entry, Input};
use crate::generate::{accepted_columns, random_rows, small_shape, RowShape};
use crate::generate::{boundaries, input_of, lend, random_beside, random_layouts, Room};
use crate::model::{
    shown_rows, Bitmap, Element, ListColumn, Operation, Role, Row, Shown, Width, UNDER_NULL,
};
use crate::rng::Rng;

/// Different values, among them 0 and the extremes; first what null slots of results hold.
const VALUES: [i64; 4] = [UNDER_NULL, 7, 0, i64::MAX];

/// Every word of this length over the letters.
pub fn words<T: Copy>(letters: &[T], length: usize) -> Vec<Vec<T>> {
    let mut all = vec![Vec::new()];
    for _ in 0..length {
        let longer = |word: &Vec<T>| {
            let word = word.clone();
            letters.iter().map(move |letter| [word.as_slice(), &[*letter]].concat())
        };
        all = all.iter().flat_map(longer).collect();
    }
    all
}

/// Every list of offsets from 0 to `most` in which none falls.
fn rising_offsets(slots: usize, most: usize) -> Vec<Vec<i64>> {
    let letters: Vec<i64> = (0..=most as i64).collect();
    let mut all = words(&letters, slots);
    all.retain(|offsets| offsets.windows(2).all(|pair| pair[0] <= pair[1]));
    all
}

/// The absent bitmap, and every bitmap of one byte, its spare bits all 0 or all 1 by turns.
fn bitmaps(positions: usize) -> Vec<Vec<u8>> {
    let mut all = vec![Vec::new()];
    for bits in 0..1u8 << positions {
        let spare = if bits % 2 == 0 { 0xff << positions } else { 0 };
        all.push(vec![bits | spare]);
    }
    all
}

/// Every way in which values may be equal to each other.
fn equalities(count: usize) -> Vec<Vec<i64>> {
    let letters: Vec<usize> = (0..count).collect();
    let mut all = words(&letters, count);
    let first_uses_in_order = |word: &Vec<usize>| {
        let mut next = 0;
        word.iter().all(|letter| {
            next += usize::from(*letter == next);
            *letter < next
        })
    };
    all.retain(first_uses_in_order);
    all.iter().map(|word| word.iter().map(|letter| VALUES[*letter]).collect()).collect()
}

/// Whether other columns stand beside the one that is tried in every form.
fn has_others(entry: Entry) -> bool {
    entry.lists() + entry.roles().len() > 1
}

fn value_lists(entry: Entry, count: usize) -> Vec<Vec<i64>> {
    match entry.known_operation() {
        Operation::Distinct => equalities(count),
        _ => vec![VALUES[..count].to_vec()],
    }
}

/// The most values for this many offsets, which bounds the number of columns.
fn most_values(entry: Entry, slots: usize) -> usize {
    let fewer = entry.known_operation() == Operation::Distinct && slots == 4 || has_others(entry);
    if fewer || entry.is_wide() {
        3
    } else {
        4
    }
}

/// Outputs exact, longer, or one slot short, by turns.
fn room_by_turns(turn: u64, entry: Entry) -> Room {
    match turn % 8 {
        0..=3 => Room::Exact,
        4 => Room::Longer(1),
        5 | 6 => Room::Longer(5),
        _ => Room::Short(turn as usize / 8 % entry.outputs().len(), 1),
    }
}

fn check_input(checker: &mut Checker, input: &Input, rng: &mut Rng) {
    let room = room_by_turns(checker.calls, input.entry);
    checker.check(&lend(input, room, rng));
}

fn check_shown(checker: &mut Checker, entry: Entry, shown: &Shown, rng: &mut Rng) {
    let layouts = random_layouts(entry, rng);
    check_input(checker, &input_of(entry, shown, &layouts, rng), rng);
}

/// A list as it stands in one place of a call, with random columns beside it that suit its rows.
fn check_beside(
    checker: &mut Checker,
    entry: Entry,
    place: usize,
    list: &ListColumn,
    rows: &[Row],
    rng: &mut Rng,
) {
    let shown = random_beside(entry, place, rows, rng);
    let layouts = random_layouts(entry, rng);
    let mut input = input_of(entry, &shown, &layouts, rng);
    input.lists[place] = list.clone();
    check_input(checker, &input, rng);
}

/// Every well-formed column of at most four offsets and three or four values, as each list; of large
/// lists, whose rows are the same, at most three.
pub fn short_columns(checker: &mut Checker, entry: Entry, rng: &mut Rng, _calls: u64) {
    let most_slots = if entry.is_wide() { 3 } else { 4 };
    for slots in 0..=most_slots {
        for count in 0..=most_values(entry, slots) {
            for offsets in rising_offsets(slots, count) {
                for values in value_lists(entry, count) {
                    let list =
                        ListColumn { offsets: offsets.clone(), values, ..Default::default() };
                    check_every_bitmap(checker, entry, list, rng);
                }
            }
        }
    }
}

fn check_every_bitmap(checker: &mut Checker, entry: Entry, mut list: ListColumn, rng: &mut Rng) {
    for rows in bitmaps(list.row_count()) {
        list.rows = starting(&rows, rng);
        for elements in bitmaps(list.values.len()) {
            list.elements = starting(&elements, rng);
            for place in 0..entry.lists() {
                for _ in 0..draws(entry) {
                    check_beside(checker, entry, place, &list, &shown_rows(&list), rng);
                }
            }
        }
    }
}

/// The same bits from some bit on, with anything before them.
fn starting(bytes: &[u8], rng: &mut Rng) -> Bitmap {
    let start = rng.pick(&[0, 0, 0, 3, 4, 7]);
    let mut bytes = bytes.to_vec();
    if let (1.., [byte]) = (start, &bytes[..]) {
        let bits = u16::from(*byte) << start | (rng.next() as u16 & !(0xffff << start));
        bytes = bits.to_le_bytes().to_vec();
    }
    Bitmap { bytes, start }
}

/// How often columns are drawn beside one list.
fn draws(entry: Entry) -> usize {
    match entry.roles().len() {
        0 => 1,
        _ => 3,
    }
}

/// Every list of at most four offsets over a small alphabet, most of them refused, as each list.
pub fn short_offsets(checker: &mut Checker, entry: Entry, rng: &mut Rng, _calls: u64) {
    for slots in 0..=4 {
        for offsets in words(&[-1, 0, 1, 2, 3, entry.width.largest_offset()], slots) {
            for count in [0, 2, 3] {
                let list = ListColumn {
                    offsets: offsets.clone(),
                    values: VALUES[..count].to_vec(),
                    rows: short_bitmap(rng),
                    elements: short_bitmap(rng),
                };
                let rows = vec![Some(vec![Some(7)]); slots.max(1) - 1];
                for place in 0..entry.lists() {
                    check_beside(checker, entry, place, &list, &rows, rng);
                }
            }
        }
    }
}

/// No bitmap, or one of a byte, from a bit at which it still covers four positions.
fn short_bitmap(rng: &mut Rng) -> Bitmap {
    let bytes = rng.pick(&[&[][..], &[0xff], &[5]]).to_vec();
    Bitmap { bytes, start: rng.below(5) }
}

// Arguments beside one row.

/// Every row of at most this many elements over null, 0 and the number of null slots, and the null
/// row.
fn short_rows(longest: usize) -> Vec<Row> {
    let rows = (0..=longest).flat_map(|length| words(&[None, Some(0), Some(UNDER_NULL)], length));
    rows.map(Some).chain([None]).collect()
}

/// Rows of every length to four, whose elements differ, and the null row.
fn rows_of_each_length() -> Vec<Row> {
    let elements = [Some(UNDER_NULL), None, Some(0), Some(7)];
    (0..=4).map(|length| Some(elements[..length].to_vec())).chain([None]).collect()
}

/// One row of each list: all pairs for two lists, few rows for many arguments.
fn row_choices(operation: Operation, lists: usize) -> Vec<Vec<Row>> {
    let rows = match operation {
        _ if lists == 2 => short_rows(4),
        Operation::Element | Operation::Slice | Operation::SliceWithoutStride => {
            rows_of_each_length()
        }
        _ => short_rows(3),
    };
    let letters: Vec<&Row> = rows.iter().collect();
    words(&letters, lists)
        .iter()
        .map(|rows| rows.iter().map(|row| (*row).clone()).collect())
        .collect()
}

/// Null, and every boundary number.
fn argument_choices(width: Width, role: Role, row: &Row) -> Vec<Element> {
    let row = row.as_deref().unwrap_or(&[Some(7), None]);
    [None].into_iter().chain(boundaries(width, role, row).into_iter().map(Some)).collect()
}

/// Every choice of a value for each argument of one row.
fn argument_words(entry: Entry, row: &Row) -> Vec<Vec<Element>> {
    let mut all = vec![Vec::new()];
    for role in entry.roles() {
        let choices = argument_choices(entry.width, *role, row);
        let longer = |word: &Vec<Element>| {
            let word = word.clone();
            choices.iter().map(move |choice| [word.as_slice(), &[*choice]].concat())
        };
        all = all.iter().flat_map(longer).collect();
    }
    all
}

/// Every boundary number, and null, for every argument of one row; every pair of short rows. Where
/// these are few, they are gone through again in other layouts.
pub fn every_argument(checker: &mut Checker, entry: Entry, rng: &mut Rng, _calls: u64) {
    let operation = entry.known_operation();
    while checker.calls < 5000 {
        for rows in row_choices(operation, entry.lists()) {
            for arguments in argument_words(entry, &rows[0]) {
                let shown = Shown {
                    lists: rows.iter().map(|row| vec![row.clone()]).collect(),
                    arguments: arguments.into_iter().map(|argument| vec![argument]).collect(),
                };
                check_shown(checker, entry, &shown, rng);
            }
        }
    }
}

// Sums over rows.

/// Counts whose sums lie about 2147483647 and about 2 to the 64.
const COUNTS: [Element; 11] = [
    None,
    Some(-1),
    Some(0),
    Some(1),
    Some(2),
    Some(2147483646),
    Some(2147483647),
    Some(2147483648),
    Some(4294967295),
    Some(i64::MAX - 1),
    Some(i64::MAX),
];

/// The same of large lists, about 1152921504606846975.
const LARGE_COUNTS: [Element; 11] = [
    None,
    Some(-1),
    Some(0),
    Some(1),
    Some(2),
    Some(2147483648),
    Some(1152921504606846974),
    Some(1152921504606846975),
    Some(1152921504606846976),
    Some(i64::MAX - 1),
    Some(i64::MAX),
];

/// Times whose sums, once, twice or three times, lie about 2147483647.
const TIMES: [Element; 12] = [
    None,
    Some(-1),
    Some(0),
    Some(1),
    Some(715827882),
    Some(715827883),
    Some(1073741823),
    Some(1073741824),
    Some(2147483646),
    Some(2147483647),
    Some(2147483648),
    Some(i64::MAX),
];

/// The same of large lists, about 1152921504606846974 and 1152921504606846975, and such as pass 2 to
/// the 63 or 2 to the 64 two or three times.
const LARGE_TIMES: [Element; 14] = [
    None,
    Some(-1),
    Some(0),
    Some(1),
    Some(2147483648),
    Some(384307168202282325),
    Some(384307168202282326),
    Some(576460752303423487),
    Some(576460752303423488),
    Some(1152921504606846974),
    Some(1152921504606846975),
    Some(1152921504606846976),
    Some(6148914691236517206),
    Some(i64::MAX),
];

/// Counts whose sums lie about the most values that the entry takes.
const COUNTS_AT_SIZE: [&[i64]; 6] =
    [&[16383], &[16384], &[16385], &[0, 16383, 1], &[16384, 1], &[1, 16384]];

/// Lengths of lists with times, whose sums lie about the most lists or values of the entry; -1 is
/// a null list.
const TIMES_AT_SIZE: [&[(i64, i64)]; 11] = [
    &[(0, 16384)],
    &[(0, 16385)],
    &[(-1, 16384)],
    &[(-1, 16385)],
    &[(-1, 1), (0, 16384)],
    &[(1, 16384)],
    &[(2, 8192)],
    &[(2, 8192), (1, 1)],
    &[(1, 1), (-1, 8), (2, 8192)],
    &[(3, 5461), (1, 1)],
    &[(3, 5461), (2, 1)],
];

/// Every short column of counts, or of lists and times, with sums at their limits in every order.
pub fn every_sum(checker: &mut Checker, entry: Entry, rng: &mut Rng, _calls: u64) {
    if entry.known_operation() == Operation::ListRepeat {
        return every_repeated_sum(checker, entry, rng);
    }
    for length in 1..=4 {
        for counts in words(counts_of(entry.width), length) {
            check_counts(checker, entry, counts, rng.pick(&[0, 0, 2]), rng);
        }
    }
    for counts in COUNTS_AT_SIZE {
        check_counts(checker, entry, counts.iter().copied().map(Some).collect(), 0, rng);
    }
}

fn counts_of(width: Width) -> &'static [Element] {
    match width {
        Width::Narrow => &COUNTS,
        Width::Wide => &LARGE_COUNTS,
    }
}

fn times_of(width: Width) -> &'static [Element] {
    match width {
        Width::Narrow => &TIMES,
        Width::Wide => &LARGE_TIMES,
    }
}

fn check_counts(
    checker: &mut Checker,
    entry: Entry,
    counts: Vec<Element>,
    null_rows: usize,
    rng: &mut Rng,
) {
    let count = counts.len();
    let rows = random_rows(RowShape { count, longest: 2, null_rows, ..small_shape(rng) }, rng);
    let mut arguments = vec![counts];
    if entry.roles().len() == 2 {
        let fills = [None, Some(0), Some(UNDER_NULL)];
        arguments.push((0..count).map(|_| rng.pick(&fills)).collect());
    }
    check_shown(checker, entry, &Shown { lists: vec![rows], arguments }, rng);
}

fn every_repeated_sum(checker: &mut Checker, entry: Entry, rng: &mut Rng) {
    let times = times_of(entry.width);
    let letters: Vec<(i64, Element)> =
        (-1..=3).flat_map(|length| times.iter().map(move |times| (length, *times))).collect();
    let wrapping: Vec<(i64, Element)> = [-1, 1, 2, i64::MAX]
        .into_iter()
        .flat_map(|times| [(-1, Some(times)), (0, Some(times))])
        .collect();
    for word in [words(&letters, 1), words(&letters, 2), words(&wrapping, 3)].concat() {
        check_repeated(checker, entry, &word, rng);
    }
    for lists in TIMES_AT_SIZE {
        let word: Vec<_> = lists.iter().map(|(length, times)| (*length, Some(*times))).collect();
        check_repeated(checker, entry, &word, rng);
    }
}

fn check_repeated(checker: &mut Checker, entry: Entry, word: &[(i64, Element)], rng: &mut Rng) {
    let row = |length: i64| usize::try_from(length).ok().map(|length| vec![Some(4); length]);
    let shown = Shown {
        lists: vec![word.iter().map(|(length, _)| row(*length)).collect()],
        arguments: vec![word.iter().map(|(_, times)| *times).collect()],
    };
    check_shown(checker, entry, &shown, rng);
}

// Limit columns.

/// Limit columns of every length beside no rows to nine: one value, or as many as rows, else 3.
pub fn every_limit_length(checker: &mut Checker, entry: Entry, rng: &mut Rng, _calls: u64) {
    for rows in 0..=9 {
        for limits in (0..=rows + 2).flat_map(|limits| [limits; 8]) {
            let shape = RowShape { count: rows, longest: 3, ..small_shape(rng) };
            let lists = vec![random_rows(shape, rng)];
            let mut arguments = accepted_columns(entry, &lists, rng);
            let null = rng.pick(&[0, 1, 8]);
            let limit = |_| (!rng.chance(null, 8)).then(|| rng.pick(&[-1, 0, 1, 2, i64::MAX]));
            *arguments.last_mut().expect("a limit column") = (0..limits).map(limit).collect();
            let layouts = random_layouts(entry, rng);
            let input = input_of(entry, &Shown { lists, arguments }, &layouts, rng);
            let case = lend(&input, Room::Longer(1), rng);
            checker.check(&case);
            let accepted = limits == rows || limits == 1;
            let number = if accepted { 0 } else { 3 };
            checker.require(case.expected().number == number, &case, "a limit column misjudged");
        }
    }
}
