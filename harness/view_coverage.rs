//! What calls of import met, and what a whole run must reach for it.

use crate::coverage::{chosen, demanded_null_slots, demanded_starts, shared_9, SHARED};
use crate::coverage::{has_bit_before, has_spare_bit, is_exact, is_longer, OUTPUT_LENGTHS};
use crate::entry::Entry;
use crate::model::UNDER_NULL;
use crate::view_groups;
use crate::views::ViewColumn;

/// The answers of import.
const ANSWERS: [u32; 8] = [0, 100, 13, 2, 3, 11, 8, 9];

const LAYOUTS: [&str; 24] = [
    "no rows",
    "no rows beside values",
    "views in order",
    "views out of order",
    "views that overlap",
    "equal views",
    "values that no view shows",
    "valid view of size 0 at the end",
    "valid view of size 0 before the end",
    "null row over values",
    "null row of size 0 above 0",
    "null row over what another row shows",
    "0 under a null element",
    "-9223372036854775808 under a null element",
    "another number under a null element",
    "valid -9223372036854775808 beside a null",
    "spare bit set",
    "bit before the start set",
    "row bitmap just long enough",
    "element bitmap just long enough",
    "bitmap longer than needed",
    "absent row bitmap",
    "absent element bitmap",
    "more elements than values",
];

/// The most rows that are compared with each other.
const MOST_SEEN: usize = 40;

fn layouts(view: &ViewColumn) -> Vec<&'static str> {
    let (rows, values) = (view.row_count(), view.values.len());
    let span = |row: usize| (view.offsets[row], view.offsets[row] + view.sizes[row]);
    let is_valid = |row: &usize| view.rows.is_valid(*row);
    let seen = || 0..rows.min(MOST_SEEN);
    let shown: Vec<(i64, i64)> =
        seen().filter(is_valid).map(span).filter(|(start, end)| start < end).collect();
    let hidden: Vec<(i64, i64)> = seen().filter(|row| !is_valid(row)).map(span).collect();
    let meet = |one: &(i64, i64), other: &(i64, i64)| one.0 < other.1 && other.0 < one.1;
    let pairs = || shown.iter().enumerate().flat_map(|(at, one)| shown[..at].iter().zip([one; 40]));
    let is_shown = |place: &usize| {
        let place = *place as i64;
        shown.iter().any(|(start, end)| *start <= place && place < *end)
    };
    let places = || (0..values.min(200)).filter(is_shown);
    let hides = |is: &dyn Fn(i64) -> bool| {
        places().any(|place| !view.elements.is_valid(place) && is(view.values[place]))
    };
    let null_at = |place: usize| !view.elements.is_valid(place);
    let has_both = shown.iter().any(|(start, end)| {
        let mut places = *start as usize..*end as usize;
        places.clone().any(null_at)
            && places.any(|place| !null_at(place) && view.values[place] == UNDER_NULL)
    });
    let empty = |end: bool| {
        let is_empty = |row: usize| {
            view.sizes[row] == 0 && (view.offsets[row] == values as i64) == end && values > 0
        };
        seen().filter(is_valid).any(is_empty)
    };
    let holds = [
        rows == 0,
        rows == 0 && values > 0,
        shown.len() > 1 && shown.windows(2).all(|pair| pair[0].1 <= pair[1].0),
        shown.windows(2).any(|pair| pair[1].0 < pair[0].0),
        pairs().any(|(one, other)| meet(one, other) && one != other),
        pairs().any(|(one, other)| one == other),
        rows <= MOST_SEEN && (0..values.min(200)).any(|place| !is_shown(&place)),
        empty(true),
        empty(false),
        hidden.iter().any(|(start, end)| start < end),
        hidden.iter().any(|(start, end)| start == end && *start > 0),
        hidden.iter().any(|one| shown.iter().any(|other| meet(one, other))),
        hides(&|number| number == 0),
        hides(&|number| number == UNDER_NULL),
        hides(&|number| number != 0 && number != UNDER_NULL),
        has_both,
        has_spare_bit(&view.rows, rows) || has_spare_bit(&view.elements, values),
        has_bit_before(&view.rows) || has_bit_before(&view.elements),
        is_exact(&view.rows, rows),
        is_exact(&view.elements, values),
        is_longer(&view.rows, rows) || is_longer(&view.elements, values),
        rows > 0 && view.rows.bytes.is_empty(),
        !shown.is_empty() && view.elements.bytes.is_empty(),
        view.copied() > values as u128,
    ];
    chosen(LAYOUTS, holds)
}

const OUTSIDE: [&str; 9] = [
    "offset below 0 alone",
    "size below 0 alone",
    "sum one beyond alone",
    "sum further beyond alone",
    "offset one beyond",
    "size one beyond",
    "sum beyond 32 bits",
    "sum within after 32 bits",
    "offset and size below 0",
];

/// In which ways a view lies outside the values.
fn outside(view: &ViewColumn, row: usize) -> Vec<&'static str> {
    let (offset, size, values) = (view.offsets[row], view.sizes[row], view.values.len() as i64);
    let within = |number: i64| 0 <= number && number <= values;
    let both = within(offset) && within(size);
    let wrapped = i64::from((offset + size) as i32);
    let holds = [
        offset < 0 && within(size) && within(offset + size),
        size < 0 && within(offset) && within(offset + size),
        both && offset + size == values + 1,
        both && offset + size > values + 1,
        offset == values + 1 && size == 0,
        offset == 0 && size == values + 1,
        offset + size > i64::from(i32::MAX),
        wrapped != offset + size && within(wrapped),
        offset < 0 && size < 0,
    ];
    chosen(OUTSIDE, holds)
}

const OF: [&str; 2] = ["of a null row", "of a valid row"];
const AT: [&str; 3] = ["the first row", "the last row", "a row inside"];

const SUMS: [&str; 8] = [
    "2147483646 copied: 9",
    "2147483647 copied: 9",
    "2147483648 copied: 8",
    "4294967295 copied: 8",
    "4294967296 copied: 8",
    "4294967297 copied: 8",
    "null rows beyond 2147483647: 9",
    "null rows beyond 2147483647: 0",
];

fn sums(view: &ViewColumn, number: u32) -> Vec<&'static str> {
    let copied = view.copied();
    let beyond = copied < 1 << 31 && view.sizes.iter().sum::<i64>() >= 1 << 31;
    let name = if beyond {
        format!("null rows beyond 2147483647: {number}")
    } else {
        format!("{copied} copied: {number}")
    };
    SUMS.into_iter().filter(|sum| *sum == name).collect()
}

/// What a call that is answered so met.
pub fn met(view: &ViewColumn, number: u32) -> Vec<(&'static str, String)> {
    let mut met: Vec<(&str, String)> = Vec::new();
    let mut add = |kind: &'static str, subject: &str| met.push((kind, subject.to_string()));
    if number == 0 {
        layouts(view).into_iter().for_each(|name| add("layout", name));
    }
    if matches!(number, 0 | 8 | 9) {
        sums(view, number).into_iter().for_each(|name| add("sum", name));
    }
    let rows = view.row_count();
    let is_outside = |row: &usize| number == 11 && view.is_outside(*row);
    if let [row] = (0..rows).filter(is_outside).take(2).collect::<Vec<usize>>()[..] {
        let of = OF[usize::from(view.rows.is_valid(row))];
        let at = AT[if row == 0 { 0 } else { 2 - usize::from(row + 1 == rows) }];
        for name in outside(view, row) {
            add("outside", &format!("{name} {of}"));
            add("outside", &format!("{name} in {at}"));
        }
    }
    met
}

/// Everything that a whole run must reach.
pub fn demanded() -> Vec<(&'static str, String)> {
    let mut all: Vec<(&'static str, String)> = Vec::new();
    let mut add = |kind: &'static str, subjects: &[&str]| {
        all.extend(subjects.iter().map(|subject| (kind, subject.to_string())));
    };
    add("layout", &LAYOUTS);
    add("sum", &SUMS);
    add("outputs", &OUTPUT_LENGTHS);
    let outputs: Vec<&str> = Entry::IMPORT.outputs().iter().map(|kind| kind.name).collect();
    add("one slot short", &outputs);
    let damages: Vec<String> = view_groups::damages().iter().map(|one| one.name()).collect();
    all.extend(damages.into_iter().map(|name| ("damage", name)));
    for name in OUTSIDE {
        all.extend(OF.map(|of| ("outside", format!("{name} {of}"))));
        all.extend(AT.map(|at| ("outside", format!("{name} in {at}"))));
    }
    for (at, number) in ANSWERS.iter().enumerate() {
        all.push(("answer", number.to_string()));
        let before = ANSWERS[1..].iter().take(at.saturating_sub(1));
        all.extend(before.map(|first| ("order", format!("{first} before {number}"))));
    }
    all.push((SHARED, "0".to_string()));
    all.extend(outputs.iter().map(|name| (SHARED, shared_9(name))));
    all.extend(demanded_null_slots());
    all.extend(demanded_starts(Entry::IMPORT, &[0, 9]));
    all
}
