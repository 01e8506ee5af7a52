//! What calls with a work area met beside those without one, and what a whole run must reach.

use crate::coverage::{answers, chosen};
use crate::entry::{Case, Entry, AREA};
use crate::hashed;
use crate::model::Row;

/// A kind and a subject.
type Met = (&'static str, String);

const AREAS: [&str; 9] = [
    "no slots, and none needed",
    "no slots, and some needed",
    "exactly enough",
    "more than enough",
    "one slot short",
    "two slots short",
    "a longer null row",
    "the longest row first",
    "the longest row last",
];

/// What two lists meet besides.
const OF_TWO: [&str; 4] = [
    "a longer row beside a null",
    "longer rows of either side apart",
    "a longer left row",
    "a longer right row",
];

/// The length of a valid row, or of both.
fn length(lists: &[Vec<Row>], row: usize) -> Option<usize> {
    lists.iter().map(|rows| rows[row].as_ref().map(Vec::len)).sum()
}

/// What the work area of a call met whose columns are not refused.
fn areas(case: &Case) -> Vec<&'static str> {
    let input = case.decode();
    let Ok(shown) = hashed::shown(case.entry.known_operation(), &input.lists) else {
        return Vec::new();
    };
    let lists = &shown.lists;
    let (least, lent) = (hashed::least_area(lists), case.outputs[AREA].len() / 4);
    let rows = lists[0].len();
    let covered = |row: usize| -> i64 {
        input.lists.iter().map(|list| list.offsets[row + 1] - list.offsets[row]).sum()
    };
    let is_longest = |row: usize| rows > 1 && least > 0 && length(lists, row) == Some(least / 2);
    let others_are_shorter = |row: usize| {
        (0..rows).filter(|other| *other != row).all(|other| length(lists, other) < Some(least / 2))
    };
    let holds = [
        lent == 0 && least == 0,
        lent == 0 && least > 0,
        lent == least && least > 0,
        lent > least,
        lent + 1 == least,
        lent + 2 == least,
        (0..rows).any(|row| length(lists, row).is_none() && 2 * covered(row) > least as i64),
        rows > 0 && is_longest(0) && others_are_shorter(0),
        rows > 0 && is_longest(rows - 1) && others_are_shorter(rows - 1),
    ];
    let mut met = chosen(AREAS, holds);
    if let [left, right] = &lists[..] {
        let of = |row: &Row| row.as_ref().map_or(0, Vec::len);
        let longest = |rows: &[Row]| rows.iter().map(of).max().unwrap_or(0);
        let pairs = || left.iter().zip(right);
        let holds = [
            pairs().any(|(one, other)| {
                one.is_some() != other.is_some() && 2 * of(one).max(of(other)) > least
            }),
            2 * (longest(left) + longest(right)) > least
                && pairs().all(|(one, other)| one.is_some() && other.is_some()),
            pairs().any(|(one, other)| other.is_some() && of(one) > of(other)),
            pairs().any(|(one, other)| one.is_some() && of(one) < of(other)),
        ];
        met.extend(chosen(OF_TWO, holds));
    }
    met
}

/// What a call met.
pub fn met(case: &Case, number: u32) -> Vec<Met> {
    let mut met: Vec<Met> = Vec::new();
    if case.outputs[AREA].iter().any(|byte| *byte != 0) {
        met.push(("area dirty before", number.to_string()));
    }
    if matches!(number, 0 | 9 | 14) && case.row_count() <= 40 {
        met.extend(areas(case).into_iter().map(|name| ("area", format!("{name}: {number}"))));
    }
    met
}

/// The answers that a call with such an area can be given.
fn answers_beside(area: &str) -> &'static [u32] {
    match area {
        "no slots, and some needed" | "one slot short" | "two slots short" => &[14],
        "no slots, and none needed" | "exactly enough" | "more than enough" => &[0, 9],
        _ => &[0, 14],
    }
}

/// Everything that a whole run must reach for an entry, beside what the operation must.
pub fn demanded(entry: Entry) -> Vec<Met> {
    let mut all: Vec<Met> = Vec::new();
    let of_two = OF_TWO.into_iter().filter(|_| entry.lists() == 2);
    for area in AREAS.into_iter().chain(of_two) {
        let numbers = answers_beside(area).iter();
        all.extend(numbers.map(|number| ("area", format!("{area}: {number}"))));
    }
    for number in answers(entry) {
        all.push(("area dirty before", number.to_string()));
    }
    all.extend([0, 9, 14].map(|number| ("beside the plain entry", number.to_string())));
    all.extend(["values with one hash", "a row of thousands"].map(|name| ("hash", name.into())));
    all
}
