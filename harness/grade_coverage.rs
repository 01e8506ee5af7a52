//! What graded calls met, and what a whole run must reach for them.

use crate::coverage::{chosen, list_layouts, row_count, LIST_LAYOUTS, ROW_COUNTS};
use crate::entry::{Entry, Input};
use crate::grades::{self, grade, longest_run, Graded, GradedExpected};
use crate::library::Library;
use crate::model::{self, Element, ListColumn, Row, Width};

type Met = Vec<(&'static str, String)>;

/// What the column, or the run, comes to by itself: each number stands behind 12 and behind 9 for the
/// grades.
const OF_COLUMNS: [u32; 4] = [0, 13, 1, 2];
const OF_RECIPES: [u32; 13] = [0, 15, 10, 13, 1, 2, 3, 4, 5, 6, 7, 8, 9];

/// The number by which a call is refused before that.
const BEFORE: [&str; 3] = ["100", "12", "9 for the grades"];

const LENT: [&str; 5] =
    ["exactly long enough", "longer", "one short", "none for some rows", "none for no rows"];

/// How many grades are lent.
fn lent(call: &Graded) -> Vec<&'static str> {
    let (rows, grades) = (call.rows(), call.grades.len());
    let holds = [
        grades == rows && rows > 0,
        grades > rows,
        grades + 1 == rows,
        grades == 0 && rows > 0,
        grades == 0 && rows == 0,
    ];
    chosen(LENT, holds)
}

/// Of several that hold, such as come before the others.
fn orders(call: &Graded, by_itself: u32) -> Vec<String> {
    let holds = [call.is_short_of_places(), call.k == 0, call.is_short()];
    let mut met = Vec::new();
    for (at, first) in BEFORE.iter().enumerate().filter(|(at, _)| holds[*at]) {
        if holds[..at].contains(&true) {
            continue;
        }
        let later = (at + 1..3).filter(|later| holds[*later]).map(|later| BEFORE[later]);
        met.extend(later.map(|later| format!("{first} before {later}")));
        if at > 0 && !holds[at + 1..].contains(&true) {
            met.push(format!("{first} before {by_itself}"));
        }
    }
    met
}

const KS: [&str; 9] = [
    "1",
    "2",
    "the longest run",
    "one more than the longest run",
    "the length of a row without a run of it",
    "the length of a row of equal elements",
    "one more than the length of a row of equal elements",
    "18446744073709551615",
    "beyond 32 bits, and its low half within a run",
];

fn ks(k: u64, rows: &[Row]) -> Vec<&'static str> {
    let full = || rows.iter().flatten().filter(|row| !row.is_empty());
    let longest = full().map(|row| longest_run(row)).max().unwrap_or(0);
    let has = |is: &dyn Fn(u64, u64) -> bool| {
        full().any(|row| longest_run(row) > 0 && is(row.len() as u64, longest_run(row)))
    };
    let low = k & 0xffff_ffff;
    let holds = [
        k == 1 && longest > 0,
        k == 2 && longest > 0,
        k == longest,
        longest > 0 && k == longest + 1,
        has(&|length, run| k == length && run < length),
        has(&|length, run| k == length && run == length),
        has(&|length, run| k == length + 1 && run == length),
        k == u64::MAX && longest > 0,
        k > low && low > 0 && low <= longest,
    ];
    chosen(KS, holds)
}

const GRADES: [&str; 22] = [
    "0 over nothing",
    "0 over a run",
    "1 of an empty row",
    "1 of one null",
    "1 of nulls over equal numbers",
    "2 by the whole row",
    "2 by a run at the front alone",
    "2 by a run at the end alone",
    "2 by a run inside alone",
    "2 by exactly k",
    "2 by a longer run",
    "2 by one element",
    "2 beside a null",
    "2 by -9223372036854775808",
    "3 by one element",
    "3 without equal neighbours",
    "3 by a run one short",
    "3 by a run split by a null",
    "3 by a run split by a null over its number",
    "3 by a run of -9223372036854775808 split by a null",
    "3 by a run that goes on in the next row",
    "3 by equal elements apart",
];

/// The same row with its nulls left out.
fn joined(row: &[Element]) -> Vec<Element> {
    row.iter().copied().filter(Option::is_some).collect()
}

/// What the rows of a column, which is well-formed, get their grades by.
fn grades_met(column: &ListColumn, rows: &[Row], k: u64) -> Vec<&'static str> {
    let mut met = Vec::new();
    for (at, row) in rows.iter().enumerate() {
        let places = column.offsets[at] as usize..column.offsets[at + 1] as usize;
        let stored: Vec<Element> = column.values[places].iter().copied().map(Some).collect();
        let next = rows.get(at + 1).and_then(Option::as_ref);
        met.extend(row_met(row.as_deref(), &stored, next.map(Vec::as_slice), grade(row, k), k));
    }
    met
}

fn row_met(
    row: Option<&[Element]>,
    stored: &[Element],
    next: Option<&[Element]>,
    grade: u8,
    k: u64,
) -> Vec<&'static str> {
    let elements = row.unwrap_or(&[]);
    let (length, longest) = (elements.len(), longest_run(elements));
    let within = |part: &[Element]| longest_run(part) >= k;
    let reaches = |part: std::ops::Range<usize>| elements.get(part).is_some_and(within);
    let run = usize::try_from(k).unwrap_or(usize::MAX).min(length);
    let front = grade == 2 && reaches(0..run);
    let end = grade == 2 && reaches(length - run..length);
    let inside = grade == 2 && length > 2 && reaches(1..length - 1);
    let has_null = elements.contains(&None);
    let smallest: Vec<Element> =
        elements.iter().map(|one| one.filter(|number| *number == model::UNDER_NULL)).collect();
    let split = grade == 3 && has_null && within(&joined(elements));
    let goes_on = next.is_some_and(|next| {
        let both = [elements, next].concat();
        !within(next) && within(&both)
    });
    let apart = |one: &Element| {
        one.is_some() && elements.iter().filter(|other| *other == one).count() as u64 >= k
    };
    let holds = [
        grade == 0 && stored.is_empty(),
        grade == 0 && !stored.is_empty() && within(stored),
        grade == 1 && length == 0,
        grade == 1 && length == 1,
        grade == 1 && length > 1 && within(stored),
        grade == 2 && run == length,
        front && !end && !inside,
        end && !front && !inside,
        inside && !front && !end,
        grade == 2 && longest == k,
        grade == 2 && longest > k,
        grade == 2 && length == 1,
        grade == 2 && has_null,
        grade == 2 && within(&smallest),
        grade == 3 && length == 1,
        grade == 3 && length > 1 && longest == 1 && !has_null,
        grade == 3 && longest > 1 && longest + 1 == k,
        split,
        split && within(stored),
        grade == 3 && has_null && within(&joined(&smallest)),
        grade == 3 && goes_on,
        grade == 3 && !has_null && elements.iter().any(apart),
    ];
    chosen(GRADES, holds)
}

/// The steps that a recipe may have, and the grades that a row of the first list would have and what
/// became of it has.
const STEPS: [&str; 4] = ["0", "1", "2", "more"];
const BECOMES: [(u8, u8); 13] = [
    (0, 0),
    (1, 0),
    (1, 1),
    (1, 2),
    (1, 3),
    (2, 0),
    (2, 1),
    (2, 2),
    (2, 3),
    (3, 0),
    (3, 1),
    (3, 2),
    (3, 3),
];

fn became((before, after): (u8, u8)) -> String {
    format!("{before} becomes {after}")
}

/// The most rows, and elements, of a call that is looked at row by row.
const MOST_ROWS: usize = 300;
const MOST_VALUES: usize = 2000;

/// What a call met.
pub fn met(call: &Graded, expected: &GradedExpected) -> Met {
    let number = expected.call.number;
    let mut met: Met = vec![("calls", String::new()), ("answer", number.to_string())];
    let mut add = |kind: &'static str, subject: &str| met.push((kind, subject.to_string()));
    if number == 0 || number == 9 && call.k > 0 && call.is_short() {
        lent(call).into_iter().for_each(|name| add("grades lent", name));
    }
    if call.refusal_before().is_some() {
        let by_itself = if number == 100 { 0 } else { call.ungraded().number };
        orders(call, by_itself).iter().for_each(|name| add("order", name));
    }
    if number != 0 {
        return met;
    }
    let column = call.column(&expected.call);
    if !call.case.entry.is_recipe() {
        let input = call.case.decode();
        row_count(&input).into_iter().for_each(|name| add("rows", name));
        list_layouts(&column).into_iter().for_each(|name| add("layout", name));
    }
    if column.row_count() > MOST_ROWS || column.values.len() > MOST_VALUES {
        return met;
    }
    let rows = model::shown_rows(&column);
    ks(call.k, &rows).into_iter().for_each(|name| add("k", name));
    grades_met(&column, &rows, call.k).into_iter().for_each(|name| add("row by row", name));
    if call.case.entry.is_recipe() {
        let Input { numbers, lists, .. } = call.case.decode();
        add("steps", STEPS[(numbers.len() / 4).min(3)]);
        let first = model::shown_rows(&lists[0]);
        for (before, after) in first.iter().zip(&rows) {
            add("result", &became((grade(before, call.k), grade(after, call.k))));
        }
    }
    met
}

/// Everything that a whole run over this library must reach.
pub fn demanded(library: &Library) -> Vec<(&'static str, &'static str, String)> {
    let mut all = Vec::new();
    if library.grades.is_none() {
        return all;
    }
    for entry in [Entry::EXPORT, Entry::recipes(Width::Narrow)] {
        let is_recipe = entry.is_recipe();
        let mut add = |kind: &'static str, subjects: Vec<String>| {
            all.extend(subjects.into_iter().map(|subject| (grades::name(entry), kind, subject)));
        };
        let names = |names: &[&str]| names.iter().map(|name| name.to_string()).collect();
        let by_itself = if is_recipe { &OF_RECIPES[..] } else { &OF_COLUMNS };
        add("answer", by_itself.iter().chain(&[100, 12, 9]).map(u32::to_string).collect());
        let [own, zero, short] = BEFORE;
        let before = [format!("{own} before {zero}"), format!("{own} before {short}")];
        add("order", [&before[..], &[format!("{zero} before {short}")]].concat());
        let behind =
            |first: &str| by_itself.iter().map(|one| format!("{first} before {one}")).collect();
        add("order", behind(zero));
        add("order", behind(short));
        add("grades lent", names(&LENT));
        add("k", names(&KS));
        if is_recipe {
            // The numbers under the nulls of a result are all one, and null rows are over nothing.
            let mut of_results = GRADES.to_vec();
            of_results.retain(|name| *name != "0 over a run" && !name.ends_with("its number"));
            add("row by row", names(&of_results));
            add("steps", names(&STEPS));
            add("result", BECOMES.map(became).to_vec());
        } else {
            add("row by row", names(&GRADES));
            add("layout", names(&LIST_LAYOUTS));
            add("rows", ROW_COUNTS.iter().map(|(_, name)| name.to_string()).collect());
        }
    }
    all
}
