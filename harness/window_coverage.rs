//! What calls of a recipe over some of its rows met, and what a whole run must reach for them.

use crate::coverage::{
    chosen, demanded_column_orders, demanded_null_slots, demanded_starts, SHARED,
};
use crate::entry::{Case, Entry, Expected, Input, TRAYS};
use crate::generate::Harm;
use crate::model;
use crate::windows::Window;

/// A kind and a subject.
type Met = (&'static str, String);

/// The answers, in the order in which they come; 4 to 8 are those of one step.
const ANSWERS: [u32; 14] = [0, 100, 10, 13, 1, 2, 3, 16, 4, 5, 6, 7, 8, 9];

const WINDOWS: [&str; 10] = [
    "all rows",
    "the first rows",
    "the last rows",
    "rows inside",
    "one row",
    "no rows before the first",
    "no rows inside",
    "no rows behind the last",
    "no rows of none",
    "no rows of no offsets",
];

fn windows(input: &Input, Window { begin, end }: Window) -> Vec<&'static str> {
    let rows = input.lists[0].row_count();
    let some = begin < end;
    let holds = [
        some && begin == 0 && end == rows,
        some && begin == 0 && end < rows,
        some && begin > 0 && end == rows,
        some && begin > 0 && end < rows,
        end == begin + 1,
        !some && begin == 0 && rows > 0,
        !some && begin > 0 && begin < rows,
        !some && begin == rows && rows > 0,
        rows == 0,
        input.lists[0].offsets.is_empty(),
    ];
    chosen(WINDOWS, holds)
}

/// Where in their bytes the bits of a window begin and end, of each bitmap that has bits for it.
fn bits(input: &Input, Window { begin, end }: Window) -> Vec<String> {
    let mut met = Vec::new();
    let mut add = |name: &str, bitmap: &model::Bitmap, first: usize, last: usize| {
        if !bitmap.bytes.is_empty() && first < last {
            met.push(bit_name(name, "from", (bitmap.start + first) % 8));
            met.push(bit_name(name, "to", (bitmap.start + last) % 8));
        }
    };
    for (list, [rows, elements]) in
        input.lists.iter().zip([["rows", "elements"], ["second rows", "second elements"]])
    {
        add(rows, &list.rows, begin, end);
        let offset = |at: usize| list.offsets.get(at).map_or(0, |offset| *offset as usize);
        add(elements, &list.elements, offset(begin), offset(end));
    }
    let rows = input.lists[0].row_count();
    for column in 0..input.entry.columns() {
        let first = column * rows;
        add("argument bits", &input.arguments[0].bits, first + begin, first + end);
    }
    met
}

fn bit_name(bitmap: &str, side: &str, bit: usize) -> String {
    format!("{bitmap} {side} bit {bit}")
}

const OUTSIDE: [&str; 8] = [
    "begin one over end",
    "begin over end, both among the rows",
    "begin and end one over the rows",
    "end one over the rows",
    "end beyond 32 bits",
    "end 18446744073709551615",
    "begin 18446744073709551615",
    "no offsets",
];

fn outside(input: &Input, Window { begin, end }: Window) -> Vec<&'static str> {
    let rows = input.lists[0].row_count();
    let holds = [
        begin > end && begin - end == 1,
        begin > end && begin <= rows,
        begin == rows + 1 && end == rows + 1,
        begin <= rows && end == rows + 1,
        begin <= end && end > u32::MAX as usize && end < usize::MAX,
        end == usize::MAX,
        begin == usize::MAX,
        input.lists[0].offsets.is_empty(),
    ];
    chosen(OUTSIDE, holds)
}

/// The refusal of rows that the call does not look at: that of the recipe over all its rows.
fn refused_outside(input: &Input) -> Option<String> {
    let (recipe, _) = input.recipe_of_rows()?;
    let whole = model::carry(&model::recipe_shown(&recipe), |_, slots| slots[2] < 100_000);
    whole.err().map(|refusal| format!("{} outside", refusal.number))
}

/// What a call met.
pub fn met(case: &Case, expected: &Expected) -> Vec<Met> {
    let number = expected.number;
    let mut met: Vec<Met> = Vec::new();
    if case.outputs[TRAYS].iter().flatten().any(|byte| *byte != 0) {
        met.push(("trays dirty before", number.to_string()));
    }
    let part = case.entry.window();
    if !matches!(number, 0 | 16) {
        return met;
    }
    let input = case.decode();
    let mut add = |kind: &'static str, names: Vec<&str>| {
        met.extend(names.into_iter().map(|name| (kind, name.to_string())));
    };
    if number == 16 {
        add("outside", outside(&input, part));
        return met;
    }
    add("window", windows(&input, part));
    met.extend(bits(&input, part).into_iter().map(|name| ("bits", name)));
    if input.lists[0].row_count() <= 40 {
        met.extend(refused_outside(&input).map(|name| ("accepted", name)));
    }
    met
}

/// Everything that a whole run must reach.
pub fn demanded() -> Vec<Met> {
    let entry = Entry::RECIPE_ROWS;
    let mut all: Vec<Met> = Vec::new();
    let mut add = |kind: &'static str, subjects: &[&str]| {
        all.extend(subjects.iter().map(|subject| (kind, subject.to_string())));
    };
    add("window", &WINDOWS);
    add("window", &["of very many rows"]);
    add("outside", &OUTSIDE);
    let outputs: Vec<&str> = entry.outputs().iter().map(|kind| kind.name).collect();
    add("one slot short", &outputs);
    for name in ["rows", "elements", "second rows", "second elements", "argument bits"] {
        for side in ["from", "to"] {
            all.extend((0..8).map(|bit| ("bits", bit_name(name, side, bit))));
        }
    }
    all.extend(Harm::of(entry).iter().map(|harm| ("damage", harm.name(entry))));
    let of_step = |number: u32| (4..=8).contains(&number);
    for (at, number) in ANSWERS.iter().copied().enumerate() {
        all.push(("answer", number.to_string()));
        all.push(("trays dirty before", number.to_string()));
        let before =
            ANSWERS[1..at.max(1)].iter().filter(|one| !(of_step(**one) && of_step(number)));
        all.extend(before.map(|first| ("order", format!("{first} before {number}"))));
        if matches!(number, 0 | 3..=10 | 16) {
            all.push((SHARED, number.to_string()));
        }
        if of_step(number) {
            all.push(("accepted", format!("{number} outside")));
        }
        if matches!(number, 0 | 4..=9) {
            all.push(("beside a copy", number.to_string()));
            all.push(("rows outside", number.to_string()));
        }
    }
    all.extend(demanded_column_orders(entry).into_iter().map(|order| ("order", order)));
    all.extend(demanded_null_slots());
    all.extend(demanded_starts(entry, &[0, 9, 16]));
    all
}
