//! What the calls of a run covered. Kinds are seen from the bytes of a case and from the model, and
//! not from how the case was made; a run fails where a kind that it must reach was not reached.
//!
//! Each refusal is demanded from both sides: the number that is refused, and the nearest that is
//! not. What is demanded of the rows of element, slice, resize, replace, remove and list-repeat is
//! written out by hand with what they become, so that it also checks the model: a row that becomes
//! something else leaves a demand unmet.

use crate::entry::{decode_i64, decode_offsets};
use crate::entry::{Case, Content, Entry, Expected, Input, Kind, SliceKind};
use crate::entry::{NOT_SERVED, TALLY, TALLY_BYTES, TRAYS};
use crate::generate::{Column, Harm};
use crate::grade_coverage;
use crate::hash_coverage;
use crate::library::Library;
use crate::model::{
    self, is_valid, ArgumentColumn, Bitmap, Element, ListColumn, Made, Operation, Role, Row, Shown,
    Width, UNDER_NULL,
};
use crate::recipe_coverage;
use crate::strides;
use crate::view_coverage;
use crate::window_coverage;
use std::borrow::Cow;
use std::collections::BTreeMap;

/// How often each thing was reached, by operation, kind and subject.
#[derive(Default)]
pub struct Coverage(BTreeMap<(&'static str, &'static str, Cow<'static, str>), u64>);

impl Coverage {
    pub fn count(
        &mut self,
        operation: &'static str,
        kind: &'static str,
        subject: impl Into<Cow<'static, str>>,
    ) {
        *self.0.entry((operation, kind, subject.into())).or_insert(0) += 1;
    }

    fn reached(&self, operation: &'static str, kind: &'static str, subject: &str) -> bool {
        self.0.contains_key(&(operation, kind, Cow::Owned(subject.to_string())))
    }
}

/// The subjects whose conditions hold.
pub fn chosen<const N: usize>(subjects: [&'static str; N], holds: [bool; N]) -> Vec<&'static str> {
    subjects.into_iter().zip(holds).filter(|(_, holds)| *holds).map(|(name, _)| name).collect()
}

// Row counts.

pub const ROW_COUNTS: [(usize, &str); 10] = [
    (0, "0"),
    (1, "1"),
    (7, "7"),
    (8, "8"),
    (9, "9"),
    (15, "15"),
    (16, "16"),
    (17, "17"),
    (4095, "4095"),
    (4096, "4096"),
];

pub fn row_count(input: &Input) -> Option<&'static str> {
    let rows = input.lists[0].row_count();
    ROW_COUNTS.iter().find(|(count, _)| *count == rows).map(|(_, name)| *name)
}

// Layouts.

pub const LIST_LAYOUTS: [&str; 20] = [
    "no offsets",
    "no offsets beside values",
    "no offsets beside an element bitmap",
    "first offset 0",
    "first offset above 0",
    "null row over values",
    "equal offsets",
    "last offset at the end of the values",
    "values behind the last offset",
    "0 under a null element",
    "-9223372036854775808 under a null element",
    "another number under a null element",
    "valid -9223372036854775808 beside a null",
    "spare bit set",
    "bit before the start set",
    "row bitmap just long enough",
    "element bitmap just long enough",
    "bitmap longer than needed",
    "absent row bitmap",
    "absent element bitmap",
];

pub const ARGUMENT_LAYOUTS: [&str; 9] = [
    "0 under a null",
    "-9223372036854775808 under a null",
    "negative number under a null",
    "number beyond 32 bits under a null",
    "spare bit set",
    "bit before the start set",
    "bitmap just long enough",
    "bitmap longer than needed",
    "absent bitmap",
];

const UNTAKEN_LAYOUTS: [&str; 4] = [
    "untaken column from a bit over 7",
    "untaken column of another length",
    "untaken column with a short bitmap",
    "untaken column with a null",
];

pub fn layouts(input: &Input) -> Vec<String> {
    let entry = input.entry;
    let named = |column: Column, names: Vec<&'static str>| {
        let layout = move |name| layout_name(column, entry, name);
        names.into_iter().map(layout)
    };
    let lists = input.lists.iter().enumerate();
    let lists = lists.flat_map(|(at, list)| named(Column::List(at), list_layouts(list)));
    let arguments = input.taken().iter().enumerate();
    let arguments =
        arguments.flat_map(|(at, one)| named(Column::Argument(at), argument_layouts(one)));
    lists.chain(arguments).chain(untaken_layouts(input).map(str::to_string)).collect()
}

fn layout_name(column: Column, entry: Entry, name: &str) -> String {
    format!("{}: {name}", column.name(entry))
}

fn untaken_layouts(input: &Input) -> impl Iterator<Item = &'static str> + use<'_> {
    let rows = input.lists[0].row_count();
    input.arguments[input.taken().len()..].iter().flat_map(move |one| {
        let short = one.bits.is_too_short(one.values.len());
        let holds = [
            one.bits.starts_over_7(),
            one.values.len() != rows,
            short,
            !short && (0..one.values.len()).any(|row| !one.bits.is_valid(row)),
        ];
        chosen(UNTAKEN_LAYOUTS, holds)
    })
}

pub fn list_layouts(list: &ListColumn) -> Vec<&'static str> {
    let rows = list.row_count();
    let none = list.offsets.is_empty();
    let first = list.offsets.first().copied().unwrap_or(0);
    let last = list.offsets.last().copied().unwrap_or(0);
    let places = |row: usize| list.offsets[row] as usize..list.offsets[row + 1] as usize;
    let shown = || (0..rows).filter(|row| list.rows.is_valid(*row)).flat_map(places);
    let hides = |is: &dyn Fn(i64) -> bool| {
        shown().any(|place| !list.elements.is_valid(place) && is(list.values[place]))
    };
    let is_valid_at = |place: usize| list.elements.is_valid(place);
    let has_both = |row: usize| {
        list.rows.is_valid(row)
            && places(row).any(|place| !is_valid_at(place))
            && places(row).any(|place| is_valid_at(place) && list.values[place] == UNDER_NULL)
    };
    let holds = [
        none,
        none && !list.values.is_empty(),
        none && !list.values.is_empty() && !list.elements.bytes.is_empty(),
        !none && first == 0,
        first > 0,
        (0..rows).any(|row| !list.rows.is_valid(row) && !places(row).is_empty()),
        list.offsets.windows(2).any(|pair| pair[0] == pair[1]),
        !none && last as usize == list.values.len(),
        !none && (last as usize) < list.values.len(),
        hides(&|number| number == 0),
        hides(&|number| number == UNDER_NULL),
        hides(&|number| number != 0 && number != UNDER_NULL),
        (0..rows).any(has_both),
        has_spare_bit(&list.rows, rows) || has_spare_bit(&list.elements, list.values.len()),
        has_bit_before(&list.rows) || has_bit_before(&list.elements),
        is_exact(&list.rows, rows),
        is_exact(&list.elements, list.values.len()),
        is_longer(&list.rows, rows) || is_longer(&list.elements, list.values.len()),
        rows > 0 && list.rows.bytes.is_empty(),
        first < last && list.elements.bytes.is_empty(),
    ];
    chosen(LIST_LAYOUTS, holds)
}

pub fn argument_layouts(argument: &ArgumentColumn) -> Vec<&'static str> {
    let rows = argument.values.len();
    let hides = |is: &dyn Fn(i64) -> bool| {
        (0..rows).any(|row| !argument.bits.is_valid(row) && is(argument.values[row]))
    };
    let holds = [
        hides(&|number| number == 0),
        hides(&|number| number == UNDER_NULL),
        hides(&|number| number < 0 && number != UNDER_NULL),
        hides(&|number| i32::try_from(number).is_err() && number != UNDER_NULL),
        has_spare_bit(&argument.bits, rows),
        has_bit_before(&argument.bits),
        is_exact(&argument.bits, rows),
        is_longer(&argument.bits, rows),
        rows > 0 && argument.bits.bytes.is_empty(),
    ];
    chosen(ARGUMENT_LAYOUTS, holds)
}

/// A 1 behind the last position, in its byte.
pub fn has_spare_bit(bitmap: &Bitmap, positions: usize) -> bool {
    let end = bitmap.start + positions;
    end % 8 != 0 && !bitmap.bytes.is_empty() && bitmap.bytes[end / 8] >> (end % 8) != 0
}

/// A 1 before the starting bit.
pub fn has_bit_before(bitmap: &Bitmap) -> bool {
    bitmap.bytes.first().is_some_and(|byte| byte & !(0xff << bitmap.start) != 0)
}

pub fn is_exact(bitmap: &Bitmap, positions: usize) -> bool {
    !bitmap.bytes.is_empty() && bitmap.bytes.len() == bitmap.needed(positions)
}

pub fn is_longer(bitmap: &Bitmap, positions: usize) -> bool {
    bitmap.bytes.len() > bitmap.needed(positions)
}

// Starting bits.

/// Which starting bits a call met: of an accepted one each, beside a bitmap and without one; of one
/// that is refused, that of the one bitmap which is a bit short, or starts over 7.
pub fn starts_met(case: &Case, number: u32) -> Vec<String> {
    let mut bitmaps = case.taken_bitmaps();
    match number {
        0 => bitmaps.retain(|(_, _, _, positions)| *positions > 0),
        2 => bitmaps.retain(|(_, bytes, start, positions)| {
            !bytes.is_empty() && bytes.len() * 8 < *start + positions
        }),
        13 => bitmaps.retain(|(_, _, start, _)| *start > 7),
        _ => return Vec::new(),
    }
    if number != 0 && bitmaps.len() != 1 {
        return Vec::new();
    }
    let mut met = Vec::new();
    for (name, bytes, start, positions) in bitmaps {
        let is_absent = bytes.is_empty();
        if number != 2 || bytes.len() * 8 + 1 == start + positions {
            met.push(start_name(name, start, is_absent, number));
        }
        if number == 13 && case.entry.has_steps() && case.entry.columns() == 0 {
            met.push(format!("{name} of no columns over 7"));
        }
    }
    met
}

fn start_name(bitmap: &str, start: usize, is_absent: bool, number: u32) -> String {
    let absent = if is_absent { " absent" } else { "" };
    match number {
        13 => format!("{bitmap}{absent} over 7"),
        2 => format!("{bitmap} from {start}, one bit short"),
        _ => format!("{bitmap}{absent} from {start}"),
    }
}

/// The bitmaps that two calls start at other bits, by the answer that they share.
pub fn starts_apart(one: &Case, other: &Case, number: u32) -> Vec<String> {
    let pairs = one.taken_bitmaps().into_iter().zip(other.taken_bitmaps());
    let apart = pairs.filter(|((_, bytes, start, positions), (_, others, other_start, _))| {
        start != other_start && *positions > 0 && !bytes.is_empty() && !others.is_empty()
    });
    let names: Vec<&str> = apart.map(|((name, ..), _)| name).collect();
    let mut met: Vec<String> =
        names.iter().map(|name| shared_starts(&format!(" of {name}"), number)).collect();
    met.extend((!names.is_empty()).then(|| shared_starts("", number)));
    met
}

fn shared_starts(of: &str, number: u32) -> String {
    format!("starting bits{of}: {number}")
}

/// Every starting bit of every bitmap, and pairs of them; of a recipe's arguments also without
/// columns.
pub fn demanded_starts(entry: Entry, shared: &[u32]) -> Vec<(&'static str, String)> {
    let mut all = Vec::new();
    for SliceKind { name, .. } in entry.taken_bitmaps() {
        for start in 0..8 {
            all.push(("start", start_name(name, start, false, 0)));
            all.push(("start", start_name(name, start, true, 0)));
            all.push(("start", start_name(name, start, false, 2)));
        }
        all.extend([false, true].map(|absent| ("start", start_name(name, 8, absent, 13))));
        all.push((SHARED, shared_starts(&format!(" of {name}"), 0)));
    }
    if entry.has_steps() {
        all.push(("start", "argument bits of no columns over 7".to_string()));
    }
    all.extend(shared.iter().map(|number| (SHARED, shared_starts("", *number))));
    all
}

// No offsets.

/// The lists that have no offsets, where the entry itself does not answer.
fn without_offsets(case: &Case) -> Vec<Column> {
    let offsets = |at: usize| &case.inputs[usize::from(case.entry.has_steps()) + 4 * at];
    let none = (0..case.entry.lists()).filter(|at| offsets(*at).is_empty());
    none.map(Column::List).collect()
}

/// The answers that lists without offsets are given, and whether all of them are without.
pub fn no_offsets_met(case: &Case, number: u32) -> Vec<String> {
    let none = without_offsets(case);
    let mut met: Vec<String> =
        none.iter().map(|column| no_offsets(*column, case.entry, number)).collect();
    if none.len() == 2 {
        met.push(format!("both lists: {number}"));
    }
    met
}

fn no_offsets(column: Column, entry: Entry, number: u32) -> String {
    format!("{}: {number}", column.name(entry))
}

/// The lists of which one call has no offsets and the other has, by the answer that they share.
pub fn offsets_apart(one: &Case, other: &Case, number: u32) -> Vec<String> {
    let (none, other_none) = (without_offsets(one), without_offsets(other));
    let lists = (0..one.entry.lists()).map(Column::List);
    let apart = lists.filter(|column| none.contains(column) != other_none.contains(column));
    apart.map(|column| shared_no_offsets(column, one.entry, number)).collect()
}

fn shared_no_offsets(column: Column, entry: Entry, number: u32) -> String {
    format!("no offsets in {}", no_offsets(column, entry, number))
}

/// What lists without offsets must be answered, alone and in pairs: 9 where a result has an offset,
/// 3 where there are other columns, and 10 in recipes.
pub fn demanded_no_offsets(entry: Entry) -> Vec<(&'static str, String)> {
    let mut numbers = vec![0, 2];
    numbers.extend((Column::all(entry).len() > 1).then_some(3));
    numbers.extend((entry.outputs()[0].content == Content::Offsets).then_some(9));
    numbers.extend(entry.has_steps().then_some(10));
    let mut all = Vec::new();
    for column in (0..entry.lists()).map(Column::List) {
        for number in &numbers {
            all.push(("no offsets", no_offsets(column, entry, *number)));
            if *number != 2 {
                all.push((SHARED, shared_no_offsets(column, entry, *number)));
            }
        }
        if entry.lists() == 2 {
            all.push(("no offsets", no_offsets(column, entry, 1)));
            all.push(("no offsets", "both lists: 0".to_string()));
        }
    }
    all
}

// Outputs and sizes.

const NULL_SLOTS: [&str; 2] = ["null slot", "valid -9223372036854775808"];

/// Null slots in a result that is expected, and valid ones that hold the same number.
pub fn null_slots_met(case: &Case, expected: &Expected) -> Vec<&'static str> {
    let (values, bits) = case.entry.value_slices();
    let values = decode_i64(&expected.written[values]);
    let is_valid_slot = |slot: usize| is_valid(&expected.written[bits], slot);
    let mut slots = 0..values.len();
    let holds = [
        slots.clone().any(|slot| !is_valid_slot(slot)),
        slots.any(|slot| is_valid_slot(slot) && values[slot] == UNDER_NULL),
    ];
    chosen(NULL_SLOTS, holds)
}

pub fn demanded_null_slots() -> Vec<(&'static str, String)> {
    NULL_SLOTS.map(|name| ("result slots", name.to_string())).to_vec()
}

pub const OUTPUT_LENGTHS: [&str; 3] = ["exactly long enough", "longer", "counts longer"];

pub fn output_lengths(case: &Case, expected: &Expected) -> Vec<&'static str> {
    let mut lengths = case.outputs.iter().zip(&expected.written).take(case.entry.results().len());
    let holds = [
        lengths.clone().all(|(lent, written)| lent.len() == written.len()),
        lengths.all(|(lent, written)| lent.len() > written.len()),
        case.counts.len() > expected.counts.len(),
    ];
    chosen(OUTPUT_LENGTHS, holds)
}

fn is_at_size(kind: SliceKind, bytes: &[u8]) -> bool {
    kind.most.is_some_and(|most| bytes.len() == most * kind.width)
}

pub fn slices_at_size(case: &Case) -> Vec<&'static str> {
    let at_size = case.slices().into_iter().filter(|(kind, bytes)| is_at_size(*kind, bytes));
    at_size.map(|(kind, _)| kind.name).collect()
}

// Typed calls.

/// What a typed call may have that a call over bytes has not, or is refused for by the byte entry.
const TYPED: [&str; 10] = [
    "offsets over the byte entry's",
    "values over the byte entry's",
    "result over the byte entry's",
    "a row of 100000 elements",
    "a null row over 100000 values",
    "a million rows",
    "a million values",
    "a large column from above 0 to before the end",
    "counts longer",
    "columns not taken",
];

/// The typed answer, and what of the above an accepted call has.
pub fn typed_met(case: &Case, typed: &Case, number: u32) -> Vec<Cow<'static, str>> {
    let answer = Cow::Owned(format!("answer {number}"));
    let met = match number {
        0 if case.entry == Entry::IMPORT => Vec::new(),
        0 => accepted_typed_met(case, typed),
        NOT_SERVED => not_served_met(typed),
        _ => Vec::new(),
    };
    [answer].into_iter().chain(met.into_iter().map(Cow::Borrowed)).collect()
}

const FOR_CODE: &str = "100 for the code";

/// Why a typed entry answers 100 by itself, where one cause alone holds; and the trays before it.
const FOR_PLACES: [&str; 3] =
    ["100 for the counts", "100 for the tally", "100, trays dirty before"];

fn not_served_met(typed: &Case) -> Vec<&'static str> {
    let entry = typed.entry;
    if !entry.is_served() {
        return vec![FOR_CODE];
    }
    let short_counts = typed.counts.len() < entry.count_bytes();
    let short_tally = entry.is_recipe() && typed.outputs[TALLY].len() < TALLY_BYTES;
    let mut trays = typed.outputs.iter().take(if entry.has_steps() { TRAYS.end } else { 0 });
    let holds = [
        short_counts && !short_tally,
        short_tally && !short_counts,
        trays.any(|tray| tray.iter().any(|byte| *byte != 0)),
    ];
    chosen(FOR_PLACES, holds)
}

fn accepted_typed_met(case: &Case, typed: &Case) -> Vec<&'static str> {
    let entry = case.entry;
    let first = usize::from(entry.has_steps());
    let values = case.inputs[first + 2].len() / 8;
    let offsets = match values {
        ..100_000 => Vec::new(),
        _ => decode_offsets(&case.inputs[first], entry.width),
    };
    let rows = Bitmap { bytes: case.inputs[first + 1].clone(), start: case.starts[0] };
    let wide = offsets.windows(2).enumerate().filter(|(_, pair)| pair[1] - pair[0] >= 100_000);
    let wide: Vec<bool> = wide.map(|(row, _)| rows.is_valid(row)).collect();
    let (kinds, results) = (entry.inputs(), entry.results());
    let answer = &entry.outputs()[results.clone()];
    let holds = [
        is_over(Content::Offsets, &kinds, &case.inputs),
        is_over(Content::Values, &kinds, &case.inputs),
        is_over(answer[answer.len() - 2].content, answer, &case.outputs[results]),
        wide.contains(&true),
        wide.contains(&false),
        case.row_count() >= 1_000_000,
        values >= 1_000_000,
        offsets.first() > Some(&0) && offsets.last() < Some(&(values as i64)),
        typed.counts.len() > entry.count_bytes(),
        typed.inputs.len() > case.inputs.len() && !typed.inputs[case.inputs.len()].is_empty(),
    ];
    chosen(TYPED, holds)
}

/// Whether one of these slices has such content, and more of it than the byte entry takes.
fn is_over(content: Content, kinds: &[SliceKind], slices: &[Vec<u8>]) -> bool {
    let is_over = |(kind, bytes): (&SliceKind, &Vec<u8>)| {
        let most = kind.most.unwrap_or(usize::MAX);
        kind.content == content && bytes.len() / kind.width > most
    };
    kinds.iter().zip(slices).any(is_over)
}

/// What typed calls must reach: all answers, and what the byte entry does not take.
pub fn demanded_typed(entry: Entry, answers: &[u32]) -> Vec<(&'static str, String)> {
    let is_own = |number: &&u32| **number < 100;
    let mut all: Vec<String> =
        answers.iter().filter(is_own).map(|number| format!("answer {number}")).collect();
    let is_met = |name: &&str| match *name {
        "columns not taken" => matches!(entry.kind, Kind::List(_)),
        "a million rows" => !entry.is_recipe() && !entry.is_wide(),
        "a million values" => !entry.is_wide(),
        "100 for the tally" | "100, trays dirty before" => entry.is_recipe(),
        _ => true,
    };
    let named = TYPED.into_iter().chain(FOR_PLACES).filter(is_met);
    all.extend(named.map(str::to_string));
    all.into_iter().map(|subject| ("typed", subject)).collect()
}

// How much to lend.

const LIMIT_MET: [&str; 4] =
    ["a limit that stops", "three limits, all unlike", "no steps", "limits of 32 steps"];

/// The answer, and what limits are like.
pub fn lending_met(case: &Case, expected: &Result<Vec<u64>, u32>) -> Vec<Cow<'static, str>> {
    let number = expected.as_ref().err().copied().unwrap_or(0);
    let mut met = vec![Cow::Owned(format!("answer {number}"))];
    if let (true, Ok(limits)) = (case.entry.is_recipe(), expected) {
        let steps = case.inputs[0].len() / 16;
        let unlike = limits[0] != limits[1] && limits[1] != limits[2] && limits[0] != limits[2];
        let stops = limits.contains(&(case.entry.width.largest_offset() as u64));
        let holds = [stops, unlike, steps == 0, steps == 32];
        met.extend(chosen(LIMIT_MET, holds).into_iter().map(Cow::Borrowed));
    }
    met
}

/// What calls that ask must reach: all answers of the call but 9, 15 and those over bytes.
fn demanded_lending(entry: Entry) -> Vec<(&'static str, String)> {
    let numbers = if entry.is_recipe() { vec![0, 10, 13, 1, 2, 3, 100] } else { answers(entry) };
    let numbers = numbers.into_iter().filter(|number| !matches!(number, 9 | 101 | 102));
    let mut all: Vec<String> = numbers.map(|number| format!("answer {number}")).collect();
    if entry.is_recipe() {
        all.extend(LIMIT_MET.map(str::to_string));
    }
    all.into_iter().map(|subject| ("lending", subject)).collect()
}

// Rows.

/// What one row becomes, in a word.
fn outcome_of(entry: Entry, rows: &[&Row], arguments: &[Element]) -> Cow<'static, str> {
    let (operation, row) = (entry.known_operation(), rows[0].as_deref());
    let name = match model::make_row(entry.width, operation, rows, arguments) {
        Err(number) => return Cow::Owned(format!("refused {number}")),
        Ok(Made::Values(made)) => made[0].map_or("null", |_| "value"),
        Ok(Made::Lists(made)) => match &made[0] {
            None => "null",
            Some(made) if made.is_empty() => "empty",
            Some(_) if is_slice(operation) => "places",
            Some(made) if Some(made.as_slice()) == row => "same",
            Some(made) if made.len() < row.map_or(0, <[_]>::len) => "shorter",
            Some(made) if made.len() > row.map_or(0, <[_]>::len) => "longer",
            Some(_) => "changed",
        },
        Ok(Made::ListsOfLists(made)) => match made[0].as_deref() {
            None => "null",
            Some([]) => "no lists",
            Some([None, ..]) => "null lists",
            Some([Some(_), ..]) => "lists",
        },
        Ok(Made::Views(made)) => made[0].as_ref().map_or("null", |_| "view"),
        Ok(Made::TooLong(_)) => "too long",
    };
    Cow::Borrowed(name)
}

fn is_slice(operation: Operation) -> bool {
    matches!(operation, Operation::Slice | Operation::SliceWithoutStride)
}

/// What the first rows of a call met: of an accepted call as far as they are looked at, of a
/// refused one the first bad row.
pub fn rows_met(input: &Input, number: u32) -> Vec<String> {
    let shown = model::shown(&input.lists, input.taken());
    let mut met = sums_met(&shown, input, number);
    let all = 0..shown.lists[0].len();
    for row in all.take(MOST_ROWS_SEEN) {
        let rows: Vec<&Row> = shown.lists.iter().map(|list| &list[row]).collect();
        let value = |column: &Vec<Element>| column[if column.len() == 1 { 0 } else { row }];
        let arguments: Vec<Element> = shown.arguments.iter().map(value).collect();
        let outcome = outcome_of(input.entry, &rows, &arguments);
        let refused = outcome.starts_with("refused");
        if number == 0 || refused {
            met.extend(row_met(input.entry, &rows, &arguments, &outcome));
        }
        if refused {
            break;
        }
    }
    met
}

/// The rows that are looked at in one call.
const MOST_ROWS_SEEN: usize = 20;

fn row_met(entry: Entry, rows: &[&Row], arguments: &[Element], outcome: &str) -> Vec<String> {
    let operation = entry.known_operation();
    let mut met = Vec::new();
    if let [left, right] = rows {
        met.extend(pair_met(left, right).into_iter().map(str::to_string));
    }
    let roles = operation.roles();
    let beside_null = arguments.iter().any(Option::is_none) && operation != Operation::Replace;
    let state = match rows[0].as_deref() {
        None => " of a null row",
        Some(_) if beside_null => " beside a null",
        Some([]) => " of an empty row",
        Some(_) => "",
    };
    let row = rows[0].as_deref().unwrap_or(&[]);
    for (role, argument) in roles.iter().zip(arguments) {
        for name in argument_names(*role, row, *argument, arguments) {
            met.push(format!("{} {name}{state}: {outcome}", role.name()));
        }
    }
    if let (Operation::Slice, "", [Some(from), Some(to), Some(stride)]) =
        (operation, state, arguments)
    {
        let bounds = bounds_name(entry, row.len() as i64, *from, *to);
        met.push(format!("bounds {bounds}, stride {}: {outcome}", stride_name(*stride)));
        met.extend(places_met(entry, row, arguments, *stride));
    }
    met
}

/// The boundaries that an argument meets.
fn argument_names(
    role: Role,
    row: &[Element],
    argument: Element,
    arguments: &[Element],
) -> Vec<&'static str> {
    let Some(number) = argument else {
        let beside_smallest = row.contains(&Some(UNDER_NULL)) && !row.contains(&None);
        return chosen(["null", "null over smallest alone"], [true, beside_smallest]);
    };
    match role {
        Role::Fill | Role::Old | Role::New => {
            let beside_nulls = row.contains(&None) && !row.contains(&Some(UNDER_NULL));
            let names = ["given", "smallest", "smallest over nulls alone"];
            let is_smallest = number == UNDER_NULL;
            chosen(names, [true, is_smallest, is_smallest && beside_nulls])
        }
        Role::Limit => {
            let matches = row.iter().filter(|element| **element == arguments[0]).count() as i64;
            limit_names(matches, number)
        }
        _ => number_names(row.len() as i64, number),
    }
}

const NUMBERS: [&str; 23] = [
    "0",
    "1",
    "-1",
    "2",
    "-2",
    "length - 1",
    "length",
    "length + 1",
    "length + 2",
    "-length",
    "-length + 1",
    "-length - 1",
    "2147483646",
    "2147483647",
    "-2147483647",
    "-2147483648",
    "2147483648",
    "-2147483649",
    "1152921504606846974",
    "1152921504606846975",
    "1152921504606846976",
    "largest",
    "smallest",
];

fn number_names(length: i64, number: i64) -> Vec<&'static str> {
    let numbers = [
        0,
        1,
        -1,
        2,
        -2,
        length - 1,
        length,
        length + 1,
        length + 2,
        -length,
        -length + 1,
        -length - 1,
        2147483646,
        2147483647,
        -2147483647,
        -2147483648,
        2147483648,
        -2147483649,
        1152921504606846974,
        1152921504606846975,
        1152921504606846976,
        i64::MAX,
        i64::MIN,
    ];
    chosen(NUMBERS, numbers.map(|boundary| boundary == number))
}

const LIMITS: [&str; 7] = [
    "smallest",
    "-1",
    "0",
    "below the matches",
    "equal to the matches",
    "above the matches",
    "largest",
];

/// Where a limit lies beside at least one match.
fn limit_names(matches: i64, limit: i64) -> Vec<&'static str> {
    let holds = [
        limit == i64::MIN,
        limit == -1,
        limit == 0,
        0 < limit && limit < matches,
        limit == matches,
        limit > matches,
        limit == i64::MAX,
    ];
    if matches > 0 {
        chosen(LIMITS, holds)
    } else {
        Vec::new()
    }
}

fn stride_name(stride: i64) -> &'static str {
    match stride {
        0 => "0",
        2147483648.. => "above 32 bits",
        ..-2147483648 => "below 32 bits",
        1.. => "positive",
        _ => "negative",
    }
}

/// How many places a slice by this stride has, of a row of nine or of the long row.
fn places_met(entry: Entry, row: &[Element], arguments: &[Element], stride: i64) -> Option<String> {
    let length = row.len();
    if length != 9 && length as i64 != strides::LONG {
        return None;
    }
    match model::make_row(entry.width, Operation::Slice, &[&Some(row.to_vec())], arguments) {
        Ok(Made::Lists(made)) => {
            let places = made[0].as_ref().map_or(0, Vec::len);
            Some(format!("{places} of {length} by {stride}"))
        }
        _ => None,
    }
}

/// How the bounds of a slice lie, by document 01.
fn bounds_name(entry: Entry, length: i64, from: i64, to: i64) -> &'static str {
    if !entry.is_wide() && (i32::try_from(from).is_err() || i32::try_from(to).is_err()) {
        return "beyond 32 bits";
    }
    let first = if from < 0 { (length + from).max(0) } else { (from - 1).max(0) };
    let last = if to < 0 { length + to } else { to.min(length) - 1 };
    match first.cmp(&last) {
        _ if first >= length || last < 0 => "outside",
        std::cmp::Ordering::Less => "rising",
        std::cmp::Ordering::Equal => "equal",
        std::cmp::Ordering::Greater => "falling",
    }
}

// Pairs of rows.

const PAIRS: [&str; 21] = [
    "left longer",
    "right longer",
    "equal lengths",
    "left row null",
    "right row null",
    "both rows null",
    "left empty",
    "right empty",
    "both empty",
    "nothing common",
    "element twice in the left",
    "element twice in the right",
    "common element twice in each",
    "null in both",
    "null in the left only",
    "null in the right only",
    "smallest in the left, null in the right",
    "null in the left, smallest in the right",
    "left longer, right in another order",
    "right longer, left in another order",
    "equal lengths, another order",
];

fn has_repeats(row: &[Element]) -> bool {
    row.iter().enumerate().any(|(at, element)| row[..at].contains(element))
}

/// The elements of one row that the other holds, each once, in the order of the one.
fn common(walked: &[Element], other: &[Element]) -> Vec<Element> {
    let mut kept = Vec::new();
    for element in walked {
        if other.contains(element) && !kept.contains(element) {
            kept.push(*element);
        }
    }
    kept
}

fn pair_met(left: &Row, right: &Row) -> Vec<&'static str> {
    let (Some(left), Some(right)) = (left, right) else {
        let rows = ["left row null", "right row null", "both rows null"];
        let (no_left, no_right) = (left.is_none(), right.is_none());
        return chosen(rows, [no_left && !no_right, no_right && !no_left, no_left && no_right]);
    };
    let (by_left, by_right) = (common(left, right), common(right, left));
    let (nulls_left, nulls_right) = (left.contains(&None), right.contains(&None));
    let smallest = Some(UNDER_NULL);
    let (smallest_left, smallest_right) = (left.contains(&smallest), right.contains(&smallest));
    let twice =
        |row: &[Element]| row.iter().filter(|one| by_left.first() == Some(*one)).count() > 1;
    let holds = [
        left.len() > right.len(),
        right.len() > left.len(),
        left.len() == right.len(),
        false,
        false,
        false,
        left.is_empty() && !right.is_empty(),
        right.is_empty() && !left.is_empty(),
        left.is_empty() && right.is_empty(),
        by_left.is_empty() && !left.is_empty() && !right.is_empty(),
        has_repeats(left),
        has_repeats(right),
        twice(left) && twice(right),
        nulls_left && nulls_right,
        nulls_left && !nulls_right,
        nulls_right && !nulls_left,
        smallest_left && !nulls_left && nulls_right && !smallest_right,
        nulls_left && !smallest_left && smallest_right && !nulls_right,
        left.len() > right.len() && by_left != by_right,
        right.len() > left.len() && by_left != by_right,
        left.len() == right.len() && by_left != by_right,
    ];
    chosen(PAIRS, holds)
}

// Sums, and columns of limits.

/// Sums at 2147483647, or at the limit of large lists.
fn resize_sums(width: Width) -> [String; 10] {
    let most = width.most_elements();
    [
        "sum 16384: 0".to_string(),
        "sum 16385: 9".to_string(),
        format!("sum {most}: 9"),
        format!("sum {}: 8", most + 1),
        "running sum 18446744073709551615, then a negative count: 7".to_string(),
        "running sum 18446744073709551616, then a negative count: 8".to_string(),
        "negative count, then a running sum past 18446744073709551615: 7".to_string(),
        format!("sum past {most}, then a negative count: 7"),
        "negative count at a null row: 0".to_string(),
        format!("count past {most} at a null row: 0"),
    ]
}

/// The subjects whose conditions hold.
fn chosen_sums<const N: usize>(subjects: [String; N], holds: [bool; N]) -> Vec<String> {
    subjects.into_iter().zip(holds).filter(|(_, holds)| *holds).map(|(name, _)| name).collect()
}

fn resize_sums_met(width: Width, shown: &Shown, number: u32) -> Vec<String> {
    let most = width.most_elements() as i128;
    let rows = shown.lists[0].iter().zip(&shown.arguments[0]);
    let counts: Vec<i128> = rows
        .clone()
        .filter(|(row, _)| row.is_some())
        .filter_map(|(_, count)| count.map(i128::from))
        .collect();
    let at_null_row = |is: &dyn Fn(i64) -> bool| {
        rows.clone().any(|(row, count)| row.is_none() && count.is_some_and(is))
    };
    let negative = counts.iter().position(|count| *count < 0);
    let before: i128 = counts[..negative.unwrap_or(counts.len())].iter().sum();
    let behind: i128 = counts[negative.unwrap_or(counts.len())..].iter().sum();
    let all = if negative.is_none() { before } else { -1 };
    let before = if negative.is_some() { before } else { -1 };
    let past = 18446744073709551615;
    let holds = [
        all == 16384 && number == 0,
        all == 16385 && number == 9,
        all == most && number == 9,
        all == most + 1 && number == 8,
        before == past && number == 7,
        before == past + 1 && number == 8,
        negative == Some(0) && behind > past && number == 7,
        (most + 1..=past).contains(&before) && number == 7,
        at_null_row(&|count| count < 0) && number == 0,
        at_null_row(&|count| i128::from(count) > most) && number == 0,
    ];
    chosen_sums(resize_sums(width), holds)
}

/// The same of list-repeat, whose lists have a limit of their own.
fn repeat_sums(width: Width) -> [String; 13] {
    let (lists, values) = (width.most_outer_lists(), width.most_elements());
    [
        "lists 16384: 0".to_string(),
        "lists 16385: 9".to_string(),
        "values 16384: 0".to_string(),
        "values 16385: 9".to_string(),
        format!("lists {lists}: 9"),
        format!("lists {}, values fewer: 8", lists + 1),
        format!("lists {}, all null: 8", lists + 1),
        format!("values {values}: 9"),
        format!("values {}, lists fewer: 8", values + 1),
        "lists past 18446744073709551615: 8".to_string(),
        format!("values past {}, lists fewer: 8", values + 1),
        "null list over values, too many if they counted: 9".to_string(),
        "null list over values, repeated: 0".to_string(),
    ]
}

fn repeat_sums_met(width: Width, shown: &Shown, list: &ListColumn, number: u32) -> Vec<String> {
    let (most_lists, most) = (width.most_outer_lists() as i128, width.most_elements() as i128);
    let rows = shown.lists[0].iter().zip(&shown.arguments[0]).enumerate();
    let (mut lists, mut null_lists, mut values, mut hidden) = (0, 0, 0, 0);
    for (at, (row, times)) in rows {
        let times = i128::from(times.unwrap_or(0).max(0));
        lists += times;
        match row {
            Some(row) => values += times * row.len() as i128,
            None => {
                null_lists += times;
                hidden += times * i128::from(list.offsets[at + 1] - list.offsets[at]);
            }
        }
    }
    let holds = [
        lists == 16384 && number == 0,
        lists == 16385 && number == 9,
        values == 16384 && number == 0,
        values == 16385 && number == 9,
        lists == most_lists && number == 9,
        lists == most_lists + 1 && values < lists && number == 8,
        lists == most_lists + 1 && null_lists == lists && number == 8,
        values == most && number == 9,
        values == most + 1 && lists < values && number == 8,
        lists > 18446744073709551615 && number == 8,
        values > most + 1 && lists <= most_lists && number == 8,
        values + hidden > most && values <= most && number == 9,
        hidden > 0 && number == 0,
    ];
    chosen_sums(repeat_sums(width), holds)
}

const LIMIT_COLUMNS: [&str; 9] = [
    "one limit for several rows: 0",
    "one null limit for several rows: 0",
    "as many limits as rows: 0",
    "one limit for no rows: 0",
    "no limit for no rows: 0",
    "two limits for no rows: 3",
    "no limit for one row: 3",
    "one limit fewer than rows: 3",
    "one limit more than rows: 3",
];

fn limit_columns_met(rows: usize, limits: &[Element], number: u32) -> Vec<&'static str> {
    let holds = [
        rows > 1 && limits.len() == 1 && limits[0].is_some() && number == 0,
        rows > 1 && limits.len() == 1 && limits[0].is_none() && number == 0,
        rows > 1 && limits.len() == rows && number == 0,
        rows == 0 && limits.len() == 1 && number == 0,
        rows == 0 && limits.is_empty() && number == 0,
        rows == 0 && limits.len() == 2 && number == 3,
        rows == 1 && limits.is_empty() && number == 3,
        rows > 2 && limits.len() == rows - 1 && number == 3,
        rows > 0 && limits.len() == rows + 1 && number == 3,
    ];
    chosen(LIMIT_COLUMNS, holds)
}

fn sums_met(shown: &Shown, input: &Input, number: u32) -> Vec<String> {
    let width = input.entry.width;
    match input.entry.known_operation() {
        Operation::Resize | Operation::ResizeWithoutFill => resize_sums_met(width, shown, number),
        Operation::ListRepeat => repeat_sums_met(width, shown, &input.lists[0], number),
        _ => Vec::new(),
    }
}

/// The limit column of a call that no refusal before 3 ends.
pub fn limits_met(input: &Input, number: u32) -> Vec<&'static str> {
    if input.entry.roles().last() != Some(&Role::Limit) {
        return Vec::new();
    }
    let column = &input.taken()[input.taken().len() - 1];
    limit_columns_met(input.lists[0].row_count(), &model::shown_arguments(column), number)
}

// Answers that layouts of the same rows share.

/// The kind of these answers.
pub const SHARED: &str = "pair of layouts";

/// The columns whose length does not go with the rows of the first list.
fn unequal_columns(input: &Input) -> Vec<Column> {
    let rows = input.lists[0].row_count();
    let is_unequal = |column: &Column| match *column {
        Column::List(at) => input.lists[at].row_count() != rows,
        Column::Argument(at) => {
            let values = input.arguments[at].values.len();
            match input.entry.kind {
                Kind::Recipe { columns, .. } | Kind::RecipeRows { columns, .. } => {
                    values as u128 != columns as u128 * rows as u128
                }
                _ => !model::suits(input.entry.roles()[at], values, rows),
            }
        }
    };
    Column::all(input.entry).into_iter().filter(is_unequal).collect()
}

/// The outputs that the result of an operation does not fit.
fn short_outputs(case: &Case, input: &Input) -> Vec<&'static str> {
    let operation = case.entry.known_operation();
    let made = model::rows_made(case.entry.width, operation, &input.lists, input.taken());
    made.map_or(Vec::new(), |made| outputs_short_for(case, &made))
}

/// The outputs that this result does not fit.
fn outputs_short_for(case: &Case, made: &Made) -> Vec<&'static str> {
    let lengths = case.lengths(case.entry.results());
    let slots = model::slots_needed(made).into_iter().zip(lengths);
    let kinds = case.entry.outputs().iter().zip(slots);
    kinds.filter(|(_, (needed, lent))| *needed > *lent as u64).map(|(kind, _)| kind.name).collect()
}

/// What calls met that show the same and share this answer: the number, and the one column, output,
/// step or way to be malformed that it comes from.
pub fn shared_met(case: &Case, number: u32) -> Vec<String> {
    let mut met = vec![number.to_string()];
    if case.entry == Entry::IMPORT {
        let made = case.view().imported();
        let short = made.map_or(Vec::new(), |made| outputs_short_for(case, &made));
        met.extend(short.iter().filter(|_| short.len() == 1).map(|name| shared_9(name)));
        return met;
    }
    let input = case.decode();
    if number == 3 {
        if let [column] = unequal_columns(&input)[..] {
            met.push(shared_3(column, case.entry));
        }
    } else if case.entry.is_recipe() {
        met.extend(recipe_coverage::shared_met(case, &input, number));
    } else if number == 9 && !case.entry.is_window() {
        if let [name] = short_outputs(case, &input)[..] {
            met.push(shared_9(name));
        }
    }
    met
}

pub fn shared_3(column: Column, entry: Entry) -> String {
    format!("3 of {}", column.name(entry))
}

pub fn shared_9(output: &str) -> String {
    format!("9 for {output}")
}

// What a run must reach.

const INDEXES: &[&str] = &[
    "index 0: null",
    "index 1: value",
    "index -1: value",
    "index length: value",
    "index length + 1: null",
    "index -length: value",
    "index -length - 1: null",
    "index 2147483647: null",
    "index -2147483648: null",
    "index 2147483648: refused 4",
    "index -2147483649: refused 4",
    "index largest: refused 4",
    "index smallest: refused 4",
    "index 2147483647 of an empty row: null",
    "index 2147483648 of an empty row: refused 4",
    "index 2147483648 of a null row: null",
    "index null beside a null: null",
];

const BOUNDS: &[&str] = &[
    "from 0: places",
    "from 1: places",
    "from -1: places",
    "from length: places",
    "from length + 1: empty",
    "from -length: places",
    "from -length - 1: places",
    "from 2147483647: empty",
    "from -2147483648: places",
    "from 2147483648: refused 4",
    "from -2147483649: refused 4",
    "from largest: refused 4",
    "from smallest: refused 4",
    "from 2147483648 of an empty row: empty",
    "from 2147483648 of a null row: null",
    "from 2147483648 beside a null: null",
    "from null beside a null: null",
    "to 0: empty",
    "to 1: places",
    "to -1: places",
    "to length: places",
    "to length + 1: places",
    "to -length: places",
    "to -length - 1: empty",
    "to 2147483647: places",
    "to -2147483648: empty",
    "to 2147483648: refused 4",
    "to -2147483649: refused 4",
    "to largest: refused 4",
    "to smallest: refused 4",
    "to 2147483648 of an empty row: empty",
    "to 2147483648 of a null row: null",
    "to 2147483648 beside a null: null",
    "to null beside a null: null",
];

const STRIDES: &[&str] = &[
    "stride 0: refused 5",
    "stride 0: empty",
    "stride 0 of an empty row: empty",
    "stride 0 of a null row: null",
    "stride 0 beside a null: null",
    "stride 1: places",
    "stride -1: places",
    "stride 2: places",
    "stride -2: places",
    "stride length - 1: places",
    "stride length: places",
    "stride length + 1: places",
    "stride -length + 1: places",
    "stride -length: places",
    "stride -length - 1: places",
    "stride 2147483646: places",
    "stride 2147483647: places",
    "stride -2147483647: places",
    "stride -2147483648: places",
    "stride 2147483648: refused 6",
    "stride 2147483648: empty",
    "stride -2147483649: refused 6",
    "stride -2147483649: empty",
    "stride largest: refused 6",
    "stride smallest: refused 6",
    "stride 2147483648 of an empty row: empty",
    "stride 2147483648 of a null row: null",
    "stride 2147483648 beside a null: null",
    "stride null beside a null: null",
    "bounds rising, stride 0: refused 5",
    "bounds rising, stride positive: places",
    "bounds rising, stride negative: empty",
    "bounds rising, stride above 32 bits: refused 6",
    "bounds rising, stride below 32 bits: empty",
    "bounds equal, stride 0: refused 5",
    "bounds equal, stride positive: places",
    "bounds equal, stride negative: places",
    "bounds equal, stride above 32 bits: refused 6",
    "bounds equal, stride below 32 bits: refused 6",
    "bounds falling, stride 0: refused 5",
    "bounds falling, stride positive: empty",
    "bounds falling, stride negative: places",
    "bounds falling, stride above 32 bits: empty",
    "bounds falling, stride below 32 bits: refused 6",
    "bounds outside, stride 0: empty",
    "bounds outside, stride positive: empty",
    "bounds outside, stride negative: empty",
    "bounds outside, stride above 32 bits: empty",
    "bounds outside, stride below 32 bits: empty",
    "bounds beyond 32 bits, stride 0: refused 4",
    "bounds beyond 32 bits, stride positive: refused 4",
    "bounds beyond 32 bits, stride negative: refused 4",
    "bounds beyond 32 bits, stride above 32 bits: refused 4",
    "bounds beyond 32 bits, stride below 32 bits: refused 4",
];

/// The most places that a stride finds, and one where it steps over all others; a slice against the
/// direction has none.
const PLACES: &[&str] = &[
    "0 of 9 by 1",
    "1 of 9 by 1",
    "8 of 9 by 1",
    "9 of 9 by 1",
    "0 of 9 by -1",
    "1 of 9 by -1",
    "8 of 9 by -1",
    "9 of 9 by -1",
    "4 of 9 by 2",
    "5 of 9 by 2",
    "5 of 9 by -2",
    "2 of 9 by 7",
    "2 of 9 by -7",
    "1 of 9 by 8",
    "2 of 9 by 8",
    "1 of 9 by -8",
    "2 of 9 by -8",
    "1 of 9 by 9",
    "1 of 9 by -9",
    "1 of 9 by 10",
    "1 of 9 by -10",
    "1 of 9 by 2147483646",
    "1 of 9 by 2147483647",
    "1 of 9 by -2147483647",
    "1 of 9 by -2147483648",
    "4000 of 4000 by 1",
    "4000 of 4000 by -1",
    "3999 of 4000 by 1",
    "3999 of 4000 by -1",
    "2000 of 4000 by 2",
    "2000 of 4000 by -2",
    "1334 of 4000 by 3",
    "1334 of 4000 by -3",
    "3 of 4000 by 1999",
    "2 of 4000 by 2000",
    "2 of 4000 by -2000",
    "2 of 4000 by 3999",
    "2 of 4000 by -3999",
    "1 of 4000 by 4000",
    "1 of 4000 by -4000",
    "1 of 4000 by 4001",
    "1 of 4000 by -4001",
    "1 of 4000 by 2147483646",
    "1 of 4000 by 2147483647",
    "1 of 4000 by -2147483647",
    "1 of 4000 by -2147483648",
];

/// A null fill stands beside no null of another argument.
const COUNTS: &[&str] = &[
    "count -1: refused 7",
    "count smallest: refused 7",
    "count 0: empty",
    "count 0 of an empty row: empty",
    "count length - 1: shorter",
    "count length: same",
    "count length + 1: longer",
    "count length + 2: longer",
    "count 1 of an empty row: longer",
    "count -1 of a null row: null",
    "count null beside a null: null",
];

const FILLS: &[&str] = &[
    "fill given: longer",
    "fill given: shorter",
    "fill given: same",
    "fill smallest: longer",
    "fill null beside a null: longer",
    "fill null beside a null: shorter",
    "fill null beside a null: same",
    "fill given beside a null: null",
];

const REPLACEMENTS: &[&str] = &[
    "old given: changed",
    "old given: same",
    "old smallest: changed",
    "old smallest over nulls alone: same",
    "old null over smallest alone: same",
    "new smallest: changed",
    "old null: changed",
    "old null: same",
    "old null of an empty row: empty",
    "old null of a null row: null",
    "new null: changed",
    "new null of an empty row: empty",
    "limit null: null",
    "limit null of an empty row: null",
    "limit null of a null row: null",
    "limit smallest: same",
    "limit -1: same",
    "limit 0: same",
    "limit below the matches: changed",
    "limit equal to the matches: changed",
    "limit above the matches: changed",
    "limit largest: changed",
];

const REMOVALS: &[&str] = &[
    "old given: shorter",
    "old given: same",
    "old given: empty",
    "old smallest: shorter",
    "old smallest over nulls alone: same",
    "old null beside a null: null",
    "old null of a null row: null",
    "limit null beside a null: null",
    "limit -1 beside a null: null",
    "limit smallest: same",
    "limit -1: same",
    "limit 0: same",
    "limit below the matches: shorter",
    "limit equal to the matches: shorter",
    "limit above the matches: shorter",
    "limit largest: shorter",
];

const REPEATS: &[&str] = &[
    "times null beside a null: null",
    "times null of a null row: null",
    "times smallest: no lists",
    "times -1: no lists",
    "times 0: no lists",
    "times 1: lists",
    "times 2: lists",
    "times 0 of an empty row: no lists",
    "times 2 of an empty row: lists",
    "times -1 of a null row: no lists",
    "times 0 of a null row: no lists",
    "times 1 of a null row: null lists",
    "times 2 of a null row: null lists",
    "times 2147483648: refused 8",
    "times largest: refused 8",
];

/// What large lists must meet in the place of 4, 6 and 8, and of what steps to the ends of 32 bits.
const LARGE_INDEXES: &[&str] = &[
    "index 2147483648: null",
    "index -2147483649: null",
    "index 1152921504606846976: null",
    "index largest: null",
    "index smallest: null",
    "index 2147483648 of an empty row: null",
];

const LARGE_BOUNDS: &[&str] = &[
    "from 2147483648: empty",
    "from -2147483649: places",
    "from largest: empty",
    "from smallest: places",
    "to 2147483648: places",
    "to -2147483649: empty",
    "to largest: places",
    "to smallest: empty",
];

const LARGE_STRIDES: &[&str] = &[
    "stride 2147483648: places",
    "stride -2147483649: places",
    "stride 1152921504606846976: places",
    "stride largest: places",
    "stride smallest: places",
    "bounds rising, stride above 32 bits: places",
    "bounds equal, stride above 32 bits: places",
    "bounds equal, stride below 32 bits: places",
    "bounds falling, stride below 32 bits: places",
    "1 of 9 by 2147483648",
    "1 of 9 by -2147483649",
    "1 of 9 by 9223372036854775806",
    "1 of 9 by 9223372036854775807",
    "1 of 9 by -9223372036854775807",
    "1 of 9 by -9223372036854775808",
    "1 of 4000 by 9223372036854775807",
    "1 of 4000 by -9223372036854775808",
];

const LARGE_REPEATS: &[&str] =
    &["times 1152921504606846975: refused 8", "times 1152921504606846976: refused 8"];

/// Whether large lists meet it too.
fn is_of_both_widths(subject: &str) -> bool {
    let refused = ["refused 4", "refused 6", "2147483648: refused 8"];
    !refused.iter().any(|end| subject.ends_with(end))
        && !(subject.contains(" by ") && subject.contains("21474836"))
}

/// What the rows of an operation must meet.
fn demanded_of_rows(entry: Entry) -> Vec<String> {
    let (parts, large): (&[&[&str]], &[&[&str]]) = match entry.known_operation() {
        Operation::Element => (&[INDEXES], &[LARGE_INDEXES]),
        Operation::Union | Operation::Intersect => (&[&PAIRS], &[]),
        Operation::Slice => (&[BOUNDS, STRIDES, PLACES], &[LARGE_BOUNDS, LARGE_STRIDES]),
        Operation::SliceWithoutStride => (&[BOUNDS], &[LARGE_BOUNDS]),
        Operation::Resize => (&[COUNTS, FILLS], &[]),
        Operation::ResizeWithoutFill => (&[COUNTS], &[]),
        Operation::Replace => (&[REPLACEMENTS, &LIMIT_COLUMNS], &[]),
        Operation::Remove => (&[REMOVALS, &LIMIT_COLUMNS], &[]),
        Operation::ListRepeat => (&[REPEATS], &[LARGE_REPEATS]),
        _ => (&[], &[]),
    };
    let mut all: Vec<&str> = parts.concat();
    if entry.is_wide() {
        all.retain(|subject| is_of_both_widths(subject));
        all.extend(large.concat());
    }
    let mut all: Vec<String> = all.into_iter().map(str::to_string).collect();
    match entry.known_operation() {
        Operation::Resize | Operation::ResizeWithoutFill => all.extend(resize_sums(entry.width)),
        Operation::ListRepeat => all.extend(repeat_sums(entry.width)),
        _ => (),
    }
    all
}

/// The answers that can be reached for an operation. Union's 8 takes more than 2147483647 elements
/// in its result, of which the byte entry takes 16384, and a typed call would be lent 17 GB.
pub fn answers(entry: Entry) -> Vec<u32> {
    let others = entry.lists() + entry.roles().len() > 1;
    let operation = entry.known_operation();
    let mut answers = vec![0, 13, 1, 2];
    answers.extend(others.then_some(3));
    answers.extend(entry.refusals().iter().filter(|_| operation != Operation::Union));
    answers.extend(entry.is_hashed().then_some(14));
    answers.extend([9, 100]);
    if !entry.is_typed_only() {
        answers.push(101);
        answers.extend(entry.with_code(0).map(|_| 102));
    }
    answers
}

/// The orders of two refusals that a call may meet, the one that must be answered first; rows that
/// are refused with different numbers have a group of their own.
fn demanded_orders(entry: Entry) -> Vec<String> {
    let mut orders = Vec::new();
    let answers = answers(entry);
    let of_rows = |number: u32| (4..=8).contains(&number);
    let rank = |number: u32| match number {
        14 => 5,
        4..=9 => 6,
        _ => [102, 100, 101, 13].iter().position(|one| *one == number).unwrap_or(4),
    };
    for first in answers.iter().copied().filter(|one| *one != 0) {
        for then in answers.iter().copied().filter(|one| *one != 0 && *one != first) {
            let comes_first = (rank(first), first) < (rank(then), then);
            if of_rows(first) && of_rows(then) {
                if entry.operation().is_some_and(is_slice) {
                    orders.push(format!("{first} in a row before {then}"));
                }
            } else if comes_first {
                orders.push(format!("{first} before {then}"));
            }
        }
    }
    orders.extend(demanded_column_orders(entry));
    orders
}

/// 13 before 1 before 2 before 3, each in every column in which it can hold.
pub fn demanded_column_orders(entry: Entry) -> Vec<String> {
    let rank = |number: u32| if number == 13 { 0 } else { number };
    let mut orders = Vec::new();
    let harms = Harm::of(entry);
    for one in &harms {
        for other in &harms {
            if let (Some(first), Some(then)) = (one.refusal(), other.refusal()) {
                let (column, other_column) = (one.column.name(entry), other.column.name(entry));
                if rank(first) < rank(then) {
                    orders.push(format!("{first} of {column} before {then} of {other_column}"));
                }
            }
        }
    }
    orders.sort();
    orders.dedup();
    orders
}

/// The answers that pairs of layouts must share: all but 13, 1, 2 and the entry's own.
fn shared_answers(entry: Entry) -> Vec<u32> {
    answers(entry).into_iter().filter(|number| matches!(number, 0 | 3..=9 | 14)).collect()
}

fn demanded_shared(entry: Entry) -> Vec<String> {
    let numbers = shared_answers(entry).into_iter();
    let mut all: Vec<String> = numbers.map(|number| number.to_string()).collect();
    let others = Column::all(entry).into_iter().skip(1);
    all.extend(others.map(|column| shared_3(column, entry)));
    all.extend(entry.outputs()[entry.results()].iter().map(|kind| shared_9(kind.name)));
    all
}

/// Everything that a whole run must reach for one operation.
fn demanded(entry: Entry) -> Vec<(&'static str, String)> {
    let mut all: Vec<(&'static str, String)> = Vec::new();
    let mut add = |kind: &'static str, subjects: Vec<String>| {
        all.extend(subjects.into_iter().map(|subject| (kind, subject)));
    };
    let owned = |subjects: &[&str]| subjects.iter().map(|one| one.to_string()).collect();
    let numbers = answers(entry).into_iter().filter(|one| *one != 102);
    add("answer", numbers.map(|number| number.to_string()).collect());
    add("rows", ROW_COUNTS.iter().map(|(_, name)| name.to_string()).collect());
    add("layout", demanded_layouts(entry));
    add("outputs", owned(&OUTPUT_LENGTHS));
    add("one slot short", entry.outputs().iter().map(|kind| kind.name.to_string()).collect());
    add("damage", Harm::of(entry).iter().map(|harm| harm.name(entry)).collect());
    add("order", demanded_orders(entry));
    add(SHARED, demanded_shared(entry));
    for way in ["ragged", "over size", "at size"].into_iter().filter(|_| !entry.is_typed_only()) {
        let slices = entry.inputs().into_iter().chain(entry.outputs().iter().copied());
        let numbers = slices.filter(|kind| kind.most.is_some());
        add(way, numbers.map(|kind| kind.name.to_string()).collect());
    }
    add("row", demanded_of_rows(entry));
    if entry.is_wide() {
        add("beside the narrow call", vec!["equal rows".to_string()]);
    } else if !entry.is_typed_only() {
        add("ragged", vec!["counts".to_string()]);
    }
    all.extend(demanded_no_offsets(entry));
    all.extend(demanded_null_slots());
    all.extend(demanded_starts(entry, &shared_answers(entry)));
    all.extend(demanded_typed(entry, &answers(entry)));
    if entry.is_hashed() {
        all.extend(hash_coverage::demanded(entry));
    } else if !entry.is_view() {
        all.extend(demanded_lending(entry));
    }
    all
}

fn demanded_layouts(entry: Entry) -> Vec<String> {
    let mut layouts = Vec::new();
    for at in 0..entry.lists() {
        layouts.extend(LIST_LAYOUTS.map(|name| layout_name(Column::List(at), entry, name)));
    }
    for at in 0..entry.roles().len() {
        layouts.extend(ARGUMENT_LAYOUTS.map(|name| layout_name(Column::Argument(at), entry, name)));
    }
    if entry.arguments() > entry.roles().len() {
        layouts.extend(UNTAKEN_LAYOUTS.map(str::to_string));
    }
    layouts
}

impl Coverage {
    /// What a whole run must reach for the operations of the library and did not.
    pub fn missing(&self, library: &Library) -> Vec<String> {
        let mut missing = Vec::new();
        let others = [Entry::IMPORT, Entry::EXPORT, Entry::RECIPE_ROWS].into_iter();
        let others = others.chain(Entry::HASHED).filter(|entry| library.has(*entry));
        for entry in library.operations().chain(others) {
            let demanded = match entry {
                Entry::IMPORT => view_coverage::demanded(),
                Entry::RECIPE_ROWS => window_coverage::demanded(),
                _ => demanded(entry),
            };
            for (kind, subject) in demanded {
                if !self.reached(entry.name(), kind, &subject) {
                    missing.push(format!("{}: {kind} {subject}", entry.name()));
                }
            }
        }
        let recipes = Width::ALL.into_iter().map(Entry::recipes);
        for entry in recipes.filter(|entry| library.has(*entry)) {
            let lending = demanded_lending(entry);
            for (kind, subject) in recipe_coverage::demanded(entry).into_iter().chain(lending) {
                if !self.reached(entry.name(), kind, &subject) {
                    missing.push(format!("{}: {kind} {subject}", entry.name()));
                }
            }
        }
        for (name, kind, subject) in grade_coverage::demanded(library) {
            if !self.reached(name, kind, &subject) {
                missing.push(format!("{name}: {kind} {subject}"));
            }
        }
        let mut unknown = vec![("unknown", "answer", "102"), ("unknown", "typed", FOR_CODE)];
        unknown.extend(library.large.map(|_| ("large unknown", "typed", FOR_CODE)));
        for (name, kind, subject) in unknown {
            if !self.reached(name, kind, subject) {
                missing.push(format!("{name} operations: {kind} {subject}"));
            }
        }
        missing
    }

    /// Prints all that was reached, but of the rows only what is demanded.
    pub fn print(&self) {
        println!("covered, as calls by operation:");
        let rows = |entry: Entry| (entry.name(), demanded_of_rows(entry));
        let entries = Width::ALL.into_iter().flat_map(Entry::all).chain([Entry::EXPORT]);
        let entries = entries.chain(Entry::HASHED);
        let rows: BTreeMap<&str, Vec<String>> = entries.map(rows).collect();
        let mut line = String::new();
        let mut last = ("", "");
        for ((operation, kind, subject), count) in &self.0 {
            if *kind == "row" && !rows[operation].iter().any(|one| one == subject) {
                continue;
            }
            if last != (operation, kind) && !line.is_empty() {
                println!("  {line}");
                line.clear();
            }
            if line.is_empty() {
                line = format!("{operation}, {kind}:");
            } else {
                line.push(';');
            }
            last = (operation, kind);
            line.push_str(&format!(" {subject} {count}").replace("  ", " "));
        }
        println!("  {line}");
        if self.reached("union", "calls", "") {
            println!("not reachable, and not demanded:");
            println!(
                "  union, alone or in a recipe, answer 8: its result would exceed 2147483647 \
                 elements, where the byte entry takes 16384 and a typed call 17 GB of values; of \
                 large lists, 9223372036854775807"
            );
        }
    }
}
