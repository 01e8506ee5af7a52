//! The typed entries of the mock: its version over bytes, on the bytes of the numbers lent, right or
//! wrong in one way that only typed calls show.

use crate::defects::{defect, is};
use crate::mock::{answer_after, Answer, Shape, ANY_VALUE, ELEMENT, LIST_REPEAT, UNION};
use crate::mock_lending::lending;
use crate::mock_recipe::recipe_after;
use crate::model::Width;
use crate::numbers::{bytes_of, bytes_of_mut, Number};
use crate::plain::{self, Offset};
use crate::typed::{List, OuterRoom, Recipe, Room, Typed, Values};

/// Those of one width.
pub const fn typed<O: Offset + Number>() -> Typed<O> {
    Typed { list, lists, any_value, element, list_repeat, recipe, lending: lending() }
}

/// The plain Rust, where no wrong version is wanted.
fn plain<O: Offset + Number>() -> Option<Typed<O>> {
    defect().is_empty().then(plain::typed)
}

/// The width of these offsets.
fn width_of<O>() -> Width {
    match size_of::<O>() {
        8 => Width::Wide,
        _ => Width::Narrow,
    }
}

fn shape<O>(lists: usize, answer: Answer) -> Shape {
    Shape { lists, answer, width: width_of::<O>() }
}

pub fn list_bytes<'a, O: Number>(list: &List<'a, O>) -> [&'a [u8]; 4] {
    [bytes_of(list.offsets), list.rows, bytes_of(list.values), list.elements]
}

fn values_bytes<'a>(column: &Values<'a>) -> [&'a [u8]; 2] {
    [bytes_of(column.values), column.bits]
}

fn room_bytes<'a, O: Number>(room: Room<'a, O>) -> [&'a mut [u8]; 4] {
    [bytes_of_mut(room.offsets), room.rows, bytes_of_mut(room.values), room.elements]
}

// Operations.

fn list<O: Offset + Number>(
    op: u32,
    list: List<O>,
    arguments: [Values; 3],
    room: Room<O>,
    counts: &mut [u64],
) -> u32 {
    if let Some(plain) = plain() {
        return (plain.list)(op, list, arguments, room, counts);
    }
    let op = cut_code(op);
    let (op, served) = match (op, defect()) {
        (12, "typed-code-12-served") | (9 | 10, "typed-set-codes-served-by-list") => (0, true),
        (11, "typed-code-11-not-served") | (8, "typed-code-8-not-served") => (op, false),
        _ => (op, op <= 8 || op == 11),
    };
    let columns: Vec<&[u8]> = arguments.iter().flat_map(values_bytes).collect();
    let [x, y, z] = arguments.map(|one| one.start);
    let starts = [list.rows_start, list.elements_start, x, y, z];
    let inputs = [&list_bytes(&list)[..], &columns].concat();
    let shape = shape::<O>(1, Answer::Lists);
    answer(op, served, shape, &inputs, &starts, &mut room_bytes(room), counts)
}

fn lists<O: Offset + Number>(
    op: u32,
    [left, right]: [List<O>; 2],
    room: Room<O>,
    counts: &mut [u64],
) -> u32 {
    if let Some(plain) = plain() {
        return (plain.lists)(op, [left, right], room, counts);
    }
    let op = cut_code(op);
    let (op, served) = match (op, defect()) {
        (..=8, "typed-list-codes-served-by-lists") => (UNION, true),
        (11, "typed-code-11-served-by-lists") => (UNION, true),
        _ => (op, matches!(op, 9 | 10) && !are_refused(&[left, right])),
    };
    let starts = [left.rows_start, left.elements_start, right.rows_start, right.elements_start];
    let inputs = [list_bytes(&left), list_bytes(&right)].concat();
    let shape = shape::<O>(2, Answer::Lists);
    answer(op, served, shape, &inputs, &starts, &mut room_bytes(room), counts)
}

/// Two lists whose values are one slice, wrongly refused.
fn are_refused<O>([left, right]: &[List<O>; 2]) -> bool {
    let are_one = std::ptr::eq(left.values, right.values) && !left.values.is_empty();
    are_one && is("typed-list-beside-itself-refused")
}

fn cut_code(op: u32) -> u32 {
    if is("typed-code-cut-to-a-byte") {
        op % 256
    } else {
        op
    }
}

fn any_value<O: Offset + Number>(
    list: List<O>,
    values: &mut [i64],
    rows: &mut [u8],
    counts: &mut [u64],
) -> u32 {
    if let Some(plain) = plain() {
        return (plain.any_value)(list, values, rows, counts);
    }
    let starts = [list.rows_start, list.elements_start];
    let shape = shape::<O>(1, Answer::Values);
    let outputs = &mut [bytes_of_mut(values), rows];
    answer(ANY_VALUE, true, shape, &list_bytes(&list), &starts, outputs, counts)
}

fn element<O: Offset + Number>(
    list: List<O>,
    indexes: Values,
    values: &mut [i64],
    rows: &mut [u8],
    counts: &mut [u64],
) -> u32 {
    if let Some(plain) = plain() {
        return (plain.element)(list, indexes, values, rows, counts);
    }
    let starts = [list.rows_start, list.elements_start, indexes.start];
    let inputs = [&list_bytes(&list)[..], &values_bytes(&indexes)].concat();
    let shape = shape::<O>(1, Answer::Values);
    let outputs = &mut [bytes_of_mut(values), rows];
    answer(ELEMENT, true, shape, &inputs, &starts, outputs, counts)
}

fn list_repeat<O: Offset + Number>(
    list: List<O>,
    times: Values,
    outer: OuterRoom<O>,
    inner: Room<O>,
    counts: &mut [u64],
) -> u32 {
    if let Some(plain) = plain() {
        return (plain.list_repeat)(list, times, outer, inner, counts);
    }
    let starts = [list.rows_start, list.elements_start, times.start];
    let inputs = [&list_bytes(&list)[..], &values_bytes(&times)].concat();
    let shape = shape::<O>(1, Answer::Nested);
    let [offsets, rows, values, elements] = room_bytes(inner);
    let outputs = &mut [bytes_of_mut(outer.offsets), outer.rows, offsets, rows, values, elements];
    answer(LIST_REPEAT, true, shape, &inputs, &starts, outputs, counts)
}

/// A whole call: the entry's own answer, then all else.
fn answer(
    op: u32,
    served: bool,
    shape: Shape,
    inputs: &[&[u8]],
    starts: &[usize],
    outputs: &mut [&mut [u8]],
    counts: &mut [u64],
) -> u32 {
    let (starts, needed) = (spoilt_starts(starts, &shape), outputs.len());
    let sizes = inputs.chunks(4).take(shape.lists).map(|list| (list[0].len(), list[2].len()));
    let own = own_answer(served, counts.len(), needed, sizes);
    let before = counts.to_vec();
    if own == Some(100) && is("typed-100-after-refusals") && served {
        let number = tried(op, &shape, inputs, &starts, outputs);
        return if number == 0 { 100 } else { number };
    }
    if own == Some(100) && is("typed-100-clears-outputs") {
        outputs.iter_mut().for_each(|slice| slice.fill(0));
    }
    let bytes = bytes_of_mut(counts);
    let number = answer_after(op, own, shape, inputs, &starts, outputs, bytes);
    spoil_counts(number, &before, counts, needed);
    number
}

/// The answer of the call on copies of the outputs.
fn tried(op: u32, shape: &Shape, inputs: &[&[u8]], starts: &[usize], outputs: &[&mut [u8]]) -> u32 {
    let mut copies: Vec<Vec<u8>> = outputs.iter().map(|slice| slice.to_vec()).collect();
    let mut copies: Vec<&mut [u8]> = copies.iter_mut().map(Vec::as_mut_slice).collect();
    answer_after(op, None, *shape, inputs, starts, &mut copies, &mut [0; 48])
}

/// 100, or wrongly 101 for lists of this many bytes of offsets and of values.
fn own_answer(
    served: bool,
    counts: usize,
    needed: usize,
    mut sizes: impl Iterator<Item = (usize, usize)>,
) -> Option<u32> {
    let needed = match defect() {
        "typed-one-count-fewer-accepted" => needed - 1,
        "typed-exact-counts-refused" => needed + 1,
        "typed-four-counts-for-all" => 4,
        _ => needed,
    };
    let over = |(offsets, values): (usize, usize)| match defect() {
        "typed-101-over-4096-rows" => offsets > 4 * 4097,
        "typed-101-over-16384-values" => values > 8 * 16384,
        "typed-101-over-a-million-values" => values > 8 * 1_000_000,
        _ => false,
    };
    match () {
        _ if !served && !is("typed-unknown-code-gives-102") => Some(100),
        _ if !served => Some(102),
        _ if counts < needed => Some(100),
        _ if sizes.any(over) => Some(101),
        _ => None,
    }
}

/// The starting bits, of which one may be ignored, another be taken for it, or all be cut.
fn spoilt_starts(starts: &[usize], shape: &Shape) -> Vec<usize> {
    let first_argument = 2 * shape.lists;
    let ignored = match defect() {
        "typed-row-start-ignored" => 0,
        "typed-element-start-ignored" => 1,
        "typed-right-row-start-ignored" if shape.lists == 2 => 2,
        "typed-right-element-start-ignored" if shape.lists == 2 => 3,
        "typed-first-start-ignored" => first_argument,
        "typed-second-start-ignored" => first_argument + 1,
        "typed-third-start-ignored" => first_argument + 2,
        _ => starts.len(),
    };
    let spoilt = |(at, start): (usize, &usize)| match defect() {
        _ if at == ignored && *start < 8 => 0,
        "typed-starts-cut-to-32-bits" => *start & 0xffff_ffff,
        _ => *start,
    };
    let mut spoilt: Vec<usize> = starts.iter().enumerate().map(spoilt).collect();
    if is("typed-starts-of-arguments-exchanged") && starts.len() > first_argument + 1 {
        spoilt.swap(first_argument, first_argument + 1);
    }
    spoilt
}

fn spoil_counts(number: u32, before: &[u64], counts: &mut [u64], needed: usize) {
    let past = counts.len().min(needed);
    match (defect(), number) {
        ("typed-counts-not-written", 0) => counts.copy_from_slice(before),
        ("typed-last-count-not-written", 0) => counts[past - 1] = before[past - 1],
        ("typed-count-written-past", 0) => counts[past..].iter_mut().take(1).for_each(grow),
        ("typed-counts-written-on-refusal", 1..=15) => counts.iter_mut().take(1).for_each(grow),
        ("typed-counts-written-on-100", 100) => counts.iter_mut().take(1).for_each(grow),
        ("typed-counts-cut-to-16-bits", 0) => counts[..past].iter_mut().for_each(cut),
        _ => (),
    }
}

fn grow(count: &mut u64) {
    *count = count.wrapping_add(1);
}

fn cut(count: &mut u64) {
    *count &= 0xffff;
}

// Recipes.

fn recipe<O: Offset + Number>(
    recipe: Recipe<O>,
    rooms: [Room<O>; 3],
    counts: &mut [u64],
    tally: &mut [u64],
) -> u32 {
    if let Some(plain) = plain() {
        return (plain.recipe)(recipe, rooms, counts, tally);
    }
    let Recipe { station, numbers, mut columns, lists: [first, second], arguments } = recipe;
    if is("typed-columns-cut-to-32-bits") {
        columns &= 0xffff_ffff;
    }
    let list = [list_bytes(&first), list_bytes(&second)].concat();
    let columns_lent = values_bytes(&arguments);
    let inputs: Vec<&[u8]> = [&[bytes_of(numbers)][..], &list, &columns_lent].concat();
    let inputs = inputs.try_into().expect("the slices of a recipe");
    let starts = spoilt_starts(
        &[
            first.rows_start,
            first.elements_start,
            second.rows_start,
            second.elements_start,
            arguments.start,
        ],
        &shape::<O>(2, Answer::Lists),
    );
    let starts = starts.try_into().expect("the starting bits of a recipe");
    let own = recipe_own_answer(&recipe, counts.len(), tally.len());
    let (counts_before, before) = (counts.to_vec(), tally.to_vec());
    let [one, two, output] = rooms.map(room_bytes);
    let slices = [Vec::from(one), Vec::from(two), Vec::from(output), vec![bytes_of_mut(tally)]];
    let mut outputs: [&mut [u8]; 13] =
        slices.into_iter().flatten().collect::<Vec<_>>().try_into().expect("thirteen outputs");
    let trays: Vec<Vec<u8>> = outputs[..8].iter().map(|slice| slice.to_vec()).collect();
    let bytes = bytes_of_mut(counts);
    let width = width_of::<O>();
    let number = recipe_after(own, width, station, columns, inputs, starts, &mut outputs, bytes);
    spoil_trays(number, &trays, &mut outputs);
    spoil_counts(number, &counts_before, counts, 4);
    spoil_tally(number, &before, tally);
    number
}

fn recipe_own_answer<O>(recipe: &Recipe<O>, counts: usize, tally: usize) -> Option<u32> {
    let tally_needed = match defect() {
        "typed-tally-one-short-accepted" => 31,
        "typed-tally-of-exact-length-refused" => 33,
        _ => 32,
    };
    if is("typed-101-over-32768-arguments") && recipe.arguments.values.len() > 32768 {
        return Some(101);
    }
    let sizes = recipe.lists.iter().map(|list| (4 * list.offsets.len(), 8 * list.values.len()));
    let own = own_answer(!are_refused(&recipe.lists), counts, 4, sizes);
    let own = if tally < tally_needed { Some(100) } else { own };
    match defect() {
        "typed-15-before-100" if recipe.station > 15 => None,
        "typed-10-before-100" if recipe.numbers.len() % 4 != 0 && recipe.station < 16 => Some(10),
        _ => own,
    }
}

/// Trays that keep, or get, something.
fn spoil_trays(number: u32, before: &[Vec<u8>], outputs: &mut [&mut [u8]; 13]) {
    for (at, (slice, before)) in outputs.iter_mut().zip(before).enumerate() {
        let kept = match (defect(), number) {
            ("typed-100-leaves-trays", 100) => 0,
            ("typed-100-leaves-tray-two", 100) if at >= 4 => 0,
            ("typed-trays-cleared-by-the-byte", _) if at % 4 == 2 => slice.len() / 8,
            ("typed-trays-cleared-to-16384", _) if at % 4 == 2 => slice.len().min(8 * 16384),
            _ => slice.len(),
        };
        slice[kept..].copy_from_slice(&before[kept..]);
    }
}

fn spoil_tally(number: u32, before: &[u64], tally: &mut [u64]) {
    match (defect(), number) {
        ("typed-short-tally-written", 100) => tally.iter_mut().take(1).for_each(grow),
        ("typed-100-counted", 100) => tally.iter_mut().skip(16).for_each(grow),
        ("typed-refused-counts-not-kept", _) if tally.len() >= 32 => {
            tally[16..32].copy_from_slice(&before[16..32]);
        }
        ("typed-tally-written-past", _) if tally.len() > 32 => grow(&mut tally[32]),
        _ => (),
    }
}
