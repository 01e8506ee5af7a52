//! The mock's entry for a recipe over some of its rows: it copies these rows and runs the mock's recipe
//! on the copy, right or wrong in one way.

use crate::defects::{defect, is};
use crate::mock_recipe::{recipe_after, refusal_before_steps};
use crate::mock_typed::list_bytes;
use crate::model::Width;
use crate::numbers::{bytes_of, bytes_of_mut};
use crate::plain;
use crate::typed::{List, Recipe, Room, RowsOfRecipe, Windows};
use crate::windows::Window;

pub const WINDOWS: Windows = Windows { recipe_rows };

/// The wrong versions.
pub const WINDOW_DEFECTS: &[&str] = &[
    "rows-pitch-of-the-window",
    "rows-one-too-many",
    "rows-one-too-few",
    "rows-begin-one-late",
    "rows-from-the-first",
    "rows-to-the-last",
    "rows-refused-outside",
    "rows-7-outside",
    "rows-8-outside",
    "rows-refused-before-the-window",
    "rows-refused-behind-the-window",
    "rows-16-before-10",
    "rows-16-before-13",
    "rows-16-before-1",
    "rows-16-before-2",
    "rows-16-before-3",
    "rows-16-after-the-steps",
    "rows-16-after-9",
    "rows-trays-dirty-after-16",
    "rows-trays-dirty-after-a-refusal",
    "rows-trays-dirty-after-100",
    "rows-trays-dirty-after-no-rows",
    "rows-trays-cleared-to-the-window",
    "rows-tray-two-dirty",
    "rows-bits-from-bit-0",
    "rows-bits-from-a-byte",
    "rows-bits-without-the-start",
    "rows-bits-of-the-second-from-bit-0",
    "rows-element-bits-from-bit-0",
    "rows-element-bits-from-a-byte",
    "rows-second-list-not-cut",
    "rows-first-offset-taken-as-0",
    "rows-arguments-not-cut",
    "rows-arguments-of-the-first-column-cut",
    "rows-argument-bits-of-the-window",
    "rows-argument-bits-without-begin",
    "rows-argument-start-for-the-first-column-only",
    "rows-no-rows-refused",
    "rows-no-rows-at-the-end-refused",
    "rows-no-rows-need-no-slot",
    "rows-end-at-the-rows-refused",
    "rows-end-one-over-accepted",
    "rows-end-over-cut",
    "rows-begin-over-end-accepted",
    "rows-begin-over-end-exchanged",
    "rows-begin-cut-to-32-bits",
    "rows-end-cut-to-32-bits",
    "rows-signed-ends",
    "rows-offsets-outside-not-tested",
    "rows-bitmaps-outside-not-tested",
    "rows-starts-not-tested",
    "rows-longer-second-list-accepted",
    "rows-arguments-for-the-window-accepted",
    "rows-counts-of-all-rows",
    "rows-null-rows-of-all-rows",
    "rows-room-for-all-rows-needed",
    "rows-room-for-all-elements-needed",
    "rows-trays-for-all-rows-needed",
    "rows-written-at-their-place",
    "rows-slots-past-cleared",
    "rows-one-count-fewer-accepted",
    "rows-exact-counts-refused",
    "rows-100-after-refusals",
    "rows-refusal-writes-counts",
    "rows-refusal-clears-outputs",
    "rows-one-slice-refused",
    "rows-cut-at-65535",
];

/// The bytes of a copy: the numbers, the lists and the arguments, with the starting bits.
struct Copied {
    slices: [Vec<u8>; 11],
    starts: [usize; 5],
}

impl Copied {
    fn slices(&self) -> [&[u8]; 11] {
        self.slices.each_ref().map(Vec::as_slice)
    }
}

fn recipe_rows(of: RowsOfRecipe, mut rooms: [Room<i32>; 3], counts: &mut [u64]) -> u32 {
    if defect().is_empty() {
        return (plain::WINDOWS.recipe_rows)(of, rooms, counts);
    }
    let trays: Vec<[Vec<u8>; 4]> = rooms[..2].iter().map(copy_of).collect();
    let number = answer(&of, &mut rooms, counts);
    let written = of.window.end.saturating_sub(of.window.begin).saturating_add(1);
    for (at, (room, before)) in rooms.iter_mut().zip(&trays).enumerate() {
        clear(room);
        let is_dirty = match defect() {
            "rows-trays-dirty-after-16" => number == 16,
            "rows-trays-dirty-after-a-refusal" => (4..=9).contains(&number),
            "rows-trays-dirty-after-100" => number == 100,
            "rows-trays-dirty-after-no-rows" => number == 0 && of.window.begin == of.window.end,
            "rows-tray-two-dirty" => at == 1,
            _ => false,
        };
        if is_dirty {
            restore(room, before, 0);
        }
        if is("rows-trays-cleared-to-the-window") {
            restore(room, before, written.min(room.offsets.len()));
        }
    }
    if number != 0 {
        if is("rows-refusal-writes-counts") {
            counts.iter_mut().take(1).for_each(|count| *count = count.wrapping_add(1));
        }
        if is("rows-refusal-clears-outputs") {
            clear(&mut rooms[2]);
        }
    }
    number
}

fn copy_of(room: &Room<i32>) -> [Vec<u8>; 4] {
    let [offsets, values] = [bytes_of(room.offsets), bytes_of(room.values)];
    [offsets.to_vec(), room.rows.to_vec(), values.to_vec(), room.elements.to_vec()]
}

/// Puts back what a tray held, of its offsets those from some slot on.
fn restore(room: &mut Room<i32>, before: &[Vec<u8>; 4], from: usize) {
    bytes_of_mut(room.offsets)[4 * from..].copy_from_slice(&before[0][4 * from..]);
    if from == 0 {
        room.rows.copy_from_slice(&before[1]);
        bytes_of_mut(room.values).copy_from_slice(&before[2]);
        room.elements.copy_from_slice(&before[3]);
    }
}

fn clear(room: &mut Room<i32>) {
    room.offsets.fill(0);
    room.rows.fill(0);
    room.values.fill(0);
    room.elements.fill(0);
}

fn answer(of: &RowsOfRecipe, rooms: &mut [Room<i32>; 3], counts: &mut [u64]) -> u32 {
    let needed = match defect() {
        "rows-one-count-fewer-accepted" => 3,
        "rows-exact-counts-refused" => 5,
        _ => 4,
    };
    if counts.len() < needed {
        let refusal = refusal(&of.recipe, cut_window(of.window));
        return refusal.filter(|_| is("rows-100-after-refusals")).unwrap_or(100);
    }
    let window = cut_window(of.window);
    if let Some(number) = refusal(&of.recipe, window) {
        if number != 16 || !is("rows-16-after-the-steps") && !is("rows-16-after-9") {
            return number;
        }
        let last = row_count(&of.recipe.lists[0]);
        let part = Window { begin: window.begin.min(last), end: window.end.min(last) };
        let number = run(&of.recipe, part, &mut emptied(rooms), &mut [0; 4]);
        let is_first = (4..=8).contains(&number) || number == 9 && is("rows-16-after-9");
        return if is_first { number } else { 16 };
    }
    let window = taken(&of.recipe, window);
    if let Some(number) = refusal_outside(&of.recipe, window) {
        return number;
    }
    if is("rows-no-rows-need-no-slot") && window.begin == window.end && rooms[2].offsets.is_empty()
    {
        counts[..4].fill(0);
        return 0;
    }
    if is_short_for_all(&of.recipe, rooms) {
        return 9;
    }
    let number = run(&of.recipe, window, rooms, counts);
    if number == 0 {
        spoil(&of.recipe, window, &mut rooms[2], counts);
    }
    number
}

fn row_count(list: &List<i32>) -> usize {
    list.offsets.len().max(1) - 1
}

fn cut_window(Window { begin, end }: Window) -> Window {
    match defect() {
        "rows-begin-cut-to-32-bits" => Window { begin: begin & 0xffff_ffff, end },
        "rows-end-cut-to-32-bits" => Window { begin, end: end & 0xffff_ffff },
        "rows-begin-over-end-exchanged" => Window { begin: begin.min(end), end: begin.max(end) },
        _ => Window { begin, end },
    }
}

fn is_outside(recipe: &Recipe<i32>, Window { begin, end }: Window) -> bool {
    let rows = row_count(&recipe.lists[0]);
    match defect() {
        "rows-no-rows-refused" if begin == end => true,
        "rows-no-rows-at-the-end-refused" if begin == rows && rows > 0 => true,
        "rows-end-at-the-rows-refused" if end == rows && rows > 0 => true,
        "rows-end-one-over-accepted" => begin > end || end > rows + 1,
        "rows-end-over-cut" => begin > end || begin > rows,
        "rows-begin-over-end-accepted" => end > rows,
        "rows-signed-ends" => begin as i64 > end as i64 || end as i64 > rows as i64,
        "rows-one-slice-refused" if are_one(recipe) => true,
        _ => begin > end || end > rows,
    }
}

/// Whether both lists are lent in one place.
fn are_one(recipe: &Recipe<i32>) -> bool {
    let [first, second] = &recipe.lists;
    std::ptr::eq(first.values, second.values) && !first.values.is_empty()
}

/// The refusal before the steps.
fn refusal(recipe: &Recipe<i32>, window: Window) -> Option<u32> {
    let outside = is_outside(recipe, window);
    let whole = whole(recipe);
    let first = refusal_before_steps(Width::Narrow, recipe.columns, &whole.slices(), whole.starts);
    let after_16: &[u32] = match defect() {
        "rows-16-before-10" => &[10, 13, 1, 2, 3],
        "rows-16-before-13" => &[13, 1, 2, 3],
        "rows-16-before-1" => &[1, 2, 3],
        "rows-16-before-2" => &[2, 3],
        "rows-16-before-3" => &[3],
        _ => &[],
    };
    match first {
        Some(number) if outside && after_16.contains(&number) => Some(16),
        Some(number) if !outside && is_overlooked(recipe, window, number) => None,
        None if outside => Some(16),
        first => first,
    }
}

/// Whether a refusal of the whole columns is missed that these rows alone do not give.
fn is_overlooked(recipe: &Recipe<i32>, window: Window, number: u32) -> bool {
    let copy = copied(recipe, window);
    let of_copy = || {
        refusal_before_steps(Width::Narrow, recipe.columns, &copy.slices(), copy.starts).is_none()
    };
    let rows = row_count(&recipe.lists[0]);
    match (defect(), number) {
        ("rows-offsets-outside-not-tested", 1) => of_copy(),
        ("rows-bitmaps-outside-not-tested", 2) => of_copy(),
        ("rows-starts-not-tested", 13) => true,
        ("rows-longer-second-list-accepted", 3) => row_count(&recipe.lists[1]) > rows,
        ("rows-arguments-for-the-window-accepted", 3) => {
            recipe.arguments.values.len() == recipe.columns * (window.end - window.begin)
        }
        _ => false,
    }
}

/// The rows that are taken of a window that is accepted.
fn taken(recipe: &Recipe<i32>, Window { begin, end }: Window) -> Window {
    let rows = row_count(&recipe.lists[0]);
    let (begin, end) = match defect() {
        "rows-one-too-many" => (begin, end + 1),
        "rows-one-too-few" => (begin, end.max(begin + 1) - 1),
        "rows-begin-one-late" => ((begin + 1).min(end), end),
        "rows-from-the-first" => (0, end),
        "rows-to-the-last" => (begin, rows),
        "rows-cut-at-65535" => (begin.min(65535), end.min(65535)),
        "rows-signed-ends" => (begin.min(rows), end),
        _ => (begin, end),
    };
    let end = end.min(rows);
    Window { begin: begin.min(end), end }
}

/// A refusal of rows that are not looked at.
fn refusal_outside(recipe: &Recipe<i32>, Window { begin, end }: Window) -> Option<u32> {
    let rows = row_count(&recipe.lists[0]);
    let wrong = match defect() {
        "rows-refused-outside" | "rows-7-outside" | "rows-8-outside" => {
            Window { begin: 0, end: rows }
        }
        "rows-refused-before-the-window" => Window { begin: 0, end },
        "rows-refused-behind-the-window" => Window { begin, end: rows },
        _ => return None,
    };
    let number = run(recipe, wrong, &mut with_room(&mut Slots::new()), &mut [0; 4]);
    let is_given = match defect() {
        "rows-7-outside" => number == 7,
        "rows-8-outside" => number == 8,
        _ => (4..=8).contains(&number),
    };
    is_given.then_some(number)
}

/// 9 by what the whole columns would take.
fn is_short_for_all(recipe: &Recipe<i32>, rooms: &[Room<i32>; 3]) -> bool {
    let first = &recipe.lists[0];
    let rows = row_count(first);
    let offset = |at: usize| first.offsets.get(at).copied().unwrap_or(0) as usize;
    match defect() {
        "rows-room-for-all-rows-needed" => rooms[2].offsets.len() < rows + 1,
        "rows-room-for-all-elements-needed" => {
            rooms[2].values.len() < offset(rows).saturating_sub(offset(0))
        }
        "rows-trays-for-all-rows-needed" => {
            recipe.numbers.len() > 4 && rooms[0].offsets.len() < rows + 1
        }
        _ => false,
    }
}

// The copy.

fn bit(bits: &[u8], place: usize) -> bool {
    bits.is_empty() || bits.get(place / 8).is_some_and(|byte| byte >> (place % 8) & 1 == 1)
}

fn bytes_of_bits(valid: impl Iterator<Item = bool>) -> Vec<u8> {
    let mut bytes = Vec::new();
    for (place, valid) in valid.enumerate() {
        if place % 8 == 0 {
            bytes.push(0);
        }
        bytes[place / 8] |= u8::from(valid) << (place % 8);
    }
    bytes
}

/// The columns as they are.
fn whole(recipe: &Recipe<i32>) -> Copied {
    let [first, second] = recipe.lists;
    let [a, b, c, d] = list_bytes(&first);
    let [e, f, g, h] = list_bytes(&second);
    let Recipe { numbers, arguments, .. } = recipe;
    let slices = [bytes_of(numbers), a, b, c, d, e, f, g, h];
    let [a, b, c, d, e, f, g, h, i] = slices.map(<[u8]>::to_vec);
    let (values, bits) = (bytes_of(arguments.values).to_vec(), arguments.bits.to_vec());
    Copied {
        slices: [a, b, c, d, e, f, g, h, i, values, bits],
        starts: [
            first.rows_start,
            first.elements_start,
            second.rows_start,
            second.elements_start,
            arguments.start,
        ],
    }
}

/// Some rows of a list: their offsets, their bits, and the values and bits up to the last of them.
fn copied_list(list: List<i32>, second: bool, Window { begin, end }: Window) -> [Vec<u8>; 4] {
    let (begin, end) = match defect() {
        "rows-second-list-not-cut" if second => (0, end - begin),
        _ => (begin, end),
    };
    let mut offsets: Vec<i32> = list.offsets.get(begin..=end).unwrap_or(&[]).to_vec();
    let first = offsets.first().copied().unwrap_or(0);
    if is("rows-first-offset-taken-as-0") {
        offsets.iter_mut().for_each(|offset| *offset = offset.wrapping_sub(first));
    }
    let from = match defect() {
        "rows-bits-from-bit-0" if !second => list.rows_start,
        "rows-bits-of-the-second-from-bit-0" if second => list.rows_start,
        "rows-bits-from-a-byte" => (list.rows_start + begin) / 8 * 8,
        "rows-bits-without-the-start" => begin,
        _ => list.rows_start + begin,
    };
    let rows = bytes_of_bits((from..from + (end - begin)).map(|place| bit(list.rows, place)));
    let rows = if list.rows.is_empty() { Vec::new() } else { rows };
    let last = offsets.last().copied().unwrap_or(0).max(0) as usize;
    let values = &list.values[..last.min(list.values.len())];
    let back = match defect() {
        "rows-element-bits-from-bit-0" => first.max(0) as usize,
        "rows-element-bits-from-a-byte" => (list.elements_start + first.max(0) as usize) % 8,
        _ => 0,
    };
    let places = 0..values.len();
    let is_valid = |at: usize| bit(list.elements, (list.elements_start + at).saturating_sub(back));
    let elements = match list.elements.is_empty() {
        true => Vec::new(),
        false => bytes_of_bits(places.map(is_valid)),
    };
    [bytes_of(&offsets).to_vec(), rows, bytes_of(values).to_vec(), elements]
}

/// Some rows of each argument column.
fn copied_arguments(recipe: &Recipe<i32>, Window { begin, end }: Window) -> [Vec<u8>; 2] {
    let rows = row_count(&recipe.lists[0]);
    let (mut values, mut valid) = (Vec::new(), Vec::new());
    for column in 0..recipe.columns.min(8) {
        for row in begin..end {
            let pitch = if is("rows-pitch-of-the-window") { end - begin } else { rows };
            let cut = match defect() {
                "rows-arguments-not-cut" => begin,
                "rows-arguments-of-the-first-column-cut" if column > 0 => begin,
                _ => 0,
            };
            let place = column * pitch + row - cut;
            let bits_place = match defect() {
                "rows-argument-bits-of-the-window" => column * (end - begin) + row - begin,
                "rows-argument-bits-without-begin" => place - begin,
                _ => place,
            };
            let start = match defect() {
                "rows-argument-start-for-the-first-column-only" if column > 0 => 0,
                _ => recipe.arguments.start,
            };
            values.push(recipe.arguments.values.get(place).copied().unwrap_or(0));
            valid.push(bit(recipe.arguments.bits, start + bits_place));
        }
    }
    [bytes_of(&values).to_vec(), bytes_of_bits(valid.into_iter())]
}

fn copied(recipe: &Recipe<i32>, window: Window) -> Copied {
    let [a, b, c, d] = copied_list(recipe.lists[0], false, window);
    let [e, f, g, h] = copied_list(recipe.lists[1], true, window);
    let [values, bits] = copied_arguments(recipe, window);
    let numbers = bytes_of(recipe.numbers).to_vec();
    Copied { slices: [numbers, a, b, c, d, e, f, g, h, values, bits], starts: [0; 5] }
}

// The run.

/// Slots in which every result has room.
struct Slots {
    offsets: [Vec<i32>; 3],
    values: [Vec<i64>; 3],
    bits: [[Vec<u8>; 2]; 3],
}

impl Slots {
    fn new() -> Slots {
        Slots {
            offsets: [(); 3].map(|()| vec![0; 5000]),
            values: [(); 3].map(|()| vec![0; 50_000]),
            bits: [(); 3].map(|()| [vec![0; 700], vec![0; 7000]]),
        }
    }
}

fn with_room(slots: &mut Slots) -> [Room<'_, i32>; 3] {
    let Slots { offsets, values, bits } = slots;
    let [a, b, c] = offsets.each_mut();
    let [d, e, f] = values.each_mut();
    let [[g, h], [i, j], [k, l]] = bits.each_mut().map(|bits| bits.each_mut());
    [
        Room { offsets: a, rows: g, values: d, elements: h },
        Room { offsets: b, rows: i, values: e, elements: j },
        Room { offsets: c, rows: k, values: f, elements: l },
    ]
}

/// The same rooms with no slots in the output.
fn emptied<'a>(rooms: &'a mut [Room<i32>; 3]) -> [Room<'a, i32>; 3] {
    let lent = |room: &'a mut Room<i32>| Room {
        offsets: room.offsets,
        rows: room.rows,
        values: room.values,
        elements: room.elements,
    };
    let [one, two, _] = rooms;
    let none = Room { offsets: &mut [], rows: &mut [], values: &mut [], elements: &mut [] };
    [lent(one), lent(two), none]
}

/// The mock's recipe on a copy of these rows.
fn run(
    recipe: &Recipe<i32>,
    window: Window,
    rooms: &mut [Room<i32>; 3],
    counts: &mut [u64],
) -> u32 {
    let copy = copied(recipe, window);
    let mut tally = [0u8; 256];
    let slices = rooms.iter_mut().flat_map(|room| {
        let Room { offsets, rows, values, elements } = room;
        [bytes_of_mut(offsets), &mut **rows, bytes_of_mut(values), &mut **elements]
    });
    let mut outputs: Vec<&mut [u8]> = slices.collect();
    outputs.push(&mut tally);
    let mut outputs = outputs.try_into().expect("thirteen outputs");
    let inputs = copy.slices();
    let counts = bytes_of_mut(counts);
    recipe_after(None, Width::Narrow, 0, recipe.columns, inputs, copy.starts, &mut outputs, counts)
}

/// What an accepted call wrote, made wrong.
fn spoil(recipe: &Recipe<i32>, window: Window, output: &mut Room<i32>, counts: &mut [u64]) {
    let first = &recipe.lists[0];
    let rows = row_count(first);
    let made = window.end - window.begin;
    match defect() {
        "rows-counts-of-all-rows" => counts[0] = rows as u64,
        "rows-null-rows-of-all-rows" => {
            let is_null = |row: &usize| !bit(first.rows, first.rows_start + row);
            counts[2] = (0..rows).filter(is_null).count() as u64;
        }
        "rows-written-at-their-place" if output.offsets.len() > window.end => {
            output.offsets.copy_within(0..=made, window.begin);
        }
        "rows-slots-past-cleared" => output.offsets[made + 1..].fill(0),
        _ => (),
    }
}
