//! The mock's entries for grades: a second, simple version, right or wrong in one way.

use crate::defects::{defect, is};
use crate::grades::Grades;
use crate::mock_typed::typed;
use crate::plain::{self, Lists};
use crate::plain_grades;
use crate::typed::{List, Recipe, Room};

pub const GRADES: Grades = Grades { column, recipe };

/// The wrong versions that a column shows.
pub const COLUMN_DEFECTS: &[&str] = &[
    "grade-run-across-a-null",
    "grade-null-goes-on-with-a-run",
    "grade-null-number-compared",
    "grade-null-number-compared-with-the-next",
    "grade-nulls-make-a-run",
    "grade-run-across-two-rows",
    "grade-run-across-a-null-row",
    "grade-run-into-the-next-row",
    "grade-k-one-more",
    "grade-k-one-less",
    "grade-k-cut-to-32-bits",
    "grade-k-as-a-signed-number",
    "grade-k-cut-to-the-row",
    "grade-k-1-needs-two",
    "grade-run-counted-in-a-byte",
    "grade-run-counted-in-16-bits",
    "grade-run-at-the-end-not-seen",
    "grade-run-at-the-front-alone",
    "grade-first-element-left-out",
    "grade-equal-pairs-added",
    "grade-equal-elements-counted",
    "grade-compares-32-bits",
    "grade-null-row-shown",
    "grade-null-row-over-values-is-1",
    "grade-empty-row-is-0",
    "grade-empty-row-is-3",
    "grade-nulls-alone-are-3",
    "grade-one-null-is-enough-for-1",
    "grade-smallest-is-null",
    "grade-row-start-ignored",
    "grade-element-start-ignored",
    "grade-row-bits-by-the-place",
    "grade-first-offset-taken-as-0",
    "grade-last-row-not-written",
    "grade-null-row-not-written",
    "grade-added-to-content",
    "grade-past-written",
    "grade-past-cleared",
    "grade-12-not-given",
    "grade-12-after-9",
    "grade-12-after-13",
    "grade-12-after-refusals",
    "grade-9-for-k-1-alone",
    "grade-9-after-13",
    "grade-9-after-1",
    "grade-9-after-refusals",
    "grade-9-not-given",
    "grade-9-by-the-offsets",
    "grade-9-one-late",
    "grade-9-by-the-valid-rows",
    "grade-exact-grades-refused",
    "grade-no-offsets-refused",
    "grade-13-after-1",
    "grade-2-before-1",
    "grade-13-not-beside-an-empty-bitmap",
    "grade-starts-cut-to-32-bits",
    "grade-2-to-the-last-offset",
    "grade-refused-column-graded",
    "grade-refused-column-clears-grades",
    "grade-12-clears-grades",
    "grade-9-writes-what-fits",
    "grade-counts-not-written",
    "grade-counts-the-valid-rows",
    "grade-counts-written-past",
    "grade-counts-written-on-refusal",
    "grade-two-counts-needed",
    "grade-no-counts-needed",
    "grade-12-before-100",
    "grade-100-clears-grades",
    "grade-one-slice-refused",
];

/// The wrong versions that a recipe shows.
pub const RECIPE_DEFECTS: &[&str] = &[
    "grade-run-across-a-null",
    "grade-run-across-two-rows",
    "grade-run-across-a-null-row",
    "grade-null-number-compared",
    "grade-k-one-more",
    "grade-k-one-less",
    "grade-k-cut-to-32-bits",
    "grade-null-row-over-values-is-1",
    "grade-empty-row-is-3",
    "grade-nulls-alone-are-3",
    "grade-smallest-is-null",
    "grade-last-row-not-written",
    "grade-added-to-content",
    "grade-past-written",
    "grade-12-not-given",
    "grade-12-after-9",
    "grade-9-by-the-offsets",
    "grade-9-one-late",
    "grade-exact-grades-refused",
    "grade-12-clears-grades",
    "grade-recipe-12-after-15",
    "grade-recipe-12-after-10",
    "grade-recipe-12-after-3",
    "grade-recipe-12-after-the-run",
    "grade-recipe-9-after-15",
    "grade-recipe-9-after-10",
    "grade-recipe-9-after-13",
    "grade-recipe-9-after-3",
    "grade-recipe-9-after-the-run",
    "grade-recipe-9-by-the-second-list",
    "grade-recipe-9-by-the-output",
    "grade-recipe-12-counted",
    "grade-recipe-12-counted-as-finished",
    "grade-recipe-9-of-grades-counted",
    "grade-recipe-9-of-output-not-counted",
    "grade-recipe-not-counted",
    "grade-recipe-refused-not-counted",
    "grade-recipe-counted-twice",
    "grade-recipe-counted-for-station-0",
    "grade-recipe-15-counted",
    "grade-recipe-12-leaves-trays",
    "grade-recipe-12-leaves-tray-two",
    "grade-recipe-9-leaves-trays",
    "grade-recipe-100-leaves-trays",
    "grade-recipe-15-leaves-trays",
    "grade-recipe-leaves-trays",
    "grade-recipe-12-writes-output",
    "grade-recipe-9-writes-output",
    "grade-recipe-9-clears-output",
    "grade-recipe-refused-graded",
    "grade-recipe-refused-by-9-graded",
    "grade-recipe-refused-clears-grades",
    "grade-recipe-output-not-written",
    "grade-recipe-output-cleared",
    "grade-recipe-first-list-graded",
    "grade-recipe-second-list-graded",
    "grade-recipe-graded-before-the-last-step",
    "grade-recipe-content-graded",
    "grade-recipe-counts-rows-alone",
    "grade-recipe-counts-not-written",
    "grade-recipe-three-counts-needed",
    "grade-recipe-five-counts-needed",
    "grade-recipe-31-places-of-a-tally-accepted",
    "grade-recipe-33-places-of-a-tally-needed",
    "grade-recipe-100-counted",
    "grade-recipe-100-after-12",
    "grade-recipe-one-slice-refused",
];

type Item = Option<i64>;

fn bit(bits: &[u8], place: usize) -> bool {
    bits.is_empty() || bits.get(place / 8).is_some_and(|byte| byte >> (place % 8) & 1 == 1)
}

fn row_count(list: &List<i32>) -> usize {
    list.offsets.len().saturating_sub(1)
}

fn row_is_valid(list: &List<i32>, row: usize) -> bool {
    let start = if is("grade-row-start-ignored") { 0 } else { list.rows_start };
    let row = match defect() {
        "grade-row-bits-by-the-place" => row / 8 * 8 + (start + row) % 8,
        _ => start + row,
    };
    bit(list.rows, row)
}

fn places(list: &List<i32>, row: usize) -> std::ops::Range<usize> {
    let first = if is("grade-first-offset-taken-as-0") { list.offsets[0] } else { 0 };
    let place = |offset: i32| usize::try_from(offset - first).unwrap_or(0).min(list.values.len());
    place(list.offsets[row])..place(list.offsets[row + 1])
}

fn item(list: &List<i32>, place: usize) -> Item {
    let start = if is("grade-element-start-ignored") { 0 } else { list.elements_start };
    let number = list.values[place];
    let valid = bit(list.elements, start + place);
    let valid = valid && !(is("grade-smallest-is-null") && number == i64::MIN);
    valid.then_some(number)
}

/// Whether two items that stand beside each other belong to one run.
fn are_one(list: &List<i32>, places: [usize; 2], items: [Item; 2]) -> bool {
    let numbers = places.map(|place| list.values[place]);
    let [before, now] = items;
    match defect() {
        "grade-null-number-compared" => numbers[0] == numbers[1],
        "grade-null-number-compared-with-the-next" if before.is_none() => numbers[0] == numbers[1],
        "grade-nulls-make-a-run" => before == now,
        "grade-null-goes-on-with-a-run" => now.is_none() || before == now,
        "grade-compares-32-bits" => now.is_some() && before.map(cut) == now.map(cut),
        _ => now.is_some() && before == now,
    }
}

fn cut(number: i64) -> i32 {
    number as i32
}

/// The longest run of a row, which a wrong version lets begin in the row before or end in the next.
fn longest(list: &List<i32>, row: usize) -> u64 {
    let mut places: Vec<usize> = places(list, row).collect();
    let mut own = 0..places.len();
    let before = (0..row).rev().find(|row| !self::places(list, *row).is_empty());
    let goes_on = match defect() {
        "grade-run-across-two-rows" => row > 0 && row_is_valid(list, row - 1),
        "grade-run-across-a-null-row" => row > 0 && !row_is_valid(list, row - 1),
        _ => false,
    };
    if let (true, Some(before)) = (goes_on, before) {
        let before = self::places(list, before);
        own = before.len()..before.len() + own.len();
        places.splice(0..0, before);
    }
    if is("grade-run-into-the-next-row") && row + 1 < row_count(list) {
        places.extend(self::places(list, row + 1));
    }
    match defect() {
        "grade-run-across-a-null" => places.retain(|place| item(list, *place).is_some()),
        "grade-first-element-left-out" if !places.is_empty() => drop(places.remove(0)),
        _ => (),
    }
    let counts_nulls = is("grade-null-number-compared")
        || is("grade-null-number-compared-with-the-next")
        || is("grade-nulls-make-a-run");
    let (mut longest, mut run, mut pairs) = (0u64, 0u64, 0u64);
    for (at, place) in places.iter().enumerate() {
        let now = item(list, *place);
        let one =
            at > 0 && are_one(list, [places[at - 1], *place], [item(list, places[at - 1]), now]);
        pairs += u64::from(one);
        run = match () {
            _ if one => run + 1,
            _ if now.is_some() || counts_nulls => 1,
            _ => 0,
        };
        run = match defect() {
            "grade-run-counted-in-a-byte" => run % 256,
            "grade-run-counted-in-16-bits" => run % 65536,
            _ => run,
        };
        let counted = match defect() {
            "grade-run-at-the-end-not-seen" => at + 1 < places.len() || places.len() == 1,
            "grade-run-at-the-front-alone" => run == at as u64 + 1,
            "grade-run-across-a-null" | "grade-first-element-left-out" => true,
            _ => at >= own.start && at + 1 < own.end + run as usize,
        };
        if counted {
            longest = longest.max(run);
        }
    }
    match defect() {
        "grade-equal-pairs-added" if longest > 0 => pairs + 1,
        "grade-equal-elements-counted" => most_equal(list, &places),
        _ => longest,
    }
}

/// How often the most frequent element occurs.
fn most_equal(list: &List<i32>, places: &[usize]) -> u64 {
    let items: Vec<Item> = places.iter().map(|place| item(list, *place)).collect();
    let count = |one: &Item| items.iter().filter(|other| *other == one).count() as u64;
    // Long rows of one level need no count for each element.
    let tried = items.iter().take(200).filter(|one| one.is_some());
    tried.map(count).max().unwrap_or(0)
}

fn grade(list: &List<i32>, row: usize, k: u64) -> u8 {
    let places = places(list, row);
    if !row_is_valid(list, row) {
        match defect() {
            "grade-null-row-shown" if !places.is_empty() => (),
            "grade-null-row-over-values-is-1" => return 1,
            _ => return 0,
        }
    }
    let mut valid = places.clone().filter(|place| item(list, *place).is_some()).count();
    if is("grade-one-null-is-enough-for-1") && valid < places.len() {
        valid = 0;
    }
    if valid == 0 {
        return match defect() {
            "grade-empty-row-is-0" if places.is_empty() => 0,
            "grade-empty-row-is-3" if places.is_empty() => 3,
            "grade-nulls-alone-are-3" if !places.is_empty() => 3,
            _ => 1,
        };
    }
    let longest = longest(list, row);
    let reached = match defect() {
        "grade-k-one-more" => longest > k,
        "grade-k-one-less" => longest >= k - 1,
        "grade-k-cut-to-32-bits" => longest >= k & 0xffff_ffff,
        "grade-k-as-a-signed-number" => longest as i64 >= k as i64,
        "grade-k-cut-to-the-row" => longest >= k.min(places.len() as u64),
        "grade-k-1-needs-two" => longest >= k.max(2),
        _ => longest >= k,
    };
    if reached {
        2
    } else {
        3
    }
}

fn write(list: &List<i32>, k: u64, grades: &mut [u8]) {
    let rows = row_count(list);
    let written = if is("grade-last-row-not-written") { rows.max(1) - 1 } else { rows };
    for (row, slot) in grades.iter_mut().enumerate().take(written) {
        let grade = grade(list, row, k);
        match defect() {
            "grade-null-row-not-written" if grade == 0 => (),
            "grade-added-to-content" => *slot |= grade,
            _ => *slot = grade,
        }
    }
    let past = grades.len().min(rows);
    match defect() {
        "grade-past-written" => grades[past..].iter_mut().take(1).for_each(|slot| *slot ^= 1),
        "grade-past-cleared" => grades[past..].fill(0),
        _ => (),
    }
}

/// Whether the grades are too few.
fn is_short(list: &List<i32>, grades: &[u8]) -> bool {
    let rows = row_count(list);
    let needed = match defect() {
        "grade-9-not-given" => 0,
        "grade-9-by-the-offsets" => list.offsets.len(),
        "grade-9-one-late" => rows.max(1) - 1,
        "grade-9-by-the-valid-rows" => (0..rows).filter(|row| row_is_valid(list, *row)).count(),
        "grade-exact-grades-refused" => rows + 1,
        _ => rows,
    };
    grades.len() < needed
}

// A column.

/// The conditions of 12, 9, 13, 1 and 2 in the order in which they are tested.
fn order() -> [u32; 5] {
    match defect() {
        "grade-12-after-9" => [9, 12, 13, 1, 2],
        "grade-12-after-13" => [9, 13, 12, 1, 2],
        "grade-12-after-refusals" => [9, 13, 1, 2, 12],
        "grade-9-after-13" => [12, 13, 9, 1, 2],
        "grade-9-after-1" => [12, 13, 1, 9, 2],
        "grade-9-after-refusals" => [12, 13, 1, 2, 9],
        "grade-13-after-1" => [12, 9, 1, 13, 2],
        "grade-2-before-1" => [12, 9, 13, 2, 1],
        _ => [12, 9, 13, 1, 2],
    }
}

fn has_bad_offsets(list: &List<i32>) -> bool {
    let (Some(first), Some(last)) = (list.offsets.first(), list.offsets.last()) else {
        return is("grade-no-offsets-refused");
    };
    let falls = list.offsets.windows(2).any(|pair| pair[1] < pair[0]);
    *first < 0 || falls || i64::from(*last) > list.values.len() as i64
}

fn starts_over_7(list: &List<i32>) -> bool {
    let over = |bits: &[u8], start: usize| match defect() {
        "grade-13-not-beside-an-empty-bitmap" => !bits.is_empty() && start > 7,
        "grade-starts-cut-to-32-bits" => start as u32 > 7,
        _ => start > 7,
    };
    over(list.rows, list.rows_start) || over(list.elements, list.elements_start)
}

fn has_short_bitmap(list: &List<i32>) -> bool {
    let short = |bits: &[u8], start: usize, positions: usize| {
        !bits.is_empty() && bits.len() < start.saturating_add(positions).div_ceil(8)
    };
    let last = list.offsets.last().map_or(0, |last| usize::try_from(*last).unwrap_or(0));
    let values = match defect() {
        "grade-2-to-the-last-offset" => last.min(list.values.len()),
        _ => list.values.len(),
    };
    short(list.rows, list.rows_start, row_count(list))
        || short(list.elements, list.elements_start, values)
}

fn holds(number: u32, k: u64, list: &List<i32>, grades: &[u8]) -> bool {
    match number {
        12 => k == 0 && !is("grade-12-not-given"),
        9 => is_short(list, grades) && !(is("grade-9-for-k-1-alone") && k > 1),
        13 => starts_over_7(list),
        1 => has_bad_offsets(list),
        _ => has_short_bitmap(list),
    }
}

fn column(k: u64, list: List<i32>, grades: &mut [u8], counts: &mut [u64]) -> u32 {
    if defect().is_empty() {
        return (plain_grades::GRADES.column)(k, list, grades, counts);
    }
    let needed = match defect() {
        "grade-two-counts-needed" => 2,
        "grade-no-counts-needed" => 0,
        _ => 1,
    };
    let is_one = std::ptr::eq(list.rows, list.elements) && !list.rows.is_empty();
    if counts.len() < needed && !(is("grade-12-before-100") && k == 0) {
        if is("grade-100-clears-grades") {
            grades.fill(0);
        }
        return 100;
    }
    let refusal = order().into_iter().find(|number| holds(*number, k, &list, grades));
    let refusal = if is_one && is("grade-one-slice-refused") { Some(9) } else { refusal };
    if let Some(number) = refusal {
        match (defect(), number) {
            ("grade-refused-column-graded", 13 | 1 | 2) => grades.iter_mut().take(1).for_each(turn),
            ("grade-refused-column-clears-grades", 13 | 1 | 2) => grades.fill(0),
            ("grade-12-clears-grades", 12) => grades.fill(0),
            ("grade-9-writes-what-fits", 9) => grades.fill(0),
            ("grade-counts-written-on-refusal", _) => counts[0] = counts[0].wrapping_add(1),
            _ => (),
        }
        return number;
    }
    write(&list, k, grades);
    let rows = row_count(&list);
    let told = match defect() {
        "grade-counts-the-valid-rows" => (0..rows).filter(|row| row_is_valid(&list, *row)).count(),
        _ => rows,
    };
    let mut places = counts.iter_mut();
    if let Some(first) = places.next().filter(|_| !is("grade-counts-not-written")) {
        *first = told as u64;
    }
    if let Some(second) = places.next().filter(|_| is("grade-counts-written-past")) {
        *second = second.wrapping_add(1);
    }
    0
}

fn turn(slot: &mut u8) {
    *slot ^= 2;
}

// A recipe.

fn again<'a>(room: &'a mut Room<i32>) -> Room<'a, i32> {
    Lists {
        offsets: &mut *room.offsets,
        rows: &mut *room.rows,
        values: &mut *room.values,
        elements: &mut *room.elements,
    }
}

fn clear(room: &mut Room<i32>) {
    room.offsets.fill(0);
    room.rows.fill(0);
    room.values.fill(0);
    room.elements.fill(0);
}

/// A room of its own with the same content.
struct Copied {
    offsets: Vec<i32>,
    rows: Vec<u8>,
    values: Vec<i64>,
    elements: Vec<u8>,
}

impl Copied {
    fn of(room: &Room<i32>) -> Copied {
        Copied {
            offsets: room.offsets.to_vec(),
            rows: room.rows.to_vec(),
            values: room.values.to_vec(),
            elements: room.elements.to_vec(),
        }
    }

    fn room(&mut self) -> Room<'_, i32> {
        let Copied { offsets, rows, values, elements } = self;
        Lists { offsets, rows, values, elements }
    }

    fn put_back(&self, room: &mut Room<i32>) {
        room.offsets.copy_from_slice(&self.offsets);
        room.rows.copy_from_slice(&self.rows);
        room.values.copy_from_slice(&self.values);
        room.elements.copy_from_slice(&self.elements);
    }
}

/// What the run would come to, on copies of everything.
fn tried(recipe: Recipe<i32>, rooms: &[Room<i32>; 3]) -> u32 {
    let mut copies = [0, 1, 2].map(|at| Copied::of(&rooms[at]));
    let [one, two, output] = &mut copies;
    let rooms = [one.room(), two.room(), output.room()];
    (plain::typed().recipe)(recipe, rooms, &mut [0; 4], &mut [0; 32])
}

/// The first list of a recipe, by whose rows the grades are judged.
fn judged<'a>(recipe: &Recipe<'a, i32>, output: &'a Room<i32>) -> List<'a, i32> {
    match defect() {
        "grade-recipe-9-by-the-second-list" => recipe.lists[1],
        "grade-recipe-9-by-the-output" => List { offsets: output.offsets, ..recipe.lists[0] },
        _ => recipe.lists[0],
    }
}

/// 12 or 9 before the run, or a wrong version's later ones, which are given where the run comes to
/// none of these numbers.
fn refusal_before(
    k: u64,
    recipe: Recipe<i32>,
    rooms: &[Room<i32>; 3],
    grades: &[u8],
) -> Option<u32> {
    let zero = k == 0 && !is("grade-12-not-given");
    let short = is_short(&judged(&recipe, &rooms[2]), grades);
    let (number, first) = match (zero, short) {
        (true, true) if is("grade-12-after-9") => (9, "9"),
        (true, _) => (12, "12"),
        (false, true) => (9, "9"),
        _ => return None,
    };
    let later: &[u32] = match defect().strip_prefix("grade-recipe-") {
        Some(name) if name.starts_with(&format!("{first}-after-")) => match name {
            "12-after-15" | "9-after-15" => &[15],
            "12-after-10" | "9-after-10" => &[15, 10],
            "9-after-13" => &[15, 10, 13],
            "12-after-3" | "9-after-3" => &[15, 10, 13, 1, 2, 3],
            _ => &[15, 10, 13, 1, 2, 3, 4, 5, 6, 7, 8, 9],
        },
        _ => &[],
    };
    if !later.is_empty() {
        let run = tried(recipe, rooms);
        if later.contains(&run) {
            return Some(run);
        }
    }
    Some(number)
}

fn recipe(
    k: u64,
    recipe: Recipe<i32>,
    mut rooms: [Room<i32>; 3],
    grades: &mut [u8],
    counts: &mut [u64],
    tally: &mut [u64],
) -> u32 {
    if defect().is_empty() {
        return (plain_grades::GRADES.recipe)(k, recipe, rooms, grades, counts, tally);
    }
    let places = match defect() {
        "grade-recipe-three-counts-needed" => 3,
        "grade-recipe-five-counts-needed" => 5,
        _ => 4,
    };
    let tally_places = match defect() {
        "grade-recipe-31-places-of-a-tally-accepted" => 31,
        "grade-recipe-33-places-of-a-tally-needed" => 33,
        _ => 32,
    };
    let mut refused = refusal_before(k, recipe, &rooms, grades);
    let [first, second] = recipe.lists;
    let is_one = std::ptr::eq(first.values, second.values) && !first.values.is_empty();
    if is_one && is("grade-recipe-one-slice-refused") {
        refused = Some(10);
    }
    let is_late = is("grade-recipe-100-after-12") && refused == Some(12);
    if (counts.len() < places || tally.len() < tally_places) && !is_late {
        refused = Some(100);
    }
    if let Some(number) = refused {
        return refuse(number, recipe, rooms, grades, tally);
    }
    let before = Copied::of(&rooms[2]);
    let trays = [0, 1].map(|at| Copied::of(&rooms[at]));
    let (counts_before, tally_before) = (counts.to_vec(), tally.to_vec());
    let number = run(recipe, &mut rooms, counts, tally);
    if number == 0 {
        let made = made_by(&rooms[2], counts[0] as usize);
        let content = List {
            offsets: made.offsets,
            rows: &before.rows,
            values: &before.values,
            elements: &before.elements,
            ..made
        };
        let graded = match defect() {
            "grade-recipe-first-list-graded" => first,
            "grade-recipe-second-list-graded" => second,
            "grade-recipe-content-graded" => content,
            "grade-recipe-graded-before-the-last-step" if recipe.numbers.len() == 4 => first,
            _ => made,
        };
        write(&graded, k, grades);
    }
    spoil_grades(number, grades);
    match (defect(), number) {
        ("grade-recipe-counts-not-written", _) => counts.copy_from_slice(&counts_before),
        ("grade-recipe-counts-rows-alone", 0) => {
            counts[1..4].copy_from_slice(&counts_before[1..4]);
        }
        _ => (),
    }
    let leaves =
        is("grade-recipe-leaves-trays") || is("grade-recipe-15-leaves-trays") && number == 15;
    if leaves {
        trays.iter().zip(&mut rooms).for_each(|(tray, room)| tray.put_back(room));
    }
    match defect() {
        "grade-recipe-output-not-written" => before.put_back(&mut rooms[2]),
        "grade-recipe-output-cleared" => clear(&mut rooms[2]),
        _ => (),
    }
    spoil_tally(number, recipe.station as usize, &tally_before, tally);
    number
}

/// The run by the mock's own entry, with counts and a tally that are long enough.
fn run(
    recipe: Recipe<i32>,
    rooms: &mut [Room<i32>; 3],
    counts: &mut [u64],
    tally: &mut [u64],
) -> u32 {
    let [one, two, output] = rooms;
    let rooms = [again(one), again(two), again(output)];
    let (mut four, mut all) = ([0; 4], [0; 32]);
    let (places, known) = (counts.len().min(4), tally.len().min(32));
    four[..places].copy_from_slice(&counts[..places]);
    all[..known].copy_from_slice(&tally[..known]);
    let number = (typed().recipe)(recipe, rooms, &mut four, &mut all);
    counts[..places].copy_from_slice(&four[..places]);
    tally[..known].copy_from_slice(&all[..known]);
    number
}

/// What an accepted run of so many rows wrote.
fn made_by<'a>(room: &'a Room<i32>, rows: usize) -> List<'a, i32> {
    List {
        offsets: &room.offsets[..rows + 1],
        rows: room.rows,
        rows_start: 0,
        values: room.values,
        elements: room.elements,
        elements_start: 0,
    }
}

/// A refusal without a run.
fn refuse(
    number: u32,
    recipe: Recipe<i32>,
    mut rooms: [Room<i32>; 3],
    grades: &mut [u8],
    tally: &mut [u64],
) -> u32 {
    let runs = matches!(
        (defect(), number),
        ("grade-recipe-12-writes-output", 12) | ("grade-recipe-9-writes-output", 9)
    );
    if runs {
        let [one, two, output] = &mut rooms;
        let rooms = [again(one), again(two), again(output)];
        (plain::typed().recipe)(recipe, rooms, &mut [0; 4], &mut [0; 32]);
    }
    if is("grade-recipe-9-clears-output") && number == 9 {
        clear(&mut rooms[2]);
    }
    for (at, tray) in rooms.iter_mut().take(2).enumerate() {
        let kept = match (defect(), number) {
            ("grade-recipe-12-leaves-trays", 12) => true,
            ("grade-recipe-12-leaves-tray-two", 12) => at == 1,
            ("grade-recipe-9-leaves-trays", 9) => true,
            ("grade-recipe-100-leaves-trays", 100) => true,
            _ => false,
        };
        if !kept {
            clear(tray);
        }
    }
    if is("grade-12-clears-grades") && number == 12 {
        grades.fill(0);
    }
    let station = recipe.station as usize % 16;
    let counted = match (defect(), number) {
        ("grade-recipe-12-counted", 12) => Some(16 + station),
        ("grade-recipe-12-counted-as-finished", 12) => Some(station),
        ("grade-recipe-9-of-grades-counted", 9) => Some(16 + station),
        ("grade-recipe-100-counted", 100) => Some(16 + station),
        // A refusal of the run that a wrong version gives first is counted as the run would.
        (_, 12 | 9 | 100) => None,
        _ if recipe.station < 16 => Some(16 + station),
        _ => None,
    };
    if let Some(count) = counted.and_then(|at| tally.get_mut(at)) {
        *count = count.saturating_add(1);
    }
    number
}

fn spoil_grades(number: u32, grades: &mut [u8]) {
    match (defect(), number) {
        (_, 0) => (),
        ("grade-recipe-refused-graded", _) => grades.iter_mut().take(1).for_each(turn),
        ("grade-recipe-refused-by-9-graded", 9) => grades.iter_mut().take(1).for_each(turn),
        ("grade-recipe-refused-clears-grades", _) => grades.fill(0),
        _ => (),
    }
}

fn spoil_tally(number: u32, station: usize, before: &[u64], tally: &mut [u64]) {
    let at = station + if number == 0 { 0 } else { 16 };
    let kept = match (defect(), number) {
        ("grade-recipe-9-of-output-not-counted", 9) => true,
        ("grade-recipe-not-counted", _) => true,
        ("grade-recipe-refused-not-counted", 1..) => true,
        _ => false,
    };
    if kept {
        tally.copy_from_slice(before);
    }
    match (defect(), number) {
        ("grade-recipe-counted-twice", _) if station < 16 => {
            tally[at] = tally[at].saturating_add(1);
        }
        ("grade-recipe-counted-for-station-0", _) if station < 16 => {
            tally.copy_from_slice(before);
            let first = if number == 0 { 0 } else { 16 };
            tally[first] = tally[first].saturating_add(1);
        }
        ("grade-recipe-15-counted", 15) => tally[31] = tally[31].saturating_add(1),
        _ => (),
    }
}
