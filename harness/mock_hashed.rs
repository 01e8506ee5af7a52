//! The mock's entries for distinct, union and intersect with a work area: a second, simple version that
//! keeps its table there, right or wrong in one way.
//!
//! For a row of n elements the table has n heads, a bucket's newest element plus 1, or 0 for none, and n
//! links, of an element the next older one in its bucket.

use crate::defects::{defect, is};
use crate::hashed::hash;
use crate::plain;
use crate::typed::{Hashed, List, Room};

pub const HASHED: Hashed = Hashed { distinct, lists };

/// The wrong versions of all three.
pub const HASHED_DEFECTS: &[&str] = &[
    "hash-area-one-short-accepted",
    "hash-area-exact-refused",
    "hash-area-counted-in-bytes",
    "hash-area-of-one-slot-needed",
    "hash-14-not-given",
    "hash-14-before-13",
    "hash-14-before-1",
    "hash-14-before-2",
    "hash-14-after-9",
    "hash-14-for-all-values",
    "hash-14-for-the-first-row",
    "hash-14-for-the-last-row",
    "hash-14-counts-null-rows",
    "hash-14-for-what-is-kept",
    "hash-area-dirty-after-14",
    "hash-area-dirty-after-9",
    "hash-area-dirty-after-1",
    "hash-area-dirty-after-13",
    "hash-area-dirty-after-100",
    "hash-area-dirty-when-accepted",
    "hash-area-tail-dirty",
    "hash-area-content-taken",
    "hash-null-compared-by-number",
    "hash-null-equals-smallest",
    "hash-null-equals-0",
    "hash-nulls-left-out",
    "hash-equal-hashes-equal",
    "hash-newest-of-a-bucket-compared",
    "hash-low-halves-compared",
    "hash-links-cut-to-a-byte",
    "hash-links-cut-to-12-bits",
    "hash-heads-left-between-rows",
    "hash-null-slot-keeps-its-number",
    "hash-null-row-shown",
    "hash-row-start-ignored",
    "hash-element-start-ignored",
    "hash-one-count-fewer-accepted",
    "hash-exact-counts-refused",
    "hash-100-after-refusals",
    "hash-refusal-writes-counts",
    "hash-refusal-clears-outputs",
    "hash-slot-past-written",
    "hash-short-values-accepted",
    "hash-null-elements-not-counted",
];

/// Those of distinct.
pub const HASHED_DISTINCT_DEFECTS: &[&str] = &["hash-last-occurrences"];

/// Those of union and intersect.
pub const HASHED_LISTS_DEFECTS: &[&str] = &[
    "hash-14-before-3",
    "hash-area-dirty-after-3",
    "hash-14-for-the-longest-rows-added",
    "hash-14-for-the-longer-row",
    "hash-14-for-the-left-row",
    "hash-14-counts-rows-beside-nulls",
    "hash-sides-exchanged",
    "hash-right-start-ignored",
    "hash-code-1-served",
    "hash-code-11-served",
    "hash-code-cut-to-a-byte",
    "hash-unknown-code-gives-102",
    "hash-area-dirty-after-an-unknown-code",
];

type Row = Option<Vec<Item>>;

/// An element: its number, whatever it is under a null, and whether it is valid.
#[derive(Clone, Copy)]
struct Item {
    number: i64,
    valid: bool,
}

impl Item {
    fn hash(self) -> u64 {
        match self.key() {
            Some(number) => hash(number),
            None => 0,
        }
    }

    /// What is compared.
    fn key(self) -> Option<i64> {
        match defect() {
            "hash-null-compared-by-number" => Some(self.number),
            "hash-null-equals-smallest" if !self.valid => Some(i64::MIN),
            "hash-null-equals-0" if !self.valid => Some(0),
            "hash-low-halves-compared" => self.valid.then_some(self.number & 0xffff_ffff),
            _ => self.valid.then_some(self.number),
        }
    }

    fn same(self, other: Item) -> bool {
        match defect() {
            "hash-equal-hashes-equal" => self.hash() == other.hash() && self.valid == other.valid,
            _ => self.key() == other.key(),
        }
    }
}

// The table.

/// A table of some elements in so many slots of the area, two for each.
struct Table<'a> {
    slots: &'a mut [u32],
}

impl Table<'_> {
    fn bucket(&self, item: Item) -> usize {
        ((item.hash() * (self.slots.len() as u64 / 2)) >> 32) as usize
    }

    /// Whether an element is among those entered, of which these are all.
    fn has(&self, items: &[Item], item: Item) -> bool {
        if self.slots.is_empty() {
            return false;
        }
        let mut next = self.slots[self.bucket(item)] as usize;
        let mut steps = 0;
        while (1..=items.len()).contains(&next) && steps <= items.len() {
            if items[next - 1].same(item) {
                return true;
            }
            if is("hash-newest-of-a-bucket-compared") {
                return false;
            }
            next = self.slots[self.slots.len() / 2 + next - 1] as usize;
            steps += 1;
        }
        false
    }

    fn enter(&mut self, at: usize, item: Item) {
        let (bucket, links) = (self.bucket(item), self.slots.len() / 2);
        let head = match defect() {
            "hash-links-cut-to-a-byte" => self.slots[bucket] & 0xff,
            "hash-links-cut-to-12-bits" => self.slots[bucket] & 0xfff,
            _ => self.slots[bucket],
        };
        self.slots[links + at] = head;
        self.slots[bucket] = at as u32 + 1;
    }
}

/// The first occurrences, of those that are wanted.
fn first_of(items: &[Item], area: &mut [u32], wanted: impl Fn(Item) -> bool) -> Vec<Item> {
    let slots = (2 * items.len()).min(area.len() / 2 * 2);
    let mut table = Table { slots: &mut area[..slots] };
    if !is("hash-area-content-taken") && !is("hash-heads-left-between-rows") {
        table.slots.fill(0);
    }
    let mut kept = Vec::new();
    for (at, item) in items.iter().enumerate() {
        let left_out = !item.valid && is("hash-nulls-left-out");
        if wanted(*item) && !table.has(items, *item) && !left_out {
            kept.push(*item);
            if at < table.slots.len() / 2 {
                table.enter(at, *item);
            }
        }
    }
    kept
}

fn distinct_of(items: &[Item], area: &mut [u32]) -> Vec<Item> {
    if is("hash-last-occurrences") {
        let back: Vec<Item> = items.iter().rev().copied().collect();
        return first_of(&back, area, |_| true).into_iter().rev().collect();
    }
    first_of(items, area, |_| true)
}

/// Walks the longer row, the left one on equal lengths; the other's table comes first in the area.
fn intersect_of(left: &[Item], right: &[Item], area: &mut [u32]) -> Vec<Item> {
    let (walked, others) = if left.len() < right.len() { (right, left) } else { (left, right) };
    let (first, rest) = area.split_at_mut((2 * others.len()).min(area.len() / 2 * 2));
    first.fill(0);
    let mut table = Table { slots: first };
    for (at, item) in others.iter().enumerate() {
        if at < table.slots.len() / 2 {
            table.enter(at, *item);
        }
    }
    first_of(walked, rest, |item| table.has(others, item))
}

// Columns.

fn bit(bits: &[u8], place: usize) -> bool {
    bits.is_empty() || bits.get(place / 8).is_some_and(|byte| byte >> (place % 8) & 1 == 1)
}

fn is_short(bits: &[u8], start: usize, positions: usize) -> bool {
    !bits.is_empty() && bits.len() < (start + positions).div_ceil(8)
}

fn row_count(list: &List<i32>) -> usize {
    list.offsets.len().max(1) - 1
}

fn starts_over_7(list: &List<i32>) -> bool {
    list.rows_start > 7 || list.elements_start > 7
}

fn has_bad_offsets(list: &List<i32>) -> bool {
    let (first, last) = (list.offsets.first(), list.offsets.last());
    first.is_some_and(|first| *first < 0)
        || list.offsets.windows(2).any(|pair| pair[1] < pair[0])
        || last.is_some_and(|last| *last as i64 > list.values.len() as i64)
}

fn has_short_bitmap(list: &List<i32>) -> bool {
    is_short(list.rows, list.rows_start, row_count(list))
        || is_short(list.elements, list.elements_start, list.values.len())
}

/// The places that a row covers, whether it is valid or not.
fn places(list: &List<i32>, row: usize) -> std::ops::Range<usize> {
    list.offsets[row] as usize..list.offsets[row + 1] as usize
}

fn is_valid(list: &List<i32>, at: usize, row: usize) -> bool {
    let start = match defect() {
        "hash-row-start-ignored" => 0,
        "hash-right-start-ignored" if at == 1 => 0,
        _ => list.rows_start,
    };
    bit(list.rows, start + row) || is("hash-null-row-shown")
}

fn row_of(list: &List<i32>, at: usize, row: usize) -> Row {
    let start = match defect() {
        "hash-element-start-ignored" => 0,
        "hash-right-start-ignored" if at == 1 => 0,
        _ => list.elements_start,
    };
    let item = |place: usize| Item {
        number: list.values[place],
        valid: bit(list.elements, start + place),
    };
    is_valid(list, at, row).then(|| places(list, row).map(item).collect())
}

// The whole call.

fn distinct(list: List<i32>, room: Room<i32>, area: &mut [u32], counts: &mut [u64]) -> u32 {
    if defect().is_empty() {
        return (plain::HASHED.distinct)(list, room, area, counts);
    }
    call(Some(1), &[list], room, area, counts)
}

fn lists(
    op: u32,
    both: [List<i32>; 2],
    room: Room<i32>,
    area: &mut [u32],
    counts: &mut [u64],
) -> u32 {
    if defect().is_empty() {
        return (plain::HASHED.lists)(op, both, room, area, counts);
    }
    let op = if is("hash-code-cut-to-a-byte") { op % 256 } else { op };
    let served = match (op, defect()) {
        (9 | 10, _) => Some(op),
        (1, "hash-code-1-served") | (11, "hash-code-11-served") => Some(9),
        _ => None,
    };
    call(served, &both, room, area, counts)
}

fn call(
    code: Option<u32>,
    lists: &[List<i32>],
    mut room: Room<i32>,
    area: &mut [u32],
    counts: &mut [u64],
) -> u32 {
    let before = area.to_vec();
    if !is("hash-area-content-taken") {
        area.fill(0);
    }
    let number = answer(code, lists, &mut room, area, counts);
    area.fill(0);
    let kept = match defect() {
        "hash-area-dirty-after-14" => number == 14,
        "hash-area-dirty-after-9" => number == 9,
        "hash-area-dirty-after-1" => number == 1,
        "hash-area-dirty-after-3" => number == 3,
        "hash-area-dirty-after-13" => number == 13,
        "hash-area-dirty-after-100" => number == 100 && code.is_some(),
        "hash-area-dirty-after-an-unknown-code" => code.is_none(),
        "hash-area-dirty-when-accepted" => number == 0,
        _ => false,
    };
    if kept {
        area.copy_from_slice(&before);
    }
    if is("hash-area-tail-dirty") {
        let used = needed(lists).unwrap_or(0).min(area.len());
        area[used..].copy_from_slice(&before[used..]);
    }
    if number != 0 && number < 100 {
        if is("hash-refusal-writes-counts") {
            counts[0] = counts[0].wrapping_add(1);
        }
        if is("hash-refusal-clears-outputs") {
            room.offsets.fill(0);
            room.values.fill(0);
        }
    }
    number
}

fn answer(
    code: Option<u32>,
    lists: &[List<i32>],
    room: &mut Room<i32>,
    area: &mut [u32],
    counts: &mut [u64],
) -> u32 {
    let Some(code) = code else {
        return if is("hash-unknown-code-gives-102") { 102 } else { 100 };
    };
    let places = match defect() {
        "hash-one-count-fewer-accepted" => 3,
        "hash-exact-counts-refused" => 5,
        _ => 4,
    };
    let refusal = refusal(code, lists, room, area);
    if counts.len() < places {
        return refusal.err().filter(|_| is("hash-100-after-refusals")).unwrap_or(100);
    }
    match refusal {
        Err(number) => number,
        Ok(rows) => {
            write(&rows, room, counts);
            0
        }
    }
}

fn refusal(
    code: u32,
    lists: &[List<i32>],
    room: &Room<i32>,
    area: &mut [u32],
) -> Result<Vec<Row>, u32> {
    let conditions: [(u32, bool); 4] = [
        (13, lists.iter().any(starts_over_7)),
        (1, lists.iter().any(has_bad_offsets)),
        (2, lists.iter().any(has_short_bitmap)),
        (3, lists.iter().any(|list| row_count(list) != row_count(&lists[0]))),
    ];
    let first = conditions.iter().find(|(_, holds)| *holds).map(|(number, _)| *number);
    let is_before = match defect() {
        "hash-14-before-13" => first.is_some(),
        "hash-14-before-1" => matches!(first, Some(1..=3)),
        "hash-14-before-2" => matches!(first, Some(2 | 3)),
        "hash-14-before-3" => first == Some(3),
        _ => false,
    };
    if is_before && is_small(lists, area) {
        return Err(14);
    }
    first.map_or(Ok(()), Err)?;
    let late = is("hash-14-after-9") || is("hash-14-for-what-is-kept") || is("hash-14-not-given");
    if !late && is_small(lists, area) {
        return Err(14);
    }
    let covered = |row: usize| lists.iter().map(|list| places(list, row).len()).sum::<usize>();
    let longest = (0..row_count(&lists[0])).map(covered).max().unwrap_or(0);
    let mut enough = vec![0; area.len().max(2 * longest)];
    enough[..area.len()].copy_from_slice(area);
    let rows = made(code, lists, &mut enough);
    if is_too_long(&rows, room) {
        return Err(9);
    }
    let kept = rows.iter().flatten().map(Vec::len).max().unwrap_or(0);
    if is("hash-14-for-what-is-kept") && area.len() < 2 * kept
        || is("hash-14-after-9") && is_small(lists, area)
    {
        return Err(14);
    }
    Ok(rows)
}

/// The slots that a work area must have beside columns that hold the rows of the first.
fn needed(lists: &[List<i32>]) -> Option<usize> {
    let good = !lists.iter().any(|list| has_bad_offsets(list) || starts_over_7(list));
    let rows = lists.iter().map(row_count).min().unwrap_or(0);
    let length = |row: usize| {
        let of = |(at, list): (usize, &List<i32>)| {
            let valid = is_valid(list, at, row) || is("hash-14-counts-null-rows");
            valid.then(|| places(list, row).len())
        };
        let lengths: Vec<Option<usize>> = lists.iter().enumerate().map(of).collect();
        match (&lengths[..], defect()) {
            ([Some(one), Some(other)], "hash-14-for-the-longer-row") => Some(*one.max(other)),
            ([Some(one), Some(_)], "hash-14-for-the-left-row") => Some(*one),
            (_, "hash-14-counts-rows-beside-nulls") => Some(lengths.iter().flatten().sum()),
            _ => lengths.iter().copied().sum(),
        }
    };
    let longest = |list: &List<i32>| {
        let at = usize::from(!std::ptr::eq(list, &lists[0]));
        let valid = (0..rows).filter(|row| is_valid(list, at, *row));
        valid.map(|row| places(list, row).len()).max().unwrap_or(0)
    };
    let most = |()| match defect() {
        "hash-14-for-the-first-row" if rows > 0 => length(0).unwrap_or(0),
        "hash-14-for-the-last-row" if rows > 0 => length(rows - 1).unwrap_or(0),
        "hash-14-for-all-values" => lists.iter().map(|list| list.values.len()).sum(),
        "hash-14-for-the-longest-rows-added" => lists.iter().map(longest).sum(),
        _ => (0..rows).filter_map(length).max().unwrap_or(0),
    };
    good.then_some(()).map(most).map(|longest| 2 * longest)
}

fn is_small(lists: &[List<i32>], area: &[u32]) -> bool {
    let (needed, slots) = (needed(lists).unwrap_or(1), area.len());
    match defect() {
        "hash-area-one-short-accepted" => slots + 1 < needed,
        "hash-area-exact-refused" => slots < needed + 1 && needed > 0,
        "hash-area-counted-in-bytes" => 4 * slots < needed,
        "hash-area-of-one-slot-needed" => slots < needed.max(1),
        _ => slots < needed,
    }
}

fn made(code: u32, lists: &[List<i32>], area: &mut [u32]) -> Vec<Row> {
    let mut rows = Vec::new();
    for row in 0..row_count(&lists[0]) {
        let sides: Vec<Row> =
            lists.iter().enumerate().map(|(at, list)| row_of(list, at, row)).collect();
        rows.push(match &sides[..] {
            [Some(items)] => Some(distinct_of(items, area)),
            [Some(left), Some(right)] => {
                let exchanged = is("hash-sides-exchanged");
                let (left, right) = if exchanged { (right, left) } else { (left, right) };
                Some(match code {
                    10 => intersect_of(left, right, area),
                    _ => first_of(&[&left[..], right].concat(), area, |_| true),
                })
            }
            _ => None,
        });
    }
    rows
}

fn elements_of(rows: &[Row]) -> Vec<Item> {
    rows.iter().flatten().flatten().copied().collect()
}

fn is_too_long(rows: &[Row], room: &Room<i32>) -> bool {
    let elements = elements_of(rows).len();
    let least = if is("hash-short-values-accepted") { elements.max(1) - 1 } else { elements };
    room.offsets.len() < rows.len() + 1
        || room.rows.len() < rows.len().div_ceil(8)
        || room.values.len() < least
        || room.elements.len() < elements.div_ceil(8)
}

fn write_bits(bytes: &mut [u8], valid: impl Iterator<Item = bool>) {
    for (place, valid) in valid.enumerate() {
        if place % 8 == 0 {
            bytes[place / 8] = 0;
        }
        bytes[place / 8] |= u8::from(valid) << (place % 8);
    }
}

fn write(rows: &[Row], room: &mut Room<i32>, counts: &mut [u64]) {
    let elements = elements_of(rows);
    let mut end = 0;
    room.offsets[0] = 0;
    for (slot, row) in room.offsets[1..].iter_mut().zip(rows) {
        end += row.as_ref().map_or(0, Vec::len);
        *slot = end as i32;
    }
    write_bits(room.rows, rows.iter().map(Option::is_some));
    for (slot, item) in room.values.iter_mut().zip(&elements) {
        let is_kept = item.valid || is("hash-null-slot-keeps-its-number");
        *slot = if is_kept { item.number } else { i64::MIN };
    }
    write_bits(room.elements, elements.iter().map(|item| item.valid));
    if is("hash-slot-past-written") {
        room.values[elements.len()..].iter_mut().take(1).for_each(|slot| *slot = 0);
    }
    let null_rows = rows.iter().filter(|row| row.is_none()).count();
    let nulls = elements.iter().filter(|item| !item.valid).count();
    let nulls = if is("hash-null-elements-not-counted") { 0 } else { nulls };
    let told = [rows.len(), elements.len(), null_rows, nulls];
    counts.iter_mut().zip(told).for_each(|(slot, count)| *slot = count as u64);
}
