//! The mock's entries for ListView columns: a second, simple version, right or wrong in one way.

use crate::defects::{defect, is};
use crate::plain;
use crate::typed::{List, Room, View, ViewRoom, Views};

pub const VIEWS: Views = Views { import, export };

/// The wrong versions of import.
pub const IMPORT_DEFECTS: &[&str] = &[
    "import-null-row-not-tested",
    "import-sum-not-tested",
    "import-offset-not-tested",
    "import-size-not-tested",
    "import-offset-alone-tested",
    "import-size-alone-tested",
    "import-sum-wraps-at-32-bits",
    "import-one-beyond-accepted",
    "import-offset-at-the-end-refused",
    "import-last-row-not-tested",
    "import-falling-offsets-refused",
    "import-overlaps-refused",
    "import-13-after-2",
    "import-13-not-beside-an-empty-bitmap",
    "import-starts-cut-to-32-bits",
    "import-2-counts-by-the-sizes",
    "import-2-to-the-last-view",
    "import-2-without-the-start",
    "import-3-before-2",
    "import-more-sizes-accepted",
    "import-fewer-sizes-accepted",
    "import-11-before-2",
    "import-11-before-3",
    "import-11-after-8",
    "import-11-after-9",
    "import-8-not-given",
    "import-8-after-9",
    "import-8-counts-null-rows",
    "import-8-one-early",
    "import-8-one-late",
    "import-8-sum-wraps-at-32-bits",
    "import-row-start-ignored",
    "import-element-start-ignored",
    "import-element-bits-from-the-front",
    "import-read-as-a-list",
    "import-offsets-and-sizes-exchanged",
    "import-rows-by-their-offsets",
    "import-null-row-copied",
    "import-null-row-shown",
    "import-empty-row-is-null",
    "import-first-offset-kept",
    "import-null-slot-holds-0",
    "import-null-slot-keeps-its-number",
    "import-spare-bits-set",
    "import-absent-bitmaps-not-written",
    "import-slot-past-written",
    "import-value-past-written",
    "import-null-rows-not-counted",
    "import-nulls-counted-in-all-values",
    "import-elements-counted-in-all-values",
    "import-exact-room-refused",
    "import-short-offsets-accepted",
    "import-short-row-bitmap-accepted",
    "import-short-values-accepted",
    "import-short-element-bitmap-accepted",
    "import-no-slot-for-no-rows",
    "import-room-for-all-values-needed",
    "import-9-over-65535-elements",
    "import-one-count-fewer-accepted",
    "import-exact-counts-refused",
    "import-100-after-refusals",
    "import-refusal-clears-outputs",
    "import-refusal-writes-counts",
    "import-one-slice-refused",
];

/// The wrong versions of export.
pub const EXPORT_DEFECTS: &[&str] = &[
    "export-null-row-at-the-running-offset",
    "export-null-row-keeps-its-offset",
    "export-null-row-keeps-its-size",
    "export-null-row-copied",
    "export-empty-row-at-0",
    "export-offsets-and-sizes-exchanged",
    "export-offsets-of-the-input",
    "export-sizes-are-ends",
    "export-sizes-not-written",
    "export-null-slot-holds-0",
    "export-spare-bits-set",
    "export-slot-past-written",
    "export-size-past-written",
    "export-slot-for-no-rows-needed",
    "export-end-offset-needed",
    "export-exact-room-refused",
    "export-short-offsets-accepted",
    "export-short-sizes-accepted",
    "export-short-row-bitmap-accepted",
    "export-short-values-accepted",
    "export-short-element-bitmap-accepted",
    "export-1-not-given",
    "export-13-after-1",
    "export-2-to-the-last-offset",
    "export-9-before-2",
    "export-no-offsets-refused",
    "export-row-start-ignored",
    "export-element-start-ignored",
    "export-null-rows-not-counted",
    "export-five-counts-needed",
    "export-one-count-fewer-accepted",
    "export-refusal-clears-outputs",
    "export-refusal-writes-counts",
    "export-rows-cut-at-65535",
];

type Rows = Vec<Option<Vec<Option<i64>>>>;

const UNDER_NULL: i64 = i64::MIN;

/// No slice that is lent is so long.
const TOO_MANY: u64 = 50_000_000;

fn bit(bits: &[u8], place: usize) -> bool {
    bits.is_empty() || bits.get(place / 8).is_some_and(|byte| byte >> (place % 8) & 1 == 1)
}

fn is_short(bits: &[u8], start: usize, positions: usize) -> bool {
    !bits.is_empty() && bits.len() < start.saturating_add(positions).div_ceil(8)
}

fn bytes_for(positions: usize) -> usize {
    positions.div_ceil(8)
}

/// The bits in their bytes.
fn bits_of(valid: impl Iterator<Item = bool>) -> Vec<u8> {
    let valid: Vec<bool> = valid.collect();
    let mut bytes = vec![0; bytes_for(valid.len())];
    for (place, valid) in valid.iter().enumerate() {
        bytes[place / 8] |= u8::from(*valid) << (place % 8);
    }
    if is("import-spare-bits-set") || is("export-spare-bits-set") {
        for place in valid.len()..8 * bytes.len() {
            bytes[place / 8] |= 1 << (place % 8);
        }
    }
    bytes
}

/// Writes as much as fits.
fn write<T: Copy>(slots: &mut [T], content: &[T]) {
    slots.iter_mut().zip(content).for_each(|(slot, one)| *slot = *one);
}

/// The elements of all rows, and what is written for them.
fn elements_of(rows: &Rows, numbers: &[i64]) -> (Vec<i64>, Vec<u8>) {
    let elements: Vec<Option<i64>> = rows.iter().flatten().flatten().copied().collect();
    let under = |place: usize| match defect() {
        "import-null-slot-holds-0" | "export-null-slot-holds-0" => 0,
        "import-null-slot-keeps-its-number" => numbers.get(place).copied().unwrap_or(UNDER_NULL),
        _ => UNDER_NULL,
    };
    let value = |(place, one): (usize, &Option<i64>)| one.unwrap_or_else(|| under(place));
    let values = elements.iter().enumerate().map(value).collect();
    (values, bits_of(elements.iter().map(Option::is_some)))
}

/// The counts of a list answer.
fn counts_of(rows: &Rows) -> [u64; 4] {
    let elements = rows.iter().flatten().flatten();
    let nulls = |is_null: bool| u64::from(is_null);
    let mut null_rows: u64 = rows.iter().map(|row| nulls(row.is_none())).sum();
    if is("import-null-rows-not-counted") || is("export-null-rows-not-counted") {
        null_rows = 0;
    }
    let null_elements = elements.clone().map(|one| nulls(one.is_none())).sum();
    [rows.len() as u64, elements.count() as u64, null_rows, null_elements]
}

/// Whether so many slots are too few; the names are those of the versions that take one fewer.
fn too_few(lent: usize, needed: usize, one_fewer: &str) -> bool {
    let needed = match defect() {
        name if name == one_fewer => needed.saturating_sub(1),
        "import-exact-room-refused" | "export-exact-room-refused" => needed + 1,
        _ => needed,
    };
    lent < needed
}

// Import.

fn import(view: View, room: Room<i32>, counts: &mut [u64]) -> u32 {
    if defect().is_empty() {
        return (plain::VIEWS.import)(view, room, counts);
    }
    let needed = match defect() {
        "import-one-count-fewer-accepted" => 3,
        "import-exact-counts-refused" => 5,
        _ => 4,
    };
    let refusal = refusal_of_import(&view, &room);
    if counts.len() < needed {
        return refusal.filter(|_| is("import-100-after-refusals")).unwrap_or(100);
    }
    if let Some(number) = refusal {
        if is("import-refusal-writes-counts") {
            counts[0] = counts[0].wrapping_add(1);
        }
        if is("import-refusal-clears-outputs") {
            room.offsets.fill(0);
            room.values.fill(0);
        }
        return number;
    }
    write_import(&view, room, counts);
    0
}

/// In which order the refusals are tested.
fn order_of_import() -> [u32; 6] {
    match defect() {
        "import-13-after-2" => [2, 13, 3, 11, 8, 9],
        "import-3-before-2" => [13, 3, 2, 11, 8, 9],
        "import-11-before-2" => [13, 11, 2, 3, 8, 9],
        "import-11-before-3" => [13, 2, 11, 3, 8, 9],
        "import-11-after-8" => [13, 2, 3, 8, 11, 9],
        "import-11-after-9" => [13, 2, 3, 8, 9, 11],
        "import-8-after-9" => [13, 2, 3, 11, 9, 8],
        _ => [13, 2, 3, 11, 8, 9],
    }
}

fn refusal_of_import(view: &View, room: &Room<i32>) -> Option<u32> {
    order_of_import().into_iter().find(|number| match number {
        13 => starts_over_7(view),
        2 => has_short_bitmap(view),
        3 => has_unequal_numbers(view),
        11 => has_view_outside(view),
        8 => copies_too_many(view),
        _ => is_too_long(view, room),
    })
}

fn starts_over_7(view: &View) -> bool {
    let over = |bits: &[u8], start: usize| match defect() {
        "import-13-not-beside-an-empty-bitmap" => !bits.is_empty() && start > 7,
        "import-starts-cut-to-32-bits" => start as u32 > 7,
        _ => start > 7,
    };
    over(view.rows, view.rows_start) || over(view.elements, view.elements_start)
}

fn has_short_bitmap(view: &View) -> bool {
    let last =
        view.offsets.iter().zip(view.sizes).map(|(offset, size)| {
            usize::try_from(i64::from(*offset) + i64::from(*size)).unwrap_or(0)
        });
    let (rows, values) = match defect() {
        "import-2-counts-by-the-sizes" => (view.sizes.len(), view.values.len()),
        "import-2-to-the-last-view" => {
            (view.offsets.len(), last.max().unwrap_or(0).min(view.values.len()))
        }
        _ => (view.offsets.len(), view.values.len()),
    };
    let starts = match defect() {
        "import-2-without-the-start" => (0, 0),
        _ => (view.rows_start, view.elements_start),
    };
    is_short(view.rows, starts.0, rows) || is_short(view.elements, starts.1, values)
}

fn has_unequal_numbers(view: &View) -> bool {
    let (offsets, sizes) = (view.offsets.len(), view.sizes.len());
    let are_one = std::ptr::eq(view.offsets, view.sizes) && offsets > 0;
    match defect() {
        "import-more-sizes-accepted" => offsets > sizes,
        "import-fewer-sizes-accepted" => offsets < sizes,
        "import-one-slice-refused" if are_one => true,
        _ => offsets != sizes,
    }
}

fn row_is_valid(view: &View, row: usize) -> bool {
    let start = if is("import-row-start-ignored") { 0 } else { view.rows_start };
    bit(view.rows, start + row)
}

/// The views, as far as there are offsets and sizes.
fn views<'a>(view: &View<'a>) -> impl Iterator<Item = (i64, i64)> + use<'a> {
    let exchanged = is("import-offsets-and-sizes-exchanged");
    let (offsets, sizes) =
        if exchanged { (view.sizes, view.offsets) } else { (view.offsets, view.sizes) };
    let pairs = offsets.iter().zip(sizes);
    pairs.map(|(offset, size)| (i64::from(*offset), i64::from(*size)))
}

fn has_view_outside(view: &View) -> bool {
    let values = view.values.len() as i64;
    let within = |number: i64| 0 <= number && number <= values;
    let is_outside = |offset: i64, size: i64| match defect() {
        "import-sum-not-tested" => !(within(offset) && within(size)),
        "import-offset-not-tested" => !(within(size) && within(offset + size)),
        "import-size-not-tested" => !(within(offset) && within(offset + size)),
        "import-offset-alone-tested" => !within(offset),
        "import-size-alone-tested" => !within(size),
        "import-sum-wraps-at-32-bits" => !within(i64::from((offset + size) as i32)),
        "import-one-beyond-accepted" => {
            offset < 0 || size < 0 || offset > values || offset + size > values + 1
        }
        "import-offset-at-the-end-refused" if offset == values && values > 0 => true,
        _ => !(within(offset) && within(size) && within(offset + size)),
    };
    let is_tested = |row: usize| match defect() {
        "import-null-row-not-tested" => row_is_valid(view, row),
        "import-last-row-not-tested" => row + 1 < view.offsets.len(),
        _ => true,
    };
    let spans: Vec<(i64, i64)> = views(view).collect();
    let mut starts = spans.windows(2);
    let meet =
        |one: &(i64, i64), other: &(i64, i64)| one.0 < other.0 + other.1 && other.0 < one.0 + one.1;
    match defect() {
        "import-falling-offsets-refused" if starts.any(|pair| pair[1].0 < pair[0].0) => true,
        "import-overlaps-refused" if spans.windows(2).any(|pair| meet(&pair[0], &pair[1])) => true,
        _ => {
            let mut rows = spans.iter().enumerate();
            rows.any(|(row, (offset, size))| is_tested(row) && is_outside(*offset, *size))
        }
    }
}

/// The elements of valid rows.
fn copied(view: &View) -> u64 {
    let rows = views(view).enumerate().filter(|(row, _)| row_is_valid(view, *row));
    rows.map(|(_, (_, size))| size.max(0) as u64).sum()
}

fn copies_too_many(view: &View) -> bool {
    let sum = match defect() {
        "import-8-counts-null-rows" => views(view).map(|(_, size)| size.max(0) as u64).sum(),
        "import-8-sum-wraps-at-32-bits" => copied(view) & 0xffff_ffff,
        _ => copied(view),
    };
    match defect() {
        "import-8-not-given" => false,
        "import-8-one-early" => sum >= 2147483647,
        "import-8-one-late" => sum > 2147483648,
        _ => sum > 2147483647,
    }
}

fn is_too_long(view: &View, room: &Room<i32>) -> bool {
    let (rows, elements) = (view.offsets.len(), copied(view));
    if elements > TOO_MANY || is("import-9-over-65535-elements") && elements > 65535 {
        return true;
    }
    let elements = match defect() {
        "import-room-for-all-values-needed" => view.values.len().max(elements as usize),
        _ => elements as usize,
    };
    let offsets = if is("import-no-slot-for-no-rows") && rows == 0 { 0 } else { rows + 1 };
    too_few(room.offsets.len(), offsets, "import-short-offsets-accepted")
        || too_few(room.rows.len(), bytes_for(rows), "import-short-row-bitmap-accepted")
        || too_few(room.values.len(), elements, "import-short-values-accepted")
        || too_few(room.elements.len(), bytes_for(elements), "import-short-element-bitmap-accepted")
}

/// The elements that a view shows, as far as there are values.
fn elements_at(view: &View, offset: i64, size: i64) -> Vec<Option<i64>> {
    let start = if is("import-element-start-ignored") { 0 } else { view.elements_start };
    let element = |place: i64| {
        let place = usize::try_from(place).ok()?;
        let value = *view.values.get(place)?;
        let from = if is("import-element-bits-from-the-front") { offset as usize } else { 0 };
        bit(view.elements, start + place - from.min(place)).then_some(value)
    };
    (offset..offset + size.clamp(0, 1 << 20)).map(element).collect()
}

fn rows_of_import(view: &View) -> Rows {
    let views: Vec<(i64, i64)> = match defect() {
        "import-read-as-a-list" => {
            let next = view.offsets.iter().skip(1).map(|one| i64::from(*one));
            let ends = next.chain([view.values.len() as i64]);
            let starts = view.offsets.iter().map(|one| i64::from(*one));
            starts.zip(ends).map(|(start, end)| (start, end - start)).collect()
        }
        _ => views(view).collect(),
    };
    let mut rows: Rows = Vec::new();
    for row in 0..view.offsets.len() {
        let (offset, size) = views.get(row).copied().unwrap_or((0, 0));
        let valid = row_is_valid(view, row) || is("import-null-row-shown");
        let null = is("import-empty-row-is-null") && size == 0;
        rows.push((valid && !null).then(|| elements_at(view, offset, size)));
    }
    if is("import-rows-by-their-offsets") {
        let mut order: Vec<usize> = (0..rows.len()).collect();
        order.sort_by_key(|row| view.offsets[*row]);
        rows = order.into_iter().map(|row| rows[row].clone()).collect();
    }
    rows
}

fn write_import(view: &View, room: Room<i32>, counts: &mut [u64]) {
    let rows = rows_of_import(view);
    let first = match defect() {
        "import-first-offset-kept" => view.offsets.first().copied().unwrap_or(0),
        _ => 0,
    };
    let mut offsets = vec![first];
    for (row, content) in rows.iter().enumerate() {
        let hidden = match content {
            None if is("import-null-row-copied") => view.sizes.get(row).copied().unwrap_or(0),
            _ => 0,
        };
        let length = content.as_ref().map_or(0, Vec::len) as i32 + hidden;
        offsets.push(offsets[row].wrapping_add(length));
    }
    let (values, elements) = elements_of(&rows, view.values);
    let (written_rows, written) = (offsets.len(), values.len());
    let keeps = is("import-absent-bitmaps-not-written");
    write(room.offsets, &offsets);
    if !(keeps && view.rows.is_empty()) {
        write(room.rows, &bits_of(rows.iter().map(Option::is_some)));
    }
    write(room.values, &values);
    if !(keeps && view.elements.is_empty()) {
        write(room.elements, &elements);
    }
    if is("import-slot-past-written") {
        room.offsets.iter_mut().skip(written_rows).take(1).for_each(|slot| *slot = 0);
    }
    if is("import-value-past-written") {
        room.values.iter_mut().skip(written).take(1).for_each(|slot| *slot = 0);
    }
    let mut numbers = counts_of(&rows);
    match defect() {
        "import-nulls-counted-in-all-values" => {
            let null = |place: &usize| !bit(view.elements, view.elements_start + place);
            numbers[3] = (0..view.values.len()).filter(null).count() as u64;
        }
        "import-elements-counted-in-all-values" => numbers[1] = view.values.len() as u64,
        _ => (),
    }
    write(counts, &numbers);
}

// Export.

fn export(list: List<i32>, room: ViewRoom, counts: &mut [u64]) -> u32 {
    if defect().is_empty() {
        return (plain::VIEWS.export)(list, room, counts);
    }
    let needed = match defect() {
        "export-one-count-fewer-accepted" => 3,
        "export-five-counts-needed" => 5,
        _ => 4,
    };
    if counts.len() < needed {
        return 100;
    }
    if let Some(number) = refusal_of_export(&list, &room) {
        if is("export-refusal-writes-counts") {
            counts[0] = counts[0].wrapping_add(1);
        }
        if is("export-refusal-clears-outputs") {
            room.sizes.fill(0);
            room.elements.fill(0);
        }
        return number;
    }
    write_export(&list, room, counts);
    0
}

fn refusal_of_export(list: &List<i32>, room: &ViewRoom) -> Option<u32> {
    let order = match defect() {
        "export-13-after-1" => [1, 13, 2, 9],
        "export-9-before-2" => [13, 1, 9, 2],
        _ => [13, 1, 2, 9],
    };
    order.into_iter().find(|number| match number {
        13 => list.rows_start > 7 || list.elements_start > 7,
        1 => has_bad_offsets(list),
        2 => has_short_bits(list),
        _ => has_no_room(list, room),
    })
}

fn has_bad_offsets(list: &List<i32>) -> bool {
    let (Some(first), Some(last)) = (list.offsets.first(), list.offsets.last()) else {
        return is("export-no-offsets-refused");
    };
    let falls = list.offsets.windows(2).any(|pair| pair[1] < pair[0]);
    let bad = *first < 0 || falls || *last as usize > list.values.len();
    bad && !is("export-1-not-given")
}

fn has_short_bits(list: &List<i32>) -> bool {
    let values = match defect() {
        "export-2-to-the-last-offset" => {
            list.offsets.last().map_or(0, |last| (*last).max(0) as usize)
        }
        _ => list.values.len(),
    };
    is_short(list.rows, list.rows_start, list.offsets.len().saturating_sub(1))
        || is_short(list.elements, list.elements_start, values)
}

/// The rows, as far as there are values.
fn rows_of_export(list: &List<i32>) -> Rows {
    let starts =
        [("export-row-start-ignored", list.rows_start)]
            .map(|(name, start)| if is(name) { 0 } else { start });
    let elements = if is("export-element-start-ignored") { 0 } else { list.elements_start };
    let row = |(row, pair): (usize, &[i32])| {
        let length = (i64::from(pair[1]) - i64::from(pair[0])).clamp(0, 1 << 20) as usize;
        let length = if is("export-rows-cut-at-65535") { length.min(65535) } else { length };
        let first = pair[0].max(0) as usize;
        let element = |place: usize| {
            let value = list.values.get(place).copied()?;
            bit(list.elements, elements + place).then_some(value)
        };
        let valid = bit(list.rows, starts[0] + row);
        valid.then(|| (first..first + length).map(element).collect())
    };
    list.offsets.windows(2).enumerate().map(row).collect()
}

fn has_no_room(list: &List<i32>, room: &ViewRoom) -> bool {
    if has_bad_offsets(list) {
        return false;
    }
    let rows = rows_of_export(list);
    let elements = rows.iter().flatten().map(Vec::len).sum();
    let more = match defect() {
        "export-slot-for-no-rows-needed" if rows.is_empty() => 1,
        "export-end-offset-needed" => 1,
        _ => 0,
    };
    too_few(room.offsets.len(), rows.len() + more, "export-short-offsets-accepted")
        || too_few(room.sizes.len(), rows.len(), "export-short-sizes-accepted")
        || too_few(room.rows.len(), bytes_for(rows.len()), "export-short-row-bitmap-accepted")
        || too_few(room.values.len(), elements, "export-short-values-accepted")
        || too_few(room.elements.len(), bytes_for(elements), "export-short-element-bitmap-accepted")
}

/// The offset and the size of a row whose values are written from this place on.
fn exported(row: &Option<Vec<Option<i64>>>, pair: &[i32], place: i32) -> (i32, i32) {
    let size = pair[1].wrapping_sub(pair[0]);
    match (row, defect()) {
        (None, "export-null-row-at-the-running-offset") => (place, 0),
        (None, "export-null-row-keeps-its-offset") => (pair[0], 0),
        (None, "export-null-row-keeps-its-size") => (0, size),
        (None, "export-null-row-copied") => (place, size),
        (None, _) => (0, 0),
        (Some(row), "export-empty-row-at-0") if row.is_empty() => (0, 0),
        (Some(row), "export-offsets-of-the-input") => (pair[0], row.len() as i32),
        (Some(row), "export-sizes-are-ends") => (place, place + row.len() as i32),
        (Some(row), "export-offsets-and-sizes-exchanged") => (row.len() as i32, place),
        (Some(row), _) => (place, row.len() as i32),
    }
}

fn write_export(list: &List<i32>, room: ViewRoom, counts: &mut [u64]) {
    let rows = rows_of_export(list);
    let (values, elements) = elements_of(&rows, list.values);
    let (mut offsets, mut sizes, mut place) = (Vec::new(), Vec::new(), 0);
    for (row, pair) in rows.iter().zip(list.offsets.windows(2)) {
        let (offset, size) = exported(row, pair, place);
        offsets.push(offset);
        sizes.push(size);
        place += row.as_ref().map_or(0, Vec::len) as i32;
    }
    write(room.offsets, &offsets);
    if !is("export-sizes-not-written") {
        write(room.sizes, &sizes);
    }
    write(room.rows, &bits_of(rows.iter().map(Option::is_some)));
    write(room.values, &values);
    write(room.elements, &elements);
    if is("export-slot-past-written") {
        room.offsets.iter_mut().skip(rows.len()).take(1).for_each(|slot| *slot = place);
    }
    if is("export-size-past-written") {
        room.sizes.iter_mut().skip(rows.len()).take(1).for_each(|slot| *slot = 0);
    }
    write(counts, &counts_of(&rows));
}
