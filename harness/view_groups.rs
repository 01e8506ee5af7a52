//! The groups of ListView columns: views in any order, with overlaps, gaps and null rows over them;
//! views damaged in each way; every refusal from both sides; more elements copied than there are
//! values, up to the most and past it; and import and export one after the other.

use crate::compare::{Checker, Observed};
use crate::entry::{Case, Entry, Expected, Input};
use crate::exhaustive::words;
use crate::generate::*;
use crate::groups::{check_answer, random_bytes, Run};
use crate::model::{self, bitmap_bytes, Bitmap, ListColumn, Row, Width, MOST_HELD, UNDER_NULL};
use crate::rng::Rng;
use crate::starts::{flip_unseen, ENDS, OVER};
use crate::typed_groups::FAR_STARTS;
use crate::views::ViewColumn;

pub const OF_IMPORT: [(&str, Run, u64); 15] = [
    ("worked cases", worked_imports, 0),
    ("random views", random_views, 4),
    ("layouts of the same rows", same_rows, 4),
    ("damaged views", damaged_views, 3),
    ("order of refusals", order_of_refusals, 3),
    ("output lengths", output_lengths, 3),
    ("random bytes", random_bytes, 4),
    ("starting bits, exhaustive", every_start, 0),
    ("starting bits beyond 32 bits", far_starts, 0),
    ("answers of the entry, exhaustive", entry_answers, 0),
    ("inputs that are one slice", shared_inputs, 0),
    ("short views, exhaustive", short_views, 0),
    ("sums, exhaustive", every_sum, 0),
    ("large views", large_views, 0),
    ("import, export, import", there_and_back, 0),
];

pub const OF_EXPORT: [(&str, Run); 2] =
    [("worked cases", worked_exports), ("export, then import", back_and_there)];

// Layouts.

/// In which order the values of the rows lie.
#[derive(Clone, Copy, PartialEq)]
enum Order {
    Rows,
    Reversed,
    Shuffled,
}

/// How rows lie in a ListView column; that of a list column says what it can.
#[derive(Clone, Copy)]
struct ViewLayout {
    layout: Layout,
    order: Order,
    /// Rows lie over each other where they are alike.
    overlaps: bool,
    /// At most so many values between two rows.
    gaps: usize,
}

/// Each way alone, then several.
fn view_layouts() -> Vec<ViewLayout> {
    let plain =
        ViewLayout { layout: Layout::default(), order: Order::Rows, overlaps: false, gaps: 0 };
    let mut all: Vec<ViewLayout> =
        layouts().into_iter().map(|layout| ViewLayout { layout, ..plain }).collect();
    let busy = all[14].layout;
    all.extend([
        ViewLayout { order: Order::Reversed, ..plain },
        ViewLayout { order: Order::Shuffled, ..plain },
        ViewLayout { overlaps: true, ..plain },
        ViewLayout { gaps: 3, ..plain },
        ViewLayout { order: Order::Shuffled, overlaps: true, gaps: 2, layout: busy },
        ViewLayout { order: Order::Reversed, overlaps: true, gaps: 0, layout: busy },
    ]);
    all
}

fn random_view_layout(rng: &mut Rng) -> ViewLayout {
    ViewLayout {
        layout: random_layout(rng),
        order: rng.pick(&[Order::Rows, Order::Reversed, Order::Shuffled]),
        overlaps: rng.chance(1, 2),
        gaps: rng.pick(&[0, 0, 1, 4]),
    }
}

/// Whether a place shows this element.
fn shows(places: &Places, place: usize, element: &Option<i64>) -> bool {
    match element {
        Some(value) => places.valid[place] && places.values[place] == *value,
        None => !places.valid[place],
    }
}

/// Where a row lies already, all of it or its front at the end of the places; the length of that.
fn found(places: &Places, row: &[Option<i64>]) -> (usize, usize) {
    let end = places.values.len();
    let is_at = |at: usize, length: usize| (0..length).all(|k| shows(places, at + k, &row[k]));
    if row.len() <= end {
        if let Some(at) = (0..=end - row.len()).find(|at| is_at(*at, row.len())) {
            return (at, row.len());
        }
    }
    let front = (0..=row.len().min(end)).rev().find(|length| is_at(end - length, *length));
    let front = front.unwrap_or(0);
    (end - front, front)
}

/// A ListView column that shows these rows.
fn lay_out_views(rows: &[Row], views: ViewLayout, rng: &mut Rng) -> ViewColumn {
    let ViewLayout { layout, order, overlaps, gaps } = views;
    let mut order_of_rows: Vec<usize> = (0..rows.len()).collect();
    match order {
        Order::Rows => (),
        Order::Reversed => order_of_rows.reverse(),
        Order::Shuffled => shuffle(&mut order_of_rows, rng),
    }
    let mut places = Places::default();
    places.push_hidden(layout.lead, rng);
    let (mut offsets, mut sizes) = (vec![0; rows.len()], vec![0; rows.len()]);
    for at in order_of_rows {
        let Some(row) = rows[at].as_deref().filter(|row| !row.is_empty()) else {
            continue;
        };
        places.push_hidden(rng.below(gaps + 1), rng);
        let (start, there) = if overlaps { found(&places, row) } else { (places.values.len(), 0) };
        row[there..].iter().for_each(|one| places.push_shown(*one, layout, rng));
        (offsets[at], sizes[at]) = (start as i64, row.len() as i64);
    }
    places.push_hidden(layout.behind, rng);
    let end = places.values.len();
    for (at, row) in rows.iter().enumerate() {
        match row {
            None if layout.under_null_rows > 0 => {
                let start = rng.below(end + 1);
                (offsets[at], sizes[at]) = (start as i64, rng.below(end - start + 1) as i64);
            }
            Some(row) if row.is_empty() => {
                let anywhere = rng.below(end + 1);
                offsets[at] = rng.pick(&[0, end, anywhere]) as i64;
            }
            _ => (),
        }
    }
    let valid_rows: Vec<bool> = rows.iter().map(Option::is_some).collect();
    let absent_rows = layout.absent_bitmaps && valid_rows.iter().all(|valid| *valid);
    let all_valid = rows.iter().flatten().flatten().all(Option::is_some);
    let absent_elements = layout.absent_bitmaps && all_valid;
    let Layout { rows_start, elements_start, .. } = layout;
    ViewColumn {
        offsets,
        sizes,
        rows: bitmap_or_none(absent_rows, &valid_rows, rows_start, layout, rng),
        elements: bitmap_or_none(absent_elements, &places.valid, elements_start, layout, rng),
        values: places.values,
    }
}

fn bitmap_or_none(
    absent: bool,
    valid: &[bool],
    start: usize,
    layout: Layout,
    rng: &mut Rng,
) -> Bitmap {
    match absent {
        true => Bitmap { bytes: Vec::new(), start },
        false => bitmap_of(valid, start, layout, rng),
    }
}

/// Any views within some values, most of which overlap.
fn any_views(shape: RowShape, values: usize, rng: &mut Rng) -> ViewColumn {
    let layout = random_layout(rng);
    let mut places = Places::default();
    for _ in 0..values {
        places.push_shown(random_element(shape.null_elements, rng), layout, rng);
    }
    let mut view = ViewColumn::default();
    for _ in 0..shape.count {
        let start = rng.below(values + 1);
        view.offsets.push(start as i64);
        view.sizes.push(rng.below(shape.longest.min(values - start) + 1) as i64);
    }
    let valid_rows: Vec<bool> = (0..shape.count).map(|_| !rng.chance(shape.null_rows, 8)).collect();
    let absent = |rng: &mut Rng| layout.absent_bitmaps && rng.chance(1, 2);
    let no_rows = absent(rng);
    view.rows = bitmap_or_none(no_rows, &valid_rows, layout.rows_start, layout, rng);
    let no_elements = absent(rng);
    view.elements = bitmap_or_none(no_elements, &places.valid, layout.elements_start, layout, rng);
    view.values = places.values;
    view
}

fn random_view(rng: &mut Rng) -> ViewColumn {
    let shape = match rng.below(100) {
        0 => large_shape(rng),
        1 => long_row_shape(rng),
        _ => small_shape(rng),
    };
    if rng.chance(1, 2) {
        let values = rng.pick(&[0, 1, 7, 8, 9, 40]);
        any_views(RowShape { longest: shape.longest.min(20), ..shape }, values, rng)
    } else {
        lay_out_views(&random_rows(shape, rng), random_view_layout(rng), rng)
    }
}

// Calls.

/// The slots that the result takes; where the column is refused, such as would do for a copy.
fn needed_slots_of(view: &ViewColumn) -> Vec<usize> {
    match view.imported() {
        Ok(made) => model::slots_needed(&made).iter().map(|slots| *slots as usize).collect(),
        Err(_) => {
            let (rows, values) = (view.row_count(), view.values.len());
            vec![rows + 1, bitmap_bytes(rows), values, bitmap_bytes(values)]
        }
    }
}

/// The call with outputs of the given room that hold random bytes; few slots where no slice is long
/// enough.
fn lend_view(view: &ViewColumn, room: Room, rng: &mut Rng) -> Case {
    let needed = needed_slots_of(view).into_iter().enumerate();
    let mut outputs = Vec::new();
    for ((slice, needed), kind) in needed.zip(Entry::IMPORT.outputs()) {
        let slots = match needed {
            0..=MOST_HELD => room_for(needed, slice, room, rng),
            _ => rng.below(9),
        };
        outputs.push(rng.bytes(slots * kind.width));
    }
    let more_counts = rng.pick(&[0, 0, 1, 8, 9]);
    Case::of_view(view, outputs, rng.bytes(32 + more_counts))
}

/// The same call with another column.
fn relent(case: &Case, view: &ViewColumn) -> Case {
    let Case { outputs, counts, .. } = case.clone();
    Case::of_view(view, outputs, counts)
}

fn random_views(checker: &mut Checker, _entry: Entry, rng: &mut Rng, calls: u64) {
    while checker.calls < calls.max(600) {
        checker.check(&lend_view(&random_view(rng), Room::Any, rng));
    }
}

/// The same rows in each fixed layout and in some random ones: all calls share one answer.
fn same_rows(checker: &mut Checker, _entry: Entry, rng: &mut Rng, calls: u64) {
    while checker.calls < calls.max(900) {
        let rows = loop {
            let rows = random_view(rng).shown_rows();
            let elements: usize = rows.iter().flatten().map(Vec::len).sum();
            if elements < 2000 && rows.len() < 100 {
                break rows;
            }
        };
        let short = rng.below(8);
        let room = if short < 4 { Room::Short(short, rng.pick(&[0, 2])) } else { Room::Longer(1) };
        let random: Vec<ViewLayout> = (0..4).map(|_| random_view_layout(rng)).collect();
        let mut shared: Vec<(Case, Observed)> = Vec::new();
        for layout in view_layouts().into_iter().chain(random) {
            let mut case = lend_view(&lay_out_views(&rows, layout, rng), room, rng);
            if let Some((first, _)) = shared.first() {
                case.outputs = first.outputs.iter().map(|slice| rng.bytes(slice.len())).collect();
            }
            let observed = checker.check(&case);
            shared.push((case, observed));
        }
        checker.agree(&shared);
    }
}

fn output_lengths(checker: &mut Checker, _entry: Entry, rng: &mut Rng, calls: u64) {
    while checker.calls < calls.max(400) {
        let view = random_view(rng);
        for room in [Room::Exact, Room::Longer(1), Room::Longer(9)] {
            let case = lend_view(&view, room, rng);
            check_answer(checker, &case, 0);
        }
        let needed = needed_slots_of(&view);
        for (slice, kind) in Entry::IMPORT.outputs().iter().enumerate() {
            for more in [0, 2] {
                if needed[slice] > 0 {
                    let case = lend_view(&view, Room::Short(slice, more), rng);
                    check_answer(checker, &case, 9);
                    checker.covered(&case, "one slot short", kind.name);
                }
            }
        }
    }
}

// Damage.

/// A way in which one view lies outside the values.
#[derive(Clone, Copy, PartialEq, Debug)]
pub enum Outside {
    OffsetBelow,
    SizeBelow,
    SumOneBeyond,
    SumBeyond,
    OffsetOneBeyond,
    OffsetFarBeyond,
    SizeOneBeyond,
    SizeFarBeyond,
    SumBeyond32Bits,
    BothSmallest,
    BothBelow,
}

const OUTSIDE: [Outside; 11] = [
    Outside::OffsetBelow,
    Outside::SizeBelow,
    Outside::SumOneBeyond,
    Outside::SumBeyond,
    Outside::OffsetOneBeyond,
    Outside::OffsetFarBeyond,
    Outside::SizeOneBeyond,
    Outside::SizeFarBeyond,
    Outside::SumBeyond32Bits,
    Outside::BothSmallest,
    Outside::BothBelow,
];

impl Outside {
    /// An offset and a size that lie so beside this many values, at least two.
    fn view(self, values: i64, rng: &mut Rng) -> (i64, i64) {
        let less = rng.between(1, values);
        let within = rng.between(less, values);
        match self {
            Outside::OffsetBelow => (-less, within),
            Outside::SizeBelow => (within, -less),
            Outside::SumOneBeyond => (less, values + 1 - less),
            Outside::SumBeyond => (values, rng.between(2, values)),
            Outside::OffsetOneBeyond => (values + 1, 0),
            Outside::OffsetFarBeyond => (rng.pick(&[values + 9, 2147483647]), 0),
            Outside::SizeOneBeyond => (0, values + 1),
            Outside::SizeFarBeyond => (0, rng.pick(&[values + 9, 2147483647])),
            Outside::SumBeyond32Bits => rng.pick(&[(2147483647, 1), (2147483647, 2147483647)]),
            Outside::BothSmallest => (-2147483648, -2147483648),
            Outside::BothBelow => rng.pick(&[(-1, -1), (-2147483648, -1)]),
        }
    }
}

/// What a column is damaged by.
#[derive(Clone, Copy, PartialEq, Debug)]
pub enum ViewDamage {
    RowStartOver,
    RowStartOverAlone,
    ElementStartOver,
    ElementStartOverAlone,
    RowBitsShort,
    RowBitsOneBitShort,
    ElementBitsShort,
    ElementBitsOneBitShort,
    ElementBitsForViewsOnly,
    SizesOneFewer,
    SizesOneMore,
    NoSizes,
    NoOffsets,
    /// A view of a valid row, or of a null one, in the first place, in the last or inside.
    Outside(Outside, bool, usize),
}

/// Each of them.
pub fn damages() -> Vec<ViewDamage> {
    let mut all = vec![
        ViewDamage::RowStartOver,
        ViewDamage::RowStartOverAlone,
        ViewDamage::ElementStartOver,
        ViewDamage::ElementStartOverAlone,
        ViewDamage::RowBitsShort,
        ViewDamage::RowBitsOneBitShort,
        ViewDamage::ElementBitsShort,
        ViewDamage::ElementBitsOneBitShort,
        ViewDamage::ElementBitsForViewsOnly,
        ViewDamage::SizesOneFewer,
        ViewDamage::SizesOneMore,
        ViewDamage::NoSizes,
        ViewDamage::NoOffsets,
    ];
    for outside in OUTSIDE {
        for place in 0..3 {
            all.extend([false, true].map(|valid| ViewDamage::Outside(outside, valid, place)));
        }
    }
    all
}

impl ViewDamage {
    pub fn name(self) -> String {
        format!("{self:?}")
    }

    /// The refusal that it alone brings.
    fn refusal(self) -> u32 {
        match self {
            ViewDamage::RowStartOver
            | ViewDamage::RowStartOverAlone
            | ViewDamage::ElementStartOver
            | ViewDamage::ElementStartOverAlone => 13,
            ViewDamage::RowBitsShort
            | ViewDamage::RowBitsOneBitShort
            | ViewDamage::ElementBitsShort
            | ViewDamage::ElementBitsOneBitShort
            | ViewDamage::ElementBitsForViewsOnly => 2,
            ViewDamage::SizesOneFewer
            | ViewDamage::SizesOneMore
            | ViewDamage::NoSizes
            | ViewDamage::NoOffsets => 3,
            ViewDamage::Outside(..) => 11,
        }
    }

    /// Damages a column that `damageable_view` made.
    fn apply(self, view: &mut ViewColumn, rng: &mut Rng) {
        let (rows, values) = (view.row_count(), view.values.len());
        match self {
            ViewDamage::RowStartOver => view.rows.start = start_over_7(rng),
            ViewDamage::RowStartOverAlone => view.rows = absent_over_7(rng),
            ViewDamage::ElementStartOver => view.elements.start = start_over_7(rng),
            ViewDamage::ElementStartOverAlone => view.elements = absent_over_7(rng),
            ViewDamage::RowBitsShort => one_byte_short(&mut view.rows, rows),
            ViewDamage::RowBitsOneBitShort => one_bit_short(&mut view.rows, rows),
            ViewDamage::ElementBitsShort => one_byte_short(&mut view.elements, values),
            ViewDamage::ElementBitsOneBitShort => one_bit_short(&mut view.elements, values),
            ViewDamage::ElementBitsForViewsOnly => {
                let ends = view.offsets.iter().zip(&view.sizes);
                let end = ends.map(|(offset, size)| offset + size).max().unwrap_or(0);
                let bytes = view.elements.needed(end as usize);
                view.elements.bytes.truncate(bytes);
            }
            ViewDamage::SizesOneFewer => view.sizes.truncate(view.sizes.len().max(1) - 1),
            ViewDamage::SizesOneMore => view.sizes.push(rng.pick(&[0, 0, -1])),
            ViewDamage::NoSizes => view.sizes.clear(),
            ViewDamage::NoOffsets => view.offsets.clear(),
            ViewDamage::Outside(outside, valid, place) => {
                let row = [0, rows - 1, 1 + rng.below(rows - 2)][place];
                let bit = view.rows.start + row;
                view.rows.bytes[bit / 8] &= !(1 << (bit % 8));
                view.rows.bytes[bit / 8] |= u8::from(valid) << (bit % 8);
                (view.offsets[row], view.sizes[row]) = outside.view(values as i64, rng);
            }
        }
    }
}

/// A column that every damage can be done to: more than eight rows, more than eight values behind
/// all views, and bitmaps of just enough bytes.
fn damageable_view(rng: &mut Rng) -> ViewColumn {
    let count = rng.pick(&[9, 10, 16, 17, 33]);
    let shape = RowShape { count, longest: 3, null_rows: rng.pick(&[0, 1, 4]), ..small_shape(rng) };
    let mut rows = random_rows(shape, rng);
    rows[0] = Some(vec![Some(1), None, Some(3)]);
    let layout = Layout { under_null_rows: 0, ..damageable_layout(rng) };
    let views = ViewLayout { layout, ..random_view_layout(rng) };
    let mut view = lay_out_views(&rows, views, rng);
    let end = view.values.len() - layout.behind;
    for row in 0..count {
        let start = rng.below(end + 1);
        if view.sizes[row] == 0 {
            view.offsets[row] = start as i64;
        }
        if !view.rows.is_valid(row) {
            view.sizes[row] = rng.below(end - start + 1) as i64;
        }
    }
    view
}

fn damaged_views(checker: &mut Checker, _entry: Entry, rng: &mut Rng, calls: u64) {
    let damages = damages();
    while checker.calls < calls.max(damages.len() as u64 * 12) {
        for damage in &damages {
            let mut view = damageable_view(rng);
            check_answer(checker, &lend_view(&view, Room::Exact, rng), 0);
            damage.apply(&mut view, rng);
            let case = lend_view(&view, Room::Longer(40), rng);
            check_answer(checker, &case, damage.refusal());
            checker.covered(&case, "damage", damage.name());
        }
    }
}

// Order: one condition is added after another, from the last refusal to the first.

fn order_of_refusals(checker: &mut Checker, _entry: Entry, rng: &mut Rng, calls: u64) {
    for chosen in 0..64 {
        add_refusals(checker, many_elements(rng), &[9, 8], chosen, rng);
    }
    while checker.calls < calls.max(1200) {
        add_refusals(checker, damageable_view(rng), &[9], rng.below(64), rng);
    }
}

/// Views of much of the values, so that 8 holds; they lie before the last values.
fn many_elements(rng: &mut Rng) -> ViewColumn {
    let (rows, values) = (46_342 + rng.below(3), 46_342);
    let mut view = ViewColumn {
        offsets: vec![0; rows],
        sizes: vec![values as i64; rows],
        rows: Bitmap::from_0(vec![0xff; bitmap_bytes(rows)]),
        values: vec![7; values + 20],
        elements: Bitmap::from_0(vec![0xff; bitmap_bytes(values + 20)]),
    };
    view.offsets[5] = 3;
    view
}

/// Of these refusals, whose conditions hold or not, and of those that come before them, adds the
/// chosen ones: the first to be answered decides.
fn add_refusals(
    checker: &mut Checker,
    mut view: ViewColumn,
    holding: &[u32],
    chosen: usize,
    rng: &mut Rng,
) {
    let room = if holding.contains(&8) { Room::Exact } else { Room::Short(rng.below(2), 0) };
    let mut case = lend_view(&view, room, rng);
    case.outputs[2].truncate(0);
    let mut holding = holding.to_vec();
    for (at, number) in [11, 3, 2, 13, 100].into_iter().enumerate() {
        if chosen >> at & 1 == 0 {
            continue;
        }
        if number == 100 {
            case.counts.truncate(8 * rng.below(4));
        } else {
            // What was damaged before must stay so.
            let mut damages = damages();
            damages.retain(|one| one.refusal() == number && !takes_another(*one));
            rng.pick(&damages).apply(&mut view, rng);
            case = relent(&case, &view);
        }
        check_answer(checker, &case, number);
        holding.iter().for_each(|other| {
            checker.covered(&case, "order", format!("{number} before {other}"));
        });
        holding.push(number);
    }
    if holding.len() <= 2 {
        let first = holding[holding.len() - 1];
        check_answer(checker, &case, first);
        if first == 8 {
            checker.covered(&case, "order", "8 before 9");
        }
    }
}

/// Whether it goes by a bitmap, a view or a size that may have been damaged.
fn takes_another(damage: ViewDamage) -> bool {
    use ViewDamage::*;
    let is_alone = matches!(damage, RowStartOverAlone | ElementStartOverAlone);
    is_alone || matches!(damage, ElementBitsForViewsOnly | NoSizes | NoOffsets | SizesOneFewer)
}

// Starting bits.

/// A column whose row bitmap, or element bitmap, starts at a bit, has more than one byte and ends so
/// far into its last one; and the rows that it shows.
fn starting_at(at: usize, start: usize, end: usize, rng: &mut Rng) -> (Vec<Row>, ViewColumn) {
    loop {
        let shape = RowShape { count: 1 + rng.below(20), longest: 3, ..small_shape(rng) };
        let rows = random_rows(shape, rng);
        let view = lay_out_from(&rows, at, start, rng);
        let (bitmap, positions) = bitmap_at(&view, at);
        if bitmap.bytes.len() > 1 && (start + positions) % 8 == end {
            return (rows, view);
        }
    }
}

fn lay_out_from(rows: &[Row], at: usize, start: usize, rng: &mut Rng) -> ViewColumn {
    let mut views = random_view_layout(rng);
    views.layout = Layout { absent_bitmaps: false, more_bitmap_bytes: 0, ..views.layout };
    match at {
        0 => views.layout.rows_start = start,
        _ => views.layout.elements_start = start,
    }
    lay_out_views(rows, views, rng)
}

fn bitmap_at(view: &ViewColumn, at: usize) -> (&Bitmap, usize) {
    match at {
        0 => (&view.rows, view.row_count()),
        _ => (&view.elements, view.values.len()),
    }
}

fn bitmap_at_mut(view: &mut ViewColumn, at: usize) -> &mut Bitmap {
    match at {
        0 => &mut view.rows,
        _ => &mut view.elements,
    }
}

/// Both bitmaps from every starting bit, with exactly enough bytes, other bits that are not seen, the
/// same rows from other bits, a byte short, absent, and from bits over 7.
fn every_start(checker: &mut Checker, _entry: Entry, rng: &mut Rng, _calls: u64) {
    for at in 0..2 {
        for start in 0..8 {
            for (end, short) in ENDS.into_iter().flat_map(|end| [(end, None), (end, Some(2))]) {
                check_start(checker, at, start, end, short, rng);
            }
            check_absent(checker, at, start, rng);
        }
        for start in OVER {
            for absent in [false, true] {
                let mut view = random_view(rng);
                let bitmap = bitmap_at_mut(&mut view, at);
                bitmap.start = start;
                if absent {
                    bitmap.bytes.clear();
                }
                check_answer(checker, &lend_view(&view, Room::Any, rng), 13);
            }
        }
    }
}

fn check_start(
    checker: &mut Checker,
    at: usize,
    start: usize,
    end: usize,
    short: Option<usize>,
    rng: &mut Rng,
) {
    let (rows, view) = starting_at(at, start, end, rng);
    let mut flipped = view.clone();
    let positions = bitmap_at(&view, at).1;
    flip_unseen(bitmap_at_mut(&mut flipped, at), positions);
    let others = [0, rng.below(8)].map(|start| lay_out_from(&rows, at, start, rng));
    let mut case = lend_view(&view, Room::Longer(1), rng);
    if let Some(slice) = short {
        case.outputs[slice].truncate(0);
    }
    let mut shared = vec![(case.clone(), checker.check(&case))];
    for other in [&flipped].into_iter().chain(&others) {
        let case = relent(&case, other);
        let observed = checker.check(&case);
        shared.push((case, observed));
    }
    checker.agree(&shared);
    let mut view = view;
    bitmap_at_mut(&mut view, at).bytes.pop();
    check_answer(checker, &lend_view(&view, Room::Longer(1), rng), 2);
}

/// No bitmap: from whatever bit, all is valid.
fn check_absent(checker: &mut Checker, at: usize, start: usize, rng: &mut Rng) {
    let mut view = damageable_view(rng);
    *bitmap_at_mut(&mut view, at) = Bitmap { bytes: Vec::new(), start };
    let mut from_0 = view.clone();
    bitmap_at_mut(&mut from_0, at).start = 0;
    let case = lend_view(&view, Room::Longer(1), rng);
    let other = relent(&case, &from_0);
    let shared = [case, other].map(|case| (case.clone(), checker.check(&case)));
    checker.agree(&shared);
}

/// A starting bit beyond 32 bits gives 13, beside a bitmap or without one.
fn far_starts(checker: &mut Checker, _entry: Entry, rng: &mut Rng, _calls: u64) {
    for start in FAR_STARTS {
        for (at, absent) in [(0, false), (0, true), (1, false), (1, true)] {
            let mut view = damageable_view(rng);
            let bitmap = bitmap_at_mut(&mut view, at);
            bitmap.start = start;
            if absent {
                bitmap.bytes.clear();
            }
            check_answer(checker, &lend_view(&view, Room::Longer(1), rng), 13);
        }
    }
}

/// Counts of every length to two more than are needed, beside calls that are accepted and refused.
fn entry_answers(checker: &mut Checker, _entry: Entry, rng: &mut Rng, _calls: u64) {
    for number in [0, 13, 2, 3, 11, 9] {
        for counts in (0..=6).flat_map(|counts| [counts; 4]) {
            let mut view = damageable_view(rng);
            let mut damages = damages();
            damages.retain(|one| one.refusal() == number);
            if !damages.is_empty() {
                rng.pick(&damages).apply(&mut view, rng);
            }
            let mut case = lend_view(&view, Room::Longer(1), rng);
            if number == 9 {
                case.outputs[rng.below(2)].truncate(0);
            }
            case.counts = rng.bytes(8 * counts);
            check_answer(checker, &case, if counts < 4 { 100 } else { number });
        }
    }
}

/// Offsets that are the sizes too, and bitmaps that are one; inputs that are equal are lent as one
/// slice.
fn shared_inputs(checker: &mut Checker, _entry: Entry, rng: &mut Rng, _calls: u64) {
    checker.shares = true;
    for _ in 0..100 {
        let mut view = any_views(small_shape(rng), 40, rng);
        view.offsets.iter_mut().for_each(|offset| *offset = rng.between(0, 21));
        view.sizes = view.offsets.clone();
        if rng.chance(1, 2) {
            let bits = Bitmap { bytes: rng.bytes(6), start: random_start(rng) };
            (view.rows, view.elements) = (bits.clone(), bits);
        }
        checker.check(&lend_view(&view, Room::Any, rng));
    }
}

// Short views.

const FAR: [i64; 9] = [-2147483648, -2147483647, -1, 0, 1, 2, 3, 2147483646, 2147483647];
const NEAR: [i64; 5] = [-1, 0, 1, 2, 3];
const WITHIN: [i64; 3] = [0, 1, 2];

/// Different values, first what null slots of results hold.
const VALUES: [i64; 3] = [UNDER_NULL, 7, 0];

/// Every column of one view about each limit, of two about the values and of three within them; and
/// every two numbers of offsets and sizes.
fn short_views(checker: &mut Checker, _entry: Entry, rng: &mut Rng, _calls: u64) {
    for (letters, rows, counts) in
        [(&FAR[..], 0, 0..=3), (&FAR, 1, 0..=3), (&NEAR, 2, 0..=3), (&WITHIN, 3, 2..=2)]
    {
        for (offsets, sizes) in words(letters, 2 * rows)
            .iter()
            .map(|word| (word[..rows].to_vec(), word[rows..].to_vec()))
        {
            for count in counts.clone() {
                check_every_row_bitmap(checker, &offsets, &sizes, count, rng);
            }
        }
    }
    for (offsets, sizes) in (0..10).flat_map(|one| (0..10).map(move |other| (one, other))) {
        for bytes in 0..3 {
            let view = ViewColumn {
                offsets: vec![0; offsets],
                sizes: vec![0; sizes],
                rows: Bitmap::from_0(rng.bytes(bytes)),
                ..ViewColumn::default()
            };
            let number = match () {
                _ if bytes == 1 && offsets > 8 => 2,
                _ if offsets != sizes => 3,
                _ => 0,
            };
            check_answer(checker, &lend_view(&view, Room::Exact, rng), number);
        }
    }
}

fn check_every_row_bitmap(
    checker: &mut Checker,
    offsets: &[i64],
    sizes: &[i64],
    count: usize,
    rng: &mut Rng,
) {
    let rows = offsets.len();
    for bits in 0..=1u8 << rows {
        let bytes = if bits == 1 << rows { Vec::new() } else { vec![bits] };
        let view = ViewColumn {
            offsets: offsets.to_vec(),
            sizes: sizes.to_vec(),
            rows: Bitmap::from_0(bytes),
            values: VALUES[..count].to_vec(),
            elements: Bitmap::from_0(rng.pick(&[&[][..], &[5], &[0xfe], &[0]]).to_vec()),
        };
        let room = match checker.calls % 8 {
            0..=3 => Room::Exact,
            4..=6 => Room::Longer(2),
            _ => Room::Short(checker.calls as usize / 8 % 4, 1),
        };
        checker.check(&lend_view(&view, room, rng));
    }
}

// Sums.

/// Views of one long stretch whose sizes come to each number about the limits, with null rows over
/// much of it before them, behind them or not at all. No slice is long enough: 9, or 8 beyond the
/// most. Null rows alone are accepted.
fn every_sum(checker: &mut Checker, _entry: Entry, rng: &mut Rng, _calls: u64) {
    let limits = [2147483646, 2147483647, 2147483648, 4294967295, 4294967296, 4294967297];
    for sum in limits {
        for nulls in [[0, 0], [3, 0], [0, 9], [40_000, 0], [0, 40_000]] {
            let number = if sum > 2147483647 { 8 } else { 9 };
            check_sum(checker, sum, nulls, number, rng);
        }
    }
    for nulls in [[40_000, 0], [0, 40_000], [33_000, 33_000], [65_536, 1]] {
        check_sum(checker, 5, nulls, 0, rng);
    }
}

fn check_sum(checker: &mut Checker, sum: i64, nulls: [usize; 2], number: u32, rng: &mut Rng) {
    const STRETCH: i64 = 65_536;
    let mut sizes = vec![STRETCH; (sum / STRETCH) as usize];
    sizes.push(sum % STRETCH);
    shuffle(&mut sizes, rng);
    let mut valid = vec![true; sizes.len()];
    for (at, nulls) in nulls.into_iter().enumerate() {
        let place = at * sizes.len();
        sizes.splice(place..place, vec![STRETCH; nulls]);
        valid.splice(place..place, vec![false; nulls]);
    }
    let offset = |size: &i64| rng.between(0, STRETCH - size);
    let view = ViewColumn {
        offsets: sizes.iter().map(offset).collect(),
        sizes,
        rows: bitmap_of(&valid, rng.below(8), Layout::default(), rng),
        values: vec![7; STRETCH as usize],
        elements: Bitmap::default(),
    };
    let case = lend_view(&view, Room::Longer(1), rng);
    check_answer(checker, &case, number);
    // All values are alike, so that the same rows lie anywhere.
    let offset = |size: &i64| rng.between(0, STRETCH - size);
    let offsets = view.sizes.iter().map(offset).collect();
    let rows = bitmap_of(&valid, rng.below(8), Layout::default(), rng);
    check_answer(checker, &relent(&case, &ViewColumn { offsets, rows, ..view.clone() }), number);
    if number == 8 || number == 9 {
        // The same with outputs of no slots at all, and with a view outside the values at the end.
        let mut case = lend_view(&view, Room::Exact, rng);
        case.outputs.iter_mut().for_each(Vec::clear);
        check_answer(checker, &case, number);
        let mut outside = view;
        *outside.sizes.last_mut().expect("a row") = STRETCH + 1;
        check_answer(checker, &relent(&case, &outside), 11);
    }
}

// Large views.

/// A million rows over few values, long rows over each other, and values that are not shown; from
/// several bits, and refused for what lies at the far end.
fn large_views(checker: &mut Checker, _entry: Entry, rng: &mut Rng, _calls: u64) {
    let shape = RowShape { null_elements: 1, null_rows: 1, ..small_shape(rng) };
    for (count, longest, values) in
        [(1_000_000, 2, 5000), (14, 120_000, 150_000), (9, 3, 500_000), (70_000, 9, 70_000)]
    {
        let view = any_views(RowShape { count, longest, ..shape }, values, rng);
        check_answer(checker, &lend_view(&view, Room::Exact, rng), 0);
    }
    let view = any_views(RowShape { count: 66_003, longest: 3, ..shape }, 66_005, rng);
    let needed = needed_slots_of(&view);
    for slice in (0..4).filter(|slice| needed[*slice] > 0) {
        check_answer(checker, &lend_view(&view, Room::Short(slice, 1), rng), 9);
    }
    for damage in [
        ViewDamage::RowBitsOneBitShort,
        ViewDamage::ElementBitsOneBitShort,
        ViewDamage::SizesOneFewer,
        ViewDamage::SizesOneMore,
        ViewDamage::Outside(Outside::SumOneBeyond, true, 1),
        ViewDamage::Outside(Outside::SumOneBeyond, false, 1),
        ViewDamage::Outside(Outside::OffsetBelow, false, 1),
    ] {
        let mut view = view.clone();
        for at in 0..2 {
            let (bitmap, positions) = bitmap_at(&view, at);
            if bitmap.bytes.is_empty() {
                let bytes = rng.bytes(bitmap.needed(positions));
                bitmap_at_mut(&mut view, at).bytes = bytes;
            }
        }
        damage.apply(&mut view, rng);
        check_answer(checker, &lend_view(&view, Room::Longer(9), rng), damage.refusal());
    }
}

// Import and export, one after the other.

/// The list column that an accepted import wrote.
fn list_of(observed: &Observed) -> ListColumn {
    let [offsets, rows, values, elements] = &observed.written[..] else {
        panic!("import writes four slices");
    };
    ListColumn {
        offsets: crate::entry::decode_offsets(offsets, Width::Narrow),
        rows: Bitmap::from_0(rows.clone()),
        values: crate::entry::decode_i64(values),
        elements: Bitmap::from_0(elements.clone()),
    }
}

/// The ListView column that an accepted export wrote.
fn view_of(observed: &Observed) -> ViewColumn {
    let [offsets, sizes, rows, values, elements] = &observed.written[..] else {
        panic!("export writes five slices");
    };
    ViewColumn {
        offsets: crate::entry::decode_offsets(offsets, Width::Narrow),
        sizes: crate::entry::decode_offsets(sizes, Width::Narrow),
        rows: Bitmap::from_0(rows.clone()),
        values: crate::entry::decode_i64(values),
        elements: Bitmap::from_0(elements.clone()),
    }
}

fn export_of(list: ListColumn) -> Input {
    let (numbers, arguments) = (Vec::new(), Vec::new());
    Input { entry: Entry::EXPORT, numbers, lists: vec![list], arguments }
}

/// Import of any views, export of what it wrote and import of that: the first result once more.
fn there_and_back(checker: &mut Checker, _entry: Entry, rng: &mut Rng, _calls: u64) {
    for _ in 0..400 {
        let room = Room::Longer(rng.below(3));
        let first = checker.check(&lend_view(&random_view(rng), room, rng));
        if first.number != 0 {
            continue;
        }
        let exported = checker.check(&lend(&export_of(list_of(&first)), room, rng));
        if exported.number != 0 {
            continue;
        }
        let case = lend_view(&view_of(&exported), room, rng);
        let again = checker.check(&case);
        checker.require(again == first, &case, "import, export and import give another column");
    }
}

/// "Export then import gives the result form", of a list column in any layout.
fn back_and_there(checker: &mut Checker, _entry: Entry, rng: &mut Rng, _calls: u64) {
    for _ in 0..400 {
        let rows = random_rows(small_shape(rng), rng);
        let list = lay_out(&rows, random_layout(rng), rng);
        let room = Room::Longer(rng.below(3));
        let exported = checker.check(&lend(&export_of(list), room, rng));
        if exported.number != 0 {
            continue;
        }
        let case = lend_view(&view_of(&exported), room, rng);
        let imported = checker.check(&case);
        let form = Expected::accepted(&model::list_form(&rows), Width::Narrow);
        let is_form = imported.number == 0 && imported.written == form.written;
        checker.require(is_form, &case, "export and import do not give the result form");
    }
}

// Worked by hand.

/// Offsets, sizes, the bits of rows, values and the bits of elements; then the answer, and the four
/// slices of the result.
type WorkedImport = (
    (&'static [i64], &'static [i64], &'static [u8], &'static [i64], &'static [u8]),
    Result<(&'static [i32], &'static [u8], &'static [i64], &'static [u8]), u32>,
);

const N: i64 = UNDER_NULL;

const IMPORTS: &[WorkedImport] = &[
    ((&[], &[], &[], &[], &[]), Ok((&[0], &[], &[], &[]))),
    ((&[], &[], &[], &[7, 8], &[]), Ok((&[0], &[], &[], &[]))),
    ((&[0, 0, 2], &[2, 0, 0], &[5], &[1, 2], &[]), Ok((&[0, 2, 2, 2], &[5], &[1, 2], &[3]))),
    (
        (&[2, 0, 1], &[1, 2, 2], &[], &[1, 2, 3], &[]),
        Ok((&[0, 1, 3, 5], &[7], &[3, 1, 2, 2, 3], &[31])),
    ),
    (
        (&[0, 0, 0], &[3, 3, 3], &[5], &[1, 2, 3], &[6]),
        Ok((&[0, 3, 3, 6], &[5], &[N, 2, 3, N, 2, 3], &[54])),
    ),
    ((&[0], &[1], &[0], &[9], &[]), Ok((&[0, 0], &[0], &[], &[]))),
    ((&[3, 0], &[0, 0], &[], &[1, 2, 3], &[]), Ok((&[0, 0, 0], &[3], &[], &[]))),
    ((&[-1], &[1], &[], &[1, 2, 3], &[]), Err(11)),
    ((&[1], &[-1], &[], &[1, 2, 3], &[]), Err(11)),
    ((&[1], &[3], &[], &[1, 2, 3], &[]), Err(11)),
    ((&[4], &[0], &[], &[1, 2, 3], &[]), Err(11)),
    ((&[0], &[4], &[], &[1, 2, 3], &[]), Err(11)),
    ((&[0, -1], &[3, 1], &[1], &[1, 2, 3], &[]), Err(11)),
    ((&[0, 2], &[3, 2], &[1], &[1, 2, 3], &[]), Err(11)),
    ((&[2147483647], &[2147483647], &[], &[1], &[]), Err(11)),
    ((&[-2147483648], &[-2147483648], &[0], &[1], &[]), Err(11)),
    ((&[0; 9], &[], &[255], &[], &[]), Err(2)),
    ((&[0; 8], &[], &[255], &[], &[]), Err(3)),
    ((&[0; 8], &[0; 9], &[255], &[], &[]), Err(3)),
    ((&[9], &[], &[], &[1], &[]), Err(3)),
    ((&[9], &[9], &[], &[1, 2, 3, 4, 5, 6, 7, 8, 9], &[255]), Err(2)),
];

fn worked_imports(checker: &mut Checker, _entry: Entry, rng: &mut Rng, _calls: u64) {
    for ((offsets, sizes, rows, values, elements), wanted) in IMPORTS {
        let view = ViewColumn {
            offsets: offsets.to_vec(),
            sizes: sizes.to_vec(),
            rows: Bitmap::from_0(rows.to_vec()),
            values: values.to_vec(),
            elements: Bitmap::from_0(elements.to_vec()),
        };
        let case = lend_view(&view, Room::Longer(1), rng);
        let observed = checker.check(&case);
        let good = match wanted {
            Err(number) => observed.number == *number,
            Ok((offsets, rows, values, elements)) => {
                let offsets = crate::entry::encode_i32(offsets);
                let values = crate::entry::encode_i64(values);
                observed.number == 0
                    && observed.written == [offsets, rows.to_vec(), values, elements.to_vec()]
            }
        };
        checker.require(good, &case, "not as worked by hand");
    }
}

/// Offsets, the bits of rows, values and the bits of elements; then the five slices of the result.
type WorkedExport = (
    (&'static [i64], &'static [u8], &'static [i64], &'static [u8]),
    (&'static [i32], &'static [i32], &'static [u8], &'static [i64], &'static [u8]),
);

const EXPORTS: &[WorkedExport] = &[
    ((&[], &[], &[], &[]), (&[], &[], &[], &[], &[])),
    ((&[2], &[], &[1, 2, 3], &[]), (&[], &[], &[], &[], &[])),
    ((&[0, 2, 2, 2], &[5], &[1, 2], &[]), (&[0, 0, 2], &[2, 0, 0], &[5], &[1, 2], &[3])),
    (
        (&[1, 3, 5, 6], &[5], &[9, 1, 2, 8, 8, 4], &[59]),
        (&[0, 0, 2], &[2, 0, 1], &[5], &[1, N, 4], &[5]),
    ),
    ((&[0, 0, 1, 1], &[], &[6], &[]), (&[0, 0, 1], &[0, 1, 0], &[7], &[6], &[1])),
    ((&[0, 1, 2], &[0], &[6, 6], &[]), (&[0, 0], &[0, 0], &[0], &[], &[])),
];

fn worked_exports(checker: &mut Checker, _entry: Entry, rng: &mut Rng, _calls: u64) {
    for ((offsets, rows, values, elements), wanted) in EXPORTS {
        let list = ListColumn {
            offsets: offsets.to_vec(),
            rows: Bitmap::from_0(rows.to_vec()),
            values: values.to_vec(),
            elements: Bitmap::from_0(elements.to_vec()),
        };
        let case = lend(&export_of(list), Room::Exact, rng);
        let observed = checker.check(&case);
        let (offsets, sizes, rows, values, elements) = *wanted;
        let wanted = [
            crate::entry::encode_i32(offsets),
            crate::entry::encode_i32(sizes),
            rows.to_vec(),
            crate::entry::encode_i64(values),
            elements.to_vec(),
        ];
        let good = observed.number == 0 && observed.written == wanted;
        checker.require(good, &case, "not as worked by hand");
    }
}
