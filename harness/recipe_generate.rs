//! Makes recipes: steps that carry rows on, steps that are refused, argument columns that several
//! steps share, and trays and outputs as long as they need, longer, or one slot short.

use crate::entry::{Case, Entry, Input, Kind, SliceKind, MOST_VALUES, TALLY, TALLY_BYTES};
use crate::generate::{columns_within, full_columns, lay_out, lay_out_argument};
use crate::generate::{random_element, random_lists, refuse_row, room_for, shuffle};
use crate::generate::{Layout, Left, Room, RowShape, MOST_BITMAP_BYTES};
use crate::model::{self, Element, Made, Operation, RecipeShown, Row, Shown, Tally};
use crate::model::{Width, CODES, STATIONS};
use crate::rng::Rng;
use crate::windows::{self, Window};

// Steps.

/// A recipe while it is made. Columns are used in a random order, and so their numbers say nothing
/// about the steps.
pub struct Draft {
    shown: RecipeShown,
    carried: Vec<Row>,
    /// The columns that no step uses yet, and how many of them are kept for a step that is refused.
    free: Vec<usize>,
    kept: usize,
    null_eighths: usize,
    /// The most elements that a step may make.
    pub most: usize,
    /// Columns that would make one of the steps refused, by their numbers.
    refused: Vec<(usize, Vec<Element>)>,
}

fn elements_in(rows: &[Row]) -> usize {
    rows.iter().flatten().map(Vec::len).sum()
}

/// The number of a code's operation.
pub fn code_of(operation: Operation) -> u32 {
    CODES.iter().position(|one| *one == operation).expect("an operation of recipes") as u32
}

impl Draft {
    /// No steps yet, over lists of this shape; every other recipe has few nulls, so that rows stay
    /// valid through many steps.
    pub fn new(width: Width, shape: RowShape, columns: usize, rng: &mut Rng) -> Draft {
        let mut lists = random_lists(Entry::of(Operation::Union, width), shape, rng);
        let lively = rng.chance(1, 2);
        let (mut second, first) = (lists.pop().expect("two lists"), lists.pop().expect("two"));
        if lively {
            second.iter_mut().for_each(|row| *row = row.take().or(Some(vec![Some(1)])));
        }
        let null_eighths = if lively { 0 } else { rng.pick(&[0, 1, 4]) };
        Draft::over(width, [first, second], columns, null_eighths, rng)
    }

    /// No steps yet, over these lists.
    pub fn over(
        width: Width,
        lists: [Vec<Row>; 2],
        columns: usize,
        null_eighths: usize,
        rng: &mut Rng,
    ) -> Draft {
        let mut free: Vec<usize> = (0..columns).collect();
        shuffle(&mut free, rng);
        let carried = lists[0].clone();
        let columns = vec![vec![None; carried.len()]; columns];
        let shown = RecipeShown { width, steps: Vec::new(), lists, columns };
        let (kept, most) = (0, MOST_VALUES);
        Draft { shown, carried, free, kept, null_eighths, most, refused: Vec::new() }
    }

    /// The lists that an operation takes.
    fn lists_of(&self, operation: Operation) -> Vec<Vec<Row>> {
        let mut lists = vec![self.carried.clone()];
        if matches!(operation, Operation::Union | Operation::Intersect) {
            lists.push(self.shown.lists[1].clone());
        }
        lists
    }

    /// Adds a step that is not refused, with new columns or such as other steps use. False where
    /// there are too few columns or the result is too large, and mostly where no element is left.
    fn add(&mut self, operation: Operation, rng: &mut Rng) -> bool {
        let lists = self.lists_of(operation);
        let left = Left { inner_rows: 0, elements: self.most as u64 };
        let entry = Entry::of(operation, self.shown.width);
        let columns = columns_within(entry, &lists, self.null_eighths, left, rng);
        let used: Vec<usize> =
            (0..self.shown.columns.len()).filter(|at| !self.free.contains(at)).collect();
        let mut step = [code_of(operation), 0, 0, 0];
        let mut taken = 0;
        for (place, column) in columns.into_iter().enumerate() {
            let is_left = taken + self.kept < self.free.len();
            let number = if is_left && (used.is_empty() || !rng.chance(1, 3)) {
                taken += 1;
                self.shown.columns[self.free[taken - 1]] = column;
                self.free[taken - 1]
            } else if used.is_empty() {
                return false;
            } else {
                rng.pick(&used)
            };
            step[place + 1] = number as u32;
        }
        let Ok(Made::Lists(rows)) = model::step_made(&self.shown, &step, &self.carried) else {
            return false;
        };
        let (before, after) = (elements_in(&self.carried), elements_in(&rows));
        if after > self.most || before > 0 && after == 0 && !rng.chance(1, 16) {
            return false;
        }
        self.free.drain(..taken);
        self.shown.steps.push(step);
        self.carried = rows;
        true
    }

    /// Adds some step that is not refused; one that makes rows longer where they have become short.
    pub fn add_some(&mut self, rng: &mut Rng) {
        for _ in 0..8 {
            let short = elements_in(&self.carried) < self.carried.len();
            let operation = if short && rng.chance(1, 2) {
                rng.pick(&[Operation::Resize, Operation::Union])
            } else {
                rng.pick(&CODES)
            };
            if self.add(operation, rng) {
                return;
            }
        }
        self.add(Operation::Reverse, rng);
    }

    /// Adds a step that is not refused, and remembers columns with which it would be, with this
    /// number; false where it cannot be. Of a slice a later row may be refused besides, with any
    /// number, for the first one decides.
    pub fn add_refusable(&mut self, number: u32, rng: &mut Rng) -> bool {
        let operation = match number {
            4 => rng.pick(&[Operation::Slice, Operation::SliceWithoutStride]),
            5 | 6 => Operation::Slice,
            _ => Operation::Resize,
        };
        let is_full = |row: &usize| self.carried[*row].as_ref().is_some_and(|row| !row.is_empty());
        let rows: Vec<usize> = (0..self.carried.len()).filter(is_full).collect();
        if rows.is_empty() || self.free.len() < operation.roles().len() {
            return false;
        }
        let lists = self.lists_of(operation);
        let entry = Entry::of(operation, self.shown.width);
        let accepted = full_columns(entry, &lists, self.null_eighths, rng);
        let mut shown = Shown { lists, arguments: accepted.clone() };
        let row = rng.pick(&rows);
        if !refuse_row(entry, &mut shown, row, number, rng) {
            return false;
        }
        let later: Vec<usize> = rows.into_iter().filter(|other| *other > row).collect();
        if number <= 6 && !later.is_empty() && rng.chance(1, 2) {
            let other = rng.pick(entry.refusals());
            refuse_row(entry, &mut shown, rng.pick(&later), other, rng);
        }
        let mut step = [code_of(operation), 0, 0, 0];
        let numbers: Vec<usize> = self.free.drain(..accepted.len()).collect();
        for ((place, number), column) in numbers.iter().enumerate().zip(accepted) {
            step[place + 1] = *number as u32;
            self.shown.columns[*number] = column;
        }
        let Ok(Made::Lists(rows)) = model::step_made(&self.shown, &step, &self.carried) else {
            return false;
        };
        self.refused = numbers.into_iter().zip(shown.arguments).collect();
        self.shown.steps.push(step);
        self.carried = rows;
        true
    }

    /// Adds a step whatever it comes to, with columns that there are.
    pub fn add_any(&mut self, rng: &mut Rng) {
        let columns = self.shown.columns.len();
        let fits = |operation: &Operation| columns > 0 || operation.roles().is_empty();
        let codes: Vec<Operation> = CODES.into_iter().filter(fits).collect();
        let operation = rng.pick(&codes);
        let mut step = [code_of(operation), 0, 0, 0];
        for number in &mut step[1..1 + operation.roles().len()] {
            *number = rng.below(columns) as u32;
        }
        self.shown.steps.push(step);
    }

    /// The recipe with something in the columns that no step uses.
    pub fn finish(mut self, rng: &mut Rng) -> Finished {
        for number in self.free {
            for element in &mut self.shown.columns[number] {
                *element = random_element(1, rng);
            }
        }
        let mut refused = self.shown.clone();
        for (number, column) in self.refused {
            refused.columns[number] = column;
        }
        Finished { accepted: self.shown, refused }
    }
}

/// A recipe, and the same with columns that make one of its steps refused, if there is one.
pub struct Finished {
    pub accepted: RecipeShown,
    pub refused: RecipeShown,
}

/// A recipe of this many steps, none of them refused.
pub fn accepted_recipe(width: Width, shape: RowShape, steps: usize, rng: &mut Rng) -> RecipeShown {
    let columns = rng.pick(&[0, 1, 2, 3, 5, 8, 8]);
    let mut draft = Draft::new(width, shape, columns, rng);
    for _ in 0..steps {
        draft.add_some(rng);
    }
    draft.finish(rng).accepted
}

/// The refusals that a step can be made to give before 9.
pub fn refusals_of_steps(width: Width) -> &'static [u32] {
    match width {
        Width::Narrow => &[4, 5, 6, 7, 8],
        Width::Wide => &[5, 7, 8],
    }
}

/// A recipe one of whose steps is refused with this number, with steps behind it; None where no row
/// is left that could be refused.
pub fn refused_recipe(
    width: Width,
    shape: RowShape,
    before: usize,
    number: u32,
    behind: usize,
    rng: &mut Rng,
) -> Option<RecipeShown> {
    let mut draft = Draft::new(width, shape, 3 + rng.below(6), rng);
    draft.kept = 3;
    for _ in 0..before {
        draft.add_some(rng);
    }
    if !draft.add_refusable(number, rng) {
        return None;
    }
    for _ in 0..behind {
        draft.add_any(rng);
    }
    Some(draft.finish(rng).refused)
}

/// How many steps a random recipe has: any number, and few more often.
pub fn random_steps(rng: &mut Rng) -> usize {
    match rng.below(4) {
        0 => rng.below(33),
        1 => rng.below(9),
        _ => rng.below(5),
    }
}

/// A random recipe: none of its steps is refused, or one, or any.
pub fn random_recipe(width: Width, shape: RowShape, rng: &mut Rng) -> RecipeShown {
    let steps = random_steps(rng);
    let of_any_steps = |rng: &mut Rng| {
        let mut draft = Draft::new(width, shape, rng.below(9), rng);
        (0..steps).for_each(|_| draft.add_any(rng));
        draft.finish(rng).accepted
    };
    match rng.below(8) {
        0 | 1 if steps > 0 => {
            let (before, number) = (rng.below(steps), rng.pick(refusals_of_steps(width)));
            let refused = refused_recipe(width, shape, before, number, steps - before - 1, rng);
            refused.unwrap_or_else(|| of_any_steps(rng))
        }
        2 => of_any_steps(rng),
        _ => accepted_recipe(width, shape, steps, rng),
    }
}

// Calls.

pub fn random_station(rng: &mut Rng) -> u32 {
    rng.below(STATIONS) as u32
}

/// A station that there is not: the next ones, or such as a part of whose bits names one.
pub fn no_station(rng: &mut Rng) -> u32 {
    let part = 1 << (4 + rng.below(28));
    let far = part | random_station(rng);
    rng.pick(&[16, 16, 17, far, u32::MAX])
}

/// What the call of a recipe shows, malformed or not, of equal row counts or not: its station, its
/// numbers, how many argument columns it has, what both lists show, and the values in the one slice
/// of its argument columns.
pub struct RecipeCall {
    pub width: Width,
    pub station: u32,
    pub numbers: Vec<u32>,
    pub columns: usize,
    pub lists: [Vec<Row>; 2],
    pub arguments: Vec<Element>,
}

impl RecipeCall {
    /// The call for some station.
    pub fn new(shown: &RecipeShown, rng: &mut Rng) -> RecipeCall {
        RecipeCall {
            width: shown.width,
            station: random_station(rng),
            numbers: shown.steps.concat(),
            columns: shown.columns.len(),
            lists: shown.lists.clone(),
            arguments: shown.columns.concat(),
        }
    }

    /// The values that the argument columns should have.
    pub fn wanted_values(&self) -> u64 {
        self.columns as u64 * self.lists[0].len() as u64
    }

    /// The columns of the call; the layouts are used in turn.
    pub fn laid_out(&self, layouts: &[Layout], rng: &mut Rng) -> Input {
        let mut turns = layouts.iter().copied().cycle();
        let mut next = || turns.next().expect("at least one layout");
        let lists = self.lists.iter().map(|rows| lay_out(rows, next(), rng)).collect();
        Input {
            entry: Kind::Recipe { station: self.station, columns: self.columns }.at(self.width),
            numbers: self.numbers.clone(),
            lists,
            arguments: vec![lay_out_argument(&self.arguments, next(), rng)],
        }
    }
}

/// The columns of a recipe's call; the layouts are used in turn.
pub fn recipe_input(shown: &RecipeShown, layouts: &[Layout], rng: &mut Rng) -> Input {
    RecipeCall::new(shown, rng).laid_out(layouts, rng)
}

/// Rows of so many: all, none, the first, the last, or any.
pub fn random_window(rows: usize, rng: &mut Rng) -> Window {
    let (one, other) = (rng.below(rows + 1), rng.below(rows + 1));
    let (begin, end) = match rng.below(8) {
        0 => (0, rows),
        1 => (one, one),
        2 => (0, one),
        3 => (one, rows),
        _ => (one.min(other), one.max(other)),
    };
    Window { begin, end }
}

/// The same call over some of its rows.
pub fn over_rows(input: &Input, window: Window) -> Input {
    let entry = Kind::RecipeRows { window, columns: input.entry.columns() }.at(Width::Narrow);
    Input { entry, ..input.clone() }
}

/// The slots that the steps take in tray one, tray two and the output, up to one that is refused;
/// where the steps are not reached, slots that would be enough for a copy.
pub fn recipe_slots(input: &Input) -> Vec<usize> {
    recipe_slots_within(input, MOST_VALUES)
}

/// The same, with no more than this many values in any place.
fn recipe_slots_within(input: &Input, most: usize) -> Vec<usize> {
    let Some(shown) = shown_to_steps(input) else {
        let list = &input.lists[0];
        let rows = list.row_count() as u64;
        let copy = input.entry.written_slots(&[rows, list.values.len() as u64, 0, 0]);
        return [copy.clone(), copy.clone(), copy].concat();
    };
    let mut needed = [[0; 4]; 3];
    // A refusal leaves what the steps before it took.
    let _ = model::carry(&shown, |place, slots| {
        let fits = slots[2] <= most as u64;
        if fits {
            let before = needed[place as usize].iter_mut();
            before.zip(slots).for_each(|(before, slots)| *before = (*before).max(*slots as usize));
        }
        fits
    });
    needed.concat()
}

/// What the steps see, if they are reached.
fn shown_to_steps(input: &Input) -> Option<RecipeShown> {
    if let Some((recipe, window)) = input.recipe_of_rows() {
        let refused = windows::refusal_before_steps(&recipe, window).is_some();
        return (!refused).then(|| windows::shown(&recipe, window));
    }
    let recipe = input.recipe().expect("the call of a recipe");
    let refused = model::refusal_before_steps(&recipe).is_some();
    (!refused).then(|| model::recipe_shown(&recipe))
}

/// Counts at, near and far from the places where one more carries, or cannot be.
pub fn random_count(rng: &mut Rng) -> u64 {
    let carries = [0, 255, 65535, 4294967295, i64::MAX as u64, u64::MAX - 1, u64::MAX, u64::MAX];
    if rng.chance(1, 2) {
        rng.pick(&carries)
    } else {
        rng.next()
    }
}

pub fn tally_bytes(tally: Tally) -> Vec<u8> {
    tally.iter().flat_map(|count| count.to_le_bytes()).collect()
}

fn random_tally(rng: &mut Rng) -> Vec<u8> {
    let mut tally = tally_bytes(std::array::from_fn(|_| random_count(rng)));
    let more = rng.pick(&[0, 0, 1, 8, 9]);
    tally.extend(rng.bytes(more));
    assert!(tally.len() >= TALLY_BYTES, "a tally that is long enough");
    tally
}

/// The call of a recipe, over all its rows or some, with trays and outputs of the given room that
/// hold random bytes, or now and then only zeros. Of any room, one slice is short in an eighth of the calls.
pub fn lend_recipe(input: &Input, room: Room, rng: &mut Rng) -> Case {
    lend_recipe_within(input, room, |kind| kind.most.unwrap_or(MOST_BITMAP_BYTES), rng)
}

/// The same, with no more than so many slots in each slice.
pub fn lend_recipe_within(
    input: &Input,
    room: Room,
    most: impl Fn(&SliceKind) -> usize,
    rng: &mut Rng,
) -> Case {
    let needed = recipe_slots_within(input, most(&input.entry.outputs()[2]));
    let written: Vec<usize> = (0..needed.len()).filter(|slice| needed[*slice] > 0).collect();
    let is_short = room == Room::Any && rng.chance(1, 8) && !written.is_empty();
    let short = is_short.then(|| rng.pick(&written));
    let clean = rng.chance(1, 16);
    let mut outputs = Vec::new();
    for (slice, kind) in input.entry.outputs()[..TALLY].iter().enumerate() {
        let needed = needed[slice];
        let slots = match room {
            Room::Any if short == Some(slice) => needed - 1,
            Room::Any => needed + rng.pick(&[0, 0, 1, 5]),
            _ => room_for(needed, slice, room, rng),
        };
        let bytes = slots.min(most(kind)) * kind.width;
        outputs.push(if clean { vec![0; bytes] } else { rng.bytes(bytes) });
    }
    if input.entry.is_recipe() {
        outputs.push(random_tally(rng));
    }
    let more_counts = rng.pick(&[0, 0, 1, 8, 9]);
    let counts = rng.bytes(input.entry.count_bytes() + more_counts);
    Case::new(input, outputs, counts)
}
