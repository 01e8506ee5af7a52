//! What the mock says about how much to lend: for an operation what the plain Rust says, for a recipe
//! limits of its own, each right or wrong in one way.

use crate::defects::{defect, is};
use crate::model::Width;
use crate::numbers::Number;
use crate::plain::{self, Offset};
use crate::typed::{Lending, List, Recipe, Values};

/// Those of one width.
pub const fn lending<O: Offset + Number>() -> Lending<O> {
    Lending { list, lists, any_value, element, list_repeat, limits }
}

fn plain<O: Offset + Number>() -> Lending<O> {
    plain::typed().lending
}

fn is_valid(bits: &[u8], place: usize) -> bool {
    bits.is_empty() || bits[place / 8] >> (place % 8) & 1 == 1
}

fn row_count<O>(list: &List<O>) -> usize {
    list.offsets.len().saturating_sub(1)
}

fn row_is_valid<O>(list: &List<O>, row: usize) -> bool {
    is_valid(list.rows, list.rows_start + row)
}

fn length<O: Offset>(list: &List<O>, row: usize) -> u128 {
    (list.offsets[row + 1].number() - list.offsets[row].number()) as u128
}

/// The values under null rows, wrongly among the elements.
fn hidden<O: Offset>(list: &List<O>) -> u64 {
    let null = (0..row_count(list)).filter(|row| !row_is_valid(list, *row));
    null.map(|row| length(list, row) as u64).sum()
}

// Operations.

fn list<O: Offset + Number>(
    op: u32,
    list: List<O>,
    arguments: [Values; 3],
    lengths: &mut [u64],
) -> u32 {
    let op = match (op, defect()) {
        (12, "lending-code-12-served") | (9 | 10, "lending-set-codes-served-by-list") => 0,
        (2, "lending-pop-front-keeps-all") => 0,
        _ => op,
    };
    answer(&list, lengths, 4, |lengths| (plain().list)(op, list, arguments, lengths))
}

fn lists<O: Offset + Number>(op: u32, lists: [List<O>; 2], lengths: &mut [u64]) -> u32 {
    let op = if is("lending-list-codes-served-by-lists") && op < 9 { 9 } else { op };
    answer(&lists[0], lengths, 4, |lengths| (plain().lists)(op, lists, lengths))
}

fn any_value<O: Offset + Number>(list: List<O>, lengths: &mut [u64]) -> u32 {
    answer(&list, lengths, 2, |lengths| (plain().any_value)(list, lengths))
}

fn element<O: Offset + Number>(list: List<O>, indexes: Values, lengths: &mut [u64]) -> u32 {
    answer(&list, lengths, 2, |lengths| (plain().element)(list, indexes, lengths))
}

fn list_repeat<O: Offset + Number>(list: List<O>, times: Values, lengths: &mut [u64]) -> u32 {
    answer(&list, lengths, 6, |lengths| (plain().list_repeat)(list, times, lengths))
}

/// The answer with this many places needed, right or wrong.
fn answer<O: Offset>(
    list: &List<O>,
    lengths: &mut [u64],
    needed: usize,
    ask: impl Fn(&mut [u64]) -> u32,
) -> u32 {
    let mut own = [0; 6];
    let number = spoilt_number(ask(&mut own[..needed]));
    let short = match defect() {
        "lending-one-place-fewer-accepted" => lengths.len() + 1 < needed,
        "lending-exact-places-refused" => lengths.len() <= needed,
        _ => lengths.len() < needed,
    };
    let is_late = is("lending-100-after-refusals") && number != 0;
    let number = if short && !is_late { 100 } else { number };
    if number != 0 {
        return refused(number, lengths);
    }
    spoil_lengths(list, &mut own[..needed]);
    spoil_large(O::LARGEST > 2147483647, &mut own[..needed]);
    give(&own[..needed], lengths);
    0
}

/// Lengths of large lists that are cut to 32 bits.
fn spoil_large(wide: bool, own: &mut [u64]) {
    if wide && is("large-lengths-cut-to-32-bits") {
        own.iter_mut().for_each(|length| *length &= 0xffff_ffff);
    }
}

fn spoilt_number(number: u32) -> u32 {
    match (number, defect()) {
        (4..=8, "lending-row-refusals-not-given") => 0,
        (13, "lending-13-not-given") => 0,
        (3, "lending-3-not-given") => 0,
        (0, "lending-9-given") => 9,
        _ => number,
    }
}

fn refused(number: u32, lengths: &mut [u64]) -> u32 {
    let grown = match defect() {
        "lengths-written-on-a-refusal" => number != 100,
        "lengths-written-on-100" => number == 100,
        "lengths-cleared-on-a-refusal" => {
            lengths.fill(0);
            false
        }
        _ => false,
    };
    if let (true, Some(first)) = (grown, lengths.first_mut()) {
        *first = first.wrapping_add(1);
    }
    number
}

fn give(own: &[u64], lengths: &mut [u64]) {
    let places = own.len().min(lengths.len());
    lengths[..places].copy_from_slice(&own[..places]);
    match defect() {
        "lengths-written-past" => lengths[places..].fill(0),
        "last-length-not-written" => lengths[places - 1] ^= 1 << 40,
        _ => (),
    }
}

fn spoil_lengths<O: Offset>(list: &List<O>, own: &mut [u64]) {
    let values = if own.len() == 2 { 0 } else { own.len() - 2 };
    let bits = |slots: u64| slots.div_ceil(8);
    match defect() {
        "lengths-null-row-values-counted" if own.len() > 2 => {
            own[values] += hidden(list);
            own[values + 1] = bits(own[values]);
        }
        "lengths-one-offset-too-few" if own.len() > 2 => own[0] -= 1,
        "lengths-one-inner-offset-too-few" if own.len() == 6 => own[2] -= 1,
        "lengths-no-offset-for-no-rows" if own.len() > 2 && own[0] == 1 => own[0] = 0,
        "lengths-bitmap-rounded-down" => own[values + 1] = own[values] / 8,
        "lengths-bitmap-one-more" => own[values + 1] = own[values] / 8 + 1,
        "lengths-row-bitmap-rounded-down" if own.len() > 2 => own[1] = (own[0] - 1) / 8,
        "lengths-of-the-input" if own.len() == 4 => {
            let rows = 0..row_count(list);
            let shown = rows.filter(|row| row_is_valid(list, *row)).map(|row| length(list, row));
            own[2] = own[2].max(shown.sum::<u128>() as u64);
            own[3] = bits(own[2]);
        }
        "lengths-values-one-more" => own[values] += 1,
        _ => (),
    }
}

// Recipes.

struct Limits<'a, O> {
    lists: [List<'a, O>; 2],
    arguments: Values<'a>,
    /// Whether each row is still valid, for the wrong versions that look at what is carried.
    carried: Vec<bool>,
    limit: u128,
}

/// A limit stops here.
fn cap<O: Offset>() -> u128 {
    let wide = O::LARGEST > 2147483647;
    match defect() {
        "limits-cap-one-more" => u128::from(O::LARGEST) + 1,
        "large-limits-stop-at-2147483647" => 2147483647,
        "large-limits-stop-as-resize" if wide => Width::Wide.most_elements(),
        "large-limits-stop-at-2-to-the-64" if wide => u128::from(u64::MAX),
        _ => u128::from(O::LARGEST),
    }
}

impl<O: Offset> Limits<'_, O> {
    /// The elements of a list's rows, of those that are counted.
    fn elements(&self, list: usize, counted: impl Fn(usize) -> bool) -> u128 {
        let list = &self.lists[list];
        let all = is("limits-null-row-values-counted");
        let rows = (0..row_count(list)).filter(|row| row_is_valid(list, *row) || all);
        rows.filter(|row| counted(*row)).map(|row| length(list, row)).sum()
    }

    fn argument(&self, column: u32, row: usize) -> (i64, bool) {
        let place = column as usize * row_count(&self.lists[0]) + row;
        let Values { values, bits, start } = self.arguments;
        (values[place], is_valid(bits, start + place))
    }

    fn resized(&self, column: u32) -> u128 {
        let mut sum: u128 = 0;
        for row in 0..row_count(&self.lists[0]) {
            let counted = match defect() {
                "limits-by-the-carried-rows" => self.carried[row],
                "limits-resize-over-all-rows" => true,
                "limits-resize-over-the-second-list" => row_is_valid(&self.lists[1], row),
                _ => row_is_valid(&self.lists[0], row),
            };
            let (count, valid) = self.argument(column, row);
            if !counted || !valid && !is("limits-null-counts-summed") {
                continue;
            }
            let count = match defect() {
                "limits-negative-counts-as-sizes" => u128::from(count.unsigned_abs()),
                "limits-negative-counts-as-unsigned" => u128::from(count as u64),
                _ => count.max(0) as u128,
            };
            sum += count;
            if is("limits-sum-wraps-at-64-bits") {
                sum = u128::from(sum as u64);
            } else if is("limits-sum-wraps-at-32-bits") {
                sum = u128::from(sum as u32);
            }
        }
        sum
    }

    /// The limit after a step.
    fn step(&mut self, step: &[u32]) {
        let came_in = self.limit;
        self.limit = match step[0] {
            6 if is("limits-resize-adds") => came_in + self.resized(step[1]),
            6 if is("limits-resize-takes-the-greater") => came_in.max(self.resized(step[1])),
            6 => self.resized(step[if is("limits-resize-by-the-fill") { 2 } else { 1 }]),
            9 if is("limits-union-keeps") => came_in,
            9 if is("limits-union-adds-the-first") => came_in + self.elements(0, |_| true),
            9 if is("limits-union-of-common-rows") => {
                came_in + self.elements(1, |row| row_is_valid(&self.lists[0], row))
            }
            9 => came_in + self.elements(1, |_| true),
            10 if is("limits-intersect-by-the-second") => came_in.min(self.elements(1, |_| true)),
            2 | 3 if is("limits-pops-counted") => came_in.saturating_sub(1),
            1 if is("limits-by-levels") => came_in.min(self.distinct_levels()),
            _ => came_in,
        };
        if !is("limits-cap-left-out") {
            self.limit = self.limit.min(cap::<O>());
        }
        self.carry(step);
    }

    fn distinct_levels(&self) -> u128 {
        let mut levels = self.lists[0].values.to_vec();
        levels.sort();
        levels.dedup();
        (levels.len() * row_count(&self.lists[0])) as u128
    }

    /// Rows that become null by a null argument, or by a null row of the second list.
    fn carry(&mut self, step: &[u32]) {
        let taken: &[usize] = match step[0] {
            4 => &[1, 2, 3],
            5 | 8 => &[1, 2],
            6 => &[1],
            7 => &[3],
            _ => &[],
        };
        for row in 0..row_count(&self.lists[0]) {
            let arguments = taken.iter().all(|at| self.argument(step[*at], row).1);
            let second = step[0] < 9 || row_is_valid(&self.lists[1], row);
            self.carried[row] &= arguments && second;
        }
    }
}

fn limits<O: Offset + Number>(recipe: Recipe<O>, given: &mut [u64]) -> u32 {
    let mut right = [0; 3];
    let mut number = (plain().limits)(recipe, &mut right);
    number = match (number, defect()) {
        (0, "limits-15-given") if recipe.station > 15 => 15,
        (10, "limits-13-before-10") if recipe.arguments.start > 7 => 13,
        (0, "limits-7-given") if recipe.numbers.first() == Some(&6) => refusal_7(&recipe),
        _ => spoilt_number(number),
    };
    let short = match defect() {
        "lending-one-place-fewer-accepted" => given.len() < 2,
        "lending-exact-places-refused" => given.len() < 4,
        "limits-four-places-needed" => given.len() < 4,
        _ => given.len() < 3,
    };
    let is_late = is("lending-100-after-refusals") && number != 0;
    if short && !is_late {
        number = 100;
    }
    if number != 0 {
        return refused(number, given);
    }
    let limits = own_limits(&recipe).unwrap_or(right);
    give(&limits, given);
    0
}

/// 7 where the first step's first count is negative.
fn refusal_7<O>(recipe: &Recipe<O>) -> u32 {
    let rows = row_count(&recipe.lists[0]);
    let at = recipe.numbers[1] as usize * rows;
    match recipe.arguments.values.get(at) {
        Some(..=-1) if rows > 0 => 7,
        _ => 0,
    }
}

/// The mock's own limits; none where the columns are not such as have any, and yet not refused.
fn own_limits<O: Offset + Number>(recipe: &Recipe<O>) -> Option<[u64; 3]> {
    let mut right = [0; 3];
    if (plain().limits)(*recipe, &mut right) != 0 {
        return None;
    }
    let first = recipe.lists[0];
    let carried = (0..row_count(&first)).map(|row| row_is_valid(&first, row)).collect();
    let (lists, arguments) = (recipe.lists, recipe.arguments);
    let mut limits = Limits { lists, arguments, carried, limit: 0 };
    limits.limit = limits.elements(0, |_| true);
    let steps = recipe.numbers.len() / 4;
    let mut given = [0; 3];
    if is("limits-unwritten-trays-as-the-input") {
        given = [limits.limit; 3];
    }
    if steps == 0 && !is("limits-of-no-steps-0") {
        given[2] = limits.limit;
    }
    for (at, step) in recipe.numbers.chunks_exact(4).enumerate() {
        limits.step(step);
        let place = match defect() {
            "limits-last-step-in-a-tray" => at % 2,
            "limits-trays-exchanged" if at + 1 < steps => 1 - at % 2,
            _ if at + 1 == steps => 2,
            _ => at % 2,
        };
        given[place] = match defect() {
            "limits-of-a-trays-last-step" => limits.limit,
            _ if at < 2 || place == 2 => limits.limit,
            _ => limits.limit.max(given[place]),
        };
    }
    match defect() {
        "limits-last-step-for-the-trays" => {
            given = [steps > 1, steps > 2, true].map(|written| u128::from(written) * given[2]);
        }
        "limits-greatest-for-all" => given = [given.into_iter().max().unwrap_or(0); 3],
        _ => (),
    }
    Some(given.map(|limit| limit as u64))
}
