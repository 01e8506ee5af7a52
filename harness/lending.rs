//! How much to lend: an own reading of Note 1. The lengths of an operation are those of the slices
//! of its result form, which the model makes; the limits of a recipe are worked out from what its
//! columns show, step by step, with sums in 128 bits.

use crate::entry::{Case, Entry, NOT_SERVED};
use crate::model::{self, ArgumentColumn, Element, ListColumn, Made, Operation, Recipe};
use crate::model::{RecipeShown, Refusal, Row, Slots, Width, CODES};

/// The places that the lengths of an entry take: one a result slice; of a recipe, tray one, tray two
/// and the output.
pub fn places(entry: Entry) -> usize {
    if entry.is_recipe() {
        3
    } else {
        entry.results().len()
    }
}

/// What a typed call that asks must answer: 100 before all else for a code that is not served and
/// for too few places, which the case holds as its counts.
pub fn expected(case: &Case) -> Result<Vec<u64>, Refusal> {
    if case.counts.len() / 8 < places(case.entry) {
        return Err(NOT_SERVED);
    }
    let input = case.decode();
    if let Some(recipe) = input.recipe() {
        return limits(&recipe).map(|limits| limits.to_vec());
    }
    let operation = case.entry.typed_operation().ok_or(NOT_SERVED)?;
    let taken = &input.arguments[..operation.roles().len()];
    lengths(case.entry.width, operation, &input.lists, taken)
}

/// "The exact slice lengths each operation needs, with the refusals it would give before 9."
pub fn lengths(
    width: Width,
    operation: Operation,
    lists: &[ListColumn],
    arguments: &[ArgumentColumn],
) -> Result<Vec<u64>, Refusal> {
    match model::rows_made(width, operation, lists, arguments)? {
        Made::TooLong(slots) => Ok(slots),
        made => Ok(model::result_form(&made).slices.iter().map(slots_in).collect()),
    }
}

fn slots_in(slice: &Slots) -> u64 {
    match slice {
        Slots::Offsets(offsets) => offsets.len() as u64,
        Slots::Bits(bytes) => bytes.len() as u64,
        Slots::Values(values) => values.len() as u64,
    }
}

/// "The limits give 10, 1, 2 or 3 as the run would", and 13 between; no station is named.
pub fn limits(recipe: &Recipe) -> Result<[u64; 3], Refusal> {
    match model::refusal_before_steps(&Recipe { station: 0, ..*recipe }) {
        Some(number) => Err(number),
        None => Ok(limits_of(&model::recipe_shown(recipe))),
    }
}

fn shown_elements(rows: &[Row]) -> u128 {
    rows.iter().map(|row| row.as_ref().map_or(0, |row| row.len() as u128)).sum()
}

/// "Resize by the sum of its valid counts above zero over rows valid in the first list."
fn resized(first: &[Row], counts: &[Element]) -> u128 {
    let mut sum = 0;
    for (row, count) in first.iter().zip(counts) {
        if let (Some(_), Some(count @ 1..)) = (row, count) {
            sum += *count as u128;
        }
    }
    sum
}

/// "Union by adding the second list's shown elements, other steps by what came in; a limit stops at
/// the largest offset." Of each place, the greatest of the steps that write it.
fn limits_of(shown: &RecipeShown) -> [u64; 3] {
    let [first, second] = &shown.lists;
    let stop = |limit: u128| limit.min(shown.width.largest_offset() as u128);
    let mut limit = stop(shown_elements(first));
    let mut limits = [0, 0, 0];
    if shown.steps.is_empty() {
        limits[2] = limit as u64;
    }
    for (at, step) in shown.steps.iter().enumerate() {
        limit = stop(match CODES[step[0] as usize] {
            Operation::Resize => resized(first, &shown.columns[step[1] as usize]),
            Operation::Union => limit + shown_elements(second),
            _ => limit,
        });
        let place = if at + 1 == shown.steps.len() { 2 } else { at % 2 };
        limits[place] = limits[place].max(limit as u64);
    }
    limits
}

/// The slots of each slice of tray one, tray two and the output by these limits, "with offsets and
/// bitmaps to match"; none in a tray that no step writes.
pub fn slots_by_limits(rows: usize, steps: usize, limits: [u64; 3]) -> Vec<usize> {
    let is_written = [steps > 1, steps > 2, true];
    let slots = |(limit, is_written): (u64, bool)| match is_written {
        false => [0; 4],
        true => {
            let limit = limit as usize;
            [rows + 1, model::bitmap_bytes(rows), limit, model::bitmap_bytes(limit)]
        }
    };
    limits.into_iter().zip(is_written).flat_map(slots).collect()
}
