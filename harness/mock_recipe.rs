//! Recipes in the mock, right or wrong in one way.

use crate::defects::{defect, is};
use crate::mock::{numbers, taken, Answer, Argument, Bits, Call, Column, MadeRow, Output};
use crate::mock::{INTERSECT, UNION};
use crate::model::Width;
use crate::plain;

/// The four slices of a list, a tray or the output, copied.
type Copied = [Vec<u8>; 4];

pub fn recipe(
    station: u32,
    columns: u32,
    inputs: [&[u8]; 11],
    starts: [u32; 5],
    mut outputs: [&mut [u8]; 13],
    counts: &mut [u8],
) -> u32 {
    if defect().is_empty() {
        return plain::recipe(station, columns, inputs, starts, outputs, counts);
    }
    let own = own_answer(&inputs, &outputs, counts.len());
    let starts = starts.map(|start| start as usize);
    let columns = columns as usize;
    recipe_after(own, Width::Narrow, station, columns, inputs, starts, &mut outputs, counts)
}

/// The call after the entry's own answer, if it has one.
#[allow(clippy::too_many_arguments)]
pub fn recipe_after(
    mut own: Option<u32>,
    width: Width,
    station: u32,
    columns: usize,
    inputs: [&[u8]; 11],
    starts: [usize; 5],
    outputs: &mut [&mut [u8]; 13],
    counts: &mut [u8],
) -> u32 {
    let station = match defect() {
        "recipe-station-cut-to-four-bits" => station % 16,
        "recipe-station-cut-to-a-byte" => station % 256,
        _ => station,
    };
    let most = match defect() {
        "recipe-station-15-refused" => 14,
        "recipe-station-16-accepted" => 16,
        _ => 15,
    };
    if station > most && is("recipe-15-before-own-answers") {
        own = Some(15);
    }
    let run = Run { no_station: station > most, ..Run::new(width, columns, &inputs, starts) };
    let (trays, results) = outputs.split_at_mut(8);
    let (output, tally) = results.split_at_mut(4);
    let mut written = [false; 2];
    let number = match own {
        Some(number) => number,
        None => run.answer(trays, output, counts, &mut written),
    };
    if number != 0 {
        Output::new(Answer::Lists, width, output, counts).refused(number);
    }
    let many = run.numbers.len() > 1024;
    if !(many && is("recipe-many-numbers-leave-trays")) {
        let offsets = run.list[0].len();
        clear(trays, number, own.is_some(), written, offsets);
    }
    let left_out = own.is_some() || many && is("recipe-many-numbers-not-in-tally");
    if !left_out || is("recipe-tally-counts-own-answers") {
        count(tally[0], station, number);
    }
    number
}

/// The refusal that comes before the steps of a recipe for station 0.
pub fn refusal_before_steps(
    width: Width,
    columns: usize,
    inputs: &[&[u8]; 11],
    starts: [usize; 5],
) -> Option<u32> {
    Run::new(width, columns, inputs, starts).check().err()
}

// Answers of the entry.

fn own_answer(inputs: &[&[u8]], outputs: &[&mut [u8]], counts: usize) -> Option<u32> {
    // Each slice of numbers as bytes, bytes a slot and most slots.
    let most_numbers = match defect() {
        "recipe-numbers-over-128-give-101" => 128,
        "recipe-numbers-over-1024-give-101" => 1024,
        _ => usize::MAX / 2,
    };
    let mut lent = vec![(inputs[0].len(), 4, most_numbers), (inputs[9].len(), 8, 32768)];
    lent.extend([1, 5].map(|at| (inputs[at].len(), 4, 4097)));
    lent.extend([3, 7].map(|at| (inputs[at].len(), 8, 16384)));
    let mut results = Vec::new();
    results.extend([0, 4, 8].map(|at| (outputs[at].len(), 4, 4097)));
    results.extend([2, 6, 10].map(|at| (outputs[at].len(), 8, 16384)));
    let is_ragged = |(bytes, width, _): &(usize, usize, usize)| bytes % width != 0;
    let ragged = lent.iter().any(is_ragged) && !is("ragged-accepted")
        || results.iter().any(is_ragged) && !is("ragged-output-accepted")
        || counts < 32 && !is("short-counts-accepted")
        || outputs[12].len() < 256 && !is("recipe-short-tally-accepted");
    if inputs[0].len() % 4 != 0 && is("recipe-ragged-numbers-give-10") {
        return Some(10);
    }
    if inputs[0].len() > 4 * 128 && is("recipe-10-of-many-numbers-before-101") {
        return None;
    }
    let is_over = |(bytes, width, most): &(usize, usize, usize)| match defect() {
        "size-one-over-accepted" => bytes / width > most + 1,
        "at-size-refused" => bytes / width >= *most,
        _ => bytes / width > *most,
    };
    let trays_over = !is("recipe-tray-size-not-tested");
    let over = lent.iter().any(is_over)
        || results.iter().enumerate().any(|(at, one)| is_over(one) && (trays_over || at % 3 == 2));
    match (ragged, over) {
        (true, true) if is("101-before-100") => Some(101),
        (true, _) => Some(100),
        (_, true) => Some(101),
        _ => None,
    }
}

// The trays and the tally after the call.

fn clear(trays: &mut [&mut [u8]], number: u32, own: bool, written: [bool; 2], offsets: usize) {
    for (at, slice) in trays.iter_mut().enumerate() {
        let kept = match defect() {
            "recipe-trays-not-zeroed" => true,
            "recipe-trays-not-zeroed-after-refusal" => number != 0 && !own,
            "recipe-trays-not-zeroed-after-10" => number == 10,
            "recipe-trays-not-zeroed-after-15" => number == 15,
            "recipe-trays-not-zeroed-after-own-answers" => own,
            "recipe-unwritten-trays-not-zeroed" => !written[at / 4],
            "recipe-tray-two-not-zeroed" => at >= 4,
            "recipe-tray-bits-not-zeroed" => at % 2 == 1,
            _ => false,
        };
        let from = match defect() {
            "recipe-tray-tail-not-zeroed" if at % 4 == 0 => offsets.min(slice.len()),
            "large-tray-offsets-cleared-as-32-bits" if at % 4 == 0 => slice.len() / 2,
            _ => slice.len(),
        };
        if !kept {
            slice[..from].fill(0);
        }
        if is("recipe-trays-cleared-to-smallest") && at % 4 == 2 {
            slice.chunks_exact_mut(8).for_each(|slot| slot.copy_from_slice(&SMALLEST));
        }
    }
}

fn count(tally: &mut [u8], station: u32, number: u32) {
    let left_out = number == 10 && is("recipe-10-not-in-tally")
        || number == 15 && !is("recipe-15-counted") && !is("recipe-15-counted-for-the-last");
    if tally.len() < 256 || left_out {
        return;
    }
    let mut finished = number == 0;
    match defect() {
        "recipe-refused-counted-as-finished" => finished = true,
        "recipe-tally-swapped" => finished = !finished,
        "recipe-9-counted-as-finished" => finished = finished || number == 9,
        _ => (),
    }
    let station = match defect() {
        "recipe-neighbour-counted" => (station as usize + 1) % 16,
        "recipe-station-0-counted-for-all" => 0,
        "recipe-stations-from-the-last" => 15 - station.min(15) as usize,
        "recipe-15-counted-for-the-last" => station.min(15) as usize,
        "recipe-station-16-accepted" => station as usize,
        _ => station as usize % 16,
    };
    let slot = |finished: bool| match defect() {
        "recipe-tally-station-by-station" => 2 * station + usize::from(!finished),
        _ => station + if finished { 0 } else { 16 },
    };
    add_one(tally, slot(finished));
    if !finished && is("recipe-refused-counted-in-both") {
        add_one(tally, slot(true));
    }
    if is("recipe-all-stations-counted") {
        let first = if finished { 0 } else { 16 };
        (first..first + 16).filter(|at| *at != slot(finished)).for_each(|at| add_one(tally, at));
    }
    if is("recipe-tally-tail-cleared") {
        tally[256..].fill(0);
    }
}

fn add_one(tally: &mut [u8], slot: usize) {
    let (before, behind) = tally.split_at_mut((8 * (slot + 1)).min(256));
    let Some(bytes) = before.last_chunk_mut::<8>() else { return };
    let count = u64::from_le_bytes(*bytes);
    if count == u64::MAX && is("recipe-tally-carries-to-the-neighbour") && slot < 31 {
        return add_one(behind, 0);
    }
    let count = match defect() {
        "recipe-tally-wraps" => count.wrapping_add(1),
        "recipe-tally-stops-at-2-to-the-63" => count.max((count + 1 + count / 2).min(1 << 63) - 1),
        "recipe-tally-stops-one-early" => count.saturating_add(1).min((u64::MAX - 1).max(count)),
        "recipe-tally-in-32-bits" => count & !0xffff_ffff | (count + 1) & 0xffff_ffff,
        _ => count.saturating_add(1),
    };
    bytes.copy_from_slice(&count.to_le_bytes());
}

// Steps.

struct Run<'a> {
    width: Width,
    no_station: bool,
    columns: usize,
    numbers: Vec<u32>,
    list: [&'a [u8]; 4],
    second: [&'a [u8]; 4],
    arguments: Argument<'a>,
    /// The starting bits of the two lists.
    starts: [[usize; 2]; 2],
}

impl<'a> Run<'a> {
    fn new(width: Width, columns: usize, inputs: &[&'a [u8]; 11], starts: [usize; 5]) -> Self {
        let number = |number: i64| match defect() {
            "recipe-numbers-cut-to-a-byte" => number as u32 % 256,
            _ => number as u32,
        };
        Run {
            width,
            no_station: false,
            columns,
            numbers: numbers(inputs[0], 4).into_iter().map(number).collect(),
            list: [inputs[1], inputs[2], inputs[3], inputs[4]],
            second: [inputs[5], inputs[6], inputs[7], inputs[8]],
            arguments: Argument::new(0, &inputs[9..11], starts[4]),
            starts: [[starts[0], starts[1]], [starts[2], starts[3]]],
        }
    }

    fn first_list(&self) -> Column<'a> {
        Column::new(0, &self.list, &self.starts[0], self.width)
    }

    fn second_list(&self) -> Column<'a> {
        Column::new(1, &self.second, &self.starts[1], self.width)
    }

    fn steps(&self) -> Vec<[u32; 4]> {
        self.numbers.chunks_exact(4).map(|step| [step[0], step[1], step[2], step[3]]).collect()
    }

    fn row_count(&self) -> usize {
        (self.list[0].len() / self.width.bytes()).max(1) - 1
    }

    // Refusals before the steps.

    fn is_malformed_step(&self, at: usize, step: [u32; 4]) -> bool {
        let [code, numbers @ ..] = step;
        let most = if is("recipe-code-11-accepted") { 11 } else { 10 };
        if code > most {
            return !is("recipe-codes-not-tested");
        }
        let (used, unused) = numbers.split_at(taken(code));
        let absent = |number: &u32| match defect() {
            "recipe-absent-column-accepted" => false,
            "recipe-column-one-past-accepted" => *number as usize > self.columns,
            "recipe-column-of-eight" => *number >= 8,
            _ => *number as usize >= self.columns,
        };
        let from_0 = self.row_count() > 3 && self.list[0].starts_with(&[0; 4]);
        let stray = |(place, number): (usize, &u32)| match defect() {
            "recipe-unused-number-not-tested" => false,
            "recipe-unused-number-not-tested-from-offset-0" if from_0 => false,
            "recipe-last-unused-number-not-tested" => *number != 0 && place + 1 < unused.len(),
            "recipe-first-unused-number-not-tested" => *number != 0 && place > 0,
            "recipe-unused-number-tested-as-column" => {
                *number as usize >= self.columns && *number != 0
            }
            _ => *number != 0,
        };
        let wrong = used.iter().any(absent) || unused.iter().enumerate().any(stray);
        wrong && !(at > 0 && is("recipe-only-first-step-tested"))
    }

    fn is_malformed(&self) -> bool {
        let steps = self.steps();
        let most_steps = match defect() {
            "recipe-33-steps-accepted" => 33,
            "recipe-32-steps-refused" => 31,
            "recipe-steps-not-counted" => 1024,
            _ => 32,
        };
        let most_columns = match defect() {
            "recipe-nine-columns-accepted" => 9,
            "recipe-eight-columns-refused" => 7,
            "recipe-columns-not-counted" => usize::MAX,
            _ => 8,
        };
        self.numbers.len() % 4 != 0 && !is("recipe-length-rounded-down")
            || steps.len() > most_steps
            || self.columns > most_columns
            || steps.iter().enumerate().any(|(at, step)| self.is_malformed_step(at, *step))
            || steps.is_empty() && is("recipe-no-steps-malformed")
    }

    fn uses_second(&self) -> bool {
        self.steps().iter().any(|step| matches!(step[0], UNION | INTERSECT))
    }

    /// 15, then 10, then 13, 1, 2, 3, or in a wrong order.
    fn check(&self) -> Result<(), u32> {
        let lists = [self.first_list(), self.second_list()];
        let ignored = is("recipe-second-list-not-tested")
            || is("recipe-second-list-tested-where-used") && !self.uses_second();
        let lists = if ignored { &lists[..1] } else { &lists[..] };
        let lent = self.arguments.values.len();
        let wanted = self.columns.saturating_mul(self.row_count());
        let covered = if is("recipe-argument-bitmap-for-all-rows") { wanted } else { lent };
        let short_arguments =
            self.arguments.bits.too_short(covered) && !is("argument-bitmap-not-tested");
        let over_arguments = self.arguments.bits.over_7()
            && !is("13-of-arguments-not-given")
            && !(self.columns == 0 && is("recipe-13-of-arguments-only-with-columns"));
        let unequal_lists = lists.iter().any(|list| match defect() {
            "recipe-second-rows-not-counted" => false,
            "right-no-offsets-suit-any-rows" if list.offsets.is_empty() => false,
            _ => list.row_count() != lists[0].row_count(),
        });
        let unequal_arguments = match defect() {
            "recipe-argument-length-not-tested" => false,
            "recipe-longer-arguments-accepted" => lent < wanted,
            "recipe-one-value-a-column-accepted" => lent != wanted && lent != self.columns,
            "recipe-arguments-not-tested-where-unused" => {
                lent != wanted && self.steps().iter().any(|step| taken(step[0]) > 0)
            }
            _ => lent != wanted,
        };
        let conditions = [
            (15, self.no_station),
            (10, self.is_malformed()),
            (13, lists.iter().any(Column::starts_over_7) || over_arguments),
            (1, lists.iter().any(Column::bad_offsets)),
            (2, lists.iter().any(Column::short_bitmap) || short_arguments),
            (3, unequal_lists || unequal_arguments),
        ];
        let order = match defect() {
            "recipe-15-after-10" => [1, 0, 2, 3, 4, 5],
            "recipe-15-after-3" => [1, 2, 3, 4, 5, 0],
            "recipe-13-before-10" => [0, 2, 1, 3, 4, 5],
            "recipe-13-before-15" => [2, 0, 1, 3, 4, 5],
            "recipe-1-before-10" => [0, 3, 1, 2, 4, 5],
            "recipe-10-after-3" => [0, 2, 3, 4, 5, 1],
            "recipe-3-before-10" => [0, 5, 1, 2, 3, 4],
            "13-after-1" => [0, 1, 3, 2, 4, 5],
            "13-after-2" => [0, 1, 3, 4, 2, 5],
            "13-after-3" => [0, 1, 3, 4, 5, 2],
            "2-before-1" => [0, 1, 2, 4, 3, 5],
            "3-before-2" => [0, 1, 2, 3, 5, 4],
            _ => [0, 1, 2, 3, 4, 5],
        };
        let first = order.into_iter().map(|at| conditions[at]).find(|(_, holds)| *holds);
        first.map_or(Ok(()), |(number, _)| Err(number))
    }

    // One step.

    /// The column of a step's number, taken out of the slice in which all of them lie.
    fn argument(&self, at: usize, place: usize, number: usize) -> (Vec<i64>, Vec<u8>) {
        let number = match defect() {
            "recipe-columns-by-step-number" => (at + place) % self.columns.max(1),
            "recipe-columns-in-order" => place % self.columns.max(1),
            "recipe-last-two-columns-exchanged" if number + 2 >= self.columns => {
                (2 * self.columns).saturating_sub(number + 3)
            }
            _ => number,
        };
        let (rows, columns) = (self.row_count(), self.columns);
        let start = number.min(1024) * rows;
        let place = |row: usize| match defect() {
            "recipe-arguments-row-by-row" => row * columns + number.min(1024),
            _ => start + row,
        };
        let bits_start = match defect() {
            "recipe-argument-start-of-first-column-only" if number > 0 => {
                start.saturating_sub(self.arguments.bits.from())
            }
            "recipe-argument-bits-from-0" => 0,
            "recipe-argument-bits-from-a-byte" => start.div_ceil(8) * 8,
            _ => start,
        };
        let mut bits = vec![0; rows.div_ceil(8)];
        let mut values = Vec::new();
        for row in 0..rows {
            values.push(self.arguments.values.get(place(row)).copied().unwrap_or(0));
            let at = if is("recipe-arguments-row-by-row") { place(row) } else { bits_start + row };
            bits[row / 8] |= u8::from(self.arguments.bits.bit(at)) << (row % 8);
        }
        (values, bits)
    }

    /// What a step makes of the carried rows.
    fn made(&self, at: usize, step: [u32; 4], carried: &Copied) -> Result<Vec<MadeRow>, u32> {
        let code = match defect() {
            "recipe-does-step-one-and-copies" if at > 0 => COPY,
            "recipe-copies" => COPY,
            "recipe-does-the-last-step-only" if 4 * (at + 1) < self.numbers.len() => COPY,
            "recipe-steps-past-16-copy" if at >= 16 => COPY,
            "recipe-last-of-32-copies" if at == 31 => COPY,
            _ => step[0],
        };
        let count = if code == COPY { 0 } else { taken(code) };
        let owned: Vec<(Vec<i64>, Vec<u8>)> =
            (0..count).map(|place| self.argument(at, place, step[place + 1] as usize)).collect();
        let arguments = owned.iter();
        let arguments = arguments
            .map(|(values, bits)| Argument { values: values.clone(), bits: Bits::new(bits, 0) });
        let carried: Vec<&[u8]> = match defect() {
            "recipe-always-from-the-first-list" => self.list.to_vec(),
            _ => carried.iter().map(Vec::as_slice).collect(),
        };
        let starts = match defect() {
            _ if at == 0 => self.starts[0],
            "recipe-always-from-the-first-list" | "recipe-trays-read-from-the-starting-bit" => {
                self.starts[0]
            }
            _ => [0, 0],
        };
        let width = self.width;
        let mut lists = vec![Column::new(0, &carried, &starts, width)];
        if matches!(code, UNION | INTERSECT) {
            lists.push(match defect() {
                "recipe-second-list-is-the-first" => {
                    Column::new(1, &self.list, &self.starts[0], width)
                }
                "recipe-second-list-is-the-carried" => Column::new(1, &carried, &starts, width),
                _ => self.second_list(),
            });
            let exchanged = code == UNION && is("recipe-union-sides-exchanged")
                || code == INTERSECT && is("recipe-intersect-sides-exchanged");
            if exchanged {
                lists.swap(0, 1);
            }
        }
        Call { op: code, lists, arguments: arguments.collect(), width }.made_lists()
    }

    /// The four slices that the rows take, as they would be written into this room.
    fn write(&self, rows: &[MadeRow], room: &mut [&mut [u8]], counts: &mut [u8]) -> u32 {
        let carried: Vec<Column> = vec![self.first_list()];
        let width = self.width;
        let call = Call { op: COPY, lists: carried, arguments: Vec::new(), width };
        Output::new(Answer::Lists, width, room, counts).write_lists(&call, rows)
    }

    // All steps.

    fn answer(
        &self,
        trays: &mut [&mut [u8]],
        output: &mut [&mut [u8]],
        counts: &mut [u8],
        written: &mut [bool; 2],
    ) -> u32 {
        let refused = self.check().and_then(|()| {
            if is("recipe-row-refusals-before-any-9") {
                self.without_room()?;
            }
            Ok(())
        });
        match refused.and_then(|()| self.run(trays, output, counts, written)) {
            Ok(()) => 0,
            Err(number) => number,
        }
    }

    /// Goes through the steps in trays that are large enough.
    fn without_room(&self) -> Result<(), u32> {
        let mut trays = [large_slices(), large_slices()].concat();
        let mut output = large_slices();
        let mut trays: Vec<&mut [u8]> = trays.iter_mut().map(Vec::as_mut_slice).collect();
        let mut output: Vec<&mut [u8]> = output.iter_mut().map(Vec::as_mut_slice).collect();
        let refused = self.run(&mut trays, &mut output, &mut [0; 32], &mut [false; 2]);
        if refused == Err(9) {
            return Ok(());
        }
        refused
    }

    fn run(
        &self,
        trays: &mut [&mut [u8]],
        output: &mut [&mut [u8]],
        counts: &mut [u8],
        written: &mut [bool; 2],
    ) -> Result<(), u32> {
        let steps = self.steps();
        let mut carried: Copied = self.list.map(<[u8]>::to_vec);
        if steps.is_empty() {
            return self.copy(&carried, output, counts);
        }
        for (at, step) in steps.iter().enumerate() {
            let last = at + 1 == steps.len();
            let room = if last { output[0].len() } else { trays[4 * (at % 2)].len() };
            if room < self.list[0].len() && is("recipe-9-before-row-refusals") {
                return Err(9);
            }
            let rows = match self.made(at, *step, &carried) {
                Err(_) if is("recipe-refused-step-skipped") && !last => continue,
                made => made?,
            };
            let tray = if is("recipe-trays-exchanged") { (at + 1) % 2 } else { at % 2 };
            if !last {
                self.test_wrong_room(&rows, tray, trays, output)?;
                if is("recipe-output-used-as-a-tray") {
                    self.write(&rows, output, counts);
                }
                written[tray] = true;
                carried = self.through_tray(at, &rows, &mut trays[4 * tray..][..4])?;
                continue;
            }
            if is("recipe-last-step-needs-a-tray") {
                self.fits(&rows, &trays[4 * tray..][..4])?;
            }
            let elements: usize = rows.iter().map(|row| row.items.len()).sum();
            let two_short = output[3].len() + 2 == elements.div_ceil(8) && !output[3].is_empty();
            if two_short && is("recipe-output-bitmap-two-bytes-short-accepted") {
                return Ok(());
            }
            accepted(self.write(&rows, output, counts))?;
            self.spoil_counts(counts);
        }
        Ok(())
    }

    /// No steps: the first list in result form.
    fn copy(&self, list: &Copied, output: &mut [&mut [u8]], counts: &mut [u8]) -> Result<(), u32> {
        if is("recipe-no-steps-as-they-lie") {
            let rows = self.row_count();
            let lies = output[0].len() >= self.list[0].len()
                && output[2].len() >= self.list[2].len()
                && rows > 0;
            if lies {
                output[0][..self.list[0].len()].copy_from_slice(self.list[0]);
                output[2][..self.list[2].len()].copy_from_slice(self.list[2]);
                return Ok(());
            }
        }
        if is("recipe-no-steps-without-9") && output[0].len() < self.list[0].len() {
            return Ok(());
        }
        let rows = self.made(0, [COPY, 0, 0, 0], list)?;
        accepted(self.write(&rows, output, counts))?;
        self.spoil_counts(counts);
        Ok(())
    }

    /// Writes rows into a tray, and gives what it holds then.
    fn through_tray(
        &self,
        at: usize,
        rows: &[MadeRow],
        tray: &mut [&mut [u8]],
    ) -> Result<Copied, u32> {
        let mut unused = [0; 32];
        let number = self.write(rows, tray, &mut unused);
        if number == 0 {
            return Ok(self.carried(at, rows, tray));
        }
        let offsets = tray[0].len() / self.width.bytes();
        let two_short = offsets + 1 == rows.len() && offsets > 0;
        if is("recipe-tray-room-not-tested")
            || is("recipe-room-of-the-output-for-trays")
            || two_short && is("recipe-tray-two-offsets-short-accepted")
        {
            let mut large = large_slices();
            let mut large: Vec<&mut [u8]> = large.iter_mut().map(Vec::as_mut_slice).collect();
            accepted(self.write(rows, &mut large, &mut unused))?;
            return Ok(self.carried(at, rows, &large));
        }
        Err(number)
    }

    /// The rows that a tray holds after a step.
    fn carried(&self, at: usize, rows: &[MadeRow], tray: &[&mut [u8]]) -> Copied {
        let elements: usize = rows.iter().map(|row| row.items.len()).sum();
        let offsets = self.width.bytes() * (rows.len() + 1);
        let lengths = [offsets, rows.len().div_ceil(8), 8 * elements, elements.div_ceil(8)];
        let part = |at: usize| tray[at][..lengths[at].min(tray[at].len())].to_vec();
        let mut carried = [part(0), part(1), part(2), part(3)];
        if at == 0 && is("recipe-null-row-values-counted-when-carried") {
            self.count_hidden(rows, &mut carried[0]);
        }
        if is("recipe-nulls-valid-when-carried") {
            carried[3].clear();
        }
        if is("recipe-null-rows-valid-when-carried") {
            carried[1].clear();
        }
        if is("recipe-smallest-is-null-when-carried") {
            let [_, _, values, bits] = &mut carried;
            for (slot, _) in
                values.chunks_exact(8).enumerate().filter(|(_, slot)| *slot == SMALLEST)
            {
                bits[slot / 8] &= !(1 << (slot % 8));
            }
        }
        carried
    }

    /// Moves the offsets behind a null row by the values that it lies over in the first list.
    fn count_hidden(&self, rows: &[MadeRow], offsets: &mut [u8]) {
        let list = self.first_list();
        let mut end = 0;
        for (row, made) in rows.iter().enumerate() {
            let hidden = if made.valid { 0 } else { list.range(row).len() };
            end += (made.items.len() + hidden) as i64;
            let bytes = self.width.bytes();
            if let Some(slot) = offsets.get_mut(bytes * (row + 1)..bytes * (row + 2)) {
                slot.copy_from_slice(&end.to_le_bytes()[..bytes]);
            }
        }
    }

    /// 9 where these rows would not fit.
    fn fits(&self, rows: &[MadeRow], room: &[&mut [u8]]) -> Result<(), u32> {
        let mut copies: Vec<Vec<u8>> = room.iter().map(|slice| slice.to_vec()).collect();
        let mut copies: Vec<&mut [u8]> = copies.iter_mut().map(Vec::as_mut_slice).collect();
        accepted(self.write(rows, &mut copies, &mut [0; 32]))
    }

    /// 9 for another place than the one that is written.
    fn test_wrong_room(
        &self,
        rows: &[MadeRow],
        tray: usize,
        trays: &[&mut [u8]],
        output: &[&mut [u8]],
    ) -> Result<(), u32> {
        match defect() {
            "recipe-room-of-the-other-tray-tested" => self.fits(rows, &trays[4 - 4 * tray..][..4]),
            "recipe-room-of-tray-two-tested" => self.fits(rows, &trays[4..]),
            "recipe-room-of-the-output-tested" | "recipe-room-of-the-output-for-trays" => {
                self.fits(rows, output)
            }
            _ => Ok(()),
        }
    }

    /// Counts that are not those of the rows made.
    fn spoil_counts(&self, counts: &mut [u8]) {
        let list = self.first_list();
        let rows = 0..self.row_count();
        let shown = rows.clone().filter(|row| list.is_valid(*row));
        let elements: usize = shown.clone().map(|row| list.range(row).len()).sum();
        let null_rows = rows.len() - shown.count();
        match defect() {
            "recipe-elements-of-the-first-list" => {
                counts[8..16].copy_from_slice(&elements.to_le_bytes());
            }
            "recipe-null-rows-of-the-first-list" => {
                counts[16..24].copy_from_slice(&null_rows.to_le_bytes());
            }
            "recipe-null-elements-not-counted" => counts[24..32].fill(0),
            _ => (),
        }
    }
}

/// No operation: the row as it is.
const COPY: u32 = 2000;

/// What null slots of results hold.
const SMALLEST: [u8; 8] = i64::MIN.to_le_bytes();

/// Slices in which every result has room.
fn large_slices() -> Copied {
    [8 * 4097, 600, 8 * 50_000, 7000].map(|bytes| vec![0; bytes])
}

fn accepted(number: u32) -> Result<(), u32> {
    if number == 0 {
        Ok(())
    } else {
        Err(number)
    }
}
