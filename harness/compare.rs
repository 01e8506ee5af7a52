//! One call against the model, over bytes and typed: the answer, every byte written, every byte
//! kept, and the bytes around each lent slice. Nulls of a result are compared by bitmap; beside that,
//! each of its null slots must hold the one number that it has to. A case that differs is printed
//! whole.

use crate::coverage::{self, Coverage, SHARED};
use crate::entry::{decode_i64, decode_offsets, decode_tally, decode_u32};
use crate::entry::{Case, Content, Entry, Expected, Input, Route, SliceKind};
use crate::entry::{TALLY, TALLY_BYTES};
use crate::generate::untaken_column;
use crate::hash_coverage;
use crate::lending;
use crate::library::Library;
use crate::model::{is_valid, ArgumentColumn, Tally, Width, UNDER_NULL};
use crate::numbers::{bytes_of, bytes_of_mut};
use crate::recipe_coverage;
use crate::rng::Rng;
use crate::view_coverage;
use crate::window_coverage;
use std::borrow::Cow;
use std::ops::Range;

/// Bytes before, between and behind the slices, at least; an odd number, so that slices of bytes
/// start anywhere.
const GUARD: usize = 13;

/// What stands in them.
const GUARD_BYTES: [u8; 8] = [0xa5; 8];

/// Slices of one side of a call in one buffer, with guard bytes around each.
#[derive(Clone, PartialEq)]
pub struct Arena {
    words: Vec<u64>,
    spans: Vec<Range<usize>>,
}

/// The next place of a slice whose numbers have this width, aligned no better than it must be.
fn place_from(end: usize, width: usize) -> usize {
    if width == 1 {
        end
    } else {
        end.next_multiple_of(2 * width) + width
    }
}

impl Arena {
    /// Slices with the width for which they are aligned.
    pub fn new(slices: &[(&Vec<u8>, usize)]) -> Arena {
        let mut end = GUARD;
        let mut spans = Vec::new();
        for (slice, width) in slices {
            let start = place_from(end, *width);
            spans.push(start..start + slice.len());
            end = start + slice.len() + GUARD;
        }
        let words = vec![u64::from_le_bytes(GUARD_BYTES); end.div_ceil(8)];
        let mut arena = Arena { words, spans };
        for (at, (slice, _)) in slices.iter().enumerate() {
            arena.write(at, slice);
        }
        arena
    }

    fn bytes(&self) -> &[u8] {
        bytes_of(&self.words)
    }

    pub fn slices(&self) -> Vec<&[u8]> {
        let bytes = self.bytes();
        self.spans.iter().map(|span| &bytes[span.clone()]).collect()
    }

    pub fn slices_mut(&mut self) -> Vec<&mut [u8]> {
        let mut slices = Vec::new();
        let mut rest = bytes_of_mut(&mut self.words);
        let mut at = 0;
        for span in &self.spans {
            let (_, behind) = rest.split_at_mut(span.start - at);
            let (slice, behind) = behind.split_at_mut(span.len());
            slices.push(slice);
            rest = behind;
            at = span.end;
        }
        slices
    }

    /// Whether the guard bytes are the same.
    fn equal_outside(&self, other: &Arena) -> bool {
        let (bytes, others) = (self.bytes(), other.bytes());
        let mut at = 0;
        let starts = self.spans.iter().map(|span| span.start).chain([bytes.len()]);
        let ends = self.spans.iter().map(|span| span.end).chain([0]);
        starts.zip(ends).all(|(start, next)| {
            let equal = bytes[at..start] == others[at..start];
            at = next;
            equal
        })
    }

    /// Writes bytes at the front of one slice.
    pub fn write(&mut self, slice: usize, bytes: &[u8]) {
        self.write_at(slice, 0, bytes);
    }

    fn write_at(&mut self, slice: usize, at: usize, bytes: &[u8]) {
        let start = self.spans[slice].start + at;
        bytes_of_mut(&mut self.words)[start..start + bytes.len()].copy_from_slice(bytes);
    }
}

/// What a library gave: the number, and if it accepted, its counts and the slots they speak of; the
/// tally after a recipe.
#[derive(Clone, PartialEq, Debug)]
pub struct Observed {
    pub number: u32,
    pub counts: Vec<u64>,
    pub written: Vec<Vec<u8>>,
    pub tally: Option<Tally>,
}

/// How calls are made and differences told.
#[derive(Clone)]
pub struct Manner {
    /// The words that run the same calls again.
    pub replay: String,
    /// The ways in which each call is made.
    pub routes: Vec<Route>,
    pub trace: bool,
    /// Whether the program ends at the first difference.
    pub stop: bool,
    /// Whether each slice is lent as an allocation of its own, so that memcheck sees what is read
    /// outside it.
    pub apart: bool,
}

/// Makes calls, compares them and keeps the record of the group that is running.
pub struct Checker<'a> {
    pub library: &'a Library,
    manner: Manner,
    group: String,
    /// For the argument columns that a typed operation is lent and does not take, and for k and the
    /// grades of the calls of other groups.
    pub rng: Rng,
    /// The calls that the group makes, each of them over bytes, typed or both.
    pub calls: u64,
    pub over_bytes: u64,
    pub typed: u64,
    pub differences: u64,
    /// Whether inputs of equal bytes are lent as one slice.
    pub shares: bool,
    /// Whether calls are not made, but asked how much is to be lent for them.
    pub asks: bool,
    /// Whether calls are not made as they are, but graded.
    pub grades: bool,
    /// Whether it is recorded what the calls reach.
    pub records: bool,
    pub coverage: Coverage,
}

impl<'a> Checker<'a> {
    pub fn new(library: &'a Library, manner: Manner) -> Checker<'a> {
        Checker {
            library,
            manner,
            group: String::new(),
            rng: Rng::new(0, ""),
            calls: 0,
            over_bytes: 0,
            typed: 0,
            differences: 0,
            shares: false,
            asks: false,
            grades: false,
            records: true,
            coverage: Coverage::default(),
        }
    }

    pub fn start_group(&mut self, name: &str) {
        self.group = name.to_string();
        self.rng = Rng::new(0, name);
        (self.calls, self.over_bytes, self.typed, self.differences) = (0, 0, 0, 0);
        (self.shares, self.asks, self.grades) = (false, false, false);
    }

    /// Whether each slice is lent as an allocation of its own.
    pub fn is_apart(&self) -> bool {
        self.manner.apart
    }

    /// Whether calls are made this way.
    pub fn makes(&self, route: Route) -> bool {
        let can = route == Route::Bytes || self.library.typed.is_some();
        can && self.manner.routes.contains(&route)
    }

    pub fn covered(
        &mut self,
        case: &Case,
        kind: &'static str,
        subject: impl Into<Cow<'static, str>>,
    ) {
        if self.records && !self.asks && !self.grades {
            self.coverage.count(case.entry.name(), kind, subject);
        }
    }

    pub fn begin_call(&mut self) {
        self.calls += 1;
        if self.manner.trace {
            eprintln!("{}: call {}", self.group, self.calls);
        }
    }

    /// Makes the call, over bytes and typed, and compares everything with the model; what is
    /// observed over bytes is given, or typed where that alone is done.
    pub fn check(&mut self, case: &Case) -> Observed {
        if self.asks {
            return self.ask(case);
        }
        if self.grades {
            return self.grade(case);
        }
        if case.entry.is_typed_only() {
            return self.check_typed_only(case);
        }
        self.begin_call();
        let expected = case.expected();
        if self.records {
            self.record_coverage(case, &expected);
        }
        let mut observed = None;
        if self.makes(Route::Bytes) {
            observed = Some(self.compare(Route::Bytes, case, &expected));
        }
        if self.makes(Route::Typed) {
            let typed_case = self.typed_case(case);
            let is_own = expected.number >= 100;
            let typed_expected = if is_own { typed_case.expected_typed() } else { expected };
            let typed = self.compare_typed(case, &typed_case, &typed_expected);
            let first = observed.get_or_insert_with(|| typed.clone());
            let alike = is_own || *first == typed;
            self.require(alike, &typed_case, "not answered typed as over bytes");
        }
        observed.expect("a call is made in one way at least")
    }

    /// Makes a call that has a typed entry alone.
    fn check_typed_only(&mut self, case: &Case) -> Observed {
        self.begin_call();
        let typed_case = self.typed_case(case);
        let expected = typed_case.expected_typed();
        if self.records {
            self.record_coverage(case, &expected);
        }
        self.compare_typed(case, &typed_case, &expected)
    }

    /// Makes a call that is for the typed entries alone.
    pub fn check_typed(&mut self, case: &Case) -> Observed {
        if self.asks {
            return self.ask(case);
        }
        if self.grades {
            return self.grade(case);
        }
        self.begin_call();
        let typed_case = self.typed_case(case);
        let expected = typed_case.expected_typed();
        self.compare_typed(case, &typed_case, &expected)
    }

    /// The same, where the model has said already what the call comes to.
    pub fn check_typed_as(&mut self, case: &Case, expected: &Expected) -> Observed {
        self.begin_call();
        let typed_case = self.typed_case(case);
        self.compare_typed(case, &typed_case, expected)
    }

    /// Asks how much is to be lent for a call, which is not made, and compares the answer with the
    /// harness's own reading. What the call has for its counts is lent for the lengths, which are
    /// given as counts.
    pub fn ask(&mut self, case: &Case) -> Observed {
        self.begin_call();
        self.typed += 1;
        let typed_case = Case { outputs: Vec::new(), ..self.typed_case(case) };
        let case = &typed_case;
        let expected = lending::expected(case);
        if self.records {
            for subject in coverage::lending_met(case, &expected) {
                self.coverage.count(case.entry.typed_name(), "lending", subject);
            }
        }
        let inputs = Arena::new(&case.aligned_inputs(Route::Typed));
        let lent = Arena::new(&case.aligned_outputs(Route::Typed));
        let (mut inputs_after, mut after) = (inputs.clone(), lent.clone());
        let number = self.call(Route::Typed, true, case, &mut inputs_after, &mut after);

        let mut wanted = lent;
        wanted.write(0, bytes_of(expected.as_deref().unwrap_or(&[])));
        let wanted_number = expected.as_ref().err().copied().unwrap_or(0);
        let mut faults = Vec::new();
        if number != wanted_number {
            faults.push(format!("answered {number}, expected {wanted_number}"));
        }
        if after.slices() != wanted.slices() {
            faults.push(format!("lengths should be {}", show(COUNTS, wanted.slices()[0])));
            faults.push(format!("lengths are now   {}", show(COUNTS, after.slices()[0])));
        }
        if !wanted.equal_outside(&after) {
            faults.push("bytes outside the lent lengths were changed".to_string());
        }
        if inputs_after != inputs {
            faults.push("the inputs, or the bytes around them, were changed".to_string());
        }
        if !faults.is_empty() {
            faults.insert(0, "asked how much to lend; what are called counts are lengths".into());
            self.report(case, &faults);
        }
        let mut counts = Vec::new();
        if number == 0 {
            counts = after.slices()[0].chunks_exact(8).flat_map(decode_i64).collect();
            counts.truncate(lending::places(case.entry));
        }
        let counts = counts.into_iter().map(|count| count as u64).collect();
        Observed { number, counts, written: Vec::new(), tally: None }
    }

    fn typed_case(&mut self, case: &Case) -> Case {
        let rows = case.row_count();
        case.typed(|| match self.rng.below(2) {
            0 => ArgumentColumn::default(),
            _ => untaken_column(rows.min(40), &mut self.rng),
        })
    }

    fn compare_typed(&mut self, case: &Case, typed_case: &Case, expected: &Expected) -> Observed {
        if self.records {
            for subject in coverage::typed_met(case, typed_case, expected.number) {
                self.covered(case, "typed", subject);
            }
        }
        self.compare(Route::Typed, typed_case, expected)
    }

    /// Makes the call in one way.
    fn compare(&mut self, route: Route, case: &Case, expected: &Expected) -> Observed {
        match route {
            Route::Bytes => self.over_bytes += 1,
            Route::Typed => self.typed += 1,
        }
        let inputs = Arena::new(&case.aligned_inputs(route));
        let lent = Arena::new(&case.aligned_outputs(route));
        let mut inputs_after = inputs.clone();
        let mut after = lent.clone();
        let number = self.call(route, false, case, &mut inputs_after, &mut after);

        let mut wanted = lent;
        for (slice, bytes) in expected.written.iter().enumerate() {
            wanted.write(slice, bytes);
        }
        wanted.write(case.outputs.len(), &expected.counts);
        let mut faults = null_slot_faults(case, expected, &after);
        leave_nulls(case, expected, &mut wanted, &after);
        if number != expected.number {
            faults.push(format!("answered {number}, expected {}", expected.number));
        }
        if after != wanted {
            faults.extend(output_faults(case, expected, &wanted, &after));
        }
        if inputs_after != inputs {
            faults.push("the inputs, or the bytes around them, were changed".to_string());
        }
        if !faults.is_empty() {
            faults.insert(0, format!("called {}", route.name()));
            self.report(case, &faults);
        }
        observed(case, number, &after)
    }

    /// Lends copies of the inputs too, so that a write to them is seen.
    fn call(
        &self,
        route: Route,
        asks: bool,
        case: &Case,
        inputs: &mut Arena,
        outputs: &mut Arena,
    ) -> u32 {
        let (mut lent, mut slices) = (inputs.slices(), outputs.slices_mut());
        if self.shares {
            share_equal(&mut lent, case);
        }
        if !self.manner.apart {
            return self.call_with(route, asks, case, &lent, &mut slices);
        }
        let owned: Vec<Vec<u8>> = lent.iter().map(|slice| slice.to_vec()).collect();
        let mut results: Vec<Vec<u8>> = slices.iter().map(|slice| slice.to_vec()).collect();
        let lent: Vec<&[u8]> = owned.iter().map(Vec::as_slice).collect();
        let mut lent_results: Vec<&mut [u8]> = results.iter_mut().map(Vec::as_mut_slice).collect();
        let number = self.call_with(route, asks, case, &lent, &mut lent_results);
        for (slice, result) in slices.iter_mut().zip(&results) {
            slice.copy_from_slice(result);
        }
        number
    }

    fn call_with(
        &self,
        route: Route,
        asks: bool,
        case: &Case,
        lent: &[&[u8]],
        slices: &mut [&mut [u8]],
    ) -> u32 {
        let (counts, outputs) = slices.split_last_mut().expect("counts are always lent");
        let (entry, starts, library) = (case.entry, &case.starts, self.library);
        if let (true, Some(views)) = (entry.is_view(), &library.views) {
            return views.call(entry, lent, starts, outputs, counts);
        }
        if let (true, Some(hashed)) = (entry.is_hashed(), &library.hashed) {
            return hashed.call(entry, lent, starts, outputs, counts);
        }
        if let (true, Some(windows)) = (entry.is_window(), &library.windows) {
            return windows.call(entry, lent, starts, outputs, counts);
        }
        match (route, &library.typed, &library.large) {
            (_, _, Some(large)) if entry.is_wide() && asks => {
                large.lending.ask(entry, lent, starts, counts)
            }
            (_, _, Some(large)) if entry.is_wide() => {
                large.call(entry, lent, starts, outputs, counts)
            }
            (Route::Typed, Some(typed), _) if asks => {
                typed.lending.ask(entry, lent, starts, counts)
            }
            (Route::Typed, Some(typed), _) => typed.call(entry, lent, starts, outputs, counts),
            _ => library.call(entry, lent, starts, outputs, counts),
        }
    }

    /// Calls that start from equal things, whatever the bytes that are not shown hold, must share
    /// one answer.
    pub fn agree(&mut self, calls: &[(Case, Observed)]) {
        let [(first, answer), others @ ..] = calls else {
            return;
        };
        let start = first.start();
        self.require(start.is_some(), first, "a pair of which a column is not well-formed");
        let met = match self.records {
            true => coverage::shared_met(first, first.expected().number),
            false => Vec::new(),
        };
        for (other, other_answer) in others {
            self.require(other.start() == start, other, "a pair that starts from unequal things");
            if answer != other_answer {
                let fault = format!("answers differ: {answer:?} and {other_answer:?}");
                self.report(first, &[fault]);
                self.report(other, &["the second of these".to_string()]);
            } else if self.records
                && (&first.inputs, &first.starts) != (&other.inputs, &other.starts)
            {
                met.iter().for_each(|subject| self.covered(other, SHARED, subject.clone()));
                for subject in coverage::offsets_apart(first, other, answer.number) {
                    self.covered(other, SHARED, subject);
                }
                for subject in coverage::starts_apart(first, other, answer.number) {
                    self.covered(other, SHARED, subject);
                }
            }
        }
    }

    /// A statement of the harness about its own case, or about an answer.
    pub fn require(&mut self, holds: bool, case: &Case, what: &str) {
        if !holds {
            self.report(case, &[what.to_string()]);
        }
    }

    /// Prints the first difference of a group whole, and counts the rest.
    pub fn report(&mut self, case: &Case, faults: &[String]) {
        self.differences += 1;
        if self.differences > 1 {
            return;
        }
        println!("DIFFERENCE in group '{}', call {}", self.group, self.calls);
        println!("  replay: harness {} --group '{}'", self.manner.replay, self.group);
        for fault in faults {
            println!("  {fault}");
        }
        print_case(case);
        if self.manner.stop {
            println!("FAILED {}: ended at the first difference", self.group);
            std::process::exit(1);
        }
    }

    fn record_coverage(&mut self, case: &Case, expected: &Expected) {
        self.covered(case, "calls", "");
        self.covered(case, "answer", expected.number.to_string());
        for subject in coverage::no_offsets_met(case, expected.number) {
            self.covered(case, "no offsets", subject);
        }
        for subject in coverage::starts_met(case, expected.number) {
            self.covered(case, "start", subject);
        }
        if case.entry.is_recipe() {
            return self.record_recipe(case, expected);
        }
        if case.entry == Entry::IMPORT {
            return self.record_view(case, expected);
        }
        if case.entry.is_window() {
            return self.record_window(case, expected);
        }
        if case.entry.is_hashed() {
            for (kind, subject) in hash_coverage::met(case, expected.number) {
                self.covered(case, kind, subject);
            }
        }
        if !matches!(expected.number, 0 | 3..=9) {
            return;
        }
        let input = case.decode();
        for subject in coverage::limits_met(&input, expected.number) {
            self.covered(case, "row", subject);
        }
        if expected.number != 3 {
            for subject in coverage::rows_met(&input, expected.number) {
                self.covered(case, "row", subject);
            }
        }
        if expected.number == 0 {
            self.record_accepted(case, &input, expected);
        }
    }

    fn record_null_slots(&mut self, case: &Case, expected: &Expected) {
        for subject in coverage::null_slots_met(case, expected) {
            self.covered(case, "result slots", subject);
        }
    }

    fn record_recipe(&mut self, case: &Case, expected: &Expected) {
        if expected.number == 0 {
            self.record_null_slots(case, expected);
        }
        for (kind, subject) in recipe_coverage::met(case, expected) {
            self.covered(case, kind, subject);
        }
    }

    fn record_view(&mut self, case: &Case, expected: &Expected) {
        for (kind, subject) in view_coverage::met(&case.view(), expected.number) {
            self.covered(case, kind, subject);
        }
        if expected.number == 0 {
            for subject in coverage::output_lengths(case, expected) {
                self.covered(case, "outputs", subject);
            }
            self.record_null_slots(case, expected);
        }
    }

    fn record_window(&mut self, case: &Case, expected: &Expected) {
        for (kind, subject) in window_coverage::met(case, expected) {
            self.covered(case, kind, subject);
        }
        if expected.number == 0 {
            self.record_null_slots(case, expected);
        }
    }

    fn record_accepted(&mut self, case: &Case, input: &Input, expected: &Expected) {
        if let Some(subject) = coverage::row_count(input) {
            self.covered(case, "rows", subject);
        }
        for subject in coverage::layouts(input) {
            self.covered(case, "layout", subject);
        }
        for subject in coverage::output_lengths(case, expected) {
            self.covered(case, "outputs", subject);
        }
        self.record_null_slots(case, expected);
        for subject in coverage::slices_at_size(case) {
            self.covered(case, "at size", subject);
        }
    }
}

/// Lends the first of several inputs with equal bytes for all of them.
pub fn share_equal(lent: &mut [&[u8]], case: &Case) {
    let widths: Vec<usize> = case.entry.inputs().iter().map(|kind| kind.typed_width()).collect();
    for at in 1..lent.len() {
        let is_equal = |one: &usize| widths[*one] == widths[at] && lent[*one] == lent[at];
        if let Some(first) = (0..at).find(is_equal) {
            lent[at] = lent[first];
        }
    }
}

/// The slots of the values that an accepted call writes.
fn value_slots(case: &Case, expected: &Expected) -> Range<usize> {
    let (values, _) = case.entry.value_slices();
    0..if expected.number == 0 { expected.written[values].len() / 8 } else { 0 }
}

/// Takes the null slots of the result as they are, for nulls are compared by bitmap.
pub fn leave_nulls(case: &Case, expected: &Expected, wanted: &mut Arena, after: &Arena) {
    let (values, bits) = case.entry.value_slices();
    let slices = after.slices();
    for slot in value_slots(case, expected) {
        if !is_valid(&expected.written[bits], slot) {
            wanted.write_at(values, 8 * slot, &slices[values][8 * slot..][..8]);
        }
    }
}

/// The slots that the library's own bitmap calls null, and that hold another number.
pub fn null_slot_faults(case: &Case, expected: &Expected, after: &Arena) -> Vec<String> {
    let (values, bits) = case.entry.value_slices();
    let slices = after.slices();
    let value = |slot: usize| decode_i64(&slices[values][8 * slot..][..8])[0];
    let is_fault = |slot: &usize| !is_valid(slices[bits], *slot) && value(*slot) != UNDER_NULL;
    let slot = value_slots(case, expected).find(is_fault);
    let fault =
        slot.map(|slot| format!("null slot {slot} holds {}, not {UNDER_NULL}", value(slot)));
    fault.into_iter().collect()
}

pub fn observed(case: &Case, number: u32, after: &Arena) -> Observed {
    let slices = after.slices();
    let (counts, outputs) = slices.split_last().expect("counts are always lent");
    let tally = outputs.get(TALLY).filter(|bytes| bytes.len() >= TALLY_BYTES);
    let tally = tally.map(|bytes| decode_tally(bytes));
    if number != 0 {
        return Observed { number, counts: Vec::new(), written: Vec::new(), tally };
    }
    let needed = case.entry.count_bytes().min(counts.len());
    let mut counts: Vec<u64> =
        decode_i64(&counts[..needed]).into_iter().map(|count| count as u64).collect();
    counts.resize(case.entry.count_bytes() / 8, 0);
    let slots = case.entry.written_slots(&counts);
    let kinds = case.entry.outputs()[case.entry.results()].iter();
    let outputs = &outputs[case.entry.results()];
    let written = kinds.zip(outputs).zip(slots).map(|((kind, bytes), slots)| {
        bytes[..bytes.len().min(slots.saturating_mul(kind.width))].to_vec()
    });
    Observed { number, written: written.collect(), counts, tally }
}

// Printing.

/// Where the outputs are not what they should be.
pub fn output_faults(
    case: &Case,
    expected: &Expected,
    wanted: &Arena,
    after: &Arena,
) -> Vec<String> {
    let mut faults = Vec::new();
    let mut written: Vec<usize> = expected.written.iter().map(Vec::len).collect();
    written.resize(case.outputs.len(), 0);
    written.push(expected.counts.len());
    let pairs = wanted.slices().into_iter().zip(after.slices());
    for (slice, (wanted, after)) in pairs.enumerate() {
        let Some(byte) = wanted.iter().zip(after).position(|(one, other)| one != other) else {
            continue;
        };
        let name = case.entry.outputs().get(slice).map_or("counts", |kind| kind.name);
        let part = if byte < written[slice] { "to be written" } else { "to be kept" };
        let (is, should) = (after[byte], wanted[byte]);
        faults.push(format!("{name}: byte {byte}, {part}, is {is:#04x}, should be {should:#04x}"));
        let kind = case.entry.outputs().get(slice).copied().unwrap_or(COUNTS);
        let part = part_about(byte, kind.width, wanted.len());
        let from = match part.start {
            0 => String::new(),
            start => format!(" from slot {}", start / kind.width),
        };
        faults.push(format!("{name}{from} should be {}", show(kind, &wanted[part.clone()])));
        faults.push(format!("{name}{from} are now   {}", show(kind, &after[part])));
    }
    if !wanted.equal_outside(after) {
        faults.push("bytes outside the lent output slices were changed".to_string());
    }
    faults
}

const COUNTS: SliceKind =
    SliceKind { name: "counts", content: Content::Values, width: 8, most: None };

/// The most slots that are printed of a slice.
const MOST_SHOWN: usize = 500;

/// The bytes to be printed of a slice of this length, about one of them.
fn part_about(byte: usize, width: usize, length: usize) -> Range<usize> {
    let (slots, shown) = (length / width, MOST_SHOWN / 2);
    if slots <= MOST_SHOWN {
        return 0..length;
    }
    let first = (byte / width).min(slots).saturating_sub(shown / 2);
    first * width..(first + shown).min(slots) * width
}

/// The numbers of a slice, the first ones if there are many, and the bytes of a ragged end.
fn show(kind: SliceKind, bytes: &[u8]) -> String {
    let slots = bytes.len() / kind.width;
    if slots > MOST_SHOWN && kind.content != Content::Tally {
        let part = part_about(0, kind.width, bytes.len());
        return format!("{} and so on, {slots} in all", show(kind, &bytes[part]));
    }
    let ragged = &bytes[bytes.len() - bytes.len() % kind.width..];
    let slots = match kind.content {
        Content::Offsets if kind.width == 8 => {
            format!("{:?}", decode_offsets(bytes, Width::Wide))
        }
        Content::Offsets | Content::ViewOffsets | Content::Sizes => {
            format!("{:?}", decode_offsets(bytes, Width::Narrow))
        }
        Content::Numbers | Content::Area => format!("{:?}", decode_u32(bytes)),
        Content::Values | Content::RowValues => format!("{:?}", decode_i64(bytes)),
        Content::Tally if bytes.len() >= TALLY_BYTES => {
            format!("{:?} and bytes {:02x?}", decode_tally(bytes), &bytes[TALLY_BYTES..])
        }
        Content::Tally | Content::Bits => format!("{bytes:02x?}"),
    };
    if ragged.is_empty() {
        slots
    } else {
        format!("{slots} and bytes {ragged:02x?}")
    }
}

fn print_case(case: &Case) {
    println!("  operation {} ({:?})", case.entry.typed_name(), case.entry);
    let mut starts = case.starts.iter();
    for (kind, bytes) in case.entry.inputs().into_iter().zip(&case.inputs) {
        let start = if kind.content == Content::Bits { starts.next() } else { None };
        let start = start.map_or(String::new(), |start| format!(" from bit {start}"));
        println!("  {}: {}{start}", kind.name, show(kind, bytes));
    }
    for (kind, bytes) in case.entry.outputs().iter().zip(&case.outputs) {
        println!("  {} before: {}", kind.name, show(*kind, bytes));
    }
    println!("  counts before: {}", show(COUNTS, &case.counts));
}
