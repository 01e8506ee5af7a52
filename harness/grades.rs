//! Grading units: an own reading of Note 6, and graded calls. A graded call is that of a column or of
//! a recipe, with k and a slice for the grades. The case of a column is one of export whose outputs
//! are not lent; that of a recipe is its own, and its run is made beside it.

use crate::compare::{leave_nulls, null_slot_faults, output_faults, share_equal};
use crate::compare::{observed, Arena, Checker, Observed};
use crate::entry::{decode_i64, decode_offsets, Case, Entry, Expected, Route};
use crate::entry::{NOT_SERVED, RECIPE_RESULT, TALLY, TALLY_BYTES, TRAYS};
use crate::grade_coverage;
use crate::library::outputs;
use crate::model::{self, ArgumentColumn, Bitmap, Element, ListColumn, Operation, Row, Width};
use crate::numbers::of_bytes_mut;
use crate::rng::Rng;
use crate::typed::{self, List, Recipe, Room};

/// The entries: k, the column, or the recipe with its trays and its output, then the grades, the
/// counts and, of a recipe, the tally. Lists have offsets of 32 bits.
#[derive(Clone, Copy)]
pub struct Grades {
    pub column: fn(u64, List<i32>, &mut [u8], &mut [u64]) -> u32,
    pub recipe: fn(u64, Recipe<i32>, [Room<i32>; 3], &mut [u8], &mut [u64], &mut [u64]) -> u32,
}

/// What graded calls of this entry are named.
pub fn name(entry: Entry) -> &'static str {
    if entry.is_recipe() {
        "grade recipe"
    } else {
        "grade"
    }
}

/// The length of the longest run of adjacent valid equal elements; a null ends a run.
pub fn longest_run(row: &[Element]) -> u64 {
    let (mut longest, mut run) = (0, 0);
    for (at, element) in row.iter().enumerate() {
        let goes_on = at > 0 && row[at - 1] == *element;
        run = if element.is_none() { 0 } else { 1 + if goes_on { run } else { 0 } };
        longest = longest.max(run);
    }
    longest
}

/// "Grade 0: null row. 1: no valid element. 2: some run of at least k adjacent valid equal elements.
/// 3: all else." The lowest that fits.
pub fn grade(row: &Row, k: u64) -> u8 {
    match row {
        None => 0,
        Some(row) if row.iter().all(Option::is_none) => 1,
        Some(row) if longest_run(row) >= k => 2,
        Some(_) => 3,
    }
}

/// One graded call.
#[derive(Clone, Debug)]
pub struct Graded {
    pub k: u64,
    pub case: Case,
    /// What the slice for the grades holds before it.
    pub grades: Vec<u8>,
}

/// What a graded call must answer and write, and the grades at the front of their slice.
pub struct GradedExpected {
    pub call: Expected,
    pub grades: Vec<u8>,
}

impl Graded {
    /// The call of a case of export or of a recipe, with this many grades lent, which hold anything.
    pub fn new(k: u64, case: &Case, grades: usize, rng: &mut Rng) -> Graded {
        let mut case = case.typed(ArgumentColumn::default);
        if !case.entry.is_recipe() {
            case.outputs.clear();
        }
        Graded { k, case, grades: rng.bytes(grades) }
    }

    /// The rows of the first list, "offsets less one", whether it is malformed or not.
    pub fn rows(&self) -> usize {
        self.case.row_count()
    }

    pub fn is_short(&self) -> bool {
        self.grades.len() < self.rows()
    }

    /// Whether the counts, one of a column and four of a recipe, or the tally have too few places.
    pub fn is_short_of_places(&self) -> bool {
        let Case { entry, outputs, counts, .. } = &self.case;
        match entry.is_recipe() {
            true => counts.len() < 32 || outputs[TALLY].len() < TALLY_BYTES,
            false => counts.len() < 8,
        }
    }

    /// What comes before the column is looked at, or the recipe is run: 100, 12 "before any other
    /// refusal", 9 for the grades "right after 12".
    pub fn refusal_before(&self) -> Option<u32> {
        match () {
            _ if self.is_short_of_places() => Some(NOT_SERVED),
            _ if self.k == 0 => Some(12),
            _ if self.is_short() => Some(9),
            _ => None,
        }
    }

    /// What the column, or the recipe's run, comes to by itself. "An accepted column answers its row
    /// count."
    pub fn ungraded(&self) -> Expected {
        if self.case.entry.is_recipe() {
            return self.case.expected_typed();
        }
        let lists = &self.case.decode().lists;
        match model::column_refusal(Operation::Reverse, lists, &[]) {
            Some(number) => Expected::refusal(number),
            None => {
                let counts = (self.rows() as u64).to_le_bytes().to_vec();
                Expected { number: 0, written: Vec::new(), counts }
            }
        }
    }

    /// The column that is graded: the one lent, or what an accepted recipe writes.
    pub fn column(&self, accepted: &Expected) -> ListColumn {
        if !self.case.entry.is_recipe() {
            return self.case.decode().lists.swap_remove(0);
        }
        let [offsets, rows, values, elements] = &accepted.written[RECIPE_RESULT] else {
            panic!("the four slices of a result");
        };
        ListColumn {
            offsets: decode_offsets(offsets, Width::Narrow),
            rows: Bitmap::from_0(rows.clone()),
            values: decode_i64(values),
            elements: Bitmap::from_0(elements.clone()),
        }
    }

    /// The trays are zero after any call; "12 and a short grade slice change neither tally nor
    /// output", and a refused column or recipe "leaves the grades unwritten".
    pub fn expected(&self) -> GradedExpected {
        if let Some(number) = self.refusal_before() {
            let trays = if self.case.entry.is_recipe() { &self.case.outputs[TRAYS] } else { &[] };
            let written = trays.iter().map(|tray| vec![0; tray.len()]).collect();
            let call = Expected { written, ..Expected::refusal(number) };
            return GradedExpected { call, grades: Vec::new() };
        }
        let call = self.ungraded();
        let mut grades = Vec::new();
        if call.number == 0 {
            let rows = model::shown_rows(&self.column(&call));
            grades = rows.iter().map(|row| grade(row, self.k)).collect();
        }
        GradedExpected { call, grades }
    }
}

/// Any k but 0: small ones, which runs reach, and large ones, whose lowest bits are small.
pub fn any_k(rng: &mut Rng) -> u64 {
    match rng.below(8) {
        0 | 1 => 1,
        2 | 3 => 2,
        4 => 3,
        5 => 1 + rng.below(12) as u64,
        6 => rng.pick(&[1 << 32, (1 << 32) + 1, (5 << 32) + 2, 1 << 63, (1 << 63) + 1]),
        _ => u64::MAX,
    }
}

/// Slices as they are before a call, and after it.
struct Lent {
    inputs: Arena,
    outputs: Arena,
    grades: Arena,
}

impl Lent {
    fn new(call: &Graded) -> Lent {
        Lent {
            inputs: Arena::new(&call.case.aligned_inputs(Route::Typed)),
            outputs: Arena::new(&call.case.aligned_outputs(Route::Typed)),
            grades: Arena::new(&[(&call.grades, 1)]),
        }
    }
}

impl Checker<'_> {
    /// Grades the column or the recipe of a case that another group has made; k is not 0, and the
    /// grades are long enough, so that a recipe is answered as its run.
    pub fn grade(&mut self, case: &Case) -> Observed {
        let (k, more) = (any_k(&mut self.rng), self.rng.pick(&[0, 0, 1, 9]));
        let call = Graded::new(k, case, case.row_count() + more, &mut self.rng);
        self.check_graded(&call).0
    }

    /// Makes a graded call and compares everything with the reading; a recipe's run is made beside
    /// it, and what an accepted one writes is graded as a column. The grades are given last.
    pub fn check_graded(&mut self, call: &Graded) -> (Observed, Vec<u8>) {
        self.begin_call();
        let expected = call.expected();
        if self.records {
            for (kind, subject) in grade_coverage::met(call, &expected) {
                self.coverage.count(name(call.case.entry), kind, subject);
            }
        }
        let lent = Lent::new(call);
        let (number, after) = self.make(call, true);
        let mut faults = faults_of(call, &expected, &lent, number, &after);
        let is_recipe = call.case.entry.is_recipe();
        if is_recipe && call.refusal_before().is_none() {
            let (run_number, run) = self.make(call, false);
            if number != run_number || after.outputs != run.outputs {
                faults.push(format!("not as its run, which is answered {run_number}"));
            }
        }
        if is_recipe && expected.call.number == 0 && faults.is_empty() {
            let (again, graded) = self.make(&of_output(call, &expected.call), true);
            if again != 0 || graded.grades != after.grades {
                faults.push("the grades are not those of its output".to_string());
            }
        }
        if !faults.is_empty() {
            let shown: Vec<String> = call.grades.iter().map(|byte| byte.to_string()).collect();
            faults.insert(0, format!("graded with k {}, the grades before: {shown:?}", call.k));
            self.report(&call.case, &faults);
        }
        let written = after.grades.slices()[0][..expected.grades.len()].to_vec();
        (observed_of(call, number, &after), written)
    }

    /// Makes the call, graded or not; what is lent, as it is then.
    fn make(&mut self, call: &Graded, is_graded: bool) -> (u32, Lent) {
        self.typed += 1;
        let mut after = Lent::new(call);
        let mut lent = after.inputs.slices();
        if self.shares {
            share_equal(&mut lent, &call.case);
        }
        let mut results = after.outputs.slices_mut();
        results.extend(after.grades.slices_mut());
        let number = if self.is_apart() {
            let owned: Vec<Vec<u8>> = lent.iter().map(|slice| slice.to_vec()).collect();
            let lent: Vec<&[u8]> = owned.iter().map(Vec::as_slice).collect();
            let mut copies: Vec<Vec<u8>> = results.iter().map(|slice| slice.to_vec()).collect();
            let mut own: Vec<&mut [u8]> = copies.iter_mut().map(Vec::as_mut_slice).collect();
            let number = self.call_graded(call, is_graded, &lent, &mut own);
            results.iter_mut().zip(&copies).for_each(|(slice, copy)| slice.copy_from_slice(copy));
            number
        } else {
            self.call_graded(call, is_graded, &lent, &mut results)
        };
        (number, after)
    }

    /// The results are the outputs, the counts and the grades.
    fn call_graded(
        &self,
        call: &Graded,
        is_graded: bool,
        lent: &[&[u8]],
        results: &mut [&mut [u8]],
    ) -> u32 {
        let (grades, results) = results.split_last_mut().expect("grades are always lent");
        let (counts, results) = results.split_last_mut().expect("counts are always lent");
        let (entry, starts) = (call.case.entry, &call.case.starts);
        if !is_graded {
            let typed = self.library.typed.expect("a library of graded calls has typed ones");
            return typed.call(entry, lent, starts, results, counts);
        }
        let entries = self.library.grades.expect("only entries that the library has are called");
        let counts = of_bytes_mut(counts);
        if !entry.is_recipe() {
            return (entries.column)(call.k, typed::list(lent, starts), grades, counts);
        }
        let (station, columns) = entry.recipe();
        let recipe = typed::recipe(station, columns, lent, starts);
        let [a, b, c, d, e, f, g, h, i, j, k, l, tally] = outputs(results);
        let rooms = [[a, b, c, d], [e, f, g, h], [i, j, k, l]].map(typed::room);
        (entries.recipe)(call.k, recipe, rooms, grades, counts, of_bytes_mut(tally))
    }
}

/// What an accepted recipe writes, graded as a column with the same k into equal grades.
fn of_output(call: &Graded, accepted: &Expected) -> Graded {
    let case = Case {
        entry: Entry::EXPORT,
        inputs: accepted.written[RECIPE_RESULT].to_vec(),
        starts: vec![0, 0],
        outputs: Vec::new(),
        counts: vec![0; 8],
    };
    Graded { k: call.k, case, grades: call.grades.clone() }
}

fn faults_of(
    call: &Graded,
    expected: &GradedExpected,
    lent: &Lent,
    number: u32,
    after: &Lent,
) -> Vec<String> {
    let (case, answer) = (&call.case, &expected.call);
    let mut wanted = lent.outputs.clone();
    for (slice, bytes) in answer.written.iter().enumerate() {
        wanted.write(slice, bytes);
    }
    wanted.write(case.outputs.len(), &answer.counts);
    let mut faults = Vec::new();
    if case.entry.is_recipe() {
        faults = null_slot_faults(case, answer, &after.outputs);
        leave_nulls(case, answer, &mut wanted, &after.outputs);
    }
    if number != answer.number {
        faults.push(format!("answered {number}, expected {}", answer.number));
    }
    if after.outputs != wanted && case.entry.is_recipe() {
        faults.extend(output_faults(case, answer, &wanted, &after.outputs));
    } else if after.outputs != wanted {
        let counts = |arena: &Arena| format!("{:?}", arena.slices());
        let [should, is] = [&wanted, &after.outputs].map(counts);
        faults.push(format!("counts should be {should}, are now {is}, or bytes around them"));
    }
    let mut wanted = lent.grades.clone();
    wanted.write(0, &expected.grades);
    if after.grades != wanted {
        let (should, is) = (wanted.slices(), after.grades.slices());
        faults.push(format!("grades should be {:?}", should[0]));
        faults.push(format!("grades are now   {:?}, or bytes around them", is[0]));
    }
    if after.inputs != lent.inputs {
        faults.push("the inputs, or the bytes around them, were changed".to_string());
    }
    faults
}

/// Of a recipe what its run gives; of a column the number and the row count.
fn observed_of(call: &Graded, number: u32, after: &Lent) -> Observed {
    if call.case.entry.is_recipe() {
        return observed(&call.case, number, &after.outputs);
    }
    let slices = after.outputs.slices();
    let counts = slices[0].get(..8).filter(|_| number == 0).map_or(Vec::new(), decode_i64);
    let counts = counts.into_iter().map(|count| count as u64).collect();
    Observed { number, counts, written: Vec::new(), tally: None }
}
