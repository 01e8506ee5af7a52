//! Grades over the archive: columns and recipes, each refusal in its order, and what is kept.
#![cfg(feature = "std")]

use duthlan::owned::{ListBuf, Row};
use duthlan::{grade, grade_recipe, run_recipe, Bits, Grade, List, ListCounts, ListOut};
use duthlan::{Recipe, RecipeInputs, Refusal, Tally, Trays, Values};

/// [12, -3, null], a null row over 40 and 41, [], [7, 7, 9]; both bitmaps start in the middle of a byte.
const LIST: List = List {
    offsets: &[0, 3, 5, 5, 8],
    rows: Bits { bytes: &[0b1111_0111], start: 2 },
    values: &[12, -3, 99, 40, 41, 7, 7, 9],
    elements: Bits { bytes: &[0b1101_1111, 0xff], start: 3 },
};

/// The grades of a list, which lie before one byte that is kept.
fn graded(k: u64, list: List) -> Result<Vec<u8>, Refusal> {
    let rows = list.row_count();
    let mut grades = vec![85; rows + 1];
    let answer = grade(k, list, &mut grades);
    let kept = if answer.is_ok() { rows } else { 0 };
    assert!(grades[kept..].iter().all(|one| *one == 85), "{grades:?}");
    assert!(answer.is_err() || answer == Ok(rows as u64));
    answer.map(|_| grades[..rows].to_vec())
}

/// The grades of one row without nulls.
fn grade_of(k: u64, row: &[i64]) -> Option<Grade> {
    let offsets = [0, row.len() as i32];
    let grades = graded(k, List::new(&offsets, row)).expect("accepted");
    Grade::of(grades[0])
}

#[test]
fn grades_of_a_column() {
    assert_eq!(graded(1, LIST), Ok(vec![2, 0, 1, 2]));
    assert_eq!(graded(2, LIST), Ok(vec![3, 0, 1, 2]));
    assert_eq!(graded(3, LIST), Ok(vec![3, 0, 1, 3]));
    assert_eq!(graded(u64::MAX, LIST), Ok(vec![3, 0, 1, 3]));
    assert_eq!(graded(1, List::default()), Ok(vec![]));
    let absent = List { rows: Bits::ALL, elements: Bits::ALL, ..LIST };
    assert_eq!(graded(2, absent), Ok(vec![3, 3, 1, 2]));
}

#[test]
fn runs_of_a_row() {
    assert_eq!(grade_of(1, &[]), Some(Grade::Empty));
    assert_eq!(grade_of(1, &[5]), Some(Grade::Run));
    assert_eq!(grade_of(2, &[5]), Some(Grade::Other));
    assert_eq!(grade_of(3, &[5, 5, 5, 1]), Some(Grade::Run));
    assert_eq!(grade_of(3, &[1, 5, 5, 5]), Some(Grade::Run));
    assert_eq!(grade_of(3, &[1, 5, 5, 5, 1]), Some(Grade::Run));
    assert_eq!(grade_of(4, &[1, 5, 5, 5, 1]), Some(Grade::Other));
    assert_eq!(grade_of(2, &[1, 5, 1, 5]), Some(Grade::Other));
    assert_eq!(grade_of(4294967298, &[5, 5]), Some(Grade::Other));
    assert_eq!(grade_of(2, &[i64::MIN, i64::MIN]), Some(Grade::Run));
}

#[test]
fn nulls_and_rows_end_a_run() {
    let split = List { elements: Bits::from(&[0b1101]), ..List::new(&[0, 4], &[7, 7, 7, 7]) };
    assert_eq!(graded(2, split), Ok(vec![2]));
    assert_eq!(graded(3, split), Ok(vec![3]));
    let rows = List::new(&[0, 2, 4], &[7, 7, 7, 7]);
    assert_eq!(graded(2, rows), Ok(vec![2, 2]));
    assert_eq!(graded(3, rows), Ok(vec![3, 3]));
    let nulls = List { elements: Bits::from(&[0]), ..rows };
    assert_eq!(graded(1, nulls), Ok(vec![1, 1]));
}

#[test]
fn refusals_of_a_column() {
    let falling = List { offsets: &[0, 3, 2, 5, 8], ..LIST };
    let short = List { rows: Bits { bytes: &[255], start: 5 }, ..LIST };
    let start = List { elements: Bits { bytes: &[], start: 8 }, ..falling };
    assert_eq!(graded(1, falling), Err(Refusal::BadOffsets));
    assert_eq!(graded(1, short), Err(Refusal::ShortBitmap));
    assert_eq!(graded(1, start), Err(Refusal::BadStartingBit));
    for list in [LIST, falling, short, start] {
        assert_eq!(graded(0, list), Err(Refusal::ZeroRun));
        for lent in 0..4 {
            let mut grades = vec![85; lent];
            assert_eq!(grade(1, list, &mut grades), Err(Refusal::ShortOutput));
            assert_eq!(grade(0, list, &mut grades), Err(Refusal::ZeroRun));
            assert_eq!(grades, vec![85; lent]);
        }
    }
    assert_eq!(Refusal::ZeroRun.number(), 12);
    assert_eq!(Refusal::ZeroRun.to_string(), "a run of at least 0 elements to grade by");
}

#[test]
fn grades_have_four_numbers() {
    for number in 0..=255 {
        let grade = Grade::of(number);
        assert_eq!(grade.map(Grade::number), (number < 4).then_some(number));
    }
    assert!(Grade::Null < Grade::Empty && Grade::Run < Grade::Other);
}

/// What a recipe is run with, and what it left.
struct Run {
    one: ListBuf,
    two: ListBuf,
    out: ListBuf,
    tally: Tally,
    grades: Vec<u8>,
}

/// A column that results do not look like.
fn dirty(elements: usize) -> ListBuf {
    let mut room = ListBuf::with_room(4, elements);
    let out = room.out();
    out.offsets.fill(85);
    out.rows.fill(85);
    out.values.fill(85);
    out.elements.fill(85);
    room
}

impl Run {
    fn new(grades: usize) -> Run {
        let (one, two, out) = (dirty(20), dirty(20), dirty(20));
        let tally = Tally { finished: [3; 16], refused: [4; 16] };
        Run { one, two, out, tally, grades: vec![85; grades] }
    }

    fn trays_are_zero(&mut self) -> bool {
        let is_zero = |room: ListOut<'_>| {
            room.offsets.iter().all(|one| *one == 0)
                && room.rows.iter().chain(room.elements.iter()).all(|one| *one == 0)
                && room.values.iter().all(|one| *one == 0)
        };
        is_zero(self.one.out()) && is_zero(self.two.out())
    }

    fn output_is_kept(&mut self) -> bool {
        let room = self.out.out();
        room.offsets.iter().all(|one| *one == 85) && room.values.iter().all(|one| *one == 85)
    }

    /// The answer and the rows made, of a graded recipe or of a plain one.
    fn make(
        &mut self,
        k: Option<u64>,
        station: u32,
        recipe: &[u32],
    ) -> Result<(ListCounts, Vec<Row>), Refusal> {
        let values = [4, 4, 4, 4, 7, 7, 7, 7];
        let inputs =
            RecipeInputs { list: LIST, second: LIST, columns: 2, arguments: Values::from(&values) };
        let mut trays = Trays { one: self.one.out(), two: self.two.out() };
        let mut out = self.out.out();
        let (grades, tally) = (&mut self.grades, &mut self.tally);
        let counts = match k {
            Some(k) => {
                grade_recipe(k, station, recipe, inputs, &mut trays, &mut out, grades, tally)?
            }
            None => run_recipe(station, recipe, inputs, &mut trays, &mut out, tally)?,
        };
        Ok((counts, out.written(&counts).to_rows()?))
    }
}

#[test]
fn graded_recipes_are_as_their_runs() {
    let recipes = [
        (Recipe::new(), [3, 0, 1, 2]),
        (Recipe::new().reverse(), [3, 0, 1, 2]),
        (Recipe::new().distinct(), [3, 0, 1, 3]),
        (Recipe::new().pop_front().pop_front(), [1, 0, 1, 3]),
        (Recipe::new().resize(0, 1), [3, 0, 2, 2]),
        (Recipe::new().resize(0, 1).reverse().pop_back(), [3, 0, 2, 3]),
        (Recipe::new().union().reverse().distinct().pop_front(), [3, 0, 1, 3]),
    ];
    for (recipe, grades) in recipes {
        let (mut graded, mut plain) = (Run::new(6), Run::new(6));
        let made = graded.make(Some(2), 5, recipe.numbers()).expect("accepted");
        assert_eq!(Ok(made), plain.make(None, 5, recipe.numbers()));
        assert_eq!(graded.grades, [&grades[..], &[85, 85]].concat(), "{recipe:?}");
        assert_eq!((graded.tally, graded.tally.finished[5]), (plain.tally, 4));
        assert!(graded.trays_are_zero());
    }
}

#[test]
fn refusals_of_a_recipe() {
    let malformed = [0, 0, 0];
    let reverse = Recipe::new().reverse();
    let unmoved = Run::new(0).tally;
    let cases: [(u64, usize, u32, &[u32], Refusal); 7] = [
        (0, 4, 5, reverse.numbers(), Refusal::ZeroRun),
        (0, 3, 16, &malformed, Refusal::ZeroRun),
        (1, 3, 5, reverse.numbers(), Refusal::ShortOutput),
        (1, 3, 16, &malformed, Refusal::ShortOutput),
        (1, 0, 5, &malformed, Refusal::ShortOutput),
        (1, 4, 16, &malformed, Refusal::NoSuchStation),
        (1, 4, 5, &malformed, Refusal::MalformedRecipe),
    ];
    for (k, grades, station, numbers, refusal) in cases {
        let mut run = Run::new(grades);
        assert_eq!(run.make(Some(k), station, numbers), Err(refusal));
        assert!(run.trays_are_zero() && run.output_is_kept());
        assert!(run.grades.iter().all(|one| *one == 85));
        let counted = refusal == Refusal::MalformedRecipe;
        assert_eq!(run.tally == unmoved, !counted, "{refusal:?}");
    }
}

#[test]
fn two_refusals_by_9() {
    let reverse = Recipe::new().reverse();
    let mut run = Run::new(4);
    run.out = dirty(5);
    assert_eq!(run.make(Some(1), 5, reverse.numbers()), Err(Refusal::ShortOutput));
    assert_eq!((run.tally.refused[5], run.tally.finished[5]), (5, 3));
    assert!(run.trays_are_zero() && run.output_is_kept());
    run.grades.truncate(3);
    assert_eq!(run.make(Some(1), 5, reverse.numbers()), Err(Refusal::ShortOutput));
    assert_eq!(run.tally.refused[5], 5);
    assert_eq!(run.grades, [85; 3]);
}

#[test]
fn a_grade_of_the_result() {
    let rows = [Some(vec![Some(7), Some(8), Some(7)]), Some(vec![Some(1)]), None];
    let column = ListBuf::from_rows(&rows).expect("few elements");
    let list = column.list();
    let values = [8, 8, 8, 1, 1, 1];
    let inputs = RecipeInputs { list, second: list, columns: 2, arguments: Values::from(&values) };
    let mut room = ListBuf::with_room(3, 4);
    let (mut trays, mut tally, mut grades) = (Trays::default(), Tally::default(), [85; 3]);
    let mut out = room.out();
    let recipe = Recipe::new().remove(0, 1);
    let answer = grade_recipe(2, 0, recipe, inputs, &mut trays, &mut out, &mut grades, &mut tally);
    let counts = answer.expect("accepted");
    assert_eq!(grades, [2, 3, 0]);
    let mut again = [85; 3];
    assert_eq!(grade(2, out.written(&counts), &mut again), Ok(3));
    assert_eq!(again, grades);
}
