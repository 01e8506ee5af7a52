use crate::{raw, List, ListCounts, ListOut, RecipeInputs, Refusal, Tally, Trays};

/// The grade of a row, the lowest that fits; [`grade`] and [`grade_recipe`] write its number.
///
/// ```
/// use duthlan::Grade;
/// assert_eq!(Grade::of(2), Some(Grade::Run));
/// assert_eq!((Grade::Other.number(), Grade::of(4)), (3, None));
/// ```
#[derive(Clone, Copy, Debug, PartialEq, Eq, PartialOrd, Ord, Hash)]
#[repr(u8)]
pub enum Grade {
    /// 0: the row is null.
    Null = 0,
    /// 1: it has no valid element.
    Empty = 1,
    /// 2: it has a run of at least k adjacent valid equal elements; a null ends a run.
    Run = 2,
    /// 3: all else.
    Other = 3,
}

impl Grade {
    /// The grade of a number, of which there are four.
    pub const fn of(number: u8) -> Option<Grade> {
        match number {
            0 => Some(Grade::Null),
            1 => Some(Grade::Empty),
            2 => Some(Grade::Run),
            3 => Some(Grade::Other),
            _ => None,
        }
    }

    /// The grade's number, as it is written.
    pub const fn number(self) -> u8 {
        self as u8
    }
}

/// Grades each row of a list, a byte a row, by runs of at least `k` elements, and tells how many rows
/// there are.
///
/// A `k` of 0 is refused by 12, and fewer grades than rows by 9, before the column is looked at. A refused
/// call writes no grade, and grades past the rows keep their content.
///
/// ```
/// use duthlan::{grade, Bits, Grade, List, Refusal};
/// // [7, 7, null, 7], a null row, [], [5]
/// let list = List {
///     rows: Bits::from(&[0b1101]),
///     elements: Bits::from(&[0b1_1011]),
///     ..List::new(&[0, 4, 4, 4, 5], &[7, 7, 7, 7, 5])
/// };
/// let mut grades = [9; 4];
/// assert_eq!(grade(3, list, &mut grades), Ok(4));
/// assert_eq!(grades, [3, 0, 1, 3]);
/// assert_eq!(grade(2, list, &mut grades), Ok(4));
/// assert_eq!(Grade::of(grades[0]), Some(Grade::Run));
/// assert_eq!(grade(0, list, &mut grades), Err(Refusal::ZeroRun));
/// ```
pub fn grade(k: u64, list: List<'_>, grades: &mut [u8]) -> Result<u64, Refusal> {
    raw::grade(k, list, grades)
}

/// Runs a recipe as [`run_recipe`](crate::run_recipe) does and grades the rows of its result.
///
/// It answers, counts in the tally and leaves the output as that would, and where it is accepted writes
/// the grades. Before all else it is refused by 12, where `k` is 0, and by 9, where there are fewer grades
/// than the first list has rows; these two change neither tally nor output, and leave both trays zero.
///
/// ```
/// use duthlan::{grade_recipe, List, ListOut, Recipe, RecipeInputs, Tally, Trays, Values};
/// let list = List::new(&[0, 3, 4], &[7, 8, 7, 8]);      // [7, 8, 7] [8]
/// let recipe = Recipe::new().remove(0, 1);
/// let arguments = Values::from(&[8, 8, 1, 1]);      // 8 for both rows, and once
/// let inputs = RecipeInputs { list, second: list, columns: 2, arguments };
/// let mut out = ListOut {
///     offsets: &mut [0; 3],
///     rows: &mut [0; 1],
///     values: &mut [0; 4],
///     elements: &mut [0; 1],
/// };
/// let (mut trays, mut tally, mut grades) = (Trays::default(), Tally::default(), [9; 2]);
/// let counts = grade_recipe(2, 5, &recipe, inputs, &mut trays, &mut out, &mut grades, &mut tally)?;
/// assert_eq!(out.written(&counts).values, [7, 7]);
/// assert_eq!((grades, tally.finished[5]), ([2, 1], 1));
/// # Ok::<(), duthlan::Refusal>(())
/// ```
#[allow(clippy::too_many_arguments)]
pub fn grade_recipe(
    k: u64,
    station: u32,
    recipe: impl AsRef<[u32]>,
    inputs: RecipeInputs<'_>,
    trays: &mut Trays<'_>,
    out: &mut ListOut<'_>,
    grades: &mut [u8],
    tally: &mut Tally,
) -> Result<ListCounts, Refusal> {
    let mut counts = [0; 32];
    counts[..16].copy_from_slice(&tally.finished);
    counts[16..].copy_from_slice(&tally.refused);
    let numbers = recipe.as_ref();
    let answer = raw::grade_recipe(k, station, numbers, inputs, trays, out, grades, &mut counts);
    tally.finished.copy_from_slice(&counts[..16]);
    tally.refused.copy_from_slice(&counts[16..]);
    answer
}
