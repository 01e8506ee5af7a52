use crate::operations as code;
use crate::{raw, ListCounts, ListOf, ListOut, ListOutOf, Offset, Refusal, Values};
use core::fmt;
use core::ops::Range;

/// A chain of up to 32 list operations, built step by step without a heap.
///
/// A step names its argument columns by their numbers, counted from 0, in the order in which
/// [`RecipeInputsOf::arguments`] holds them; several steps may use one column.
///
/// ```
/// use duthlan::Recipe;
/// const RECIPE: Recipe = Recipe::new().slice(0, 1, 2).reverse();
/// assert_eq!(RECIPE.numbers(), [4, 0, 1, 2, 0, 0, 0, 0]);
/// ```
#[derive(Clone, Copy, PartialEq, Eq)]
pub struct Recipe {
    numbers: [u32; 4 * Recipe::KEPT],
    steps: usize,
}

impl Recipe {
    /// One step more than a recipe may have, so that one that is too long is refused as such.
    const KEPT: usize = 33;

    /// The recipe of no steps, which copies the first list into result form.
    pub const fn new() -> Recipe {
        Recipe { numbers: [0; 4 * Recipe::KEPT], steps: 0 }
    }

    /// A recipe with one step more. Past 33 steps nothing is kept: 33 are refused by 10, like any
    /// recipe of more than 32.
    const fn step(mut self, code: u32, columns: [u32; 3]) -> Recipe {
        if self.steps < Recipe::KEPT {
            let at = 4 * self.steps;
            self.numbers[at] = code;
            self.numbers[at + 1] = columns[0];
            self.numbers[at + 2] = columns[1];
            self.numbers[at + 3] = columns[2];
            self.steps += 1;
        }
        self
    }

    /// Adds [`reverse`](crate::reverse).
    pub const fn reverse(self) -> Recipe {
        self.step(code::REVERSE, [0; 3])
    }

    /// Adds [`distinct`](crate::distinct).
    pub const fn distinct(self) -> Recipe {
        self.step(code::DISTINCT, [0; 3])
    }

    /// Adds [`pop_front`](crate::pop_front).
    pub const fn pop_front(self) -> Recipe {
        self.step(code::POP_FRONT, [0; 3])
    }

    /// Adds [`pop_back`](crate::pop_back).
    pub const fn pop_back(self) -> Recipe {
        self.step(code::POP_BACK, [0; 3])
    }

    /// Adds [`slice`](crate::slice) by three columns.
    pub const fn slice(self, from: u32, to: u32, stride: u32) -> Recipe {
        self.step(code::SLICE, [from, to, stride])
    }

    /// Adds [`slice`](crate::slice) with its stride absent.
    pub const fn slice_without_stride(self, from: u32, to: u32) -> Recipe {
        self.step(code::SLICE_WITHOUT_STRIDE, [from, to, 0])
    }

    /// Adds [`resize`](crate::resize); a fill column of nulls fills with nulls.
    pub const fn resize(self, count: u32, fill: u32) -> Recipe {
        self.step(code::RESIZE, [count, fill, 0])
    }

    /// Adds [`replace`](crate::replace).
    pub const fn replace(self, from: u32, to: u32, limit: u32) -> Recipe {
        self.step(code::REPLACE, [from, to, limit])
    }

    /// Adds [`remove`](crate::remove).
    pub const fn remove(self, element: u32, limit: u32) -> Recipe {
        self.step(code::REMOVE, [element, limit, 0])
    }

    /// Adds [`union`](crate::union) with the second list on the right.
    pub const fn union(self) -> Recipe {
        self.step(code::UNION, [0; 3])
    }

    /// Adds [`intersect`](crate::intersect) with the second list on the right.
    pub const fn intersect(self) -> Recipe {
        self.step(code::INTERSECT, [0; 3])
    }

    /// The recipe's numbers, four a step: a code, then the numbers of its argument columns.
    pub fn numbers(&self) -> &[u32] {
        &self.numbers[..4 * self.steps]
    }
}

impl Default for Recipe {
    fn default() -> Recipe {
        Recipe::new()
    }
}

impl AsRef<[u32]> for Recipe {
    fn as_ref(&self) -> &[u32] {
        self.numbers()
    }
}

impl fmt::Debug for Recipe {
    fn fmt(&self, f: &mut fmt::Formatter<'_>) -> fmt::Result {
        f.write_str("Recipe ")?;
        f.debug_list().entries(self.numbers().chunks(4)).finish()
    }
}

/// What a recipe works on.
#[derive(Clone, Copy, Debug, Default)]
pub struct RecipeInputsOf<'a, O> {
    /// The list that the first step takes.
    pub list: ListOf<'a, O>,
    /// The right side of union and intersect. It always has as many rows as `list`; where no step
    /// uses it, `list` itself will do.
    pub second: ListOf<'a, O>,
    /// How many argument columns there are, 0 to 8.
    pub columns: usize,
    /// The argument columns, one after another: row r of column k, of n rows, is value k * n + r.
    pub arguments: Values<'a>,
}

/// What a recipe works on, with offsets of 32 bits: see [`RecipeInputsOf`].
pub type RecipeInputs<'a> = RecipeInputsOf<'a, i32>;

/// Room for what the steps of a recipe hand on: steps 1, 3, 5.. write tray one, 2, 4, 6.. tray two,
/// and the last the output, so that a recipe of one step needs no room. Both trays are all zero after
/// every call.
#[derive(Debug)]
pub struct TraysOf<'a, O> {
    /// What the first step writes, where a second follows.
    pub one: ListOutOf<'a, O>,
    /// What the second step writes, where a third follows.
    pub two: ListOutOf<'a, O>,
}

/// The trays of a recipe with offsets of 32 bits: see [`TraysOf`].
pub type Trays<'a> = TraysOf<'a, i32>;

/// No room.
impl<O> Default for TraysOf<'_, O> {
    fn default() -> Self {
        TraysOf { one: ListOutOf::default(), two: ListOutOf::default() }
    }
}

/// Recipes finished and refused, a count for each of the stations 0 to 15. Each count stops at its
/// largest value.
#[derive(Clone, Copy, Debug, Default, PartialEq, Eq, Hash)]
pub struct Tally {
    /// Accepted calls.
    pub finished: [u64; 16],
    /// Refused calls, [`Refusal::MalformedRecipe`] included.
    pub refused: [u64; 16],
}

/// Runs a recipe for a station, 0 to 15, and counts it in the tally.
///
/// The recipe is a [`Recipe`] or its numbers. A step is refused as its operation is, and a refused
/// recipe changes no output. The tally moves for the station named, and for none where that is over 15.
///
/// ```
/// use duthlan::{run_recipe, List, ListOut, Recipe, RecipeInputs, Tally, Trays, Values};
/// let list = List::new(&[0, 4, 6], &[10, 20, 30, 40, 7, 9]);      // [10, 20, 30, 40] [7, 9]
/// let recipe = Recipe::new().slice_without_stride(0, 1).reverse();
/// let inputs = RecipeInputs {
///     list,
///     second: list,
///     columns: 2,
///     arguments: Values::from(&[2, 1, -1, -1]),      // from 2, 1; to -1, -1
/// };
/// let mut trays = Trays {
///     one: ListOut {
///         offsets: &mut [0; 3],
///         rows: &mut [0; 1],
///         values: &mut [0; 6],
///         elements: &mut [0; 1],
///     },
///     two: ListOut::default(),
/// };
/// let mut out = ListOut {
///     offsets: &mut [0; 3],
///     rows: &mut [0; 1],
///     values: &mut [0; 6],
///     elements: &mut [0; 1],
/// };
/// let mut tally = Tally::default();
/// let counts = run_recipe(2, &recipe, inputs, &mut trays, &mut out, &mut tally)?;
/// assert_eq!(out.written(&counts).values, [40, 30, 20, 9, 7]);
/// assert_eq!(tally.finished[2], 1);
/// # Ok::<(), duthlan::Refusal>(())
/// ```
pub fn run_recipe<O: Offset>(
    station: u32,
    recipe: impl AsRef<[u32]>,
    inputs: RecipeInputsOf<'_, O>,
    trays: &mut TraysOf<'_, O>,
    out: &mut ListOutOf<'_, O>,
    tally: &mut Tally,
) -> Result<ListCounts, Refusal> {
    let mut counts = [0; 32];
    counts[..16].copy_from_slice(&tally.finished);
    counts[16..].copy_from_slice(&tally.refused);
    let answer = O::recipe(station, recipe.as_ref(), inputs, trays, out, &mut counts);
    tally.finished.copy_from_slice(&counts[..16]);
    tally.refused.copy_from_slice(&counts[16..]);
    answer
}

/// Runs a recipe for some of its rows: from `rows.start` up to, not including, `rows.end`.
///
/// The counts and the output are those of the recipe on a copy that holds just these rows of both lists
/// and of every argument column, so a row outside gives no refusal. The columns are lent whole, and
/// refused as a whole, by 10, 13, 1, 2 and 3; then comes 16 for rows that are not there. No station is
/// named and no tally moves. Trays and output need room for these rows only.
///
/// ```
/// use duthlan::{run_recipe_rows, List, ListOut, Recipe, RecipeInputs, Refusal, Trays, Values};
/// let list = List::new(&[0, 4, 6, 7], &[10, 20, 30, 40, 7, 9, 5]);      // [10, 20, 30, 40] [7, 9] [5]
/// let recipe = Recipe::new().resize(0, 1);
/// let inputs = RecipeInputs {
///     list,
///     second: list,
///     columns: 2,
///     arguments: Values::from(&[-1, 3, 2, 0, 0, 8]),      // counts -1, 3, 2; fills 0, 0, 8
/// };
/// let mut out = ListOut {
///     offsets: &mut [0; 3],
///     rows: &mut [0; 1],
///     values: &mut [0; 5],
///     elements: &mut [0; 1],
/// };
/// let counts = run_recipe_rows(1..3, &recipe, inputs, &mut Trays::default(), &mut out)?;
/// assert_eq!(out.written(&counts).values, [7, 9, 0, 5, 8]);
///
/// let all = run_recipe_rows(0..3, &recipe, inputs, &mut Trays::default(), &mut out);
/// assert_eq!(all, Err(Refusal::NegativeCount));
/// let more = run_recipe_rows(1..4, &recipe, inputs, &mut Trays::default(), &mut out);
/// assert_eq!(more, Err(Refusal::RowsOutside));
/// # Ok::<(), Refusal>(())
/// ```
pub fn run_recipe_rows(
    rows: Range<usize>,
    recipe: impl AsRef<[u32]>,
    inputs: RecipeInputs<'_>,
    trays: &mut Trays<'_>,
    out: &mut ListOut<'_>,
) -> Result<ListCounts, Refusal> {
    raw::recipe_rows(rows, recipe.as_ref(), inputs, trays, out)
}
