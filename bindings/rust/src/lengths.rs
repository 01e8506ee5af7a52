use crate::operations as code;
use crate::operations::NONE;
use crate::{ListOf, Offset, RecipeInputsOf, Refusal, Values};

/// How long the slices of a [`ListOut`](crate::ListOut) must be for a result.
///
/// Each operation has a question beside it, [`reverse_lengths`] and so on, which takes what the operation
/// takes, but no output. It gives the lengths, or the refusal that the operation would give before 9.
/// Slices at least so long are never refused by 9, and one that is shorter always is.
///
/// ```
/// use duthlan::{distinct, distinct_lengths, List, ListLengths, ListOut};
/// let list = List::new(&[0, 3, 3, 5], &[1, 2, 1, 7, 7]);      // [1, 2, 1] [] [7, 7]
/// let need = distinct_lengths(list)?;
/// assert_eq!(need, ListLengths { offsets: 4, row_bytes: 1, values: 3, element_bytes: 1 });
///
/// // Lend just that, of larger slices that serve many calls.
/// let (mut offsets, mut values, mut bytes) = ([0; 100], [0; 1000], [0; 200]);
/// let (rows, elements) = bytes.split_at_mut(need.row_bytes);
/// let mut out = ListOut {
///     offsets: &mut offsets[..need.offsets],
///     rows,
///     values: &mut values[..need.values],
///     elements: &mut elements[..need.element_bytes],
/// };
/// distinct(list, &mut out)?;
/// assert_eq!(out.values, [1, 2, 7]);
/// # Ok::<(), duthlan::Refusal>(())
/// ```
///
/// With a heap, [`ListBuf::for_lengths`](crate::owned::ListBuf::for_lengths) makes room of these lengths.
#[derive(Clone, Copy, Debug, Default, PartialEq, Eq, Hash)]
pub struct ListLengths {
    /// Offsets, one more than rows.
    pub offsets: usize,
    /// Bytes of the row bitmap.
    pub row_bytes: usize,
    /// Elements.
    pub values: usize,
    /// Bytes of the element bitmap.
    pub element_bytes: usize,
}

/// How long the slices of a [`ValueOut`](crate::ValueOut) must be for a result.
#[derive(Clone, Copy, Debug, Default, PartialEq, Eq, Hash)]
pub struct ValueLengths {
    /// Values, one a row.
    pub values: usize,
    /// Bytes of the row bitmap.
    pub row_bytes: usize,
}

/// How long the slices of a [`RepeatOut`](crate::RepeatOut) must be for a result.
#[derive(Clone, Copy, Debug, Default, PartialEq, Eq, Hash)]
pub struct RepeatLengths {
    /// Outer offsets, one more than outer rows.
    pub offsets: usize,
    /// Bytes of the outer row bitmap.
    pub row_bytes: usize,
    /// Inner offsets, one more than inner lists.
    pub inner_offsets: usize,
    /// Bytes of the bitmap of inner lists.
    pub inner_row_bytes: usize,
    /// Values.
    pub values: usize,
    /// Bytes of the bitmap of values.
    pub element_bytes: usize,
}

/// The most elements that a recipe may put into each tray and the output, which [`recipe_limits`] tells.
#[derive(Clone, Copy, Debug, Default, PartialEq, Eq, Hash)]
pub struct RecipeLimits {
    /// Elements in tray one, 0 where no step writes it.
    pub one: usize,
    /// Elements in tray two, 0 where no step writes it.
    pub two: usize,
    /// Elements in the output.
    pub output: usize,
}

/// Tells how much [`reverse`](crate::reverse) needs.
///
/// ```
/// use duthlan::{reverse_lengths, List, Refusal};
/// assert_eq!(reverse_lengths(List::new(&[0, 2], &[5, 6]))?.values, 2);
/// assert_eq!(reverse_lengths(List::new(&[0, 3], &[5, 6])), Err(Refusal::BadOffsets));
/// # Ok::<(), Refusal>(())
/// ```
pub fn reverse_lengths<O: Offset>(list: ListOf<'_, O>) -> Result<ListLengths, Refusal> {
    O::list_lengths(code::REVERSE, list, [NONE; 3])
}

/// Tells how much [`distinct`](crate::distinct) needs.
pub fn distinct_lengths<O: Offset>(list: ListOf<'_, O>) -> Result<ListLengths, Refusal> {
    O::list_lengths(code::DISTINCT, list, [NONE; 3])
}

/// Tells how much [`pop_front`](crate::pop_front) needs.
pub fn pop_front_lengths<O: Offset>(list: ListOf<'_, O>) -> Result<ListLengths, Refusal> {
    O::list_lengths(code::POP_FRONT, list, [NONE; 3])
}

/// Tells how much [`pop_back`](crate::pop_back) needs.
pub fn pop_back_lengths<O: Offset>(list: ListOf<'_, O>) -> Result<ListLengths, Refusal> {
    O::list_lengths(code::POP_BACK, list, [NONE; 3])
}

/// Tells how much [`slice`](crate::slice) needs.
pub fn slice_lengths<O: Offset>(
    list: ListOf<'_, O>,
    from: Values<'_>,
    to: Values<'_>,
    stride: Option<Values<'_>>,
) -> Result<ListLengths, Refusal> {
    match stride {
        Some(stride) => O::list_lengths(code::SLICE, list, [from, to, stride]),
        None => O::list_lengths(code::SLICE_WITHOUT_STRIDE, list, [from, to, NONE]),
    }
}

/// Tells how much [`resize`](crate::resize) needs.
pub fn resize_lengths<O: Offset>(
    list: ListOf<'_, O>,
    count: Values<'_>,
    fill: Option<Values<'_>>,
) -> Result<ListLengths, Refusal> {
    match fill {
        Some(fill) => O::list_lengths(code::RESIZE, list, [count, fill, NONE]),
        None => O::list_lengths(code::RESIZE_WITHOUT_FILL, list, [count, NONE, NONE]),
    }
}

/// Tells how much [`replace`](crate::replace) needs.
pub fn replace_lengths<O: Offset>(
    list: ListOf<'_, O>,
    from: Values<'_>,
    to: Values<'_>,
    limit: Values<'_>,
) -> Result<ListLengths, Refusal> {
    O::list_lengths(code::REPLACE, list, [from, to, limit])
}

/// Tells how much [`remove`](crate::remove) needs.
pub fn remove_lengths<O: Offset>(
    list: ListOf<'_, O>,
    element: Values<'_>,
    limit: Values<'_>,
) -> Result<ListLengths, Refusal> {
    O::list_lengths(code::REMOVE, list, [element, limit, NONE])
}

/// Tells how much [`union`](crate::union) needs.
pub fn union_lengths<O: Offset>(
    left: ListOf<'_, O>,
    right: ListOf<'_, O>,
) -> Result<ListLengths, Refusal> {
    O::lists_lengths(code::UNION, left, right)
}

/// Tells how much [`intersect`](crate::intersect) needs.
pub fn intersect_lengths<O: Offset>(
    left: ListOf<'_, O>,
    right: ListOf<'_, O>,
) -> Result<ListLengths, Refusal> {
    O::lists_lengths(code::INTERSECT, left, right)
}

/// Tells how much [`any_value`](crate::any_value) needs.
pub fn any_value_lengths<O: Offset>(list: ListOf<'_, O>) -> Result<ValueLengths, Refusal> {
    O::any_value_lengths(list)
}

/// Tells how much [`element`](crate::element) needs.
pub fn element_lengths<O: Offset>(
    list: ListOf<'_, O>,
    index: Values<'_>,
) -> Result<ValueLengths, Refusal> {
    O::element_lengths(list, index)
}

/// Tells how much [`list_repeat`](crate::list_repeat) needs.
///
/// ```
/// use duthlan::{list_repeat_lengths, List, Values};
/// let list = List::new(&[0, 1, 3], &[4, 5, 6]);      // [4] [5, 6]
/// let need = list_repeat_lengths(list, Values::from(&[2, 1]))?;      // for [[4], [4]] [[5, 6]]
/// assert_eq!((need.offsets, need.inner_offsets, need.values), (3, 4, 4));
/// # Ok::<(), duthlan::Refusal>(())
/// ```
pub fn list_repeat_lengths<O: Offset>(
    list: ListOf<'_, O>,
    times: Values<'_>,
) -> Result<RepeatLengths, Refusal> {
    O::list_repeat_lengths(list, times)
}

/// Tells how many elements at most a recipe makes in each tray and in the output, without running it.
///
/// It names no station and moves no tally. Refused, as the run would be, by 10, 13, 1, 2 and 3. A run may
/// still be refused for its rows, but never by 9 where each tray that a step writes, and the output, has
/// so many values, an offset more than the list has rows, and bitmaps to match. A limit is at most
/// 2147483647, of large lists at most 9223372036854775807.
///
/// ```
/// use duthlan::{recipe_limits, run_recipe, List, ListOut, Recipe, RecipeInputs, RecipeLimits};
/// use duthlan::{Tally, Trays, Values};
/// let list = List::new(&[0, 2], &[10, 20]);
/// let recipe = Recipe::new().resize(0, 1).union();
/// let arguments = Values::from(&[3, 0]);      // count 3; fill 0
/// let inputs = RecipeInputs { list, second: list, columns: 2, arguments };
/// let limits = recipe_limits(&recipe, inputs)?;
/// assert_eq!(limits, RecipeLimits { one: 3, two: 0, output: 5 });
///
/// let mut trays = Trays {
///     one: ListOut {
///         offsets: &mut [0; 2],
///         rows: &mut [0; 1],
///         values: &mut [0; 10][..limits.one],
///         elements: &mut [0; 1],
///     },
///     two: ListOut::default(),
/// };
/// let mut out = ListOut {
///     offsets: &mut [0; 2],
///     rows: &mut [0; 1],
///     values: &mut [0; 10][..limits.output],
///     elements: &mut [0; 1],
/// };
/// let counts = run_recipe(2, &recipe, inputs, &mut trays, &mut out, &mut Tally::default())?;
/// assert_eq!(out.written(&counts).values, [10, 20, 0]);
/// # Ok::<(), duthlan::Refusal>(())
/// ```
///
/// With a heap, a tray is `ListBuf::with_room(list.row_count(), limits.one)`.
pub fn recipe_limits<O: Offset>(
    recipe: impl AsRef<[u32]>,
    inputs: RecipeInputsOf<'_, O>,
) -> Result<RecipeLimits, Refusal> {
    O::recipe_limits(recipe.as_ref(), inputs)
}
