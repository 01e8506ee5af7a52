use crate::{
    ListCounts, ListOf, ListOutOf, Offset, Refusal, RepeatCounts, RepeatOutOf, ValueCounts,
    ValueOut, Values,
};

// The codes of the operations on one list and on two, which recipes use too, but the last.
pub(crate) const REVERSE: u32 = 0;
pub(crate) const DISTINCT: u32 = 1;
pub(crate) const POP_FRONT: u32 = 2;
pub(crate) const POP_BACK: u32 = 3;
pub(crate) const SLICE: u32 = 4;
pub(crate) const SLICE_WITHOUT_STRIDE: u32 = 5;
pub(crate) const RESIZE: u32 = 6;
pub(crate) const REPLACE: u32 = 7;
pub(crate) const REMOVE: u32 = 8;
pub(crate) const UNION: u32 = 9;
pub(crate) const INTERSECT: u32 = 10;
pub(crate) const RESIZE_WITHOUT_FILL: u32 = 11;

/// The argument columns of an operation that takes fewer than three.
pub(crate) const NONE: Values<'static> = Values { values: &[], valid: crate::Bits::ALL };

/// Turns each row round.
///
/// ```
/// use duthlan::{reverse, List, ListOut};
/// let list = List::new(&[0, 3, 3, 5], &[1, 2, 3, 7, 9]);      // [1, 2, 3] [] [7, 9]
/// let mut out = ListOut {
///     offsets: &mut [0; 4],
///     rows: &mut [0; 1],
///     values: &mut [0; 5],
///     elements: &mut [0; 1],
/// };
/// let counts = reverse(list, &mut out)?;
/// assert_eq!((counts.rows, counts.elements), (3, 5));
/// assert_eq!(out.values, [3, 2, 1, 9, 7]);
/// # Ok::<(), duthlan::Refusal>(())
/// ```
pub fn reverse<O: Offset>(
    list: ListOf<'_, O>,
    out: &mut ListOutOf<'_, O>,
) -> Result<ListCounts, Refusal> {
    O::list(REVERSE, list, [NONE; 3], out)
}

/// Keeps the first occurrence of each element; null equals null.
pub fn distinct<O: Offset>(
    list: ListOf<'_, O>,
    out: &mut ListOutOf<'_, O>,
) -> Result<ListCounts, Refusal> {
    O::list(DISTINCT, list, [NONE; 3], out)
}

/// Leaves out the first element of each row.
pub fn pop_front<O: Offset>(
    list: ListOf<'_, O>,
    out: &mut ListOutOf<'_, O>,
) -> Result<ListCounts, Refusal> {
    O::list(POP_FRONT, list, [NONE; 3], out)
}

/// Leaves out the last element of each row.
pub fn pop_back<O: Offset>(
    list: ListOf<'_, O>,
    out: &mut ListOutOf<'_, O>,
) -> Result<ListCounts, Refusal> {
    O::list(POP_BACK, list, [NONE; 3], out)
}

/// Takes the places from `from` to `to`, both included, by `stride`.
///
/// 1 is the first place and -1 the last; an absent stride is 1. A `from` of 0, or before the row, is
/// the first place, and a `to` past the row the last; any other bound outside gives an empty row. A
/// null among the arguments gives a null row.
///
/// ```
/// use duthlan::{slice, List, ListOut, Refusal, Values};
/// let list = List::new(&[0, 4], &[10, 20, 30, 40]);
/// let mut out = ListOut {
///     offsets: &mut [0; 2],
///     rows: &mut [0; 1],
///     values: &mut [0; 4],
///     elements: &mut [0; 1],
/// };
/// let (from, to) = (Values::from(&[4]), Values::from(&[1]));
/// let counts = slice(list, from, to, Some(Values::from(&[-2])), &mut out)?;
/// assert_eq!(out.written(&counts).values, [40, 20]);
///
/// let zero = Values::from(&[0]);
/// assert_eq!(slice(list, from, to, Some(zero), &mut out), Err(Refusal::ZeroStride));
/// # Ok::<(), Refusal>(())
/// ```
pub fn slice<O: Offset>(
    list: ListOf<'_, O>,
    from: Values<'_>,
    to: Values<'_>,
    stride: Option<Values<'_>>,
    out: &mut ListOutOf<'_, O>,
) -> Result<ListCounts, Refusal> {
    match stride {
        Some(stride) => O::list(SLICE, list, [from, to, stride], out),
        None => O::list(SLICE_WITHOUT_STRIDE, list, [from, to, NONE], out),
    }
}

/// Cuts each row to `count` elements, or fills it up with `fill`, with nulls where that is null or
/// absent. A null count gives a null row.
pub fn resize<O: Offset>(
    list: ListOf<'_, O>,
    count: Values<'_>,
    fill: Option<Values<'_>>,
    out: &mut ListOutOf<'_, O>,
) -> Result<ListCounts, Refusal> {
    match fill {
        Some(fill) => O::list(RESIZE, list, [count, fill, NONE], out),
        None => O::list(RESIZE_WITHOUT_FILL, list, [count, NONE, NONE], out),
    }
}

/// Puts `to` in place of the first `limit` elements equal to `from`.
///
/// A null `from` matches nulls, a limit of 0 or less changes nothing, and a null limit gives a null
/// row. The limit has a value for each row, or one for all.
pub fn replace<O: Offset>(
    list: ListOf<'_, O>,
    from: Values<'_>,
    to: Values<'_>,
    limit: Values<'_>,
    out: &mut ListOutOf<'_, O>,
) -> Result<ListCounts, Refusal> {
    O::list(REPLACE, list, [from, to, limit], out)
}

/// Leaves out the first `limit` elements equal to `element`.
///
/// A null `element` or limit gives a null row, and a limit of 0 or less changes nothing. The limit has
/// a value for each row, or one for all.
pub fn remove<O: Offset>(
    list: ListOf<'_, O>,
    element: Values<'_>,
    limit: Values<'_>,
    out: &mut ListOutOf<'_, O>,
) -> Result<ListCounts, Refusal> {
    O::list(REMOVE, list, [element, limit, NONE], out)
}

/// Gives the distinct elements of the left row and then the right. A null row on either side gives a
/// null row.
///
/// ```
/// use duthlan::{union, List, ListOut};
/// let (left, right) = (List::new(&[0, 3], &[2, 1, 2]), List::new(&[0, 2], &[1, 5]));
/// let mut out = ListOut {
///     offsets: &mut [0; 2],
///     rows: &mut [0; 1],
///     values: &mut [0; 5],
///     elements: &mut [0; 1],
/// };
/// let counts = union(left, right, &mut out)?;
/// assert_eq!(out.written(&counts).values, [2, 1, 5]);
/// # Ok::<(), duthlan::Refusal>(())
/// ```
pub fn union<O: Offset>(
    left: ListOf<'_, O>,
    right: ListOf<'_, O>,
    out: &mut ListOutOf<'_, O>,
) -> Result<ListCounts, Refusal> {
    O::lists(UNION, left, right, out)
}

/// Gives each common element once, in the order of the longer row, the left one where they are
/// equally long. A null row on either side gives a null row.
pub fn intersect<O: Offset>(
    left: ListOf<'_, O>,
    right: ListOf<'_, O>,
    out: &mut ListOutOf<'_, O>,
) -> Result<ListCounts, Refusal> {
    O::lists(INTERSECT, left, right, out)
}

/// Gives the first valid element of each row, or null.
pub fn any_value<O: Offset>(
    list: ListOf<'_, O>,
    out: &mut ValueOut<'_>,
) -> Result<ValueCounts, Refusal> {
    O::any_value(list, out)
}

/// Gives the element of each row at `index`: 1 is the first, -1 the last, and 0 or outside gives null.
///
/// ```
/// use duthlan::{element, List, ValueOut, Values};
/// let list = List::new(&[0, 3, 3], &[10, 20, 30]);      // [10, 20, 30] []
/// let mut out = ValueOut { values: &mut [0; 2], rows: &mut [0; 1] };
/// let counts = element(list, Values::from(&[-1, -1]), &mut out)?;
/// assert!(out.written(&counts).shown()?.eq([Some(30), None]));
/// # Ok::<(), duthlan::Refusal>(())
/// ```
pub fn element<O: Offset>(
    list: ListOf<'_, O>,
    index: Values<'_>,
    out: &mut ValueOut<'_>,
) -> Result<ValueCounts, Refusal> {
    O::element(list, index, out)
}

/// Repeats each list `times` times in an outer row; a null count gives a null outer row, 0 or less an
/// empty one. A null list repeats as null lists.
///
/// ```
/// use duthlan::{list_repeat, List, RepeatOut, Values};
/// let list = List::new(&[0, 1, 3], &[4, 5, 6]);      // [4] [5, 6]
/// let mut out = RepeatOut {
///     offsets: &mut [0; 3],
///     rows: &mut [0; 1],
///     inner_offsets: &mut [0; 4],
///     inner_rows: &mut [0; 1],
///     values: &mut [0; 4],
///     elements: &mut [0; 1],
/// };
/// let counts = list_repeat(list, Values::from(&[2, 1]), &mut out)?;      // [[4], [4]] [[5, 6]]
/// let repeated = out.written(&counts);
/// assert_eq!((repeated.offsets, repeated.inner.offsets), (&[0, 2, 3][..], &[0, 1, 2, 4][..]));
/// # Ok::<(), duthlan::Refusal>(())
/// ```
pub fn list_repeat<O: Offset>(
    list: ListOf<'_, O>,
    times: Values<'_>,
    out: &mut RepeatOutOf<'_, O>,
) -> Result<RepeatCounts, Refusal> {
    O::list_repeat(list, times, out)
}
