use crate::operations as code;
use crate::{raw, List, ListCounts, ListOut, Refusal};

/// [`distinct`](crate::distinct) for rows of thousands of elements, by a table in a lent work area.
///
/// The counts and the output are those of `distinct`. The area has at least twice as many slots as the
/// longest valid row has elements, else the call is refused by 14, which comes after 3 and before all
/// other refusals. What the area held has no effect, and after every call, a refused one too, it is all
/// zero.
///
/// ```
/// use duthlan::{distinct_hashed, List, ListOut, Refusal};
/// let list = List::new(&[0, 3, 5], &[7, 9, 7, 7, 9]);      // [7, 9, 7] [7, 9]
/// let mut out = ListOut {
///     offsets: &mut [0; 3],
///     rows: &mut [0; 1],
///     values: &mut [0; 5],
///     elements: &mut [0; 1],
/// };
/// let counts = distinct_hashed(list, &mut [0; 6], &mut out)?;
/// assert_eq!(out.written(&counts).values, [7, 9, 7, 9]);
/// assert_eq!(distinct_hashed(list, &mut [0; 5], &mut out), Err(Refusal::ShortArea));
/// # Ok::<(), Refusal>(())
/// ```
pub fn distinct_hashed(
    list: List<'_>,
    area: &mut [u32],
    out: &mut ListOut<'_>,
) -> Result<ListCounts, Refusal> {
    raw::distinct_hashed(list, area, out)
}

/// [`union`](crate::union) for rows of thousands of elements, by tables in a lent work area.
///
/// The area is as for [`distinct_hashed`], with at least twice as many slots as the longest pair of rows
/// has elements, of those that are valid on both sides, the two lengths added.
///
/// ```
/// use duthlan::{union_hashed, List, ListOut};
/// let (left, right) = (List::new(&[0, 3], &[2, 1, 2]), List::new(&[0, 2], &[1, 5]));
/// let mut out = ListOut {
///     offsets: &mut [0; 2],
///     rows: &mut [0; 1],
///     values: &mut [0; 5],
///     elements: &mut [0; 1],
/// };
/// let mut area = [0; 10];
/// let counts = union_hashed(left, right, &mut area, &mut out)?;
/// assert_eq!(out.written(&counts).values, [2, 1, 5]);
/// # Ok::<(), duthlan::Refusal>(())
/// ```
pub fn union_hashed(
    left: List<'_>,
    right: List<'_>,
    area: &mut [u32],
    out: &mut ListOut<'_>,
) -> Result<ListCounts, Refusal> {
    raw::lists_hashed(code::UNION, left, right, area, out)
}

/// [`intersect`](crate::intersect) for rows of thousands of elements, by tables in a lent work area as
/// for [`union_hashed`].
pub fn intersect_hashed(
    left: List<'_>,
    right: List<'_>,
    area: &mut [u32],
    out: &mut ListOut<'_>,
) -> Result<ListCounts, Refusal> {
    raw::lists_hashed(code::INTERSECT, left, right, area, out)
}
