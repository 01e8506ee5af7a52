use crate::outputs::front;
use crate::{raw, Bits, List, ListCounts, ListOut, Refusal};

/// A ListView column that is lent to [`import_view`].
///
/// Row r is the values from offset r on, as many as its size. The views may stand in any order and
/// overlap, and that of a null row, which is not shown, must lie within the values like the others.
/// Any slices may be lent: a call that cannot use them is refused.
///
/// ```
/// use duthlan::{import_view, ListOut, View};
/// let view = View::new(&[2, 0, 1], &[1, 2, 2], &[7, 8, 9]);      // [9] [7, 8] [8, 9]
/// let mut out = ListOut {
///     offsets: &mut [0; 4],
///     rows: &mut [0; 1],
///     values: &mut [0; 5],
///     elements: &mut [0; 1],
/// };
/// let counts = import_view(view, &mut out)?;
/// let list = out.written(&counts);
/// assert_eq!((list.offsets, list.values), (&[0, 1, 3, 5][..], &[9, 7, 8, 8, 9][..]));
/// # Ok::<(), duthlan::Refusal>(())
/// ```
#[derive(Clone, Copy, Debug, Default)]
pub struct View<'a> {
    /// An offset a row.
    pub offsets: &'a [i32],
    /// A size a row.
    pub sizes: &'a [i32],
    /// A bit a row.
    pub rows: Bits<'a>,
    /// The values that the views show.
    pub values: &'a [i64],
    /// A bit a value.
    pub elements: Bits<'a>,
}

impl<'a> View<'a> {
    /// A column without nulls.
    pub const fn new(offsets: &'a [i32], sizes: &'a [i32], values: &'a [i64]) -> View<'a> {
        View { offsets, sizes, rows: Bits::ALL, values, elements: Bits::ALL }
    }

    /// How many rows the column has.
    pub const fn row_count(&self) -> usize {
        self.offsets.len()
    }
}

/// Room for a ListView column, which [`export_view`] writes.
///
/// It takes an offset and a size a row, a bit a row, the elements and a bit an element, and for no rows
/// nothing at all; less room is refused by 9. What lies past the result keeps its content.
#[derive(Debug, Default)]
pub struct ViewOut<'a> {
    /// An offset a row.
    pub offsets: &'a mut [i32],
    /// A size a row.
    pub sizes: &'a mut [i32],
    /// A bit a row.
    pub rows: &'a mut [u8],
    /// The elements.
    pub values: &'a mut [i64],
    /// A bit an element.
    pub elements: &'a mut [u8],
}

impl ViewOut<'_> {
    /// The ListView that an accepted call wrote here.
    pub fn written(&self, counts: &ListCounts) -> View<'_> {
        View {
            offsets: front(self.offsets, counts.rows),
            sizes: front(self.sizes, counts.rows),
            rows: Bits::from(front(self.rows, counts.rows.div_ceil(8))),
            values: front(self.values, counts.elements),
            elements: Bits::from(front(self.elements, counts.elements.div_ceil(8))),
        }
    }
}

/// Writes the rows that a ListView column shows as a list column.
///
/// The result has as many elements as the sizes of the valid rows add up to, more than 2147483647 of
/// them being refused by 8. A view outside the values is refused by 11, that of a null row too, and
/// offsets and sizes of unequal number by 3.
///
/// ```
/// use duthlan::{import_view, ListOut, Refusal, View};
/// let view = View::new(&[1], &[3], &[7, 8, 9]);
/// assert_eq!(import_view(view, &mut ListOut::default()), Err(Refusal::ViewOutside));
/// ```
pub fn import_view(view: View<'_>, out: &mut ListOut<'_>) -> Result<ListCounts, Refusal> {
    raw::import_view(view, out)
}

/// Writes a list column as a ListView.
///
/// The values and the bitmaps are those of a result (see [`ListOut`]); each valid row has the offset
/// and the size that it has there, an empty one too, and null rows have 0 for both. Import of what
/// export wrote gives the list column as a result.
///
/// ```
/// use duthlan::{export_view, Bits, List, ViewOut};
/// // [1, 2], null, []
/// let list = List { rows: Bits::from(&[0b101]), ..List::new(&[0, 2, 2, 2], &[1, 2]) };
/// let mut out = ViewOut {
///     offsets: &mut [0; 3],
///     sizes: &mut [0; 3],
///     rows: &mut [0; 1],
///     values: &mut [0; 2],
///     elements: &mut [0; 1],
/// };
/// let counts = export_view(list, &mut out)?;
/// let view = out.written(&counts);
/// assert_eq!((view.offsets, view.sizes), (&[0, 0, 2][..], &[2, 0, 0][..]));
/// # Ok::<(), duthlan::Refusal>(())
/// ```
pub fn export_view(list: List<'_>, out: &mut ViewOut<'_>) -> Result<ListCounts, Refusal> {
    raw::export_view(list, out)
}
