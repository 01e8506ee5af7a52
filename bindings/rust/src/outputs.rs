use crate::{Bits, ListOf, NestedListOf, Values};

/// The bytes of a bitmap of `bits` bits.
pub const fn bitmap_bytes(bits: usize) -> usize {
    bits.div_ceil(8)
}

/// The first `n` places, or all where there are fewer.
pub(crate) fn front<T>(slice: &[T], n: u64) -> &[T] {
    match usize::try_from(n) {
        Ok(n) if n < slice.len() => &slice[..n],
        _ => slice,
    }
}

/// The offsets and the bitmap of the first `n` rows.
fn front_rows<'a, O>(offsets: &'a [O], rows: &'a [u8], n: u64) -> (&'a [O], Bits<'a>) {
    (front(offsets, n.saturating_add(1)), Bits::from(front(rows, n.div_ceil(8))))
}

/// The first `n` values with their bitmap.
fn front_values<'a>(values: &'a [i64], bits: &'a [u8], n: u64) -> Values<'a> {
    Values { values: front(values, n), valid: Bits::from(front(bits, n.div_ceil(8))) }
}

/// A column of the front parts of its slices.
fn list<'a, O>((offsets, rows): (&'a [O], Bits<'a>), elements: Values<'a>) -> ListOf<'a, O> {
    ListOf { offsets, rows, values: elements.values, elements: elements.valid }
}

/// Room for a list column, as an output or as a tray of a recipe, with offsets of 32 bits
/// ([`ListOut`]) or of 64 ([`large::ListOut`](crate::large::ListOut)).
///
/// A result takes rows + 1 offsets, a bit a row, its elements and a bit an element; less room is
/// refused by 9, and [`ListLengths`](crate::ListLengths) says how to ask first. It begins at offset 0,
/// its bitmaps start at bit 0 and have spare bits 0, null rows are empty, and null elements hold
/// [`i64::MIN`]. What lies past the result keeps its content.
///
/// The slices are `&mut`, so none of them can overlap another slice of the call:
///
/// ```compile_fail,E0502
/// use duthlan::{reverse, List, ListOut};
/// let (offsets, mut values) = ([0, 2], [1, 2]);
/// let list = List::new(&offsets, &values);
/// let (mut out_offsets, mut out_rows, mut out_elements) = ([0; 2], [0; 1], [0; 1]);
/// let mut out = ListOut {
///     offsets: &mut out_offsets,
///     rows: &mut out_rows,
///     values: &mut values,      // lent as input already
///     elements: &mut out_elements,
/// };
/// reverse(list, &mut out);
/// ```
#[derive(Debug)]
pub struct ListOutOf<'a, O> {
    /// One offset more than rows.
    pub offsets: &'a mut [O],
    /// A bit a row.
    pub rows: &'a mut [u8],
    /// The elements.
    pub values: &'a mut [i64],
    /// A bit an element.
    pub elements: &'a mut [u8],
}

/// Room for a list column with offsets of 32 bits: see [`ListOutOf`].
pub type ListOut<'a> = ListOutOf<'a, i32>;

/// No room.
impl<O> Default for ListOutOf<'_, O> {
    fn default() -> Self {
        ListOutOf { offsets: &mut [], rows: &mut [], values: &mut [], elements: &mut [] }
    }
}

impl<O> ListOutOf<'_, O> {
    /// The result that an accepted call wrote here, as a column to read or to lend on.
    pub fn written(&self, counts: &ListCounts) -> ListOf<'_, O> {
        list(
            front_rows(self.offsets, self.rows, counts.rows),
            front_values(self.values, self.elements, counts.elements),
        )
    }
}

/// What an accepted list answer counts.
#[derive(Clone, Copy, Debug, Default, PartialEq, Eq, Hash)]
pub struct ListCounts {
    /// Rows, null ones included.
    pub rows: u64,
    /// Elements of all rows, null ones included.
    pub elements: u64,
    /// Rows that are null.
    pub null_rows: u64,
    /// Elements that are null.
    pub null_elements: u64,
}

/// Room for one value a row. A null slot of the result holds [`i64::MIN`].
#[derive(Debug, Default)]
pub struct ValueOut<'a> {
    /// A value a row.
    pub values: &'a mut [i64],
    /// A bit a row.
    pub rows: &'a mut [u8],
}

impl ValueOut<'_> {
    /// The values that an accepted call wrote here.
    pub fn written(&self, counts: &ValueCounts) -> Values<'_> {
        front_values(self.values, self.rows, counts.rows)
    }
}

/// What an accepted value answer counts.
#[derive(Clone, Copy, Debug, Default, PartialEq, Eq, Hash)]
pub struct ValueCounts {
    /// Rows, null ones included.
    pub rows: u64,
    /// Rows whose value is null.
    pub null_rows: u64,
}

/// Room for a column of lists of lists, which [`list_repeat`](crate::list_repeat) makes.
#[derive(Debug)]
pub struct RepeatOutOf<'a, O> {
    /// One offset more than outer rows; they count inner lists.
    pub offsets: &'a mut [O],
    /// A bit an outer row.
    pub rows: &'a mut [u8],
    /// One offset more than inner lists; they count values.
    pub inner_offsets: &'a mut [O],
    /// A bit an inner list.
    pub inner_rows: &'a mut [u8],
    /// The values.
    pub values: &'a mut [i64],
    /// A bit a value.
    pub elements: &'a mut [u8],
}

/// Room for a column of lists of lists with offsets of 32 bits: see [`RepeatOutOf`].
pub type RepeatOut<'a> = RepeatOutOf<'a, i32>;

/// No room.
impl<O> Default for RepeatOutOf<'_, O> {
    fn default() -> Self {
        RepeatOutOf {
            offsets: &mut [],
            rows: &mut [],
            inner_offsets: &mut [],
            inner_rows: &mut [],
            values: &mut [],
            elements: &mut [],
        }
    }
}

impl<O> RepeatOutOf<'_, O> {
    /// The result that an accepted call wrote here.
    pub fn written(&self, counts: &RepeatCounts) -> NestedListOf<'_, O> {
        let (offsets, rows) = front_rows(self.offsets, self.rows, counts.rows);
        let inner = list(
            front_rows(self.inner_offsets, self.inner_rows, counts.inner_rows),
            front_values(self.values, self.elements, counts.elements),
        );
        NestedListOf { offsets, rows, inner }
    }
}

/// What an accepted list-repeat counts.
#[derive(Clone, Copy, Debug, Default, PartialEq, Eq, Hash)]
pub struct RepeatCounts {
    /// Outer rows, null ones included.
    pub rows: u64,
    /// Values of all inner lists, null ones included.
    pub elements: u64,
    /// Outer rows that are null.
    pub null_rows: u64,
    /// Values that are null.
    pub null_elements: u64,
    /// Inner lists, null ones included.
    pub inner_rows: u64,
    /// Inner lists that are null.
    pub null_inner_rows: u64,
}
