//! Columns and room for results in vectors, for programs that have a heap.

use crate::{
    bitmap_bytes, Bits, ListLengths, ListOf, ListOutOf, NestedListOf, Offset, Refusal,
    RepeatLengths, RepeatOutOf, RowsOf, ValueLengths, ValueOut, Values,
};
use std::vec;
use std::vec::Vec;

/// A row: `None` is a null row, and a `None` inside it a null element.
pub type Row = Option<Vec<Option<i64>>>;

/// An outer row that [`list_repeat`](crate::list_repeat) makes: `None` is a null outer row.
pub type OuterRow = Option<Vec<Row>>;

fn copied<O: Offset>(rows: RowsOf<'_, O>) -> Vec<Row> {
    rows.map(|row| row.map(Iterator::collect)).collect()
}

impl<O: Offset> ListOf<'_, O> {
    /// The rows that the column shows, copied; refused as by [`ListOf::shown`].
    pub fn to_rows(self) -> Result<Vec<Row>, Refusal> {
        self.shown().map(copied)
    }
}

impl<O: Offset> NestedListOf<'_, O> {
    /// The outer rows, copied; refused as by [`NestedListOf::shown`].
    pub fn to_rows(self) -> Result<Vec<OuterRow>, Refusal> {
        Ok(self.shown()?.map(|row| row.map(copied)).collect())
    }
}

impl Values<'_> {
    /// The values, copied; refused as by [`Values::shown`].
    pub fn to_vec(self) -> Result<Vec<Option<i64>>, Refusal> {
        Ok(self.shown()?.collect())
    }
}

/// The bytes of these bits.
fn bitmap(bits: impl ExactSizeIterator<Item = bool>) -> Vec<u8> {
    let mut bytes = vec![0; bitmap_bytes(bits.len())];
    for (i, bit) in bits.enumerate() {
        bytes[i / 8] |= u8::from(bit) << (i % 8);
    }
    bytes
}

/// A list column in vectors: one built from rows, or room for a result.
///
/// ```
/// use duthlan::owned::ListBuf;
/// let rows = [Some(vec![Some(12), Some(-3), None]), None, Some(vec![])];
/// let column = ListBuf::from_rows(&rows)?;
/// let mut room = ListBuf::with_room(3, 3);
/// let counts = duthlan::reverse(column.list(), &mut room.out())?;
/// let reversed = room.out().written(&counts).to_rows()?;
/// assert_eq!(reversed, [Some(vec![None, Some(-3), Some(12)]), None, Some(vec![])]);
/// # Ok::<(), duthlan::Refusal>(())
/// ```
#[derive(Clone, Debug, Default)]
pub struct ListBufOf<O> {
    /// One offset more than rows.
    pub offsets: Vec<O>,
    /// A bit a row.
    pub rows: Vec<u8>,
    /// The values.
    pub values: Vec<i64>,
    /// A bit a value.
    pub elements: Vec<u8>,
}

/// A list column in vectors, with offsets of 32 bits: see [`ListBufOf`].
pub type ListBuf = ListBufOf<i32>;

impl<O: Offset> ListBufOf<O> {
    /// A column that shows these rows, in result form; refused by 8 where they have more elements than
    /// the largest offset.
    pub fn from_rows(rows: &[Row]) -> Result<ListBufOf<O>, Refusal> {
        let mut offsets = vec![O::default()];
        let mut cells = Vec::new();
        for row in rows {
            cells.extend(row.iter().flatten());
            offsets.push(O::of_place(cells.len()).ok_or(Refusal::TooMany)?);
        }
        let ValuesBuf { values, valid } = ValuesBuf::from_values(&cells);
        Ok(ListBufOf {
            offsets,
            rows: bitmap(rows.iter().map(Option::is_some)),
            values,
            elements: valid,
        })
    }

    /// Room for a result of so many rows and elements.
    pub fn with_room(rows: usize, elements: usize) -> ListBufOf<O> {
        ListBufOf {
            offsets: vec![O::default(); rows + 1],
            rows: vec![0; bitmap_bytes(rows)],
            values: vec![0; elements],
            elements: vec![0; bitmap_bytes(elements)],
        }
    }

    /// Room of just these lengths, as an operation told them.
    ///
    /// ```
    /// use duthlan::owned::ListBuf;
    /// use duthlan::{resize, resize_lengths, Values};
    /// let column = ListBuf::from_rows(&[Some(vec![Some(5)]), None])?;
    /// let count = Values::from(&[3, 3]);
    /// let mut room = ListBuf::for_lengths(resize_lengths(column.list(), count, None)?);
    /// resize(column.list(), count, None, &mut room.out())?;
    /// assert_eq!(room.list().to_rows()?, [Some(vec![Some(5), None, None]), None]);
    /// # Ok::<(), duthlan::Refusal>(())
    /// ```
    pub fn for_lengths(lengths: ListLengths) -> ListBufOf<O> {
        ListBufOf {
            offsets: vec![O::default(); lengths.offsets],
            rows: vec![0; lengths.row_bytes],
            values: vec![0; lengths.values],
            elements: vec![0; lengths.element_bytes],
        }
    }

    /// The column, to lend to a call.
    pub fn list(&self) -> ListOf<'_, O> {
        ListOf {
            offsets: &self.offsets,
            rows: Bits::from(&self.rows[..]),
            values: &self.values,
            elements: Bits::from(&self.elements[..]),
        }
    }

    /// The room, to lend to a call and to read its result from.
    pub fn out(&mut self) -> ListOutOf<'_, O> {
        ListOutOf {
            offsets: &mut self.offsets,
            rows: &mut self.rows,
            values: &mut self.values,
            elements: &mut self.elements,
        }
    }
}

/// An argument column in vectors, or room for a value answer.
///
/// ```
/// use duthlan::owned::{ListBuf, ValuesBuf};
/// let column = ListBuf::from_rows(&[Some(vec![Some(7), Some(9)]), Some(vec![Some(5)])])?;
/// let index = ValuesBuf::from_values(&[Some(2), None]);
/// let mut room = ValuesBuf::with_room(2);
/// let counts = duthlan::element(column.list(), index.values(), &mut room.out())?;
/// assert_eq!(room.out().written(&counts).to_vec()?, [Some(9), None]);
/// # Ok::<(), duthlan::Refusal>(())
/// ```
#[derive(Clone, Debug, Default)]
pub struct ValuesBuf {
    /// The values.
    pub values: Vec<i64>,
    /// A bit a value.
    pub valid: Vec<u8>,
}

impl ValuesBuf {
    /// A column of these values, `None` for nulls.
    pub fn from_values(values: &[Option<i64>]) -> ValuesBuf {
        ValuesBuf {
            values: values.iter().map(|value| value.unwrap_or(i64::MIN)).collect(),
            valid: bitmap(values.iter().map(Option::is_some)),
        }
    }

    /// Room for a value answer of so many rows.
    pub fn with_room(rows: usize) -> ValuesBuf {
        ValuesBuf { values: vec![0; rows], valid: vec![0; bitmap_bytes(rows)] }
    }

    /// Room of just these lengths, as an operation told them.
    pub fn for_lengths(lengths: ValueLengths) -> ValuesBuf {
        ValuesBuf { values: vec![0; lengths.values], valid: vec![0; lengths.row_bytes] }
    }

    /// The column, to lend to a call.
    pub fn values(&self) -> Values<'_> {
        Values { values: &self.values, valid: Bits::from(&self.valid[..]) }
    }

    /// The room, to lend to a call and to read its result from.
    pub fn out(&mut self) -> ValueOut<'_> {
        ValueOut { values: &mut self.values, rows: &mut self.valid }
    }
}

/// Room in vectors for what [`list_repeat`](crate::list_repeat) makes.
#[derive(Clone, Debug, Default)]
pub struct RepeatBufOf<O> {
    /// One offset more than outer rows.
    pub offsets: Vec<O>,
    /// A bit an outer row.
    pub rows: Vec<u8>,
    /// The inner lists.
    pub inner: ListBufOf<O>,
}

/// Room for what list-repeat makes, with offsets of 32 bits: see [`RepeatBufOf`].
pub type RepeatBuf = RepeatBufOf<i32>;

impl<O: Offset> RepeatBufOf<O> {
    /// Room for a result of so many outer rows, inner lists and values.
    pub fn with_room(rows: usize, inner_rows: usize, elements: usize) -> RepeatBufOf<O> {
        RepeatBufOf {
            offsets: vec![O::default(); rows + 1],
            rows: vec![0; bitmap_bytes(rows)],
            inner: ListBufOf::with_room(inner_rows, elements),
        }
    }

    /// Room of just these lengths, as [`list_repeat_lengths`](crate::list_repeat_lengths) told them.
    pub fn for_lengths(lengths: RepeatLengths) -> RepeatBufOf<O> {
        RepeatBufOf {
            offsets: vec![O::default(); lengths.offsets],
            rows: vec![0; lengths.row_bytes],
            inner: ListBufOf {
                offsets: vec![O::default(); lengths.inner_offsets],
                rows: vec![0; lengths.inner_row_bytes],
                values: vec![0; lengths.values],
                elements: vec![0; lengths.element_bytes],
            },
        }
    }

    /// The room, to lend to a call and to read its result from.
    pub fn out(&mut self) -> RepeatOutOf<'_, O> {
        RepeatOutOf {
            offsets: &mut self.offsets,
            rows: &mut self.rows,
            inner_offsets: &mut self.inner.offsets,
            inner_rows: &mut self.inner.rows,
            values: &mut self.inner.values,
            elements: &mut self.inner.elements,
        }
    }
}
