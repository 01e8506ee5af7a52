use crate::{Offset, Refusal};
use core::iter::FusedIterator;

/// A validity bitmap, lowest bit first, that starts at a bit of its first byte. One of no bytes means
/// all valid.
///
/// ```
/// use duthlan::Bits;
/// let all = Bits::ALL;
/// let whole = Bits::from(&[0b1101]);      // place 1 is null
/// let shared = Bits { bytes: &[0b1101_0000], start: 4 };      // the same, from the middle of a byte
/// ```
#[derive(Clone, Copy, Debug, Default)]
pub struct Bits<'a> {
    /// The bytes; none means all valid.
    pub bytes: &'a [u8],
    /// The bit of the first byte that belongs to place 0; over 7 is refused by 13.
    pub start: usize,
}

impl<'a> Bits<'a> {
    /// The bitmap of no bytes: all valid.
    pub const ALL: Bits<'static> = Bits { bytes: &[], start: 0 };

    /// 13 or 2 of a bitmap for `n` places. A slice has less than 2^63 bytes, so nothing overflows.
    fn check(self, n: usize) -> Result<(), Refusal> {
        if self.start > 7 {
            Err(Refusal::BadStartingBit)
        } else if !self.bytes.is_empty() && self.bytes.len() < (self.start + n).div_ceil(8) {
            Err(Refusal::ShortBitmap)
        } else {
            Ok(())
        }
    }

    /// Whether a place is valid; past the end of the bytes it is not.
    fn is_valid(self, place: usize) -> bool {
        let bit = self.start + place;
        self.bytes.is_empty()
            || self.bytes.get(bit / 8).is_some_and(|byte| byte >> (bit % 8) & 1 == 1)
    }
}

/// A bitmap that starts at bit 0.
impl<'a> From<&'a [u8]> for Bits<'a> {
    fn from(bytes: &'a [u8]) -> Bits<'a> {
        Bits { bytes, start: 0 }
    }
}

/// A bitmap that starts at bit 0.
impl<'a, const N: usize> From<&'a [u8; N]> for Bits<'a> {
    fn from(bytes: &'a [u8; N]) -> Bits<'a> {
        Bits { bytes, start: 0 }
    }
}

/// A list column that is lent to a call, with offsets of 32 bits ([`List`]) or of 64
/// ([`large::List`](crate::large::List)).
///
/// Row r is the values from offset r up to, not including, offset r + 1. The first offset may exceed
/// 0, and a null row may lie over values, which are then not shown. Any slices may be lent: a call
/// that cannot use them is refused.
///
/// ```
/// use duthlan::{Bits, List};
/// // [12, -3, null], a null row over 40 and 41, [], [7, 7, 9]
/// let list = List {
///     offsets: &[0, 3, 5, 5, 8],
///     rows: Bits::from(&[0b1101]),
///     values: &[12, -3, 99, 40, 41, 7, 7, 9],
///     elements: Bits::from(&[0b1111_1011]),
/// };
/// let levels = list.shown().unwrap().flatten().flatten().flatten();
/// assert!(levels.eq([12, -3, 7, 7, 9]));
/// ```
#[derive(Clone, Copy, Debug, Default)]
pub struct ListOf<'a, O> {
    /// One offset more than rows; none at all are zero rows.
    pub offsets: &'a [O],
    /// A bit a row.
    pub rows: Bits<'a>,
    /// The values under the rows.
    pub values: &'a [i64],
    /// A bit a value.
    pub elements: Bits<'a>,
}

/// A list column that is lent to a call, with offsets of 32 bits: see [`ListOf`].
pub type List<'a> = ListOf<'a, i32>;

impl<'a, O: Offset> ListOf<'a, O> {
    /// A column without nulls.
    pub const fn new(offsets: &'a [O], values: &'a [i64]) -> ListOf<'a, O> {
        ListOf { offsets, rows: Bits::ALL, values, elements: Bits::ALL }
    }

    /// How many rows the column has.
    pub const fn row_count(&self) -> usize {
        self.offsets.len().saturating_sub(1)
    }

    /// The rows that the column shows, one after another; refused as an operation would refuse the
    /// column, with 13, 1 or 2.
    pub fn shown(self) -> Result<RowsOf<'a, O>, Refusal> {
        if self.rows.start > 7 || self.elements.start > 7 {
            return Err(Refusal::BadStartingBit);
        }
        check_offsets(self.offsets, self.values.len())?;
        self.rows.check(self.row_count())?;
        self.elements.check(self.values.len())?;
        Ok(RowsOf { list: self, next: 0, end: self.row_count() })
    }
}

/// 1 of offsets over so many values, or inner lists.
fn check_offsets<O: Offset>(offsets: &[O], len: usize) -> Result<(), Refusal> {
    let falls = offsets.windows(2).any(|pair| pair[1] < pair[0]);
    let starts_below = offsets.first().is_some_and(|&first| first < O::default());
    // What is no place here, and not below 0, lies past all of them.
    let ends_past = offsets.last().is_some_and(|&last| last.place().is_none_or(|last| last > len));
    if falls || starts_below || ends_past {
        return Err(Refusal::BadOffsets);
    }
    Ok(())
}

/// Where a row lies; the offsets were checked.
fn bounds<O: Offset>(offsets: &[O], row: usize) -> Option<(usize, usize)> {
    Some((offsets.get(row)?.place()?, offsets.get(row + 1)?.place()?))
}

/// The rows of a column, or of an outer row: `None` is a null row. Made by [`ListOf::shown`] and
/// [`OuterRowsOf`].
#[derive(Clone, Debug)]
pub struct RowsOf<'a, O> {
    list: ListOf<'a, O>,
    next: usize,
    end: usize,
}

/// The rows of a column with offsets of 32 bits: see [`RowsOf`].
pub type Rows<'a> = RowsOf<'a, i32>;

impl<'a, O: Offset> Iterator for RowsOf<'a, O> {
    type Item = Option<Elements<'a>>;

    fn next(&mut self) -> Option<Self::Item> {
        let (row, list) = (self.next, self.list);
        if row >= self.end {
            return None;
        }
        let (next, end) = bounds(list.offsets, row)?;
        self.next += 1;
        let elements = Elements { values: list.values, bits: list.elements, next, end };
        Some(list.rows.is_valid(row).then_some(elements))
    }

    fn size_hint(&self) -> (usize, Option<usize>) {
        let left = self.end - self.next;
        (left, Some(left))
    }
}

impl<O: Offset> ExactSizeIterator for RowsOf<'_, O> {}
impl<O: Offset> FusedIterator for RowsOf<'_, O> {}

/// The elements of a row, or the values of an argument column or a value answer: `None` is a null.
/// Made by [`RowsOf`] and [`Values::shown`].
#[derive(Clone, Debug)]
pub struct Elements<'a> {
    values: &'a [i64],
    bits: Bits<'a>,
    next: usize,
    end: usize,
}

impl Iterator for Elements<'_> {
    type Item = Option<i64>;

    fn next(&mut self) -> Option<Self::Item> {
        let place = self.next;
        if place >= self.end {
            return None;
        }
        let value = *self.values.get(place)?;
        self.next += 1;
        Some(self.bits.is_valid(place).then_some(value))
    }

    fn size_hint(&self) -> (usize, Option<usize>) {
        let left = self.end - self.next;
        (left, Some(left))
    }
}

impl ExactSizeIterator for Elements<'_> {}
impl FusedIterator for Elements<'_> {}

/// An argument column: a value for each row. A limit may also have one value, used for all rows.
///
/// ```
/// use duthlan::{Bits, Values};
/// let plain = Values::from(&[1, 2, 3]);
/// let second_null = Values { values: &[1, 2, 3], valid: Bits::from(&[0b101]) };
/// assert!(second_null.shown().unwrap().eq([Some(1), None, Some(3)]));
/// ```
#[derive(Clone, Copy, Debug, Default)]
pub struct Values<'a> {
    /// The values.
    pub values: &'a [i64],
    /// A bit a value.
    pub valid: Bits<'a>,
}

impl<'a> Values<'a> {
    /// The values, `None` for nulls; refused as an operation would refuse the column, with 13 or 2.
    pub fn shown(self) -> Result<Elements<'a>, Refusal> {
        self.valid.check(self.values.len())?;
        Ok(Elements { values: self.values, bits: self.valid, next: 0, end: self.values.len() })
    }
}

/// A column without nulls.
impl<'a> From<&'a [i64]> for Values<'a> {
    fn from(values: &'a [i64]) -> Values<'a> {
        Values { values, valid: Bits::ALL }
    }
}

/// A column without nulls.
impl<'a, const N: usize> From<&'a [i64; N]> for Values<'a> {
    fn from(values: &'a [i64; N]) -> Values<'a> {
        Values { values, valid: Bits::ALL }
    }
}

/// A column of lists of lists, which [`list_repeat`](crate::list_repeat) writes. Outer row r is the inner
/// lists from offset r up to, not including, offset r + 1.
#[derive(Clone, Copy, Debug, Default)]
pub struct NestedListOf<'a, O> {
    /// One offset more than outer rows.
    pub offsets: &'a [O],
    /// A bit an outer row.
    pub rows: Bits<'a>,
    /// The inner lists of all outer rows, one after another.
    pub inner: ListOf<'a, O>,
}

/// A column of lists of lists with offsets of 32 bits: see [`NestedListOf`].
pub type NestedList<'a> = NestedListOf<'a, i32>;

impl<'a, O: Offset> NestedListOf<'a, O> {
    /// The outer rows, one after another; refused with 13, 1 or 2 where they, or the inner lists, are
    /// no column.
    pub fn shown(self) -> Result<OuterRowsOf<'a, O>, Refusal> {
        let end = self.offsets.len().saturating_sub(1);
        self.inner.shown()?;
        check_offsets(self.offsets, self.inner.row_count())?;
        self.rows.check(end)?;
        Ok(OuterRowsOf { nested: self, next: 0, end })
    }
}

/// The outer rows of a column of lists of lists: `None` is a null outer row. Made by
/// [`NestedListOf::shown`].
#[derive(Clone, Debug)]
pub struct OuterRowsOf<'a, O> {
    nested: NestedListOf<'a, O>,
    next: usize,
    end: usize,
}

/// The outer rows of a column with offsets of 32 bits: see [`OuterRowsOf`].
pub type OuterRows<'a> = OuterRowsOf<'a, i32>;

impl<'a, O: Offset> Iterator for OuterRowsOf<'a, O> {
    type Item = Option<RowsOf<'a, O>>;

    fn next(&mut self) -> Option<Self::Item> {
        let (row, nested) = (self.next, self.nested);
        if row >= self.end {
            return None;
        }
        let (next, end) = bounds(nested.offsets, row)?;
        self.next += 1;
        Some(nested.rows.is_valid(row).then_some(RowsOf { list: nested.inner, next, end }))
    }

    fn size_hint(&self) -> (usize, Option<usize>) {
        let left = self.end - self.next;
        (left, Some(left))
    }
}

impl<O: Offset> ExactSizeIterator for OuterRowsOf<'_, O> {}
impl<O: Offset> FusedIterator for OuterRowsOf<'_, O> {}
