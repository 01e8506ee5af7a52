//! ListView columns: an own reading of Note 3, of which notes 7 and 8 change the number under nulls
//! and the starting bits. A view is an offset and a size a row, in any order, and views may overlap.
//! Import shows the same rows as a list column in result form; export writes the values and bitmaps
//! of result form, and where each row lies there.

use crate::model::{self, Bitmap, Element, Made, Refusal, ResultForm, Row, Slots, Width};

/// A ListView column as it is lent.
#[derive(Clone, Debug, Default)]
pub struct ViewColumn {
    pub offsets: Vec<i64>,
    pub sizes: Vec<i64>,
    pub rows: Bitmap,
    pub values: Vec<i64>,
    pub elements: Bitmap,
}

impl ViewColumn {
    /// "2 counts rows by the offsets", and so does all else.
    pub fn row_count(&self) -> usize {
        self.offsets.len()
    }

    /// "Each offset, size and their sum lies within 0 and the number of values."
    pub fn is_outside(&self, row: usize) -> bool {
        let (offset, size) = (self.offsets[row], self.sizes[row]);
        let lies_within = |number: i64| 0 <= number && number <= self.values.len() as i64;
        !(lies_within(offset) && lies_within(size) && lies_within(offset + size))
    }

    /// The refusal of the column alone: 13, then 2, then 3, then 11 for the first view outside the
    /// values, "null rows included".
    pub fn refusal(&self) -> Option<Refusal> {
        if self.rows.starts_over_7() || self.elements.starts_over_7() {
            return Some(13);
        }
        let is_short = self.rows.is_too_short(self.row_count())
            || self.elements.is_too_short(self.values.len());
        if is_short {
            return Some(2);
        }
        if self.offsets.len() != self.sizes.len() {
            return Some(3);
        }
        (0..self.row_count()).any(|row| self.is_outside(row)).then_some(11)
    }

    fn row(&self, row: usize) -> Row {
        if !self.rows.is_valid(row) {
            return None;
        }
        let (offset, size) = (self.offsets[row] as usize, self.sizes[row] as usize);
        let element = |place: usize| model::shown_value(&self.values, &self.elements, place);
        Some((offset..offset + size).map(element).collect::<Vec<Element>>())
    }

    /// The rows that a well-formed column shows.
    pub fn shown_rows(&self) -> Vec<Row> {
        (0..self.row_count()).map(|row| self.row(row)).collect()
    }

    /// How many elements import copies out of a well-formed column: those of its valid rows.
    pub fn copied(&self) -> u128 {
        let valid = (0..self.row_count()).filter(|row| self.rows.is_valid(*row));
        valid.map(|row| self.sizes[row] as u128).sum()
    }

    /// What import makes of the column, or the refusal that comes before 9: "more than 2147483647
    /// copied elements gives 8".
    pub fn imported(&self) -> Result<Made, Refusal> {
        if let Some(number) = self.refusal() {
            return Err(number);
        }
        let copied = self.copied();
        if copied > Width::Narrow.largest_offset() as u128 {
            return Err(8);
        }
        if copied > model::MOST_HELD as u128 {
            return Ok(Made::TooLong(model::list_slots(self.row_count() as u128, copied)));
        }
        Ok(Made::Lists(self.shown_rows()))
    }

    /// The whole call: the result that is written, or the refusal; 9 comes last.
    pub fn outcome(&self, lengths: &[usize]) -> Result<ResultForm, Refusal> {
        let made = self.imported()?;
        let mut slices = model::slots_needed(&made).into_iter().zip(lengths);
        if slices.all(|(needed, lent)| needed <= *lent as u64) {
            Ok(model::result_form(&made))
        } else {
            Err(9)
        }
    }
}

/// "Export writes values and bitmaps as in result form, each valid row's offset and size there, and
/// gives null rows offset and size 0." The counts are those of a list answer.
pub fn form(rows: &[Row]) -> ResultForm {
    let (mut offsets, mut sizes) = (Vec::new(), Vec::new());
    let mut elements: Vec<Element> = Vec::new();
    for row in rows {
        match row {
            Some(row) => {
                offsets.push(elements.len() as i64);
                sizes.push(row.len() as i64);
                elements.extend(row);
            }
            None => {
                offsets.push(0);
                sizes.push(0);
            }
        }
    }
    let valid = Slots::Bits(model::bitmap_of(rows.iter().map(Option::is_some)));
    let [values, bits] = model::elements_laid_out(&elements);
    let counts = [rows.len() as u64, elements.len() as u64, model::nulls(rows)];
    ResultForm {
        counts: [&counts[..], &[model::nulls(&elements)]].concat(),
        slices: vec![Slots::Offsets(offsets), Slots::Offsets(sizes), valid, values, bits],
    }
}

/// The slots that these rows take as a ListView: none in any slice where there are no rows.
pub fn slots(rows: &[Row]) -> Vec<u64> {
    let (count, elements) = (rows.len() as u128, model::elements_in(rows));
    let slots = [count, count, model::bitmap_slots(count), elements, model::bitmap_slots(elements)];
    slots.map(|slots| slots as u64).to_vec()
}
