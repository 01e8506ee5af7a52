//! A small column with a null row that lies over values, and what three operations make of it
//! through the typed entries.

use crate::library::Library;
use crate::model::{self, ArgumentColumn, Bitmap, Element, ListColumn, Row};
use crate::plain::{Argument, Column, Lists};
use crate::typed::{List, Typed, Values};

fn show_element(element: &Element) -> String {
    element.map_or("null".to_string(), |value| value.to_string())
}

fn show_row(row: &Row) -> String {
    let Some(row) = row else {
        return "null".to_string();
    };
    format!("[{}]", row.iter().map(show_element).collect::<Vec<_>>().join(", "))
}

fn show_rows(rows: &[Row]) -> String {
    rows.iter().map(show_row).collect::<Vec<_>>().join("  ")
}

fn column() -> ListColumn {
    ListColumn {
        offsets: vec![0, 3, 5, 5, 8],
        rows: Bitmap::from_0(vec![0b1101]),
        values: vec![12, -3, 99, 40, 41, 7, 7, 9],
        elements: Bitmap::from_0(vec![0b11111011]),
    }
}

fn lent<'a>(column: &'a ListColumn, offsets: &'a [i32]) -> List<'a, i32> {
    Column {
        offsets,
        rows: &column.rows.bytes,
        rows_start: column.rows.start,
        values: &column.values,
        elements: &column.elements.bytes,
        elements_start: column.elements.start,
    }
}

const NO_VALUES: Values = Argument { values: &[], bits: &[], start: 0 };

/// The offsets as the entries take them.
fn narrow(column: &ListColumn) -> Vec<i32> {
    column.offsets.iter().map(|offset| *offset as i32).collect()
}

/// Calls a list operation, and gives the rows that come back with their counts.
fn call_list(typed: &Typed<i32>, code: u32, column: &ListColumn) -> (Vec<Row>, [u64; 4]) {
    let (mut offsets, mut values) = (vec![0; 5], vec![0; 8]);
    let (mut rows, mut elements, mut counts) = (vec![0; 1], vec![0; 1], [0; 4]);
    let room = Lists {
        offsets: &mut offsets,
        rows: &mut rows,
        values: &mut values,
        elements: &mut elements,
    };
    let list_offsets = narrow(column);
    let list = lent(column, &list_offsets);
    let answer = (typed.list)(code, list, [NO_VALUES; 3], room, &mut counts);
    assert_eq!(answer, 0, "the example is accepted");
    let offsets = offsets.into_iter().map(i64::from).collect();
    let (rows, elements) = (Bitmap::from_0(rows), Bitmap::from_0(elements));
    (model::shown_rows(&ListColumn { offsets, rows, values, elements }), counts)
}

/// Takes the element of an index from each row, or its first valid one.
fn call_values(typed: &Typed<i32>, column: &ListColumn, index: Option<i64>) -> Vec<Element> {
    let rows = column.row_count();
    let (mut values, mut bits, mut counts) = (vec![0; rows], vec![0; 1], [0; 2]);
    let offsets = narrow(column);
    let list = lent(column, &offsets);
    let answer = match index {
        None => (typed.any_value)(list, &mut values, &mut bits, &mut counts),
        Some(index) => {
            let indexes = Argument { values: &vec![index; rows], ..NO_VALUES };
            (typed.element)(list, indexes, &mut values, &mut bits, &mut counts)
        }
    };
    assert_eq!(answer, 0, "the example is accepted");
    model::shown_arguments(&ArgumentColumn { values, bits: Bitmap::from_0(bits) })
}

fn show_values(values: &[Element]) -> String {
    values.iter().map(show_element).collect::<Vec<_>>().join("  ")
}

pub fn print(library: &Library) {
    let Some(typed) = &library.typed else {
        return println!("no typed entries in the archive");
    };
    let column = column();
    println!("offsets {:?}, values {:?}", column.offsets, column.values);
    println!("row 1 is null and lies over 40, 41; the third value is null and lies over 99");
    println!("rows          {}", show_rows(&model::shown_rows(&column)));
    let (rows, [row_count, elements, null_rows, null_elements]) = call_list(typed, 0, &column);
    println!("reverse       {}", show_rows(&rows));
    println!("  made of     {row_count} rows, {elements} elements");
    println!("  of them     {null_rows} null rows, {null_elements} null elements");
    for index in [1, -1] {
        println!("element {index:2}    {}", show_values(&call_values(typed, &column, Some(index))));
    }
    println!("any-value     {}", show_values(&call_values(typed, &column, None)));
}
