//! The plain Rust once more, as it is where numbers are decoded inside and there is no heap: the
//! second baseline of the benchmark, which does what the port's entries do. Arrays on the stack, of
//! the sizes that they have there and zeroed, take every number lent; the operation runs on
//! integers; the slots that it counts are encoded. A refusal writes nothing.

use crate::library::Library;
use crate::plain::{self, Argument, Call, Column, Lists, Outer, RecipeColumns};
use crate::plain::{MOST_ARGUMENTS, MOST_INNER_OFFSETS, MOST_OFFSETS, MOST_ROWS, MOST_VALUES};

pub const LIBRARY: Library = Library {
    list: Some(list),
    any_value: Some(any_value),
    element: Some(element),
    lists: Some(lists),
    list_with: Some(list_with),
    list_repeat: Some(list_repeat),
    recipe: Some(recipe),
    typed: None,
    large: None,
    grades: None,
    views: None,
    windows: None,
    hashed: None,
};

fn decode_i32<'a>(bytes: &[u8], array: &'a mut [i32]) -> &'a [i32] {
    let numbers = bytes.as_chunks().0;
    let slots = &mut array[..numbers.len()];
    for (slot, number) in slots.iter_mut().zip(numbers) {
        *slot = i32::from_le_bytes(*number);
    }
    slots
}

fn decode_i64<'a>(bytes: &[u8], array: &'a mut [i64]) -> &'a [i64] {
    let numbers = bytes.as_chunks().0;
    let slots = &mut array[..numbers.len()];
    for (slot, number) in slots.iter_mut().zip(numbers) {
        *slot = i64::from_le_bytes(*number);
    }
    slots
}

fn encode_i32(numbers: &[i32], bytes: &mut [u8]) {
    for (slot, number) in bytes.as_chunks_mut().0.iter_mut().zip(numbers) {
        *slot = number.to_le_bytes();
    }
}

fn encode_i64(numbers: &[i64], bytes: &mut [u8]) {
    for (slot, number) in bytes.as_chunks_mut().0.iter_mut().zip(numbers) {
        *slot = number.to_le_bytes();
    }
}

/// The arrays that a list column is decoded into.
struct ListArrays {
    offsets: [i32; MOST_OFFSETS],
    values: [i64; MOST_VALUES],
}

impl ListArrays {
    const ZERO: ListArrays = ListArrays { offsets: [0; MOST_OFFSETS], values: [0; MOST_VALUES] };

    fn decode<'a>(
        &'a mut self,
        [offsets, rows, values, elements]: [&'a [u8]; 4],
        [rows_start, elements_start]: [u32; 2],
    ) -> Column<'a, i32, i64> {
        let offsets = decode_i32(offsets, &mut self.offsets);
        let values = decode_i64(values, &mut self.values);
        let (rows_start, elements_start) = (rows_start as usize, elements_start as usize);
        Column { offsets, rows, rows_start, values, elements, elements_start }
    }
}

fn argument<'a>(
    [values, bits]: [&'a [u8]; 2],
    start: u32,
    array: &'a mut [i64],
) -> Argument<'a, i64> {
    Argument { values: decode_i64(values, array), bits, start: start as usize }
}

fn write_lists(
    call: &Call<i32, i64>,
    [offsets, rows, values, elements]: [&mut [u8]; 4],
) -> Result<[u64; 4], u32> {
    let mut arrays = ListArrays::ZERO;
    let room = Lists {
        offsets: &mut arrays.offsets[..offsets.len() / 4],
        rows,
        values: &mut arrays.values[..values.len() / 8],
        elements,
    };
    let counts = plain::write_lists(call, room)?;
    encode_i32(&arrays.offsets[..=counts[0] as usize], offsets);
    encode_i64(&arrays.values[..counts[1] as usize], values);
    Ok(counts)
}

/// Runs an operation that makes one value a row on an array, and encodes the values.
fn write_values(
    bytes: &mut [u8],
    write: impl FnOnce(&mut [i64]) -> Result<[u64; 2], u32>,
) -> Result<[u64; 2], u32> {
    let mut array = [0; MOST_ROWS];
    let counts = write(&mut array[..bytes.len() / 8])?;
    encode_i64(&array[..counts[0] as usize], bytes);
    Ok(counts)
}

fn list(
    code: u32,
    inputs: [&[u8]; 4],
    starts: [u32; 2],
    outputs: [&mut [u8]; 4],
    counts: &mut [u8],
) -> u32 {
    let result = plain::check_list(code, &inputs, &outputs, counts).and_then(|()| {
        let mut arrays = ListArrays::ZERO;
        let list = arrays.decode(inputs, starts);
        write_lists(&Call { code, list, right: None, arguments: &[] }, outputs)
    });
    plain::answer(result, counts)
}

fn lists(
    code: u32,
    inputs: [&[u8]; 8],
    [s0, s1, s2, s3]: [u32; 4],
    outputs: [&mut [u8]; 4],
    counts: &mut [u8],
) -> u32 {
    let result = plain::check_lists(code, &inputs, &outputs, counts).and_then(|()| {
        let [l0, l1, l2, l3, r0, r1, r2, r3] = inputs;
        let mut arrays = [ListArrays::ZERO; 2];
        let [left_arrays, right_arrays] = &mut arrays;
        let list = left_arrays.decode([l0, l1, l2, l3], [s0, s1]);
        let right = Some(right_arrays.decode([r0, r1, r2, r3], [s2, s3]));
        write_lists(&Call { code, list, right, arguments: &[] }, outputs)
    });
    plain::answer(result, counts)
}

fn list_with(
    code: u32,
    inputs: [&[u8]; 10],
    [s0, s1, s2, s3, s4]: [u32; 5],
    outputs: [&mut [u8]; 4],
    counts: &mut [u8],
) -> u32 {
    let result = plain::check_list_with(code, &inputs, &outputs, counts).and_then(|taken| {
        let [offsets, rows, values, elements, first, b1, second, b2, third, b3] = inputs;
        let mut arrays = ListArrays::ZERO;
        let list = arrays.decode([offsets, rows, values, elements], [s0, s1]);
        let (mut x, mut y, mut z) = ([0; MOST_ROWS], [0; MOST_ROWS], [0; MOST_ROWS]);
        let arguments = [
            argument([first, b1], s2, &mut x),
            argument([second, b2], s3, &mut y),
            argument([third, b3], s4, &mut z),
        ];
        write_lists(&Call { code, list, right: None, arguments: &arguments[..taken] }, outputs)
    });
    plain::answer(result, counts)
}

fn any_value(
    inputs: [&[u8]; 4],
    starts: [u32; 2],
    outputs: [&mut [u8]; 2],
    counts: &mut [u8],
) -> u32 {
    let result = plain::check_any_value(&inputs, &outputs, counts).and_then(|()| {
        let mut arrays = ListArrays::ZERO;
        let column = arrays.decode(inputs, starts);
        let [values, rows] = outputs;
        write_values(values, |array| plain::write_any_values(column, array, rows))
    });
    plain::answer(result, counts)
}

fn element(
    inputs: [&[u8]; 6],
    [s0, s1, s2]: [u32; 3],
    outputs: [&mut [u8]; 2],
    counts: &mut [u8],
) -> u32 {
    let result = plain::check_element(&inputs, &outputs, counts).and_then(|()| {
        let [offsets, rows, values, elements, indexes, index_bits] = inputs;
        let mut arrays = ListArrays::ZERO;
        let column = arrays.decode([offsets, rows, values, elements], [s0, s1]);
        let mut array = [0; MOST_ROWS];
        let indexes = argument([indexes, index_bits], s2, &mut array);
        let [values, rows] = outputs;
        write_values(values, |array| plain::write_elements(column, indexes, array, rows))
    });
    plain::answer(result, counts)
}

fn list_repeat(
    inputs: [&[u8]; 6],
    [s0, s1, s2]: [u32; 3],
    outputs: [&mut [u8]; 6],
    counts: &mut [u8],
) -> u32 {
    let result = plain::check_list_repeat(&inputs, &outputs, counts).and_then(|()| {
        let [offsets, rows, values, elements, times, times_bits] = inputs;
        let mut arrays = ListArrays::ZERO;
        let column = arrays.decode([offsets, rows, values, elements], [s0, s1]);
        let mut array = [0; MOST_ROWS];
        let times = argument([times, times_bits], s2, &mut array);
        write_repeated(column, times, outputs)
    });
    plain::answer(result, counts)
}

fn write_repeated(
    column: Column<i32, i64>,
    times: Argument<i64>,
    [offsets, rows, inner_offsets, inner_rows, values, elements]: [&mut [u8]; 6],
) -> Result<[u64; 6], u32> {
    let mut arrays = ListArrays::ZERO;
    let mut inner_array = [0; MOST_INNER_OFFSETS];
    let outer = Outer { offsets: &mut arrays.offsets[..offsets.len() / 4], rows };
    let inner = Lists {
        offsets: &mut inner_array[..inner_offsets.len() / 4],
        rows: inner_rows,
        values: &mut arrays.values[..values.len() / 8],
        elements,
    };
    let counts = plain::write_repeated(column, times, outer, inner)?;
    encode_i32(&arrays.offsets[..=counts[0] as usize], offsets);
    encode_i32(&inner_array[..=counts[4] as usize], inner_offsets);
    encode_i64(&arrays.values[..counts[1] as usize], values);
    Ok(counts)
}

/// The part of a list's arrays that the bytes of a tray or of the output have room for.
fn room<'a>(
    arrays: &'a mut ListArrays,
    [offsets, rows, values, elements]: [&'a mut [u8]; 4],
) -> Lists<'a, i32, i64> {
    let offsets = &mut arrays.offsets[..offsets.len() / 4];
    Lists { offsets, rows, values: &mut arrays.values[..values.len() / 8], elements }
}

fn recipe(
    station: u32,
    columns: u32,
    inputs: [&[u8]; 11],
    [b0, b1, b2, b3, b4]: [u32; 5],
    outputs: [&mut [u8]; 13],
    counts: &mut [u8],
) -> u32 {
    plain::recipe_by(station, inputs, outputs, counts, |inputs, outputs| {
        let [numbers, l0, l1, l2, l3, s0, s1, s2, s3, values, bits] = inputs;
        let [o0, o1, o2, o3, t0, t1, t2, t3, r0, r1, r2, r3] = outputs;
        let mut arrays = [ListArrays::ZERO; 4];
        let [list, second, one, two] = &mut arrays;
        let mut array = [0; MOST_ARGUMENTS];
        let lent = RecipeColumns {
            list: list.decode([l0, l1, l2, l3], [b0, b1]),
            second: second.decode([s0, s1, s2, s3], [b2, b3]),
            arguments: argument([values, bits], b4, &mut array),
        };
        let trays = [room(one, [o0, o1, o2, o3]), room(two, [t0, t1, t2, t3])];
        let mut results = ListArrays::ZERO;
        let output = Lists {
            offsets: &mut results.offsets[..r0.len() / 4],
            rows: r1,
            values: &mut results.values[..r2.len() / 8],
            elements: r3,
        };
        let counts = plain::run_recipe(columns as usize, numbers, &lent, trays, output)?;
        encode_i32(&results.offsets[..=counts[0] as usize], r0);
        encode_i64(&results.values[..counts[1] as usize], r2);
        Ok(counts)
    })
}
