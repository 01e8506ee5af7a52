//! Worked cases with their results written out by hand: the cases of document 01, and boundary
//! inputs. They check the model as well as the library.
//!
//! Rows are written as document 01 writes them: `-` or `null` is a null, and `null(8,8)` is a null
//! row that lies over values.

use crate::compare::{Checker, Observed};
use crate::entry::{decode_offsets, Content, Input, Kind};
use crate::entry::{encode_i32, encode_i64, encode_offsets, Case as LentCase, Entry, Expected};
use crate::generate::{lend, Room};
use crate::model::{ArgumentColumn, Bitmap, ListColumn, Operation, Tally, Width, UNDER_NULL};
use crate::rng::Rng;
use crate::stations::set_tally;

// The notation.

#[derive(Clone, Debug)]
enum Item {
    Null(Vec<Item>),
    Number(i64),
    List(Vec<Item>),
}

/// The items that the text begins with, up to its end or to a closing bracket.
fn parse_items(text: &mut &str) -> Vec<Item> {
    let mut items = Vec::new();
    loop {
        *text = text.trim_start_matches([' ', ',']);
        if text.is_empty() || text.starts_with([']', ')']) {
            return items;
        }
        items.push(parse_item(text));
    }
}

fn parse_item(text: &mut &str) -> Item {
    if take(text, "[") {
        return Item::List(parse_enclosed(text, "]"));
    }
    if take(text, "null(") {
        return Item::Null(parse_enclosed(text, ")"));
    }
    if take(text, "null")
        || !text[1..].starts_with(|one: char| one.is_ascii_digit()) && take(text, "-")
    {
        return Item::Null(Vec::new());
    }
    let end = text.find([',', ' ', ']', ')']).unwrap_or(text.len());
    let number = text[..end].parse().expect("a number in a worked case");
    *text = &text[end..];
    Item::Number(number)
}

fn parse_enclosed(text: &mut &str, end: &str) -> Vec<Item> {
    let items = parse_items(text);
    assert!(take(text, end), "an unclosed bracket in a worked case");
    items
}

fn take(text: &mut &str, start: &str) -> bool {
    let rest = text.strip_prefix(start);
    *text = rest.unwrap_or(text);
    rest.is_some()
}

fn parse(mut text: &str) -> Vec<Item> {
    let items = parse_items(&mut text);
    assert!(text.is_empty(), "a worked case that ends early: {text}");
    items
}

// Columns and results from it.

fn bitmap(items: &[Item]) -> Vec<u8> {
    let mut bytes = vec![0; items.len().div_ceil(8)];
    for (at, item) in items.iter().enumerate() {
        bytes[at / 8] |= u8::from(!matches!(item, Item::Null(_))) << (at % 8);
    }
    bytes
}

fn null_count(items: &[Item]) -> u64 {
    items.iter().filter(|item| matches!(item, Item::Null(_))).count() as u64
}

/// No bitmap where nothing is null.
fn lent_bitmap(items: &[Item]) -> Vec<u8> {
    if null_count(items) == 0 {
        Vec::new()
    } else {
        bitmap(items)
    }
}

/// The numbers, with this one for nulls.
fn numbers(items: &[Item], under_nulls: i64) -> Vec<i64> {
    let number = |item: &Item| match item {
        Item::Number(number) => *number,
        Item::Null(_) => under_nulls,
        Item::List(_) => panic!("a list among the elements of a worked case"),
    };
    items.iter().map(number).collect()
}

/// Offsets of the rows and all that they hold; what lies under null rows is left out or kept.
fn rows_of(items: &[Item], keep_hidden: bool) -> (Vec<i64>, Vec<Item>) {
    let mut offsets = vec![0];
    let mut inside = Vec::new();
    for item in items {
        match item {
            Item::List(items) => inside.extend(items.iter().cloned()),
            Item::Null(items) if keep_hidden => inside.extend(items.iter().cloned()),
            Item::Null(_) => (),
            Item::Number(_) => panic!("a number among the rows of a worked case"),
        }
        offsets.push(inside.len() as i64);
    }
    (offsets, inside)
}

pub fn list_column(text: &str) -> ListColumn {
    let rows = parse(text);
    let (offsets, elements) = rows_of(&rows, true);
    ListColumn {
        offsets,
        rows: Bitmap::from_0(lent_bitmap(&rows)),
        values: numbers(&elements, 77),
        elements: Bitmap::from_0(lent_bitmap(&elements)),
    }
}

fn argument_column(text: &str) -> ArgumentColumn {
    let items = parse(text);
    ArgumentColumn { values: numbers(&items, i64::MIN), bits: Bitmap::from_0(lent_bitmap(&items)) }
}

fn refused(number: u32) -> Observed {
    Observed { number, counts: Vec::new(), written: Vec::new(), tally: None }
}

/// The answer that an entry with so many outputs gives for these rows, or `refusal n`.
fn result(text: &str, outputs: usize) -> Observed {
    if let Some(number) = text.strip_prefix("refusal ") {
        return refused(number.parse().expect("the number of a refusal"));
    }
    let rows = parse(text);
    let mut written = Vec::new();
    let mut items = rows.clone();
    let mut nulls = Vec::new();
    let mut lengths = Vec::new();
    for _ in 0..outputs / 2 - 1 {
        let (offsets, inside) = rows_of(&items, false);
        written.extend([encode_offsets(&offsets, Width::Narrow), bitmap(&items)]);
        nulls.push(null_count(&items));
        lengths.push(items.len() as u64);
        items = inside;
    }
    written.extend([encode_i64(&numbers(&items, UNDER_NULL)), bitmap(&items)]);
    let (elements, null_elements) = (items.len() as u64, null_count(&items));
    let counts = match (&lengths[..], &nulls[..]) {
        ([], []) => vec![elements, null_elements],
        ([rows], [null_rows]) => vec![*rows, elements, *null_rows, null_elements],
        ([rows, inner], [null_rows, null_inner]) => {
            vec![*rows, elements, *null_rows, null_elements, *inner, *null_inner]
        }
        _ => panic!("an entry has two, four or six outputs"),
    };
    Observed { number: 0, counts, written, tally: None }
}

// The cases.

/// What it is; the operation; its lists; its arguments; the result.
type Case =
    (&'static str, Operation, &'static [&'static str], &'static [&'static str], &'static str);

use Operation::{
    AnyValue, Distinct, Element, Intersect, ListRepeat, PopBack, PopFront, Remove, Replace, Resize,
    ResizeWithoutFill, Reverse, Slice, SliceWithoutStride, Union,
};

const S: &[&str] = &["[10,20,30,40]"];

/// Document 01's own.
const OF_DOCUMENT_01: &[Case] = &[
    ("A", Reverse, &["[1,2,-], null, []"], &[], "[-,2,1], null, []"),
    ("B", Distinct, &["[3,-,3,-,1]"], &[], "[3,-,1]"),
    ("C", Union, &["[2,1,2]", "[1,5,-]"], &[], "[2,1,5,-]"),
    ("D", Intersect, &["[1,2]", "[2,1]"], &[], "[1,2]"),
    ("E", Intersect, &["[1,2]", "[2,9,1]"], &[], "[2,1]"),
    ("F", SliceWithoutStride, S, &["0", "5"], "[10,20,30,40]"),
    ("F, stride 1", Slice, S, &["0", "5", "1"], "[10,20,30,40]"),
    ("G", SliceWithoutStride, S, &["-9", "-1"], "[10,20,30,40]"),
    ("G, stride 1", Slice, S, &["-9", "-1", "1"], "[10,20,30,40]"),
    ("H", Slice, S, &["4", "1", "-2"], "[40,20]"),
    ("I", Slice, S, &["1", "0", "0"], "[]"),
    ("J", Slice, S, &["1", "2", "0"], "refusal 5"),
    ("K, -4", Element, S, &["-4"], "10"),
    ("K, 0", Element, S, &["0"], "-"),
    ("K, 2147483647 of []", Element, &["[]"], &["2147483647"], "-"),
    ("K, 2147483648 of []", Element, &["[]"], &["2147483648"], "refusal 4"),
    ("L", Resize, &["[1,2]"], &["4", "-"], "[1,2,-,-]"),
    ("L, no fill", ResizeWithoutFill, &["[1,2]"], &["4"], "[1,2,-,-]"),
    ("M", Replace, &["[-,7,-]"], &["-", "5", "1"], "[5,7,-]"),
    ("N, 2", Remove, &["[7,-,7,7]"], &["7", "2"], "[-,7]"),
    ("N, -1", Remove, &["[7,-,7,7]"], &["7", "-1"], "[7,-,7,7]"),
    ("O", ListRepeat, &["null(8,8), [4]"], &["1, 2"], "[null], [[4],[4]]"),
    ("P", Slice, &["[10,20,30]"], &["2", "3", "2147483647"], "[20]"),
];

/// One list: null rows over values, nulls, short rows.
const OF_ONE_LIST: &[Case] = &[
    ("null is not 0", Distinct, &["[0,-,0]"], &[], "[0,-]"),
    (
        "null is not the smallest",
        Distinct,
        &["[-9223372036854775808,-,-9223372036854775808]"],
        &[],
        "[-9223372036854775808,-]",
    ),
    ("the smallest", AnyValue, &["[-,-9223372036854775808,7]"], &[], "-9223372036854775808"),
    (
        "the smallest",
        Element,
        &["[-,-9223372036854775808], [-]"],
        &["2, 1"],
        "-9223372036854775808, -",
    ),
    ("rows are apart", Distinct, &["[7], [7]"], &[], "[7], [7]"),
    ("over 8,8", Reverse, &["null(8,8), [4]"], &[], "null, [4]"),
    ("over 8,8", PopBack, &["null(8,8), [4]"], &[], "null, []"),
    ("one element", PopFront, &["[5], [6,7], []"], &[], "[], [7], []"),
    ("one element", PopBack, &["[5], [6,7], []"], &[], "[], [6], []"),
    ("first valid", AnyValue, &["[-,-,7], [], [-], null(8)"], &[], "7, -, -, -"),
    ("-2147483649 of []", Element, &["[]"], &["-2147483649"], "refusal 4"),
    ("first", Element, S, &["1"], "10"),
    ("last", Element, S, &["4"], "40"),
    ("past the end", Element, S, &["5"], "-"),
    ("last from the end", Element, S, &["-1"], "40"),
    ("before the first", Element, S, &["-5"], "-"),
    ("smallest", Element, S, &["-2147483648"], "-"),
    ("largest", Element, S, &["2147483647"], "-"),
    ("null index", Element, S, &["-"], "-"),
    ("null row", Element, &["null(8,8)"], &["2147483648"], "-"),
    ("null element", Element, &["[-]"], &["1"], "-"),
    ("two indexes for one row", Element, S, &["1, 1"], "refusal 3"),
];

/// Two lists.
const OF_TWO_LISTS: &[Case] = &[
    ("left null", Union, &["null(8), [1]", "[1], null(9)"], &[], "null, null"),
    ("both null", Union, &["null", "null"], &[], "null"),
    ("null once", Union, &["[-,1,-]", "[-,2]"], &[], "[-,1,2]"),
    ("null is not 0", Union, &["[0]", "[-]"], &[], "[0,-]"),
    (
        "null is not the smallest",
        Union,
        &["[-9223372036854775808]", "[-]"],
        &[],
        "[-9223372036854775808,-]",
    ),
    ("null is not the smallest", Intersect, &["[-9223372036854775808]", "[-]"], &[], "[]"),
    ("repeats in the right", Union, &["[]", "[3,3]"], &[], "[3]"),
    ("all rows empty", Union, &["[], []", "[], []"], &[], "[], []"),
    ("all rows empty", Intersect, &["[], []", "[], []"], &[], "[], []"),
    ("no rows", Union, &["", ""], &[], ""),
    ("no rows", Intersect, &["", ""], &[], ""),
    ("no rows beside one", Union, &["", "[7]"], &[], "refusal 3"),
    ("null is common", Intersect, &["[-]", "[-]"], &[], "[-]"),
    ("null is common, walk right", Intersect, &["[1,-]", "[-,-,2]"], &[], "[-]"),
    ("null and order", Intersect, &["[-,1]", "[1,-]"], &[], "[-,1]"),
    ("repeats make the left longer", Intersect, &["[2,2,1]", "[1,2]"], &[], "[2,1]"),
    ("left null", Intersect, &["null(1)", "[1]"], &[], "null"),
    ("right null", Intersect, &["[1]", "null(1)"], &[], "null"),
    ("left empty", Intersect, &["[]", "[1]"], &[], "[]"),
    ("one row more", Intersect, &["[1]", "[1], []"], &[], "refusal 3"),
];

/// Slices at the ends of 32 bits.
const OF_SLICES: &[Case] = &[
    ("stride past the end", Slice, &["[10,20]"], &["2", "2", "2147483647"], "[20]"),
    ("stride from the first", Slice, &["[10,20]"], &["1", "2", "2147483647"], "[10]"),
    ("from smallest", SliceWithoutStride, &["[7]"], &["-2147483648", "1"], "[7]"),
    ("to smallest", SliceWithoutStride, &["[7]"], &["1", "-2147483648"], "[]"),
    ("0 to 0", SliceWithoutStride, &["[7]"], &["0", "0"], "[]"),
    ("to beyond, from outside", Slice, &["[7]"], &["5", "2147483648", "1"], "refusal 4"),
    ("to below, from outside", SliceWithoutStride, &["[7]"], &["5", "-2147483649"], "refusal 4"),
    ("from beyond, stride 0", Slice, &["[7]"], &["2147483648", "1", "0"], "refusal 4"),
    ("stride 0, from outside", Slice, &["[7]"], &["5", "1", "0"], "[]"),
    ("stride 0, bounds clamped", Slice, S, &["-9", "9", "0"], "refusal 5"),
    ("huge stride, equal bounds", Slice, &["[7]"], &["1", "1", "2147483648"], "refusal 6"),
    ("huge negative, equal bounds", Slice, &["[7]"], &["1", "1", "-2147483649"], "refusal 6"),
    ("huge stride against", Slice, &["[7,8]"], &["2", "1", "2147483648"], "[]"),
    ("huge negative against", Slice, &["[7,8]"], &["1", "2", "-2147483649"], "[]"),
    ("huge negative along", Slice, &["[7,8]"], &["2", "1", "-2147483649"], "refusal 6"),
    ("smallest stride", Slice, &["[7,8]"], &["2", "1", "-2147483648"], "[8]"),
    ("smallest stride, equal", Slice, &["[7,8]"], &["1", "1", "-2147483648"], "[7]"),
    ("equal bounds, -1", Slice, S, &["2", "-3", "-1"], "[20]"),
    ("equal bounds, 1", Slice, S, &["2", "-3", "1"], "[20]"),
    ("to not reached", Slice, S, &["1", "4", "2"], "[10,30]"),
    ("to past the end, back", Slice, S, &["4", "9", "-1"], "[40]"),
    ("from past the end", SliceWithoutStride, S, &["5", "9"], "[]"),
    ("to below minus length", SliceWithoutStride, S, &["1", "-5"], "[]"),
    ("nulls go along", Slice, &["[-,2,-]"], &["3", "1", "-2"], "[-,-]"),
    ("empty row, beyond", Slice, &["[]"], &["2147483648", "2147483648", "0"], "[]"),
    ("empty row, null stride", Slice, &["[]"], &["1", "1", "-"], "null"),
    ("null stride, from beyond", Slice, S, &["2147483648", "1", "-"], "null"),
    ("null row, from beyond", Slice, &["null(8,8)"], &["2147483648", "1", "0"], "null"),
    (
        "first bad row",
        Slice,
        &["[1], [1]"],
        &["1, 9223372036854775807", "1, 1", "0, 1"],
        "refusal 5",
    ),
    (
        "first bad row",
        Slice,
        &["[1], [1]"],
        &["9223372036854775807, 1", "1, 1", "1, 0"],
        "refusal 4",
    ),
    ("two strides for one row", Slice, S, &["1", "1", "1, 1"], "refusal 3"),
];

/// Resize: fills, and the order of 7 and the two ways to 8.
const OF_RESIZE: &[Case] = &[
    ("fill of its row", Resize, &["[], []"], &["1, 1", "5, -"], "[5], [-]"),
    (
        "fill with the smallest",
        Resize,
        &["[-], [1]"],
        &["2, 2", "-9223372036854775808, -"],
        "[-,-9223372036854775808], [1,-]",
    ),
    ("fill not needed", Resize, &["[1,2]"], &["1", "-"], "[1]"),
    ("cut to nothing", Resize, &["[1,2]"], &["0", "3"], "[]"),
    ("null list, null count", Resize, &["null(8), [1]"], &["2, -", "3, 3"], "null, null"),
    ("null list, count -1", Resize, &["null(8), [1]"], &["-1, 1", "3, 3"], "null, [1]"),
    (
        "null list, huge count",
        Resize,
        &["null, [1]"],
        &["9223372036854775807, 1", "3, 3"],
        "null, [1]",
    ),
    ("-1", Resize, &["[1]"], &["-1", "3"], "refusal 7"),
    ("total, then -1", Resize, &["[1], [1]"], &["2147483648, -1", "3, 3"], "refusal 7"),
    ("-1, then total", Resize, &["[1], [1]"], &["-1, 2147483648", "3, 3"], "refusal 7"),
    (
        "running sum at its largest, then -1",
        ResizeWithoutFill,
        &["[], [], [], []"],
        &["9223372036854775807, 9223372036854775807, 1, -1"],
        "refusal 7",
    ),
    (
        "running sum past its largest, then -1",
        ResizeWithoutFill,
        &["[], [], [], []"],
        &["9223372036854775807, 9223372036854775807, 2, -1"],
        "refusal 8",
    ),
    (
        "-1, then running sum past its largest",
        ResizeWithoutFill,
        &["[], [], [], []"],
        &["-1, 9223372036854775807, 9223372036854775807, 2"],
        "refusal 7",
    ),
    ("largest total", ResizeWithoutFill, &["[]"], &["2147483647"], "refusal 9"),
    ("total past it", ResizeWithoutFill, &["[]"], &["2147483648"], "refusal 8"),
    ("total of two rows", ResizeWithoutFill, &["[], []"], &["2147483647, 1"], "refusal 8"),
    ("two counts for one row", ResizeWithoutFill, &["[1]"], &["1, 1"], "refusal 3"),
    ("two fills for one row", Resize, &["[1]"], &["1", "3, 3"], "refusal 3"),
];

/// Replace and remove.
const OF_MATCHES: &[Case] = &[
    ("largest n", Replace, &["[7,7]"], &["7", "5", "9223372036854775807"], "[5,5]"),
    ("smallest n", Replace, &["[7,7]"], &["7", "5", "-9223372036854775808"], "[7,7]"),
    ("n 0", Replace, &["[7]"], &["7", "5", "0"], "[7]"),
    ("null n", Replace, &["[7]"], &["7", "5", "-"], "null"),
    ("null to", Replace, &["[7,7]"], &["7", "-", "1"], "[-,7]"),
    (
        "null by the smallest",
        Replace,
        &["[-,-]"],
        &["-", "-9223372036854775808", "1"],
        "[-9223372036854775808,-]",
    ),
    (
        "the smallest by null",
        Replace,
        &["[-,-9223372036854775808]"],
        &["-9223372036854775808", "-", "9"],
        "[-,-]",
    ),
    ("the smallest is no null", Replace, &["[-]"], &["-9223372036854775808", "5", "1"], "[-]"),
    (
        "without the smallest",
        Remove,
        &["[-,-9223372036854775808,-]"],
        &["-9223372036854775808", "9"],
        "[-,-]",
    ),
    ("null by null", Replace, &["[-]"], &["-", "-", "1"], "[-]"),
    ("null from, no nulls", Replace, &["[7]"], &["-", "5", "1"], "[7]"),
    ("null row", Replace, &["null(7)"], &["7", "5", "1"], "null"),
    ("one n for all", Replace, &["[7,7], [7,7]"], &["7, 7", "5, 5", "1"], "[5,7], [5,7]"),
    ("one null n for all", Replace, &["[7], []"], &["7, 7", "5, 5", "-"], "null, null"),
    ("no rows, one n", Replace, &[""], &["", "", "1"], ""),
    ("no rows, no n", Replace, &[""], &["", "", ""], ""),
    ("no rows, two n", Replace, &[""], &["", "", "1, 1"], "refusal 3"),
    ("three rows, two n", Replace, &["[], [], []"], &["1,1,1", "1,1,1", "1,1"], "refusal 3"),
    ("one from for two rows", Replace, &["[], []"], &["1", "1,1", "1,1"], "refusal 3"),
    ("null element, n -1", Remove, &["[7]"], &["-", "-1"], "null"),
    ("null element, empty row", Remove, &["[]"], &["-", "1"], "null"),
    ("null element, nulls", Remove, &["[-]"], &["-", "1"], "null"),
    ("smallest n", Remove, &["[7]"], &["7", "-9223372036854775808"], "[7]"),
    ("largest n", Remove, &["[7,1,7]"], &["7", "9223372036854775807"], "[1]"),
    ("null n", Remove, &["[7]"], &["7", "-"], "null"),
    ("one n for all", Remove, &["[7,7], [7,7]"], &["7, 7", "1"], "[7], [7]"),
    ("no rows, one n", Remove, &[""], &["", "1"], ""),
    ("one row, no n", Remove, &["[7]"], &["7", ""], "refusal 3"),
];

/// List-repeat: null lists, and the two sums of 8.
const OF_REPEAT: &[Case] = &[
    (
        "the smallest",
        ListRepeat,
        &["[-9223372036854775808,-]"],
        &["2"],
        "[[-9223372036854775808,-],[-9223372036854775808,-]]",
    ),
    ("null over 8,8, no times", ListRepeat, &["null(8,8)"], &["0"], "[]"),
    ("null over 8,8, once", ListRepeat, &["null(8,8)"], &["1"], "[null]"),
    ("null over 8,8, -3 times", ListRepeat, &["null(8,8)"], &["-3"], "[]"),
    ("null over 8,8, null times", ListRepeat, &["null(8,8)"], &["-"], "null"),
    ("empty and nulls", ListRepeat, &["[], [-,1]"], &["2, 2"], "[[],[]], [[-,1],[-,1]]"),
    ("smallest", ListRepeat, &["[4]"], &["-9223372036854775808"], "[]"),
    ("no rows", ListRepeat, &[""], &[""], ""),
    ("values under null not counted", ListRepeat, &["null(1,2,3)"], &["1073741824"], "refusal 9"),
    ("largest over []", ListRepeat, &["[]"], &["9223372036854775807"], "refusal 8"),
    ("null lists count", ListRepeat, &["null"], &["2147483648"], "refusal 8"),
    ("most lists", ListRepeat, &["[4]"], &["2147483647"], "refusal 9"),
    ("values, not lists", ListRepeat, &["[4,4]"], &["1073741824"], "refusal 8"),
    ("values just fit", ListRepeat, &["[4,4]"], &["1073741823"], "refusal 9"),
    ("lists of two rows", ListRepeat, &["[], null"], &["2147483647, 1"], "refusal 8"),
    ("two times for one row", ListRepeat, &["[4]"], &["1, 1"], "refusal 3"),
];

struct Worked {
    name: String,
    input: Input,
    result: Observed,
}

impl Worked {
    /// Whether it is the same at both widths, as it may not be where it is refused with 4, 6 or 8.
    fn is_of_both_widths(&self) -> bool {
        !matches!(self.result.number, 4 | 6 | 8)
    }

    fn at(mut self, width: Width) -> Worked {
        let entry = self.input.entry;
        let kinds = entry.outputs()[entry.results()].iter();
        for (kind, bytes) in kinds.zip(&mut self.result.written) {
            if kind.content == Content::Offsets {
                *bytes = encode_offsets(&decode_offsets(bytes, entry.width), width);
            }
        }
        self.input.entry = Entry { width, ..entry };
        self
    }
}

/// A column that is lent and not taken, and would be refused if it were.
fn untaken() -> ArgumentColumn {
    ArgumentColumn { values: vec![0; 17], bits: Bitmap { bytes: vec![0], start: 8 } }
}

fn worked(
    name: &str,
    operation: Operation,
    lists: Vec<ListColumn>,
    mut arguments: Vec<ArgumentColumn>,
    wanted: &str,
) -> Worked {
    let entry = Entry::of(operation, Width::Narrow);
    arguments.resize_with(entry.arguments(), untaken);
    Worked {
        name: format!("{} ({name})", entry.name()),
        input: Input { entry, numbers: Vec::new(), lists, arguments },
        result: result(wanted, entry.outputs().len()),
    }
}

fn from_text((name, operation, lists, arguments, wanted): &Case) -> Worked {
    let lists = lists.iter().map(|text| list_column(text)).collect();
    let arguments = arguments.iter().map(|text| argument_column(text)).collect();
    worked(name, *operation, lists, arguments, wanted)
}

fn list(offsets: &[i64], rows: &[u8], values: &[i64], elements: &[u8]) -> ListColumn {
    ListColumn {
        offsets: offsets.to_vec(),
        rows: Bitmap::from_0(rows.to_vec()),
        values: values.to_vec(),
        elements: Bitmap::from_0(elements.to_vec()),
    }
}

fn argument(values: &[i64], bits: &[u8]) -> ArgumentColumn {
    ArgumentColumn { values: values.to_vec(), bits: Bitmap::from_0(bits.to_vec()) }
}

/// The list with its bitmaps from these bits.
fn from_bits(mut list: ListColumn, rows_start: usize, elements_start: usize) -> ListColumn {
    (list.rows.start, list.elements.start) = (rows_start, elements_start);
    list
}

fn argument_from(start: usize, values: &[i64], bits: &[u8]) -> ArgumentColumn {
    ArgumentColumn { values: values.to_vec(), bits: Bitmap { bytes: bits.to_vec(), start } }
}

/// Bitmaps from the middle of a byte, and from bits that there are not.
fn cases_from_bits() -> Vec<Worked> {
    let two = |bytes: &[u8]| list(&[0, 1, 2], bytes, &[4, 5], &[]);
    let three = |bytes: &[u8]| list(&[0, 1, 2, 3], bytes, &[4, 5, 6], &[]);
    let seven = |rows_start, elements_start| {
        from_bits(list(&[0, 1], &[], &[7], &[]), rows_start, elements_start)
    };
    let falling = || list(&[1, 0], &[], &[7], &[]);
    let short = || list(&[0, 1], &[], &[0; 9], &[0xff]);
    let none = || list(&[], &[], &[], &[]);
    let one = || argument(&[1], &[]);
    vec![
        // Bits 6 and 7: the first row is null.
        worked("6, two rows", Reverse, vec![from_bits(two(&[0xbf]), 6, 0)], vec![], "null, [5]"),
        worked(
            "6, three rows",
            Reverse,
            vec![from_bits(three(&[0xbf]), 6, 0)],
            vec![],
            "refusal 2",
        ),
        // Bits 6 to 8: the last row is null.
        worked(
            "6, two bytes",
            Reverse,
            vec![from_bits(three(&[0xff, 0xfe]), 6, 0)],
            vec![],
            "[4], [5], null",
        ),
        // Bits 7 and 8: the second element is null.
        worked(
            "7, two elements",
            Distinct,
            vec![from_bits(list(&[0, 2], &[], &[7, 7], &[0x80, 0xfe]), 0, 7)],
            vec![],
            "[7,-]",
        ),
        worked("7 beside no bitmaps", PopBack, vec![from_bits(two(&[]), 7, 7)], vec![], "[], []"),
        worked("8 beside no bitmap", PopFront, vec![seven(8, 0)], vec![], "refusal 13"),
        worked("8 of the elements", AnyValue, vec![seven(0, 8)], vec![], "refusal 13"),
        worked(
            "the largest of no offsets",
            Reverse,
            vec![from_bits(none(), 0, 4294967295)],
            vec![],
            "refusal 13",
        ),
        worked(
            "index null by bit 3",
            Element,
            vec![seven(1, 2)],
            vec![argument_from(3, &[1], &[0xf7])],
            "-",
        ),
        worked(
            "index valid by bit 3",
            Element,
            vec![seven(1, 2)],
            vec![argument_from(3, &[1], &[8])],
            "7",
        ),
        worked(
            "index from 8",
            Element,
            vec![seven(0, 0)],
            vec![argument_from(8, &[1], &[0xff])],
            "refusal 13",
        ),
        worked(
            "13 of the right before 1",
            Union,
            vec![falling(), seven(0, 9)],
            vec![],
            "refusal 13",
        ),
        worked(
            "13 of the left before 1",
            Union,
            vec![seven(9, 0), falling()],
            vec![],
            "refusal 13",
        ),
        worked("13 before 2", Intersect, vec![short(), seven(16, 0)], vec![], "refusal 13"),
        worked(
            "13 before 3",
            Intersect,
            vec![seven(0, 0), from_bits(none(), 8, 0)],
            vec![],
            "refusal 13",
        ),
        worked(
            "13 of the limit before 1",
            Replace,
            vec![falling()],
            vec![one(), one(), argument_from(8, &[1], &[])],
            "refusal 13",
        ),
        // To is null by bit 5, not by bit 0.
        worked(
            "second of three",
            Slice,
            vec![seven(0, 0)],
            vec![one(), argument_from(5, &[1], &[0x01]), one()],
            "null",
        ),
        worked(
            "untaken from 8",
            SliceWithoutStride,
            vec![seven(0, 0)],
            vec![one(), one(), argument_from(8, &[1], &[])],
            "[7]",
        ),
        worked(
            "times from 4",
            ListRepeat,
            vec![seven(0, 0)],
            vec![argument_from(4, &[2], &[0x10])],
            "[[7],[7]]",
        ),
    ]
}

/// Columns that the notation does not give: offsets above 0, short bitmaps, damage.
fn laid_out_cases() -> Vec<Worked> {
    let behind = || list(&[3], &[], &[1, 2, 3], &[]);
    let at_1 = || list(&[1, 1], &[], &[9], &[]);
    let short = || list(&[0, 1], &[], &[0; 9], &[0xff]);
    let falling = || list(&[1, 0], &[], &[7], &[]);
    let seven = || list(&[0, 1], &[], &[7], &[]);
    let none = || list(&[], &[], &[], &[]);
    let none_beside = |bits: &[u8]| list(&[], &[], &[8; 9], bits);
    let no_values = || argument(&[], &[]);
    let nine = |bits: &[u8]| argument(&[1; 9], bits);
    vec![
        worked("no rows at 3", Reverse, vec![behind()], vec![], ""),
        worked("no rows at 3", Distinct, vec![behind()], vec![], ""),
        worked("no rows at 3", Union, vec![behind(), behind()], vec![], ""),
        worked("no rows at 3", Intersect, vec![behind(), list(&[0], &[], &[], &[])], vec![], ""),
        worked("no rows at 3", ListRepeat, vec![behind()], vec![argument(&[], &[])], ""),
        worked("no offsets", Reverse, vec![none()], vec![], ""),
        worked("no offsets", Distinct, vec![none_beside(&[])], vec![], ""),
        worked("no offsets", PopFront, vec![none_beside(&[0, 0])], vec![], ""),
        worked("no offsets", AnyValue, vec![none_beside(&[1, 1, 1])], vec![], ""),
        worked("no offsets", Element, vec![list(&[], &[0], &[8], &[1])], vec![no_values()], ""),
        worked("no offsets", Union, vec![none(), none()], vec![], ""),
        worked("no offsets beside one", Union, vec![none_beside(&[]), behind()], vec![], ""),
        worked("one offset beside none", Intersect, vec![behind(), none()], vec![], ""),
        worked("no offsets", ListRepeat, vec![none_beside(&[])], vec![no_values()], ""),
        worked(
            "no offsets, one byte for nine",
            PopBack,
            vec![none_beside(&[1])],
            vec![],
            "refusal 2",
        ),
        worked(
            "2 of no offsets before 3",
            Union,
            vec![seven(), none_beside(&[1])],
            vec![],
            "refusal 2",
        ),
        worked(
            "1 beside no offsets",
            Intersect,
            vec![none_beside(&[1]), falling()],
            vec![],
            "refusal 1",
        ),
        worked("no offsets beside a row", Union, vec![none(), seven()], vec![], "refusal 3"),
        worked("a row beside no offsets", Union, vec![seven(), none()], vec![], "refusal 3"),
        worked(
            "no offsets beside an index",
            Element,
            vec![none()],
            vec![argument(&[1], &[])],
            "refusal 3",
        ),
        worked(
            "no offsets, one limit",
            Remove,
            vec![none()],
            vec![no_values(), argument(&[1], &[])],
            "",
        ),
        worked("hidden 5", Reverse, vec![list(&[0, 1], &[], &[5], &[0xfe])], vec![], "[-]"),
        worked(
            "null first row",
            Reverse,
            vec![list(&[1, 3, 4], &[2], &[6, 8, 8, 4, 6], &[])],
            vec![],
            "null, [4]",
        ),
        worked(
            "largest at offset 1",
            ResizeWithoutFill,
            vec![at_1()],
            vec![argument(&[2147483647], &[])],
            "refusal 9",
        ),
        worked(
            "null over 2147483648",
            Element,
            vec![at_1()],
            vec![argument(&[2147483648], &[0])],
            "-",
        ),
        worked(
            "number under a null is no match",
            Remove,
            vec![list(&[0, 2], &[], &[7, 7], &[0b10])],
            vec![argument(&[7], &[]), argument(&[1], &[])],
            "[-]",
        ),
        worked(
            "1 of the right before 2 of the left",
            Union,
            vec![short(), falling()],
            vec![],
            "refusal 1",
        ),
        worked(
            "1 of the left before 2 of the right",
            Union,
            vec![falling(), short()],
            vec![],
            "refusal 1",
        ),
        worked(
            "2 before 3",
            Intersect,
            vec![seven(), list(&[0, 0, 0], &[], &[0; 9], &[1])],
            vec![],
            "refusal 2",
        ),
        worked(
            "bitmap for all values",
            ListRepeat,
            vec![short()],
            vec![argument(&[1], &[])],
            "refusal 2",
        ),
        worked(
            "2 of the limit before 3 of the from",
            Replace,
            vec![seven()],
            vec![argument(&[], &[]), argument(&[1], &[]), nine(&[0xff])],
            "refusal 2",
        ),
    ]
}

/// What lists of 32-bit offsets refuse with 4, 6 or 8.
const OF_LARGE: &[Case] = &[
    ("index past 32 bits", Element, &["[7]"], &["2147483648"], "-"),
    ("index past 32 bits of an empty row", Element, &["[]"], &["2147483648"], "-"),
    ("index 1 in its lowest 32 bits", Element, &["[7]"], &["4294967297"], "-"),
    ("largest and smallest index", Element, &["[7], [8]"], &[ENDS], "-, -"),
    ("to past 32 bits", Slice, &["[1,2,3]"], &["1", "2147483648", "1"], "[1,2,3]"),
    ("from past 32 bits", Slice, &["[1,2,3]"], &["2147483648", "3", "1"], "[]"),
    ("smallest from", Slice, &["[1,2,3]"], &[SMALLEST, "-1", "1"], "[1,2,3]"),
    ("smallest to", Slice, &["[1,2,3]"], &["1", SMALLEST, "1"], "[]"),
    ("largest to", SliceWithoutStride, &["[1,2,3]"], &["2", LARGEST], "[2,3]"),
    ("largest stride", Slice, &["[1,2,3]"], &["2", "3", LARGEST], "[2]"),
    ("smallest stride", Slice, &["[1,2,3]"], &["3", "1", SMALLEST], "[3]"),
    ("stride 1 in its lowest 32 bits", Slice, &["[1,2,3]"], &["1", "3", "4294967297"], "[1]"),
    ("far bounds, stride 0", Slice, &["[1,2,3]"], &[SMALLEST, LARGEST, "0"], "refusal 5"),
    ("count past 32 bits", Resize, &["[1]"], &["2147483648", "1"], "refusal 9"),
    ("count at the limit", Resize, &["[1]"], &["1152921504606846975", "1"], "refusal 9"),
    ("count past the limit", Resize, &["[1]"], &["1152921504606846976", "1"], "refusal 8"),
    ("times past 32 bits", ListRepeat, &["[]"], &["2147483648"], "refusal 9"),
    ("times at the limit", ListRepeat, &["[]"], &["1152921504606846974"], "refusal 9"),
    ("times past the limit", ListRepeat, &["[]"], &["1152921504606846975"], "refusal 8"),
    ("values at the limit", ListRepeat, &["[1,2,3]"], &["384307168202282325"], "refusal 9"),
    ("values past the limit", ListRepeat, &["[1,2,3]"], &["384307168202282326"], "refusal 8"),
];

const LARGEST: &str = "9223372036854775807";
const SMALLEST: &str = "-9223372036854775808";
const ENDS: &str = "9223372036854775807, -9223372036854775808";

/// Case O as it lies in the slices.
fn case_o() -> Worked {
    let input = Input {
        entry: Kind::ListRepeat.at(Width::Narrow),
        numbers: Vec::new(),
        lists: vec![list(&[0, 2, 3], &[0b10], &[8, 8, 4], &[])],
        arguments: vec![argument(&[1, 2], &[])],
    };
    let written = vec![
        encode_i32(&[0, 1, 3]),
        vec![0b11],
        encode_i32(&[0, 0, 1, 2]),
        vec![0b110],
        encode_i64(&[4, 4]),
        vec![0b11],
    ];
    let result = Observed { number: 0, counts: vec![2, 2, 0, 0, 3, 1], written, tally: None };
    Worked { name: "O, as bytes".to_string(), input, result }
}

pub fn cases(checker: &mut Checker, entry: Entry, rng: &mut Rng, _calls: u64) {
    let tables =
        [OF_DOCUMENT_01, OF_ONE_LIST, OF_TWO_LISTS, OF_SLICES, OF_RESIZE, OF_MATCHES, OF_REPEAT];
    let written = tables.into_iter().flatten().map(from_text);
    let all = written.chain(laid_out_cases()).chain(cases_from_bits()).chain([case_o()]);
    let all = all.filter(|worked| !entry.is_wide() || worked.is_of_both_widths());
    let large = OF_LARGE.iter().filter(|_| entry.is_wide()).map(from_text);
    let all = all.chain(large).map(|worked| worked.at(entry.width));
    let library = checker.library;
    for worked in all.filter(|worked| library.has(worked.input.entry)) {
        for room in [Room::Exact, Room::Longer(2)] {
            let case = lend(&worked.input, room, rng);
            let observed = checker.check(&case);
            checker.require(observed == worked.result, &case, &worked.name);
        }
    }
}

// Recipes.

/// What it is; the steps; the two lists; the argument columns; the result.
type RecipeCase =
    (&'static str, &'static [[u32; 4]], [&'static str; 2], &'static [&'static str], &'static str);

const REVERSE: [u32; 4] = [0, 0, 0, 0];
const DISTINCT: [u32; 4] = [1, 0, 0, 0];
const POP_FRONT: [u32; 4] = [2, 0, 0, 0];
const POP_BACK: [u32; 4] = [3, 0, 0, 0];
const UNION: [u32; 4] = [9, 0, 0, 0];
const INTERSECT: [u32; 4] = [10, 0, 0, 0];

/// [10,20,30,40] beside an empty row.
const T: [&str; 2] = ["[10,20,30,40]", "[]"];

/// Recipes that go through; what is carried is written behind each.
const OF_STEPS: &[RecipeCase] = &[
    ("no steps", &[], ["null(8,8), [4,-], []", "[], [], []"], &[], "null, [4,-], []"),
    ("no steps, no rows", &[], ["", ""], &["", ""], ""),
    // [40,30,20,10]
    ("reverse, pop front", &[REVERSE, POP_FRONT], T, &[], "[30,20,10]"),
    // [10,20,30], [10,20]
    ("three times pop back", &[POP_BACK, POP_BACK, POP_BACK], T, &[], "[10]"),
    ("once pop back", &[POP_BACK], T, &[], "[10,20,30]"),
    // [40,20]
    ("H, then reverse", &[[4, 2, 0, 1], REVERSE], T, &["1", "-2", "4"], "[20,40]"),
    // [-,N,7], then without N: [-,7]
    (
        "the smallest and nulls",
        &[UNION, [8, 0, 1, 0]],
        ["[-,-9223372036854775808]", "[-,7]"],
        &["-9223372036854775808", "9"],
        "[-,7]",
    ),
    ("from and to in one column", &[[5, 0, 0, 0]], T, &["2"], "[20]"),
    // [2,1,5,-], then the longer is walked: [1,5,-]
    (
        "C, what is common, reverse",
        &[UNION, INTERSECT, REVERSE],
        ["[2,1,2]", "[1,5,-]"],
        &[],
        "[-,5,1]",
    ),
    // [2,9,1] has more elements than [2,1]: it is walked
    ("distinct, E", &[DISTINCT, INTERSECT], ["[1,2,1,2]", "[2,9,1]"], &[], "[2,1]"),
    ("walked before distinct", &[INTERSECT], ["[1,2,1,2]", "[2,9,1]"], &[], "[1,2]"),
    // [1,2,-,-], [1,2,5,-]
    (
        "L, null by 5 once, without 5",
        &[[6, 0, 1, 0], [7, 1, 2, 3], [8, 2, 3, 0]],
        ["[1,2]", "[]"],
        &["4", "-", "5", "1"],
        "[1,2,-]",
    ),
    // []; stride 0 is not looked at in an empty row
    (
        "I, then stride 0 over nothing",
        &[[5, 0, 1, 0], [4, 0, 2, 3]],
        T,
        &["1", "0", "2", "0"],
        "[]",
    ),
    // null; a negative count is not looked at beside a null row
    ("null, then count -1", &[[8, 0, 1, 0], [6, 2, 0, 0]], T, &["-", "1", "-1"], "null"),
    // null, [4]
    (
        "null over 8,8",
        &[REVERSE, UNION, REVERSE],
        ["null(8,8), [4]", "[1], [4,5]"],
        &[],
        "null, [5,4]",
    ),
    ("second row null", &[REVERSE, UNION], ["[1], [2]", "null(7), [3]"], &[], "null, [2,3]"),
    // Column 0 is 2, 3 and column 1 is 1, 3.
    (
        "two rows, two columns",
        &[[5, 1, 0, 0]],
        ["[10,20,30], [1,2,3]", "[], []"],
        &["2, 3", "1, 3"],
        "[10,20], [3]",
    ),
    (
        "two rows, nulls in the second column",
        &[[6, 0, 1, 0], REVERSE],
        ["[1], [2]", "[], []"],
        &["2, 2", "-, 9"],
        "[-,1], [9,2]",
    ),
    (
        "32 times pop back",
        &[POP_BACK; 32],
        ["[5,7,7,7,7,7,7,7,7,7,7,7,7,7,7,7,7,7,7,7,7,7,7,7,7,7,7,7,7,7,7,7,7]", "[]"],
        &[],
        "[5]",
    ),
    ("eight columns", &[[8, 7, 6, 0]], T, &["0", "0", "0", "0", "0", "0", "1", "20"], "[10,30,40]"),
];

/// Recipes that are refused.
const OF_REFUSED_STEPS: &[RecipeCase] = &[
    ("J at step 2", &[REVERSE, [4, 0, 1, 2]], T, &["1", "2", "0"], "refusal 5"),
    (
        "to beyond at step 3",
        &[REVERSE, REVERSE, [5, 0, 1, 0]],
        T,
        &["1", "2147483648"],
        "refusal 4",
    ),
    ("stride beyond at step 1", &[[4, 0, 0, 1], REVERSE], T, &["1", "2147483648"], "refusal 6"),
    ("-1 at step 2", &[POP_FRONT, [6, 0, 0, 0]], T, &["-1"], "refusal 7"),
    ("2147483648 at step 2", &[POP_FRONT, [6, 0, 0, 0]], T, &["2147483648"], "refusal 8"),
    ("2147483647 into a tray", &[[6, 0, 0, 0], POP_BACK], T, &["2147483647"], "refusal 9"),
    // The first of two steps that are refused
    ("5 before 7", &[[4, 0, 0, 1], [6, 2, 0, 0]], T, &["1", "0", "-1"], "refusal 5"),
    ("7 before 5", &[[6, 2, 0, 0], [4, 0, 0, 1]], T, &["1", "0", "-1"], "refusal 7"),
    ("a number too many", &[[0, 0, 0, 1]], T, &["1", "1"], "refusal 10"),
    ("a stride for code 5", &[[5, 0, 0, 1]], T, &["1", "1"], "refusal 10"),
    ("resize without fill", &[[11, 0, 0, 0]], T, &["1"], "refusal 10"),
    ("no such column", &[[8, 0, 2, 0]], T, &["1", "1"], "refusal 10"),
    ("no columns", &[[6, 0, 0, 0]], T, &[], "refusal 10"),
    ("nine columns", &[], T, &["1", "1", "1", "1", "1", "1", "1", "1", "1"], "refusal 10"),
    ("33 steps", &[REVERSE; 33], T, &[], "refusal 10"),
    ("10 behind a refused step", &[[6, 0, 0, 0], [12, 0, 0, 0]], T, &["-1"], "refusal 10"),
    ("second list longer", &[REVERSE], ["[1]", "[1], [2]"], &[], "refusal 3"),
    ("no second row", &[], ["[1]", ""], &[], "refusal 3"),
];

fn recipe_from_text((name, steps, lists, columns, wanted): &RecipeCase) -> Worked {
    let columns: Vec<Vec<Item>> = columns.iter().map(|text| parse(text)).collect();
    let items = columns.concat();
    let entry = Kind::Recipe { station: 5, columns: columns.len() }.at(Width::Narrow);
    Worked {
        name: format!("recipe ({name})"),
        input: Input {
            entry,
            numbers: steps.concat(),
            lists: lists.iter().map(|text| list_column(text)).collect(),
            arguments: vec![argument(&numbers(&items, i64::MIN), &lent_bitmap(&items))],
        },
        result: result(wanted, 4),
    }
}

/// Recipes that the notation does not give.
fn laid_out_recipes() -> Vec<Worked> {
    let recipe = |name: &str, columns: usize, numbers: &[u32], lists, arguments, wanted: &str| {
        let entry = Kind::Recipe { station: 5, columns }.at(Width::Narrow);
        let numbers = numbers.to_vec();
        Worked {
            name: format!("recipe ({name})"),
            input: Input { entry, numbers, lists, arguments: vec![arguments] },
            result: result(wanted, 4),
        }
    };
    let seven = || list(&[0, 1], &[], &[7], &[]);
    let falling = || list(&[1, 0], &[], &[7], &[]);
    let short = || list(&[0, 1], &[], &[0; 9], &[0xff]);
    let none = || argument(&[], &[]);
    let no_offsets = || list(&[], &[1], &[8; 9], &[1, 1]);
    let two_of = |start| vec![seven(), from_bits(seven(), 0, start)];
    let from_8 = || from_bits(seven(), 8, 0);
    let one_offset = || list(&[1], &[], &[8; 9], &[]);
    let no_rows = || vec![no_offsets(), one_offset()];
    let rows_beside = || vec![no_offsets(), seven()];
    let one_by_two = || vec![one_offset(), no_offsets()];
    let one_byte = || vec![one_offset(), list(&[], &[], &[8; 9], &[1])];
    let five = &[0, 0, 0, 0, 0];
    vec![
        recipe("13 of no columns", 0, &[], two_of(0), argument_from(8, &[], &[]), "refusal 13"),
        recipe("7 of no columns", 0, &[], two_of(7), argument_from(7, &[], &[1]), "[7]"),
        recipe("13 of a list not used", 0, &REVERSE, two_of(8), none(), "refusal 13"),
        recipe("13 before 1", 0, &REVERSE, vec![falling(), from_8()], none(), "refusal 13"),
        recipe("13 before 2", 0, &REVERSE, vec![from_8(), short()], none(), "refusal 13"),
        recipe("10 before 13", 0, five, two_of(8), none(), "refusal 10"),
        recipe("10 of 133 numbers", 0, &[0; 133], two_of(0), none(), "refusal 10"),
        recipe("10 of 1028 numbers", 0, &[0; 1028], two_of(0), none(), "refusal 10"),
        recipe("10 of 257 steps before 13", 0, &[0; 1028], two_of(9), none(), "refusal 10"),
        // Two columns from bit 6: bits 6 and 7, the fill null.
        recipe(
            "second column from bit 6",
            2,
            &[6, 0, 1, 0],
            two_of(0),
            argument_from(6, &[2, 3], &[0x7f]),
            "[7,-]",
        ),
        recipe("no offsets, no steps", 0, &[], no_rows(), none(), ""),
        recipe("no offsets, union", 8, &UNION, no_rows(), none(), ""),
        recipe("one offset, then none", 1, &[UNION, REVERSE].concat(), one_by_two(), none(), ""),
        recipe("10 of no offsets", 0, five, no_rows(), none(), "refusal 10"),
        recipe("2 of no offsets", 0, &[], one_byte(), none(), "refusal 2"),
        recipe("3 beside no offsets", 0, &REVERSE, rows_beside(), none(), "refusal 3"),
        recipe("3, a value beside no offsets", 1, &[], no_rows(), argument(&[1], &[]), "refusal 3"),
        recipe("five numbers", 0, five, vec![seven(), seven()], none(), "refusal 10"),
        recipe("10 before 1", 0, five, vec![falling(), seven()], none(), "refusal 10"),
        recipe("10 before 1", 9, &[], vec![seven(), falling()], none(), "refusal 10"),
        recipe("1 of a list not used", 0, &REVERSE, vec![seven(), falling()], none(), "refusal 1"),
        recipe("1 before 2", 0, &UNION, vec![short(), falling()], none(), "refusal 1"),
        recipe("2 of a list not used", 0, &REVERSE, vec![seven(), short()], none(), "refusal 2"),
        recipe(
            "2 of all values lent",
            1,
            &REVERSE,
            vec![seven(), seven()],
            argument(&[1; 9], &[0xff]),
            "refusal 2",
        ),
        recipe("3, a value more", 0, &[], vec![seven(), seven()], argument(&[1], &[]), "refusal 3"),
        recipe("3, a value fewer", 1, &REVERSE, vec![seven(), seven()], none(), "refusal 3"),
        recipe(
            "offsets above 0, null over 8",
            0,
            &[],
            vec![list(&[1, 2, 3], &[0b10], &[6, 8, 4], &[]), list(&[2, 2, 2], &[], &[1, 1], &[])],
            none(),
            "null, [4]",
        ),
    ]
}

/// The bytes of a tally with these counts for station 3, between others.
fn tally_of_3(finished: i64, refused: i64) -> Vec<u8> {
    let finished = [10, 11, 12, finished, 14, 15, 16, 17, 18, 19, 20, 21, 22, 23, 24, 25];
    let refused = [-1, 31, 32, refused, 34, 35, 36, 37, 38, 39, 40, 41, 42, 43, 44, 45];
    [encode_i64(&finished), encode_i64(&refused)].concat()
}

/// A recipe as it lies in the slices: union, then resize to 2 with 2, of [1,-], a null row over 8,8
/// and [4], beside [5], [6] and [4]. The row bits of the first list start at bit 2, its element bits
/// at bit 1.
fn recipe_as_bytes(tray_values: usize) -> LentCase {
    let dirty = |bytes: usize| vec![0xaa; bytes];
    let tray_one = [dirty(16), dirty(1), dirty(8 * tray_values), dirty(1)];
    let tray_two = [dirty(4), dirty(0), dirty(8), dirty(2)];
    let output = [dirty(20), dirty(1), dirty(40), dirty(1)];
    let tally = [tally_of_3(-1, 3), dirty(1)].concat();
    LentCase {
        entry: Kind::Recipe { station: 3, columns: 1 }.at(Width::Narrow),
        starts: vec![2, 1, 3, 5, 7],
        inputs: vec![
            encode_i32(&[9, 0, 0, 0, 6, 0, 0, 0]),
            encode_i32(&[1, 3, 5, 6]),
            vec![0b10111],
            encode_i64(&[9, 1, 2, 8, 8, 4, 9]),
            vec![0b11110110],
            encode_i32(&[0, 1, 2, 3]),
            vec![],
            encode_i64(&[5, 6, 4]),
            vec![],
            encode_i64(&[2, 2, 2]),
            vec![],
        ],
        outputs: [&tray_one[..], &tray_two, &output, &[tally]].concat(),
        counts: dirty(33),
    }
}

/// The union takes four values in tray one: with four slots the recipe goes through, with three it
/// gets 9. The count of recipes finished for its station stands at its largest value.
fn recipes_as_bytes() -> [(LentCase, Expected); 2] {
    let zeros = |lengths: [usize; 8]| lengths.map(|bytes| vec![0; bytes]);
    let result = [
        encode_i32(&[0, 2, 2, 4]),
        vec![0b101],
        encode_i64(&[1, -9223372036854775808, 4, 2]),
        vec![0b1101],
        tally_of_3(-1, 3),
    ];
    let accepted = Expected {
        number: 0,
        written: [&zeros([16, 1, 32, 1, 4, 0, 8, 2])[..], &result].concat(),
        counts: encode_i64(&[3, 4, 1, 1]),
    };
    let no_result = [vec![], vec![], vec![], vec![], tally_of_3(-1, 4)];
    let refused = Expected {
        number: 9,
        written: [&zeros([16, 1, 24, 1, 4, 0, 8, 2])[..], &no_result].concat(),
        counts: Vec::new(),
    };
    [(recipe_as_bytes(4), accepted), (recipe_as_bytes(3), refused)]
}

/// A tally with these counts for station 5, and others about it.
fn tally_of_5(finished: u64, refused: u64) -> Tally {
    std::array::from_fn(|at| match at {
        5 => finished,
        21 => refused,
        4 | 6 | 20 | 22 => u64::MAX,
        _ => at as u64,
    })
}

/// Recipes for station 5, before which 41 were finished for it and 6 refused; once more each for a
/// station that there is not.
pub fn recipes(checker: &mut Checker, entry: Entry, rng: &mut Rng, _calls: u64) {
    let written = OF_STEPS.iter().chain(OF_REFUSED_STEPS).map(recipe_from_text);
    let all = written.chain(laid_out_recipes());
    let all = all.filter(|worked| !entry.is_wide() || worked.is_of_both_widths());
    for worked in all.map(|worked| worked.at(entry.width)) {
        for room in [Room::Exact, Room::Longer(2)] {
            let mut case = lend(&worked.input, room, rng);
            let before = tally_of_5(41, 6);
            set_tally(&mut case, before);
            let accepted = worked.result.number == 0;
            let tally = if accepted { tally_of_5(42, 6) } else { tally_of_5(41, 7) };
            let wanted = Observed { tally: Some(tally), ..worked.result.clone() };
            let observed = checker.check(&case);
            checker.require(observed == wanted, &case, &worked.name);
            case.entry = case.entry.with_station(16);
            let wanted = Observed { tally: Some(before), ..refused(15) };
            let observed = checker.check(&case);
            checker.require(observed == wanted, &case, &format!("{}, station 16", worked.name));
        }
    }
    for (case, wanted) in recipes_as_bytes().into_iter().filter(|_| !entry.is_wide()) {
        checker.check(&case);
        checker.require(case.expected() == wanted, &case, "recipe (as bytes)");
    }
}
