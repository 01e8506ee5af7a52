//! The crate over the archive: each function and each refusal, what is kept and what is cleared, how
//! much to lend, and the reading of columns in Rust beside that of the archive. The lists that are
//! tried, and what their width decides, come from above.

use crate::tried::owned::{ListBuf, RepeatBuf, Row, ValuesBuf};
use crate::tried::{
    any_value, any_value_lengths, bitmap_bytes, distinct, distinct_lengths, element,
    element_lengths, intersect, intersect_lengths, list_repeat, list_repeat_lengths, pop_back,
    pop_back_lengths, pop_front, pop_front_lengths, recipe_limits, remove, remove_lengths, replace,
    replace_lengths, resize, resize_lengths, reverse, reverse_lengths, run_recipe, slice,
    slice_lengths, union, union_lengths, Bits, List, ListCounts, ListLengths, ListOut, Recipe,
    RecipeInputs, RecipeLimits, Refusal, RepeatLengths, Tally, Trays, ValueCounts, ValueLengths,
    ValueOut, Values,
};

use crate::{Number, FAR, LARGEST, MOST_ELEMENTS, MOST_LISTS, REFUSES_FAR};

/// Rows in the notation of the examples, `-` for a null element and `null` for a null row.
fn rows(text: &str) -> Vec<Row> {
    let cell = |cell: &str| (cell != "-").then(|| cell.parse().expect("a number"));
    let row = |row: &str| {
        let inside = row.strip_prefix('[')?.strip_suffix(']')?;
        Some(inside.split(',').filter(|text| !text.is_empty()).map(cell).collect())
    };
    text.split_whitespace().map(row).collect()
}

/// A bitmap of these bits that starts at a bit; all other bits are 1.
fn bits_from(bits: impl Iterator<Item = bool>, start: usize) -> Vec<u8> {
    let mut bytes = vec![255; 3];
    for (i, bit) in bits.enumerate() {
        if !bit {
            bytes[(start + i) / 8] &= !(1 << ((start + i) % 8));
        }
    }
    bytes
}

/// A column that shows rows in another layout: the first offset above 0, null rows over values, other
/// numbers under nulls, and bitmaps that start inside a byte.
struct Layout {
    offsets: Vec<Number>,
    rows: Vec<u8>,
    values: Vec<i64>,
    elements: Vec<u8>,
    starts: [usize; 2],
}

impl Layout {
    fn new(rows: &[Row], starts: [usize; 2]) -> Layout {
        let mut cells = vec![Some(70)];
        let mut offsets = vec![1];
        for row in rows {
            match row {
                Some(row) => cells.extend(row),
                None => cells.extend([Some(71), None]),
            }
            offsets.push(cells.len() as Number);
        }
        cells.push(None);
        Layout {
            offsets,
            rows: bits_from(rows.iter().map(Option::is_some), starts[0]),
            values: cells.iter().map(|cell| cell.unwrap_or(72)).collect(),
            elements: bits_from(cells.iter().map(Option::is_some), starts[1]),
            starts,
        }
    }

    fn list(&self) -> List<'_> {
        List {
            offsets: &self.offsets,
            rows: Bits { bytes: &self.rows, start: self.starts[0] },
            values: &self.values,
            elements: Bits { bytes: &self.elements, start: self.starts[1] },
        }
    }
}

fn column(text: &str) -> ListBuf {
    ListBuf::from_rows(&rows(text)).expect("few elements")
}

/// What a list operation makes of rows, in every layout that is tried.
fn make(text: &str, call: impl Fn(List, &mut ListOut) -> Result<ListCounts, Refusal>) -> Vec<Row> {
    let lent = rows(text);
    let plain = ListBuf::from_rows(&lent).expect("few elements");
    let mut room = ListBuf::with_room(8, 20);
    let mut out = room.out();
    let counts = call(plain.list(), &mut out).expect("accepted");
    let made = out.written(&counts).to_rows().expect("a column");
    assert_eq!(counts.rows as usize, made.len());
    assert_eq!(counts.null_rows as usize, made.iter().filter(|row| row.is_none()).count());
    let elements = || made.iter().flatten().flatten();
    assert_eq!(counts.elements as usize, elements().count());
    assert_eq!(counts.null_elements as usize, elements().filter(|cell| cell.is_none()).count());
    for starts in [[0, 0], [1, 3], [7, 6], [4, 1]] {
        let layout = Layout::new(&lent, starts);
        assert_eq!(layout.list().to_rows().as_ref(), Ok(&lent));
        let mut room = ListBuf::with_room(8, 20);
        let mut out = room.out();
        assert_eq!(call(layout.list(), &mut out), Ok(counts));
        assert_eq!(out.written(&counts).to_rows().as_ref(), Ok(&made));
    }
    made
}

const ROWS: &str = "[12,-3,-] null [] [7,7,9]";

#[test]
fn operations_on_one_list() {
    assert_eq!(make(ROWS, reverse), rows("[-,-3,12] null [] [9,7,7]"));
    assert_eq!(make(ROWS, distinct), rows("[12,-3,-] null [] [7,9]"));
    assert_eq!(make(ROWS, pop_front), rows("[-3,-] null [] [7,9]"));
    assert_eq!(make(ROWS, pop_back), rows("[12,-3] null [] [7,7]"));
}

/// An argument column whose bitmap starts at a bit; 1, which would serve, lies under its nulls.
fn shifted(cells: &[Option<i64>], start: usize) -> (Vec<i64>, Vec<u8>) {
    let numbers = cells.iter().map(|cell| cell.unwrap_or(1)).collect();
    (numbers, bits_from(cells.iter().map(Option::is_some), start))
}

#[test]
fn operations_with_arguments() {
    let (one, two) = (Some(1), Some(2));
    let (a, a_bits) = shifted(&[two, one, one, None], 5);
    let (b, b_bits) = shifted(&[Some(-1), one, None, one], 2);
    let (c, c_bits) = shifted(&[one, None, one, one], 7);
    let first = Values { values: &a, valid: Bits { bytes: &a_bits, start: 5 } };
    let second = Values { values: &b, valid: Bits { bytes: &b_bits, start: 2 } };
    let third = Values { values: &c, valid: Bits { bytes: &c_bits, start: 7 } };
    const FOUR: &str = "[2,-1,-] [5] [1] [1]";
    assert_eq!(
        make(FOUR, |list, out| slice(list, first, second, Some(third), out)),
        rows("[-1,-] null null null")
    );
    assert_eq!(
        make(FOUR, |list, out| slice(list, first, second, None, out)),
        rows("[-1,-] [5] null null")
    );
    assert_eq!(
        make("[2] [5] [] null", |list, out| resize(list, first, Some(second), out)),
        rows("[2,-1] [5] [-] null")
    );
    assert_eq!(
        make("[2] [5,6] [] [1]", |list, out| resize(list, first, None, out)),
        rows("[2,-] [5] [-] null")
    );
    assert_eq!(
        make("[2,-1] [1] [1,1] [-]", |list, out| replace(list, first, second, third, out)),
        rows("[-1,-1] null [-,1] [1]")
    );
    assert_eq!(
        make("[2,-1,2] [1] [1] [1]", |list, out| remove(list, first, third, out)),
        rows("[-1,2] null [] null")
    );
    let once = Values::from(&[1]);
    assert_eq!(
        make("[2,2] [1,1] [1] null", |list, out| remove(list, first, once, out)),
        rows("[2] [1] [] null")
    );
}

#[test]
fn operations_on_two_lists() {
    for starts in [[0, 0], [2, 5]] {
        let right = Layout::new(&rows("[1,5,-] [2,9,1] null []"), starts);
        let right = right.list();
        let left = "[2,1,2] [1,2] [1] [3]";
        assert_eq!(
            make(left, |list, out| union(list, right, out)),
            rows("[2,1,5,-] [1,2,9] null [3]")
        );
        assert_eq!(make(left, |list, out| intersect(list, right, out)), rows("[1] [2,1] null []"));
    }
    assert_eq!(make(ROWS, |list, out| union(list, list, out)), make(ROWS, distinct));
}

#[test]
fn operations_that_make_values() {
    let (index, index_bits) = shifted(&[Some(-1), Some(1), Some(1), None], 6);
    let index = Values { values: &index, valid: Bits { bytes: &index_bits, start: 6 } };
    for starts in [[0, 0], [3, 1]] {
        let layout = Layout::new(&rows("[-,4,5] null [] [7]"), starts);
        let mut room = ValuesBuf::with_room(5);
        let mut out = room.out();
        let counts = any_value(layout.list(), &mut out).expect("accepted");
        assert_eq!(counts, ValueCounts { rows: 4, null_rows: 2 });
        assert_eq!(out.written(&counts).to_vec(), Ok(vec![Some(4), None, None, Some(7)]));
        let counts = element(layout.list(), index, &mut out).expect("accepted");
        assert_eq!(counts, ValueCounts { rows: 4, null_rows: 3 });
        assert_eq!(out.written(&counts).to_vec(), Ok(vec![Some(5), None, None, None]));
    }
}

#[test]
fn list_repeat_makes_lists_of_lists() {
    let (times, times_bits) = shifted(&[Some(1), Some(2), None, Some(0)], 3);
    let times = Values { values: &times, valid: Bits { bytes: &times_bits, start: 3 } };
    for starts in [[0, 0], [5, 2]] {
        let layout = Layout::new(&rows("null [4,-] [] [7]"), starts);
        let mut room = RepeatBuf::with_room(4, 3, 4);
        let mut out = room.out();
        let counts = list_repeat(layout.list(), times, &mut out).expect("accepted");
        assert_eq!((counts.rows, counts.null_rows), (4, 1));
        assert_eq!((counts.inner_rows, counts.null_inner_rows), (3, 1));
        assert_eq!((counts.elements, counts.null_elements), (4, 2));
        let repeated = out.written(&counts);
        assert_eq!(repeated.offsets, [0, 1, 3, 3, 3]);
        assert_eq!(repeated.inner.offsets, [0, 0, 2, 4]);
        let twice = rows("[4,-] [4,-]");
        assert_eq!(
            repeated.to_rows(),
            Ok(vec![Some(vec![None]), Some(twice), None, Some(Vec::new())])
        );
    }
}

/// Calls with outputs that hold a pattern, and checks that a refusal has left it there.
fn refusal(call: impl Fn(&mut ListOut) -> Result<ListCounts, Refusal>) -> Refusal {
    let (mut offsets, mut values) = ([85; 8], [86; 20]);
    let (mut rows, mut elements) = ([87; 2], [88; 4]);
    let mut out = ListOut {
        offsets: &mut offsets,
        rows: &mut rows,
        values: &mut values,
        elements: &mut elements,
    };
    let refusal = call(&mut out).expect_err("refused");
    assert_eq!((offsets, values), ([85; 8], [86; 20]));
    assert_eq!((rows, elements), ([87; 2], [88; 4]));
    refusal
}

#[test]
fn each_refusal_keeps_the_outputs() {
    let seven = List::new(&[0, 1], &[7]);
    let one = Values::from(&[1]);
    let wide = Values::from(&[FAR]);
    let bytes = [255];
    let late = Bits { bytes: &bytes, start: 7 };
    let bad_start = Bits { bytes: &[], start: 8 };
    assert_eq!(refusal(|out| reverse(List::new(&[-1], &[]), out)), Refusal::BadOffsets);
    assert_eq!(refusal(|out| reverse(List::new(&[0, 2], &[7]), out)), Refusal::BadOffsets);
    assert_eq!(
        refusal(|out| reverse(List { rows: late, ..List::new(&[0, 0, 0], &[]) }, out)),
        Refusal::ShortBitmap
    );
    assert_eq!(refusal(|out| union(seven, List::default(), out)), Refusal::RowCountsDiffer);
    if REFUSES_FAR {
        assert_eq!(refusal(|out| slice(seven, wide, one, None, out)), Refusal::WideIndex);
        assert_eq!(refusal(|out| slice(seven, one, one, Some(wide), out)), Refusal::WideStride);
    }
    assert_eq!(
        refusal(|out| slice(seven, one, one, Some(Values::from(&[0])), out)),
        Refusal::ZeroStride
    );
    assert_eq!(
        refusal(|out| resize(seven, Values::from(&[-1]), None, out)),
        Refusal::NegativeCount
    );
    assert_eq!(refusal(|out| resize(seven, wide, None, out)), Refusal::TooMany);
    assert_eq!(refusal(|out| resize(seven, Values::from(&[21]), None, out)), Refusal::ShortOutput);
    assert_eq!(
        refusal(|out| reverse(List { elements: bad_start, ..seven }, out)),
        Refusal::BadStartingBit
    );
    assert_eq!(
        refusal(|out| {
            let inputs = RecipeInputs { list: seven, second: seven, ..RecipeInputs::default() };
            let recipe = Recipe::new().resize(0, 1);
            run_recipe(0, recipe, inputs, &mut Trays::default(), out, &mut Tally::default())
        }),
        Refusal::MalformedRecipe
    );
    assert_eq!(
        refusal(|out| {
            let inputs = RecipeInputs::default();
            run_recipe(16, [], inputs, &mut Trays::default(), out, &mut Tally::default())
        }),
        Refusal::NoSuchStation
    );
}

#[test]
fn what_lies_past_a_result_is_kept() {
    let mut out = ListOut {
        offsets: &mut [85; 4],
        rows: &mut [86; 2],
        values: &mut [87; 3],
        elements: &mut [88; 2],
    };
    let counts = reverse(List::new(&[0, 2], &[1, 2]), &mut out).expect("accepted");
    assert_eq!((&out.offsets[..], &out.values[..]), (&[0, 2, 85, 85][..], &[2, 1, 87][..]));
    assert_eq!((&out.rows[..], &out.elements[..]), (&[1, 86][..], &[3, 88][..]));
    let written = out.written(&counts);
    assert_eq!((written.offsets.len(), written.values.len()), (2, 2));
    assert_eq!((written.rows.bytes.len(), written.elements.bytes.len()), (1, 1));
}

#[test]
fn no_slices_at_all_are_zero_rows() {
    let mut out = ListOut { offsets: &mut [9], ..ListOut::default() };
    assert_eq!(reverse(List::default(), &mut out), Ok(ListCounts::default()));
    assert_eq!(out.offsets, [0]);
    assert_eq!(reverse(List::default(), &mut ListOut::default()), Err(Refusal::ShortOutput));
}

/// Runs a recipe over trays that hold numbers before it, and checks that they are zero after it.
fn run(
    station: u32,
    recipe: impl AsRef<[u32]>,
    inputs: RecipeInputs,
    tally: &mut Tally,
) -> Result<Vec<Row>, Refusal> {
    let mut one = ListBuf::with_room(8, 20);
    one.values.fill(85);
    one.rows.fill(85);
    let mut two = one.clone();
    let mut room = ListBuf::with_room(8, 20);
    let mut out = room.out();
    let mut trays = Trays { one: one.out(), two: two.out() };
    let answer = run_recipe(station, recipe, inputs, &mut trays, &mut out, tally);
    let made = answer.map(|counts| out.written(&counts).to_rows().expect("a column"));
    for tray in [one, two] {
        assert!(tray.offsets.iter().all(|&offset| offset == 0));
        assert!(tray.values.iter().all(|&value| value == 0));
        assert!(tray.rows.iter().chain(&tray.elements).all(|&byte| byte == 0));
    }
    made
}

#[test]
fn recipes_chain_operations() {
    let (four, twelve, last, one) = (Some(4), Some(12), Some(-1), Some(1));
    let mut cells: Vec<_> = [four, twelve, last, one].iter().flat_map(|&cell| [cell; 4]).collect();
    cells[13] = None; // of the second row, which is null
    let (numbers, bits) = shifted(&cells, 5);
    let (first, second) = (Layout::new(&rows(ROWS), [5, 2]), Layout::new(&rows(ROWS), [1, 6]));
    let inputs = RecipeInputs {
        list: first.list(),
        second: second.list(),
        columns: 4,
        arguments: Values { values: &numbers, valid: Bits { bytes: &bits, start: 5 } },
    };
    let mut tally = Tally::default();
    let mut made = |recipe: Recipe| run(1, recipe, inputs, &mut tally).expect("accepted");
    let step = Recipe::new();
    assert_eq!(made(step), rows(ROWS));
    assert_eq!(made(step.reverse()), rows("[-,-3,12] null [] [9,7,7]"));
    let recipe = step.reverse().distinct().slice(3, 2, 3).resize(0, 1);
    assert_eq!(made(recipe), rows("[-,-3,12,12] null [12,12,12,12] [9,7,12,12]"));
    let recipe = recipe.replace(1, 2, 3).union();
    assert_eq!(made(recipe), rows("[-,-3,-1,12] null [-1,12] [9,7,-1,12]"));
    let recipe = recipe.remove(2, 3).intersect();
    assert_eq!(made(recipe), rows("[-,-3,12] null [] [9,7]"));
    assert_eq!(made(recipe.pop_front().pop_back()), rows("[-3] null [] []"));
    assert_eq!(made(recipe.slice_without_stride(3, 3)), rows("[-] null [] [9]"));
    cells[15] = None; // of the last row
    let (numbers, bits) = shifted(&cells, 3);
    let arguments = Values { values: &numbers, valid: Bits { bytes: &bits, start: 3 } };
    let second = Layout::new(&rows("[9,12] [1] null [7]"), [6, 3]);
    let inputs = RecipeInputs { arguments, second: second.list(), ..inputs };
    let mut made = |recipe: Recipe| run(1, recipe, inputs, &mut tally).expect("accepted");
    assert_eq!(made(step.slice_without_stride(3, 3)), rows("[12] null [] null"));
    assert_eq!(made(step.union()), rows("[12,-3,-,9] null null [7,9]"));
    assert_eq!(tally.finished, [0, 9, 0, 0, 0, 0, 0, 0, 0, 0, 0, 0, 0, 0, 0, 0]);
    assert_eq!(tally.refused, [0; 16]);
    assert_eq!(format!("{:?}", step.remove(2, 3)), "Recipe [[8, 2, 3, 0]]");
}

#[test]
fn a_refused_recipe_counts_for_its_station() {
    let seven = column("[7]");
    let inputs =
        RecipeInputs { list: seven.list(), second: seven.list(), ..RecipeInputs::default() };
    let mut tally = Tally::default();
    tally.refused[15] = u64::MAX;
    assert_eq!(run(15, [0, 0], inputs, &mut tally), Err(Refusal::MalformedRecipe));
    assert_eq!(run(14, [0, 0], inputs, &mut tally), Err(Refusal::MalformedRecipe));
    assert_eq!(run(16, [0, 0], inputs, &mut tally), Err(Refusal::NoSuchStation));
    let one_column = RecipeInputs { columns: 1, ..inputs };
    assert_eq!(run(3, [], one_column, &mut tally), Err(Refusal::RowCountsDiffer));
    let other = RecipeInputs { second: List::default(), ..inputs };
    assert_eq!(run(3, [], other, &mut tally), Err(Refusal::RowCountsDiffer));
    let mut refused = [0; 16];
    (refused[3], refused[14], refused[15]) = (2, 1, u64::MAX);
    assert_eq!(tally, Tally { finished: [0; 16], refused });
}

#[test]
fn a_recipe_has_up_to_32_steps() {
    let list = column("[1,2] [3]");
    let inputs = RecipeInputs { list: list.list(), second: list.list(), ..RecipeInputs::default() };
    let steps = |n| (0..n).fold(Recipe::new(), |recipe: Recipe, _| recipe.reverse());
    let mut tally = Tally::default();
    assert_eq!(run(0, steps(31), inputs, &mut tally), Ok(rows("[2,1] [3]")));
    assert_eq!(run(0, steps(32), inputs, &mut tally), Ok(rows("[1,2] [3]")));
    assert_eq!(steps(33).numbers().len(), 4 * 33);
    for n in [33, 34, 64] {
        assert_eq!(run(0, steps(n), inputs, &mut tally), Err(Refusal::MalformedRecipe));
    }
    assert_eq!((tally.finished[0], tally.refused[0]), (2, 3));
}

/// `List::shown` is written in Rust: over many small columns, good and bad, it gives the refusal that
/// the archive gives, or the rows that it copies.
#[test]
fn shown_agrees_with_the_archive() {
    let numbers = [11, 12, 13];
    let bitmaps: [&[u8]; 4] = [&[], &[0b1010_0101], &[0b0101_1010], &[0x5a, 0xa5]];
    let mut tried = [0; 2];
    for code in 0..6usize.pow(3) {
        let offsets = [code % 6, code / 6 % 6, code / 36].map(|offset| offset as Number - 1);
        for (length, rows, elements) in
            (0..4).flat_map(|n| (0..4).flat_map(move |r| (0..4).map(move |e| (n, r, e))))
        {
            for starts in [[0, 0], [6, 0], [0, 6], [7, 5], [8, 0], [0, 8]] {
                let list = List {
                    offsets: &offsets[..length],
                    rows: Bits { bytes: bitmaps[rows], start: starts[0] },
                    values: &numbers,
                    elements: Bits { bytes: bitmaps[elements], start: starts[1] },
                };
                let inputs = RecipeInputs { list, second: list, ..RecipeInputs::default() };
                let copied = run(0, [], inputs, &mut Tally::default());
                assert_eq!(list.to_rows(), copied, "{list:?}");
                tried[usize::from(copied.is_err())] += 1;
            }
        }
    }
    assert!(tried[0] > 1000 && tried[1] > 1000, "{tried:?}");
}

/// What the operations are lent to try how much they need.
#[derive(Clone, Copy)]
struct Lent<'a> {
    list: List<'a>,
    right: List<'a>,
    a: Values<'a>,
    b: Values<'a>,
    c: Values<'a>,
}

type Asks = fn(Lent) -> Result<ListLengths, Refusal>;
type Runs = fn(Lent, &mut ListOut) -> Result<ListCounts, Refusal>;

/// Each list operation, the question first.
const LIST_OPERATIONS: [(Asks, Runs); 12] = [
    (|l| reverse_lengths(l.list), |l, out| reverse(l.list, out)),
    (|l| distinct_lengths(l.list), |l, out| distinct(l.list, out)),
    (|l| pop_front_lengths(l.list), |l, out| pop_front(l.list, out)),
    (|l| pop_back_lengths(l.list), |l, out| pop_back(l.list, out)),
    (
        |l| slice_lengths(l.list, l.a, l.b, Some(l.c)),
        |l, out| slice(l.list, l.a, l.b, Some(l.c), out),
    ),
    (|l| slice_lengths(l.list, l.a, l.b, None), |l, out| slice(l.list, l.a, l.b, None, out)),
    (|l| resize_lengths(l.list, l.a, Some(l.b)), |l, out| resize(l.list, l.a, Some(l.b), out)),
    (|l| resize_lengths(l.list, l.a, None), |l, out| resize(l.list, l.a, None, out)),
    (|l| replace_lengths(l.list, l.a, l.b, l.c), |l, out| replace(l.list, l.a, l.b, l.c, out)),
    (|l| remove_lengths(l.list, l.a, l.c), |l, out| remove(l.list, l.a, l.c, out)),
    (|l| union_lengths(l.list, l.right), |l, out| union(l.list, l.right, out)),
    (|l| intersect_lengths(l.list, l.right), |l, out| intersect(l.list, l.right, out)),
];

/// Calls `call` with each of the lengths one less in turn, where it is not 0.
fn one_less<const N: usize>(lengths: [usize; N], mut call: impl FnMut([usize; N])) {
    for i in (0..N).filter(|&i| lengths[i] > 0) {
        let mut less = lengths;
        less[i] -= 1;
        call(less);
    }
}

/// Asks each list operation, lends just as much, and one less in each slice in turn. Gives the
/// answers; a refusal is the operation's own.
fn ask_for_lists(lent: Lent) -> Vec<Result<ListLengths, Refusal>> {
    let ask_one = |&(ask, run): &(Asks, Runs)| {
        let mut room = ListBuf::with_room(8, 30);
        let wanted = run(lent, &mut room.out());
        let asked = ask(lent);
        assert_eq!(
            asked,
            wanted.map(|counts| {
                let (rows, values) = (counts.rows as usize, counts.elements as usize);
                ListLengths {
                    offsets: rows + 1,
                    row_bytes: bitmap_bytes(rows),
                    values,
                    element_bytes: bitmap_bytes(values),
                }
            })
        );
        if let Ok(need) = asked {
            let mut tight = ListBuf::for_lengths(need);
            assert_eq!(run(lent, &mut tight.out()), wanted);
            assert_eq!(
                tight.list().to_rows(),
                room.out().written(&wanted.expect("accepted")).to_rows()
            );
            let lengths = [need.offsets, need.row_bytes, need.values, need.element_bytes];
            one_less(lengths, |[offsets, row_bytes, values, element_bytes]| {
                let less = ListLengths { offsets, row_bytes, values, element_bytes };
                let mut room = ListBuf::for_lengths(less);
                assert_eq!(run(lent, &mut room.out()), Err(Refusal::ShortOutput));
            });
        }
        asked
    };
    LIST_OPERATIONS.iter().map(ask_one).collect()
}

/// The same of any-value and element.
fn ask_for_values(lent: Lent) {
    type Asks = fn(Lent) -> Result<ValueLengths, Refusal>;
    type Runs = fn(Lent, &mut ValueOut) -> Result<ValueCounts, Refusal>;
    let operations: [(Asks, Runs); 2] = [
        (|l| any_value_lengths(l.list), |l, out| any_value(l.list, out)),
        (|l| element_lengths(l.list, l.a), |l, out| element(l.list, l.a, out)),
    ];
    for (ask, run) in operations {
        let wanted = run(lent, &mut ValuesBuf::with_room(8).out());
        let asked = ask(lent);
        let rows = wanted.map(|counts| counts.rows as usize);
        assert_eq!(
            asked,
            rows.map(|rows| ValueLengths { values: rows, row_bytes: bitmap_bytes(rows) })
        );
        if let Ok(need) = asked {
            assert_eq!(run(lent, &mut ValuesBuf::for_lengths(need).out()), wanted);
            one_less([need.values, need.row_bytes], |[values, row_bytes]| {
                let mut room = ValuesBuf::for_lengths(ValueLengths { values, row_bytes });
                assert_eq!(run(lent, &mut room.out()), Err(Refusal::ShortOutput));
            });
        }
    }
}

/// The same of list-repeat.
fn ask_for_list_repeat(Lent { list, a: times, .. }: Lent) {
    let wanted = list_repeat(list, times, &mut RepeatBuf::with_room(8, 30, 30).out());
    let asked = list_repeat_lengths(list, times);
    assert_eq!(
        asked,
        wanted.map(|counts| {
            let (rows, inner_rows) = (counts.rows as usize, counts.inner_rows as usize);
            RepeatLengths {
                offsets: rows + 1,
                row_bytes: bitmap_bytes(rows),
                inner_offsets: inner_rows + 1,
                inner_row_bytes: bitmap_bytes(inner_rows),
                values: counts.elements as usize,
                element_bytes: bitmap_bytes(counts.elements as usize),
            }
        })
    );
    if let Ok(need) = asked {
        assert_eq!(list_repeat(list, times, &mut RepeatBuf::for_lengths(need).out()), wanted);
        let inner = [need.inner_offsets, need.inner_row_bytes, need.values, need.element_bytes];
        let [a, b, c, d] = inner;
        one_less([need.offsets, need.row_bytes, a, b, c, d], |lengths| {
            let [offsets, row_bytes, inner_offsets, inner_row_bytes, values, element_bytes] =
                lengths;
            let mut room = RepeatBuf::for_lengths(RepeatLengths {
                offsets,
                row_bytes,
                inner_offsets,
                inner_row_bytes,
                values,
                element_bytes,
            });
            assert_eq!(list_repeat(list, times, &mut room.out()), Err(Refusal::ShortOutput));
        });
    }
}

#[test]
fn just_the_lengths_asked_are_enough() {
    let left = rows("[12,-3,-] null [] [7,7,9]");
    let right = rows("[1,12,-] [2,9,1] null []");
    let (one, two) = (Some(1), Some(2));
    let (a, a_bits) = shifted(&[two, one, one, None], 5);
    let (b, b_bits) = shifted(&[Some(-1), one, None, one], 2);
    let (c, c_bits) = shifted(&[one, None, one, one], 7);
    for starts in [[0, 0], [1, 3], [7, 6]] {
        let (left, right) = (Layout::new(&left, starts), Layout::new(&right, [starts[1], 4]));
        let lent = Lent {
            list: left.list(),
            right: right.list(),
            a: Values { values: &a, valid: Bits { bytes: &a_bits, start: 5 } },
            b: Values { values: &b, valid: Bits { bytes: &b_bits, start: 2 } },
            c: Values { values: &c, valid: Bits { bytes: &c_bits, start: 7 } },
        };
        for lent in [
            lent,
            Lent { list: lent.right, right: lent.list, ..lent },
            Lent { a: Values::from(&[1; 4]), b: Values::from(&[3; 4]), ..lent },
        ] {
            assert!(ask_for_lists(lent).iter().all(Result::is_ok));
            ask_for_values(lent);
            ask_for_list_repeat(lent);
        }
    }
    let nothing = Lent {
        list: List::default(),
        right: List::default(),
        a: Values::default(),
        b: Values::default(),
        c: Values::default(),
    };
    let no_rows = ListLengths { offsets: 1, row_bytes: 0, values: 0, element_bytes: 0 };
    assert!(ask_for_lists(nothing).iter().all(|asked| *asked == Ok(no_rows)));
    ask_for_values(nothing);
    ask_for_list_repeat(nothing);
}

#[test]
fn lengths_of_more_than_can_be_lent() {
    let list = column("[5] null []");
    let most = [MOST_ELEMENTS, MOST_ELEMENTS, 0];
    let need = resize_lengths(list.list(), Values::from(&most), None).expect("accepted");
    let elements = MOST_ELEMENTS as usize;
    assert_eq!((need.values, need.element_bytes), (elements, bitmap_bytes(elements)));
    let most = [0, 0, MOST_LISTS];
    let need = list_repeat_lengths(list.list(), Values::from(&most)).expect("accepted");
    let lists = MOST_LISTS as usize;
    assert_eq!((need.inner_offsets, need.inner_row_bytes), (lists + 1, bitmap_bytes(lists)));
    assert_eq!((need.offsets, need.values, need.element_bytes), (4, 0, 0));
    let more = [MOST_ELEMENTS, 0, 1];
    let refused = resize_lengths(list.list(), Values::from(&more), None);
    assert_eq!(refused, Err(Refusal::TooMany));
    let more = [0, 1, MOST_LISTS];
    assert_eq!(list_repeat_lengths(list.list(), Values::from(&more)), Err(Refusal::TooMany));
}

#[test]
fn far_numbers() {
    let list = column("[7,8,9]");
    let (far, one, last) = ([FAR], Values::from(&[1]), Values::from(&[-1]));
    let far = Values::from(&far);
    let far_index = if REFUSES_FAR { Some(Refusal::WideIndex) } else { None };
    let far_stride = if REFUSES_FAR { Some(Refusal::WideStride) } else { None };
    let made = |call: &dyn Fn(&mut ListOut) -> Result<ListCounts, Refusal>| {
        let mut room = ListBuf::with_room(1, 3);
        let counts = call(&mut room.out())?;
        room.out().written(&counts).to_rows()
    };
    let wanted = |refusal: Option<Refusal>, text: &str| refusal.map_or(Ok(rows(text)), Err);
    assert_eq!(made(&|out| slice(list.list(), far, last, None, out)), wanted(far_index, "[]"));
    assert_eq!(made(&|out| slice(list.list(), one, far, None, out)), wanted(far_index, "[7,8,9]"));
    let by_far = made(&|out| slice(list.list(), one, last, Some(far), out));
    assert_eq!(by_far, wanted(far_stride, "[7]"));
    let mut room = ValuesBuf::with_room(1);
    let counts = element(list.list(), far, &mut room.out());
    assert_eq!(counts.map(|counts| counts.null_rows), far_index.map_or(Ok(1), Err));
}

#[test]
fn asking_is_refused_as_calling_is() {
    let good = column("[7,8] null [] [1]");
    let one = Values::from(&[1; 4]);
    let lent = Lent { list: good.list(), right: good.list(), a: one, b: one, c: one };
    let bytes = [255];
    let bad_offsets = List { offsets: &[0, 2, 1, 3, 3], ..good.list() };
    let short_bitmap = List { rows: Bits { bytes: &bytes, start: 5 }, ..good.list() };
    let bad_start = List { elements: Bits { bytes: &[], start: 8 }, ..good.list() };
    let (wide, many) = ([FAR, 1, 1, 1], [MOST_ELEMENTS, 1, 1, 1]);
    let (wide, many) = (Values::from(&wide), Values::from(&many));
    let mut refused = std::collections::BTreeSet::new();
    for lent in [
        Lent { list: bad_offsets, ..lent },
        Lent { right: bad_offsets, ..lent },
        Lent { list: short_bitmap, ..lent },
        Lent { right: short_bitmap, ..lent },
        Lent { list: bad_start, right: bad_offsets, ..lent },
        Lent { list: bad_offsets, right: bad_start, ..lent },
        Lent { right: List::default(), a: Values::default(), ..lent },
        Lent { a: Values { valid: Bits { bytes: &bytes, start: 6 }, ..one }, ..lent },
        Lent { a: Values { valid: Bits { bytes: &[], start: 8 }, ..one }, ..lent },
        Lent { a: wide, ..lent },
        Lent { c: wide, ..lent },
        Lent { c: Values::from(&[0; 4]), ..lent },
        Lent { a: Values::from(&[-1; 4]), ..lent },
        Lent { a: many, ..lent },
    ] {
        refused.extend(
            ask_for_lists(lent).iter().filter_map(|asked| asked.err()).map(Refusal::number),
        );
        ask_for_values(lent);
        ask_for_list_repeat(lent);
    }
    let mut wanted = vec![1, 2, 3, 4, 5, 6, 7, 8, 13];
    wanted.retain(|number| REFUSES_FAR || !matches!(number, 4 | 6));
    assert!(refused.into_iter().eq(wanted));
    assert_eq!(list_repeat_lengths(lent.list, wide), Err(Refusal::TooMany));
    let far_index = element_lengths(lent.list, wide).err();
    assert_eq!(far_index, REFUSES_FAR.then_some(Refusal::WideIndex));
}

/// Asks for a recipe's limits, and runs it on trays and an output that hold just as much.
fn run_within_limits(
    recipe: &Recipe,
    inputs: RecipeInputs,
) -> (RecipeLimits, Result<Vec<Row>, Refusal>) {
    let limits = recipe_limits(recipe, inputs).expect("accepted");
    let rows = inputs.list.row_count();
    let [mut one, mut two, mut room] =
        [limits.one, limits.two, limits.output].map(|elements| ListBuf::with_room(rows, elements));
    let mut trays = Trays::default();
    if recipe.numbers().len() > 4 {
        trays.one = one.out();
    }
    if recipe.numbers().len() > 8 {
        trays.two = two.out();
    }
    let mut out = room.out();
    let answer = run_recipe(0, recipe, inputs, &mut trays, &mut out, &mut Tally::default());
    (limits, answer.map(|counts| out.written(&counts).to_rows().expect("a column")))
}

#[test]
fn a_recipe_lent_its_limits_is_never_refused_by_9() {
    type Adds = fn(Recipe) -> Recipe;
    let steps: [Adds; 11] = [
        |recipe| recipe.reverse(),
        |recipe| recipe.distinct(),
        |recipe| recipe.pop_front(),
        |recipe| recipe.pop_back(),
        |recipe| recipe.slice(0, 2, 0),
        |recipe| recipe.slice_without_stride(0, 1),
        |recipe| recipe.resize(1, 2),
        |recipe| recipe.replace(2, 1, 0),
        |recipe| recipe.remove(1, 0),
        |recipe| recipe.union(),
        |recipe| recipe.intersect(),
    ];
    let (first, second) = (rows("[4,-3,-] null [] [7,7,9]"), rows("[4] [1,2] [-,5,6] null"));
    let (one, last) = (Some(1), Some(-1));
    let fair = [one, one, one, one, Some(4), Some(3), Some(2), None, last, last, last, last];
    let bad = [one, Some(0), None, one, Some(2), last, None, Some(FAR), last, None, one, last];
    let mut seen = [0; 2];
    for (cells, lists) in
        [(fair, [&first, &second]), (fair, [&second, &first]), (bad, [&first, &second])]
    {
        let (numbers, bits) = shifted(&cells, 3);
        let [list, second] = lists.map(|rows| Layout::new(rows, [2, 7]));
        let inputs = RecipeInputs {
            list: list.list(),
            second: second.list(),
            columns: 3,
            arguments: Values { values: &numbers, valid: Bits { bytes: &bits, start: 3 } },
        };
        for (count, recipes) in [(0, 1), (1, 11), (2, 121), (3, 1331)] {
            for code in 0..recipes {
                let mut left = code;
                let recipe = (0..count).fold(Recipe::new(), |recipe, _| {
                    let step = steps[left % 11];
                    left /= 11;
                    step(recipe)
                });
                // A far count makes the largest limit, which is not lent here.
                let limits = recipe_limits(recipe, inputs).expect("accepted");
                if limits.one.max(limits.two).max(limits.output) == LARGEST as usize {
                    continue;
                }
                let (_, answer) = run_within_limits(&recipe, inputs);
                let roomy = run(0, recipe, inputs, &mut Tally::default());
                assert_ne!(answer, Err(Refusal::ShortOutput), "{recipe:?}");
                if roomy != Err(Refusal::ShortOutput) {
                    assert_eq!(answer, roomy, "{recipe:?}");
                }
                seen[usize::from(answer.is_err())] += 1;
            }
        }
    }
    assert!(seen[0] > 3000 && (seen[1] > 100 || !REFUSES_FAR), "{seen:?}");
}

#[test]
fn limits_come_from_lengths_validity_and_arguments() {
    let limits = |one, two, output| RecipeLimits { one, two, output };
    let step = Recipe::new();
    let list = column("[1,2] null []");
    let inputs = RecipeInputs {
        list: list.list(),
        second: list.list(),
        columns: 1,
        arguments: Values::from(&[3, 4, -1]),
    };
    assert_eq!(recipe_limits(step.resize(0, 0), inputs), Ok(limits(0, 0, 3)));
    let seven = column("[7]");
    let three = RecipeInputs { arguments: Values::from(&[3]), ..inputs };
    let three = RecipeInputs { list: seven.list(), second: seven.list(), ..three };
    let (told, made) = run_within_limits(&step.resize(0, 0), three);
    assert_eq!((told, made), (limits(0, 0, 3), Ok(rows("[7,3,3]"))));
    let most = [LARGEST, 0, LARGEST];
    let most = RecipeInputs { arguments: Values::from(&most), ..inputs };
    let limit = LARGEST as usize;
    assert_eq!(recipe_limits(step.resize(0, 0).union(), most), Ok(limits(limit, 0, limit)));

    // Each tray has the greatest limit of its steps, though union drops levels that come again.
    let plain = RecipeInputs { list: list.list(), second: list.list(), ..RecipeInputs::default() };
    assert_eq!(recipe_limits(step, plain), Ok(limits(0, 0, 2)));
    assert_eq!(recipe_limits(step.union(), plain), Ok(limits(0, 0, 4)));
    assert_eq!(recipe_limits(step.union().union(), plain), Ok(limits(4, 0, 6)));
    let unions = step.union().union().union().distinct().union();
    assert_eq!(recipe_limits(unions, plain), Ok(limits(8, 8, 10)));
    assert_eq!(run_within_limits(&unions, plain).1, Ok(rows("[1,2] null []")));
}

#[test]
fn limits_are_refused_as_the_run_is() {
    let good = column("[7,8] null [] [1]");
    let bytes = [255];
    let bad_offsets = List { offsets: &[0, 2, 1, 3, 3], ..good.list() };
    let short_bitmap = List { rows: Bits { bytes: &bytes, start: 5 }, ..good.list() };
    let bad_start = List { elements: Bits { bytes: &[], start: 8 }, ..good.list() };
    let one = Values::from(&[1; 4]);
    let inputs =
        RecipeInputs { list: good.list(), second: good.list(), columns: 1, arguments: one };
    let refused = |recipe: &[u32], inputs| {
        let mut tally = Tally::default();
        let refusal = recipe_limits(recipe, inputs).expect_err("refused");
        assert_eq!(run(0, recipe, inputs, &mut tally), Err(refusal));
        refusal.number()
    };
    let reverse = Recipe::new().reverse();
    let reverse = reverse.numbers();
    assert_eq!(refused(&[0; 3], RecipeInputs { list: bad_start, ..inputs }), 10);
    assert_eq!(refused(&[0; 132], inputs), 10);
    assert_eq!(refused(&[6, 0, 1, 0], inputs), 10);
    for other in [bad_offsets, short_bitmap, List::default()] {
        assert_eq!(refused(reverse, RecipeInputs { list: bad_start, second: other, ..inputs }), 13);
        assert_eq!(refused(reverse, RecipeInputs { list: other, second: bad_start, ..inputs }), 13);
    }
    let late = Values { valid: Bits { bytes: &[], start: 8 }, ..one };
    assert_eq!(refused(reverse, RecipeInputs { arguments: late, ..inputs }), 13);
    assert_eq!(refused(reverse, RecipeInputs { list: bad_offsets, ..inputs }), 1);
    assert_eq!(refused(reverse, RecipeInputs { second: bad_offsets, ..inputs }), 1);
    assert_eq!(refused(reverse, RecipeInputs { list: short_bitmap, ..inputs }), 2);
    assert_eq!(refused(reverse, RecipeInputs { second: short_bitmap, ..inputs }), 2);
    let short = Values { valid: Bits { bytes: &bytes, start: 5 }, ..one };
    assert_eq!(refused(reverse, RecipeInputs { arguments: short, ..inputs }), 2);
    assert_eq!(refused(reverse, RecipeInputs { second: List::default(), ..inputs }), 3);
    assert_eq!(refused(reverse, RecipeInputs { columns: 2, ..inputs }), 3);

    // What the run refuses for its rows is not tested here.
    let wide = [FAR, 1, 1, 1];
    let wide = RecipeInputs { arguments: Values::from(&wide), ..inputs };
    let recipe = Recipe::new().slice_without_stride(0, 0);
    let refused = run(0, recipe, wide, &mut Tally::default()).err();
    assert_eq!(refused, REFUSES_FAR.then_some(Refusal::WideIndex));
    assert_eq!(recipe_limits(recipe, wide), Ok(RecipeLimits { one: 0, two: 0, output: 3 }));
}

#[test]
fn refusals_have_numbers_and_sentences() {
    let named = [
        Refusal::BadOffsets,
        Refusal::ShortBitmap,
        Refusal::RowCountsDiffer,
        Refusal::WideIndex,
        Refusal::ZeroStride,
        Refusal::WideStride,
        Refusal::NegativeCount,
        Refusal::TooMany,
        Refusal::ShortOutput,
        Refusal::MalformedRecipe,
        Refusal::BadStartingBit,
        Refusal::NoSuchStation,
    ];
    let numbers = [1, 2, 3, 4, 5, 6, 7, 8, 9, 10, 13, 15];
    assert_eq!(named.map(Refusal::number), numbers);
    assert_eq!(Refusal::Other(100).number(), 100);
    let error: Box<dyn std::error::Error> = Refusal::ZeroStride.into();
    assert_eq!(error.to_string(), "a stride of 0 where both bounds fall in the row");
}
