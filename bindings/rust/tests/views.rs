//! ListView columns over the archive: import and export, each refusal, what is kept, and one after the
//! other.
#![cfg(feature = "std")]

use duthlan::owned::{ListBuf, Row};
use duthlan::{export_view, import_view, Bits, List, ListOut, Refusal, View, ViewOut};

/// [12, -3, null], a null row, [], [7, 7, 9]
fn shown() -> Vec<Row> {
    let full = Some(vec![Some(12), Some(-3), None]);
    vec![full, None, Some(vec![]), Some(vec![Some(7), Some(7), Some(9)])]
}

/// The same rows, out of order, the null one over the last three values; both bitmaps start at bit 2.
const VIEW: View = View {
    offsets: &[3, 6, 9, 0],
    sizes: &[3, 3, 0, 3],
    rows: Bits { bytes: &[0b1111_0111], start: 2 },
    values: &[7, 7, 9, 12, -3, 99, 40, 41, 7],
    elements: Bits { bytes: &[0b0111_1111, 0xff], start: 2 },
};

/// What import makes of views, with ample room.
fn imported(view: View) -> Result<Vec<Row>, Refusal> {
    let mut room = ListBuf::with_room(40, 40);
    let mut out = room.out();
    let counts = import_view(view, &mut out)?;
    out.written(&counts).to_rows()
}

/// Room for a ListView of vectors.
struct Room {
    offsets: Vec<i32>,
    sizes: Vec<i32>,
    rows: Vec<u8>,
    values: Vec<i64>,
    elements: Vec<u8>,
}

impl Room {
    fn new([offsets, sizes, rows, values, elements]: [usize; 5]) -> Room {
        Room {
            offsets: vec![85; offsets],
            sizes: vec![85; sizes],
            rows: vec![85; rows],
            values: vec![85; values],
            elements: vec![85; elements],
        }
    }

    fn out(&mut self) -> ViewOut<'_> {
        let Room { offsets, sizes, rows, values, elements } = self;
        ViewOut { offsets, sizes, rows, values, elements }
    }

    fn is_kept(&self) -> bool {
        let numbers = self.offsets.iter().chain(&self.sizes).all(|one| *one == 85);
        let bytes = self.rows.iter().chain(&self.elements).all(|one| *one == 85);
        numbers && bytes && self.values.iter().all(|one| *one == 85)
    }
}

#[test]
fn import_shows_the_same_rows() {
    assert_eq!(imported(VIEW), Ok(shown()));
    let mut room = ListBuf::with_room(4, 6);
    let mut out = room.out();
    let counts = import_view(VIEW, &mut out).expect("accepted");
    let numbers = [counts.rows, counts.elements, counts.null_rows, counts.null_elements];
    assert_eq!((numbers, VIEW.row_count()), ([4, 6, 1, 1], 4));
    let list = out.written(&counts);
    assert_eq!((list.offsets, list.rows.bytes), (&[0, 3, 3, 3, 6][..], &[0b1101][..]));
    assert_eq!(list.values, [12, -3, i64::MIN, 7, 7, 9]);
}

#[test]
fn views_overlap_and_repeat() {
    let row = |values: &[i64]| Some(values.iter().copied().map(Some).collect());
    let view = View::new(&[1, 0, 1, 3], &[2, 3, 2, 0], &[1, 2, 3]);
    assert_eq!(imported(view), Ok(vec![row(&[2, 3]), row(&[1, 2, 3]), row(&[2, 3]), row(&[])]));
    assert_eq!(imported(View::default()), Ok(vec![]));
    assert_eq!(imported(View::new(&[], &[], &[5])), Ok(vec![]));
}

#[test]
fn import_refuses() {
    let outside: [(&[i32], &[i32]); 7] = [
        (&[-1, 6, 9, 0], &[1, 3, 0, 3]),
        (&[3, -1, 9, 0], &[3, 1, 0, 3]),
        (&[3, 6, 9, 1], &[3, 3, 0, -1]),
        (&[3, 6, 10, 0], &[3, 3, 0, 3]),
        (&[3, 6, 9, 0], &[3, 3, 1, 3]),
        (&[3, 6, 9, 0], &[3, 4, 0, 3]),
        (&[3, 6, 9, i32::MAX], &[3, 3, 0, i32::MAX]),
    ];
    for (offsets, sizes) in outside {
        let view = View { offsets, sizes, ..VIEW };
        assert_eq!(imported(view), Err(Refusal::ViewOutside), "{offsets:?} {sizes:?}");
    }
    let outside = View { offsets: outside[0].0, ..VIEW };
    let unequal = View { sizes: &VIEW.sizes[..3], ..outside };
    assert_eq!(imported(unequal), Err(Refusal::RowCountsDiffer));
    let more = View { offsets: &VIEW.offsets[..3], ..VIEW };
    assert_eq!(imported(more), Err(Refusal::RowCountsDiffer));
    let short = View { rows: Bits { start: 5, ..VIEW.rows }, ..unequal };
    assert_eq!(imported(short), Err(Refusal::ShortBitmap));
    let start = View { elements: Bits { bytes: &[], start: 8 }, ..short };
    assert_eq!(imported(start), Err(Refusal::BadStartingBit));
    assert_eq!((Refusal::ViewOutside.number(), imported(start).is_err()), (11, true));
    assert_eq!(Refusal::ViewOutside.to_string(), "a view that lies outside the values");
}

#[test]
fn import_of_too_many() {
    let (offsets, values) = (vec![0; 32768], vec![7; 65536]);
    let mut sizes = vec![65536; 32768];
    let number = |sizes: &[i32], rows: Bits| {
        let view = View { rows, ..View::new(&offsets, sizes, &values) };
        import_view(view, &mut ListOut::default())
    };
    assert_eq!(number(&sizes, Bits::ALL), Err(Refusal::TooMany));
    let (nulls, one_null) = (vec![0; 4096], [vec![254], vec![255; 4095]].concat());
    assert_eq!(number(&sizes, Bits::from(&nulls[..])), Err(Refusal::ShortOutput));
    assert_eq!(number(&sizes, Bits::from(&one_null[..])), Err(Refusal::ShortOutput));
    sizes[9] = 65535;
    assert_eq!(number(&sizes, Bits::ALL), Err(Refusal::ShortOutput));
    sizes[32767] = 65537;
    assert_eq!(number(&sizes, Bits::ALL), Err(Refusal::ViewOutside));
}

#[test]
fn import_takes_just_enough_room() {
    for short in 0..5 {
        let lengths: [usize; 4] =
            std::array::from_fn(|at| [5, 1, 6, 1][at] - usize::from(at == short));
        let (mut offsets, mut values) = (vec![85; lengths[0]], vec![85; lengths[2]]);
        let (mut rows, mut elements) = (vec![85; lengths[1]], vec![85; lengths[3]]);
        let mut out = ListOut {
            offsets: &mut offsets,
            rows: &mut rows,
            values: &mut values,
            elements: &mut elements,
        };
        let result = import_view(VIEW, &mut out).map(|counts| counts.rows);
        assert_eq!(result, if short < 4 { Err(Refusal::ShortOutput) } else { Ok(4) });
        assert_eq!(offsets.iter().all(|one| *one == 85), short < 4);
    }
}

#[test]
fn export_writes_views() {
    let column = ListBuf::from_rows(&shown()).expect("few elements");
    let mut room = Room::new([6, 6, 2, 8, 2]);
    let counts = export_view(column.list(), &mut room.out()).expect("accepted");
    assert_eq!(
        (counts.rows, counts.elements, counts.null_rows, counts.null_elements),
        (4, 6, 1, 1)
    );
    assert_eq!(room.offsets, [0, 0, 3, 3, 85, 85]);
    assert_eq!(room.sizes, [3, 0, 0, 3, 85, 85]);
    assert_eq!(room.rows, [0b1101, 85]);
    assert_eq!(room.values, [12, -3, i64::MIN, 7, 7, 9, 85, 85]);
    assert_eq!(room.elements, [0b11_1011, 85]);
    let view = room.out();
    let view = view.written(&counts);
    assert_eq!((view.offsets.len(), view.sizes.len(), view.values.len()), (4, 4, 6));
    assert_eq!(imported(view), Ok(shown()));
}

#[test]
fn export_takes_just_enough_room() {
    let column = ListBuf::from_rows(&shown()).expect("few elements");
    for short in 0..6 {
        let lengths = std::array::from_fn(|at| [4, 4, 1, 6, 1][at] - usize::from(at == short));
        let mut room = Room::new(lengths);
        let result = export_view(column.list(), &mut room.out()).map(|counts| counts.rows);
        assert_eq!(result, if short < 5 { Err(Refusal::ShortOutput) } else { Ok(4) });
        assert_eq!(room.is_kept(), short < 5);
    }
    let none = export_view(List::default(), &mut ViewOut::default()).map(|counts| counts.rows);
    assert_eq!(none, Ok(0));
}

#[test]
fn export_refuses() {
    let refused = [
        (List::new(&[0, 2, 1], &[1, 2]), Refusal::BadOffsets),
        (
            List { rows: Bits { bytes: &[255], start: 7 }, ..List::new(&[0, 2, 2], &[1, 2]) },
            Refusal::ShortBitmap,
        ),
        (
            List { rows: Bits { bytes: &[], start: 8 }, ..List::new(&[0, 2, 1], &[1, 2]) },
            Refusal::BadStartingBit,
        ),
    ];
    for (list, refusal) in refused {
        let mut room = Room::new([4; 5]);
        assert_eq!(export_view(list, &mut room.out()), Err(refusal));
        assert!(room.is_kept());
    }
}

#[test]
fn export_then_import_gives_the_column_as_a_result() {
    // A first offset above 0, a null row over values, and other numbers under nulls.
    let list = List {
        offsets: &[1, 4, 6, 6, 9],
        rows: Bits { bytes: &[0b1111_0111], start: 2 },
        values: &[70, 12, -3, 99, 40, 41, 7, 7, 9, 71],
        elements: Bits { bytes: &[0b1110_1111, 0xff], start: 1 },
    };
    let mut room = Room::new([4, 4, 1, 6, 1]);
    let counts = export_view(list, &mut room.out()).expect("accepted");
    let out = room.out();
    let mut back = ListBuf::with_room(4, 6);
    let mut back = back.out();
    let again = import_view(out.written(&counts), &mut back).expect("accepted");
    assert_eq!(again, counts);
    let written = back.written(&again);
    assert_eq!(written.offsets, [0, 3, 3, 3, 6]);
    assert_eq!(written.values, [12, -3, i64::MIN, 7, 7, 9]);
    assert_eq!((written.rows.bytes, written.elements.bytes), (&[0b1101][..], &[0b11_1011][..]));
    assert_eq!(written.to_rows(), Ok(shown()));
}
