//! Distinct, union and intersect with a work area over the archive: beside the same without one, areas of
//! every length, each refusal, and that the area is zero after every call.
#![cfg(feature = "std")]

use duthlan::owned::{ListBuf, Row};
use duthlan::{distinct, intersect, union, Bits, List, ListCounts, ListOut, Refusal};
use duthlan::{distinct_hashed, intersect_hashed, union_hashed};

/// [12, -3, null], a null row over 40 and 41, [], [7, 7, 9, null, null]
const LIST: List = List {
    offsets: &[1, 4, 6, 6, 11],
    rows: Bits { bytes: &[0b1111_0111], start: 2 },
    values: &[5, 12, -3, 99, 40, 41, 7, 7, 9, 9, 7],
    elements: Bits { bytes: &[0b1011_1111, 0b1100_1111], start: 3 },
};

/// [9, 12, -9223372036854775808] [1] [3] [7]
const OTHER: List = List {
    offsets: &[0, 3, 4, 5, 6],
    rows: Bits::ALL,
    values: &[9, 12, i64::MIN, 1, 3, 7],
    elements: Bits::ALL,
};

type Answer = Result<Vec<Row>, Refusal>;

/// What a call makes, with ample room.
fn made(call: impl FnOnce(&mut ListOut) -> Result<ListCounts, Refusal>) -> Answer {
    let mut room = ListBuf::with_room(16, 9000);
    let mut out = room.out();
    let counts = call(&mut out)?;
    out.written(&counts).to_rows()
}

/// The same with so many slots of a dirty work area, which is zero afterwards.
fn made_in(
    slots: usize,
    call: impl FnOnce(&mut [u32], &mut ListOut) -> Result<ListCounts, Refusal>,
) -> Answer {
    let mut area = vec![0xdead_beef; slots];
    let answer = made(|out| call(&mut area, out));
    assert!(area.iter().all(|&slot| slot == 0));
    answer
}

#[test]
fn areas_of_every_length() {
    for slots in 0..20 {
        let wanted =
            if slots < 10 { Err(Refusal::ShortArea) } else { made(|out| distinct(LIST, out)) };
        assert_eq!(made_in(slots, |area, out| distinct_hashed(LIST, area, out)), wanted);
        let is_short = slots < 12;
        for (left, right) in [(LIST, OTHER), (OTHER, LIST)] {
            let plain = made(|out| union(left, right, out));
            let wanted = if is_short { Err(Refusal::ShortArea) } else { plain };
            assert_eq!(made_in(slots, |area, out| union_hashed(left, right, area, out)), wanted);
            let plain = made(|out| intersect(left, right, out));
            let wanted = if is_short { Err(Refusal::ShortArea) } else { plain };
            assert_eq!(
                made_in(slots, |area, out| intersect_hashed(left, right, area, out)),
                wanted
            );
        }
    }
}

#[test]
fn rows_as_worked_by_hand() {
    let values = |row: &[i64]| Some(row.iter().copied().map(Some).collect::<Vec<_>>());
    let made_of_union = made_in(12, |area, out| union_hashed(OTHER, LIST, area, out));
    let first = [Some(9), Some(12), Some(i64::MIN), Some(-3), None].to_vec();
    let last = [Some(7), Some(9), None].to_vec();
    assert_eq!(made_of_union, Ok(vec![Some(first), None, values(&[3]), Some(last)]));
    let made_of_both = made_in(12, |area, out| intersect_hashed(OTHER, LIST, area, out));
    assert_eq!(made_of_both, Ok(vec![values(&[12]), None, values(&[]), values(&[7])]));
}

#[test]
fn rows_of_thousands() {
    let levels: Vec<i64> = (1..=4000).collect();
    let list = List::new(&[0, 4000], &levels);
    let row: Row = Some(levels.iter().copied().map(Some).collect());
    assert_eq!(made_in(8000, |area, out| distinct_hashed(list, area, out)), Ok(vec![row.clone()]));
    assert_eq!(
        made_in(16000, |area, out| union_hashed(list, list, area, out)),
        Ok(vec![row.clone()])
    );
    assert_eq!(made_in(16000, |area, out| intersect_hashed(list, list, area, out)), Ok(vec![row]));
    assert_eq!(
        made_in(15999, |area, out| union_hashed(list, list, area, out)),
        Err(Refusal::ShortArea)
    );
}

#[test]
fn null_rows_and_no_rows_need_no_area() {
    let nulls = List { rows: Bits::from(&[0]), ..List::new(&[0, 3], &[1, 2, 3]) };
    assert_eq!(made_in(0, |area, out| distinct_hashed(nulls, area, out)), Ok(vec![None]));
    let other = List::new(&[0, 1], &[1]);
    assert_eq!(made_in(0, |area, out| union_hashed(nulls, other, area, out)), Ok(vec![None]));
    assert_eq!(made_in(0, |area, out| intersect_hashed(other, nulls, area, out)), Ok(vec![None]));
    let none = List::default();
    assert_eq!(made_in(0, |area, out| union_hashed(none, none, area, out)), Ok(vec![]));
    let two = List::new(&[0, 2, 2], &[1, 2]);
    let apart = List::new(&[0, 0, 3], &[1, 2, 3]);
    assert!(made_in(6, |area, out| union_hashed(two, apart, area, out)).is_ok());
    let short = made_in(5, |area, out| union_hashed(two, apart, area, out));
    assert_eq!(short, Err(Refusal::ShortArea));
}

#[test]
fn refusals_come_in_their_order() {
    let late = Bits { bytes: &[255], start: 5 };
    let bad_start = Bits { bytes: &[], start: 8 };
    let refused = |list: List| made_in(1, |area, out| distinct_hashed(list, area, out));
    assert_eq!(refused(List { elements: bad_start, ..LIST }), Err(Refusal::BadStartingBit));
    assert_eq!(refused(List::new(&[0, 3, 2], &[1, 2, 3])), Err(Refusal::BadOffsets));
    assert_eq!(refused(List { rows: late, ..LIST }), Err(Refusal::ShortBitmap));
    assert_eq!(refused(LIST), Err(Refusal::ShortArea));
    let one = List::new(&[0, 1], &[1]);
    let unequal = made_in(1, |area, out| union_hashed(LIST, one, area, out));
    assert_eq!(unequal, Err(Refusal::RowCountsDiffer));
    for (slots, wanted) in [(9, Refusal::ShortArea), (10, Refusal::ShortOutput)] {
        let mut area = vec![7; slots];
        let mut offsets = [85; 4];
        let mut out = ListOut { offsets: &mut offsets, ..ListOut::default() };
        assert_eq!(distinct_hashed(LIST, &mut area, &mut out), Err(wanted));
        assert!(area.iter().all(|&slot| slot == 0));
        assert_eq!(offsets, [85; 4]);
    }
}

#[test]
fn the_number_has_a_name() {
    assert_eq!(Refusal::ShortArea.number(), 14);
    assert!(Refusal::ShortArea.to_string().contains("work area"));
}
