//! The crate over the archive of large lists, with 64-bit offsets, and both widths in one program.
#![cfg(all(feature = "std", feature = "large"))]

mod both_widths;
use duthlan::large as tried;

/// An offset.
type Number = i64;

/// What no index, bound or stride may be, or any may, and the largest counts and limits.
const FAR: i64 = i64::MAX;
const REFUSES_FAR: bool = false;
const MOST_ELEMENTS: i64 = 1152921504606846975;
const MOST_LISTS: i64 = 1152921504606846974;
const LARGEST: i64 = 9223372036854775807;

/// The same rows, as lists and as large lists.
#[test]
fn both_widths_make_equal_rows() {
    let rows = [Some(vec![Some(3), None, Some(3)]), None, Some(vec![])];
    let narrow = duthlan::owned::ListBuf::from_rows(&rows).expect("few elements");
    let large = tried::owned::ListBuf::from_rows(&rows).expect("few elements");
    let mut narrow_room = duthlan::owned::ListBuf::with_room(3, 3);
    let mut large_room = tried::owned::ListBuf::with_room(3, 3);
    let counts = duthlan::distinct(narrow.list(), &mut narrow_room.out()).expect("accepted");
    assert_eq!(duthlan::distinct(large.list(), &mut large_room.out()), Ok(counts));
    let made = narrow_room.out().written(&counts).to_rows();
    assert_eq!(made, large_room.out().written(&counts).to_rows());
    assert_eq!(made, Ok(vec![Some(vec![Some(3), None]), None, Some(vec![])]));
}

/// Offsets that no 32 bits hold are past the values, or below 0.
#[test]
fn far_offsets_are_refused() {
    let refused = Err(tried::Refusal::BadOffsets);
    for offsets in [[0, 4294967296], [4294967296, 4294967297], [-4294967296, 1], [0, i64::MAX]] {
        let list = tried::List::new(&offsets, &[7, 8]);
        assert_eq!(tried::reverse_lengths(list), refused);
        assert_eq!(list.to_rows().err(), Some(tried::Refusal::BadOffsets));
    }
}
