//! The crate over the archive of lists with 32-bit offsets.
#![cfg(feature = "std")]

mod both_widths;
use duthlan as tried;

/// An offset.
type Number = i32;

/// What no index, bound or stride may be, or any may, and the largest counts and limits.
const FAR: i64 = 2147483648;
const REFUSES_FAR: bool = true;
const MOST_ELEMENTS: i64 = 2147483647;
const MOST_LISTS: i64 = 2147483647;
const LARGEST: i64 = 2147483647;
