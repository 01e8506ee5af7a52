use crate::raw::Entries;
use core::fmt::Debug;

/// An offset of a column: an `i32` in lists, an `i64` in large lists. No other type is one.
pub trait Offset: Entries + Copy + Ord + Default + Debug {
    /// The place that it names; none where it is below 0 or no `usize`.
    #[doc(hidden)]
    fn place(self) -> Option<usize>;

    /// The offset that names a place; none where that lies past the largest.
    #[doc(hidden)]
    fn of_place(place: usize) -> Option<Self>;
}

macro_rules! offset {
    ($($offset:ty)+) => {
        $(impl Offset for $offset {
            fn place(self) -> Option<usize> {
                usize::try_from(self).ok()
            }

            fn of_place(place: usize) -> Option<Self> {
                Self::try_from(place).ok()
            }
        })+
    };
}

offset!(i32);
#[cfg(feature = "large")]
offset!(i64);
