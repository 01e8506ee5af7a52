//! Slices of numbers as slices of bytes, and aligned bytes as numbers. The bytes of a call are those
//! of its numbers in memory, so that one case serves the byte entries and the typed ones.

const _: () = assert!(cfg!(target_endian = "little"), "the bytes of a case are little-endian");

/// A number that any bits of its width are.
///
/// # Safety
///
/// A type has this only where all its bits are its value, and all values are valid.
pub unsafe trait Number: Copy {}

unsafe impl Number for u8 {}
unsafe impl Number for i32 {}
unsafe impl Number for u32 {}
unsafe impl Number for i64 {}
unsafe impl Number for u64 {}

/// The numbers that lie in these bytes, which are aligned for them and no part of a number more.
pub fn of_bytes<T: Number>(bytes: &[u8]) -> &[T] {
    // Sound: any bits are a number.
    let (before, numbers, behind) = unsafe { bytes.align_to() };
    assert!(before.is_empty() && behind.is_empty(), "a slice of aligned numbers");
    numbers
}

pub fn of_bytes_mut<T: Number>(bytes: &mut [u8]) -> &mut [T] {
    // Sound: any bits are a number, and any numbers are bytes.
    let (before, numbers, behind) = unsafe { bytes.align_to_mut() };
    assert!(before.is_empty() && behind.is_empty(), "a slice of aligned numbers");
    numbers
}

/// The bytes of these numbers.
pub fn bytes_of<T: Number>(numbers: &[T]) -> &[u8] {
    // Sound: bytes are aligned anywhere, and any bits are bytes.
    let (_, bytes, _) = unsafe { numbers.align_to() };
    bytes
}

pub fn bytes_of_mut<T: Number>(numbers: &mut [T]) -> &mut [u8] {
    // Sound: bytes are aligned anywhere, and any bytes are numbers.
    let (_, bytes, _) = unsafe { numbers.align_to_mut() };
    bytes
}
