//! Access to places that are known to exist. Proved code has no bounds checks, so a fair yardstick has
//! none either: these functions are as unsafe as what they hold, and their callers owe what is
//! asserted. With debug assertions, as in this crate's tests, every place is checked.

#[inline(always)]
pub fn at<T: Copy>(slice: &[T], place: usize) -> T {
    debug_assert!(place < slice.len());
    unsafe { *slice.get_unchecked(place) }
}

#[inline(always)]
pub fn put<T>(slice: &mut [T], place: usize, value: T) {
    debug_assert!(place < slice.len());
    unsafe { *slice.get_unchecked_mut(place) = value }
}

/// The first elements of a slice.
#[inline(always)]
pub fn front<T>(slice: &[T], count: usize) -> &[T] {
    debug_assert!(count <= slice.len());
    unsafe { slice.get_unchecked(..count) }
}

#[inline(always)]
fn bytes_at<const WIDTH: usize>(bytes: &[u8], place: usize) -> [u8; WIDTH] {
    debug_assert!(place + WIDTH <= bytes.len());
    unsafe { bytes.as_ptr().add(place).cast::<[u8; WIDTH]>().read() }
}

#[inline(always)]
pub fn u16_at(bytes: &[u8], place: usize) -> u16 {
    u16::from_le_bytes(bytes_at(bytes, place))
}

#[inline(always)]
pub fn u32_at(bytes: &[u8], place: usize) -> u32 {
    u32::from_le_bytes(bytes_at(bytes, place))
}

#[inline(always)]
pub fn u64_at(bytes: &[u8], place: usize) -> u64 {
    u64::from_le_bytes(bytes_at(bytes, place))
}

/// Puts the bytes of a number.
#[inline(always)]
pub fn put_bytes<const WIDTH: usize>(bytes: &mut [u8], place: usize, number: [u8; WIDTH]) {
    debug_assert!(place + WIDTH <= bytes.len());
    unsafe { bytes.as_mut_ptr().add(place).cast::<[u8; WIDTH]>().write(number) }
}
