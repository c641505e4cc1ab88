//! Slices as C passes them: a pointer and a length. The sources take a slice, and Rust has no stable layout for a slice in a call
//! from C.
#![allow(unsafe_code)]

/// A slice from C. With a length of 0 the pointer is not used and may be null.
///
/// # Safety
///
/// Unless `len` is 0, the pointer points to `len` items that nothing writes while the slice is used.
pub unsafe fn slice<'a, T>(begin: *const T, len: usize) -> &'a [T] {
    if len == 0 {
        &[]
    } else {
        unsafe { core::slice::from_raw_parts(begin, len) }
    }
}

/// A mutable slice from C. With a length of 0 the pointer is not used and may be null.
///
/// # Safety
///
/// Unless `len` is 0, the pointer points to `len` items that nothing else uses while the slice is used.
pub unsafe fn slice_mut<'a, T>(begin: *mut T, len: usize) -> &'a mut [T] {
    if len == 0 {
        &mut []
    } else {
        unsafe { core::slice::from_raw_parts_mut(begin, len) }
    }
}
