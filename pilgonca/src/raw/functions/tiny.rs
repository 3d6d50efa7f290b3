//! The function of the tiny sheets. It is safe for the reasons that stand at the head of the module above.

unsafe extern "C" {
    fn pilgonca_tiny(buffer: *mut u8, buffer_len: usize, length: &mut usize) -> usize;
}

/// Every tiny sheet (P26): their text in front of the buffer, and its length.
///
/// ```
/// use pilgonca::raw;
/// let (mut buffer, mut length) = ([0; raw::TINY_BYTES], 0);
/// assert_eq!(raw::tiny(&mut buffer[1..], &mut length), 4);
/// assert_eq!(raw::tiny(&mut buffer, &mut length), 0);
/// assert_eq!(length, raw::TINY_BYTES);
/// ```
pub fn tiny(buffer: &mut [u8], length: &mut usize) -> usize {
    // SAFETY: as the head of the module above says.
    unsafe { pilgonca_tiny(buffer.as_mut_ptr(), buffer.len(), length) }
}
