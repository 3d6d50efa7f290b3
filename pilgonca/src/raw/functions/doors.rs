//! The function of marks and arrivals. It is safe for the reasons that stand at the head of the module above.

use crate::raw::DoorCounts;

unsafe extern "C" {
    fn pilgonca_doors(
        marks: *const u64,
        marks_len: usize,
        arrivals: *const u64,
        arrivals_len: usize,
        within: u64,
        counts: &mut DoorCounts,
    ) -> usize;
}

/// Marks against arrivals (V): pairs, unpaired marks and unpaired arrivals, in this order; refused with 22, the counts stay as they were.
///
/// ```
/// use pilgonca::raw;
/// let mut counts = [7; 3];
/// assert_eq!(raw::doors(&[20, 10], &[15], 5, &mut counts), 22);
/// assert_eq!(counts, [7; 3]);
/// assert_eq!(raw::doors(&[10, 20], &[15], 5, &mut counts), 0);
/// assert_eq!(counts, [1, 1, 0]);
/// ```
pub fn doors(marks: &[u64], arrivals: &[u64], within: u64, counts: &mut DoorCounts) -> usize {
    // SAFETY: as the head of the module above says.
    unsafe {
        pilgonca_doors(
            marks.as_ptr(),
            marks.len(),
            arrivals.as_ptr(),
            arrivals.len(),
            within,
            counts,
        )
    }
}
