//! Marks held against the arrivals of a door counter.

use crate::{raw, Refusal};

/// What marks and arrivals come to (V6). Which entries stay unpaired is not told, since two largest pairings may leave different ones (V7).
#[derive(Clone, Copy, PartialEq, Eq, Debug)]
pub struct Doors {
    /// The pairs of a largest pairing.
    pub pairs: usize,
    /// The marks that it leaves.
    pub unpaired_marks: usize,
    /// The arrivals that it leaves.
    pub unpaired_arrivals: usize,
}

/// Holds marks against arrivals, two lists of milliseconds, each in order (V). A pair is a mark and an arrival at most `within` apart, and no entry stands
/// in two pairs.
///
/// ```
/// use pilgonca::{doors, Doors};
/// let marks = [1_000, 4_000, 9_000];
/// let arrivals = [1_500, 9_000, 9_000, 20_000];
/// let counts = Doors { pairs: 2, unpaired_marks: 1, unpaired_arrivals: 2 };
/// assert_eq!(doors(&marks, &arrivals, 500), Ok(counts));
/// ```
///
/// [`Refusal::UnfitTimes`] (22) for a list of more than [`raw::MAX_TIMES`], a time above [`raw::LAST_TIME`], one below the time before it, and a tolerance
/// above [`raw::MAX_TOLERANCE`] (V3).
///
/// ```
/// use pilgonca::{doors, raw, Refusal};
/// let refused = Err(Refusal::UnfitTimes);
/// assert_eq!(doors(&[2, 1], &[], 0), refused);
/// assert_eq!(doors(&[], &[0; raw::MAX_TIMES + 1], 0), refused);
/// assert_eq!(doors(&[raw::LAST_TIME + 1], &[], 0), refused);
/// assert_eq!(doors(&[], &[], raw::MAX_TOLERANCE + 1), refused);
/// ```
pub fn doors(marks: &[u64], arrivals: &[u64], within: u64) -> Result<Doors, Refusal> {
    let mut counts = [0; 3];
    Refusal::check(raw::doors(marks, arrivals, within, &mut counts))?;
    let [pairs, unpaired_marks, unpaired_arrivals] = counts;
    Ok(Doors {
        pairs,
        unpaired_marks,
        unpaired_arrivals,
    })
}
