//! A state as the bytes of a file: a mark, a version, the counts, the counted records, a checksum. [`Visit::save`](crate::Visit::save) writes them and
//! [`Visit::from_saved`](crate::Visit::from_saved) reads them; docs/GUIDE.md, "A saved state", has them in a table for other languages.
//!
//! Nothing stands there of what is behind a count (Q16), so states with the same counts and the same counted records are saved as the same bytes.
//!
//! A file of version 1 has its bytes in the same places. It is of a time when all subjects together made 256 calls and one of them any number of these, so it
//! is read where it counts no more, and the core then says whether some subject has made more than it may now. What is read is saved as version 2.

use crate::numbers::Subject;
use crate::raw::{
    State, StateCounts, CALL_RECORD, CELL_RECORD, LINK_RECORD, MAX_CALLS, MAX_CALLS_EACH,
    MAX_CATEGORIES, MAX_CELLS, MAX_METHODS, MAX_PLACES, MAX_SHEET_TYPES, MAX_SUBJECTS, MAX_TYPES,
    PLACE_RECORD, TYPE_RECORD,
};
use crate::refusal::Refusal;
use std::error::Error;
use std::fmt;

/// What every saved state begins with.
pub const MARK: [u8; 8] = *b"PILGONCA";

/// The version that is written.
pub const VERSION: u16 = 2;

/// The oldest version that is read, and the most calls of a file of it.
pub const OLDEST: u16 = 1;
const OLDEST_CALLS: usize = 256;

/// Bytes of mark, version and counts; of the checksum.
const HEAD: usize = MARK.len() + size_of::<u16>() + COUNTED.len() * size_of::<u16>();
const CHECKSUM: usize = size_of::<u32>();
/// Bytes of the longest saved state.
pub const MOST_BYTES: usize = HEAD
    + MAX_TYPES * TYPE_RECORD
    + MAX_CATEGORIES * LINK_RECORD
    + MAX_CELLS * CELL_RECORD
    + MAX_PLACES * PLACE_RECORD
    + MAX_CALLS * CALL_RECORD
    + CHECKSUM;

/// What is counted, in the order of the counts (B29), and how many there are at most.
const COUNTED: [(&str, usize); 8] = [
    ("subjects", MAX_SUBJECTS),
    ("methods", MAX_METHODS),
    ("categories", MAX_CATEGORIES),
    ("sheet types", MAX_SHEET_TYPES),
    ("types", MAX_TYPES),
    ("cells", MAX_CELLS),
    ("places", MAX_PLACES),
    ("calls", MAX_CALLS),
];

/// Why bytes are no saved state: the first test that failed, in this order.
#[derive(Clone, Copy, PartialEq, Eq, Debug)]
#[non_exhaustive]
pub enum SavedRefused {
    /// They do not begin with [`MARK`].
    NotMarked,
    /// They are of a version before [`OLDEST`] or behind [`VERSION`].
    Version(u16),
    /// A count is above its limit, which for calls goes by the version.
    Count {
        /// Of what.
        of: &'static str,
        /// How many it says.
        count: usize,
        /// The limit.
        most: usize,
    },
    /// There are fewer bytes than are due by the counts.
    CutShort {
        /// How many there are.
        length: usize,
        /// How many are due.
        due: usize,
    },
    /// There are more.
    TooLong {
        /// How many there are.
        length: usize,
        /// How many are due.
        due: usize,
    },
    /// The checksum that stands there is not that of the bytes before it.
    Checksum {
        /// What stands there.
        stands: u32,
        /// What is due.
        due: u32,
    },
    /// The core refuses the state that they hold, with 2, and a subject has made more calls in it than it may (H17). In version 1 it could: such a file need
    /// not be damaged, and still its state is not served any more.
    Calls {
        /// Of whom.
        of: Subject,
        /// How many.
        count: usize,
        /// The limit.
        most: usize,
    },
    /// The core refuses it for another reason: 2.
    State(Refusal),
}

/// Plain words.
///
/// ```
/// use pilgonca::Visit;
/// let refused = Visit::from_saved(b"PILGONCA\x03\x00").unwrap_err();
/// assert_eq!(refused.to_string(), "it is of version 3, and this program reads versions 1 and 2");
/// ```
impl fmt::Display for SavedRefused {
    fn fmt(&self, out: &mut fmt::Formatter) -> fmt::Result {
        match self {
            SavedRefused::NotMarked => {
                out.write_str("it is no saved state: one begins with the bytes PILGONCA")
            }
            SavedRefused::Version(version) => write!(
                out,
                "it is of version {version}, and this program reads versions {OLDEST} and {VERSION}"
            ),
            SavedRefused::Count { of, count, most } => {
                write!(out, "it counts {count} {of}, and there are at most {most}")
            }
            SavedRefused::CutShort { length, due } => {
                write!(out, "it is cut short: {length} bytes, and {due} are due")
            }
            SavedRefused::TooLong { length, due } => {
                write!(out, "it is too long: {length} bytes, and {due} are due")
            }
            SavedRefused::Checksum { stands, due } => write!(
                out,
                "it is damaged: the checksum is {stands:08x}, and that of its bytes {due:08x}"
            ),
            SavedRefused::Calls { of, count, most } => write!(
                out,
                "the core refuses the state with {}: subject {of} has made {count} calls, and since version 2 a subject makes at most {most}",
                Refusal::OutOfRange.number()
            ),
            SavedRefused::State(refusal) => write!(
                out,
                "the core refuses the state with {}: {refusal}",
                refusal.number()
            ),
        }
    }
}

impl Error for SavedRefused {
    fn source(&self) -> Option<&(dyn Error + 'static)> {
        match self {
            SavedRefused::State(refusal) => Some(refusal),
            SavedRefused::Calls { .. } => Some(&Refusal::OutOfRange),
            _ => None,
        }
    }
}

/// The checksum: CRC-32 as Ethernet, gzip and PNG have it. It finds damage, not forgery.
///
/// ```
/// assert_eq!(pilgonca::saved::checksum(b"123456789"), 0xcbf4_3926);
/// ```
pub fn checksum(bytes: &[u8]) -> u32 {
    let shifted = |rest: u32, _| (rest >> 1) ^ (0xedb8_8320 * (rest & 1));
    !bytes.iter().fold(!0, |rest, byte| {
        (0..8).fold(rest ^ u32::from(*byte), shifted)
    })
}

/// The bytes of a state whose counts are within their limits.
pub(crate) fn write(state: &State) -> Vec<u8> {
    let mut bytes = MARK.to_vec();
    bytes.extend(VERSION.to_le_bytes());
    for count in state.counts {
        let count = u16::try_from(count).expect("no limit is above 512");
        bytes.extend(count.to_le_bytes());
    }
    let State {
        types,
        links,
        cells,
        places,
        calls,
        counts,
    } = state;
    let arrays: [&[u8]; 5] = [types, &links[LINK_RECORD..], cells, places, calls];
    for (records, length) in arrays.into_iter().zip(lengths(counts)) {
        bytes.extend(&records[..length]);
    }
    let sum = checksum(&bytes);
    bytes.extend(sum.to_le_bytes());
    bytes
}

/// The state that bytes hold, with 0 behind every count. Nobody has checked it yet.
pub(crate) fn read(bytes: &[u8]) -> Result<Box<State>, SavedRefused> {
    let counts = counts(bytes)?;
    let (length, due) = (
        bytes.len(),
        HEAD + lengths(&counts).iter().sum::<usize>() + CHECKSUM,
    );
    if length < due {
        return Err(SavedRefused::CutShort { length, due });
    }
    if length > due {
        return Err(SavedRefused::TooLong { length, due });
    }
    let (front, sum) = bytes.split_last_chunk().expect("longer than that");
    let (stands, due) = (u32::from_le_bytes(*sum), checksum(front));
    if stands != due {
        return Err(SavedRefused::Checksum { stands, due });
    }
    let mut state = Box::<State>::default();
    let State {
        types,
        links,
        cells,
        places,
        calls,
        ..
    } = &mut *state;
    let arrays: [&mut [u8]; 5] = [types, &mut links[LINK_RECORD..], cells, places, calls];
    let mut left = &front[HEAD..];
    for (records, length) in arrays.into_iter().zip(lengths(&counts)) {
        let (counted, behind) = left.split_at(length);
        records[..length].copy_from_slice(counted);
        left = behind;
    }
    state.counts = counts;
    Ok(state)
}

/// Why the core refuses this state, as far as it can be seen from here: its 2 does not say (H13). A caller that is no subject is another reason (H11), however
/// many its calls are.
pub(crate) fn reason(state: &State, refusal: Refusal) -> SavedRefused {
    let mut made = [0; 256];
    let calls = state.calls.chunks_exact(CALL_RECORD);
    for call in calls.take(state.counts[7]) {
        made[usize::from(call[0])] += 1;
    }
    let most = MAX_CALLS_EACH;
    let mut subjects = (0..=u8::MAX).zip(made).take(state.counts[0]);
    let above = subjects.find(|(_, count)| *count > most);
    above.map_or(SavedRefused::State(refusal), |(of, count)| {
        let of = Subject::from(of);
        SavedRefused::Calls { of, count, most }
    })
}

/// The counts, each within its limit by the version.
fn counts(bytes: &[u8]) -> Result<StateCounts, SavedRefused> {
    let behind = bytes.strip_prefix(&MARK);
    let mut words = behind
        .ok_or(SavedRefused::NotMarked)?
        .chunks_exact(size_of::<u16>())
        .map(|word| u16::from_le_bytes([word[0], word[1]]));
    let short = SavedRefused::CutShort {
        length: bytes.len(),
        due: HEAD + CHECKSUM,
    };
    let version = words.next().ok_or(short)?;
    let mut limits = COUNTED;
    match version {
        VERSION => {}
        OLDEST => limits[7].1 = OLDEST_CALLS,
        _ => return Err(SavedRefused::Version(version)),
    }
    let mut counts = [0; COUNTED.len()];
    for (slot, (of, most)) in counts.iter_mut().zip(limits) {
        let count = usize::from(words.next().ok_or(short)?);
        if count > most {
            return Err(SavedRefused::Count { of, count, most });
        }
        *slot = count;
    }
    Ok(counts)
}

/// Bytes of the counted records: types, links from category 1 on, cells, places, calls.
fn lengths(counts: &StateCounts) -> [usize; 5] {
    let [_, _, categories, _, types, cells, places, calls] = *counts;
    [
        types * TYPE_RECORD,
        categories * LINK_RECORD,
        cells * CELL_RECORD,
        places * PLACE_RECORD,
        calls * CALL_RECORD,
    ]
}
