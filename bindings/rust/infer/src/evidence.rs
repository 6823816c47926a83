use crate::ffi::{self, Why};
use crate::Type;
use alloc::vec::Vec;

/// Bytes that decide an answer.
#[derive(Debug, Copy, Clone, Eq, PartialEq, Hash)]
pub struct Range {
    /// Where the first of them stands.
    pub place: usize,
    /// How many they are.
    pub len: usize,
    /// How far each other is behind the one before: 1 but for a search.
    pub step: usize,
    /// The type of which they tell. `None` is that of the first byte, which rules out all types that begin with another.
    pub file_type: Option<Type>,
    /// The older name of `file_type`.
    #[deprecated(note = "the next version has `file_type` alone")]
    pub of: Option<Type>,
    /// Whether it accepts by these bytes: this is the answer, or the built-in one that it makes more exact. Otherwise they
    /// rule it out.
    pub accepts: bool,
}

/// What decides an answer: bytes, and what is needed of their length.
#[derive(Debug, Clone, Eq, PartialEq, Hash)]
pub struct Evidence {
    /// The answer.
    pub file_type: Option<Type>,
    /// The older name of `file_type`.
    #[deprecated(note = "the next version has `file_type` alone")]
    pub told: Option<Type>,
    /// Which bytes.
    pub ranges: Vec<Range>,
    /// How many ranges are wanted. If there are fewer, they are not enough.
    pub wanted: usize,
    /// The least length that is needed.
    pub least: usize,
    /// Whether just the length of the buffer is needed.
    pub is_exact: bool,
}

impl Evidence {
    #[allow(deprecated)]
    pub(crate) fn of(why: &Why) -> Evidence {
        let of_row = |row: i32| usize::try_from(row).ok().map(|row| ffi::all_rows()[row]);
        let accepts = |row: i32| row >= 0 && (row == why.row || row == why.built_in);
        let range = |it: &ffi::Range| Range {
            place: it.place,
            len: it.len,
            step: it.step,
            file_type: of_row(it.row),
            of: of_row(it.row),
            accepts: accepts(it.row),
        };
        Evidence {
            file_type: of_row(why.row),
            told: of_row(why.row),
            ranges: why.ranges().iter().map(range).collect(),
            wanted: why.needs.wanted,
            least: why.needs.least,
            is_exact: why.needs.is_exact,
        }
    }
}

/// What decides the answer of [`crate::get`]: every buffer that has these bytes in the same places, and such a length, has it
/// too, whatever else stands in it.
///
/// ```
/// let found = infer::evidence(b"GIF89a");
/// let of = |range: &infer::Range| (range.place, range.len, range.file_type.map(|kind| kind.extension()));
/// assert_eq!(found.ranges.iter().map(of).collect::<Vec<_>>(), [(0, 3, Some("gif"))]);
/// ```
pub fn evidence(buf: &[u8]) -> Evidence {
    Evidence::of(&ffi::evidence(buf))
}
