//! Why a call is refused.
use crate::names;
use std::fmt;

/// What a call of this crate gives back.
pub type Result<T> = std::result::Result<T, Error>;

macro_rules! errors {
    ($($(#[$about:meta])* $name:ident = $number:literal,)*) => {
        /// Why a call is refused: a case for each number of docs/NUMBERS.md. What a number carries is in its case; [`Error::details`] has it for all alike.
        ///
        /// ```
        /// use pdb_types::{Error, TypeIndex, TypeInformation};
        ///
        /// let stream = include_bytes!("../../samples/e.tpi");
        /// let refused = TypeInformation::parse(stream)?.finder().find(TypeIndex(4200)).unwrap_err();
        /// assert_eq!(refused, Error::NotFound(4200));
        /// assert_eq!((refused.number(), refused.name(), refused.details()), (8, "not found", [Some(4200), None]));
        /// assert_eq!(refused.to_string(), "refused 8, not found: 4200");
        /// # Ok::<(), Error>(())
        /// ```
        #[non_exhaustive]
        #[derive(Debug, Clone, Copy, PartialEq, Eq, Hash)]
        pub enum Error {
            /// 1 from a lookup, with the links passed before the break: the header names more records than there are.
            EndedAfter(u32),
            /// 8, with the index: it is above the highest, names no primitive type, or is a root that `drop` does not know.
            NotFound(u32),
            /// 9, with the index and the highest indexed: the finder has not come to it yet.
            NotIndexed(u32, u32),
            /// 10, with the leaf: this reader does not take the record's leaf.
            LeafUnknown(u16),
            $($(#[$about])* $name,)*
            /// A number that docs/NUMBERS.md does not have, from a later library than this crate knows.
            Other(u32),
        }

        impl Error {
            /// The refusal of a number with its details.
            #[cold]
            pub(crate) fn named(number: u32, detail: u64, second: u64) -> Error {
                match number {
                    8 => Error::NotFound(detail as u32),
                    9 => Error::NotIndexed(detail as u32, second as u32),
                    10 => Error::LeafUnknown(detail as u16),
                    $($number => Error::$name,)*
                    n => Error::Other(n),
                }
            }

            /// Its number in docs/NUMBERS.md.
            pub fn number(&self) -> u32 {
                match *self {
                    Error::EndedAfter(_) => 1,
                    Error::NotFound(_) => 8,
                    Error::NotIndexed(_, _) => 9,
                    Error::LeafUnknown(_) => 10,
                    $(Error::$name => $number,)*
                    Error::Other(n) => n,
                }
            }
        }
    };
}

errors! {
    /// 1: a field, a record or a header passes the end of its bytes.
    Ended = 1,
    /// 2: the header says that it has fewer than 56 bytes.
    HeaderSmall = 2,
    /// 3: the header says that it has more than 1,024 bytes.
    HeaderLarge = 3,
    /// 4: the header's lowest index is below 4096.
    MinimumLow = 4,
    /// 5: the header's highest index is below its lowest.
    MaximumLow = 5,
    /// 6: a record of 0 or 1 bytes, which has no room for a leaf.
    TooShort = 6,
    /// 7: a whole record is there, but its index would be 4,294,967,295.
    IndicesUsedUp = 7,
    /// 11: a numeric leaf has an unknown prefix, or is negative where a size or an offset is wanted.
    NumberBad = 11,
    /// 12: a pointer's kind is above 12 or its mode above 4, where it is needed.
    PointerWord = 12,
    /// 13: a finder's table has no room.
    TableFull = 13,
    /// 14: an iterator whose index is below the finder's lowest.
    ForeignCursor = 14,
    /// 15: a list has no such element. The iterators of this crate end there instead.
    NoSuchElement = 15,
    /// 16: a stream of more than 4,294,967,294 bytes.
    TooLong = 16,
    /// 17: the writer is given what a reader would not give back.
    WouldNotReadBack = 17,
    /// 18: a record to be written has more than 65,535 bytes.
    RecordTooLong = 18,
    /// 19: a buffer is too small. The methods of this crate take a longer one; only a declaration over their limit comes to it, and a buffer or a table that
    /// there is no memory for.
    NoRoom = 19,
    /// 20: this is no places file, or it is cut.
    FileWrong = 20,
    /// 21: a places file of another stream.
    AnotherStream = 21,
    /// 22: a place of a places file is not where the stream's records lead.
    OffTheChain = 22,
    /// 23: a declaration has more than 32 nested types.
    TooDeep = 23,
    /// 24: a declaration comes to a record that has no text there.
    LeafNotPrinted = 24,
    /// 25: a section does not start with the signature 4.
    Signature = 25,
    /// 26: a finder's shift is above 6.
    Shift = 26,
    /// 27: a report's total would pass 64 bits.
    TotalTooLarge = 27,
    /// 28: a report has no row for a sixty-fifth leaf.
    LeavesFull = 28,
    /// 29: the stream is not fit, so that nothing can be dropped from it; or a continuation does not name an earlier record.
    NotFit = 29,
    /// 30: an optional index would become 0xffff, which reads as none.
    ReadsAsNone = 30,
}

impl Error {
    /// Its name in docs/NUMBERS.md.
    pub fn name(&self) -> &'static str {
        names::refusal_name(self.number()).unwrap_or("unknown")
    }

    /// What goes with the number: the links passed (1 from a lookup), an index (8), an index and the highest indexed (9), a leaf (10).
    pub fn details(&self) -> [Option<u32>; 2] {
        match *self {
            Error::EndedAfter(n) | Error::NotFound(n) => [Some(n), None],
            Error::NotIndexed(n, highest) => [Some(n), Some(highest)],
            Error::LeafUnknown(leaf) => [Some(u32::from(leaf)), None],
            _ => [None, None],
        }
    }
}

impl fmt::Display for Error {
    fn fmt(&self, f: &mut fmt::Formatter<'_>) -> fmt::Result {
        write!(f, "refused {}, {}", self.number(), self.name())?;
        match (self, self.details()) {
            // a leaf as leaves are written everywhere
            (Error::LeafUnknown(leaf), _) => write!(f, ": {leaf:#06x}"),
            (_, [Some(n), Some(m)]) => write!(f, ": {n}, {m}"),
            (_, [Some(n), None]) => write!(f, ": {n}"),
            _ => Ok(()),
        }
    }
}

impl std::error::Error for Error {}
