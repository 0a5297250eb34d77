//! Refusals: their numbers, their meaning, and who causes them.

use core::error::Error;
use core::fmt;

macro_rules! refusals {
    ($($name:ident = $number:literal, $blame:ident, $message:literal;)+) => {
        /// Why a call was refused. The numbers are those of the C interface.
        #[derive(Clone, Copy, Debug, PartialEq, Eq, Hash, PartialOrd, Ord)]
        #[non_exhaustive]
        #[repr(u32)]
        pub enum Refusal {
            $(
                #[doc = concat!($number, ": ", $message, ".")]
                $name = $number,
            )+
        }

        impl Refusal {
            /// All refusals, by their numbers.
            pub const ALL: &'static [Refusal] = &[$(Refusal::$name),+];

            /// Its meaning in plain words.
            ///
            /// ```
            /// assert!(durpaxeta::Refusal::Short.message().starts_with("too few stored bytes: "));
            /// ```
            pub fn message(self) -> &'static str {
                match self {
                    $(Refusal::$name => $message,)+
                }
            }

            /// Who causes it.
            ///
            /// ```
            /// use durpaxeta::{Blame, Refusal};
            /// assert_eq!(Refusal::Length.blame(), Blame::Storer);
            /// ```
            pub fn blame(self) -> Blame {
                match self {
                    $(Refusal::$name => Blame::$blame,)+
                }
            }
        }
    };
}

refusals! {
    Kind = 1, Describer,
        "the kind is out of range: depth 0 to 4, cell size 1 to 64 bytes, index width 4 or 8 bytes (of a working table: \
         ragged, and 1 to 256 cells to move; of an arrangement: ragged, depth 0 to 2, and 1 to 4 cells)";
    Shape = 2, Describer,
        "the shape is out of range: 1 to 4 sides, each at least 1, at most 65,536 cells in all (of a working table: 1 to \
         65,536 cells)";
    Subset = 3, Describer,
        "a subset reaches past the shape, or has not one start and one length for each side, or, in a merge or as a chunk of a \
         live table, holds no cell";
    Content = 4, Supplier,
        "lengths of masks, values, offsets or chunks disagree, a mask byte is neither 00 nor 01, the first offset is not 0, or \
         offsets fall (of a working table: it is not in rest form, or cells overlap or lie where they must not; of a live \
         table: a list has not one length for each chunk, lengths do not sum to the old bytes or sum past the area, or more \
         chunks are moved than there are; of a rights plane: it has not one byte for each cell, or one is neither 00 nor 01)";
    Size = 5, Supplier, "more than 8,589,934,592 value bytes, or 16,777,216 bytes of a store";
    Output = 6, Lender, "an output, or the area of a live table, is shorter than the result needs";
    Short = 7, Storer,
        "too few stored bytes: a frame takes at least 16, ragged values 8, the interleaved form 4 and 4 for each cell";
    Length = 8, Storer,
        "a stored length disagrees with the bytes that are there, or with the number of cells, or bytes are stored where no \
         cell has any";
    Count = 9, Storer, "the interleaved form counts another number of cells";
    Falling = 10, Storer, "the first stored offset is not 0, or stored offsets fall";
    PastEnd = 11, Storer, "interleaved form: a length field or a cell runs past the end";
    Cover = 12, Supplier, "the subsets of the merge, or of the live table, miss a cell or hold one twice";
    UnusedBits = 13, Storer, "a packed mask has a bit after its last cell that is not 0";
    NotBoolean = 14, Storer, "a stored mask byte is neither 00 nor 01";
    Cell = 15, Setter, "the working table has no cell of that number";
    Full = 16, Setter, "the cells would have more bytes than the store";
    NoMasks = 17, Describer, "the kind has no masks, and only a mask can hide a cell from a guest";
    Hidden = 18, Setter, "the rights plane hides that cell from the guest";
    Arrangement = 19, Numberer,
        "there is no arrangement of that number: there are depth + 4 to the power of the cells, numbered from 0";
    Field = 20, Supplier,
        "an offset for an index of 4 bytes, or the length of a cell of the interleaved form, is over 4,294,967,295";
}

/// Who causes a refusal.
#[derive(Clone, Copy, Debug, PartialEq, Eq, Hash)]
pub enum Blame {
    /// Whoever describes the table: its kind, its shape, a subset.
    Describer,
    /// Whoever hands over the array, the chunk list, the working table, the live table or the rights plane.
    Supplier,
    /// Whoever sets a cell of a working table.
    Setter,
    /// Whoever numbers an arrangement.
    Numberer,
    /// Whoever stored the bytes.
    Storer,
    /// Whoever lends the output.
    Lender,
}

/// A number that no refusal has.
#[derive(Clone, Copy, Debug, PartialEq, Eq, Hash)]
pub struct UnknownRefusal(pub u32);

impl Refusal {
    /// Its number, as in the C interface.
    ///
    /// ```
    /// use durpaxeta::Refusal;
    /// assert_eq!(Refusal::Cover.number(), 12);
    /// assert_eq!(Refusal::try_from(12), Ok(Refusal::Cover));
    /// ```
    pub fn number(self) -> u32 {
        self as u32
    }
}

impl TryFrom<u32> for Refusal {
    type Error = UnknownRefusal;

    fn try_from(number: u32) -> Result<Refusal, UnknownRefusal> {
        let found = Refusal::ALL.iter().find(|refusal| refusal.number() == number);
        found.copied().ok_or(UnknownRefusal(number))
    }
}

impl fmt::Display for Refusal {
    fn fmt(&self, f: &mut fmt::Formatter<'_>) -> fmt::Result {
        write!(f, "refusal {}: {} (caused by {})", self.number(), self.message(), self.blame())
    }
}

impl Error for Refusal {}

impl fmt::Display for UnknownRefusal {
    fn fmt(&self, f: &mut fmt::Formatter<'_>) -> fmt::Result {
        write!(f, "no refusal has the number {}", self.0)
    }
}

impl Error for UnknownRefusal {}

impl fmt::Display for Blame {
    fn fmt(&self, f: &mut fmt::Formatter<'_>) -> fmt::Result {
        f.write_str(match self {
            Blame::Describer => "whoever describes the table",
            Blame::Supplier => "whoever hands over the array, chunk list, working table, live table or rights plane",
            Blame::Setter => "whoever sets the cell",
            Blame::Numberer => "whoever numbers the arrangement",
            Blame::Storer => "whoever stored the bytes",
            Blame::Lender => "whoever lends the output",
        })
    }
}
