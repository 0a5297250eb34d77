//! Outputs that a caller lends, and how long they are.

use crate::{sizes, ArrayRef, Kind};

/// Lengths of masks, values and offsets.
#[derive(Clone, Copy, Debug, Default, PartialEq, Eq, Hash)]
pub struct Room {
    /// Mask bytes.
    pub masks: usize,
    /// Value bytes.
    pub values: usize,
    /// Offsets.
    pub offsets: usize,
}

/// Outputs that a caller lends. [`Kind::array_room`] tells how long they must be; longer ones will do, and what the kind does
/// not use may be empty.
#[derive(Debug)]
pub struct Lent<'a> {
    /// For the mask bytes.
    pub masks: &'a mut [u8],
    /// For the value bytes.
    pub values: &'a mut [u8],
    /// For the offsets.
    pub offsets: &'a mut [u64],
}

impl<'a> Lent<'a> {
    /// What was written.
    pub(crate) fn array(self, kind: Kind, shape: &'a [u64], wrote: Room) -> ArrayRef<'a> {
        let (masks, values, offsets): (&'a [u8], &'a [u8], &'a [u64]) = (self.masks, self.values, self.offsets);
        ArrayRef {
            kind,
            shape,
            masks: &masks[..wrote.masks],
            values: &values[..wrote.values],
            offsets: &offsets[..wrote.offsets],
        }
    }
}

/// Cells of a shape, or of the lengths of a subset; 0 where there are none, or over 65,536.
///
/// ```
/// use durpaxeta::cell_count;
/// assert_eq!(cell_count(&[2, 3]), 6);
/// assert_eq!(cell_count(&[256, 257]), 0);
/// ```
pub fn cell_count(sides: &[u64]) -> usize {
    sizes::cells(sides).unwrap_or(0)
}
