//! Small arrangements: every table of a few ragged cells, by its number.

use crate::calls::{given, lend};
use crate::{cell_count, ffi, Array, ArrayRef, Kind, Lent, Refusal, MAX_ARRANGED_CELLS, MAX_ARRANGED_DEPTH};
use alloc::vec::Vec;
use core::iter::FusedIterator;
use core::ops::Range;

/// How many arrangements there are of so many cells of that depth: depth + 4 to the power of the cells. 0 where the depth is over 2
/// or there are not 1 to 4 cells.
///
/// ```
/// use durpaxeta::arrangement_count;
/// assert_eq!((arrangement_count(0, 1), arrangement_count(2, 4)), (4, 1296));
/// assert_eq!((arrangement_count(3, 1), arrangement_count(0, 0)), (0, 0));
/// ```
pub const fn arrangement_count(depth: u64, cells: u64) -> u64 {
    if depth > MAX_ARRANGED_DEPTH || cells < 1 || cells > MAX_ARRANGED_CELLS {
        return 0;
    }
    (depth + 4).pow(cells as u32)
}

/// What the call takes of a kind and a shape. Arrangements are of ragged kinds.
fn depth_and_cells(kind: Kind, shape: &[u64]) -> Result<(u64, u64), Refusal> {
    match kind.is_ragged() {
        true => Ok((kind.depth, cell_count(shape) as u64)),
        false => Err(Refusal::Kind),
    }
}

/// One of the arrangements of a few ragged cells, by its number. A cell is in one of depth + 4 states, numbered from 0: null at
/// level 1 up to the innermost, then set with 0, 1, 2 and 3 zero bytes. The states of the cells are the digits of the number, the
/// first cell weighing most. Width, place and mask form change nothing, nor does the shape beside its count of cells.
///
/// # Errors
///
/// In this order `Kind` (a fixed kind, a depth over 2, or a shape that has not 1 to 4 cells), `Arrangement` (the number is
/// [`arrangement_count`], or above it).
///
/// ```
/// use durpaxeta::{arrangement, Cell, Kind, Place, Refusal, Width};
///
/// // 8 is 1 and 2 in base 6: null at level 2, and set with no bytes.
/// let kind = Kind::ragged(2, Width::Four, Place::Start);
/// let table = arrangement(kind, &[2], 8)?;
/// assert!(table.cells().eq([Cell::Null { level: 2 }, Cell::Value(b"")]));
/// assert_eq!(arrangement(kind, &[2], 36), Err(Refusal::Arrangement));
/// assert_eq!(arrangement(kind, &[5], 0), Err(Refusal::Kind));
/// # Ok::<(), Refusal>(())
/// ```
pub fn arrangement(kind: Kind, shape: &[u64], number: u64) -> Result<Array, Refusal> {
    let (depth, cells) = depth_and_cells(kind, shape)?;
    let room = kind.array_room(cells as usize, 3 * cells as usize);
    lend(kind, shape, room, |out| given(ffi::arrangement(depth, cells, number, out)))
}

/// [`arrangement`] into lent slices; answers the array in them. 8 mask bytes, 12 value bytes and 5 offsets are enough for any.
///
/// # Errors
///
/// Those of [`arrangement`], then `Output` where a slice is too short. A refusal changes no element of them.
///
/// ```
/// use durpaxeta::{arrangement_into, Cell, Kind, Lent, Place, Refusal, Width};
///
/// let kind = Kind::ragged(1, Width::Four, Place::Start);
/// let (mut masks, mut values, mut offsets) = ([9; 8], [9; 12], [9; 5]);
/// let out = Lent { masks: &mut masks, values: &mut values, offsets: &mut offsets };
/// let table = arrangement_into(kind, &[2], 13, out)?; // 2 and 3 in base 5
/// assert!(table.cells().eq([Cell::Value(&[0]), Cell::Value(&[0, 0])]));
///
/// let out = Lent { masks: &mut masks, values: &mut values[..2], offsets: &mut offsets };
/// assert_eq!(arrangement_into(kind, &[2], 13, out), Err(Refusal::Output));
/// # Ok::<(), Refusal>(())
/// ```
pub fn arrangement_into<'o>(
    kind: Kind,
    shape: &'o [u64],
    number: u64,
    mut out: Lent<'o>,
) -> Result<ArrayRef<'o>, Refusal> {
    let (depth, cells) = depth_and_cells(kind, shape)?;
    let wrote = given(ffi::arrangement(depth, cells, number, &mut out))?;
    Ok(out.array(kind, shape, wrote))
}

/// All arrangements of that many cells, by their numbers from 0 on.
///
/// # Errors
///
/// `Kind`, as of [`arrangement`].
///
/// ```
/// use durpaxeta::{arrangements, Cell, Kind, Place, Width};
///
/// let kind = Kind::ragged(2, Width::Four, Place::Start);
/// let all = arrangements(kind, &[1])?;
/// assert_eq!(all.len(), 6);
/// let values = all.clone().filter(|table| table.cell(0).is_some_and(|cell| !cell.is_null()));
/// assert!(values.map(|table| table.values.len()).eq(0..=3));
/// assert_eq!(all.rev().last().unwrap().cell(0), Some(Cell::Null { level: 1 }));
/// # Ok::<(), durpaxeta::Refusal>(())
/// ```
pub fn arrangements(kind: Kind, shape: &[u64]) -> Result<Arrangements, Refusal> {
    let (depth, cells) = depth_and_cells(kind, shape)?;
    match arrangement_count(depth, cells) {
        0 => Err(Refusal::Kind),
        count => Ok(Arrangements { kind, shape: shape.to_vec(), left: 0..count }),
    }
}

/// All arrangements of a kind and a shape, in the order of their numbers; from [`arrangements`].
#[derive(Clone, Debug)]
pub struct Arrangements {
    kind: Kind,
    shape: Vec<u64>,
    left: Range<u64>,
}

impl Arrangements {
    fn numbered(&self, number: u64) -> Array {
        arrangement(self.kind, &self.shape, number).expect("a number below the count is not refused")
    }
}

impl Iterator for Arrangements {
    type Item = Array;

    fn next(&mut self) -> Option<Array> {
        self.nth(0)
    }

    fn nth(&mut self, skipped: usize) -> Option<Array> {
        self.left.nth(skipped).map(|number| self.numbered(number))
    }

    fn size_hint(&self) -> (usize, Option<usize>) {
        self.left.size_hint()
    }
}

impl DoubleEndedIterator for Arrangements {
    fn next_back(&mut self) -> Option<Array> {
        self.nth_back(0)
    }

    fn nth_back(&mut self, skipped: usize) -> Option<Array> {
        self.left.nth_back(skipped).map(|number| self.numbered(number))
    }
}

impl ExactSizeIterator for Arrangements {}

impl FusedIterator for Arrangements {}
