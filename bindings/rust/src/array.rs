//! Arrays: a kind, a shape and its content.

use crate::{cell_count, sizes, Kind, Refusal, Values, MAX_DEPTH, MAX_SIZE};
use alloc::vec;
use alloc::vec::Vec;
use core::iter::FusedIterator;

/// A table in memory.
///
/// `masks` has one plane for each level, outermost first, one byte a cell: 00 is null, 01 is set, and no other byte is one, below a
/// null neither: each call that takes an array refuses it with `Content`.
/// Ragged kinds have one more offset than cells: the first is 0, they never fall, and the last is the count of value bytes; any
/// others are refused with `Content` too. Fixed kinds have none.
#[derive(Clone, Debug, PartialEq, Eq)]
pub struct Array {
    /// Depth, and fixed or ragged values.
    pub kind: Kind,
    /// 1 to 4 sides.
    pub shape: Vec<u64>,
    /// depth × cells bytes.
    pub masks: Vec<u8>,
    /// The value bytes.
    pub values: Vec<u8>,
    /// Cell i has the value bytes from `offsets[i]` up to `offsets[i + 1]`.
    pub offsets: Vec<u64>,
}

/// A table in memory, borrowed.
#[derive(Clone, Copy, Debug, PartialEq, Eq)]
pub struct ArrayRef<'a> {
    /// Depth, and fixed or ragged values.
    pub kind: Kind,
    /// 1 to 4 sides.
    pub shape: &'a [u64],
    /// depth × cells bytes.
    pub masks: &'a [u8],
    /// The value bytes.
    pub values: &'a [u8],
    /// Cell i has the value bytes from `offsets[i]` up to `offsets[i + 1]`.
    pub offsets: &'a [u64],
}

/// What a mask byte says of its cell.
#[derive(Clone, Copy, Debug, PartialEq, Eq, Hash)]
pub enum Mark {
    /// 00.
    Null,
    /// 01.
    Set,
    /// Any other byte, which no mask has: handed over it is refused with `Content`, stored with `NotBoolean`.
    Other,
}

impl Mark {
    /// Reads a mask byte.
    ///
    /// ```
    /// use durpaxeta::Mark;
    /// assert_eq!([0, 1, 2, 0xFF].map(Mark::of), [Mark::Null, Mark::Set, Mark::Other, Mark::Other]);
    /// ```
    pub const fn of(byte: u8) -> Mark {
        match byte {
            0 => Mark::Null,
            1 => Mark::Set,
            _ => Mark::Other,
        }
    }
}

/// What a cell is: null at a level, or a value, which may be empty.
#[derive(Clone, Copy, Debug, PartialEq, Eq, Hash)]
pub enum Cell<'a> {
    /// Not set.
    Null {
        /// The outermost level whose mask byte is 00, counted from 1.
        level: usize,
    },
    /// Set at all levels. An empty value is a value.
    Value(&'a [u8]),
}

impl Cell<'_> {
    /// Whether it is not set. An empty value is no null.
    ///
    /// ```
    /// use durpaxeta::Cell;
    /// assert!(Cell::Null { level: 1 }.is_null());
    /// assert!(!Cell::Value(b"").is_null());
    /// ```
    pub const fn is_null(self) -> bool {
        matches!(self, Cell::Null { .. })
    }
}

/// The cells of an array, in row order.
#[derive(Clone, Debug)]
pub struct Cells<'a> {
    array: ArrayRef<'a>,
    next: usize,
}

impl<'a> Iterator for Cells<'a> {
    type Item = Cell<'a>;

    fn next(&mut self) -> Option<Cell<'a>> {
        let cell = self.array.cell(self.next)?;
        self.next += 1;
        Some(cell)
    }

    fn size_hint(&self) -> (usize, Option<usize>) {
        // Fewer where lengths do not fit or a mask byte is over 01.
        (0, Some(self.array.cell_count() - self.next))
    }
}

impl FusedIterator for Cells<'_> {}

/// Ragged values without masks: cells of any length, none of them null.
#[derive(Clone, Debug, PartialEq, Eq)]
pub struct RaggedValues {
    /// The value bytes.
    pub values: Vec<u8>,
    /// Cell i has the value bytes from `offsets[i]` up to `offsets[i + 1]`.
    pub offsets: Vec<u64>,
}

/// An example over a table of four cells.
macro_rules! example {
    ($($line:literal),+) => {
        concat!(
            "```\n# use durpaxeta::{Array, Cell, Kind, Place, Width};\n",
            "# let kind = Kind::ragged(1, Width::Four, Place::Start);\n",
            "let cells = [Cell::Value(b\"0-3\"), Cell::Null { level: 1 }, Cell::Value(b\"\"), Cell::Value(b\"8\")];\n",
            "let table = Array::from_cells(kind, &[2, 2], &cells)?;\n",
            $($line, "\n",)+
            "# Ok::<(), durpaxeta::Refusal>(())\n```"
        )
    };
}

impl Array {
    /// Borrows the array.
    ///
    #[doc = example!(r#"assert_eq!(table.view().values, b"0-38");"#)]
    pub fn view(&self) -> ArrayRef<'_> {
        ArrayRef {
            kind: self.kind,
            shape: &self.shape,
            masks: &self.masks,
            values: &self.values,
            offsets: &self.offsets,
        }
    }

    /// Makes a table out of its cells, in row order. Set levels get the mask byte 01. What lies below a null is cleared.
    ///
    /// # Errors
    ///
    /// `Kind` or `Shape` where these are refused, and `Content` if there are more or fewer cells than the shape has, a null
    /// names a level that the kind has not, or a fixed value has another size.
    ///
    /// ```
    /// use durpaxeta::{Array, Cell, Kind, Place, Refusal, Width};
    ///
    /// let kind = Kind::ragged(2, Width::Four, Place::Start);
    /// let table = Array::from_cells(kind, &[2], &[Cell::Value(b"0-3"), Cell::Null { level: 2 }])?;
    /// assert_eq!((&table.masks[..], &table.offsets[..]), (&[1, 1, 1, 0][..], &[0, 3, 3][..]));
    /// assert_eq!(Array::from_cells(kind, &[2], &[Cell::Value(b"0-3")]), Err(Refusal::Content));
    /// # Ok::<(), Refusal>(())
    /// ```
    pub fn from_cells(kind: Kind, shape: &[u64], cells: &[Cell<'_>]) -> Result<Array, Refusal> {
        let size = match kind.values {
            Values::Fixed { size, .. } => size,
            Values::Ragged { .. } => 1,
        };
        if kind.depth > MAX_DEPTH || size == 0 || size > MAX_SIZE {
            return Err(Refusal::Kind);
        }
        let count = sizes::cells(shape).ok_or(Refusal::Shape)?;
        if count != cells.len() {
            return Err(Refusal::Content);
        }
        let depth = kind.depth as usize;
        let ragged = kind.is_ragged();
        let mut array = Array {
            kind,
            shape: shape.to_vec(),
            masks: vec![0; depth * count],
            values: Vec::new(),
            offsets: if ragged { vec![0] } else { Vec::new() },
        };
        for (number, cell) in cells.iter().enumerate() {
            let set = match *cell {
                Cell::Null { level } if (1..=depth).contains(&level) => {
                    if !ragged {
                        array.values.resize(array.values.len() + size as usize, 0);
                    }
                    level - 1
                }
                Cell::Value(value) if ragged || value.len() as u64 == size => {
                    array.values.extend_from_slice(value);
                    depth
                }
                _ => return Err(Refusal::Content),
            };
            for level in 0..set {
                array.masks[level * count + number] = 1;
            }
            if ragged {
                array.offsets.push(array.values.len() as u64);
            }
        }
        Ok(array)
    }

    /// How many cells the shape has; 0 where it is refused.
    ///
    #[doc = example!("assert_eq!(table.cell_count(), 4);")]
    pub fn cell_count(&self) -> usize {
        self.view().cell_count()
    }

    /// The cell of a number, counted row by row. None if there is no such cell, the lengths do not fit, or one of its mask bytes,
    /// up to the first 00, is over 01.
    ///
    #[doc = example!(r#"assert_eq!(table.cell(2), Some(Cell::Value(b"")));"#, "assert_eq!(table.cell(4), None);")]
    pub fn cell(&self, number: usize) -> Option<Cell<'_>> {
        self.view().cell(number)
    }

    /// The cell at a place: one number for each side. None as for [`cell`](Self::cell).
    ///
    #[doc = example!(
        r#"assert_eq!(table.cell_at(&[1, 0]), Some(Cell::Value(b"")));"#,
        "assert_eq!(table.cell_at(&[0, 2]), None);"
    )]
    pub fn cell_at(&self, place: &[u64]) -> Option<Cell<'_>> {
        self.view().cell_at(place)
    }

    /// All cells, in row order. It ends at the first one that [`cell`](Self::cell) does not give.
    ///
    #[doc = example!(
        "assert_eq!(table.cells().filter(|cell| cell.is_null()).count(), 1);",
        "assert!(table.cells().eq(cells));"
    )]
    pub fn cells(&self) -> Cells<'_> {
        self.view().cells()
    }

    /// The mask bytes of a cell, outermost first.
    ///
    #[doc = example!("assert_eq!(table.masks_of(1), [0]);")]
    pub fn masks_of(&self, number: usize) -> Vec<u8> {
        self.view().masks_of(number)
    }
}

impl<'a> ArrayRef<'a> {
    /// How many cells the shape has; 0 where it is refused.
    ///
    #[doc = example!("assert_eq!(table.view().cell_count(), 4);")]
    pub fn cell_count(self) -> usize {
        cell_count(self.shape)
    }

    /// The cell of a number, counted row by row. None if there is no such cell, the lengths do not fit, or one of its mask bytes,
    /// up to the first 00, is over 01.
    ///
    #[doc = example!(
        r#"assert_eq!(table.view().cell(2), Some(Cell::Value(b"")));"#,
        "assert_eq!(table.view().cell(4), None);"
    )]
    pub fn cell(self, number: usize) -> Option<Cell<'a>> {
        let count = self.cell_count();
        if number >= count {
            return None;
        }
        for level in 0..usize::try_from(self.kind.depth).ok()? {
            match Mark::of(*self.masks.get(level.checked_mul(count)?.checked_add(number)?)?) {
                Mark::Null => return Some(Cell::Null { level: level + 1 }),
                Mark::Set => {}
                Mark::Other => return None,
            }
        }
        let (from, to) = match self.kind.values {
            Values::Fixed { size, .. } => {
                let size = usize::try_from(size).ok()?;
                let from = number.checked_mul(size)?;
                (from, from.checked_add(size)?)
            }
            Values::Ragged { .. } => (
                usize::try_from(*self.offsets.get(number)?).ok()?,
                usize::try_from(*self.offsets.get(number + 1)?).ok()?,
            ),
        };
        self.values.get(from..to).map(Cell::Value)
    }

    /// The cell at a place: one number for each side. None as for [`cell`](Self::cell).
    ///
    #[doc = example!(
        r#"assert_eq!(table.view().cell_at(&[1, 0]), Some(Cell::Value(b"")));"#,
        "assert_eq!(table.view().cell_at(&[0, 2]), None);"
    )]
    pub fn cell_at(self, place: &[u64]) -> Option<Cell<'a>> {
        if place.len() != self.shape.len() || place.iter().zip(self.shape).any(|(at, side)| at >= side) {
            return None;
        }
        // A shape that is refused has no cell 0 either, so what its product wraps to does not matter.
        let number = place
            .iter()
            .zip(self.shape)
            .fold(0, |number: u64, (at, side)| number.wrapping_mul(*side).wrapping_add(*at));
        self.cell(usize::try_from(number).ok()?)
    }

    /// All cells, in row order. It ends at the first one that [`cell`](Self::cell) does not give.
    ///
    #[doc = example!(
        "assert_eq!(table.view().cells().filter(|cell| cell.is_null()).count(), 1);",
        "assert!(table.view().cells().eq(cells));"
    )]
    pub fn cells(self) -> Cells<'a> {
        Cells { array: self, next: 0 }
    }

    /// The mask bytes of a cell, outermost first.
    ///
    #[doc = example!("assert_eq!(table.view().masks_of(1), [0]);")]
    pub fn masks_of(self, number: usize) -> Vec<u8> {
        let count = self.cell_count();
        if number >= count {
            return Vec::new();
        }
        self.masks.iter().skip(number).step_by(count).copied().collect()
    }

    /// An owned copy.
    ///
    #[doc = example!("assert_eq!(table.view().to_array(), table);")]
    pub fn to_array(self) -> Array {
        Array {
            kind: self.kind,
            shape: self.shape.to_vec(),
            masks: self.masks.to_vec(),
            values: self.values.to_vec(),
            offsets: self.offsets.to_vec(),
        }
    }
}

impl<'a> From<&'a Array> for ArrayRef<'a> {
    fn from(array: &'a Array) -> ArrayRef<'a> {
        array.view()
    }
}

impl RaggedValues {
    /// How many cells there are.
    ///
    /// ```
    /// let read = durpaxeta::decode_interleaved(1, &[1, 0, 0, 0, 0, 0, 0, 0])?;
    /// assert_eq!(read.cell_count(), 1);
    /// # Ok::<(), durpaxeta::Refusal>(())
    /// ```
    pub fn cell_count(&self) -> usize {
        self.offsets.len().saturating_sub(1)
    }

    /// The value of a cell. None if there is no such cell, or the lengths do not fit.
    ///
    /// ```
    /// let read = durpaxeta::decode_interleaved(1, &[1, 0, 0, 0, 2, 0, 0, 0, b'h', b'i'])?;
    /// assert_eq!((read.cell(0), read.cell(1)), (Some(&b"hi"[..]), None));
    /// # Ok::<(), durpaxeta::Refusal>(())
    /// ```
    pub fn cell(&self, number: usize) -> Option<&[u8]> {
        let from = usize::try_from(*self.offsets.get(number)?).ok()?;
        let to = usize::try_from(*self.offsets.get(number.checked_add(1)?)?).ok()?;
        self.values.get(from..to)
    }
}
