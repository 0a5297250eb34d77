//! The kind of a table: its depth, how stored masks lie, and whether values are fixed or ragged.

use crate::{sizes, Room};

/// Order of the bytes of a stored fixed cell. In memory a cell is always in little order.
#[derive(Clone, Copy, Debug, PartialEq, Eq, Hash)]
pub enum Order {
    /// As in memory.
    Little,
    /// Reversed.
    Big,
}

/// Bytes of an offset in a stored index.
#[derive(Clone, Copy, Debug, PartialEq, Eq, Hash)]
pub enum Width {
    /// 4 bytes.
    Four,
    /// 8 bytes.
    Eight,
}

impl Width {
    /// 4 or 8.
    ///
    /// ```
    /// assert_eq!(durpaxeta::Width::Eight.bytes(), 8);
    /// ```
    pub const fn bytes(self) -> usize {
        match self {
            Width::Four => 4,
            Width::Eight => 8,
        }
    }
}

/// Where the index of stored ragged values lies.
#[derive(Clone, Copy, Debug, PartialEq, Eq, Hash)]
pub enum Place {
    /// Before the data.
    Start,
    /// Behind the data.
    End,
}

/// How a stored mask lies. Mask planes in memory are always a byte a cell.
#[derive(Clone, Copy, Debug, PartialEq, Eq, Hash)]
pub enum MaskForm {
    /// A byte for each cell: 00 is null, 01 is set.
    Bytes,
    /// A bit for each cell, the lowest of a byte first.
    Packed,
}

/// How the values of a table are stored.
#[derive(Clone, Copy, Debug, PartialEq, Eq, Hash)]
pub enum Values {
    /// Cells of one size.
    Fixed {
        /// Bytes of a cell, 1 to 64.
        size: u64,
        /// Order of a stored cell's bytes.
        order: Order,
    },
    /// Cells of any length.
    Ragged {
        /// Width of a stored offset.
        width: Width,
        /// Place of the stored index.
        place: Place,
    },
}

/// The kind of a table. Its numbers may be out of range; a call then answers [`Refusal::Kind`](crate::Refusal::Kind).
///
/// As text it is what the command `durpaxeta` takes for `--kind`:
///
/// ```
/// use durpaxeta::{Kind, Order, Place, Width};
///
/// let kind: Kind = "depth 1, ragged, width 4, index at start".parse()?;
/// assert_eq!(kind, Kind::ragged(1, Width::Four, Place::Start));
/// assert_eq!(Kind::fixed(0, 2, Order::Little).to_string(), "depth 0, fixed, size 2, little order");
/// assert_eq!(kind.packed().to_string(), "depth 1, packed masks, ragged, width 4, index at start");
/// # Ok::<(), durpaxeta::TextError>(())
/// ```
#[derive(Clone, Copy, Debug, PartialEq, Eq, Hash)]
#[non_exhaustive]
pub struct Kind {
    /// Mask levels, 0 to 4.
    pub depth: u64,
    /// How stored masks lie. At depth 0 there are none, and either form is the same.
    pub masks: MaskForm,
    /// Fixed or ragged.
    pub values: Values,
}

impl Kind {
    /// A kind of fixed cells. Stored masks are a byte a cell.
    ///
    /// ```
    /// use durpaxeta::{Kind, Order};
    /// assert_eq!(Kind::fixed(1, 2, Order::Big).to_string(), "depth 1, fixed, size 2, big order");
    /// ```
    pub const fn fixed(depth: u64, size: u64, order: Order) -> Kind {
        Kind { depth, masks: MaskForm::Bytes, values: Values::Fixed { size, order } }
    }

    /// A kind of ragged cells. Stored masks are a byte a cell.
    ///
    /// ```
    /// use durpaxeta::{Kind, Place, Width};
    /// assert_eq!(Kind::ragged(0, Width::Eight, Place::End).to_string(), "depth 0, ragged, width 8, index at end");
    /// ```
    pub const fn ragged(depth: u64, width: Width, place: Place) -> Kind {
        Kind { depth, masks: MaskForm::Bytes, values: Values::Ragged { width, place } }
    }

    /// The same kind with its stored masks packed, a bit a cell. Only [`encode`](crate::encode) and
    /// [`decode`](crate::decode) look at it; in memory masks are bytes as ever.
    ///
    /// ```
    /// use durpaxeta::{decode, encode, Array, Kind, Order};
    ///
    /// let kind = Kind::fixed(1, 1, Order::Little).packed();
    /// let table = Array { kind, shape: vec![3], masks: vec![1, 0, 1], values: b"abc".to_vec(), offsets: vec![] };
    /// let stored = encode(&table)?;
    /// assert_eq!(stored, [1, 0, 0, 0, 0, 0, 0, 0, 2, 0, 0, 0, 0, 0, 0, 0, 0b101, b'a', b'c']);
    /// assert_eq!(decode(kind, &[3], &stored)?.masks, [1, 0, 1]);
    /// # Ok::<(), durpaxeta::Refusal>(())
    /// ```
    pub const fn packed(self) -> Kind {
        Kind { masks: MaskForm::Packed, ..self }
    }

    /// Whether cells have any length, and offsets.
    ///
    /// ```
    /// use durpaxeta::{Kind, Order};
    /// assert!(!Kind::fixed(1, 2, Order::Big).is_ragged());
    /// ```
    pub const fn is_ragged(self) -> bool {
        matches!(self.values, Values::Ragged { .. })
    }

    /// The room that an array of that many cells needs: of [`decode_into`](crate::decode_into) with `bytes` stored bytes, of
    /// [`extract_into`](crate::extract_into), [`merge_into`](crate::merge_into) and [`guest_read_into`](crate::guest_read_into)
    /// with `bytes` value bytes, of [`generate_into`](crate::generate_into) with 8 for each cell, of
    /// [`arrangement_into`](crate::arrangement_into) with 3. All of it is used but for ragged values, which may be shorter.
    /// What a call refuses has little room or none.
    ///
    /// ```
    /// use durpaxeta::{cell_count, Kind, Order, Room};
    /// let kind = Kind::fixed(2, 4, Order::Little);
    /// assert_eq!(kind.array_room(cell_count(&[2, 3]), 0), Room { masks: 12, values: 24, offsets: 0 });
    /// ```
    pub fn array_room(self, cells: usize, bytes: usize) -> Room {
        sizes::array(self, cells, bytes)
    }

    /// The most bytes that [`encode_into`](crate::encode_into) writes for an array of that many cells; of ragged ones with
    /// `value_bytes` value bytes. Exactly as many are written where no cell is null.
    ///
    /// ```
    /// use durpaxeta::{Kind, Place, Width};
    /// let kind = Kind::ragged(1, Width::Four, Place::Start);
    /// assert_eq!(kind.stored_room(3, 10), (16 + 3) + 8 + 4 * 4 + 10);
    /// assert_eq!(kind.packed().stored_room(3, 10), (16 + 1) + 8 + 4 * 4 + 10);
    /// ```
    pub fn stored_room(self, cells: usize, value_bytes: usize) -> usize {
        sizes::stored(self, cells, value_bytes)
    }
}
