//! Guests: what a rights plane shows them of an array. Their edits of a working table are in table.rs.

use crate::calls::{content, given, lend};
use crate::{ffi, Array, ArrayRef, Kind, Lent, Mark, Order, Refusal, Values};
use alloc::vec::Vec;

/// A rights plane: of each cell of a table, in row order, whether a guest may see it. It is one byte a cell, 01 or 00, and can hold
/// no other.
///
/// As text it is what the command `durpaxeta` takes for `--rights`, 1 for each cell that is shown and 0 for each other one:
///
/// ```
/// use durpaxeta::Rights;
///
/// let rights: Rights = "1,0,1".parse()?;
/// assert_eq!(rights, Rights::new(&[true, false, true]));
/// assert_eq!(rights.to_string(), "1,0,1");
/// # Ok::<(), durpaxeta::TextError>(())
/// ```
///
/// It can be collected, too:
///
/// ```
/// use durpaxeta::Rights;
///
/// let owners = ["anna", "bert", "anna", "cleo"];
/// let rights: Rights = owners.iter().map(|owner| *owner == "anna").collect();
/// assert_eq!(rights.bytes(), [1, 0, 1, 0]);
/// ```
#[derive(Clone, Debug, PartialEq, Eq, Hash)]
pub struct Rights {
    bytes: Vec<u8>,
}

impl Rights {
    /// The kind of a plane as an [`array`](Rights::array): cells of one byte, and no masks.
    pub const KIND: Kind = Kind::fixed(0, 1, Order::Little);

    /// Of each cell, whether it is shown.
    ///
    /// ```
    /// use durpaxeta::Rights;
    /// assert_eq!(Rights::new(&[true, false]).bytes(), [1, 0]);
    /// ```
    pub fn new(shown: &[bool]) -> Rights {
        shown.iter().copied().collect()
    }

    /// From a plane as it stands in the C interface: 01 for each cell that is shown, 00 for each other one.
    ///
    /// # Errors
    ///
    /// `Content` if there is another byte.
    ///
    /// ```
    /// use durpaxeta::{Refusal, Rights};
    /// assert_eq!(Rights::from_bytes(vec![1, 0])?, Rights::new(&[true, false]));
    /// assert_eq!(Rights::from_bytes(vec![1, 2]), Err(Refusal::Content));
    /// # Ok::<(), Refusal>(())
    /// ```
    pub fn from_bytes(bytes: Vec<u8>) -> Result<Rights, Refusal> {
        match bytes.iter().any(|&byte| Mark::of(byte) == Mark::Other) {
            true => Err(Refusal::Content),
            false => Ok(Rights { bytes }),
        }
    }

    /// The plane: 01 for each cell that is shown, 00 for each other one.
    ///
    /// ```
    /// use durpaxeta::Rights;
    /// assert_eq!(Rights::new(&[false, true]).bytes(), [0, 1]);
    /// ```
    pub fn bytes(&self) -> &[u8] {
        &self.bytes
    }

    /// How many cells it speaks of.
    ///
    /// ```
    /// use durpaxeta::Rights;
    /// assert_eq!(Rights::new(&[true, false]).cell_count(), 2);
    /// ```
    pub fn cell_count(&self) -> usize {
        self.bytes.len()
    }

    /// Whether it shows a cell. One that it does not speak of is not shown.
    ///
    /// ```
    /// use durpaxeta::Rights;
    /// let rights = Rights::new(&[true, false]);
    /// assert_eq!([0, 1, 2].map(|cell| rights.shows(cell)), [true, false, false]);
    /// ```
    pub fn shows(&self, cell: usize) -> bool {
        self.bytes.get(cell).is_some_and(|&byte| Mark::of(byte) == Mark::Set)
    }

    /// What both planes show. [`guest_read`] under one of them and then, on what was seen, under the other is one read under this
    /// plane; in either order.
    ///
    /// # Errors
    ///
    /// `Content` if they speak of different counts of cells.
    ///
    /// ```
    /// use durpaxeta::{guest_read, Array, Cell, Kind, Place, Refusal, Rights, Width};
    ///
    /// let (guest, host) = (Rights::new(&[true, true, false]), Rights::new(&[false, true, true]));
    /// let both = guest.both(&host)?;
    /// assert_eq!(both, Rights::new(&[false, true, false]));
    ///
    /// let kind = Kind::ragged(1, Width::Four, Place::Start);
    /// let table = Array::from_cells(kind, &[3], &[Cell::Value(b"0-3"), Cell::Value(b"8"), Cell::Value(b"")])?;
    /// assert_eq!(guest_read(&guest_read(&table, &guest)?, &host)?, guest_read(&table, &both)?);
    ///
    /// assert_eq!(guest.both(&Rights::new(&[true])), Err(Refusal::Content));
    /// # Ok::<(), Refusal>(())
    /// ```
    pub fn both(&self, other: &Rights) -> Result<Rights, Refusal> {
        match self.cell_count() == other.cell_count() {
            true => Ok((0..self.cell_count()).map(|cell| self.shows(cell) && other.shows(cell)).collect()),
            false => Err(Refusal::Content),
        }
    }

    /// The plane as an array of [`Rights::KIND`], for [`extract`](crate::extract) and [`merge`](crate::merge): where a table is cut or
    /// merged, so is its plane. A read of the outcome is then what a read beforehand, cut or merged, gives. A shape of another count
    /// of cells is refused by the calls.
    ///
    /// A plane is cut:
    ///
    /// ```
    /// use durpaxeta::{extract, guest_read, Array, Cell, Kind, Place, Rights, Subset, Width};
    ///
    /// let kind = Kind::ragged(1, Width::Four, Place::Start);
    /// let cells = [Cell::Value(b"0-3"), Cell::Value(b"8"), Cell::Null { level: 1 }, Cell::Value(b"4-7")];
    /// let table = Array::from_cells(kind, &[2, 2], &cells)?;
    /// let rights = Rights::new(&[true, false, true, false]);
    ///
    /// let second_row = Subset::new(&[1, 0], &[1, 2])?;
    /// let cut = Rights::from_array(extract(rights.array(&table.shape), &second_row)?)?;
    /// assert_eq!(cut, Rights::new(&[true, false]));
    ///
    /// let read_then_cut = extract(&guest_read(&table, &rights)?, &second_row)?;
    /// assert_eq!(guest_read(&extract(&table, &second_row)?, &cut)?, read_then_cut);
    /// # Ok::<(), durpaxeta::Refusal>(())
    /// ```
    ///
    /// Two are merged:
    ///
    /// ```
    /// use durpaxeta::{merge, Chunk, Rights, Subset};
    ///
    /// let columns = [Subset::new(&[0, 0], &[2, 1])?, Subset::new(&[0, 1], &[2, 1])?];
    /// let rights = [Rights::new(&[true, true]), Rights::new(&[false, true])];
    /// let chunks = [0, 1].map(|i| Chunk::new(&columns[i], rights[i].array(columns[i].lengths())));
    /// let merged = Rights::from_array(merge(Rights::KIND, &[2, 2], &chunks)?)?;
    /// assert_eq!(merged, Rights::new(&[true, false, true, true]));
    /// # Ok::<(), durpaxeta::Refusal>(())
    /// ```
    pub fn array<'a>(&'a self, shape: &'a [u64]) -> ArrayRef<'a> {
        ArrayRef { kind: Rights::KIND, shape, masks: &[], values: &self.bytes, offsets: &[] }
    }

    /// The plane that such an array is; of its shape only the count of cells is kept.
    ///
    /// # Errors
    ///
    /// `Kind` if it has masks or its cells are not of one byte. `Content` if its lengths disagree, or a byte is neither 00 nor 01.
    ///
    /// ```
    /// use durpaxeta::{Array, Cell, Kind, Order, Refusal, Rights};
    ///
    /// let array = Array::from_cells(Rights::KIND, &[2], &[Cell::Value(&[1]), Cell::Value(&[0])])?;
    /// assert_eq!(Rights::from_array(array)?, Rights::new(&[true, false]));
    ///
    /// let wide = Array::from_cells(Kind::fixed(0, 2, Order::Little), &[1], &[Cell::Value(&[1, 0])])?;
    /// assert_eq!(Rights::from_array(wide), Err(Refusal::Kind));
    /// # Ok::<(), Refusal>(())
    /// ```
    pub fn from_array(array: Array) -> Result<Rights, Refusal> {
        if array.kind.depth != 0 || !matches!(array.kind.values, Values::Fixed { size: 1, .. }) {
            return Err(Refusal::Kind);
        }
        if array.masks.len() + array.offsets.len() != 0 || array.values.len() != array.cell_count() {
            return Err(Refusal::Content);
        }
        Rights::from_bytes(array.values)
    }
}

impl FromIterator<bool> for Rights {
    fn from_iter<I: IntoIterator<Item = bool>>(shown: I) -> Rights {
        Rights { bytes: shown.into_iter().map(u8::from).collect() }
    }
}

/// What a guest sees of an array: the cells that its plane shows, and nulls at level 1 in place of the others, in rest form. Two
/// valid arrays that differ in hidden cells alone are seen as equal ones. A working table is read out first, by
/// [`Table::read`](crate::Table::read).
///
/// # Errors
///
/// In this order `Kind`, `Shape`, `NoMasks` where the kind has depth 0, `Content` (also where the plane speaks of another count of
/// cells), `Size`.
///
/// ```
/// use durpaxeta::{guest_read, Array, Cell, Kind, Order, Place, Refusal, Rights, Width};
///
/// let kind = Kind::ragged(1, Width::Four, Place::Start);
/// let table = Array::from_cells(kind, &[3], &[Cell::Value(b"0-3"), Cell::Value(b"8"), Cell::Value(b"")])?;
/// let seen = guest_read(&table, &Rights::new(&[false, true, true]))?;
/// assert!(seen.cells().eq([Cell::Null { level: 1 }, Cell::Value(b"8"), Cell::Value(b"")]));
/// assert_eq!(seen.values, b"8");
/// assert_eq!(guest_read(&table, &Rights::new(&[true])), Err(Refusal::Content));
///
/// let bare = Array::from_cells(Kind::fixed(0, 1, Order::Little), &[1], &[Cell::Value(b"a")])?;
/// assert_eq!(guest_read(&bare, &Rights::new(&[true])), Err(Refusal::NoMasks));
/// # Ok::<(), Refusal>(())
/// ```
pub fn guest_read<'a>(from: impl Into<ArrayRef<'a>>, rights: &Rights) -> Result<Array, Refusal> {
    let from = from.into();
    // What is shown takes no more than all.
    let room = from.kind.array_room(from.cell_count(), from.values.len());
    lend(from.kind, from.shape, room, |out| {
        given(ffi::guest_read(from.kind, from.shape, rights.bytes(), content(from), out))
    })
}

/// [`guest_read`] into lent slices; answers the array in them. [`Kind::array_room`](crate::Kind::array_room) with the array's value
/// bytes tells how long they must be at most; of ragged values those that are shown need room, and no others. What lies in the
/// slices beyond the array stays there: hand on the array, or lend slices that no other guest's cells were in.
///
/// # Errors
///
/// Those of [`guest_read`], then `Output` where a slice is too short. A refusal changes no element of them.
///
/// ```
/// use durpaxeta::{guest_read_into, Array, Cell, Kind, Lent, Place, Refusal, Rights, Width};
///
/// let kind = Kind::ragged(1, Width::Four, Place::Start);
/// let table = Array::from_cells(kind, &[2], &[Cell::Value(b"0-3,8-11"), Cell::Value(b"4")])?;
/// let (mut masks, mut values, mut offsets) = ([0; 2], [0; 1], [0; 3]);
/// let out = Lent { masks: &mut masks, values: &mut values, offsets: &mut offsets };
/// assert_eq!(guest_read_into(&table, &Rights::new(&[false, true]), out)?.cell(1), Some(Cell::Value(b"4")));
///
/// let out = Lent { masks: &mut masks, values: &mut values, offsets: &mut offsets };
/// assert_eq!(guest_read_into(&table, &Rights::new(&[true, false]), out), Err(Refusal::Output));
/// # Ok::<(), Refusal>(())
/// ```
pub fn guest_read_into<'o>(
    from: impl Into<ArrayRef<'o>>,
    rights: &Rights,
    mut out: Lent<'o>,
) -> Result<ArrayRef<'o>, Refusal> {
    let from = from.into();
    let wrote = given(ffi::guest_read(from.kind, from.shape, rights.bytes(), content(from), &mut out))?;
    Ok(out.array(from.kind, from.shape, wrote))
}
