//! Working tables: ragged tables whose cells are edited in memory.

use crate::calls::{content, cut, given, lend};
use crate::{cell_count, ffi, sizes, Array, ArrayRef, Cell, Kind, Lent, Mark, Refusal, Rights, MAX_DEPTH, MAX_STORE};
use alloc::vec;
use alloc::vec::Vec;

/// A working table: masks as an [`Array`] has them, and for each cell a start and a length in a store.
///
/// Cells that have bytes lie in the store in any order, with gaps between them; no two share a byte. A cell without bytes has start
/// and length 0. The table is in rest form: below a null mask bytes are 00, and a null has no bytes. Each call refuses with
/// `Content` what does not keep that.
/// Nothing is ever cleared: bytes that a cell had before stay in the store until others are put there.
/// Of the kind the depth counts alone.
///
/// ```
/// use durpaxeta::{encode, Array, Cell, Kind, Place, Refusal, Table, Width};
///
/// let kind = Kind::ragged(1, Width::Four, Place::Start);
/// let guests = [Cell::Value(b"0-3"), Cell::Value(b""), Cell::Null { level: 1 }];
/// let mut table = Table::make(&Array::from_cells(kind, &[3], &guests)?, 8)?;
/// table.set(2, Cell::Value(b"8"))?;
/// table.set(0, Cell::Value(b"4-7"))?;
/// assert_eq!((&table.starts[..], &table.store[..]), (&[4, 0, 3][..], &b"0-384-7\0"[..])); // "0-3" is given up, and still there
/// assert_eq!(table.pack(256)?, 2);
/// assert_eq!((&table.starts[..], &table.store[..]), (&[1, 0, 0][..], &b"84-74-7\0"[..]));
/// assert_eq!(table.set(1, Cell::Value(b"9-13")), Ok(()));
/// assert_eq!(table.set(2, Cell::Value(b"14")), Err(Refusal::Full));
/// let stored = encode(&table.read(&[3])?)?;
/// # assert_eq!(stored.len(), 51);
/// # Ok::<(), Refusal>(())
/// ```
#[derive(Clone, Debug, PartialEq, Eq)]
pub struct Table {
    /// A ragged one.
    pub kind: Kind,
    /// depth × cells bytes.
    pub masks: Vec<u8>,
    /// Where the bytes of each cell begin in the store. There are as many cells as starts.
    pub starts: Vec<u64>,
    /// How many they are.
    pub lengths: Vec<u64>,
    /// At most 16,777,216 bytes.
    pub store: Vec<u8>,
}

/// A working table in slices that the caller lends.
#[derive(Debug)]
pub struct TableMut<'a> {
    /// A ragged one.
    pub kind: Kind,
    /// depth × cells bytes.
    pub masks: &'a mut [u8],
    /// Where the bytes of each cell begin in the store. There are as many cells as starts.
    pub starts: &'a mut [u64],
    /// How many they are.
    pub lengths: &'a mut [u64],
    /// At most 16,777,216 bytes.
    pub store: &'a mut [u8],
}

/// A working table, borrowed to read it.
#[derive(Clone, Copy, Debug, PartialEq, Eq)]
pub struct TableRef<'a> {
    /// A ragged one.
    pub kind: Kind,
    /// depth × cells bytes.
    pub masks: &'a [u8],
    /// Where the bytes of each cell begin in the store. There are as many cells as starts.
    pub starts: &'a [u64],
    /// How many they are.
    pub lengths: &'a [u64],
    /// At most 16,777,216 bytes.
    pub store: &'a [u8],
}

/// What a table would be after a setting.
#[derive(Clone, Copy, Debug, PartialEq, Eq, Hash)]
pub struct Preview {
    /// The sum of the lengths of all cells.
    pub total: u64,
    /// How many cells with bytes would not be at their packed starts: so many [`Table::pack`] would find to move.
    pub unpacked: usize,
}

/// The mask bytes that make a cell what it is to be. Where it has no such level they are too many, and the call refuses them.
fn masks_of(depth: u64, cell: Cell<'_>) -> Vec<u8> {
    let depth = depth.min(MAX_DEPTH + 1) as usize;
    match cell {
        Cell::Value(_) => vec![1; depth],
        Cell::Null { level } if (1..=depth).contains(&level) => {
            (1..=depth).map(|each| u8::from(each < level)).collect()
        }
        Cell::Null { .. } => vec![0; depth + 1],
    }
}

fn value_of(cell: Cell<'_>) -> &[u8] {
    match cell {
        Cell::Value(value) => value,
        Cell::Null { .. } => &[],
    }
}

/// An array to a working table in lent slices; answers the table in them. The array's rest form is packed in cell order: what lies
/// below a null takes no room. `out.kind` is not looked at. Slices may be longer: all of the store is the table's, of the others
/// as much as it needs.
///
/// # Errors
///
/// In this order `Kind` (also a fixed kind), `Shape`, `Content`, `Size` (also a store of over 16,777,216 bytes), `Output`. A refusal
/// changes no element.
///
/// ```
/// use durpaxeta::{table_make_into, Array, Cell, Kind, Place, TableMut, Width};
///
/// let kind = Kind::ragged(0, Width::Four, Place::Start);
/// let array = Array::from_cells(kind, &[2], &[Cell::Value(b"ab"), Cell::Value(b"c")])?;
/// let (mut starts, mut lengths, mut store) = ([9; 2], [9; 2], *b"......");
/// let out = TableMut { kind, masks: &mut [], starts: &mut starts, lengths: &mut lengths, store: &mut store };
/// let mut table = table_make_into(&array, out)?;
/// table.set(0, Cell::Value(b"d"))?;
/// assert_eq!((starts, lengths, store), ([3, 2], [1, 1], *b"abcd.."));
/// # Ok::<(), durpaxeta::Refusal>(())
/// ```
pub fn table_make_into<'a, 'o>(array: impl Into<ArrayRef<'a>>, mut out: TableMut<'o>) -> Result<TableMut<'o>, Refusal> {
    let array = array.into();
    out.kind = array.kind;
    let [masks, starts, lengths, _] = given(ffi::table_make(array.cell_count() as u64, content(array), &mut out))?;
    let TableMut { kind, masks: m, starts: s, lengths: l, store } = out;
    Ok(TableMut { kind, masks: &mut m[..masks], starts: &mut s[..starts], lengths: &mut l[..lengths], store })
}

/// Reads a working table out into lent slices; answers the array in them, with that shape. [`Kind::array_room`] with the bytes of
/// the store tells how long they must be at most.
///
/// # Errors
///
/// Those of [`Table::read`], then `Output` where a slice is too short. A refusal changes no element.
///
/// ```
/// use durpaxeta::{table_read_into, Kind, Lent, Place, TableRef, Width};
///
/// let kind = Kind::ragged(0, Width::Four, Place::Start);
/// let table = TableRef { kind, masks: &[], starts: &[2, 0], lengths: &[1, 2], store: b"bca." };
/// let (mut values, mut offsets) = ([0; 3], [0; 3]);
/// let out = Lent { masks: &mut [], values: &mut values, offsets: &mut offsets };
/// assert_eq!(table_read_into(table, &[2], out)?.values, b"abc");
/// # Ok::<(), durpaxeta::Refusal>(())
/// ```
pub fn table_read_into<'o>(table: TableRef<'_>, shape: &'o [u64], mut out: Lent<'o>) -> Result<ArrayRef<'o>, Refusal> {
    let wrote = given(ffi::table_read(cell_count(shape) as u64, table, &mut out))?;
    Ok(out.array(table.kind, shape, wrote))
}

impl Table {
    /// The working table of an array, with a store of that many bytes: its rest form, packed in cell order. What lies below a null
    /// takes no room. The rest of the store is zero bytes, and room for settings.
    ///
    /// # Errors
    ///
    /// In this order `Kind` (also a fixed kind), `Shape`, `Content`, `Size` (also of the store), and `Output` where the cells have
    /// more bytes than the store.
    ///
    /// ```
    /// use durpaxeta::{Array, Cell, Kind, Place, Refusal, Table, Width};
    ///
    /// let kind = Kind::ragged(0, Width::Four, Place::Start);
    /// let array = Array::from_cells(kind, &[2], &[Cell::Value(b"ab"), Cell::Value(b"c")])?;
    /// assert_eq!(Table::make(&array, 5)?.store, b"abc\0\0");
    /// assert_eq!(Table::make(&array, 2), Err(Refusal::Output));
    /// # Ok::<(), Refusal>(())
    /// ```
    pub fn make<'a>(array: impl Into<ArrayRef<'a>>, store: usize) -> Result<Table, Refusal> {
        let array = array.into();
        let cells = array.cell_count();
        let mut table = Table {
            kind: array.kind,
            masks: vec![0; sizes::masks(array.kind, cells)],
            starts: vec![0; cells],
            lengths: vec![0; cells],
            // One byte more is refused as any more are.
            store: vec![0; store.min(MAX_STORE as usize + 1)],
        };
        let [masks, starts, lengths, _] = given(ffi::table_make(cells as u64, content(array), &mut table.lent()))?;
        cut(&mut table.masks, masks);
        cut(&mut table.starts, starts);
        cut(&mut table.lengths, lengths);
        Ok(table)
    }

    /// Lends the table.
    ///
    /// ```
    /// use durpaxeta::{Kind, Place, Table, Width};
    ///
    /// let kind = Kind::ragged(0, Width::Four, Place::Start);
    /// let mut table = Table { kind, masks: vec![], starts: vec![1], lengths: vec![1], store: b".a".to_vec() };
    /// assert_eq!(table.lent().pack(1), Ok(1));
    /// assert_eq!((table.starts, table.store), (vec![0], b"aa".to_vec()));
    /// ```
    pub fn lent(&mut self) -> TableMut<'_> {
        TableMut {
            kind: self.kind,
            masks: &mut self.masks,
            starts: &mut self.starts,
            lengths: &mut self.lengths,
            store: &mut self.store,
        }
    }

    /// Borrows the table.
    ///
    /// ```
    /// use durpaxeta::{Kind, Place, Table, Width};
    ///
    /// let kind = Kind::ragged(0, Width::Four, Place::Start);
    /// let table = Table { kind, masks: vec![], starts: vec![0], lengths: vec![1], store: b"a".to_vec() };
    /// assert_eq!(table.view().cell_count(), 1);
    /// ```
    pub fn view(&self) -> TableRef<'_> {
        TableRef {
            kind: self.kind,
            masks: &self.masks,
            starts: &self.starts,
            lengths: &self.lengths,
            store: &self.store,
        }
    }

    /// How many cells there are.
    ///
    /// ```
    /// use durpaxeta::{Kind, Place, Table, Width};
    ///
    /// let kind = Kind::ragged(0, Width::Four, Place::Start);
    /// let table = Table { kind, masks: vec![], starts: vec![0, 0], lengths: vec![0, 0], store: vec![] };
    /// assert_eq!(table.cell_count(), 2);
    /// ```
    pub fn cell_count(&self) -> usize {
        self.view().cell_count()
    }

    /// The cell of a number. None as for [`TableRef::cell`].
    ///
    /// ```
    /// use durpaxeta::{Cell, Kind, Place, Table, Width};
    ///
    /// let kind = Kind::ragged(0, Width::Four, Place::Start);
    /// let table = Table { kind, masks: vec![], starts: vec![1, 0], lengths: vec![2, 0], store: b".ab".to_vec() };
    /// assert_eq!((table.cell(0), table.cell(1)), (Some(Cell::Value(b"ab")), Some(Cell::Value(b""))));
    /// ```
    pub fn cell(&self, number: usize) -> Option<Cell<'_>> {
        self.view().cell(number)
    }

    /// Reads the table out, in cell order: an array of that shape, in rest form. The shape says how many cells there are.
    ///
    /// # Errors
    ///
    /// In this order `Kind` (also a fixed kind), `Shape`, `Content` (also where the table has another count of cells), `Size`.
    ///
    /// ```
    /// use durpaxeta::{Kind, Place, Refusal, Table, Width};
    ///
    /// let kind = Kind::ragged(0, Width::Four, Place::Start);
    /// let table = Table { kind, masks: vec![], starts: vec![2, 0], lengths: vec![1, 2], store: b"bca.".to_vec() };
    /// let array = table.read(&[1, 2])?;
    /// assert_eq!((array.values, array.offsets), (b"abc".to_vec(), vec![0, 1, 3]));
    /// assert_eq!(table.read(&[3]), Err(Refusal::Content));
    /// # Ok::<(), Refusal>(())
    /// ```
    pub fn read(&self, shape: &[u64]) -> Result<Array, Refusal> {
        let cells = cell_count(shape);
        let bytes = self.lengths.iter().fold(0, |sum: u64, &length| sum.saturating_add(length));
        let room = self.kind.array_room(cells, bytes.min(self.store.len() as u64) as usize);
        lend(self.kind, shape, room, |out| given(ffi::table_read(cells as u64, self.view(), out)))
    }

    /// Sets a cell. Its old bytes are given up first; the new ones go right behind the cell that lies highest then. Where too
    /// little is left there, all cells are packed before.
    ///
    /// # Errors
    ///
    /// In this order `Kind` (also a fixed kind), `Shape`, `Content` (also a null at a level that the kind has not), `Size`, `Cell`,
    /// `Full`. A refusal changes nothing.
    ///
    /// ```
    /// use durpaxeta::{Cell, Kind, Place, Refusal, Table, Width};
    ///
    /// let kind = Kind::ragged(1, Width::Four, Place::Start);
    /// let mut table = Table { kind, masks: vec![1, 1], starts: vec![0, 1], lengths: vec![1, 1], store: b"xy.".to_vec() };
    /// table.set(0, Cell::Value(b"z"))?;
    /// assert_eq!((table.cell(0), &table.store[..]), (Some(Cell::Value(b"z")), &b"xyz"[..]));
    /// table.set(0, Cell::Null { level: 1 })?;
    /// assert_eq!((table.masks[0], table.starts[0], table.lengths[0]), (0, 0, 0));
    /// assert_eq!(table.set(2, Cell::Value(b"")), Err(Refusal::Cell));
    /// # Ok::<(), Refusal>(())
    /// ```
    pub fn set(&mut self, cell: u64, to: Cell<'_>) -> Result<(), Refusal> {
        self.lent().set(cell, to)
    }

    /// A guest's edit: [`Table::set`] of a cell that the plane shows. It may pack, and so move hidden cells, but it changes none of
    /// them. The table stays with its host. Of a valid one `Full` tells the guest how full the store is, and nothing tells it more.
    ///
    /// # Errors
    ///
    /// In this order `Kind` (also a fixed kind), `Shape`, `NoMasks` where the kind has depth 0, `Content` (also where the plane
    /// speaks of another count of cells), `Size`, `Cell`, `Hidden`, `Full`. A refusal changes nothing.
    ///
    /// ```
    /// use durpaxeta::{Cell, Kind, Place, Refusal, Rights, Table, Width};
    ///
    /// let kind = Kind::ragged(1, Width::Four, Place::Start);
    /// let mut table = Table { kind, masks: vec![1, 1], starts: vec![1, 0], lengths: vec![1, 1], store: b"yx.".to_vec() };
    /// let rights = Rights::new(&[false, true]);
    /// table.guest_edit(&rights, 1, Cell::Value(b"zz"))?;
    /// assert_eq!((table.cell(0), &table.store[..]), (Some(Cell::Value(b"x")), &b"xzz"[..]));
    /// assert_eq!(table.guest_edit(&rights, 0, Cell::Null { level: 1 }), Err(Refusal::Hidden));
    /// # Ok::<(), Refusal>(())
    /// ```
    pub fn guest_edit(&mut self, rights: &Rights, cell: u64, to: Cell<'_>) -> Result<(), Refusal> {
        self.lent().guest_edit(rights, cell, to)
    }

    /// What [`Table::set`] would do, as if it were made on a copy and the copy looked at, the packing included that it may start.
    /// Nothing is changed.
    ///
    /// # Errors
    ///
    /// Those of [`Table::set`].
    ///
    /// ```
    /// use durpaxeta::{Cell, Kind, Place, Preview, Refusal, Table, Width};
    ///
    /// let kind = Kind::ragged(0, Width::Four, Place::Start);
    /// let table = Table { kind, masks: vec![], starts: vec![0, 1], lengths: vec![1, 1], store: b"xy...".to_vec() };
    /// // Behind "y": the store would be "xyabc", and both cells could be moved down.
    /// assert_eq!(table.preview(0, Cell::Value(b"abc")), Ok(Preview { total: 4, unpacked: 2 }));
    /// // Too little is left behind "y", so all are packed first: "yabcd".
    /// assert_eq!(table.preview(0, Cell::Value(b"abcd")), Ok(Preview { total: 5, unpacked: 0 }));
    /// assert_eq!(table.preview(0, Cell::Value(b"abcde")), Err(Refusal::Full));
    /// ```
    pub fn preview(&self, cell: u64, to: Cell<'_>) -> Result<Preview, Refusal> {
        self.view().preview(cell, to)
    }

    /// Moves at most that many cells, 1 to 256, to their packed starts, the lowest-lying first; answers how many it moved. 0 says
    /// that all are packed.
    ///
    /// # Errors
    ///
    /// In this order `Kind` (also a fixed kind, and another number), `Shape`, `Content`, `Size`. A refusal changes nothing.
    ///
    /// ```
    /// use durpaxeta::{Kind, Place, Table, Width};
    ///
    /// let kind = Kind::ragged(0, Width::Four, Place::Start);
    /// let mut table = Table { kind, masks: vec![], starts: vec![3, 1], lengths: vec![1, 1], store: b".b.a".to_vec() };
    /// assert_eq!((table.pack(1)?, table.pack(1)?, table.pack(1)?), (1, 1, 0));
    /// assert_eq!((table.starts, table.store), (vec![1, 0], b"ba.a".to_vec()));
    /// # Ok::<(), durpaxeta::Refusal>(())
    /// ```
    pub fn pack(&mut self, most: u64) -> Result<usize, Refusal> {
        self.lent().pack(most)
    }
}

impl TableMut<'_> {
    /// Borrows the table.
    ///
    /// ```
    /// use durpaxeta::{Cell, Kind, Place, Table, Width};
    ///
    /// let kind = Kind::ragged(0, Width::Four, Place::Start);
    /// let mut table = Table { kind, masks: vec![], starts: vec![0], lengths: vec![1], store: b"a".to_vec() };
    /// assert_eq!(table.lent().view().cell(0), Some(Cell::Value(b"a")));
    /// ```
    pub fn view(&self) -> TableRef<'_> {
        TableRef { kind: self.kind, masks: self.masks, starts: self.starts, lengths: self.lengths, store: self.store }
    }

    /// Sets a cell, as [`Table::set`] does.
    ///
    /// # Errors
    ///
    /// Those of [`Table::set`].
    ///
    /// ```
    /// use durpaxeta::{Cell, Kind, Place, Refusal, TableMut, Width};
    ///
    /// let kind = Kind::ragged(0, Width::Four, Place::Start);
    /// let (mut starts, mut lengths, mut store) = ([0], [0], *b"..");
    /// let mut table = TableMut { kind, masks: &mut [], starts: &mut starts, lengths: &mut lengths, store: &mut store };
    /// assert_eq!(table.set(0, Cell::Value(b"abc")), Err(Refusal::Full));
    /// assert_eq!(table.set(0, Cell::Value(b"ab")), Ok(()));
    /// assert_eq!((lengths, store), ([2], *b"ab"));
    /// ```
    pub fn set(&mut self, cell: u64, to: Cell<'_>) -> Result<(), Refusal> {
        let masks = masks_of(self.kind.depth, to);
        self.set_masks(cell, &masks, value_of(to))
    }

    /// Sets a cell to these mask bytes, outermost first, and this value. Below a 00 mask bytes become 00, and the value is dropped.
    ///
    /// # Errors
    ///
    /// Those of [`Table::set`]; `Content` where there are not as many mask bytes as levels, or one is over 01.
    ///
    /// ```
    /// use durpaxeta::{Cell, Kind, Place, Table, Width};
    ///
    /// let kind = Kind::ragged(2, Width::Four, Place::Start);
    /// let mut table = Table { kind, masks: vec![1, 1], starts: vec![0], lengths: vec![1], store: b"x".to_vec() };
    /// table.lent().set_masks(0, &[1, 0], b"a long one that nobody sees")?;
    /// assert_eq!(table.cell(0), Some(Cell::Null { level: 2 }));
    /// # Ok::<(), durpaxeta::Refusal>(())
    /// ```
    pub fn set_masks(&mut self, cell: u64, masks: &[u8], value: &[u8]) -> Result<(), Refusal> {
        given(ffi::table_set(self, cell, masks, value))
    }

    /// A guest's edit, as [`Table::guest_edit`] makes it.
    ///
    /// # Errors
    ///
    /// Those of [`Table::guest_edit`].
    ///
    /// ```
    /// use durpaxeta::{Cell, Kind, Place, Refusal, Rights, TableMut, Width};
    ///
    /// let kind = Kind::ragged(1, Width::Four, Place::Start);
    /// let (mut masks, mut starts, mut lengths, mut store) = ([1, 0], [0, 0], [1, 0], *b"a.");
    /// let mut table =
    ///     TableMut { kind, masks: &mut masks, starts: &mut starts, lengths: &mut lengths, store: &mut store };
    /// let rights = Rights::new(&[false, true]);
    /// assert_eq!(table.guest_edit(&rights, 0, Cell::Value(b"b")), Err(Refusal::Hidden));
    /// assert_eq!(table.guest_edit(&rights, 1, Cell::Value(b"bc")), Err(Refusal::Full));
    /// assert_eq!(table.guest_edit(&rights, 1, Cell::Value(b"b")), Ok(()));
    /// assert_eq!((masks, starts, store), ([1, 1], [0, 1], *b"ab"));
    /// ```
    pub fn guest_edit(&mut self, rights: &Rights, cell: u64, to: Cell<'_>) -> Result<(), Refusal> {
        let masks = masks_of(self.kind.depth, to);
        self.guest_edit_masks(rights, cell, &masks, value_of(to))
    }

    /// A guest's edit by mask bytes, outermost first, and a value: [`TableMut::set_masks`] of a cell that the plane shows.
    ///
    /// # Errors
    ///
    /// Those of [`Table::guest_edit`]; `Content` where there are not as many mask bytes as levels, or one is over 01.
    ///
    /// ```
    /// use durpaxeta::{Cell, Kind, Place, Refusal, Rights, Table, Width};
    ///
    /// let kind = Kind::ragged(2, Width::Four, Place::Start);
    /// let mut table = Table { kind, masks: vec![1, 1], starts: vec![0], lengths: vec![1], store: b"x".to_vec() };
    /// table.lent().guest_edit_masks(&Rights::new(&[true]), 0, &[1, 0], b"")?;
    /// assert_eq!(table.cell(0), Some(Cell::Null { level: 2 }));
    /// let hidden = table.lent().guest_edit_masks(&Rights::new(&[false]), 0, &[1, 1], b"y");
    /// assert_eq!(hidden, Err(Refusal::Hidden));
    /// # Ok::<(), Refusal>(())
    /// ```
    pub fn guest_edit_masks(&mut self, rights: &Rights, cell: u64, masks: &[u8], value: &[u8]) -> Result<(), Refusal> {
        given(ffi::guest_edit(self, rights.bytes(), cell, masks, value))
    }

    /// What a setting would do, as [`Table::preview`] says it.
    ///
    /// # Errors
    ///
    /// Those of [`Table::set`].
    ///
    /// ```
    /// use durpaxeta::{Cell, Kind, Place, Table, Width};
    ///
    /// let kind = Kind::ragged(0, Width::Four, Place::Start);
    /// let mut table = Table { kind, masks: vec![], starts: vec![0, 1], lengths: vec![1, 1], store: b"xy".to_vec() };
    /// let mut table = table.lent();
    /// // What is given up displaces the cell behind it.
    /// assert_eq!(table.preview(0, Cell::Value(b""))?.unpacked, 1);
    /// table.set(0, Cell::Value(b""))?;
    /// assert_eq!(table.pack(256)?, 1);
    /// # Ok::<(), durpaxeta::Refusal>(())
    /// ```
    pub fn preview(&self, cell: u64, to: Cell<'_>) -> Result<Preview, Refusal> {
        self.view().preview(cell, to)
    }

    /// Packs, as [`Table::pack`] does.
    ///
    /// # Errors
    ///
    /// Those of [`Table::pack`].
    ///
    /// ```
    /// use durpaxeta::{Kind, Place, Refusal, TableMut, Width};
    ///
    /// let kind = Kind::ragged(0, Width::Four, Place::Start);
    /// let (mut starts, mut lengths, mut store) = ([2, 0], [1, 1], *b"b.a");
    /// let mut table = TableMut { kind, masks: &mut [], starts: &mut starts, lengths: &mut lengths, store: &mut store };
    /// assert_eq!((table.pack(257), table.pack(256)), (Err(Refusal::Kind), Ok(1)));
    /// assert_eq!((starts, store), ([1, 0], *b"baa"));
    /// ```
    pub fn pack(&mut self, most: u64) -> Result<usize, Refusal> {
        given(ffi::table_pack(self, most))
    }
}

impl<'a> TableRef<'a> {
    /// How many cells there are.
    ///
    /// ```
    /// use durpaxeta::{Kind, Place, TableRef, Width};
    ///
    /// let kind = Kind::ragged(0, Width::Four, Place::Start);
    /// assert_eq!(TableRef { kind, masks: &[], starts: &[0], lengths: &[0], store: &[] }.cell_count(), 1);
    /// ```
    pub fn cell_count(self) -> usize {
        self.starts.len()
    }

    /// The cell of a number. None if there is no such cell, the lengths do not fit, or one of its mask bytes, up to the first 00, is
    /// over 01.
    ///
    /// ```
    /// use durpaxeta::{Cell, Kind, Place, TableRef, Width};
    ///
    /// let kind = Kind::ragged(1, Width::Four, Place::Start);
    /// let table = TableRef { kind, masks: &[1, 0], starts: &[2, 0], lengths: &[1, 0], store: b"..a" };
    /// assert_eq!(table.cell(0), Some(Cell::Value(b"a")));
    /// assert_eq!(table.cell(1), Some(Cell::Null { level: 1 }));
    /// assert_eq!(table.cell(2), None);
    /// ```
    pub fn cell(self, number: usize) -> Option<Cell<'a>> {
        let count = self.cell_count();
        if number >= count {
            return None;
        }
        for level in 0..usize::try_from(self.kind.depth).ok()? {
            match Mark::of(*self.masks.get(level.checked_mul(count)?.checked_add(number)?)?) {
                Mark::Null => return Some(Cell::Null { level: level + 1 }),
                Mark::Set => {}
                Mark::Other => return None,
            }
        }
        let start = usize::try_from(*self.starts.get(number)?).ok()?;
        let length = usize::try_from(*self.lengths.get(number)?).ok()?;
        self.store.get(start..start.checked_add(length)?).map(Cell::Value)
    }

    /// What a setting would do, as [`Table::preview`] says it.
    ///
    /// # Errors
    ///
    /// Those of [`Table::set`].
    ///
    /// ```
    /// use durpaxeta::{Cell, Kind, Place, Preview, TableRef, Width};
    ///
    /// let kind = Kind::ragged(1, Width::Four, Place::Start);
    /// let table = TableRef { kind, masks: &[1, 0], starts: &[0, 0], lengths: &[2, 0], store: b"ab.." };
    /// assert_eq!(table.preview(1, Cell::Value(b"cd")), Ok(Preview { total: 4, unpacked: 0 }));
    /// assert_eq!(table.preview(0, Cell::Null { level: 1 }), Ok(Preview { total: 0, unpacked: 0 }));
    /// ```
    pub fn preview(self, cell: u64, to: Cell<'_>) -> Result<Preview, Refusal> {
        let masks = masks_of(self.kind.depth, to);
        self.preview_masks(cell, &masks, value_of(to))
    }

    /// What [`TableMut::set_masks`] would do: the same, with mask bytes, outermost first.
    ///
    /// # Errors
    ///
    /// Those of [`TableMut::set_masks`].
    ///
    /// ```
    /// use durpaxeta::{Kind, Place, Preview, Refusal, TableRef, Width};
    ///
    /// let kind = Kind::ragged(1, Width::Four, Place::Start);
    /// let table = TableRef { kind, masks: &[1], starts: &[0], lengths: &[1], store: b"x" };
    /// // Hidden bytes are dropped, and do not count.
    /// assert_eq!(table.preview_masks(0, &[0], b"abc"), Ok(Preview { total: 0, unpacked: 0 }));
    /// assert_eq!(table.preview_masks(0, &[1], b"abc"), Err(Refusal::Full));
    /// assert_eq!(table.preview_masks(0, &[2], b""), Err(Refusal::Content));
    /// ```
    pub fn preview_masks(self, cell: u64, masks: &[u8], value: &[u8]) -> Result<Preview, Refusal> {
        let [total, unpacked] = given(ffi::table_preview(self, cell, masks, value))?;
        Ok(Preview { total, unpacked: unpacked as usize })
    }
}

impl<'a> From<&'a Table> for TableRef<'a> {
    fn from(table: &'a Table) -> TableRef<'a> {
        table.view()
    }
}
