//! The calls on arrays and stored bytes, and those of them that write into lent slices. Working tables are in table.rs, guests in
//! rights.rs.

use crate::ffi::{self, Answer, Content};
use crate::{
    cell_count, sizes, Array, ArrayRef, Kind, Lent, Place, RaggedValues, Refusal, Room, Subset, Width, MAX_CELLS,
};
use alloc::vec;
use alloc::vec::Vec;

pub(crate) fn given<T>(answer: Answer<T>) -> Result<T, Refusal> {
    answer.map_err(|number| match Refusal::try_from(number) {
        Ok(refusal) => refusal,
        Err(_) => panic!("libdurpaxeta.a gave the unknown answer {number}: it does not belong to this crate"),
    })
}

pub(crate) fn content(array: ArrayRef<'_>) -> Content<'_> {
    Content { masks: array.masks, values: array.values, offsets: array.offsets }
}

pub(crate) fn cut<T>(list: &mut Vec<T>, length: usize) {
    list.truncate(length);
    list.shrink_to_fit();
}

/// Lends vectors of that room, and cuts them to what was written.
pub(crate) fn lend(
    kind: Kind,
    shape: &[u64],
    room: Room,
    call: impl FnOnce(&mut Lent<'_>) -> Result<Room, Refusal>,
) -> Result<Array, Refusal> {
    let (mut masks, mut values, mut offsets) = (vec![0; room.masks], vec![0; room.values], vec![0; room.offsets]);
    let wrote = call(&mut Lent { masks: &mut masks, values: &mut values, offsets: &mut offsets })?;
    cut(&mut masks, wrote.masks);
    cut(&mut values, wrote.values);
    cut(&mut offsets, wrote.offsets);
    Ok(Array { kind, shape: shape.to_vec(), masks, values, offsets })
}

/// Array to stored bytes. What lies below a null is not stored. Of one kind and shape a table has one stored form: where the
/// bytes of two differ, so do the tables.
///
/// # Errors
///
/// In this order `Kind`, `Shape`, `Content`, `Size`, `Field` (in width 4 an offset that is written is over 4,294,967,295).
///
/// ```
/// use durpaxeta::{encode, Array, Cell, Kind, Order};
///
/// let cells = [Cell::Value(&[0x0A, 0x0B]), Cell::Null { level: 1 }, Cell::Value(&[0x0E, 0x0F])];
/// let stored = encode(&Array::from_cells(Kind::fixed(1, 2, Order::Little), &[3], &cells)?)?;
/// assert_eq!(stored[16..], [1, 0, 1, 0x0A, 0x0B, 0x0E, 0x0F]);
/// # Ok::<(), durpaxeta::Refusal>(())
/// ```
pub fn encode<'a>(array: impl Into<ArrayRef<'a>>) -> Result<Vec<u8>, Refusal> {
    let array = array.into();
    // Where the lengths disagree, and where there are too many value bytes, the output is not looked at.
    let has = Room { masks: array.masks.len(), values: array.values.len(), offsets: array.offsets.len() };
    let cells = array.cell_count();
    let agrees = has == array.kind.array_room(cells, has.values);
    let mut out = vec![0; if agrees { array.kind.stored_room(cells, has.values) } else { 0 }];
    let length = given(ffi::encode(array.kind, array.shape, content(array), &mut out))?;
    cut(&mut out, length);
    Ok(out)
}

/// [`encode`] into a lent slice; answers the bytes that it wrote. [`Kind::stored_room`] tells how many there can be.
///
/// # Errors
///
/// Those of [`encode`], then `Output` where the slice is too short. A refusal changes no byte of it.
///
/// ```
/// use durpaxeta::{encode_into, Array, Cell, Kind, Place, Refusal, Width};
///
/// let kind = Kind::ragged(1, Width::Four, Place::Start);
/// let table = Array::from_cells(kind, &[2], &[Cell::Value(b"0-3"), Cell::Null { level: 1 }])?;
/// let mut buffer = [0; 64];
/// assert_eq!(encode_into(&table, &mut buffer)?.len(), 37);
/// assert_eq!(encode_into(&table, &mut buffer[..36]), Err(Refusal::Output));
/// # Ok::<(), Refusal>(())
/// ```
pub fn encode_into<'a, 'o>(array: impl Into<ArrayRef<'a>>, out: &'o mut [u8]) -> Result<&'o [u8], Refusal> {
    let array = array.into();
    let length = given(ffi::encode(array.kind, array.shape, content(array), out))?;
    Ok(&out[..length])
}

/// Stored bytes to array. What lies below a null comes out cleared. What is accepted here, [`encode`] writes again as the very
/// same bytes.
///
/// # Errors
///
/// In this order `Kind`, `Shape`; then, as the bytes are read, of each level `Short`, `Length`, `UnusedBits` of a packed mask or
/// `NotBoolean` of another, and `Length` again where content follows a mask in which no cell is set; then of the values `Short`,
/// `Length`, `Falling`; then `Size`.
///
/// ```
/// use durpaxeta::{decode, encode, Cell, Kind, Order, Refusal};
///
/// let kind = Kind::fixed(1, 1, Order::Little);
/// let stored = [2, 0, 0, 0, 0, 0, 0, 0, 1, 0, 0, 0, 0, 0, 0, 0, 0, 1, 0x0A];
/// let table = decode(kind, &[2], &stored)?;
/// assert_eq!(table.cell(0), Some(Cell::Null { level: 1 }));
/// assert_eq!(table.cell(1), Some(Cell::Value(&[0x0A])));
/// assert_eq!(encode(&table)?, stored);
/// assert_eq!(decode(kind, &[2], &stored[..18]), Err(Refusal::Length));
/// let neither = [2, 0, 0, 0, 0, 0, 0, 0, 1, 0, 0, 0, 0, 0, 0, 0, 2, 1, 0x0A];
/// assert_eq!(decode(kind, &[2], &neither), Err(Refusal::NotBoolean));
/// let hidden = [2, 0, 0, 0, 0, 0, 0, 0, 1, 0, 0, 0, 0, 0, 0, 0, 0, 0, 0x0A];
/// assert_eq!(decode(kind, &[2], &hidden), Err(Refusal::Length));
/// # Ok::<(), Refusal>(())
/// ```
pub fn decode(kind: Kind, shape: &[u64], bytes: &[u8]) -> Result<Array, Refusal> {
    let room = kind.array_room(cell_count(shape), bytes.len());
    lend(kind, shape, room, |out| given(ffi::decode(kind, shape, bytes, out)))
}

/// [`decode`] into lent slices; answers the array in them. [`Kind::array_room`] tells how long they must be.
///
/// # Errors
///
/// Those of [`decode`], then `Output` where a slice is too short. A refusal changes no element of them.
///
/// ```
/// use durpaxeta::{decode_into, Cell, Kind, Lent, Order};
///
/// let kind = Kind::fixed(1, 1, Order::Little);
/// let stored = [2, 0, 0, 0, 0, 0, 0, 0, 1, 0, 0, 0, 0, 0, 0, 0, 0, 1, 0x0A];
/// let (mut masks, mut values) = ([0; 2], [0; 2]);
/// let out = Lent { masks: &mut masks, values: &mut values, offsets: &mut [] };
/// let table = decode_into(kind, &[2], &stored, out)?;
/// assert_eq!(table.cell(1), Some(Cell::Value(&[0x0A])));
/// # Ok::<(), durpaxeta::Refusal>(())
/// ```
pub fn decode_into<'o>(kind: Kind, shape: &'o [u64], bytes: &[u8], mut out: Lent<'o>) -> Result<ArrayRef<'o>, Refusal> {
    let wrote = given(ffi::decode(kind, shape, bytes, &mut out))?;
    Ok(out.array(kind, shape, wrote))
}

/// The older, interleaved form of Zarr V2 to values and offsets. The caller says how many cells there are.
///
/// # Errors
///
/// In this order `Shape` (over 65,536 cells), `Short`, `Count`, `PastEnd`, `Size`.
///
/// ```
/// use durpaxeta::decode_interleaved;
///
/// let old = [2, 0, 0, 0, 1, 0, 0, 0, b'A', 0, 0, 0, 0];
/// let read = decode_interleaved(2, &old)?;
/// assert_eq!((read.cell(0), read.cell(1)), (Some(&b"A"[..]), Some(&b""[..])));
/// # Ok::<(), durpaxeta::Refusal>(())
/// ```
pub fn decode_interleaved(cells: u64, bytes: &[u8]) -> Result<RaggedValues, Refusal> {
    let count = if cells <= MAX_CELLS { cells as usize } else { 0 };
    let kind = Kind::ragged(0, Width::Four, Place::Start);
    let room = kind.array_room(count, bytes.len());
    let read = lend(kind, &[], room, |out| given(ffi::decode_interleaved(cells, bytes, out)))?;
    Ok(RaggedValues { values: read.values, offsets: read.offsets })
}

/// Array to the older, interleaved form of Zarr V2. The kind is ragged, of depth 0.
///
/// # Errors
///
/// In this order `Kind` (also a depth above 0, and a fixed kind), `Shape`, `Content`, `Size`, `Field` (a cell has over
/// 4,294,967,295 bytes, whatever the width is).
///
/// ```
/// use durpaxeta::{encode_interleaved, Array, Cell, Kind, Order, Place, Refusal, Width};
///
/// let kind = Kind::ragged(0, Width::Four, Place::Start);
/// let table = Array::from_cells(kind, &[2], &[Cell::Value(b"A"), Cell::Value(b"")])?;
/// assert_eq!(encode_interleaved(&table)?, [2, 0, 0, 0, 1, 0, 0, 0, b'A', 0, 0, 0, 0]);
/// let fixed = Array::from_cells(Kind::fixed(0, 1, Order::Little), &[1], &[Cell::Value(b"A")])?;
/// assert_eq!(encode_interleaved(&fixed), Err(Refusal::Kind));
/// # Ok::<(), Refusal>(())
/// ```
pub fn encode_interleaved<'a>(array: impl Into<ArrayRef<'a>>) -> Result<Vec<u8>, Refusal> {
    let array = array.into();
    let mut out = vec![0; sizes::interleaved(array.cell_count(), array.values.len())];
    given(ffi::encode_interleaved(array.kind, array.shape, content(array), &mut out))?;
    Ok(out)
}

/// [`encode_interleaved`] into a lent slice; answers the bytes that it wrote: 4, 4 for each cell, and those of the cells.
///
/// # Errors
///
/// Those of [`encode_interleaved`], then `Output` where the slice is too short. A refusal changes no byte of it.
///
/// ```
/// use durpaxeta::{encode_interleaved_into, Array, Cell, Kind, Place, Refusal, Width};
///
/// let kind = Kind::ragged(0, Width::Four, Place::Start);
/// let table = Array::from_cells(kind, &[2], &[Cell::Value(b"0-3"), Cell::Value(b"")])?;
/// let mut buffer = [0; 64];
/// assert_eq!(encode_interleaved_into(&table, &mut buffer)?.len(), 15);
/// assert_eq!(encode_interleaved_into(&table, &mut buffer[..14]), Err(Refusal::Output));
/// # Ok::<(), Refusal>(())
/// ```
pub fn encode_interleaved_into<'a, 'o>(array: impl Into<ArrayRef<'a>>, out: &'o mut [u8]) -> Result<&'o [u8], Refusal> {
    let array = array.into();
    let length = given(ffi::encode_interleaved(array.kind, array.shape, content(array), out))?;
    Ok(&out[..length])
}

/// A load: the table that a kind, a shape and a start number determine, the same on every machine. docs/FORMAT.md tells what is
/// drawn; width, place, order and mask form change nothing.
///
/// # Errors
///
/// In this order `Kind`, `Shape`.
///
/// ```
/// use durpaxeta::{generate, Kind, Order, Place, Width};
///
/// let load = generate(Kind::fixed(1, 1, Order::Little), &[2], 0)?;
/// assert_eq!((load.masks, load.values), (vec![1, 0], vec![0x50, 0]));
/// let load = generate(Kind::ragged(0, Width::Four, Place::Start), &[2], 0)?;
/// assert_eq!(load.offsets, [0, 8, 12]);
/// # Ok::<(), durpaxeta::Refusal>(())
/// ```
pub fn generate(kind: Kind, shape: &[u64], start: u32) -> Result<Array, Refusal> {
    let cells = cell_count(shape);
    let room = kind.array_room(cells, 8 * cells);
    lend(kind, shape, room, |out| given(ffi::generate(kind, shape, start, out)))
}

/// [`generate`] into lent slices; answers the array in them. [`Kind::array_room`] with 8 bytes for each cell tells how long they may
/// have to be. Ragged values can be fewer; a slice that holds just them will do, and takes a second run.
///
/// # Errors
///
/// Those of [`generate`], then `Output` where a slice is too short. A refusal changes no element of them.
///
/// ```
/// use durpaxeta::{generate_into, Cell, Kind, Lent, Place, Refusal, Width};
///
/// let kind = Kind::ragged(1, Width::Four, Place::Start);
/// let (mut masks, mut values, mut offsets) = ([0; 2], [0; 9], [0; 3]);
/// let out = Lent { masks: &mut masks, values: &mut values, offsets: &mut offsets };
/// let load = generate_into(kind, &[2], 0, out)?;
/// assert_eq!(load.cell(0), Some(Cell::Value(&[0xCC, 0xF9, 0x52, 0x2E])));
///
/// let out = Lent { masks: &mut masks, values: &mut values[..8], offsets: &mut offsets };
/// assert_eq!(generate_into(kind, &[2], 0, out), Err(Refusal::Output));
/// # Ok::<(), Refusal>(())
/// ```
pub fn generate_into<'o>(kind: Kind, shape: &'o [u64], start: u32, mut out: Lent<'o>) -> Result<ArrayRef<'o>, Refusal> {
    let wrote = given(ffi::generate(kind, shape, start, &mut out))?;
    Ok(out.array(kind, shape, wrote))
}

/// The cells of a subset out of an array. What lies below a null is kept. The outcome's shape is the subset's lengths;
/// a subset of no cells is allowed.
///
/// # Errors
///
/// In this order `Kind`, `Shape`, `Subset`, `Content`, `Size`.
///
/// ```
/// use durpaxeta::{extract, Array, Cell, Kind, Order};
///
/// let cells = [Cell::Value(b"a"), Cell::Value(b"b"), Cell::Null { level: 1 }];
/// let table = Array::from_cells(Kind::fixed(1, 1, Order::Little), &[3], &cells)?;
/// let part = extract(&table, &"1..3".parse()?)?;
/// assert!(part.cells().eq([Cell::Value(b"b"), Cell::Null { level: 1 }]));
/// # Ok::<(), Box<dyn std::error::Error>>(())
/// ```
pub fn extract<'a>(from: impl Into<ArrayRef<'a>>, subset: &Subset) -> Result<Array, Refusal> {
    let from = from.into();
    let cells = sizes::subset_cells(from.shape, subset.numbers()).unwrap_or(0);
    let ragged = sizes::ragged_subset(from.shape, subset.numbers(), from.values, from.offsets);
    lend(from.kind, subset.lengths(), from.kind.array_room(cells, ragged), |out| {
        given(ffi::extract(from.kind, from.shape, subset.numbers(), content(from), out))
    })
}

/// [`extract`] into lent slices; answers the array in them. [`Kind::array_room`] tells how long they must be.
///
/// # Errors
///
/// Those of [`extract`], then `Output` where a slice is too short. A refusal changes no element of them.
///
/// ```
/// use durpaxeta::{extract_into, Array, Cell, Kind, Lent, Place, Width};
///
/// let kind = Kind::ragged(0, Width::Four, Place::Start);
/// let table = Array::from_cells(kind, &[3], &[Cell::Value(b"a"), Cell::Value(b"bc"), Cell::Value(b"")])?;
/// let (mut values, mut offsets) = ([0; 8], [0; 3]);
/// let out = Lent { masks: &mut [], values: &mut values, offsets: &mut offsets };
/// let subset = "1..3".parse()?;
/// let part = extract_into(&table, &subset, out)?;
/// assert_eq!((part.values, part.offsets), (&b"bc"[..], &[0, 2, 2][..]));
/// # Ok::<(), Box<dyn std::error::Error>>(())
/// ```
pub fn extract_into<'a, 'o>(
    from: impl Into<ArrayRef<'a>>,
    subset: &'o Subset,
    mut out: Lent<'o>,
) -> Result<ArrayRef<'o>, Refusal> {
    let from = from.into();
    let wrote = given(ffi::extract(from.kind, from.shape, subset.numbers(), content(from), &mut out))?;
    Ok(out.array(from.kind, subset.lengths(), wrote))
}

/// A chunk of a merge: the cells that it holds, and their content.
#[derive(Clone, Copy, Debug)]
pub struct Chunk<'a> {
    /// Where its cells belong.
    pub subset: &'a Subset,
    /// Its cells. The shape is the subset's lengths. Of its kind only depth, form and cell size matter here.
    pub array: ArrayRef<'a>,
}

impl<'a> Chunk<'a> {
    /// A chunk.
    ///
    /// ```
    /// use durpaxeta::{Array, Cell, Chunk, Kind, Order, Subset};
    ///
    /// let part = Array::from_cells(Kind::fixed(0, 1, Order::Little), &[1], &[Cell::Value(b"a")])?;
    /// let subset = Subset::new(&[4], &[1])?;
    /// assert_eq!(Chunk::new(&subset, &part).array.cell(0), Some(Cell::Value(b"a")));
    /// # Ok::<(), durpaxeta::Refusal>(())
    /// ```
    pub fn new(subset: &'a Subset, array: impl Into<ArrayRef<'a>>) -> Chunk<'a> {
        Chunk { subset, array: array.into() }
    }

    /// Whether its shape and its lengths are those that subset and kind ask for.
    fn agrees(&self, kind: Kind) -> bool {
        let Some(cells) = sizes::cells(self.subset.lengths()) else { return false };
        let array = self.array;
        let last = array.offsets.last().copied().unwrap_or(0);
        array.shape == self.subset.lengths()
            && array.masks.len() == sizes::masks(kind, cells)
            && array.offsets.len() == sizes::offsets(kind, cells)
            && usize::try_from(last).is_ok_and(|last| array.values.len() == sizes::values(kind, cells, last))
    }
}

/// Chunks laid end to end, as the archive takes them.
struct ChunkList {
    subsets: Vec<u64>,
    masks: Vec<u8>,
    values: Vec<u8>,
    offsets: Vec<u64>,
    agrees: bool,
}

impl ChunkList {
    fn new(kind: Kind, shape: &[u64], chunks: &[Chunk<'_>]) -> ChunkList {
        let mut list = ChunkList {
            subsets: Vec::new(),
            masks: Vec::new(),
            values: Vec::new(),
            offsets: Vec::new(),
            agrees: chunks.iter().all(|chunk| chunk.agrees(kind)),
        };
        for chunk in chunks {
            list.subsets.extend_from_slice(chunk.subset.numbers());
            list.masks.extend_from_slice(chunk.array.masks);
            list.values.extend_from_slice(chunk.array.values);
            list.offsets.extend_from_slice(chunk.array.offsets);
        }
        // Numbers of one subset must not be taken for those of the next: one number alone is no subset of any shape.
        if chunks.iter().any(|chunk| chunk.subset.numbers().len() != 2 * shape.len()) {
            list.subsets = vec![0];
        }
        list
    }

    fn merge(&self, kind: Kind, shape: &[u64], out: &mut Lent<'_>) -> Result<Room, Refusal> {
        let all = Content { masks: &self.masks, values: &self.values, offsets: &self.offsets };
        if self.agrees {
            return given(ffi::merge(kind, shape, &self.subsets, all, out));
        }
        // Nor must the bytes of one chunk be taken for those of the next. Nothing is lent, so nothing is written.
        let mut nothing = Lent { masks: &mut [], values: &mut [], offsets: &mut [] };
        match given(ffi::merge(kind, shape, &self.subsets, all, &mut nothing)) {
            Err(refusal @ (Refusal::Kind | Refusal::Shape | Refusal::Subset)) => Err(refusal),
            _ => Err(Refusal::Content),
        }
    }
}

/// A list of chunks into one array. Together the subsets hold each cell once; their order is free.
///
/// # Errors
///
/// In this order `Kind`, `Shape`, `Subset`, `Content`, `Size`, `Cover`.
///
/// ```
/// use durpaxeta::{extract, merge, Array, Cell, Chunk, Kind, Order, Refusal, Subset};
///
/// let kind = Kind::fixed(1, 1, Order::Little);
/// let table = Array::from_cells(kind, &[3], &[Cell::Value(b"a"), Cell::Null { level: 1 }, Cell::Value(b"c")])?;
/// let (low, high) = (Subset::new(&[0], &[1])?, Subset::new(&[1], &[2])?);
/// let parts = (extract(&table, &low)?, extract(&table, &high)?);
/// assert_eq!(merge(kind, &[3], &[Chunk::new(&high, &parts.1), Chunk::new(&low, &parts.0)])?, table);
/// assert_eq!(merge(kind, &[3], &[Chunk::new(&high, &parts.1)]), Err(Refusal::Cover));
/// # Ok::<(), Refusal>(())
/// ```
pub fn merge(kind: Kind, shape: &[u64], chunks: &[Chunk<'_>]) -> Result<Array, Refusal> {
    let list = ChunkList::new(kind, shape, chunks);
    let room = kind.array_room(cell_count(shape), sizes::limited(list.values.len() as u64));
    lend(kind, shape, room, |out| list.merge(kind, shape, out))
}

/// [`merge`] into lent slices; answers the array in them. [`Kind::array_room`] tells how long they must be. The chunks are laid
/// end to end in memory of its own first.
///
/// # Errors
///
/// Those of [`merge`], then `Output` where a slice is too short. A refusal changes no element of them.
///
/// ```
/// use durpaxeta::{merge_into, Array, Cell, Chunk, Kind, Lent, Order, Subset};
///
/// let kind = Kind::fixed(0, 1, Order::Little);
/// let (a, b) = (Subset::new(&[0], &[1])?, Subset::new(&[1], &[1])?);
/// let one = |cell| Array::from_cells(kind, &[1], &[Cell::Value(cell)]);
/// let parts = (one(b"a")?, one(b"b")?);
/// let mut values = [0; 2];
/// let out = Lent { masks: &mut [], values: &mut values, offsets: &mut [] };
/// let table = merge_into(kind, &[2], &[Chunk::new(&b, &parts.1), Chunk::new(&a, &parts.0)], out)?;
/// assert_eq!(table.values, b"ab");
/// # Ok::<(), durpaxeta::Refusal>(())
/// ```
pub fn merge_into<'o>(
    kind: Kind,
    shape: &'o [u64],
    chunks: &[Chunk<'_>],
    mut out: Lent<'o>,
) -> Result<ArrayRef<'o>, Refusal> {
    let wrote = ChunkList::new(kind, shape, chunks).merge(kind, shape, &mut out)?;
    Ok(out.array(kind, shape, wrote))
}

/// The cells of a subset out of stored ragged values of depth 0: `decode`, then `extract`, in one step.
///
/// # Errors
///
/// In this order `Shape`, `Subset`, `Short`, `Length`, `Falling`, `Size`.
///
/// ```
/// use durpaxeta::{encode, partial_decode, Array, Cell, Kind, Place, Subset, Width};
///
/// let cells = [Cell::Value(b"0-3"), Cell::Value(b""), Cell::Value(b"8")];
/// let stored = encode(&Array::from_cells(Kind::ragged(0, Width::Four, Place::End), &[3], &cells)?)?;
/// let part = partial_decode(Width::Four, Place::End, &[3], &Subset::new(&[1], &[2])?, &stored)?;
/// assert!(part.cells().eq(cells[1..].iter().copied()));
/// # Ok::<(), durpaxeta::Refusal>(())
/// ```
pub fn partial_decode(
    width: Width,
    place: Place,
    shape: &[u64],
    subset: &Subset,
    bytes: &[u8],
) -> Result<Array, Refusal> {
    let kind = Kind::ragged(0, width, place);
    let cells = sizes::subset_cells(shape, subset.numbers()).unwrap_or(0);
    lend(kind, subset.lengths(), kind.array_room(cells, bytes.len()), |out| {
        given(ffi::partial_decode(width, place, shape, subset.numbers(), bytes, out))
    })
}

/// Reverses the bytes of each whole cell, in place, and answers how many bytes the whole cells have.
///
/// # Errors
///
/// `Kind` where the size is 0 or over 64; the bytes stay as they are.
///
/// ```
/// let mut bytes = [1, 2, 3, 4, 5];
/// assert_eq!(durpaxeta::reverse_endianness(2, &mut bytes)?, 4);
/// assert_eq!(bytes, [2, 1, 4, 3, 5]);
/// # Ok::<(), durpaxeta::Refusal>(())
/// ```
pub fn reverse_endianness(size: u64, bytes: &mut [u8]) -> Result<usize, Refusal> {
    given(ffi::reverse_endianness(size, bytes))
}

/// The numbers of a subset's cells, in row order.
///
/// # Errors
///
/// In this order `Shape`, `Subset`.
///
/// ```
/// use durpaxeta::subset_cells;
/// assert_eq!(subset_cells(&[2, 3], &"0..2,1..3".parse()?)?, [1, 2, 4, 5]);
/// # Ok::<(), Box<dyn std::error::Error>>(())
/// ```
pub fn subset_cells(shape: &[u64], subset: &Subset) -> Result<Vec<u64>, Refusal> {
    let mut cells = vec![0; sizes::subset_cells(shape, subset.numbers()).unwrap_or(0)];
    let length = given(ffi::subset_cells(shape, subset.numbers(), &mut cells))?;
    cut(&mut cells, length);
    Ok(cells)
}
