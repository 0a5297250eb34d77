//! Live tables: ragged tables that leave the older, interleaved form chunk by chunk, while they are in use.

use crate::calls::{given, lend};
use crate::{ffi, sizes, Array, ArrayRef, Kind, Lent, Place, Refusal, Subset, Width, MAX_CELLS};

/// A live table, in slices that the caller lends. It has chunks, as a merge has them, and no masks. A chunk is old, in the
/// interleaved form, or it is moved, and then stored as [`LiveTable::KIND`]. The first `moved` chunks are moved; each
/// [`LiveTable::step`] moves the next one. All along, [`LiveTable::extract`] gives the same cells.
///
/// A table of two cells: the second one, "A", lies in the first chunk, and "BC" in the second.
///
/// ```
/// use durpaxeta::{LiveTable, Place, Step, Subset, Width};
///
/// let old = b"\x01\0\0\0\x01\0\0\0A\x01\0\0\0\x02\0\0\0BC";
/// let (mut moved_lengths, mut area) = ([0; 2], [0; 51]);
/// let mut table = LiveTable {
///     shape: &[2],
///     subsets: &[1, 1, 0, 1],
///     old_lengths: &[9, 10],
///     old,
///     moved: 0,
///     moved_lengths: &mut moved_lengths,
///     area: &mut area,
/// };
/// let whole = Subset::whole(table.shape);
/// let before = table.extract(Width::Eight, Place::Start, &whole)?;
/// assert_eq!(table.step()?, Step::Moved { bytes: 25, moved: 1 });
/// assert_eq!(table.extract(Width::Eight, Place::Start, &whole)?, before);
/// assert_eq!(table.step()?, Step::Moved { bytes: 26, moved: 2 });
/// assert_eq!(table.extract(Width::Eight, Place::Start, &whole)?, before);
/// assert_eq!(table.step()?, Step::NoneLeft);
/// assert_eq!((before.values, moved_lengths), (b"BCA".to_vec(), [25, 26]));
/// # Ok::<(), durpaxeta::Refusal>(())
/// ```
#[derive(Debug, PartialEq, Eq)]
pub struct LiveTable<'a> {
    /// Its shape.
    pub shape: &'a [u64],
    /// The subset of each chunk, laid end to end: of each [`Subset::numbers`]. Together they hold each cell once.
    pub subsets: &'a [u64],
    /// How many old bytes each chunk has, moved ones too.
    pub old_lengths: &'a [u64],
    /// The old bytes of all chunks, laid end to end. They are only read, and those of a moved chunk no more.
    pub old: &'a [u8],
    /// How many chunks are moved: the first ones.
    pub moved: u64,
    /// How many bytes each moved chunk has in the area; one number for each chunk, of which those of old ones are not read.
    pub moved_lengths: &'a mut [u64],
    /// The moved chunks, laid end to end from the begin of it, and room for more.
    pub area: &'a mut [u8],
}

/// A borrowed [`LiveTable`], for those who read it alone.
#[derive(Clone, Copy, Debug, PartialEq, Eq)]
pub struct LiveTableRef<'a> {
    /// Its shape.
    pub shape: &'a [u64],
    /// The subset of each chunk, laid end to end.
    pub subsets: &'a [u64],
    /// How many old bytes each chunk has.
    pub old_lengths: &'a [u64],
    /// The old bytes of all chunks, laid end to end.
    pub old: &'a [u8],
    /// How many chunks are moved.
    pub moved: u64,
    /// How many bytes each moved chunk has in the area.
    pub moved_lengths: &'a [u64],
    /// The moved chunks, laid end to end.
    pub area: &'a [u8],
}

/// What a step did.
#[derive(Clone, Copy, Debug, PartialEq, Eq, Hash)]
pub enum Step {
    /// It moved a chunk.
    Moved {
        /// How many bytes it wrote of it, right behind those moved before.
        bytes: usize,
        /// How many chunks are moved now.
        moved: u64,
    },
    /// All chunks are moved, and it changed nothing.
    NoneLeft,
}

impl LiveTable<'_> {
    /// How a moved chunk is stored; the shape is its subset's lengths.
    ///
    /// ```
    /// use durpaxeta::{encode, Array, Cell, LiveTable};
    ///
    /// let chunk = Array::from_cells(LiveTable::KIND, &[1], &[Cell::Value(b"A")])?;
    /// assert_eq!(encode(&chunk)?.len(), 25);
    /// # Ok::<(), durpaxeta::Refusal>(())
    /// ```
    pub const KIND: Kind = Kind::ragged(0, Width::Eight, Place::Start);

    /// As many bytes of the area as moved chunks take at most: so many chunks, of so many cells in all, whose old strings have so many
    /// bytes. They take just as many where no old string has bytes behind its last cell. 0 where there are too many cells, or
    /// fewer than chunks.
    ///
    /// ```
    /// use durpaxeta::LiveTable;
    /// assert_eq!(LiveTable::area_room(2, 2, 9 + 10), 25 + 26);
    /// assert_eq!(LiveTable::area_room(1, 65_537, 0), 0);
    /// ```
    pub fn area_room(chunks: usize, cells: usize, old_bytes: usize) -> usize {
        match cells as u64 <= MAX_CELLS && chunks <= cells {
            true => 12 * chunks + 4 * cells + old_bytes,
            false => 0,
        }
    }

    /// Borrows the table.
    ///
    /// ```
    /// use durpaxeta::LiveTable;
    ///
    /// let old = &[1, 0, 0, 0, 0, 0, 0, 0];
    /// let (mut moved_lengths, mut area) = ([0], [0; 24]);
    /// let (moved_lengths, area) = (&mut moved_lengths, &mut area);
    /// let mut table =
    ///     LiveTable { shape: &[1], subsets: &[0, 1], old_lengths: &[8], old, moved: 0, moved_lengths, area };
    /// table.step()?;
    /// assert_eq!((table.view().moved, table.view().moved_lengths), (1, &[24][..]));
    /// # Ok::<(), durpaxeta::Refusal>(())
    /// ```
    pub fn view(&self) -> LiveTableRef<'_> {
        LiveTableRef {
            shape: self.shape,
            subsets: self.subsets,
            old_lengths: self.old_lengths,
            old: self.old,
            moved: self.moved,
            moved_lengths: self.moved_lengths,
            area: self.area,
        }
    }

    /// Moves the lowest-numbered chunk that is still old: writes it right behind those moved before, enters its length in the second
    /// list, and counts it. The whole table is checked first.
    ///
    /// # Errors
    ///
    /// In this order `Shape`, `Subset` (also an empty one), `Content` (lengths or the number moved that disagree), `Cover`; then, chunk by
    /// chunk, of an old one `Short`, `Count`, `PastEnd`, `Size`, of a moved one `Short`, `Length`, `Falling`, `Size`; then `Output`
    /// where the area has too little room. A refusal changes nothing. After `Output` a step may be tried again with a longer area that
    /// begins with the same moved bytes.
    ///
    /// ```
    /// use durpaxeta::{LiveTable, Refusal, Step};
    ///
    /// let old = b"\x01\0\0\0\x03\0\0\x000-3";
    /// let (mut moved_lengths, mut area) = ([0], [0; 26]);
    /// let (moved_lengths, area) = (&mut moved_lengths, &mut area);
    /// let mut table =
    ///     LiveTable { shape: &[1], subsets: &[0, 1], old_lengths: &[11], old, moved: 0, moved_lengths, area };
    /// assert_eq!(table.step(), Err(Refusal::Output));
    /// let mut longer = [0; 27];
    /// table.area = &mut longer;
    /// assert_eq!(table.step(), Ok(Step::Moved { bytes: 27, moved: 1 }));
    /// ```
    pub fn step(&mut self) -> Result<Step, Refusal> {
        let [bytes, moved] = given(ffi::migrate_step(self))?;
        self.moved = moved;
        // A moved chunk has at least 24 bytes.
        Ok(match bytes {
            0 => Step::NoneLeft,
            _ => Step::Moved { bytes: bytes as usize, moved },
        })
    }

    /// The cells of a subset, as [`LiveTableRef::extract`] gives them.
    ///
    /// # Errors
    ///
    /// Those of [`LiveTableRef::extract`].
    ///
    /// ```
    /// use durpaxeta::{Cell, LiveTable, Place, Width};
    ///
    /// let old = b"\x03\0\0\0\x01\0\0\0a\0\0\0\0\x02\0\0\0bc";
    /// let (mut moved_lengths, mut area) = ([0], [0; 64]);
    /// let (moved_lengths, area) = (&mut moved_lengths, &mut area);
    /// let mut table =
    ///     LiveTable { shape: &[3], subsets: &[0, 3], old_lengths: &[19], old, moved: 0, moved_lengths, area };
    /// table.step()?;
    /// let part = table.extract(Width::Four, Place::End, &"1..3".parse()?)?;
    /// assert!(part.cells().eq([Cell::Value(b""), Cell::Value(b"bc")]));
    /// # Ok::<(), Box<dyn std::error::Error>>(())
    /// ```
    pub fn extract(&self, width: Width, place: Place, subset: &Subset) -> Result<Array, Refusal> {
        self.view().extract(width, place, subset)
    }
}

impl LiveTableRef<'_> {
    /// The cells of a subset, each from the chunk that holds it, as an array of depth 0 with that width and place. It is the same
    /// before, between and after steps. The whole table is checked first; a subset of no cells is allowed.
    ///
    /// # Errors
    ///
    /// Those of [`LiveTable::step`] but for `Output`; then `Size` where the cells of the subset have too many bytes.
    ///
    /// ```
    /// use durpaxeta::{LiveTableRef, Place, Refusal, Subset, Width};
    ///
    /// let old = b"\x02\0\0\0\x01\0\0\0a\x02\0\0\0bc";
    /// let table = LiveTableRef {
    ///     shape: &[2],
    ///     subsets: &[0, 2],
    ///     old_lengths: &[15],
    ///     old,
    ///     moved: 0,
    ///     moved_lengths: &[0],
    ///     area: &[],
    /// };
    /// let last = Subset::new(&[1], &[1])?;
    /// assert_eq!(table.extract(Width::Four, Place::Start, &last)?.values, b"bc");
    /// let short = LiveTableRef { old_lengths: &[14], old: &old[..14], ..table };
    /// assert_eq!(short.extract(Width::Four, Place::Start, &Subset::new(&[0], &[1])?), Err(Refusal::PastEnd));
    /// # Ok::<(), Refusal>(())
    /// ```
    pub fn extract(self, width: Width, place: Place, subset: &Subset) -> Result<Array, Refusal> {
        let kind = Kind::ragged(0, width, place);
        let cells = sizes::subset_cells(self.shape, subset.numbers()).unwrap_or(0);
        lend(kind, subset.lengths(), kind.array_room(cells, self.most_value_bytes()), |out| {
            given(ffi::migrate_extract(self, subset.numbers(), out))
        })
    }

    /// [`LiveTableRef::extract`] into lent slices; answers the array in them. [`Kind::array_room`] tells how long they must be.
    ///
    /// # Errors
    ///
    /// Those of [`LiveTableRef::extract`], then `Output` where a slice is too short. A refusal changes no element of them.
    ///
    /// ```
    /// use durpaxeta::{Lent, LiveTableRef, Place, Subset, Width};
    ///
    /// let table = LiveTableRef {
    ///     shape: &[1],
    ///     subsets: &[0, 1],
    ///     old_lengths: &[9],
    ///     old: b"\x01\0\0\0\x01\0\0\0a",
    ///     moved: 0,
    ///     moved_lengths: &[0],
    ///     area: &[],
    /// };
    /// let (mut values, mut offsets) = ([0; 4], [0; 2]);
    /// let out = Lent { masks: &mut [], values: &mut values, offsets: &mut offsets };
    /// let whole = Subset::whole(&[1]);
    /// let cut = table.extract_into(Width::Four, Place::Start, &whole, out)?;
    /// assert_eq!((cut.values, cut.offsets), (&b"a"[..], &[0, 1][..]));
    /// # Ok::<(), durpaxeta::Refusal>(())
    /// ```
    pub fn extract_into<'o>(
        self,
        width: Width,
        place: Place,
        subset: &'o Subset,
        mut out: Lent<'o>,
    ) -> Result<ArrayRef<'o>, Refusal> {
        let wrote = given(ffi::migrate_extract(self, subset.numbers(), &mut out))?;
        Ok(out.array(Kind::ragged(0, width, place), subset.lengths(), wrote))
    }

    /// As many value bytes as the chunks can have at most, if nothing is refused: fewer than their strings.
    fn most_value_bytes(self) -> usize {
        let moved = usize::try_from(self.moved).unwrap_or(usize::MAX);
        let strings = self.moved_lengths.iter().take(moved).chain(self.old_lengths.iter().skip(moved));
        let most = self.old.len().saturating_add(self.area.len());
        strings.fold(0, |sum: u64, length| sum.saturating_add(*length)).min(most as u64) as usize
    }
}

impl<'a> From<&'a LiveTable<'_>> for LiveTableRef<'a> {
    fn from(table: &'a LiveTable<'_>) -> LiveTableRef<'a> {
        table.view()
    }
}
