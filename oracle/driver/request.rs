//! A request is one call with all that is handed over; an outcome is its answer with the results by slot. The store of `table_make` is
//! lent with the length that the request says: its answer goes by it.

use judge::{KindNumbers, Live, Table};

/// A live table: all that its calls are handed, but for the subset of a cut.
#[derive(Clone, Debug, Default, PartialEq)]
pub struct LiveTable {
    pub shape: Vec<u64>,
    pub subsets: Vec<u64>,
    pub old_lengths: Vec<u64>,
    pub old: Vec<u8>,
    pub moved: u64,
    pub moved_lengths: Vec<u64>,
    pub area: Vec<u8>,
}
impl LiveTable {
    pub fn lent(&self) -> Live<'_> {
        let LiveTable { shape, subsets, old_lengths, old, moved, moved_lengths, area } = self;
        Live { shape, subsets, old_lengths, old, moved: *moved, moved_lengths, area }
    }
}

#[derive(Clone, Debug, PartialEq)]
pub enum Request {
    Encode { kind: KindNumbers, shape: Vec<u64>, masks: Vec<u8>, values: Vec<u8>, offsets: Vec<u64> },
    Decode { kind: KindNumbers, shape: Vec<u64>, bytes: Vec<u8> },
    DecodeInterleaved { cells: u64, bytes: Vec<u8> },
    Extract { kind: KindNumbers, shape: Vec<u64>, subset: Vec<u64>, masks: Vec<u8>, values: Vec<u8>, offsets: Vec<u64> },
    Merge { kind: KindNumbers, shape: Vec<u64>, subsets: Vec<u64>, masks: Vec<u8>, values: Vec<u8>, offsets: Vec<u64> },
    PartialDecode { width: u64, place: u64, shape: Vec<u64>, subset: Vec<u64>, bytes: Vec<u8> },
    ReverseEndianness { size: u64, bytes: Vec<u8> },
    SubsetCells { shape: Vec<u64>, subset: Vec<u64> },
    EncodeInterleaved { kind: KindNumbers, shape: Vec<u64>, masks: Vec<u8>, values: Vec<u8>, offsets: Vec<u64> },
    Generate { kind: KindNumbers, shape: Vec<u64>, start: u32 },
    TableMake { kind: KindNumbers, cells: u64, masks: Vec<u8>, values: Vec<u8>, offsets: Vec<u64>, store: usize },
    TableRead { kind: KindNumbers, cells: u64, table: Table },
    TableSet { kind: KindNumbers, cells: u64, table: Table, cell: u64, cell_masks: Vec<u8>, value: Vec<u8> },
    TablePack { kind: KindNumbers, cells: u64, table: Table, most: u64 },
    TablePreview { kind: KindNumbers, cells: u64, table: Table, cell: u64, cell_masks: Vec<u8>, value: Vec<u8> },
    GuestRead { kind: KindNumbers, shape: Vec<u64>, rights: Vec<u8>, masks: Vec<u8>, values: Vec<u8>, offsets: Vec<u64> },
    GuestEdit { kind: KindNumbers, cells: u64, rights: Vec<u8>, table: Table, cell: u64, cell_masks: Vec<u8>, value: Vec<u8> },
    Arrangement { depth: u64, cells: u64, number: u64 },
    MigrateStep { live: LiveTable },
    MigrateExtract { live: LiveTable, subset: Vec<u64> },
}
use Request::*;

/// In the order of the numbers that they have in oracle/data: a new call is the last.
pub const CALLS: [&str; 20] = [
    "encode",
    "decode",
    "decode_interleaved",
    "extract",
    "merge",
    "partial_decode",
    "reverse_endianness",
    "subset_cells",
    "encode_interleaved",
    "generate",
    "table_make",
    "table_read",
    "table_set",
    "table_pack",
    "table_preview",
    "guest_read",
    "guest_edit",
    "arrangement",
    "migrate_step",
    "migrate_extract",
];

/// The refusals that a call can give, by docs/DECISIONS.md, part 0. At the C boundary width and place come as numbers, so
/// `partial_decode` has 1 as well.
pub const REFUSALS: [&[u32]; 20] = [
    &[1, 2, 4, 5, 20, 6],
    &[1, 2, 7, 8, 13, 14, 10, 5, 6],
    &[2, 7, 9, 11, 5, 6],
    &[1, 2, 3, 4, 5, 6],
    &[1, 2, 3, 4, 5, 12, 6],
    &[1, 2, 3, 7, 8, 10, 5, 6],
    &[1],
    &[2, 3, 6],
    &[1, 2, 4, 5, 20, 6],
    &[1, 2, 6],
    &[1, 2, 4, 5, 6],
    &[1, 2, 4, 5, 6],
    &[1, 2, 4, 5, 15, 16],
    &[1, 2, 4, 5],
    &[1, 2, 4, 5, 15, 16],
    &[1, 2, 17, 4, 5, 6],
    &[1, 2, 17, 4, 5, 15, 18, 16],
    &[1, 19, 6],
    &[2, 3, 4, 12, 7, 9, 11, 8, 10, 5, 6],
    &[2, 3, 4, 12, 7, 9, 11, 8, 10, 5, 6],
];

/// Results by slot: a call uses some of masks (or none), values (the stored bytes of `encode`, the bytes of `reverse_endianness`, the
/// store of a working table, the area of a live one), offsets (the cells of `subset_cells`, the starts of a table) and lengths (of a working
/// table's cells, of the chunks of a live one that are moved).
#[derive(Clone, Debug, Default, PartialEq)]
pub struct Results {
    pub masks: Vec<u8>,
    pub values: Vec<u8>,
    pub offsets: Vec<u64>,
    pub lengths: Vec<u64>,
    /// Of `reverse_endianness` the length of the whole cells, of `table_pack` how many cells were moved, of `table_preview` the sum of lengths,
    /// of `migrate_step` how many bytes were entered.
    pub whole: u64,
    /// Of `table_preview` how many cells are not packed, of `migrate_step` how many chunks are moved.
    pub second: u64,
}
impl From<judge::Array> for Results {
    fn from(a: judge::Array) -> Self {
        Results { masks: a.masks, values: a.values, offsets: a.offsets, ..Results::default() }
    }
}
impl From<Table> for Results {
    fn from(t: Table) -> Self {
        Results { masks: t.masks, values: t.store, offsets: t.starts, lengths: t.lengths, ..Results::default() }
    }
}

pub type Outcome = Result<Results, u32>;

/// What a step leaves behind.
fn stepped(live: &LiveTable, step: Option<judge::Step<'_>>) -> Results {
    let mut r =
        Results { values: live.area.clone(), lengths: live.moved_lengths.clone(), second: live.moved, ..Results::default() };
    if let Some(step) = step {
        let string = step.string.concat();
        r.values[step.at..][..string.len()].copy_from_slice(&string);
        r.whole = string.len() as u64;
        r.lengths[live.moved as usize] = r.whole;
        r.second += 1;
    }
    r
}

impl Request {
    pub fn call(&self) -> usize {
        match self {
            Encode { .. } => 0,
            Decode { .. } => 1,
            DecodeInterleaved { .. } => 2,
            Extract { .. } => 3,
            Merge { .. } => 4,
            PartialDecode { .. } => 5,
            ReverseEndianness { .. } => 6,
            SubsetCells { .. } => 7,
            EncodeInterleaved { .. } => 8,
            Generate { .. } => 9,
            TableMake { .. } => 10,
            TableRead { .. } => 11,
            TableSet { .. } => 12,
            TablePack { .. } => 13,
            TablePreview { .. } => 14,
            GuestRead { .. } => 15,
            GuestEdit { .. } => 16,
            Arrangement { .. } => 17,
            MigrateStep { .. } => 18,
            MigrateExtract { .. } => 19,
        }
    }

    /// Of a kind whose stored masks are packed.
    pub fn packed(&self) -> bool {
        match self {
            Encode { kind, .. }
            | Decode { kind, .. }
            | Extract { kind, .. }
            | Merge { kind, .. }
            | EncodeInterleaved { kind, .. }
            | Generate { kind, .. }
            | TableMake { kind, .. }
            | TableRead { kind, .. }
            | TableSet { kind, .. }
            | TablePack { kind, .. }
            | TablePreview { kind, .. }
            | GuestRead { kind, .. }
            | GuestEdit { kind, .. } => kind[4] == 1,
            _ => false,
        }
    }

    /// Of an array or chunk list with a mask byte over 01.
    pub fn hands_over_01(&self) -> bool {
        match self {
            Encode { masks, .. }
            | Extract { masks, .. }
            | Merge { masks, .. }
            | EncodeInterleaved { masks, .. }
            | TableMake { masks, .. }
            | GuestRead { masks, .. } => masks.iter().any(|&byte| byte > 1),
            _ => false,
        }
    }

    /// Which slots the call lends: masks, values, offsets, lengths.
    pub fn slots(&self) -> [bool; 4] {
        [
            [false, true, false, false],
            [true, true, true, false],
            [false, true, true, false],
            [true, true, true, false],
            [true, true, true, false],
            [false, true, true, false],
            [false, true, false, false],
            [false, false, true, false],
            [false, true, false, false],
            [true, true, true, false],
            [true, true, true, true],
            [true, true, true, false],
            [true, true, true, true],
            [false, true, true, false],
            [false; 4],
            [true, true, true, false],
            [true, true, true, true],
            [true, true, true, false],
            [false, true, false, true],
            [false, true, true, false],
        ][self.call()]
    }

    /// What is lent in place, as it is before the call: the bytes of `reverse_endianness`, the lists of a table, a live table's area and lengths.
    pub fn in_place(&self) -> Option<Results> {
        match self {
            ReverseEndianness { bytes, .. } => Some(Results { values: bytes.clone(), ..Results::default() }),
            TableSet { table, .. } | GuestEdit { table, .. } => Some(table.clone().into()),
            TablePack { table, .. } => {
                Some(Results { values: table.store.clone(), offsets: table.starts.clone(), ..Results::default() })
            }
            MigrateStep { live } => {
                Some(Results { values: live.area.clone(), lengths: live.moved_lengths.clone(), ..Results::default() })
            }
            _ => None,
        }
    }

    /// What success names.
    pub fn named(&self, r: &Results) -> Vec<u64> {
        let [masks, values, offsets, lengths] =
            [r.masks.len(), r.values.len(), r.offsets.len(), r.lengths.len()].map(|length| length as u64);
        match self {
            ReverseEndianness { .. } | TablePack { .. } => vec![r.whole],
            TableSet { .. } | GuestEdit { .. } => vec![],
            TablePreview { .. } | MigrateStep { .. } => vec![r.whole, r.second],
            TableMake { .. } => vec![masks, offsets, lengths, values],
            _ => {
                let slots = self.slots();
                (0..3).filter(|&i| slots[i]).map(|i| [masks, values, offsets][i]).collect()
            }
        }
    }

    pub fn judged(&self) -> Outcome {
        match self {
            Encode { kind, shape, masks, values, offsets } => {
                let stored = judge::encode(*kind, shape, masks, values, offsets);
                stored.map(|pieces| Results { values: pieces.concat(), ..Results::default() })
            }
            Decode { kind, shape, bytes } => judge::decode(*kind, shape, bytes).map(Results::from),
            DecodeInterleaved { cells, bytes } => judge::decode_interleaved(*cells, bytes).map(Results::from),
            Extract { kind, shape, subset, masks, values, offsets } => {
                judge::extract(*kind, shape, subset, masks, values, offsets).map(Results::from)
            }
            Merge { kind, shape, subsets, masks, values, offsets } => {
                judge::merge(*kind, shape, subsets, masks, values, offsets).map(Results::from)
            }
            PartialDecode { width, place, shape, subset, bytes } => {
                judge::partial_decode(*width, *place, shape, subset, bytes).map(Results::from)
            }
            ReverseEndianness { size, bytes } => {
                judge::reverse_endianness(*size, bytes).map(|(values, whole)| Results { values, whole, ..Results::default() })
            }
            SubsetCells { shape, subset } => {
                judge::subset_cells(shape, subset).map(|offsets| Results { offsets, ..Results::default() })
            }
            EncodeInterleaved { kind, shape, masks, values, offsets } => {
                let stored = judge::encode_interleaved(*kind, shape, masks, values, offsets);
                stored.map(|pieces| Results { values: pieces.concat(), ..Results::default() })
            }
            Generate { kind, shape, start } => judge::generate(*kind, shape, *start).map(Results::from),
            TableMake { kind, cells, masks, values, offsets, store } => {
                judge::table_make(*kind, *cells, masks, values, offsets, *store as u64).map(Results::from)
            }
            TableRead { kind, cells, table } => judge::table_read(*kind, *cells, table).map(Results::from),
            TableSet { kind, cells, table, cell, cell_masks, value } => {
                judge::table_set(*kind, *cells, table, *cell, cell_masks, value).map(Results::from)
            }
            TablePack { kind, cells, table, most } => judge::table_pack(*kind, *cells, table, *most).map(|(t, whole)| Results {
                values: t.store,
                offsets: t.starts,
                whole,
                ..Results::default()
            }),
            TablePreview { kind, cells, table, cell, cell_masks, value } => {
                let foreseen = judge::table_preview(*kind, *cells, table, *cell, cell_masks, value);
                foreseen.map(|[whole, second]| Results { whole, second, ..Results::default() })
            }
            GuestRead { kind, shape, rights, masks, values, offsets } => {
                judge::guest_read(*kind, shape, rights, masks, values, offsets).map(Results::from)
            }
            GuestEdit { kind, cells, rights, table, cell, cell_masks, value } => {
                judge::guest_edit(*kind, *cells, rights, table, *cell, cell_masks, value).map(Results::from)
            }
            Arrangement { depth, cells, number } => judge::arrangement(*depth, *cells, *number).map(Results::from),
            MigrateStep { live } => judge::migrate_step(&live.lent()).map(|step| stepped(live, step)),
            MigrateExtract { live, subset } => judge::migrate_extract(&live.lent(), subset).map(Results::from),
        }
    }

    /// About how much there is to handle.
    pub fn weight(&self) -> usize {
        match self {
            Encode { shape, masks, values, offsets, .. } | EncodeInterleaved { shape, masks, values, offsets, .. } => {
                shape.len() + masks.len() + values.len() + offsets.len()
            }
            Extract { shape, masks, values, offsets, .. } | GuestRead { shape, masks, values, offsets, .. } => {
                shape.len() + masks.len() + values.len() + offsets.len()
            }
            Merge { subsets, masks, values, offsets, .. } => subsets.len() + masks.len() + values.len() + offsets.len(),
            Decode { bytes, .. }
            | DecodeInterleaved { bytes, .. }
            | PartialDecode { bytes, .. }
            | ReverseEndianness { bytes, .. } => bytes.len(),
            SubsetCells { .. } | Generate { .. } | Arrangement { .. } => 0,
            TableMake { masks, values, offsets, store, .. } => masks.len() + values.len() + offsets.len() + store,
            TableRead { table, .. }
            | TableSet { table, .. }
            | TablePack { table, .. }
            | TablePreview { table, .. }
            | GuestEdit { table, .. } => table.masks.len() + table.starts.len() + table.lengths.len() + table.store.len(),
            MigrateStep { live } | MigrateExtract { live, .. } => {
                live.subsets.len() + live.old_lengths.len() + live.old.len() + live.moved_lengths.len() + live.area.len()
            }
        }
    }
}
