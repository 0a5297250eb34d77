//! Requests on working tables: small ones in all ways, sequences of settings and packings, tables that are scattered, full or broken,
//! and large ones. A sequence goes on from what the judge says; each step is held against the archive with every byte. Each setting is
//! previewed first.

use crate::cases::{
    Content, Sink, a_number, content, damaged_bytes, damaged_kind, damaged_numbers, fixed, over_01, packed, plane, ragged,
    spoilt, value_lengths,
};
use crate::request::Request::{self, *};
use crate::rng::Rng;
use judge::Table;

/// Store bytes at most.
pub const STORE: usize = 16_777_216;

fn make(kind: [u64; 5], cells: usize, c: &Content, store: usize) -> Request {
    let (masks, values, offsets) = (c.masks.clone(), c.values.clone(), c.offsets.clone());
    TableMake { kind, cells: cells as u64, masks, values, offsets, store }
}
fn read(kind: [u64; 5], table: &Table) -> Request {
    TableRead { kind, cells: table.starts.len() as u64, table: table.clone() }
}
pub fn set(kind: [u64; 5], table: &Table, cell: u64, cell_masks: &[u8], value: &[u8]) -> Request {
    let cells = table.starts.len() as u64;
    TableSet { kind, cells, table: table.clone(), cell, cell_masks: cell_masks.to_vec(), value: value.to_vec() }
}
fn pack(kind: [u64; 5], table: &Table, most: u64) -> Request {
    TablePack { kind, cells: table.starts.len() as u64, table: table.clone(), most }
}

/// A setting is previewed first.
fn ask(sink: &mut dyn Sink, request: Request) {
    if let TableSet { kind, cells, table, cell, cell_masks, value } = request.clone() {
        sink.ask(TablePreview { kind, cells, table, cell, cell_masks, value });
    }
    sink.ask(request);
}

/// A table kind, with either mask form.
pub fn any_table_kind(rng: &mut Rng, depth: usize) -> [u64; 5] {
    let (width, place) = (rng.pick(&[4, 8]), rng.below(2) as u64);
    let kind = ragged(depth, width, place);
    if rng.once_in(4) { packed(kind) } else { kind }
}
pub fn any_cells(rng: &mut Rng) -> usize {
    match rng.below(16) {
        0 => 1,
        1..=10 => 1 + rng.below(8),
        11..=14 => 1 + rng.below(40),
        _ => 1 + rng.below(300),
    }
}
/// Masks in rest form, and which cells have a value.
fn resting(rng: &mut Rng, depth: usize, cells: usize) -> (Vec<u8>, Vec<bool>) {
    let mut shown = vec![1; cells];
    let mut masks = vec![];
    for _ in 0..depth {
        let level = plane(rng, cells);
        (0..cells).for_each(|cell| shown[cell] *= level[cell]);
        masks.extend(&shown);
    }
    (masks, shown.iter().map(|&mark| mark == 1).collect())
}
/// Cells in any order, with gaps between them that are `gap` bytes at most, and so many behind the last.
pub fn scattered(rng: &mut Rng, kind: [u64; 5], cells: usize, gap: usize, behind: usize) -> Table {
    let (masks, shown) = resting(rng, kind[0] as usize, cells);
    let lengths: Vec<usize> =
        value_lengths(rng, cells).iter().zip(&shown).map(|(&length, &shown)| if shown { length } else { 0 }).collect();
    let mut order: Vec<usize> = (0..cells).filter(|&cell| lengths[cell] > 0).collect();
    match rng.below(4) {
        0 => {}
        1 => order.reverse(),
        _ => rng.shuffle(&mut order),
    }
    let mut starts = vec![0; cells];
    let mut end = 0;
    let packed_first = if rng.once_in(3) { rng.below(order.len() + 1) } else { 0 };
    for (at, &cell) in order.iter().enumerate() {
        if at >= packed_first {
            end += rng.below(gap + 1);
        }
        starts[cell] = end as u64;
        end += lengths[cell];
    }
    Table { masks, starts, lengths: lengths.iter().map(|&n| n as u64).collect(), store: rng.bytes(end + behind) }
}
/// A table as it is made, in a store with so many bytes behind the cells.
pub fn made(rng: &mut Rng, kind: [u64; 5], cells: usize, behind: usize) -> Table {
    let c = content(rng, kind, cells);
    let mut table = judge::table_make(kind, cells as u64, &c.masks, &c.values, &c.offsets, STORE as u64).unwrap();
    table.store.extend(rng.bytes(behind));
    table
}

// ---------------------------------------------------------------- settings and packings

/// The masks of a setting: all set, null somewhere, or anything.
fn setting_masks(rng: &mut Rng, depth: usize) -> Vec<u8> {
    let mut masks = vec![1; depth];
    match rng.below(4) {
        0 => masks.iter_mut().for_each(|mark| *mark = rng.below(2) as u8),
        1 if depth > 0 => masks[rng.below(depth)] = 0,
        _ => {}
    }
    masks
}
/// How long the value of a setting is: around what remains behind the highest-lying cell, what the store holds, or short.
fn setting_length(rng: &mut Rng, table: &Table, cell: usize) -> usize {
    let others: u64 = (0..table.starts.len()).filter(|&j| j != cell).map(|j| table.lengths[j]).sum();
    let top = (0..table.starts.len()).filter(|&j| j != cell).map(|j| table.starts[j] + table.lengths[j]).max().unwrap_or(0);
    let size = table.store.len() as u64;
    let about = |rng: &mut Rng, n: u64| (n + rng.below(3) as u64).saturating_sub(1);
    (match rng.below(6) {
        0 => about(rng, size - top),
        1 => about(rng, size - others),
        2 => 0,
        3 => table.lengths[cell],
        4 => rng.below(1 + (size - others) as usize) as u64,
        _ => rng.below(6) as u64,
    }) as usize
}
pub fn a_setting(rng: &mut Rng, kind: [u64; 5], table: &Table) -> Request {
    let cell = rng.below(table.starts.len());
    let length = setting_length(rng, table, cell);
    let same = rng.once_in(8) && table.lengths[cell] as usize == length;
    let value = if same { table.store[table.starts[cell] as usize..][..length].to_vec() } else { rng.bytes(length) };
    let masks = setting_masks(rng, kind[0] as usize);
    set(kind, table, cell as u64, &masks, &value)
}
fn a_most(rng: &mut Rng) -> u64 {
    match rng.below(8) {
        0 => 256,
        1 => 255,
        2 => 1 + rng.below(256) as u64,
        _ => 1 + rng.below(4) as u64,
    }
}
/// The table that the judge has after a request, where it is not refused.
fn after(request: &Request) -> Option<Table> {
    match request {
        TableSet { kind, cells, table, cell, cell_masks, value } => {
            judge::table_set(*kind, *cells, table, *cell, cell_masks, value).ok()
        }
        TablePack { kind, cells, table, most } => judge::table_pack(*kind, *cells, table, *most).ok().map(|(table, _)| table),
        _ => None,
    }
}
/// Settings and packings one after the other, and what is read out in between.
fn sequence(sink: &mut dyn Sink, rng: &mut Rng, kind: [u64; 5], mut table: Table, steps: usize) {
    for _ in 0..steps {
        let request = match rng.below(8) {
            0 => read(kind, &table),
            1 | 2 => pack(kind, &table, a_most(rng)),
            _ => a_setting(rng, kind, &table),
        };
        if let Some(next) = after(&request) {
            table = next;
        }
        ask(sink, request);
    }
    ask(sink, read(kind, &table));
}
/// Packed by k cells a call until none is left.
fn pack_all(sink: &mut dyn Sink, kind: [u64; 5], mut table: Table, most: u64) {
    loop {
        let (next, moved) = judge::table_pack(kind, table.starts.len() as u64, &table, most).unwrap();
        ask(sink, pack(kind, &table, most));
        table = next;
        if moved == 0 {
            return;
        }
    }
}

// ---------------------------------------------------------------- broken tables

/// One mask byte more or less, and no byte over 01.
pub fn other_length(rng: &mut Rng, masks: &[u8]) -> Vec<u8> {
    match masks.split_last() {
        Some((_, fewer)) if rng.below(2) == 0 => fewer.to_vec(),
        _ => [masks, &[rng.below(2) as u8]].concat(),
    }
}
/// One rule broken, of every sort.
pub fn broken(rng: &mut Rng, depth: usize, table: &Table) -> Table {
    let mut t = table.clone();
    let cells = t.starts.len();
    let cell = rng.below(cells);
    let filled: Vec<usize> = (0..cells).filter(|&j| t.lengths[j] > 0).collect();
    match rng.below(16) {
        0 => t.masks = other_length(rng, &t.masks),
        1 => t.starts = damaged_numbers(rng, &t.starts),
        2 => t.lengths = damaged_numbers(rng, &t.lengths),
        3 if depth > 0 => spoilt(rng, &mut t.masks),
        // a null over what the cell has
        4 if depth > 0 => t.masks[rng.below(depth) * cells + cell] = 0,
        // set below whatever is above
        5 if depth > 1 => t.masks[(depth - 1) * cells + cell] = 1,
        6 if !filled.is_empty() => t.lengths[rng.pick(&filled)] += 1,
        7 if !filled.is_empty() => t.starts[rng.pick(&filled)] = t.store.len() as u64,
        // an empty cell that starts elsewhere, inside the store or at its end
        8 => (t.starts[cell], t.lengths[cell]) = (1 + rng.below(t.store.len() + 1) as u64, 0),
        // numbers that wrap
        9 => (t.starts[cell], t.lengths[cell]) = (u64::MAX - rng.below(3) as u64, 1 + rng.below(4) as u64),
        10 => (t.starts[cell], t.lengths[cell]) = (rng.below(4) as u64, u64::MAX - rng.below(4) as u64),
        11 => {
            let other = rng.below(cells);
            t.lengths[cell] = 1 << 63;
            t.lengths[other] = 1 << 63;
        }
        // two cells over each other, by one byte or all
        12 if filled.len() > 1 => {
            let (a, b) = (rng.pick(&filled), rng.pick(&filled));
            t.starts[a] = t.starts[b] + if rng.below(2) == 0 { 0 } else { t.lengths[b] - 1 };
        }
        13 if !t.store.is_empty() => {
            let less = 1 + rng.below(3.min(t.store.len()));
            t.store.truncate(t.store.len() - less);
        }
        14 => t.starts[cell] = a_number(rng),
        _ => t.lengths[cell] = a_number(rng),
    }
    t
}
/// The same request with several faults.
pub fn faulty_table(rng: &mut Rng, kind: &mut [u64; 5], cells: &mut u64) {
    if rng.once_in(8) {
        *kind = if rng.below(2) == 0 { damaged_kind(rng, *kind) } else { fixed(kind[0] as usize, 1, 0) };
    }
    if rng.once_in(6) {
        *cells = match rng.below(3) {
            0 => cells.wrapping_add(1),
            1 => cells.wrapping_sub(1),
            _ => a_number(rng),
        };
    }
}
pub fn faulty(rng: &mut Rng, request: &Request) -> Request {
    let mut r = request.clone();
    match &mut r {
        TableMake { kind, cells, masks, values, offsets, store } => {
            faulty_table(rng, kind, cells);
            if rng.once_in(4) {
                *masks = damaged_bytes(rng, masks);
            }
            if rng.once_in(4) {
                spoilt(rng, masks);
            }
            if rng.once_in(4) {
                *values = damaged_bytes(rng, values);
            }
            if rng.once_in(4) {
                *offsets = damaged_numbers(rng, offsets);
            }
            if rng.once_in(3) {
                *store = rng.below(*store + 1);
            }
        }
        TableRead { kind, cells, table } | TableSet { kind, cells, table, .. } | TablePack { kind, cells, table, .. } => {
            if rng.once_in(3) {
                *table = broken(rng, kind[0] as usize, table);
            }
            faulty_table(rng, kind, cells);
        }
        _ => {}
    }
    match &mut r {
        TableSet { cells, cell, cell_masks, value, .. } => {
            match rng.below(5) {
                0 => *cell = *cells,
                1 => *cell = cell.wrapping_add(1 << 32),
                2 => *cell = a_number(rng),
                _ => {}
            }
            match rng.below(6) {
                0 => *cell_masks = other_length(rng, cell_masks),
                1 | 2 if !cell_masks.is_empty() => {
                    let at = rng.below(cell_masks.len());
                    cell_masks[at] = over_01(rng);
                }
                _ => {}
            }
            if rng.once_in(4) {
                value.extend(vec![7; 1 + rng.below(50)]);
            }
        }
        TablePack { most, .. } if rng.once_in(4) => {
            *most = if rng.below(2) == 0 { rng.pick(&[0, 257, (1 << 32) + 1, u64::MAX]) } else { a_number(rng) }
        }
        _ => {}
    }
    r
}
fn ask_with_faults(sink: &mut dyn Sink, rng: &mut Rng, request: Request) {
    for _ in 0..3 {
        ask(sink, faulty(rng, &request));
    }
    ask(sink, request);
}

// ---------------------------------------------------------------- all of it

/// One or two cells, and three in a store of four bytes, with every start and length: most of these tables are broken. Of the others every
/// cell is set to every length, with every mask, and they are packed.
pub fn exhaustive(sink: &mut dyn Sink, rng: &mut Rng) {
    for (cells, stores) in [(1, 0..=5), (2, 0..=5), (3, 4..=4)] {
        for size in stores {
            let places: Vec<(u64, u64)> =
                (0..=size as u64).flat_map(|start| (0..=2).map(move |length| (start, length))).collect();
            for number in 0..places.len().pow(cells) {
                let cell = |i: u32| places[number / places.len().pow(i) % places.len()];
                let (starts, lengths) = (0..cells).map(cell).unzip();
                let table = Table { masks: vec![], starts, lengths, store: (0x61..).take(size).collect() };
                every_edit(sink, rng, ragged(0, 4, 0), &table);
            }
        }
    }
    // with masks: every mask and every setting's mask of one or two cells, values of one byte
    for depth in 1..=2 {
        let kind = ragged(depth, 8, 1);
        for cells in 1..=2 {
            for number in 0..1 << (depth * cells) {
                let masks: Vec<u8> = (0..depth * cells).map(|i| (number >> i & 1) as u8).collect();
                for filled in 0..1 << cells {
                    let lengths: Vec<u64> = (0..cells).map(|cell| filled >> cell & 1).collect();
                    let starts = (0..cells).map(|cell| lengths[cell] * (cells - cell) as u64).collect();
                    let table = Table { masks: masks.clone(), starts, lengths, store: b"wxyz"[..cells + 1].to_vec() };
                    every_edit(sink, rng, kind, &table);
                }
            }
        }
    }
}
fn every_edit(sink: &mut dyn Sink, rng: &mut Rng, kind: [u64; 5], table: &Table) {
    let cells = table.starts.len();
    ask(sink, read(kind, table));
    ask(sink, pack(kind, table, 1));
    if judge::table_read(kind, cells as u64, table).is_err() {
        return ask(sink, set(kind, table, rng.below(cells + 1) as u64, &vec![1; kind[0] as usize], b"k"));
    }
    ask(sink, pack(kind, table, 2));
    ask(sink, pack(kind, table, 3));
    for cell in 0..=cells as u64 {
        for number in 0..3_usize.pow(kind[0] as u32) {
            let masks: Vec<u8> = (0..kind[0] as u32).map(|i| (number / 3_usize.pow(i) % 3) as u8).collect();
            for length in 0..=(table.store.len() + 1).min(4) {
                ask(sink, set(kind, table, cell, &masks, &b"KLMN"[..length]));
            }
        }
    }
}

/// Stores, counts, cell numbers and k around their limits, alone and with other faults.
pub fn limits(sink: &mut dyn Sink, rng: &mut Rng) {
    let kind = ragged(1, 4, 0);
    let table = Table { masks: vec![1, 1], starts: vec![2, 0], lengths: vec![1, 1], store: b"a.b".to_vec() };
    let numbers: Vec<u64> = (0..400).chain((0..200).map(|_| a_number(rng))).collect();
    for n in numbers {
        ask(sink, pack(kind, &table, n));
        ask(sink, pack(fixed(1, 1, 0), &table, n));
        ask(sink, TablePack { kind, cells: 0, table: Table::default(), most: n });
        ask(sink, set(kind, &table, n, &[1], b"c"));
        ask(sink, set(kind, &table, n, &[2], b"c"));
        ask(sink, set(kind, &table, n, &[1], b"cccc"));
        for at in 0..5 {
            let mut k = kind;
            k[at] = n;
            ask(sink, pack(k, &table, 1));
            ask(sink, set(k, &table, 0, &[1], b"c"));
            ask(sink, read(k, &table));
            ask(sink, make(k, 2, &Content { masks: vec![1, 1], values: b"ab".to_vec(), offsets: vec![0, 1, 2] }, 2));
        }
        ask(sink, TablePack { kind, cells: n, table: table.clone(), most: 1 });
        ask(sink, TableRead { kind, cells: n, table: table.clone() });
        ask(sink, TableSet { kind, cells: n, table: table.clone(), cell: 0, cell_masks: vec![1], value: b"c".to_vec() });
        ask(sink, TableMake { kind, cells: n, masks: vec![], values: vec![], offsets: vec![0], store: 0 });
    }
    // the longest store, and one byte more; 4 comes before 5
    for size in [STORE, STORE + 1] {
        let store = rng.bytes(size);
        let end = size as u64;
        let table = Table { masks: vec![1, 1], starts: vec![end - 1, 0], lengths: vec![1, 1], store };
        ask(sink, pack(kind, &table, 1));
        ask(sink, read(kind, &table));
        ask(sink, set(kind, &table, 2, &[1], b"c"));
        ask(sink, set(kind, &table, 0, &[1], &vec![7; STORE - 1]));
        ask(sink, set(kind, &table, 1, &[1], &vec![7; STORE]));
        ask(sink, set(kind, &table, 1, &[2], b"c"));
        let over = Table { starts: vec![0, 0], ..table };
        ask(sink, pack(kind, &over, 1));
        let c = Content { masks: vec![1, 0], values: b"ab".to_vec(), offsets: vec![0, 1, 2] };
        ask(sink, make(kind, 2, &c, size));
        ask(sink, make(kind, 2, &Content { masks: vec![1, 2], ..c }, size));
        // hidden bytes: over the limit for arrays 5, though nothing of them is stored
        let c = Content { masks: vec![1, 0], values: vec![7; size], offsets: vec![0, 1, end] };
        ask(sink, make(kind, 2, &c, 1));
        ask(sink, make(kind, 2, &c, 0));
        ask(sink, make(ragged(0, 4, 0), 1, &Content { masks: vec![], values: vec![7; size], offsets: vec![0, end] }, STORE));
    }
}

/// As many cells as there can be, and around what is ordered in a small memory.
pub fn many_cells(sink: &mut dyn Sink, rng: &mut Rng) {
    for (cells, depth) in [(2_047, 0), (2_048, 1), (2_049, 0), (4_096, 2), (65_535, 1), (65_536, 0), (65_536, 4)] {
        let kind = ragged(depth, 8, 0);
        let c = content(rng, kind, cells);
        ask(sink, make(kind, cells, &c, c.values.len() + 7));
        let fresh = made(rng, kind, cells, 9);
        ask(sink, read(kind, &fresh));
        ask(sink, pack(kind, &fresh, 256));
        for gap in [0, 1, 3] {
            let table = scattered(rng, kind, cells, gap, 5);
            ask(sink, read(kind, &table));
            ask(sink, pack(kind, &table, 256));
            ask(sink, pack(kind, &table, 1));
            for _ in 0..3 {
                ask(sink, a_setting(rng, kind, &table));
            }
            ask(sink, broken_by_overlap(&table));
            sequence(sink, rng, kind, table, 4);
        }
        let over = scattered(rng, kind, cells + 1, 1, 1);
        ask(sink, pack(kind, &over, 1));
    }
}
/// The two cells that lie highest, over each other by one byte: only the whole order shows it.
fn broken_by_overlap(table: &Table) -> Request {
    let mut t = table.clone();
    let mut filled: Vec<usize> = (0..t.starts.len()).filter(|&j| t.lengths[j] > 0).collect();
    filled.sort_by_key(|&j| t.starts[j]);
    if let [.., a, b] = filled[..] {
        t.starts[b] = t.starts[a] + t.lengths[a] - 1;
    }
    let kind = ragged(t.masks.len() / t.starts.len(), 8, 0);
    pack(kind, &t, 1)
}

/// A table that is made, edited and packed; a scattered one; a full one; and copies with faults.
pub fn random(sink: &mut dyn Sink, rng: &mut Rng) {
    let depth = rng.below(5);
    let kind = any_table_kind(rng, depth);
    let cells = any_cells(rng);

    let c = content(rng, kind, cells);
    let need = judge::table_make(kind, cells as u64, &c.masks, &c.values, &c.offsets, STORE as u64).unwrap().store.len();
    for store in [need, need + 1 + rng.below(20)] {
        ask_with_faults(sink, rng, make(kind, cells, &c, store));
    }
    if need > 0 {
        ask(sink, make(kind, cells, &c, need - 1));
    }
    ask(sink, make(kind, cells, &c, 0));

    let (behind, gap) = (rng.pick(&[0, 1, 5, 30]), rng.pick(&[0, 1, 2, 9]));
    let table = made(rng, kind, cells, behind);
    sequence(sink, rng, kind, table, 8);
    let table = scattered(rng, kind, cells, gap, behind);
    sequence(sink, rng, kind, table.clone(), 4);
    pack_all(sink, kind, table.clone(), rng.pick(&[1, 2, 3, 7, 256]));
    for _ in 0..2 {
        let most = a_most(rng);
        ask_with_faults(sink, rng, pack(kind, &table, most));
        ask_with_faults(sink, rng, read(kind, &table));
        let request = a_setting(rng, kind, &table);
        ask_with_faults(sink, rng, request);
        let bad = broken(rng, depth, &table);
        ask(sink, pack(kind, &bad, 1));
        ask(sink, read(kind, &bad));
        let cell = rng.below(bad.starts.len().max(1)) as u64;
        ask(sink, TableSet { kind, cells: cells as u64, table: bad, cell, cell_masks: vec![1; depth], value: rng.bytes(1) });
    }
    // no gap and nothing behind: what is given up is all that is free
    let full = scattered(rng, kind, cells, 0, 0);
    sequence(sink, rng, kind, full, 4);
}
