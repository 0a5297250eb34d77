//! Requests of guests: what a rights plane shows of an array, and edits of working tables. Small ones with every plane, planes that break their
//! rules, every size of a cell, and random ones; and for a read another array that the guest cannot tell from the one it reads.

use crate::cases::{
    Content, NUMBERS, ONCE, RAGGED, Sink, a_number, any_kind, any_shape, ask_with_faults, cells_of, content, damaged_content,
    damaged_kind, damaged_numbers, fixed, lists, over_01, plane, ragged, shape_of, spoilt,
};
use crate::request::Request::{self, *};
use crate::rng::Rng;
use crate::tables::{self, STORE, a_setting, any_cells, any_table_kind, broken, made, other_length, scattered, set};
use judge::Table;

pub fn read(kind: [u64; 5], shape: &[u64], rights: &[u8], c: &Content) -> Request {
    let (masks, values, offsets) = (c.masks.clone(), c.values.clone(), c.offsets.clone());
    GuestRead { kind, shape: shape.to_vec(), rights: rights.to_vec(), masks, values, offsets }
}
/// A setting, by a guest with these rights.
fn edit(setting: Request, rights: &[u8]) -> Request {
    let TableSet { kind, cells, table, cell, cell_masks, value } = setting else { unreachable!() };
    GuestEdit { kind, cells, rights: rights.to_vec(), table, cell, cell_masks, value }
}

/// A plane that breaks its rules: a byte more or less, more than that, a byte over 01.
pub fn wrong_plane(rng: &mut Rng, rights: &[u8]) -> Vec<u8> {
    let mut copy = rights.to_vec();
    match rng.below(6) {
        0 => copy = vec![],
        1 => copy.extend(rights),
        2 | 3 => copy = other_length(rng, rights),
        _ => spoilt(rng, &mut copy),
    }
    copy
}
/// All planes of so many cells; those that are too short or too long by one, and with a byte over 01 in each place.
fn planes(rng: &mut Rng, cells: usize) -> Vec<Vec<u8>> {
    let bytes = |numbers: Vec<u64>| numbers.iter().map(|&n| n as u8).collect::<Vec<u8>>();
    let mut all: Vec<Vec<u8>> = lists(2, cells).into_iter().map(bytes).collect();
    for byte in 0..2 {
        all.extend([vec![byte; cells - 1], vec![byte; cells + 1]]);
        for at in 0..cells {
            let mut wrong = vec![byte; cells];
            wrong[at] = over_01(rng);
            all.push(wrong);
        }
    }
    all
}

// ---------------------------------------------------------------- two arrays that a guest cannot tell apart

/// Another array that shows the same: of a cell that the plane hides all is drawn anew, of one that it shows what lies below a null. Now and then
/// most stays as it is.
pub fn twin(rng: &mut Rng, request: &Request) -> Request {
    let GuestRead { kind, shape, rights, masks, values, offsets } = request else { unreachable!() };
    let (cells, few) = (rights.len(), rng.pick(&[1, 1, 4]));
    let mut room = ONCE.saturating_sub(values.len());
    let mut c = Content { masks: masks.clone(), values: vec![], offsets: vec![] };
    c.offsets.extend(offsets.first());
    for cell in 0..cells {
        let (mut seen, anew) = (rights[cell] == 1, rng.once_in(few));
        for mask in c.masks.iter_mut().skip(cell).step_by(cells) {
            if !seen && anew {
                *mask = rng.below(2) as u8;
            }
            seen &= *mask == 1;
        }
        let size = kind[2] as usize;
        let value =
            if kind[1] == 0 { cell * size..(cell + 1) * size } else { offsets[cell] as usize..offsets[cell + 1] as usize };
        let value = &values[value];
        if seen || !anew {
            c.values.extend(value);
        } else {
            let length = match rng.below(4) {
                _ if kind[1] == 0 => size,
                0 => 0,
                1 => value.len(),
                2 => rng.below(300),
                _ => rng.below(9),
            };
            let length = length.min(value.len() + room);
            room = room + value.len() - length;
            c.values.extend(rng.bytes(length));
        }
        if kind[1] == 1 {
            c.offsets.push(c.values.len() as u64);
        }
    }
    read(*kind, shape, rights, &c)
}

// ---------------------------------------------------------------- all of it

/// Reads: every plane over every array of few cells, of each depth. Edits: every plane over tables of one to three cells that lie with gaps, where every
/// cell is set to every length and mask.
pub fn exhaustive(sink: &mut dyn Sink, rng: &mut Rng) {
    for (depth, cells) in [(1, 1), (1, 2), (1, 3), (2, 1), (2, 2), (3, 1), (3, 2), (4, 1), (4, 2)] {
        for rights in planes(rng, cells) {
            for masks in lists(2, depth * cells) {
                let masks: Vec<u8> = masks.iter().map(|&n| n as u8).collect();
                for lengths in lists(if depth * cells > 4 { 2 } else { 3 }, cells) {
                    let mut offsets: Vec<u64> = vec![0];
                    lengths.iter().for_each(|length| offsets.push(offsets[offsets.len() - 1] + length));
                    let values = (1..).take(offsets[cells] as usize).collect();
                    let (width, place) = rng.pick(&RAGGED);
                    let c = Content { masks: masks.clone(), values, offsets };
                    sink.ask(read(ragged(depth, width, place), &[cells as u64], &rights, &c));
                }
                let c = Content { masks, values: (1..).take(3 * cells).collect(), offsets: vec![] };
                sink.ask(read(fixed(depth, 3, 1), &[cells as u64], &rights, &c));
            }
        }
    }
    for (depth, cells) in [(1, 1), (1, 2), (1, 3), (2, 1), (2, 2)] {
        let kind = ragged(depth, 8, 1);
        for masks in lists(2, depth * cells) {
            for filled in lists(2, cells) {
                let starts = (0..cells).map(|cell| filled[cell] * (cells - cell) as u64).collect();
                let store = b"wxyz"[..cells + 1].to_vec();
                let table = Table { masks: masks.iter().map(|&n| n as u8).collect(), starts, lengths: filled, store };
                every_edit(sink, rng, kind, &table);
            }
        }
    }
}
fn every_edit(sink: &mut dyn Sink, rng: &mut Rng, kind: [u64; 5], table: &Table) {
    let (depth, cells) = (kind[0] as usize, table.starts.len());
    let kept = judge::table_read(kind, cells as u64, table).is_ok();
    for rights in planes(rng, cells) {
        for cell in 0..=cells as u64 {
            if !kept {
                // 4 of the table, also where the cell is hidden
                sink.ask(edit(set(kind, table, cell, &vec![1; depth], b"k"), &rights));
                continue;
            }
            for masks in lists(3, depth) {
                let masks: Vec<u8> = masks.iter().map(|&n| n as u8).collect();
                for length in 0..=3 {
                    sink.ask(edit(set(kind, table, cell, &masks, &b"KLM"[..length]), &rights));
                }
            }
        }
    }
}

/// Each number of a kind, a shape and a count, kinds without masks, and each byte of a plane, alone and with other faults; cell numbers beyond the count.
pub fn limits(sink: &mut dyn Sink, rng: &mut Rng) {
    let table = Table { masks: vec![1, 1], starts: vec![2, 0], lengths: vec![1, 1], store: b"a.b".to_vec() };
    let planes = [vec![1, 0], vec![0, 1], vec![1, 2], vec![1], vec![1, 0, 1], vec![]];
    let numbers: Vec<u64> = (0..70).chain(NUMBERS).chain((0..40).map(|_| a_number(rng))).collect();
    for kind in [fixed(0, 2, 0), fixed(1, 2, 1), ragged(0, 4, 0), ragged(1, 4, 0)] {
        let c = content(rng, kind, 2);
        let bad = damaged_content(rng, &c);
        let mut t = table.clone();
        t.masks.truncate(2 * kind[0] as usize);
        for &n in &numbers {
            for at in 0..5 {
                let mut k = kind;
                k[at] = n;
                let rights = rng.pick(&[0, 1, 2, 3, 4, 5].map(|i| &planes[i]));
                for shape in [vec![2], vec![0], vec![]] {
                    sink.ask(read(k, &shape, rights, &c));
                }
                sink.ask(read(k, &[2], rights, &bad));
                sink.ask(edit(set(k, &t, n % 3, &vec![1; kind[0] as usize], b"c"), rights));
            }
            for rights in &planes {
                sink.ask(read(kind, &[n], rights, &c));
                sink.ask(read(kind, &[2, n], rights, &c));
                for masks in [&[1][..], &[2], &[]] {
                    sink.ask(edit(set(kind, &t, n, masks, b"cccc"), rights));
                    let setting = set(kind, &t, 0, masks, b"c");
                    let TableSet { table, cell_masks, value, .. } = setting else { unreachable!() };
                    sink.ask(GuestEdit { kind, cells: n, rights: rights.clone(), table, cell: 0, cell_masks, value });
                }
            }
        }
        // each byte in each place, of the plane and of a hidden mask
        for byte in 0..=255 {
            for at in 0..2 {
                for other in 0..2 {
                    let mut rights = vec![other; 2];
                    rights[at] = byte;
                    sink.ask(read(kind, &[2], &rights, &c));
                    (0..3).for_each(|cell| sink.ask(edit(set(kind, &t, cell, &t.masks[..kind[0] as usize], b"cccc"), &rights)));
                    let mut masks = c.masks.clone();
                    masks.iter_mut().skip(at).take(1).for_each(|mask| *mask = byte);
                    sink.ask(read(kind, &[2], &[other, 1 - other], &Content { masks, ..c.clone() }));
                }
            }
        }
    }
}

/// Each size, and each depth, with cells around the blocks that a fast walk may have: none shown, all, and some.
pub fn blocks(sink: &mut dyn Sink, rng: &mut Rng) {
    let counts = [31, 32, 33, 63, 64, 65, 127, 128, 129, 239, 240, 241, 255, 256, 257, 479, 480, 511, 512, 513, 700];
    let mut kinds: Vec<[u64; 5]> = RAGGED.iter().map(|&(width, place)| ragged(0, width, place)).collect();
    kinds.extend((1..=64).map(|size| fixed(0, size, size % 2)));
    for kind in kinds {
        for depth in 1..=4 {
            let kind = [depth, kind[1], kind[2], kind[3], rng.below(2) as u64];
            let cells = rng.pick(&counts);
            let shape = shape_of(rng, cells);
            let c = content(rng, kind, cells);
            let full = Content { masks: vec![1; depth as usize * cells], ..c.clone() };
            for rights in [vec![0; cells], vec![1; cells], plane(rng, cells), plane(rng, cells)] {
                sink.ask(read(kind, &shape, &rights, &c));
                sink.ask(read(kind, &shape, &rights, &full));
            }
        }
    }
}

/// 65,536 cells and the longest store, and one more of each; 16,777,216 value bytes, and one more, which is no limit any more. 6 goes by what is shown.
pub fn large(sink: &mut dyn Sink, rng: &mut Rng) {
    for (shape, kind) in [
        (vec![65_536], fixed(4, 64, 1)),
        (vec![256, 256], fixed(1, 1, 0)),
        (vec![1, 65_536], fixed(2, 8, 0)),
        (vec![16, 16, 16, 16], ragged(4, 4, 0)),
        (vec![256, 256], ragged(1, 8, 1)),
    ] {
        let cells = 65_536;
        let c = content(rng, kind, cells);
        for rights in [vec![0; cells], vec![1; cells], plane(rng, cells)] {
            sink.ask(read(kind, &shape, &rights, &c));
        }
        let mut wrong = plane(rng, cells);
        wrong[cells - 1] = over_01(rng);
        sink.ask(read(kind, &shape, &wrong, &c));
        sink.ask(read(kind, &shape, &plane(rng, cells - 1), &c));
        sink.ask(read(kind, &[65_537], &plane(rng, cells + 1), &content(rng, kind, cells + 1)));
    }
    let kind = ragged(1, 8, 0);
    for bytes in [ONCE, ONCE + 1] {
        let end = bytes as u64;
        let c = Content { masks: vec![1, 1], values: rng.bytes(bytes), offsets: vec![0, 1, end] };
        for rights in [[1, 0], [0, 1], [0, 0], [1, 1], [1, 2]] {
            sink.ask(read(kind, &[2], &rights, &c));
        }
        sink.ask(read(kind, &[2], &[1, 0], &Content { masks: vec![1, 2], ..c.clone() }));
        sink.ask(read(kind, &[2], &[1, 0], &Content { offsets: vec![0, 1, end - 1], ..c }));
    }
    for size in [STORE, STORE + 1] {
        let table = Table { masks: vec![1, 1], starts: vec![size as u64 - 1, 0], lengths: vec![1, 1], store: rng.bytes(size) };
        for rights in [[0, 1], [1, 0], [1, 2]] {
            sink.ask(edit(set(kind, &table, 0, &[1], &vec![7; STORE - 1]), &rights));
            sink.ask(edit(set(kind, &table, 0, &[1], &vec![7; STORE]), &rights));
            sink.ask(edit(set(kind, &table, 2, &[1], b"c"), &rights));
            sink.ask(edit(set(kind, &table, 0, &[2], b"c"), &rights));
        }
    }
    for (cells, depth) in [(2_048, 1), (65_535, 1), (65_536, 4)] {
        let kind = ragged(depth, 8, 0);
        for gap in [0, 2] {
            let table = scattered(rng, kind, cells, gap, 5);
            let rights = plane(rng, cells);
            for _ in 0..3 {
                sink.ask(edit(a_setting(rng, kind, &table), &rights));
            }
            sink.ask(edit(a_setting(rng, kind, &table), &wrong_plane(rng, &rights)));
            edits(sink, rng, kind, table, 3);
        }
    }
}

/// A read, and an array and a table with faults, for planes that keep their rules and planes that do not.
pub fn random(sink: &mut dyn Sink, rng: &mut Rng) {
    let (depth, masks) = (if rng.once_in(12) { 0 } else { 1 + rng.below(4) }, rng.below(2) as u64);
    let kind = any_kind(rng, depth, masks);
    let shape = any_shape(rng);
    let c = content(rng, kind, cells_of(&shape));
    for _ in 0..2 {
        let rights = plane(rng, cells_of(&shape));
        ask_with_faults(sink, rng, read(kind, &shape, &rights, &c));
        let bad = damaged_content(rng, &c);
        sink.ask(read(kind, &shape, &rights, &bad));
        let wrong = wrong_plane(rng, &rights);
        sink.ask(read(kind, &shape, &wrong, &c));
        sink.ask(read(kind, &shape, &wrong, &bad));
        let (k, s) = (damaged_kind(rng, kind), damaged_numbers(rng, &shape));
        sink.ask(read(k, &shape, &rights, &c));
        sink.ask(read(kind, &s, &rights, &c));
    }

    let kind = any_table_kind(rng, depth);
    let cells = any_cells(rng);
    let (behind, gap) = (rng.pick(&[0, 1, 5, 30]), rng.pick(&[0, 1, 2, 9]));
    let table = made(rng, kind, cells, behind);
    edits(sink, rng, kind, table, 4);
    let table = scattered(rng, kind, cells, gap, behind);
    for _ in 0..2 {
        let rights = plane(rng, cells);
        let setting = a_setting(rng, kind, &table);
        sink.ask(edit(setting.clone(), &wrong_plane(rng, &rights)));
        for _ in 0..3 {
            let faulty = tables::faulty(rng, &setting);
            let rights = if rng.once_in(4) { wrong_plane(rng, &rights) } else { rights.clone() };
            sink.ask(edit(faulty, &rights));
        }
        let bad = broken(rng, depth, &table);
        let cell = rng.below(cells) as u64;
        let setting = TableSet { kind, cells: cells as u64, table: bad, cell, cell_masks: vec![1; depth], value: rng.bytes(1) };
        sink.ask(edit(setting, &rights));
    }
    edits(sink, rng, kind, table, 12);
    // no gap and nothing behind: what is given up is all that is free
    let full = scattered(rng, kind, cells, 0, 0);
    edits(sink, rng, kind, full, 4);
}
/// Edits one after the other by a guest, most of cells that are shown; each goes on from what the judge says.
fn edits(sink: &mut dyn Sink, rng: &mut Rng, kind: [u64; 5], mut table: Table, steps: usize) {
    let cells = table.starts.len();
    let mut rights = plane(rng, cells);
    for _ in 0..steps {
        let setting = a_setting(rng, kind, &table);
        if let TableSet { cell, .. } = &setting {
            rights[*cell as usize] |= u8::from(!rng.once_in(4));
        }
        let request = edit(setting, &rights);
        if let Ok(r) = request.judged() {
            table = Table { masks: r.masks, starts: r.offsets, lengths: r.lengths, store: r.values };
        }
        sink.ask(request);
    }
}
