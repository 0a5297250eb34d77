//! The judge under the C names of the archive. Built to libjudge.a it stands in for the archive, and its copies with one mistake each
//! are what `make teeth` feeds to the comparison.
//! A slice is a pointer and a count; NULL with 0 is an empty one. `lengths` is written on success only.
#![allow(clippy::too_many_arguments, clippy::missing_safety_doc)]

#[path = "lib.rs"]
mod judge;
use judge::*;

#[repr(C)]
#[derive(Clone, Copy)]
pub struct DpxKind {
    depth: u64,
    form: u64,
    size: u64,
    order: u64,
    mask: u64,
}
impl DpxKind {
    fn numbers(self) -> KindNumbers {
        [self.depth, self.form, self.size, self.order, self.mask]
    }
}

unsafe fn given<'a, T>(start: *const T, count: usize) -> &'a [T] {
    if count == 0 { &[] } else { unsafe { std::slice::from_raw_parts(start, count) } }
}

/// Result `from` into the lent output; what lies beyond keeps its contents.
unsafe fn put<T: Copy>(from: &[T], to: *mut T) {
    if !from.is_empty() {
        unsafe { std::ptr::copy_nonoverlapping(from.as_ptr(), to, from.len()) }
    }
}

fn number(answer: Result<(), Refusal>) -> u32 {
    match answer {
        Ok(()) => 0,
        Err(refusal) => refusal,
    }
}

/// Masks, values and offsets into three lent outputs.
unsafe fn deliver(
    array: Result<Array, Refusal>,
    masks: (*mut u8, usize),
    values: (*mut u8, usize),
    offsets: (*mut u64, usize),
    lengths: *mut u64,
) -> u32 {
    number((|| {
        let array = array?;
        let needs = [array.masks.len(), array.values.len(), array.offsets.len()];
        fits(&needs, &[masks.1, values.1, offsets.1])?;
        unsafe {
            put(&array.masks, masks.0);
            put(&array.values, values.0);
            put(&array.offsets, offsets.0);
            put(&needs.map(|need| need as u64), lengths);
        }
        Ok(())
    })())
}

/// Values and offsets into two lent outputs.
unsafe fn deliver_two(
    array: Result<Array, Refusal>,
    values: (*mut u8, usize),
    offsets: (*mut u64, usize),
    lengths: *mut u64,
) -> u32 {
    let mut three = [0; 3];
    let answer = unsafe { deliver(array, (std::ptr::null_mut(), 0), values, offsets, three.as_mut_ptr()) };
    if answer == 0 {
        unsafe { put(&three[1..], lengths) }
    }
    answer
}

/// Pieces end to end.
unsafe fn put_pieces(pieces: &[Value<'_>], to: *mut u8) {
    let mut at = 0;
    for piece in pieces {
        unsafe { put(piece, to.add(at)) };
        at += piece.len();
    }
}

/// Written bytes into one lent output.
unsafe fn deliver_bytes(pieces: Result<Vec<Value<'_>>, Refusal>, out: (*mut u8, usize), lengths: *mut u64) -> u32 {
    number((|| unsafe {
        let pieces = pieces?;
        let bytes = length_of(&pieces);
        fits(&[bytes], &[out.1])?;
        put_pieces(&pieces, out.0);
        put(&[bytes as u64], lengths);
        Ok(())
    })())
}

#[unsafe(no_mangle)]
pub unsafe extern "C" fn dpx_encode(
    kind: DpxKind,
    shape: *const u64,
    shape_count: usize,
    masks: *const u8,
    masks_count: usize,
    values: *const u8,
    values_count: usize,
    offsets: *const u64,
    offsets_count: usize,
    out: *mut u8,
    out_count: usize,
    lengths: *mut u64,
) -> u32 {
    unsafe {
        deliver_bytes(
            encode(
                kind.numbers(),
                given(shape, shape_count),
                given(masks, masks_count),
                given(values, values_count),
                given(offsets, offsets_count),
            ),
            (out, out_count),
            lengths,
        )
    }
}

#[unsafe(no_mangle)]
pub unsafe extern "C" fn dpx_decode(
    kind: DpxKind,
    shape: *const u64,
    shape_count: usize,
    bytes: *const u8,
    bytes_count: usize,
    out_masks: *mut u8,
    out_masks_count: usize,
    out_values: *mut u8,
    out_values_count: usize,
    out_offsets: *mut u64,
    out_offsets_count: usize,
    lengths: *mut u64,
) -> u32 {
    unsafe {
        deliver(
            decode(kind.numbers(), given(shape, shape_count), given(bytes, bytes_count)),
            (out_masks, out_masks_count),
            (out_values, out_values_count),
            (out_offsets, out_offsets_count),
            lengths,
        )
    }
}

#[unsafe(no_mangle)]
pub unsafe extern "C" fn dpx_decode_interleaved(
    cells: u64,
    bytes: *const u8,
    bytes_count: usize,
    out_values: *mut u8,
    out_values_count: usize,
    out_offsets: *mut u64,
    out_offsets_count: usize,
    lengths: *mut u64,
) -> u32 {
    unsafe {
        deliver_two(
            decode_interleaved(cells, given(bytes, bytes_count)),
            (out_values, out_values_count),
            (out_offsets, out_offsets_count),
            lengths,
        )
    }
}

#[unsafe(no_mangle)]
pub unsafe extern "C" fn dpx_encode_interleaved(
    kind: DpxKind,
    shape: *const u64,
    shape_count: usize,
    masks: *const u8,
    masks_count: usize,
    values: *const u8,
    values_count: usize,
    offsets: *const u64,
    offsets_count: usize,
    out: *mut u8,
    out_count: usize,
    lengths: *mut u64,
) -> u32 {
    unsafe {
        deliver_bytes(
            encode_interleaved(
                kind.numbers(),
                given(shape, shape_count),
                given(masks, masks_count),
                given(values, values_count),
                given(offsets, offsets_count),
            ),
            (out, out_count),
            lengths,
        )
    }
}

#[unsafe(no_mangle)]
pub unsafe extern "C" fn dpx_generate(
    kind: DpxKind,
    shape: *const u64,
    shape_count: usize,
    start: u32,
    out_masks: *mut u8,
    out_masks_count: usize,
    out_values: *mut u8,
    out_values_count: usize,
    out_offsets: *mut u64,
    out_offsets_count: usize,
    lengths: *mut u64,
) -> u32 {
    unsafe {
        deliver(
            generate(kind.numbers(), given(shape, shape_count), start),
            (out_masks, out_masks_count),
            (out_values, out_values_count),
            (out_offsets, out_offsets_count),
            lengths,
        )
    }
}

#[unsafe(no_mangle)]
pub unsafe extern "C" fn dpx_extract(
    kind: DpxKind,
    shape: *const u64,
    shape_count: usize,
    subset: *const u64,
    subset_count: usize,
    masks: *const u8,
    masks_count: usize,
    values: *const u8,
    values_count: usize,
    offsets: *const u64,
    offsets_count: usize,
    out_masks: *mut u8,
    out_masks_count: usize,
    out_values: *mut u8,
    out_values_count: usize,
    out_offsets: *mut u64,
    out_offsets_count: usize,
    lengths: *mut u64,
) -> u32 {
    unsafe {
        deliver(
            extract(
                kind.numbers(),
                given(shape, shape_count),
                given(subset, subset_count),
                given(masks, masks_count),
                given(values, values_count),
                given(offsets, offsets_count),
            ),
            (out_masks, out_masks_count),
            (out_values, out_values_count),
            (out_offsets, out_offsets_count),
            lengths,
        )
    }
}

#[unsafe(no_mangle)]
pub unsafe extern "C" fn dpx_merge(
    kind: DpxKind,
    shape: *const u64,
    shape_count: usize,
    subsets: *const u64,
    subsets_count: usize,
    masks: *const u8,
    masks_count: usize,
    values: *const u8,
    values_count: usize,
    offsets: *const u64,
    offsets_count: usize,
    out_masks: *mut u8,
    out_masks_count: usize,
    out_values: *mut u8,
    out_values_count: usize,
    out_offsets: *mut u64,
    out_offsets_count: usize,
    lengths: *mut u64,
) -> u32 {
    unsafe {
        deliver(
            merge(
                kind.numbers(),
                given(shape, shape_count),
                given(subsets, subsets_count),
                given(masks, masks_count),
                given(values, values_count),
                given(offsets, offsets_count),
            ),
            (out_masks, out_masks_count),
            (out_values, out_values_count),
            (out_offsets, out_offsets_count),
            lengths,
        )
    }
}

#[unsafe(no_mangle)]
pub unsafe extern "C" fn dpx_partial_decode(
    width: u64,
    place: u64,
    shape: *const u64,
    shape_count: usize,
    subset: *const u64,
    subset_count: usize,
    bytes: *const u8,
    bytes_count: usize,
    out_values: *mut u8,
    out_values_count: usize,
    out_offsets: *mut u64,
    out_offsets_count: usize,
    lengths: *mut u64,
) -> u32 {
    unsafe {
        deliver_two(
            partial_decode(width, place, given(shape, shape_count), given(subset, subset_count), given(bytes, bytes_count)),
            (out_values, out_values_count),
            (out_offsets, out_offsets_count),
            lengths,
        )
    }
}

#[unsafe(no_mangle)]
pub unsafe extern "C" fn dpx_reverse_endianness(size: u64, bytes: *mut u8, bytes_count: usize, lengths: *mut u64) -> u32 {
    number((|| unsafe {
        let (reversed, whole) = reverse_endianness(size, given(bytes, bytes_count))?;
        put(&reversed, bytes);
        put(&[whole], lengths);
        Ok(())
    })())
}

#[unsafe(no_mangle)]
pub unsafe extern "C" fn dpx_subset_cells(
    shape: *const u64,
    shape_count: usize,
    subset: *const u64,
    subset_count: usize,
    out_cells: *mut u64,
    out_cells_count: usize,
    lengths: *mut u64,
) -> u32 {
    number((|| unsafe {
        let cells = subset_cells(given(shape, shape_count), given(subset, subset_count))?;
        fits(&[cells.len()], &[out_cells_count])?;
        put(&cells, out_cells);
        put(&[cells.len() as u64], lengths);
        Ok(())
    })())
}

#[unsafe(no_mangle)]
pub unsafe extern "C" fn dpx_table_make(
    kind: DpxKind,
    cells: u64,
    masks: *const u8,
    masks_count: usize,
    values: *const u8,
    values_count: usize,
    offsets: *const u64,
    offsets_count: usize,
    out_masks: *mut u8,
    out_masks_count: usize,
    out_starts: *mut u64,
    out_starts_count: usize,
    out_cell_lengths: *mut u64,
    out_cell_lengths_count: usize,
    store: *mut u8,
    store_count: usize,
    lengths: *mut u64,
) -> u32 {
    number((|| unsafe {
        let table = table_make(
            kind.numbers(),
            cells,
            given(masks, masks_count),
            given(values, values_count),
            given(offsets, offsets_count),
            store_count as u64,
        )?;
        let needs = [table.masks.len(), table.starts.len(), table.lengths.len(), table.store.len()];
        fits(&needs, &[out_masks_count, out_starts_count, out_cell_lengths_count, store_count])?;
        put(&table.masks, out_masks);
        put(&table.starts, out_starts);
        put(&table.lengths, out_cell_lengths);
        put(&table.store, store);
        put(&needs.map(|need| need as u64), lengths);
        Ok(())
    })())
}

/// A table that is read, or edited in place.
unsafe fn table_of(
    masks: (*const u8, usize),
    starts: (*const u64, usize),
    lengths: (*const u64, usize),
    store: (*const u8, usize),
) -> Table {
    unsafe {
        Table {
            masks: given(masks.0, masks.1).to_vec(),
            starts: given(starts.0, starts.1).to_vec(),
            lengths: given(lengths.0, lengths.1).to_vec(),
            store: given(store.0, store.1).to_vec(),
        }
    }
}

#[unsafe(no_mangle)]
pub unsafe extern "C" fn dpx_table_read(
    kind: DpxKind,
    cells: u64,
    masks: *const u8,
    masks_count: usize,
    starts: *const u64,
    starts_count: usize,
    cell_lengths: *const u64,
    cell_lengths_count: usize,
    store: *const u8,
    store_count: usize,
    out_masks: *mut u8,
    out_masks_count: usize,
    out_values: *mut u8,
    out_values_count: usize,
    out_offsets: *mut u64,
    out_offsets_count: usize,
    lengths: *mut u64,
) -> u32 {
    unsafe {
        let table =
            table_of((masks, masks_count), (starts, starts_count), (cell_lengths, cell_lengths_count), (store, store_count));
        deliver(
            table_read(kind.numbers(), cells, &table),
            (out_masks, out_masks_count),
            (out_values, out_values_count),
            (out_offsets, out_offsets_count),
            lengths,
        )
    }
}

/// What a setting leaves, into the lists that were lent in place.
unsafe fn edit(
    masks: (*mut u8, usize),
    starts: (*mut u64, usize),
    lengths: (*mut u64, usize),
    store: (*mut u8, usize),
    set: impl FnOnce(&Table) -> Result<Table, Refusal>,
) -> u32 {
    number((|| unsafe {
        let table = table_of((masks.0, masks.1), (starts.0, starts.1), (lengths.0, lengths.1), (store.0, store.1));
        let after = set(&table)?;
        put(&after.masks, masks.0);
        put(&after.starts, starts.0);
        put(&after.lengths, lengths.0);
        put(&after.store, store.0);
        Ok(())
    })())
}

#[unsafe(no_mangle)]
pub unsafe extern "C" fn dpx_table_set(
    kind: DpxKind,
    cells: u64,
    masks: *mut u8,
    masks_count: usize,
    starts: *mut u64,
    starts_count: usize,
    cell_lengths: *mut u64,
    cell_lengths_count: usize,
    store: *mut u8,
    store_count: usize,
    cell: u64,
    cell_masks: *const u8,
    cell_masks_count: usize,
    value: *const u8,
    value_count: usize,
) -> u32 {
    unsafe {
        let (cell_masks, value) = (given(cell_masks, cell_masks_count), given(value, value_count));
        edit((masks, masks_count), (starts, starts_count), (cell_lengths, cell_lengths_count), (store, store_count), |table| {
            table_set(kind.numbers(), cells, table, cell, cell_masks, value)
        })
    }
}

#[unsafe(no_mangle)]
pub unsafe extern "C" fn dpx_table_pack(
    kind: DpxKind,
    cells: u64,
    masks: *const u8,
    masks_count: usize,
    starts: *mut u64,
    starts_count: usize,
    cell_lengths: *const u64,
    cell_lengths_count: usize,
    store: *mut u8,
    store_count: usize,
    most: u64,
    lengths: *mut u64,
) -> u32 {
    number((|| unsafe {
        let table =
            table_of((masks, masks_count), (starts, starts_count), (cell_lengths, cell_lengths_count), (store, store_count));
        let (after, moved) = table_pack(kind.numbers(), cells, &table, most)?;
        put(&after.starts, starts);
        put(&after.store, store);
        put(&[moved], lengths);
        Ok(())
    })())
}

#[unsafe(no_mangle)]
pub unsafe extern "C" fn dpx_table_preview(
    kind: DpxKind,
    cells: u64,
    masks: *const u8,
    masks_count: usize,
    starts: *const u64,
    starts_count: usize,
    cell_lengths: *const u64,
    cell_lengths_count: usize,
    store: *const u8,
    store_count: usize,
    cell: u64,
    cell_masks: *const u8,
    cell_masks_count: usize,
    value: *const u8,
    value_count: usize,
    lengths: *mut u64,
) -> u32 {
    number((|| unsafe {
        let table =
            table_of((masks, masks_count), (starts, starts_count), (cell_lengths, cell_lengths_count), (store, store_count));
        let (cell_masks, value) = (given(cell_masks, cell_masks_count), given(value, value_count));
        let foreseen = table_preview(kind.numbers(), cells, &table, cell, cell_masks, value)?;
        put(&foreseen, lengths);
        Ok(())
    })())
}

#[unsafe(no_mangle)]
pub unsafe extern "C" fn dpx_guest_read(
    kind: DpxKind,
    shape: *const u64,
    shape_count: usize,
    rights: *const u8,
    rights_count: usize,
    masks: *const u8,
    masks_count: usize,
    values: *const u8,
    values_count: usize,
    offsets: *const u64,
    offsets_count: usize,
    out_masks: *mut u8,
    out_masks_count: usize,
    out_values: *mut u8,
    out_values_count: usize,
    out_offsets: *mut u64,
    out_offsets_count: usize,
    lengths: *mut u64,
) -> u32 {
    unsafe {
        let seen = guest_read(
            kind.numbers(),
            given(shape, shape_count),
            given(rights, rights_count),
            given(masks, masks_count),
            given(values, values_count),
            given(offsets, offsets_count),
        );
        deliver(seen, (out_masks, out_masks_count), (out_values, out_values_count), (out_offsets, out_offsets_count), lengths)
    }
}

#[unsafe(no_mangle)]
pub unsafe extern "C" fn dpx_guest_edit(
    kind: DpxKind,
    cells: u64,
    rights: *const u8,
    rights_count: usize,
    masks: *mut u8,
    masks_count: usize,
    starts: *mut u64,
    starts_count: usize,
    cell_lengths: *mut u64,
    cell_lengths_count: usize,
    store: *mut u8,
    store_count: usize,
    cell: u64,
    cell_masks: *const u8,
    cell_masks_count: usize,
    value: *const u8,
    value_count: usize,
) -> u32 {
    unsafe {
        let rights = given(rights, rights_count);
        let (cell_masks, value) = (given(cell_masks, cell_masks_count), given(value, value_count));
        edit((masks, masks_count), (starts, starts_count), (cell_lengths, cell_lengths_count), (store, store_count), |table| {
            guest_edit(kind.numbers(), cells, rights, table, cell, cell_masks, value)
        })
    }
}

#[unsafe(no_mangle)]
pub unsafe extern "C" fn dpx_arrangement(
    depth: u64,
    cells: u64,
    number: u64,
    out_masks: *mut u8,
    out_masks_count: usize,
    out_values: *mut u8,
    out_values_count: usize,
    out_offsets: *mut u64,
    out_offsets_count: usize,
    lengths: *mut u64,
) -> u32 {
    unsafe {
        deliver(
            arrangement(depth, cells, number),
            (out_masks, out_masks_count),
            (out_values, out_values_count),
            (out_offsets, out_offsets_count),
            lengths,
        )
    }
}

#[unsafe(no_mangle)]
pub unsafe extern "C" fn dpx_migrate_step(
    shape: *const u64,
    shape_count: usize,
    subsets: *const u64,
    subsets_count: usize,
    old_lengths: *const u64,
    old_lengths_count: usize,
    old: *const u8,
    old_count: usize,
    moved: u64,
    moved_lengths: *mut u64,
    moved_lengths_count: usize,
    area: *mut u8,
    area_count: usize,
    lengths: *mut u64,
) -> u32 {
    number((|| unsafe {
        let live = Live {
            shape: given(shape, shape_count),
            subsets: given(subsets, subsets_count),
            old_lengths: given(old_lengths, old_lengths_count),
            old: given(old, old_count),
            moved,
            moved_lengths: given(moved_lengths, moved_lengths_count),
            area: given(area, area_count),
        };
        let Some(step) = migrate_step(&live)? else {
            put(&[0, moved], lengths);
            return Ok(());
        };
        let entered = length_of(&step.string) as u64;
        put_pieces(&step.string, area.add(step.at));
        put(&[entered], moved_lengths.add(moved as usize));
        put(&[entered, moved + 1], lengths);
        Ok(())
    })())
}

#[unsafe(no_mangle)]
pub unsafe extern "C" fn dpx_migrate_extract(
    shape: *const u64,
    shape_count: usize,
    subsets: *const u64,
    subsets_count: usize,
    subset: *const u64,
    subset_count: usize,
    old_lengths: *const u64,
    old_lengths_count: usize,
    old: *const u8,
    old_count: usize,
    moved: u64,
    moved_lengths: *const u64,
    moved_lengths_count: usize,
    area: *const u8,
    area_count: usize,
    out_values: *mut u8,
    out_values_count: usize,
    out_offsets: *mut u64,
    out_offsets_count: usize,
    lengths: *mut u64,
) -> u32 {
    unsafe {
        let live = Live {
            shape: given(shape, shape_count),
            subsets: given(subsets, subsets_count),
            old_lengths: given(old_lengths, old_lengths_count),
            old: given(old, old_count),
            moved,
            moved_lengths: given(moved_lengths, moved_lengths_count),
            area: given(area, area_count),
        };
        let cut = migrate_extract(&live, given(subset, subset_count));
        deliver_two(cut, (out_values, out_values_count), (out_offsets, out_offsets_count), lengths)
    }
}
