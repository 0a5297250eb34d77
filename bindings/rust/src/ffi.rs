//! The archive's functions over slices. The only unsafe code of this crate.
#![allow(unsafe_code)]

use crate::{Kind, Lent, LiveTable, LiveTableRef, MaskForm, Order, Place, Room, TableMut, TableRef, Values, Width};

/// `dpx_kind` of durpaxeta.h.
#[repr(C)]
#[derive(Clone, Copy)]
struct RawKind {
    depth: u64,
    form: u64,
    size: u64,
    order: u64,
    mask: u64,
}

impl From<Kind> for RawKind {
    fn from(kind: Kind) -> RawKind {
        let (form, size, order) = match kind.values {
            Values::Fixed { size, order } => (0, size, number_of_order(order)),
            Values::Ragged { width, place } => (1, number_of_width(width), number_of_place(place)),
        };
        RawKind { depth: kind.depth, form, size, order, mask: number_of_masks(kind.masks) }
    }
}

fn number_of_masks(masks: MaskForm) -> u64 {
    match masks {
        MaskForm::Bytes => 0,
        MaskForm::Packed => 1,
    }
}

fn number_of_order(order: Order) -> u64 {
    match order {
        Order::Little => 0,
        Order::Big => 1,
    }
}

fn number_of_width(width: Width) -> u64 {
    match width {
        Width::Four => 4,
        Width::Eight => 8,
    }
}

fn number_of_place(place: Place) -> u64 {
    match place {
        Place::Start => 0,
        Place::End => 1,
    }
}

extern "C" {
    fn dpx_encode(
        kind: RawKind,
        shape: *const u64,
        shape_len: usize,
        masks: *const u8,
        masks_len: usize,
        values: *const u8,
        values_len: usize,
        offsets: *const u64,
        offsets_len: usize,
        out: *mut u8,
        out_len: usize,
        lengths: *mut u64,
    ) -> u32;

    fn dpx_decode(
        kind: RawKind,
        shape: *const u64,
        shape_len: usize,
        bytes: *const u8,
        bytes_len: usize,
        out_masks: *mut u8,
        out_masks_len: usize,
        out_values: *mut u8,
        out_values_len: usize,
        out_offsets: *mut u64,
        out_offsets_len: usize,
        lengths: *mut u64,
    ) -> u32;

    fn dpx_decode_interleaved(
        cells: u64,
        bytes: *const u8,
        bytes_len: usize,
        out_values: *mut u8,
        out_values_len: usize,
        out_offsets: *mut u64,
        out_offsets_len: usize,
        lengths: *mut u64,
    ) -> u32;

    fn dpx_encode_interleaved(
        kind: RawKind,
        shape: *const u64,
        shape_len: usize,
        masks: *const u8,
        masks_len: usize,
        values: *const u8,
        values_len: usize,
        offsets: *const u64,
        offsets_len: usize,
        out: *mut u8,
        out_len: usize,
        lengths: *mut u64,
    ) -> u32;

    fn dpx_generate(
        kind: RawKind,
        shape: *const u64,
        shape_len: usize,
        start: u32,
        out_masks: *mut u8,
        out_masks_len: usize,
        out_values: *mut u8,
        out_values_len: usize,
        out_offsets: *mut u64,
        out_offsets_len: usize,
        lengths: *mut u64,
    ) -> u32;

    fn dpx_arrangement(
        depth: u64,
        cells: u64,
        number: u64,
        out_masks: *mut u8,
        out_masks_len: usize,
        out_values: *mut u8,
        out_values_len: usize,
        out_offsets: *mut u64,
        out_offsets_len: usize,
        lengths: *mut u64,
    ) -> u32;

    fn dpx_extract(
        kind: RawKind,
        shape: *const u64,
        shape_len: usize,
        subset: *const u64,
        subset_len: usize,
        masks: *const u8,
        masks_len: usize,
        values: *const u8,
        values_len: usize,
        offsets: *const u64,
        offsets_len: usize,
        out_masks: *mut u8,
        out_masks_len: usize,
        out_values: *mut u8,
        out_values_len: usize,
        out_offsets: *mut u64,
        out_offsets_len: usize,
        lengths: *mut u64,
    ) -> u32;

    fn dpx_merge(
        kind: RawKind,
        shape: *const u64,
        shape_len: usize,
        subsets: *const u64,
        subsets_len: usize,
        masks: *const u8,
        masks_len: usize,
        values: *const u8,
        values_len: usize,
        offsets: *const u64,
        offsets_len: usize,
        out_masks: *mut u8,
        out_masks_len: usize,
        out_values: *mut u8,
        out_values_len: usize,
        out_offsets: *mut u64,
        out_offsets_len: usize,
        lengths: *mut u64,
    ) -> u32;

    fn dpx_partial_decode(
        width: u64,
        place: u64,
        shape: *const u64,
        shape_len: usize,
        subset: *const u64,
        subset_len: usize,
        bytes: *const u8,
        bytes_len: usize,
        out_values: *mut u8,
        out_values_len: usize,
        out_offsets: *mut u64,
        out_offsets_len: usize,
        lengths: *mut u64,
    ) -> u32;

    fn dpx_reverse_endianness(size: u64, bytes: *mut u8, bytes_len: usize, lengths: *mut u64) -> u32;

    fn dpx_subset_cells(
        shape: *const u64,
        shape_len: usize,
        subset: *const u64,
        subset_len: usize,
        out_cells: *mut u64,
        out_cells_len: usize,
        lengths: *mut u64,
    ) -> u32;

    fn dpx_table_make(
        kind: RawKind,
        cells: u64,
        masks: *const u8,
        masks_len: usize,
        values: *const u8,
        values_len: usize,
        offsets: *const u64,
        offsets_len: usize,
        out_masks: *mut u8,
        out_masks_len: usize,
        out_starts: *mut u64,
        out_starts_len: usize,
        out_cell_lengths: *mut u64,
        out_cell_lengths_len: usize,
        store: *mut u8,
        store_len: usize,
        lengths: *mut u64,
    ) -> u32;

    fn dpx_table_read(
        kind: RawKind,
        cells: u64,
        masks: *const u8,
        masks_len: usize,
        starts: *const u64,
        starts_len: usize,
        cell_lengths: *const u64,
        cell_lengths_len: usize,
        store: *const u8,
        store_len: usize,
        out_masks: *mut u8,
        out_masks_len: usize,
        out_values: *mut u8,
        out_values_len: usize,
        out_offsets: *mut u64,
        out_offsets_len: usize,
        lengths: *mut u64,
    ) -> u32;

    fn dpx_table_set(
        kind: RawKind,
        cells: u64,
        masks: *mut u8,
        masks_len: usize,
        starts: *mut u64,
        starts_len: usize,
        cell_lengths: *mut u64,
        cell_lengths_len: usize,
        store: *mut u8,
        store_len: usize,
        cell: u64,
        cell_masks: *const u8,
        cell_masks_len: usize,
        value: *const u8,
        value_len: usize,
    ) -> u32;

    fn dpx_table_pack(
        kind: RawKind,
        cells: u64,
        masks: *const u8,
        masks_len: usize,
        starts: *mut u64,
        starts_len: usize,
        cell_lengths: *const u64,
        cell_lengths_len: usize,
        store: *mut u8,
        store_len: usize,
        most: u64,
        lengths: *mut u64,
    ) -> u32;

    fn dpx_table_preview(
        kind: RawKind,
        cells: u64,
        masks: *const u8,
        masks_len: usize,
        starts: *const u64,
        starts_len: usize,
        cell_lengths: *const u64,
        cell_lengths_len: usize,
        store: *const u8,
        store_len: usize,
        cell: u64,
        cell_masks: *const u8,
        cell_masks_len: usize,
        value: *const u8,
        value_len: usize,
        lengths: *mut u64,
    ) -> u32;

    fn dpx_guest_read(
        kind: RawKind,
        shape: *const u64,
        shape_len: usize,
        rights: *const u8,
        rights_len: usize,
        masks: *const u8,
        masks_len: usize,
        values: *const u8,
        values_len: usize,
        offsets: *const u64,
        offsets_len: usize,
        out_masks: *mut u8,
        out_masks_len: usize,
        out_values: *mut u8,
        out_values_len: usize,
        out_offsets: *mut u64,
        out_offsets_len: usize,
        lengths: *mut u64,
    ) -> u32;

    fn dpx_guest_edit(
        kind: RawKind,
        cells: u64,
        rights: *const u8,
        rights_len: usize,
        masks: *mut u8,
        masks_len: usize,
        starts: *mut u64,
        starts_len: usize,
        cell_lengths: *mut u64,
        cell_lengths_len: usize,
        store: *mut u8,
        store_len: usize,
        cell: u64,
        cell_masks: *const u8,
        cell_masks_len: usize,
        value: *const u8,
        value_len: usize,
    ) -> u32;

    fn dpx_migrate_step(
        shape: *const u64,
        shape_len: usize,
        subsets: *const u64,
        subsets_len: usize,
        old_lengths: *const u64,
        old_lengths_len: usize,
        old: *const u8,
        old_len: usize,
        moved: u64,
        moved_lengths: *mut u64,
        moved_lengths_len: usize,
        area: *mut u8,
        area_len: usize,
        lengths: *mut u64,
    ) -> u32;

    fn dpx_migrate_extract(
        shape: *const u64,
        shape_len: usize,
        subsets: *const u64,
        subsets_len: usize,
        subset: *const u64,
        subset_len: usize,
        old_lengths: *const u64,
        old_lengths_len: usize,
        old: *const u8,
        old_len: usize,
        moved: u64,
        moved_lengths: *const u64,
        moved_lengths_len: usize,
        area: *const u8,
        area_len: usize,
        out_values: *mut u8,
        out_values_len: usize,
        out_offsets: *mut u64,
        out_offsets_len: usize,
        lengths: *mut u64,
    ) -> u32;
}

/// Content handed over.
#[derive(Clone, Copy)]
pub struct Content<'a> {
    pub masks: &'a [u8],
    pub values: &'a [u8],
    pub offsets: &'a [u64],
}

/// The answer: what success gives, or the number of the refusal.
pub type Answer<T> = Result<T, u32>;

fn answer(number: u32) -> Answer<()> {
    match number {
        0 => Ok(()),
        _ => Err(number),
    }
}

/// The lengths that success named.
fn room(masks: u64, values: u64, offsets: u64) -> Room {
    Room { masks: masks as usize, values: values as usize, offsets: offsets as usize }
}

// SAFETY of all calls below: each pointer and count come from one slice that lives through the call; outputs are borrowed
// mutably, so they overlap nothing; `lengths` has the elements that durpaxeta.h asks for; the archive keeps no pointer.

/// An array to bytes, by a call that takes it as `dpx_encode` does.
macro_rules! write_array {
    ($call:ident, $kind:expr, $shape:expr, $content:expr, $out:expr) => {{
        let (shape, content, out) = ($shape, $content, $out);
        let mut lengths = [0; 1];
        let number = unsafe {
            $call(
                $kind.into(),
                shape.as_ptr(),
                shape.len(),
                content.masks.as_ptr(),
                content.masks.len(),
                content.values.as_ptr(),
                content.values.len(),
                content.offsets.as_ptr(),
                content.offsets.len(),
                out.as_mut_ptr(),
                out.len(),
                lengths.as_mut_ptr(),
            )
        };
        answer(number)?;
        Ok(lengths[0] as usize)
    }};
}

/// An array to an array, by a call that takes it as `dpx_extract` does: what else it takes is one slice, behind the shape.
macro_rules! read_array {
    ($call:ident, $kind:expr, $shape:expr, $by:expr, $content:expr, $out:expr) => {{
        let (shape, by, content, out) = ($shape, $by, $content, $out);
        let mut lengths = [0; 3];
        let number = unsafe {
            $call(
                $kind.into(),
                shape.as_ptr(),
                shape.len(),
                by.as_ptr(),
                by.len(),
                content.masks.as_ptr(),
                content.masks.len(),
                content.values.as_ptr(),
                content.values.len(),
                content.offsets.as_ptr(),
                content.offsets.len(),
                out.masks.as_mut_ptr(),
                out.masks.len(),
                out.values.as_mut_ptr(),
                out.values.len(),
                out.offsets.as_mut_ptr(),
                out.offsets.len(),
                lengths.as_mut_ptr(),
            )
        };
        answer(number)?;
        Ok(room(lengths[0], lengths[1], lengths[2]))
    }};
}

/// Sets a cell in place, by a call that takes a table as `dpx_table_set` does; `rights` come behind the count of cells.
macro_rules! set_cell {
    ($call:ident, $table:expr, [$($rights:expr)?], $cell:expr, $masks:expr, $value:expr) => {{
        let (table, cell, cell_masks, value) = ($table, $cell, $masks, $value);
        answer(unsafe {
            $call(
                table.kind.into(),
                table.starts.len() as u64,
                $($rights.as_ptr(), $rights.len(),)?
                table.masks.as_mut_ptr(),
                table.masks.len(),
                table.starts.as_mut_ptr(),
                table.starts.len(),
                table.lengths.as_mut_ptr(),
                table.lengths.len(),
                table.store.as_mut_ptr(),
                table.store.len(),
                cell,
                cell_masks.as_ptr(),
                cell_masks.len(),
                value.as_ptr(),
                value.len(),
            )
        })
    }};
}

pub fn encode(kind: Kind, shape: &[u64], content: Content<'_>, out: &mut [u8]) -> Answer<usize> {
    write_array!(dpx_encode, kind, shape, content, out)
}

pub fn decode(kind: Kind, shape: &[u64], bytes: &[u8], out: &mut Lent<'_>) -> Answer<Room> {
    let mut lengths = [0; 3];
    let number = unsafe {
        dpx_decode(
            kind.into(),
            shape.as_ptr(),
            shape.len(),
            bytes.as_ptr(),
            bytes.len(),
            out.masks.as_mut_ptr(),
            out.masks.len(),
            out.values.as_mut_ptr(),
            out.values.len(),
            out.offsets.as_mut_ptr(),
            out.offsets.len(),
            lengths.as_mut_ptr(),
        )
    };
    answer(number)?;
    Ok(room(lengths[0], lengths[1], lengths[2]))
}

pub fn decode_interleaved(cells: u64, bytes: &[u8], out: &mut Lent<'_>) -> Answer<Room> {
    let mut lengths = [0; 2];
    let number = unsafe {
        dpx_decode_interleaved(
            cells,
            bytes.as_ptr(),
            bytes.len(),
            out.values.as_mut_ptr(),
            out.values.len(),
            out.offsets.as_mut_ptr(),
            out.offsets.len(),
            lengths.as_mut_ptr(),
        )
    };
    answer(number)?;
    Ok(room(0, lengths[0], lengths[1]))
}

pub fn encode_interleaved(kind: Kind, shape: &[u64], content: Content<'_>, out: &mut [u8]) -> Answer<usize> {
    write_array!(dpx_encode_interleaved, kind, shape, content, out)
}

pub fn generate(kind: Kind, shape: &[u64], start: u32, out: &mut Lent<'_>) -> Answer<Room> {
    let mut lengths = [0; 3];
    let number = unsafe {
        dpx_generate(
            kind.into(),
            shape.as_ptr(),
            shape.len(),
            start,
            out.masks.as_mut_ptr(),
            out.masks.len(),
            out.values.as_mut_ptr(),
            out.values.len(),
            out.offsets.as_mut_ptr(),
            out.offsets.len(),
            lengths.as_mut_ptr(),
        )
    };
    answer(number)?;
    Ok(room(lengths[0], lengths[1], lengths[2]))
}

pub fn arrangement(depth: u64, cells: u64, number: u64, out: &mut Lent<'_>) -> Answer<Room> {
    let mut lengths = [0; 3];
    let refusal = unsafe {
        dpx_arrangement(
            depth,
            cells,
            number,
            out.masks.as_mut_ptr(),
            out.masks.len(),
            out.values.as_mut_ptr(),
            out.values.len(),
            out.offsets.as_mut_ptr(),
            out.offsets.len(),
            lengths.as_mut_ptr(),
        )
    };
    answer(refusal)?;
    Ok(room(lengths[0], lengths[1], lengths[2]))
}

pub fn extract(kind: Kind, shape: &[u64], subset: &[u64], content: Content<'_>, out: &mut Lent<'_>) -> Answer<Room> {
    read_array!(dpx_extract, kind, shape, subset, content, out)
}

pub fn merge(kind: Kind, shape: &[u64], subsets: &[u64], content: Content<'_>, out: &mut Lent<'_>) -> Answer<Room> {
    read_array!(dpx_merge, kind, shape, subsets, content, out)
}

pub fn partial_decode(
    width: Width,
    place: Place,
    shape: &[u64],
    subset: &[u64],
    bytes: &[u8],
    out: &mut Lent<'_>,
) -> Answer<Room> {
    let mut lengths = [0; 2];
    let number = unsafe {
        dpx_partial_decode(
            number_of_width(width),
            number_of_place(place),
            shape.as_ptr(),
            shape.len(),
            subset.as_ptr(),
            subset.len(),
            bytes.as_ptr(),
            bytes.len(),
            out.values.as_mut_ptr(),
            out.values.len(),
            out.offsets.as_mut_ptr(),
            out.offsets.len(),
            lengths.as_mut_ptr(),
        )
    };
    answer(number)?;
    Ok(room(0, lengths[0], lengths[1]))
}

pub fn reverse_endianness(size: u64, bytes: &mut [u8]) -> Answer<usize> {
    let mut lengths = [0; 1];
    answer(unsafe { dpx_reverse_endianness(size, bytes.as_mut_ptr(), bytes.len(), lengths.as_mut_ptr()) })?;
    Ok(lengths[0] as usize)
}

pub fn subset_cells(shape: &[u64], subset: &[u64], cells: &mut [u64]) -> Answer<usize> {
    let mut lengths = [0; 1];
    answer(unsafe {
        dpx_subset_cells(
            shape.as_ptr(),
            shape.len(),
            subset.as_ptr(),
            subset.len(),
            cells.as_mut_ptr(),
            cells.len(),
            lengths.as_mut_ptr(),
        )
    })?;
    Ok(lengths[0] as usize)
}

/// Gives the lengths of masks, starts, lengths and store.
pub fn table_make(cells: u64, content: Content<'_>, out: &mut TableMut<'_>) -> Answer<[usize; 4]> {
    let mut lengths = [0; 4];
    let number = unsafe {
        dpx_table_make(
            out.kind.into(),
            cells,
            content.masks.as_ptr(),
            content.masks.len(),
            content.values.as_ptr(),
            content.values.len(),
            content.offsets.as_ptr(),
            content.offsets.len(),
            out.masks.as_mut_ptr(),
            out.masks.len(),
            out.starts.as_mut_ptr(),
            out.starts.len(),
            out.lengths.as_mut_ptr(),
            out.lengths.len(),
            out.store.as_mut_ptr(),
            out.store.len(),
            lengths.as_mut_ptr(),
        )
    };
    answer(number)?;
    Ok(lengths.map(|length: u64| length as usize))
}

pub fn table_read(cells: u64, table: TableRef<'_>, out: &mut Lent<'_>) -> Answer<Room> {
    let mut lengths = [0; 3];
    let number = unsafe {
        dpx_table_read(
            table.kind.into(),
            cells,
            table.masks.as_ptr(),
            table.masks.len(),
            table.starts.as_ptr(),
            table.starts.len(),
            table.lengths.as_ptr(),
            table.lengths.len(),
            table.store.as_ptr(),
            table.store.len(),
            out.masks.as_mut_ptr(),
            out.masks.len(),
            out.values.as_mut_ptr(),
            out.values.len(),
            out.offsets.as_mut_ptr(),
            out.offsets.len(),
            lengths.as_mut_ptr(),
        )
    };
    answer(number)?;
    Ok(room(lengths[0], lengths[1], lengths[2]))
}

pub fn table_set(table: &mut TableMut<'_>, cell: u64, cell_masks: &[u8], value: &[u8]) -> Answer<()> {
    set_cell!(dpx_table_set, table, [], cell, cell_masks, value)
}

pub fn table_pack(table: &mut TableMut<'_>, most: u64) -> Answer<usize> {
    let mut lengths = [0; 1];
    answer(unsafe {
        dpx_table_pack(
            table.kind.into(),
            table.starts.len() as u64,
            table.masks.as_ptr(),
            table.masks.len(),
            table.starts.as_mut_ptr(),
            table.starts.len(),
            table.lengths.as_ptr(),
            table.lengths.len(),
            table.store.as_mut_ptr(),
            table.store.len(),
            most,
            lengths.as_mut_ptr(),
        )
    })?;
    Ok(lengths[0] as usize)
}

/// Gives the sum of lengths and how many cells are not packed.
pub fn table_preview(table: TableRef<'_>, cell: u64, cell_masks: &[u8], value: &[u8]) -> Answer<[u64; 2]> {
    let mut lengths = [0; 2];
    answer(unsafe {
        dpx_table_preview(
            table.kind.into(),
            table.starts.len() as u64,
            table.masks.as_ptr(),
            table.masks.len(),
            table.starts.as_ptr(),
            table.starts.len(),
            table.lengths.as_ptr(),
            table.lengths.len(),
            table.store.as_ptr(),
            table.store.len(),
            cell,
            cell_masks.as_ptr(),
            cell_masks.len(),
            value.as_ptr(),
            value.len(),
            lengths.as_mut_ptr(),
        )
    })?;
    Ok(lengths)
}

pub fn guest_read(kind: Kind, shape: &[u64], rights: &[u8], content: Content<'_>, out: &mut Lent<'_>) -> Answer<Room> {
    read_array!(dpx_guest_read, kind, shape, rights, content, out)
}

pub fn guest_edit(table: &mut TableMut<'_>, rights: &[u8], cell: u64, cell_masks: &[u8], value: &[u8]) -> Answer<()> {
    set_cell!(dpx_guest_edit, table, [rights], cell, cell_masks, value)
}

/// Gives the bytes entered, 0 where no chunk is left, and how many chunks are moved.
pub fn migrate_step(table: &mut LiveTable<'_>) -> Answer<[u64; 2]> {
    let mut lengths = [0; 2];
    answer(unsafe {
        dpx_migrate_step(
            table.shape.as_ptr(),
            table.shape.len(),
            table.subsets.as_ptr(),
            table.subsets.len(),
            table.old_lengths.as_ptr(),
            table.old_lengths.len(),
            table.old.as_ptr(),
            table.old.len(),
            table.moved,
            table.moved_lengths.as_mut_ptr(),
            table.moved_lengths.len(),
            table.area.as_mut_ptr(),
            table.area.len(),
            lengths.as_mut_ptr(),
        )
    })?;
    Ok(lengths)
}

pub fn migrate_extract(table: LiveTableRef<'_>, subset: &[u64], out: &mut Lent<'_>) -> Answer<Room> {
    let mut lengths = [0; 2];
    let number = unsafe {
        dpx_migrate_extract(
            table.shape.as_ptr(),
            table.shape.len(),
            table.subsets.as_ptr(),
            table.subsets.len(),
            subset.as_ptr(),
            subset.len(),
            table.old_lengths.as_ptr(),
            table.old_lengths.len(),
            table.old.as_ptr(),
            table.old.len(),
            table.moved,
            table.moved_lengths.as_ptr(),
            table.moved_lengths.len(),
            table.area.as_ptr(),
            table.area.len(),
            out.values.as_mut_ptr(),
            out.values.len(),
            out.offsets.as_mut_ptr(),
            out.offsets.len(),
            lengths.as_mut_ptr(),
        )
    };
    answer(number)?;
    Ok(room(0, lengths[0], lengths[1]))
}
