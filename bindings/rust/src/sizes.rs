//! How long the outputs must be, from the inputs alone.
//!
//! Where an input is wrong the archive refuses it before it looks at an output, so any length will do there: these
//! functions then answer little or nothing, and never a number that the inputs do not bear out. So none is cut where a
//! `usize` has 32 bits: bytes that are handed over lie in memory.

use crate::{Kind, MaskForm, Room, Values, MAX_CELLS, MAX_DEPTH, MAX_SIDES, MAX_SIZE, MAX_VALUE_BYTES};

/// Cells of a shape; None where the shape is refused.
pub fn cells(shape: &[u64]) -> Option<usize> {
    if shape.is_empty() || shape.len() > MAX_SIDES {
        return None;
    }
    let mut count: u64 = 1;
    for &side in shape {
        if side == 0 || side > MAX_CELLS {
            return None;
        }
        count *= side;
        if count > MAX_CELLS {
            return None;
        }
    }
    Some(count as usize)
}

/// Cells of a subset; None where the shape or the subset is refused.
pub fn subset_cells(shape: &[u64], subset: &[u64]) -> Option<usize> {
    cells(shape)?;
    if subset.len() != 2 * shape.len() {
        return None;
    }
    let (starts, lengths) = subset.split_at(shape.len());
    let inside = |side: usize| lengths[side] <= shape[side] && starts[side] <= shape[side] - lengths[side];
    if !(0..shape.len()).all(inside) {
        return None;
    }
    Some(lengths.iter().product::<u64>() as usize)
}

/// Value bytes of the ragged cells of a subset; 0 where anything is refused.
pub fn ragged_subset(shape: &[u64], subset: &[u64], values: &[u8], offsets: &[u64]) -> usize {
    let Some(count) = subset_cells(shape, subset) else { return 0 };
    if count == 0 {
        return 0;
    }
    // The cells of a subset lie in rows of neighbours.
    let (starts, lengths) = subset.split_at(shape.len());
    let last = shape.len() - 1;
    let row = lengths[last] as usize;
    let mut sum: u64 = 0;
    for number in 0..count / row {
        let mut rest = number as u64;
        let mut first = starts[last];
        let mut stride = shape[last];
        for side in (0..last).rev() {
            first += (starts[side] + rest % lengths[side]) * stride;
            rest /= lengths[side];
            stride *= shape[side];
        }
        let first = first as usize;
        let (Some(from), Some(to)) = (offsets.get(first), offsets.get(first + row)) else { return 0 };
        sum = sum.saturating_add(to.saturating_sub(*from));
    }
    limited(sum).min(values.len())
}

/// A number of value bytes; 0 where it is over the limit, or more than memory has addresses for.
pub fn limited(bytes: u64) -> usize {
    usize::try_from(bytes).ok().filter(|_| bytes <= MAX_VALUE_BYTES).unwrap_or(0)
}

/// Bytes of the interleaved form of that many cells; 0 where there are too many value bytes.
pub fn interleaved(cells: usize, value_bytes: usize) -> usize {
    match value_bytes as u64 <= MAX_VALUE_BYTES {
        true => 4 + 4 * cells + value_bytes,
        false => 0,
    }
}

/// Mask bytes of that many cells; 0 where the depth is refused.
pub fn masks(kind: Kind, cells: usize) -> usize {
    if kind.depth <= MAX_DEPTH {
        kind.depth as usize * cells
    } else {
        0
    }
}

/// Value bytes of that many cells: of a fixed kind, or `ragged` for a ragged one.
pub fn values(kind: Kind, cells: usize, ragged: usize) -> usize {
    match kind.values {
        Values::Fixed { size, .. } if size <= MAX_SIZE => size as usize * cells,
        Values::Fixed { .. } => 0,
        Values::Ragged { .. } => ragged,
    }
}

/// Offsets of that many cells.
pub fn offsets(kind: Kind, cells: usize) -> usize {
    if kind.is_ragged() {
        cells + 1
    } else {
        0
    }
}

/// Masks, values and offsets of that many cells; the values of ragged ones at most `bytes` long.
pub fn array(kind: Kind, cells: usize, bytes: usize) -> Room {
    if cells as u64 > MAX_CELLS {
        return Room::default();
    }
    Room {
        masks: masks(kind, cells),
        values: values(kind, cells, (bytes as u64).min(MAX_VALUE_BYTES) as usize),
        offsets: offsets(kind, cells),
    }
}

/// Stored bytes of one level's mask.
fn stored_mask(kind: Kind, cells: usize) -> usize {
    match kind.masks {
        MaskForm::Bytes => cells,
        MaskForm::Packed => cells.div_ceil(8),
    }
}

/// Stored bytes of an array at most: for each level 16 and its mask; 8, the index and the values.
pub fn stored(kind: Kind, cells: usize, value_bytes: usize) -> usize {
    let array = array(kind, cells, value_bytes);
    if array.values + array.offsets == 0 || kind.depth > MAX_DEPTH {
        return 0;
    }
    let index = match kind.values {
        Values::Fixed { .. } => 0,
        Values::Ragged { width, .. } => 8 + width.bytes() * array.offsets,
    };
    kind.depth as usize * (16 + stored_mask(kind, cells)) + array.values + index
}
