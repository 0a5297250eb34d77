//! Hidden bytes, found in a request by the rules and not by the judge's answer: content behind a mask with nothing set, data behind a last
//! offset of 0, bytes before a first offset. The Rust takes them, so it is asked where none of these stand.

use crate::request::{Request, Request::*};
use judge::{Form, Kind};

/// Content, data, a stored first offset above 0, one handed over.
pub type Hidden = [bool; 4];
pub const NONE: Hidden = [false; 4];

pub fn hidden(request: &Request) -> Hidden {
    match request {
        Decode { kind, shape, bytes } => in_stored(judge::kind(*kind), shape, bytes),
        PartialDecode { width, place, shape, bytes, .. } => in_stored(judge::kind([0, 1, *width, *place, 0]), shape, bytes),
        Encode { kind, offsets, .. }
        | Extract { kind, offsets, .. }
        | EncodeInterleaved { kind, offsets, .. }
        | GuestRead { kind, offsets, .. } => {
            [false, false, false, kind[1] == 1 && offsets.first().is_some_and(|&first| first > 0)]
        }
        Merge { kind, shape, subsets, offsets, .. } => {
            [false, false, false, kind[1] == 1 && chunk_firsts(shape.len(), subsets, offsets).iter().any(|&first| first > 0)]
        }
        _ => NONE,
    }
}

/// The first offset of each chunk of a list, as far as there are offsets.
fn chunk_firsts(sides: usize, subsets: &[u64], offsets: &[u64]) -> Vec<u64> {
    let mut firsts = vec![];
    let mut at = 0_u64;
    for subset in subsets.chunks(2 * sides.max(1)) {
        firsts.extend(offsets.get(at as usize));
        let cells = subset.iter().skip(sides).fold(1, |cells: u64, &length| cells.saturating_mul(length));
        at = at.saturating_add(cells).saturating_add(1);
    }
    firsts
}

fn in_stored(kind: Result<Kind, u32>, shape: &[u64], bytes: &[u8]) -> Hidden {
    match (kind, judge::shape_cells(shape)) {
        (Ok(kind), Ok(cells)) => in_content(kind, kind.depth, cells, bytes),
        _ => NONE,
    }
}

fn number(bytes: &[u8]) -> u64 {
    bytes.iter().rev().fold(0, |number, &byte| number << 8 | u64::from(byte))
}

/// As far as lengths and masks are good: beyond that nothing is known to lie anywhere.
fn in_content(kind: Kind, depth: usize, cells: usize, bytes: &[u8]) -> Hidden {
    if depth == 0 {
        return match kind.form {
            Form::Fixed { .. } => NONE,
            Form::Ragged { width, end } => in_ragged(width, end, cells, bytes),
        };
    }
    let size = judge::mask_bytes(kind.packed, cells);
    let Some(left) = bytes.len().checked_sub(16 + size) else { return NONE };
    if number(&bytes[..8]) != size as u64 || number(&bytes[8..16]) != left as u64 {
        return NONE;
    }
    let (mask, content) = bytes[16..].split_at(size);
    let (good, set) = if kind.packed {
        let used = cells % 8;
        (used == 0 || mask[size - 1] >> used == 0, mask.iter().map(|byte| byte.count_ones() as usize).sum())
    } else {
        (mask.iter().all(|&byte| byte <= 1), mask.iter().filter(|&&byte| byte == 1).count())
    };
    match (good, set) {
        (false, _) => NONE,
        (true, 0) => [!content.is_empty(), false, false, false],
        (true, set) => in_content(kind, depth - 1, set, content),
    }
}

fn in_ragged(width: usize, end: bool, cells: usize, bytes: &[u8]) -> Hidden {
    let size = width * (cells + 1);
    let Some(data) = bytes.len().checked_sub(8 + size) else { return NONE };
    let (length, index) = if end { (data + size, data) } else { (0, 8) };
    if number(&bytes[length..length + 8]) != size as u64 {
        return NONE;
    }
    let index = &bytes[index..index + size];
    [false, number(&index[size - width..]) == 0 && data > 0, number(&index[..width]) > 0, false]
}
