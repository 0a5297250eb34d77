//! Live tables: the plain loops that one would write for `migrate_step` and `migrate_extract`, for shapes of two sides, with the same checks in the same
//! order and the same outcome. Buffers are used again, the places of all cells too.

use crate::rng::Rng;
use crate::tables::{CELLS, Read};

const LIMIT: u64 = 8_589_934_592;

/// Each chunk is so many rows and columns of a table of 256 × 256 cells.
#[derive(Clone)]
pub struct Live {
    pub shape: [u64; 2],
    pub subsets: Vec<u64>,
    pub old_lengths: Vec<u64>,
    pub old: Vec<u8>,
    pub moved: u64,
    pub moved_lengths: Vec<u64>,
    pub area: Vec<u8>,
}

/// Where a cell lies: in the area or not, its begin and its length.
type Place = (bool, usize, usize);

/// Buffers that are used again.
#[derive(Default)]
pub struct Work {
    held: Vec<bool>,
    places: Vec<Place>,
}

/// Of square chunks with so many cells a side; cells have 0 to 15 bytes. None is moved, and there is room for all.
pub fn table(side: u64) -> Live {
    let (rng, shape) = (&mut Rng(5), [256, 256]);
    let mut t = Live { shape, subsets: vec![], old_lengths: vec![], old: vec![], moved: 0, moved_lengths: vec![], area: vec![] };
    for row in (0..256).step_by(side as usize) {
        for column in (0..256).step_by(side as usize) {
            let before = t.old.len();
            t.subsets.extend([row, column, side, side]);
            t.old.extend((side as u32 * side as u32).to_le_bytes());
            for _ in 0..side * side {
                let length = rng.below(16);
                t.old.extend((length as u32).to_le_bytes());
                t.old.extend(rng.bytes(length));
            }
            t.old_lengths.push((t.old.len() - before) as u64);
        }
    }
    let chunks = t.old_lengths.len();
    t.moved_lengths = vec![0; chunks];
    t.area = vec![0; t.old.len() + 12 * chunks + 4 * CELLS];
    t
}

fn number(bytes: &[u8]) -> usize {
    match bytes.len() {
        4 => u32::from_le_bytes(bytes.try_into().unwrap()) as usize,
        _ => u64::from_le_bytes(bytes.try_into().unwrap()) as usize,
    }
}

/// The cells of an old string, by their begins and lengths.
fn old_cells(s: &[u8], cells: usize, mut each: impl FnMut(usize, usize)) -> Result<(), u32> {
    if s.len() < 4 * (1 + cells) {
        return Err(7);
    }
    if number(&s[..4]) != cells {
        return Err(9);
    }
    let (mut at, mut sum) = (4, 0);
    for _ in 0..cells {
        let Some(length) = s.get(at..at + 4).map(number) else { return Err(11) };
        at += 4;
        if s.len() - at < length {
            return Err(11);
        }
        each(at, length);
        at += length;
        sum += length as u64;
    }
    if sum > LIMIT { Err(5) } else { Ok(()) }
}

/// Those of a moved one.
fn new_cells(s: &[u8], cells: usize, mut each: impl FnMut(usize, usize)) -> Result<(), u32> {
    if s.len() < 8 {
        return Err(7);
    }
    let size = 8 * (cells + 1);
    if number(&s[..8]) != size || s.len() - 8 < size {
        return Err(8);
    }
    let index = &s[8..8 + size];
    if number(&index[8 * cells..]) != s.len() - 8 - size {
        return Err(8);
    }
    let mut before = 0;
    for (at, offset) in index.chunks_exact(8).map(number).enumerate() {
        if offset < before || at == 0 && offset != 0 {
            return Err(10);
        }
        if at > 0 {
            each(8 + size + before, offset - before);
        }
        before = offset;
    }
    if before as u64 > LIMIT { Err(5) } else { Ok(()) }
}

fn inside(subset: &[u64], shape: &[u64; 2]) -> bool {
    (0..2).all(|i| subset[i].checked_add(subset[2 + i]).is_some_and(|end| end <= shape[i]))
}

/// Every check of the table; of a cell that `place` is told, its number and where it lies. The end of the moved strings.
fn check(t: &Live, asked: &[u64], held: &mut Vec<bool>, mut place: impl FnMut(usize, Place)) -> Result<usize, u32> {
    let [rows, columns] = t.shape;
    if !(1..=CELLS as u64).contains(&rows) || !(1..=CELLS as u64).contains(&columns) || rows * columns > CELLS as u64 {
        return Err(2);
    }
    if t.subsets.len() % 4 != 0 || !t.subsets.chunks_exact(4).all(|s| inside(s, &t.shape) && s[2] > 0 && s[3] > 0) {
        return Err(3);
    }
    if asked.len() != 4 || !inside(asked, &t.shape) {
        return Err(3);
    }
    let chunks = t.subsets.len() / 4;
    let sum = |list: &[u64]| list.iter().try_fold(0, |sum: u64, &n| sum.checked_add(n));
    let lists = t.old_lengths.len() == chunks && t.moved_lengths.len() == chunks && t.moved <= chunks as u64;
    if !lists || sum(&t.old_lengths) != Some(t.old.len() as u64) {
        return Err(4);
    }
    let Some(end) = sum(&t.moved_lengths[..t.moved as usize]).filter(|&end| end <= t.area.len() as u64) else { return Err(4) };
    held.clear();
    held.resize((rows * columns) as usize, false);
    let mut count = 0;
    for s in t.subsets.chunks_exact(4) {
        for row in s[0]..s[0] + s[2] {
            for mark in &mut held[(row * columns + s[1]) as usize..][..s[3] as usize] {
                if *mark {
                    return Err(12);
                }
                *mark = true;
            }
        }
        count += s[2] * s[3];
    }
    if count != rows * columns {
        return Err(12);
    }
    let (mut old, mut new) = (0, 0);
    for (at, s) in t.subsets.chunks_exact(4).enumerate() {
        let (cells, mut row, mut column) = ((s[2] * s[3]) as usize, s[0], s[1]);
        let mut next = |moved, start, length| {
            place((row * columns + column) as usize, (moved, start, length));
            column += 1;
            if column == s[1] + s[3] {
                (row, column) = (row + 1, s[1]);
            }
        };
        if (at as u64) < t.moved {
            let own = &t.area[new..][..t.moved_lengths[at] as usize];
            new_cells(own, cells, |start, length| next(true, new + start, length))?;
            new += own.len();
        } else {
            let own = &t.old[old..][..t.old_lengths[at] as usize];
            old_cells(own, cells, |start, length| next(false, old + start, length))?;
        }
        old += t.old_lengths[at] as usize;
    }
    Ok(end as usize)
}

/// The bytes entered, and the number moved.
#[inline(never)]
pub fn step(t: &mut Live, w: &mut Work) -> Result<[u64; 2], u32> {
    let end = check(t, &[0; 4], &mut w.held, |_, _| {})?;
    let next = t.moved as usize;
    if next == t.old_lengths.len() {
        return Ok([0, t.moved]);
    }
    let length = enter(t, end)? as u64;
    t.moved_lengths[next] = length;
    Ok([length, t.moved + 1])
}

/// The next chunk, written anew from `end` on; its length.
fn enter(t: &mut Live, end: usize) -> Result<usize, u32> {
    let next = t.moved as usize;
    let start = t.old_lengths[..next].iter().sum::<u64>() as usize;
    let own = &t.old[start..][..t.old_lengths[next] as usize];
    let cells = number(&own[..4]);
    let mut bytes = 0;
    old_cells(own, cells, |_, length| bytes += length)?;
    let length = 16 + 8 * cells + bytes;
    if t.area.len() - end < length {
        return Err(6);
    }
    let (index, data) = t.area[end..][..length].split_at_mut(16 + 8 * cells);
    index[..8].copy_from_slice(&(8 * (cells as u64 + 1)).to_le_bytes());
    index[8..16].fill(0);
    let (mut at, mut offsets) = (0, index[16..].chunks_exact_mut(8));
    old_cells(own, cells, |start, length| {
        data[at..at + length].copy_from_slice(&own[start..start + length]);
        at += length;
        offsets.next().unwrap().copy_from_slice(&(at as u64).to_le_bytes());
    })?;
    Ok(length)
}

/// The table with one chunk more moved, which is not checked.
pub fn moved(mut t: Live) -> Live {
    let next = t.moved as usize;
    let end = t.moved_lengths[..next].iter().sum::<u64>() as usize;
    let length = enter(&mut t, end).unwrap();
    t.moved_lengths[next] = length as u64;
    t.moved += 1;
    t
}

/// The named lengths.
#[inline(never)]
pub fn cut(t: &Live, subset: &[u64], w: &mut Work, out: &mut Read) -> Result<[usize; 2], u32> {
    let Work { held, places } = w;
    places.resize(CELLS, (false, 0, 0));
    check(t, subset, held, |cell, place| places[cell] = place)?;
    let columns = t.shape[1] as usize;
    let rows = || {
        (subset[0]..subset[0] + subset[2]).map(|row| &places[row as usize * columns + subset[1] as usize..][..subset[3] as usize])
    };
    let bytes: usize = rows().flatten().map(|place| place.2).sum();
    let cells = (subset[2] * subset[3]) as usize;
    if bytes as u64 > LIMIT {
        return Err(5);
    }
    if out.values.len() < bytes || out.offsets.len() < cells + 1 {
        return Err(6);
    }
    let mut at = 0;
    out.offsets[0] = 0;
    for (&(moved, start, length), offset) in rows().flatten().zip(&mut out.offsets[1..]) {
        let from = if moved { &t.area } else { &t.old };
        out.values[at..at + length].copy_from_slice(&from[start..start + length]);
        at += length;
        *offset = at as u64;
    }
    Ok([bytes, cells + 1])
}
