//! Working tables: the plain loops that one would write for the five calls and for a guest's edit, with the same checks in the same order and the same outcome.
//! Buffers are used again, the list for the order in which cells lie too.

use crate::rng::Rng;

/// Masks, starts, lengths and store.
#[derive(Clone, Default, PartialEq)]
pub struct Table {
    pub masks: Vec<u8>,
    pub starts: Vec<u64>,
    pub lengths: Vec<u64>,
    pub store: Vec<u8>,
}
/// An array read out.
#[derive(Default, PartialEq)]
pub struct Read {
    pub masks: Vec<u8>,
    pub values: Vec<u8>,
    pub offsets: Vec<u64>,
}

const STORE: usize = 16_777_216;
pub const CELLS: usize = 65_536;

fn kind_and_count(kind: &[u64; 5], cells: usize) -> Result<usize, u32> {
    let wrong = kind[0] > 4 || kind[1] != 1 || (kind[2] != 4 && kind[2] != 8) || kind[3] > 1 || kind[4] > 1;
    if wrong {
        return Err(1);
    }
    if cells < 1 || cells > CELLS {
        return Err(2);
    }
    Ok(kind[0] as usize)
}

/// Whether each level of a cell is set up to the first null, and none below it; and whether all are.
fn rests(masks: &[u8], cells: usize, depth: usize, cell: usize) -> (bool, bool) {
    let mut shown = true;
    for level in 0..depth {
        let set = masks[level * cells + cell] == 1;
        if set && !shown {
            return (false, false);
        }
        shown = set;
    }
    (true, shown)
}

/// The table's rules. What is left in `order` are the cells that have bytes, as they lie.
fn check(depth: usize, cells: usize, t: &Table, order: &mut Vec<u32>) -> Result<(), u32> {
    if t.masks.len() != depth * cells || t.starts.len() != cells || t.lengths.len() != cells {
        return Err(4);
    }
    if t.masks.iter().any(|&byte| byte > 1) {
        return Err(4);
    }
    let size = t.store.len() as u64;
    order.clear();
    for cell in 0..cells {
        let (start, length) = (t.starts[cell], t.lengths[cell]);
        let (rests, shown) = rests(&t.masks, cells, depth, cell);
        if !rests || length > size || start > size - length || (length == 0 && start != 0) || (!shown && length != 0) {
            return Err(4);
        }
        if length != 0 {
            order.push(cell as u32);
        }
    }
    order.sort_unstable_by_key(|&cell| t.starts[cell as usize]);
    let mut end = 0;
    for &cell in order.iter() {
        if t.starts[cell as usize] < end {
            return Err(4);
        }
        end = t.starts[cell as usize] + t.lengths[cell as usize];
    }
    Ok(())
}
fn check_store(t: &Table) -> Result<(), u32> {
    if t.store.len() > STORE { Err(5) } else { Ok(()) }
}

/// The rules of an array.
#[inline(always)]
pub fn check_array(kind: &[u64; 5], cells: usize, masks: &[u8], values: &[u8], offsets: &[u64]) -> Result<(), u32> {
    if masks.len() != kind[0] as usize * cells || masks.iter().any(|&byte| byte > 1) {
        return Err(4);
    }
    if kind[1] == 0 {
        if values.len() != cells * kind[2] as usize || !offsets.is_empty() {
            return Err(4);
        }
    } else {
        if offsets.len() != cells + 1 || offsets[0] != 0 || offsets.windows(2).any(|two| two[0] > two[1]) {
            return Err(4);
        }
        if offsets[cells] != values.len() as u64 {
            return Err(4);
        }
    }
    if values.len() > STORE { Err(5) } else { Ok(()) }
}

/// A rights plane, of a kind with masks.
#[inline(always)]
pub fn check_rights(depth: usize, cells: usize, rights: &[u8]) -> Result<(), u32> {
    if depth == 0 {
        return Err(17);
    }
    if rights.len() != cells || rights.iter().any(|&byte| byte > 1) {
        return Err(4);
    }
    Ok(())
}

#[inline(never)]
pub fn make(kind: &[u64; 5], cells: usize, masks: &[u8], values: &[u8], offsets: &[u64], out: &mut Table) -> Result<(), u32> {
    let depth = kind_and_count(kind, cells)?;
    check_array(kind, cells, masks, values, offsets)?;
    if out.store.len() > STORE {
        return Err(5);
    }
    let shown = |cell: usize| (0..depth).all(|level| masks[level * cells + cell] == 1);
    let need: u64 = (0..cells).map(|cell| if shown(cell) { offsets[cell + 1] - offsets[cell] } else { 0 }).sum();
    if out.masks.len() < depth * cells || out.starts.len() < cells || out.lengths.len() < cells || (out.store.len() as u64) < need
    {
        return Err(6);
    }
    let mut at = 0;
    for cell in 0..cells {
        let mut set = true;
        for level in 0..depth {
            set &= masks[level * cells + cell] == 1;
            out.masks[level * cells + cell] = u8::from(set);
        }
        let length = if set { (offsets[cell + 1] - offsets[cell]) as usize } else { 0 };
        out.starts[cell] = if length > 0 { at as u64 } else { 0 };
        out.lengths[cell] = length as u64;
        out.store[at..at + length].copy_from_slice(&values[offsets[cell] as usize..][..length]);
        at += length;
    }
    Ok(())
}

#[inline(never)]
pub fn read(kind: &[u64; 5], cells: usize, t: &Table, order: &mut Vec<u32>, out: &mut Read) -> Result<(), u32> {
    let depth = kind_and_count(kind, cells)?;
    check(depth, cells, t, order)?;
    check_store(t)?;
    let need: u64 = t.lengths.iter().sum();
    if out.masks.len() < depth * cells || out.offsets.len() < cells + 1 || (out.values.len() as u64) < need {
        return Err(6);
    }
    out.masks[..depth * cells].copy_from_slice(&t.masks);
    out.offsets[0] = 0;
    let mut at = 0;
    for cell in 0..cells {
        let length = t.lengths[cell] as usize;
        out.values[at..at + length].copy_from_slice(&t.store[t.starts[cell] as usize..][..length]);
        at += length;
        out.offsets[cell + 1] = at as u64;
    }
    Ok(())
}

/// Moves at most so many of the cells, in this order, that are not at their packed starts.
fn move_cells(t: &mut Table, order: &[u32], most: usize) -> usize {
    let (mut at, mut moved) = (0, 0);
    for &cell in order {
        let (start, length) = (t.starts[cell as usize] as usize, t.lengths[cell as usize] as usize);
        if start != at {
            if moved == most {
                break;
            }
            t.store.copy_within(start..start + length, at);
            t.starts[cell as usize] = at as u64;
            moved += 1;
        }
        at += length;
    }
    moved
}

#[inline(never)]
pub fn pack(kind: &[u64; 5], cells: usize, t: &mut Table, most: usize, order: &mut Vec<u32>) -> Result<usize, u32> {
    if most < 1 || most > 256 {
        return Err(1);
    }
    let depth = kind_and_count(kind, cells)?;
    check(depth, cells, t, order)?;
    check_store(t)?;
    Ok(move_cells(t, order, most))
}

/// How many levels of a setting are set, its value in rest form, and the bytes of all other cells. A guest's rights must show the cell.
fn check_setting<'a>(
    kind: &[u64; 5],
    rights: Option<&[u8]>,
    t: &Table,
    cell: usize,
    masks: &[u8],
    value: &'a [u8],
    order: &mut Vec<u32>,
) -> Result<(usize, &'a [u8], u64), u32> {
    let cells = t.starts.len();
    let depth = kind_and_count(kind, cells)?;
    if let Some(rights) = rights {
        check_rights(depth, cells, rights)?;
    }
    check(depth, cells, t, order)?;
    if masks.len() != depth || masks.iter().any(|&byte| byte > 1) {
        return Err(4);
    }
    check_store(t)?;
    if cell >= cells {
        return Err(15);
    }
    if rights.is_some_and(|rights| rights[cell] == 0) {
        return Err(18);
    }
    let set = masks.iter().take_while(|&&byte| byte == 1).count();
    let value = if set == depth { value } else { &[] };
    let others = t.lengths.iter().sum::<u64>() - t.lengths[cell];
    if others + value.len() as u64 > t.store.len() as u64 {
        return Err(16);
    }
    Ok((set, value, others))
}

/// By the table's owner, or by a guest with these rights.
#[inline(never)]
pub fn set(
    kind: &[u64; 5],
    rights: Option<&[u8]>,
    t: &mut Table,
    cell: usize,
    masks: &[u8],
    value: &[u8],
    order: &mut Vec<u32>,
) -> Result<(), u32> {
    let (set, value, others) = check_setting(kind, rights, t, cell, masks, value, order)?;
    let (depth, cells) = (masks.len(), t.starts.len());
    (0..depth).for_each(|level| t.masks[level * cells + cell] = u8::from(level < set));
    if t.lengths[cell] > 0 {
        order.retain(|&other| other as usize != cell);
    }
    (t.starts[cell], t.lengths[cell]) = (0, 0);
    if value.is_empty() {
        return Ok(());
    }
    let mut end = order.last().map_or(0, |&top| (t.starts[top as usize] + t.lengths[top as usize]) as usize);
    if t.store.len() - end < value.len() {
        move_cells(t, order, usize::MAX);
        end = others as usize;
    }
    t.store[end..end + value.len()].copy_from_slice(value);
    (t.starts[cell], t.lengths[cell]) = (end as u64, value.len() as u64);
    Ok(())
}

/// The sum of lengths and how many cells are not packed after a setting: no copy, one walk over the other cells as they lie.
#[inline(never)]
pub fn preview(
    kind: &[u64; 5],
    t: &Table,
    cell: usize,
    masks: &[u8],
    value: &[u8],
    order: &mut Vec<u32>,
) -> Result<[u64; 2], u32> {
    let (_, value, others) = check_setting(kind, None, t, cell, masks, value, order)?;
    let (mut packed, mut end, mut displaced) = (0, 0, 0);
    for &other in order.iter().filter(|&&other| other as usize != cell) {
        let (start, length) = (t.starts[other as usize], t.lengths[other as usize]);
        displaced += u64::from(start != packed);
        packed += length;
        end = start + length;
    }
    let length = value.len() as u64;
    let unpacked = match length {
        0 => displaced,
        _ if t.store.len() as u64 - end < length => 0,
        _ => displaced + u64::from(end != packed),
    };
    Ok([others + length, unpacked])
}

// ---------------------------------------------------------------- inputs

/// How a table came to be.
#[derive(Clone, Copy, PartialEq)]
pub enum State {
    /// As it is made: packed, in cell order.
    Fresh,
    /// One cell in eight was set to another value.
    Edited,
    /// Cells in any order, with gaps.
    Scattered,
}
impl State {
    pub const ALL: [State; 3] = [State::Fresh, State::Edited, State::Scattered];
    pub fn name(self) -> &'static str {
        ["fresh", "edited", "scattered"][self as usize]
    }
}

/// A table of so many cells of 0 to 8 bytes, with a value's room behind them; below masks one cell in four is null at each level.
pub fn table(depth: usize, cells: usize, state: State) -> Table {
    let rng = &mut Rng(8);
    let mut shown = vec![1; cells];
    let mut t = Table { lengths: (0..cells).map(|_| rng.below(9) as u64).collect(), starts: vec![0; cells], ..Table::default() };
    for _ in 0..depth {
        shown.iter_mut().for_each(|mark| *mark *= u8::from(!rng.once_in(4)));
        t.masks.extend(&shown);
    }
    (0..cells).filter(|&cell| shown[cell] == 0).for_each(|cell| t.lengths[cell] = 0);
    let mut order: Vec<usize> = (0..cells).filter(|&cell| t.lengths[cell] > 0).collect();
    if state == State::Scattered {
        rng.shuffle(&mut order);
    }
    let mut end = 0;
    for &cell in &order {
        end += if state == State::Scattered { rng.below(4) as u64 } else { 0 };
        t.starts[cell] = end;
        end += t.lengths[cell];
    }
    if state == State::Edited {
        for _ in 0..cells.div_ceil(8) {
            let cell = rng.pick(&order);
            t.starts[cell] = end;
            end += t.lengths[cell];
        }
    }
    t.store = rng.bytes(end as usize + 16);
    t
}
