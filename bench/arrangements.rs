//! Small arrangements: the plain loop that one would write for `arrangement`, with the same checks in the same order and the same outcome, in buffers that are
//! used again.

use crate::tables::Read;

/// The named lengths.
#[inline(never)]
pub fn make(depth: u64, cells: u64, number: u64, out: &mut Read) -> Result<[usize; 3], u32> {
    if depth > 2 || !(1..=4).contains(&cells) {
        return Err(1);
    }
    let states = depth + 4;
    if number >= states.pow(cells as u32) {
        return Err(19);
    }
    let (levels, count) = (depth as usize, cells as usize);
    let length = |state: u64| state.saturating_sub(depth) as usize;
    let (mut rest, mut bytes) = (number, 0);
    for _ in 0..count {
        bytes += length(rest % states);
        rest /= states;
    }
    if out.masks.len() < levels * count || out.values.len() < bytes || out.offsets.len() < count + 1 {
        return Err(6);
    }
    // the lowest digit is that of the last cell
    let (mut rest, mut end) = (number, bytes);
    out.offsets[count] = bytes as u64;
    for cell in (0..count).rev() {
        let state = rest % states;
        rest /= states;
        for level in 0..levels {
            out.masks[level * count + cell] = u8::from((level as u64) < state);
        }
        end -= length(state);
        out.offsets[cell] = end as u64;
    }
    out.values[..bytes].fill(0);
    Ok([levels * count, bytes, count + 1])
}
