//! What the machine allows: the older form of ragged values read by bare loops over the C library's memcpy; and the loops that others would write.

use crate::archive::{DpxKind, EncodeCall, c_kind};
use crate::inputs::Input;
use std::hint::black_box;
use std::slice::from_raw_parts;
use std::time::{Duration, Instant};

fn length_at(bytes: &[u8], at: usize) -> usize {
    u32::from_le_bytes(bytes[at..at + 4].try_into().unwrap()) as usize
}

/// In one walk: each value is stored before the next length is looked at, so a refusal may come too late.
pub fn one_walk(bytes: &[u8], values: &mut [u8], offsets: &mut [u64]) -> usize {
    let (mut at, mut to) = (4, 0);
    for offset in offsets.iter_mut().take(length_at(bytes, 0)) {
        let length = length_at(bytes, at);
        *offset = to as u64;
        values[to..to + length].copy_from_slice(&bytes[at + 4..at + 4 + length]);
        at += 4 + length;
        to += length;
    }
    to
}

/// All lengths, as a refused call may change no byte. A length equal to the one before has a branch of its own, so that
/// the next place does not wait for the length to be loaded.
fn lengths_walk(bytes: &[u8]) {
    let (mut at, mut last) = (4, 0);
    for _ in 0..length_at(bytes, 0) {
        let length = length_at(bytes, at);
        if length == last {
            at += 4 + black_box(last);
        } else {
            at += 4 + length;
            last = length;
        }
        assert!(at <= bytes.len());
    }
}

/// All lengths first, then the values.
pub fn two_walks(bytes: &[u8], values: &mut [u8], offsets: &mut [u64]) -> usize {
    lengths_walk(bytes);
    one_walk(bytes, values, offsets)
}

/// The loop that writes the older form: the buffer is used again and has its room already.
#[inline(always)]
fn put_older(cells: u64, values: &[u8], offsets: &[u64], out: &mut Vec<u8>) -> Result<(), &'static str> {
    out.clear();
    out.extend_from_slice(&(cells as u32).to_le_bytes());
    for pair in offsets.windows(2) {
        let value = values.get(pair[0] as usize..pair[1] as usize).ok_or("offsets beyond the values, or that fall")?;
        out.extend_from_slice(&(value.len() as u32).to_le_bytes());
        out.extend_from_slice(value);
    }
    Ok(())
}

fn cells_of(shape: &[u64]) -> Result<u64, &'static str> {
    let cells = shape.iter().try_fold(1, |cells: u64, side| cells.checked_mul(*side)).filter(|cells| *cells <= 65_536);
    cells.ok_or("too many cells")
}

/// The older form written by the plain loop that one would write for it: what does not fit together is an error, found on the way or not at all (values
/// behind the last offset).
#[inline(always)]
fn write_older(shape: &[u64], values: &[u8], offsets: &[u64], out: &mut Vec<u8>) -> Result<(), &'static str> {
    let cells = cells_of(shape)?;
    if offsets.len() as u64 != cells + 1 {
        return Err("not one offset more than cells");
    }
    put_older(cells, values, offsets, out)
}

/// The same loop behind the checks of our call: the same refusals in the same order, and a refusal leaves the buffer as it was.
#[inline(always)]
fn write_checked(
    kind: DpxKind,
    shape: &[u64],
    masks: &[u8],
    values: &[u8],
    offsets: &[u64],
    out: &mut Vec<u8>,
) -> Result<(), &'static str> {
    let DpxKind(depth, form, width, place, mask) = kind;
    if depth > 0 || form != 1 || !matches!(width, 4 | 8) || place > 1 || mask > 1 {
        return Err("not a ragged kind of depth 0");
    }
    if !(1..=4).contains(&shape.len()) || shape.contains(&0) {
        return Err("not a shape");
    }
    let cells = cells_of(shape)?;
    if !masks.is_empty()
        || offsets.len() as u64 != cells + 1
        || offsets[0] != 0
        || !offsets.is_sorted()
        || offsets[cells as usize] != values.len() as u64
    {
        return Err("not the content of this kind");
    }
    if values.len() as u64 > 8_589_934_592 {
        return Err("too many value bytes");
    }
    if values.len() > u32::MAX as usize && offsets.windows(2).any(|cell| cell[1] - cell[0] > u64::from(u32::MAX)) {
        return Err("a cell too long for its length");
    }
    if out.capacity() < 4 + 4 * cells as usize + values.len() {
        return Err("no room");
    }
    put_older(cells, values, offsets, out)
}

/// A loop behind the C signature of our call. In the output's place it gets the Vec.
#[rustfmt::skip]
unsafe extern "C" fn older_call<const CHECKED: bool>(
    kind: DpxKind, shape: *const u64, sides: usize, masks: *const u8, marks: usize, values: *const u8, bytes: usize,
    offsets: *const u64, ends: usize, out: *mut u8, _: usize, length: *mut u64,
) -> u32 {
    let (shape, offsets) = unsafe { (from_raw_parts(shape, sides), from_raw_parts(offsets, ends)) };
    let (masks, values) = unsafe { (from_raw_parts(masks, marks), from_raw_parts(values, bytes)) };
    let (out, length) = unsafe { (&mut *out.cast::<Vec<u8>>(), &mut *length) };
    let done = if CHECKED {
        write_checked(kind, shape, masks, values, offsets, out)
    } else {
        write_older(shape, values, offsets, out)
    };
    *length = out.len() as u64;
    u32::from(done.is_err())
}

/// Who writes the older form. All are called in the same way: by one signature, through a pointer that the compiler does not see behind, so that handing over
/// twelve arguments, most of the time of a single cell, costs each the same. And all write to the same memory, as where a buffer lies can cost more
/// than the call: our call is lent that of the Vec which the loops fill.
#[derive(Clone, Copy)]
pub enum Writer {
    Ours(EncodeCall),
    Plain,
    Checked,
}
impl Writer {
    /// So many calls, and the time they took. The Vec has room enough, and holds what was written.
    pub fn write(self, i: &Input, out: &mut Vec<u8>, times: u32) -> Duration {
        let (room, whole) = (out.capacity(), (&raw mut *out).cast());
        let (call, at) = match self {
            Writer::Ours(call) => (call, out.as_mut_ptr()),
            Writer::Plain => (older_call::<false> as EncodeCall, whole),
            Writer::Checked => (older_call::<true> as EncodeCall, whole),
        };
        let (call, mut length) = (black_box(call), 0);
        let clock = Instant::now();
        for _ in 0..times {
            #[rustfmt::skip]
            let answer = unsafe { call(
                c_kind(&i.kind), i.shape.as_ptr(), i.shape.len(), i.masks.as_ptr(), i.masks.len(),
                i.values.as_ptr(), i.values.len(), i.offsets.as_ptr(), i.offsets.len(), at, room, &mut length,
            ) };
            assert_eq!(answer, 0);
        }
        let time = clock.elapsed();
        unsafe { out.set_len(length as usize) };
        time
    }
}

/// Masks, values and offsets that are used again.
#[derive(Default)]
pub struct Load {
    pub masks: Vec<u8>,
    pub values: Vec<u8>,
    pub offsets: Vec<u64>,
}

/// A load made by the plain loop that one would write for it, in one run: the buffers are used again and have their room already.
#[inline(never)]
pub fn make_load(kind: &[u64; 5], shape: &[u64], start: u32, out: &mut Load) -> Result<(), &'static str> {
    let (cells, depth, size) = (cells_of(shape)? as usize, kind[0] as usize, kind[2] as usize);
    let ragged = kind[1] == 1;
    let mut state = start;
    let mut draw = || {
        state = state.wrapping_mul(1_664_525).wrapping_add(1_013_904_223);
        state >> 16
    };
    let Load { masks, values, offsets } = out;
    masks.clear();
    masks.resize(depth * cells, 0);
    values.clear();
    offsets.clear();
    if ragged {
        offsets.push(0);
    }
    for cell in 0..cells {
        let mut level = 0;
        while level < depth && draw() % 4 != 0 {
            masks[level * cells + cell] = 1;
            level += 1;
        }
        let set = level == depth;
        let length = match (ragged, set) {
            (false, _) => size,
            (true, true) => draw() as usize % 9,
            (true, false) => 0,
        };
        if set {
            values.extend((0..length).map(|_| draw() as u8));
        } else {
            values.resize(values.len() + length, 0);
        }
        if ragged {
            offsets.push(values.len() as u64);
        }
    }
    Ok(())
}
