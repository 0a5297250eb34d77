//! The requests: exhaustive small ones, ones around each limit, large ones, and random ones with damaged copies. All of it is
//! determined by the seed.

use crate::arrangements;
use crate::guests;
use crate::live;
use crate::request::{Request, Request::*};
use crate::rng::Rng;
use crate::tables;
use std::ops::Range;

pub trait Sink {
    fn ask(&mut self, request: Request);
    fn asked(&self) -> u64;
    /// Whether the requests to come have a damaged copy of a stored string, one that differs from it.
    fn damaged(&mut self, _damaged: bool) {}
    /// Long arrays, which are no requests: they are only lent.
    fn long(&mut self) {}
}

// ---------------------------------------------------------------- kinds, shapes, subsets

pub fn fixed(depth: usize, size: u64, order: u64) -> [u64; 5] {
    [depth as u64, 0, size, order, 0]
}
pub fn ragged(depth: usize, width: u64, place: u64) -> [u64; 5] {
    [depth as u64, 1, width, place, 0]
}
pub const RAGGED: [(u64, u64); 4] = [(4, 0), (4, 1), (8, 0), (8, 1)];
const SIZES: [u64; 17] = [1, 1, 2, 2, 3, 4, 5, 7, 8, 9, 15, 16, 17, 32, 33, 63, 64];

/// The same kind with packed masks.
pub fn packed(kind: [u64; 5]) -> [u64; 5] {
    [kind[0], kind[1], kind[2], kind[3], 1]
}
/// A kind with the same values at another depth.
fn at_depth(kind: [u64; 5], depth: usize) -> [u64; 5] {
    [depth as u64, kind[1], kind[2], kind[3], kind[4]]
}
pub fn any_kind(rng: &mut Rng, depth: usize, masks: u64) -> [u64; 5] {
    let mut kind = if rng.below(2) == 0 {
        let (width, place) = rng.pick(&RAGGED);
        ragged(depth, width, place)
    } else {
        let size = if rng.once_in(4) { 1 + rng.below(64) as u64 } else { rng.pick(&SIZES) };
        fixed(depth, size, rng.below(2) as u64)
    };
    kind[4] = masks;
    kind
}
/// A shape of exactly `cells` cells.
pub fn shape_of(rng: &mut Rng, cells: usize) -> Vec<u64> {
    let mut shape = vec![];
    let mut left = cells;
    for _ in 0..rng.below(4) {
        let divisors: Vec<usize> = (1..=left.min(64)).filter(|d| left.is_multiple_of(*d)).collect();
        let side = rng.pick(&divisors);
        shape.push(side as u64);
        left /= side;
    }
    shape.push(left as u64);
    shape
}
pub fn any_shape(rng: &mut Rng) -> Vec<u64> {
    let cells = match rng.below(16) {
        0 => 1,
        1..=11 => 1 + rng.below(8),
        12..=14 => 1 + rng.below(30),
        _ => 1 + rng.below(200),
    };
    shape_of(rng, cells)
}
pub fn cells_of(shape: &[u64]) -> usize {
    shape.iter().product::<u64>() as usize
}
/// A subset inside the shape, now and then an empty one.
pub fn inside(rng: &mut Rng, shape: &[u64]) -> Vec<u64> {
    let mut subset = vec![0; 2 * shape.len()];
    for (i, &side) in shape.iter().enumerate() {
        let length = if rng.once_in(12) { 0 } else { 1 + rng.below(side as usize) as u64 };
        subset[i] = rng.below((side - length + 1) as usize) as u64;
        subset[shape.len() + i] = length;
    }
    subset
}
/// Subsets that cover the shape, each cell once: halved again and again.
pub fn partition(rng: &mut Rng, shape: &[u64]) -> Vec<Vec<u64>> {
    let sides = shape.len();
    let mut whole = vec![0; sides];
    whole.extend(shape);
    let mut list = vec![whole];
    let cuts = match rng.below(8) {
        0 => 0,
        1 => 200,
        _ => rng.below(6),
    };
    for _ in 0..cuts {
        let at = rng.below(list.len());
        let side = rng.below(sides);
        let (start, length) = (list[at][side], list[at][sides + side]);
        if length < 2 {
            continue;
        }
        let first = 1 + rng.below(length as usize - 1) as u64;
        let mut second = list[at].clone();
        list[at][sides + side] = first;
        second[side] = start + first;
        second[sides + side] = length - first;
        list.push(second);
    }
    rng.shuffle(&mut list);
    list
}

// ---------------------------------------------------------------- arrays and stored strings

#[derive(Clone, PartialEq)]
pub struct Content {
    pub masks: Vec<u8>,
    pub values: Vec<u8>,
    pub offsets: Vec<u64>,
}
/// Neither null nor set: no mask has such a byte.
pub fn over_01(rng: &mut Rng) -> u8 {
    if rng.below(2) == 0 { rng.pick(&[2, 3, 0x10, 0x7F, 0x80, 0x81, 0xFE, 0xFF]) } else { 2 + rng.below(254) as u8 }
}
/// One byte, now and then a second one, over 01.
pub fn spoilt(rng: &mut Rng, mask: &mut [u8]) {
    if mask.is_empty() {
        return;
    }
    for _ in 0..1 + usize::from(rng.once_in(3)) {
        mask[rng.below(mask.len())] = over_01(rng);
    }
}
pub fn plane(rng: &mut Rng, cells: usize) -> Vec<u8> {
    if rng.once_in(4) {
        // runs
        let longest = rng.pick(&[3, 40, 600]);
        let mut mask = vec![];
        while mask.len() < cells {
            let run = 1 + rng.below(longest);
            let set = rng.below(2) == 1;
            mask.extend(vec![u8::from(set); run]);
        }
        mask.truncate(cells);
        return mask;
    }
    let of_eight = rng.pick(&[0, 1, 4, 4, 4, 6, 7, 8, 8]);
    (0..cells).map(|_| u8::from(rng.below(8) < of_eight)).collect()
}
/// Lengths of ragged values: many empty, most short.
pub fn value_lengths(rng: &mut Rng, cells: usize) -> Vec<usize> {
    let most = if rng.once_in(100) { rng.pick(&[70, 300, 5000]) } else { rng.pick(&[0, 1, 2, 3, 3, 5, 9, 40]) };
    let mut room = 40_000; // a few long ones are enough
    (0..cells)
        .map(|_| {
            let length = if rng.once_in(3) { 0 } else { rng.below(most + 1) }.min(room);
            if most > 9 {
                room -= length;
            }
            length
        })
        .collect()
}
/// Values of these lengths, end to end.
fn values_of(rng: &mut Rng, lengths: &[usize]) -> (Vec<u8>, Vec<u64>) {
    let mut offsets = vec![0];
    let mut end = 0;
    for length in lengths {
        end += length;
        offsets.push(end as u64);
    }
    (rng.bytes(end), offsets)
}
/// The same values behind a few bytes that are in no cell.
fn late(rng: &mut Rng, c: &Content) -> Content {
    if c.offsets.is_empty() {
        return c.clone();
    }
    let lead = 1 + rng.below(4);
    let values = [rng.bytes(lead), c.values.clone()].concat();
    let offsets = c.offsets.iter().map(|offset| offset.wrapping_add(lead as u64)).collect();
    Content { masks: c.masks.clone(), values, offsets }
}
pub fn content(rng: &mut Rng, kind: [u64; 5], cells: usize) -> Content {
    let mut masks = vec![];
    for _ in 0..kind[0] {
        masks.extend(plane(rng, cells));
    }
    let (values, offsets) = if kind[1] == 0 {
        (rng.bytes(cells * kind[2] as usize), vec![])
    } else {
        let lengths = value_lengths(rng, cells);
        values_of(rng, &lengths)
    };
    Content { masks, values, offsets }
}

fn frame(masks: u64, plane: &[u8], content: &[u8]) -> Vec<u8> {
    let mask = &judge::write_mask(masks == 1, plane)[..];
    let (m, c) = ((mask.len() as u64).to_le_bytes(), (content.len() as u64).to_le_bytes());
    [&m[..], &c, mask, content].concat()
}
fn ragged_string(width: u64, place: u64, offsets: &[u64], data: &[u8]) -> Vec<u8> {
    let index: Vec<u8> = offsets.iter().flat_map(|o| o.to_le_bytes()[..width as usize].to_vec()).collect();
    let length = (index.len() as u64).to_le_bytes();
    if place == 0 { [&length[..], &index, data].concat() } else { [data, &index, &length].concat() }
}
/// A stored string that can be read.
fn stored(rng: &mut Rng, kind: [u64; 5], cells: usize) -> Vec<u8> {
    if kind[0] > 0 {
        let mask = plane(rng, cells);
        let set = mask.iter().filter(|&&m| m == 1).count();
        let content = if set > 0 { stored(rng, below(kind), set) } else { vec![] };
        return frame(kind[4], &mask, &content);
    }
    if kind[1] == 0 {
        return rng.bytes(cells * kind[2] as usize);
    }
    let lengths = value_lengths(rng, cells);
    let (data, offsets) = values_of(rng, &lengths);
    ragged_string(kind[2], kind[3], &offsets, &data)
}
/// The kind of a frame's content.
fn below(kind: [u64; 5]) -> [u64; 5] {
    at_depth(kind, kind[0] as usize - 1)
}
/// A stored string that could be read but for hidden bytes, of any sort that the kind has: content behind a mask with nothing set, bytes before
/// the first offset, data behind a last offset of 0.
fn hiding(rng: &mut Rng, kind: [u64; 5], cells: usize) -> Vec<u8> {
    if kind[0] > 0 {
        let mut mask = plane(rng, cells);
        if (kind[0] == 1 && kind[1] == 0) || rng.once_in(3) {
            mask.fill(0);
        }
        let set = mask.iter().filter(|&&m| m == 1).count();
        let content = if set > 0 { hiding(rng, below(kind), set) } else { spare(rng, below(kind), cells) };
        return frame(kind[4], &mask, &content);
    }
    if kind[1] == 0 {
        return stored(rng, kind, cells);
    }
    let lengths = if rng.once_in(3) { vec![0; cells] } else { value_lengths(rng, cells) };
    let (values, offsets) = values_of(rng, &lengths);
    let mut c = Content { masks: vec![], values, offsets };
    if c.values.is_empty() && rng.below(2) == 0 {
        let more = 1 + rng.below(5);
        c.values = rng.bytes(more);
    } else {
        c = late(rng, &c);
    }
    ragged_string(kind[2], kind[3], &c.offsets, &c.values)
}
/// A content where none may be: any bytes, a frame with nothing set, one that could be read.
fn spare(rng: &mut Rng, kind: [u64; 5], cells: usize) -> Vec<u8> {
    match rng.below(3) {
        0 => {
            let more = 1 + rng.below(20);
            rng.bytes(more)
        }
        1 if kind[0] > 0 => frame(kind[4], &vec![0; cells], &[]),
        _ => stored(rng, kind, cells),
    }
}
/// `levels` frames around a content of `cells` cells; the cells of the outermost.
fn wrapped(rng: &mut Rng, masks: u64, levels: usize, cells: usize, content: Vec<u8>) -> (Vec<u8>, usize) {
    let (mut bytes, mut cells) = (content, cells);
    for _ in 0..levels {
        let mut mask = vec![1; cells];
        let nulls = rng.pick(&[0, 0, 1, 2]);
        mask.extend(vec![0; nulls]);
        rng.shuffle(&mut mask);
        bytes = frame(masks, &mask, &bytes);
        cells = mask.len();
    }
    (bytes, cells)
}
fn interleaved(rng: &mut Rng, cells: usize) -> Vec<u8> {
    let lengths = value_lengths(rng, cells);
    interleaved_of(rng, &lengths)
}
fn interleaved_of(rng: &mut Rng, lengths: &[usize]) -> Vec<u8> {
    let mut bytes = (lengths.len() as u32).to_le_bytes().to_vec();
    for &length in lengths {
        bytes.extend((length as u32).to_le_bytes());
        bytes.extend(rng.bytes(length));
    }
    bytes
}

// ---------------------------------------------------------------- damage

const MAX: u64 = u64::MAX;
pub const NUMBERS: [u64; 22] = [
    0,
    1,
    2,
    3,
    4,
    7,
    8,
    9,
    255,
    256,
    65_535,
    65_536,
    65_537,
    16_777_216,
    16_777_217,
    1 << 31,
    u32::MAX as u64,
    1 << 32,
    (1 << 32) + 1,
    1 << 63,
    MAX - 15,
    MAX,
];
pub fn a_number(rng: &mut Rng) -> u64 {
    let n = rng.pick(&NUMBERS);
    match rng.below(4) {
        0 => n.wrapping_add(rng.below(5) as u64).wrapping_sub(2),
        1 => n.wrapping_neg(),
        _ => n,
    }
}
/// Every one-byte change of three sorts, every cut, and some longer ones.
pub fn each_damage(bytes: &[u8]) -> Vec<Vec<u8>> {
    let mut list = vec![];
    for at in 0..bytes.len() {
        for new in [bytes[at].wrapping_add(1), bytes[at].wrapping_sub(1), bytes[at] ^ 0x80, !bytes[at], 0] {
            if new != bytes[at] {
                let mut copy = bytes.to_vec();
                copy[at] = new;
                list.push(copy);
            }
        }
    }
    for length in 0..bytes.len() {
        list.push(bytes[..length].to_vec());
        list.push(bytes[bytes.len() - length..].to_vec());
    }
    for more in [1, 2, 3, 4, 8, 16] {
        list.push([bytes, &vec![0; more]].concat());
        list.push([&vec![0; more], bytes].concat());
    }
    list.push([bytes, bytes].concat());
    list
}
fn put_number(bytes: &mut [u8], at: usize, width: usize, number: u64) {
    if at + width <= bytes.len() {
        bytes[at..at + width].copy_from_slice(&number.to_le_bytes()[..width]);
    }
}
/// Lengths of a frame that agree with its bytes only where their sum is cut to 64 bits (or 32).
fn wrap_frame(rng: &mut Rng, bytes: &[u8], mask_length: usize) -> Vec<u8> {
    let mut copy = bytes.to_vec();
    if copy.len() < 16 {
        return copy;
    }
    if rng.below(2) == 0 {
        // the mask length is right and the bytes end before the mask does
        copy.truncate(16 + rng.below(mask_length.min(copy.len() - 16) + 1));
        put_number(&mut copy, 0, 8, mask_length as u64);
        let content = (copy.len() as u64 - 16).wrapping_sub(mask_length as u64);
        put_number(&mut copy, 8, 8, content);
    } else {
        let mask = match rng.below(4) {
            0 => (copy.len() as u64 - 15).wrapping_add(rng.below(20) as u64),
            1 => (rng.below(20) as u64).wrapping_neg(),
            2 => mask_length as u64 + (1 << 32),
            _ => a_number(rng),
        };
        put_number(&mut copy, 0, 8, mask);
        let content = (copy.len() as u64 - 16).wrapping_sub(mask);
        put_number(&mut copy, 8, 8, content);
    }
    copy
}
pub fn damaged(rng: &mut Rng, bytes: &[u8], masks: u64, cells: usize) -> Vec<u8> {
    let mut copy = bytes.to_vec();
    let length = copy.len();
    let mask_length = judge::mask_bytes(masks == 1, cells);
    match rng.below(12) {
        0 if length > 0 => {
            let at = rng.below(length);
            copy[at] ^= 1 << rng.below(8);
        }
        10 | 11 if length > 16 => {
            // a mask byte, of the outermost frame or of the next
            let at = rng.pick(&[16, 16, 32 + mask_length]).min(length - 1);
            let end = (at + cells).min(length);
            spoilt(rng, &mut copy[at..end]);
        }
        1 if length > 0 => copy.truncate(rng.below(length)),
        2 => {
            let more = 1 + rng.below(17);
            copy.extend(rng.bytes(more));
        }
        3 => {
            // a number where a field begins: a frame's lengths, the index length at either end, an offset
            let at = rng.pick(&[0, 8, length.saturating_sub(8), 16 + mask_length, 24 + mask_length]);
            let n = a_number(rng);
            put_number(&mut copy, at, 8, n);
        }
        4 => {
            let width = rng.pick(&[4, 8]);
            let at = rng.pick(&[0, 8]) + width * rng.below(cells + 2);
            let n = a_number(rng);
            put_number(&mut copy, at, width, n);
        }
        5 | 6 => copy = wrap_frame(rng, bytes, mask_length),
        7 if length > 0 => {
            copy.remove(rng.below(length));
        }
        8 => {
            let at = rng.below(length + 1);
            copy.insert(at, 0);
        }
        _ if length > 1 => {
            let (a, b) = (rng.below(length), rng.below(length));
            copy.swap(a, b);
        }
        _ => {}
    }
    copy
}
/// Where the parts of a string that `stored` made lie: lengths, masks, offsets, data, cells.
fn parts(kind: [u64; 5], cells: usize, bytes: &[u8]) -> Vec<Range<usize>> {
    let (mut list, mut at, mut cells) = (vec![], 0, cells);
    for _ in 0..kind[0] {
        let mask = at + 16..at + 16 + judge::mask_bytes(kind[4] == 1, cells);
        cells = bytes[mask.clone()].iter().map(|byte| byte.count_ones() as usize).sum();
        list.extend([at..at + 8, at + 8..at + 16, mask.clone()]);
        at = mask.end;
        if cells == 0 {
            return list;
        }
    }
    let (size, count) = (kind[2] as usize, if kind[1] == 0 { cells } else { cells + 1 });
    let first = match (kind[1], kind[3]) {
        (0, _) => at,
        (_, 0) => {
            list.extend([at..at + 8, at + 8 + size * count..bytes.len()]);
            at + 8
        }
        _ => {
            let index = bytes.len() - 8 - size * count;
            list.extend([at..index, bytes.len() - 8..bytes.len()]);
            index
        }
    };
    list.extend((0..count).map(|i| first + size * i..first + size * (i + 1)));
    list.retain(|part| !part.is_empty());
    list
}
/// One bit changed, a cut, bytes behind it, two parts exchanged, or within a part two bytes or two bits. Where cells, bytes of a mask or bits of a
/// packed one change places, the copy can mostly be read.
fn damaged_part(rng: &mut Rng, bytes: &[u8], parts: &[Range<usize>]) -> Vec<u8> {
    let mut copy = bytes.to_vec();
    let (a, b) = (parts[rng.below(parts.len())].clone(), parts[rng.below(parts.len())].clone());
    match rng.below(12) {
        0 => {
            let at = rng.below(copy.len());
            copy[at] ^= 1 << rng.below(8);
        }
        1 => copy.truncate(rng.below(bytes.len())),
        2 => {
            let more = 1 + rng.below(17);
            copy.extend(if rng.below(2) == 0 { vec![0; more] } else { rng.bytes(more) });
        }
        3..=5 if a.end <= b.start => {
            copy = [&bytes[..a.start], &bytes[b.clone()], &bytes[a.end..b.start], &bytes[a], &bytes[b.end..]].concat();
        }
        6..=8 => copy.swap(a.start + rng.below(a.len()), a.start + rng.below(a.len())),
        _ => {
            let (i, j) = (8 * a.start + rng.below(8 * a.len()), 8 * a.start + rng.below(8 * a.len()));
            let change = (bytes[i / 8] >> (i % 8) ^ bytes[j / 8] >> (j % 8)) & 1;
            copy[i / 8] ^= change << (i % 8);
            copy[j / 8] ^= change << (j % 8);
        }
    }
    copy
}
/// Another kind, shape or list of numbers, mostly a wrong one.
pub fn damaged_kind(rng: &mut Rng, kind: [u64; 5]) -> [u64; 5] {
    let mut copy = kind;
    let at = rng.below(5);
    copy[at] = if rng.below(2) == 0 { a_number(rng) } else { copy[at].wrapping_add(1) };
    copy
}
pub fn damaged_numbers(rng: &mut Rng, list: &[u64]) -> Vec<u64> {
    let mut copy = list.to_vec();
    if copy.is_empty() {
        return vec![a_number(rng)];
    }
    let at = rng.below(copy.len());
    match rng.below(6) {
        0 => copy[at] = copy[at].wrapping_add(1),
        1 => copy[at] = copy[at].wrapping_sub(1),
        2 => copy[at] = a_number(rng),
        3 => {
            copy.remove(at);
        }
        4 => copy.insert(at, list[at]),
        _ => {
            let other = rng.below(copy.len());
            copy.swap(at, other);
        }
    }
    copy
}
pub fn damaged_bytes(rng: &mut Rng, list: &[u8]) -> Vec<u8> {
    let mut copy = list.to_vec();
    if copy.is_empty() || rng.below(2) == 0 {
        copy.push(rng.byte());
    } else {
        copy.pop();
    }
    copy
}
/// A damaged content. Offsets that would make the Rust ask for memory stay outside the domain, since the array's rules are broken.
pub fn damaged_content(rng: &mut Rng, c: &Content) -> Content {
    let mut copy = c.clone();
    match rng.below(6) {
        0 => copy.masks = damaged_bytes(rng, &c.masks),
        1 => copy.values = damaged_bytes(rng, &c.values),
        2 => spoilt(rng, &mut copy.masks),
        3 => copy = late(rng, c),
        _ => copy.offsets = damaged_numbers(rng, &c.offsets),
    }
    copy
}

/// Several faults at once: each part is damaged once in three times.
fn faulty(rng: &mut Rng, request: &Request) -> Request {
    let mut r = request.clone();
    match &mut r {
        Encode { kind, shape, masks, values, offsets } | EncodeInterleaved { kind, shape, masks, values, offsets } => {
            faulty_head(rng, kind, shape);
            faulty_content(rng, masks, values, offsets);
        }
        Decode { kind, shape, bytes } => {
            faulty_head(rng, kind, shape);
            faulty_stored(rng, kind[4], bytes);
        }
        DecodeInterleaved { cells, bytes } => {
            if rng.once_in(3) {
                *cells = a_number(rng);
            }
            faulty_stored(rng, 0, bytes);
        }
        Extract { kind, shape, subset, masks, values, offsets }
        | Merge { kind, shape, subsets: subset, masks, values, offsets } => {
            faulty_head(rng, kind, shape);
            if rng.once_in(3) {
                *subset = damaged_numbers(rng, subset);
            }
            faulty_content(rng, masks, values, offsets);
        }
        PartialDecode { width, place, shape, subset, bytes } => {
            let mut kind = [0, 1, *width, *place, 0];
            faulty_head(rng, &mut kind, shape);
            (*width, *place) = (kind[2], kind[3]);
            if rng.once_in(3) {
                *subset = damaged_numbers(rng, subset);
            }
            faulty_stored(rng, 0, bytes);
        }
        ReverseEndianness { size, .. } => *size = a_number(rng),
        SubsetCells { shape, subset } => {
            if rng.once_in(2) {
                *shape = damaged_numbers(rng, shape);
            }
            *subset = damaged_numbers(rng, subset);
        }
        Generate { kind, shape, .. } => faulty_head(rng, kind, shape),
        TableMake { .. } | TableRead { .. } | TableSet { .. } | TablePack { .. } | TablePreview { .. } => {} // tables.rs
        GuestRead { kind, shape, rights, masks, values, offsets } => {
            faulty_head(rng, kind, shape);
            if rng.once_in(4) {
                *rights = guests::wrong_plane(rng, rights);
            }
            faulty_content(rng, masks, values, offsets);
        }
        GuestEdit { .. } => {}                           // guests.rs
        Arrangement { .. } => {}                         // arrangements.rs
        MigrateStep { .. } | MigrateExtract { .. } => {} // live.rs
    }
    r
}
fn faulty_head(rng: &mut Rng, kind: &mut [u64; 5], shape: &mut Vec<u64>) {
    if rng.once_in(6) {
        *kind = damaged_kind(rng, *kind);
    }
    if rng.once_in(3) {
        *shape = damaged_numbers(rng, shape);
    }
}
fn faulty_content(rng: &mut Rng, masks: &mut Vec<u8>, values: &mut Vec<u8>, offsets: &mut Vec<u64>) {
    if rng.once_in(3) {
        *masks = damaged_bytes(rng, masks);
    }
    if rng.once_in(5) {
        spoilt(rng, masks);
    }
    if rng.once_in(3) {
        *values = damaged_bytes(rng, values);
    }
    if rng.once_in(3) {
        *offsets = damaged_numbers(rng, offsets);
    }
}
fn faulty_stored(rng: &mut Rng, masks: u64, bytes: &mut Vec<u8>) {
    if rng.once_in(2) {
        let cells = 1 + rng.below(4);
        *bytes = damaged(rng, bytes, masks, cells);
    }
}

// ---------------------------------------------------------------- requests over a content

fn encode(kind: [u64; 5], shape: &[u64], c: &Content) -> Request {
    Encode { kind, shape: shape.to_vec(), masks: c.masks.clone(), values: c.values.clone(), offsets: c.offsets.clone() }
}
/// `encode_interleaved`, and what is written read again: by the Rust, too.
fn ask_interleaved(sink: &mut dyn Sink, kind: [u64; 5], shape: &[u64], c: &Content) {
    let request = encode_interleaved(kind, shape, c);
    if let Ok(r) = request.judged() {
        sink.ask(DecodeInterleaved { cells: cells_of(shape) as u64, bytes: r.values });
    }
    sink.ask(request);
}
fn encode_interleaved(kind: [u64; 5], shape: &[u64], c: &Content) -> Request {
    let Encode { kind, shape, masks, values, offsets } = encode(kind, shape, c) else { unreachable!() };
    EncodeInterleaved { kind, shape, masks, values, offsets }
}
fn decode(kind: [u64; 5], shape: &[u64], bytes: &[u8]) -> Request {
    Decode { kind, shape: shape.to_vec(), bytes: bytes.to_vec() }
}
pub fn extract(kind: [u64; 5], shape: &[u64], subset: &[u64], c: &Content) -> Request {
    Extract {
        kind,
        shape: shape.to_vec(),
        subset: subset.to_vec(),
        masks: c.masks.clone(),
        values: c.values.clone(),
        offsets: c.offsets.clone(),
    }
}
pub fn merge(kind: [u64; 5], shape: &[u64], list: &[(Vec<u64>, Content)]) -> Request {
    let (mut subsets, mut masks, mut values, mut offsets) = (vec![], vec![], vec![], vec![]);
    for (subset, c) in list {
        subsets.extend(subset);
        masks.extend(&c.masks);
        values.extend(&c.values);
        offsets.extend(&c.offsets);
    }
    Merge { kind, shape: shape.to_vec(), subsets, masks, values, offsets }
}
fn partial_decode(kind: [u64; 5], shape: &[u64], subset: &[u64], bytes: &[u8]) -> Request {
    PartialDecode { width: kind[2], place: kind[3], shape: shape.to_vec(), subset: subset.to_vec(), bytes: bytes.to_vec() }
}
fn subset_cells(shape: &[u64], subset: &[u64]) -> Request {
    SubsetCells { shape: shape.to_vec(), subset: subset.to_vec() }
}
fn generate(kind: [u64; 5], shape: &[u64], start: u32) -> Request {
    Generate { kind, shape: shape.to_vec(), start }
}

// ---------------------------------------------------------------- exhaustive

/// All lists of `count` numbers below `n`.
pub fn lists(n: u64, count: usize) -> Vec<Vec<u64>> {
    let mut all = vec![vec![]];
    for _ in 0..count {
        all = all.iter().flat_map(|list| (0..n).map(move |x| [&list[..], &[x]].concat())).collect();
    }
    all
}
/// All strings of up to `length` bytes out of `alphabet`.
fn strings(alphabet: &[u8], length: usize) -> Vec<Vec<u8>> {
    (0..=length)
        .flat_map(|n| lists(alphabet.len() as u64, n))
        .map(|list| list.iter().map(|&i| alphabet[i as usize]).collect())
        .collect()
}

/// Loads of few cells and of each depth and mask form, with any start number.
fn loads(sink: &mut dyn Sink, rng: &mut Rng) {
    for turn in 0..102_000 {
        let kind = any_kind(rng, turn % 5, turn as u64 / 5 % 2);
        let cells = 1 + rng.below(12);
        sink.ask(generate(kind, &shape_of(rng, cells), rng.next() as u32));
    }
}

/// Strings that can be read, and damaged copies of each.
fn damaged_strings(sink: &mut dyn Sink, rng: &mut Rng) {
    for turn in 0..5_000 {
        let kind = any_kind(rng, turn % 5, turn as u64 / 5 % 2);
        let cells = 1 + rng.below(12);
        let good = stored(rng, kind, cells);
        let parts = parts(kind, cells, &good);
        sink.ask(decode(kind, &shape_of(rng, cells), &good));
        sink.damaged(true);
        for _ in 0..40 {
            let copy = damaged_part(rng, &good, &parts);
            if copy != good {
                sink.ask(decode(kind, &shape_of(rng, cells), &copy));
            }
        }
        sink.damaged(false);
    }
}

/// Null or set in all ways, for up to four cells and eight mask bytes; all short lengths. Written and read back.
fn exhaustive_masks(sink: &mut dyn Sink, rng: &mut Rng) {
    for depth in 0..=4 {
        for cells in 1..=4 {
            if depth * cells > 8 {
                continue;
            }
            let lengths = if depth * cells > 6 || cells == 4 { 2 } else { 3 };
            for set in 0..1u64 << (depth * cells) {
                let masks: Vec<u8> = (0..depth * cells).map(|i| (set >> i & 1) as u8).collect();
                let mut both = |kind, c: &Content| {
                    let shape = shape_of(rng, cells);
                    let request = encode(kind, &shape, c);
                    if let Ok(r) = request.judged() {
                        sink.ask(decode(kind, &shape, &r.values));
                    }
                    sink.ask(request);
                };
                for size in [1, 3] {
                    for order in [0, 1] {
                        let values = (1..=cells as u8 * size).collect();
                        let c = Content { masks: masks.clone(), values, offsets: vec![] };
                        let kind = fixed(depth, u64::from(size), order);
                        both(kind, &c);
                        both(packed(kind), &c);
                    }
                }
                for list in lists(lengths, cells) {
                    let list: Vec<usize> = list.iter().map(|&n| n as usize).collect();
                    let mut values = vec![];
                    let mut offsets = vec![0];
                    for (i, &length) in list.iter().enumerate() {
                        values.extend(vec![b'a' + i as u8; length]);
                        offsets.push(values.len() as u64);
                    }
                    let c = Content { masks: masks.clone(), values, offsets };
                    for (width, place) in RAGGED {
                        both(ragged(depth, width, place), &c);
                    }
                    both(packed(ragged(depth, 4, 0)), &c);
                }
            }
        }
    }
}

/// All short strings, as the whole, as the content of frames at each level, and behind all small frame lengths.
fn exhaustive_strings(sink: &mut dyn Sink, rng: &mut Rng) {
    // every string of two bytes
    for n in 0..=0xFFFF_u16 {
        sink.ask(decode(fixed(0, 2, 1), &[1], &n.to_le_bytes()));
    }
    let kinds = [fixed(0, 1, 0), fixed(0, 2, 1), fixed(0, 3, 1), ragged(0, 4, 0), ragged(0, 8, 1), packed(fixed(0, 1, 0))];
    let short = strings(&[0, 1, 2, 0xFF], 4);
    for levels in 0..=4 {
        for inner in 0..=4 - levels {
            for kind in kinds {
                for cells in 1..=3 {
                    for s in &short {
                        let (bytes, cells) = wrapped(rng, kind[4], levels, cells, s.clone());
                        sink.ask(decode(at_depth(kind, levels + inner), &[cells as u64], &bytes));
                    }
                }
            }
        }
    }
    for cells in 1..=3_u64 {
        for mask_length in 0..=4_u64 {
            for content_length in 0..=3_u64 {
                for s in strings(&[0, 1, 2], 4) {
                    let mut bytes = mask_length.to_le_bytes().to_vec();
                    bytes.extend(content_length.to_le_bytes());
                    bytes.extend(s);
                    sink.ask(decode(fixed(1, 1, 0), &[cells], &bytes));
                    sink.ask(decode(packed(fixed(1, 1, 0)), &[cells], &bytes));
                }
            }
        }
    }
    // the index of ragged values: small offsets in all ways, each length of data, behind up to four frames; so all hidden bytes of an index,
    // with other faults and without. Also after the index length of another count
    for (width, place) in RAGGED {
        for cells in 1..=3 {
            for offsets in lists(4, cells + 1) {
                for data in 0..=4 {
                    let s = ragged_string(width, place, &offsets, &b"wxyz"[..data]);
                    for levels in 0..=4 {
                        let (bytes, outer) = wrapped(rng, 0, levels, cells, s.clone());
                        sink.ask(decode(ragged(levels, width, place), &[outer as u64], &bytes));
                    }
                    let levels = 1 + rng.below(4);
                    let (bytes, outer) = wrapped(rng, 1, levels, cells, s.clone());
                    sink.ask(decode(packed(ragged(levels, width, place)), &[outer as u64], &bytes));
                    for subset in [inside(rng, &[cells as u64]), vec![0, 0]] {
                        sink.ask(partial_decode(ragged(0, width, place), &[cells as u64], &subset, &s));
                    }
                }
            }
        }
        for index_length in 0..=40_u64 {
            for rest in 0..=40 {
                let (length, rest) = (index_length.to_le_bytes().to_vec(), vec![0; rest]);
                let s = if place == 0 { [length, rest].concat() } else { [rest, length].concat() };
                for cells in 1..=4 {
                    sink.ask(decode(ragged(0, width, place), &[cells], &s));
                }
            }
        }
    }
    // the interleaved form: small counts and lengths in all ways, each length of the rest
    for cells in 0..=3 {
        for count in 0..=4_u64 {
            for lengths in lists(4, cells as usize) {
                for data in 0..=8 {
                    let mut bytes = (count as u32).to_le_bytes().to_vec();
                    let mut left: Vec<u8> = (1..=data).collect();
                    for &length in &lengths {
                        bytes.extend((length as u32).to_le_bytes());
                        let now = left.len().min(length as usize);
                        bytes.extend(left.drain(..now));
                    }
                    bytes.extend(left);
                    sink.ask(DecodeInterleaved { cells, bytes });
                }
            }
        }
    }
    // and written: small lengths behind small first offsets, of which only 0 is right, in all ways, each width, place and mask form, at depth 1 too
    for cells in 1..=4 {
        for lengths in lists(4, cells) {
            for first in 0..=2 {
                let mut offsets = vec![first];
                for length in &lengths {
                    offsets.push(offsets[offsets.len() - 1] + length);
                }
                let c = Content { masks: vec![], values: (1..=offsets[cells] as u8).collect(), offsets };
                let shape = shape_of(rng, cells);
                for (width, place) in RAGGED {
                    ask_interleaved(sink, ragged(0, width, place), &shape, &c);
                }
                ask_interleaved(sink, packed(ragged(0, 4, 0)), &shape, &c);
                ask_interleaved(sink, ragged(1, 4, 0), &shape, &Content { masks: vec![1; cells], ..c.clone() });
                ask_interleaved(sink, ragged(0, 4, 0), &shape, &Content { masks: vec![1; cells], ..c });
            }
        }
    }
    for s in strings(&[0, 1, 4, 0xFF], 5) {
        for cells in 0..=1_u64 {
            let bytes = [&(cells as u32).to_le_bytes()[..], &s].concat();
            sink.ask(DecodeInterleaved { cells, bytes });
        }
    }
}

/// Packed masks of up to ten cells in all ways, written and read back; and every last byte of a mask, read with the content of the cells
/// that its used bits set, with none, with one byte more, and behind lengths of the mask that are one too few and too many.
fn exhaustive_packed(sink: &mut dyn Sink, rng: &mut Rng) {
    for cells in 1..=10 {
        for set in 0..1_u64 << cells {
            let plane: Vec<u8> = (0..cells).map(|i| (set >> i & 1) as u8).collect();
            for kind in [packed(fixed(1, 1, 0)), packed(ragged(1, 4, 1))] {
                let c = Content { masks: plane.clone(), ..content(rng, kind, cells) };
                let shape = shape_of(rng, cells);
                let request = encode(kind, &shape, &c);
                if let Ok(r) = request.judged() {
                    sink.ask(decode(kind, &shape, &r.values));
                }
                sink.ask(request);
            }
        }
    }
    for cells in 1..=17_usize {
        for last in 0..=0xFF {
            let mut mask: Vec<u8> = (0..cells.div_ceil(8)).map(|_| rng.byte()).collect();
            *mask.last_mut().unwrap() = last;
            let set = (0..cells).filter(|i| mask[i / 8] >> (i % 8) & 1 == 1).count();
            let contents = [vec![7; set], vec![], vec![7; set + 1]];
            let shorter = mask[..mask.len() - 1].to_vec();
            let longer = [&mask[..], &[last]].concat();
            let frames =
                contents.iter().map(|content| (&mask, content)).chain([(&shorter, &contents[0]), (&longer, &contents[0])]);
            for (mask, content) in frames {
                // the bytes are stored as they are, whatever the kind says of them
                let s = frame(0, mask, content);
                sink.ask(decode(packed(fixed(1, 1, 0)), &[cells as u64], &s));
                let levels = 1 + rng.below(3);
                let (bytes, outer) = wrapped(rng, 1, levels, cells, s);
                sink.ask(decode(packed(fixed(1 + levels, 1, 0)), &[outer as u64], &bytes));
            }
        }
    }
}

/// Mask bytes over 01. Stored: every two bytes as a mask; one in each place of masks of up to 66 cells, and of two cells at each level, with
/// the content of the cells that are 01, of those that are not 00, with none, and with one byte more. Handed over: every byte in each place of
/// a plane of two cells at each depth, and one in each place of planes of up to 66 cells.
fn exhaustive_strict(sink: &mut dyn Sink, rng: &mut Rng) {
    let contents = |mask: &[u8]| {
        let (set, other) = (mask.iter().filter(|&&m| m == 1).count(), mask.iter().filter(|&&m| m > 1).count());
        [vec![7; set], vec![7; set + other], vec![], vec![7; set + other + 1]]
    };
    for pair in 0..=0xFFFF_u16 {
        let mask = pair.to_le_bytes();
        let content = rng.pick(&[0, 1, 1, 2, 3]);
        sink.ask(decode(fixed(1, 1, 0), &[2], &frame(0, &mask, &contents(&mask)[content])));
    }
    for cells in 1..=66 {
        for at in 0..cells {
            let mut mask = plane(rng, cells);
            let kind = rng.pick(&[fixed(1, 1, 0), ragged(1, 4, 0), packed(fixed(1, 1, 0))]);
            let mut c = content(rng, kind, cells);
            (mask[at], c.masks[at]) = (over_01(rng), over_01(rng));
            for content in contents(&mask) {
                sink.ask(decode(fixed(1, 1, 0), &[cells as u64], &frame(0, &mask, &content)));
            }
            let shape = shape_of(rng, cells);
            sink.ask(encode(kind, &shape, &c));
            let subset = inside(rng, &shape);
            sink.ask(extract(kind, &shape, &subset, &c));
            let whole = [vec![0; shape.len()], shape.clone()].concat();
            sink.ask(merge(kind, &shape, &[(whole, c)]));
        }
    }
    strict_levels(sink, rng);
    strict_planes(sink, rng);
}
/// Each level of up to four: a mask of two cells with a byte over 01, in frames that set two cells of two or three.
fn strict_levels(sink: &mut dyn Sink, rng: &mut Rng) {
    for kind in [fixed(0, 1, 0), fixed(0, 2, 1), ragged(0, 4, 0), ragged(0, 8, 1)] {
        for depth in 1..=4 {
            for level in 0..depth {
                for mask in [[2, 0], [0, 2], [2, 1], [1, 2], [0xFF, 1], [1, 0x80], [2, 2], [0xFF, 2]] {
                    let set = mask.iter().filter(|&&m| m == 1).count();
                    let inner = at_depth(kind, depth - level - 1);
                    let mut list = vec![vec![], b"x".to_vec(), b"abcde".to_vec(), vec![0; 24], stored(rng, inner, 2)];
                    if set > 0 {
                        list.push(stored(rng, inner, set));
                    }
                    for content in list {
                        let (bytes, outer) = wrapped(rng, 0, level, 2, frame(0, &mask, &content));
                        sink.ask(decode(at_depth(kind, depth), &[outer as u64], &bytes));
                        // and a wrong length beside it
                        let mut copy = frame(0, &mask, &content);
                        copy[rng.pick(&[0, 8])] ^= 1;
                        let (bytes, outer) = wrapped(rng, 0, level, 2, copy);
                        sink.ask(decode(at_depth(kind, depth), &[outer as u64], &bytes));
                    }
                }
            }
        }
    }
}
/// Every byte in each place of planes of two cells, below nulls and below set cells, in both mask forms; also beside 5 and 12.
fn strict_planes(sink: &mut dyn Sink, rng: &mut Rng) {
    for depth in 1..=4 {
        for at in 0..2 * depth {
            for byte in 0..=0xFF {
                let (width, place) = rng.pick(&RAGGED);
                let mut kind = rng.pick(&[fixed(depth, 1, 0), fixed(depth, 3, 1), ragged(depth, width, place)]);
                kind[4] = rng.below(2) as u64;
                let mut c = content(rng, kind, 2);
                c.masks[at] = byte;
                sink.ask(encode(kind, &[2], &c));
                sink.ask(encode_interleaved(at_depth(kind, 0), &[2], &c));
                for subset in [[0, 1], [1, 1], [0, 0]] {
                    sink.ask(extract(kind, &[2], &subset, &c));
                }
                sink.ask(merge(kind, &[2], &[(vec![0, 2], c.clone())]));
                // in either chunk; 12 where cell 2 is missed
                let other = content(rng, kind, 1);
                sink.ask(merge(kind, &[3], &[(vec![2, 1], other.clone()), (vec![0, 2], c.clone())]));
                sink.ask(merge(kind, &[3], &[(vec![0, 2], c.clone()), (vec![2, 1], other)]));
                sink.ask(merge(kind, &[3], &[(vec![0, 2], c)]));
            }
        }
    }
}

/// Hidden content at each level of up to four: a mask with nothing set, in frames that set so many cells. Behind it nothing; bytes; a frame that
/// has nothing set either, of as many cells and of one; a content that could be read. Beside it a wrong length, or a mask that 13 or 14 is due to.
fn hidden_content(sink: &mut dyn Sink, rng: &mut Rng) {
    for kind in [fixed(0, 1, 0), fixed(0, 2, 1), ragged(0, 4, 0), ragged(0, 8, 1)] {
        for masks in [0, 1] {
            for (depth, level) in (1..=4).flat_map(|depth| (0..depth).map(move |level| (depth, level))) {
                for cells in [1, 2, 3, 8, 9] {
                    let kind = [depth as u64, kind[1], kind[2], kind[3], masks];
                    let inner = at_depth(kind, depth - level - 1);
                    let mut list = vec![vec![], vec![0], b"x".to_vec(), b"abcde".to_vec(), vec![0; 16], vec![0; 24]];
                    list.extend([frame(masks, &vec![0; cells], &[]), frame(masks, &[0], &[]), stored(rng, inner, cells)]);
                    for content in list {
                        let good = frame(masks, &vec![0; cells], &content);
                        let mut wrong_length = good.clone();
                        wrong_length[rng.pick(&[0, 8])] ^= 1;
                        let mut wrong_mask = good.clone();
                        wrong_mask[15 + judge::mask_bytes(masks == 1, cells)] = rng.pick(&[0x02, 0x80]);
                        for s in [good, wrong_length, wrong_mask] {
                            let (bytes, outer) = wrapped(rng, masks, level, cells, s);
                            sink.ask(decode(kind, &[outer as u64], &bytes));
                        }
                    }
                }
            }
        }
    }
}
/// First offsets handed over: all offsets 0 to 3 of one to three cells with 0 to 4 value bytes, in each call that takes them.
fn hidden_offsets(sink: &mut dyn Sink, rng: &mut Rng) {
    for cells in 1..=3 {
        for offsets in lists(4, cells + 1) {
            for bytes in 0..=4 {
                let (width, place) = rng.pick(&RAGGED);
                let mut kind = ragged(rng.below(5), width, place);
                kind[4] = rng.below(2) as u64;
                let c = Content { values: b"wxyz"[..bytes].to_vec(), offsets: offsets.clone(), ..content(rng, kind, cells) };
                let shape = shape_of(rng, cells);
                sink.ask(encode(kind, &shape, &c));
                let subset = inside(rng, &shape);
                sink.ask(extract(kind, &shape, &subset, &c));
                sink.ask(extract(kind, &shape, &vec![0; 2 * shape.len()], &c));
                let whole = [vec![0; shape.len()], shape.clone()].concat();
                sink.ask(merge(kind, &shape, &[(whole, c.clone())]));
                ask_interleaved(sink, at_depth(kind, 0), &shape, &Content { masks: vec![], ..c });
            }
        }
    }
}
/// One to four chunks of one or two cells, of any lengths and of none, behind first offsets 0 to 2 in all ways; in any order; also where a cell
/// is missed, and where a byte is missing or too many.
fn hidden_chunks(sink: &mut dyn Sink, rng: &mut Rng) {
    for (count, empty) in (1..=4).flat_map(|count| [(count, true), (count, false), (count, false)]) {
        for firsts in lists(3, count) {
            let (depth, masks) = (rng.below(3), rng.below(2) as u64);
            let (width, place) = rng.pick(&RAGGED);
            let kind = [depth as u64, 1, width, place, masks];
            let mut cells = 0;
            let mut list: Vec<(Vec<u64>, Content)> = firsts
                .iter()
                .map(|&first| {
                    let own = 1 + rng.below(2);
                    let mut c = content(rng, kind, own);
                    if empty {
                        (c.values, c.offsets) = (vec![], vec![0; own + 1]);
                    }
                    c.values.splice(0..0, b"pq"[..first as usize].iter().copied());
                    c.offsets.iter_mut().for_each(|offset| *offset += first);
                    cells += own as u64;
                    (vec![cells - own as u64, own as u64], c)
                })
                .collect();
            rng.shuffle(&mut list);
            sink.ask(merge(kind, &[cells], &list));
            sink.ask(merge(kind, &[cells + 1], &list));
            let last = &mut list[count - 1].1.values;
            *last = damaged_bytes(rng, last);
            sink.ask(merge(kind, &[cells], &list));
        }
    }
}

/// All subsets of small shapes, those outside too; all lists of up to four subsets.
fn exhaustive_subsets(sink: &mut dyn Sink, rng: &mut Rng) {
    let mut shapes: Vec<Vec<u64>> = (1..=5).map(|side| vec![side]).collect();
    for a in 1..=3 {
        for b in 1..=3 {
            shapes.push(vec![a, b]);
        }
    }
    shapes.extend([vec![1, 2, 2], vec![2, 1, 2], vec![2, 2, 1], vec![2, 2, 2]]);
    for shape in &shapes {
        let most = shape.iter().max().unwrap() + 2;
        for subset in lists(most, 2 * shape.len()) {
            sink.ask(subset_cells(shape, &subset));
            if shape.len() < 3 {
                let (depth, masks) = (rng.below(5), rng.below(2) as u64);
                let kind = any_kind(rng, depth, masks);
                let c = content(rng, kind, cells_of(shape));
                sink.ask(extract(kind, shape, &subset, &c));
                let (width, place) = rng.pick(&RAGGED);
                let kind = ragged(0, width, place);
                let bytes = stored(rng, kind, cells_of(shape));
                sink.ask(partial_decode(kind, shape, &subset, &bytes));
            }
        }
    }
    for (shape, most) in [(vec![1], 4), (vec![2], 4), (vec![3], 4), (vec![2, 2], 4), (vec![2, 1, 2], 3)] {
        let sides = shape.len();
        let all: Vec<Vec<u64>> = lists(4, 2 * sides)
            .into_iter()
            .filter(|s| (0..sides).all(|i| s[sides + i] > 0 && s[i] + s[sides + i] <= shape[i]))
            .collect();
        for count in 0..=most {
            for picks in lists(all.len() as u64, count) {
                let (depth, masks) = (rng.below(3), rng.below(2) as u64);
                let kind = any_kind(rng, depth, masks);
                let list: Vec<(Vec<u64>, Content)> = picks
                    .iter()
                    .map(|&i| {
                        let subset = all[i as usize].clone();
                        let cells = cells_of(&subset[sides..]);
                        (subset, content(rng, kind, cells))
                    })
                    .collect();
                sink.ask(merge(kind, &shape, &list));
            }
        }
    }
}

fn exhaustive_reversal(sink: &mut dyn Sink, rng: &mut Rng) {
    for size in 0..=66 {
        for length in 0..=140 {
            let bytes = rng.bytes(length);
            sink.ask(ReverseEndianness { size, bytes });
        }
    }
}

// ---------------------------------------------------------------- limits

fn limits(sink: &mut dyn Sink, rng: &mut Rng) {
    // every number of a kind, alone and together with other faults
    let good =
        [fixed(0, 1, 0), fixed(2, 3, 1), ragged(0, 4, 0), ragged(1, 8, 1), packed(fixed(0, 1, 0)), packed(ragged(1, 8, 1))];
    for kind in good {
        let c = content(rng, kind, 2);
        for at in 0..5 {
            for n in NUMBERS.iter().copied().chain(0..70).chain([(1 << 32) + 4, (1 << 32) + 8, (1 << 63) + 1]) {
                let mut k = kind;
                k[at] = n;
                for shape in [vec![2], vec![0], vec![]] {
                    sink.ask(encode(k, &shape, &c));
                    sink.ask(encode_interleaved(k, &shape, &c));
                    sink.ask(decode(k, &shape, &[]));
                    sink.ask(extract(k, &shape, &[0, 2], &c));
                    sink.ask(merge(k, &shape, &[(vec![0, 2], c.clone())]));
                    sink.ask(partial_decode(k, &shape, &[0, 2], &[0; 8]));
                    sink.ask(generate(k, &shape, n as u32));
                }
                sink.ask(ReverseEndianness { size: n, bytes: vec![1; 65] });
            }
        }
    }
    // shapes, with products that leave 64 bits
    let sides = [0, 1, 2, 3, 255, 256, 257, 65_535, 65_536, 65_537, 1 << 31, 1 << 32, 1 << 48, 1 << 63, MAX];
    let mut shapes: Vec<Vec<u64>> = vec![vec![], vec![1; 5], vec![1, 1, 1, 1, 1, 1], vec![16; 4], vec![2; 16]];
    for a in sides {
        shapes.push(vec![a]);
        for b in sides {
            shapes.push(vec![a, b]);
            for _ in 0..3 {
                shapes.push(vec![a, b, rng.pick(&sides)]);
                shapes.push(vec![a, b, rng.pick(&sides), rng.pick(&sides)]);
            }
        }
    }
    for shape in &shapes {
        let at_0: Vec<u64> = [vec![0; shape.len()], vec![1; shape.len()]].concat();
        sink.ask(subset_cells(shape, &at_0));
        sink.ask(subset_cells(shape, &[]));
        let last: Vec<u64> = shape.iter().map(|s| s.wrapping_sub(1)).chain(vec![1; shape.len()]).collect();
        sink.ask(subset_cells(shape, &last));
        sink.ask(decode(fixed(0, 1, 0), shape, &[]));
        sink.ask(decode(fixed(0, 1, 0), shape, &[7]));
        sink.ask(decode(ragged(0, 4, 0), shape, &ragged_string(4, 0, &[0], &[])));
        sink.ask(decode(fixed(1, 1, 0), shape, &[0; 16]));
        let none = Content { masks: vec![], values: vec![], offsets: vec![] };
        sink.ask(encode(fixed(0, 1, 0), shape, &none));
        sink.ask(encode(ragged(0, 8, 0), shape, &Content { offsets: vec![0], ..none.clone() }));
        sink.ask(encode_interleaved(ragged(0, 8, 0), shape, &Content { offsets: vec![0], ..none.clone() }));
        sink.ask(extract(fixed(0, 1, 0), shape, &at_0, &none));
        sink.ask(merge(fixed(0, 1, 0), shape, &[]));
        sink.ask(partial_decode(ragged(0, 4, 0), shape, &at_0, &ragged_string(4, 0, &[0], &[])));
        sink.ask(generate(ragged(1, 4, 0), shape, a_start(rng)));
    }
    // starts and lengths, with sums that leave 64 bits
    for side in [1, 2, 65_536] {
        for start in NUMBERS {
            for length in NUMBERS.iter().copied().chain([start.wrapping_neg(), side - 1, 1_u64.wrapping_sub(start)]) {
                sink.ask(subset_cells(&[side], &[start, length]));
                if side <= 2 {
                    let kind = fixed(1, 1, 0);
                    let c = content(rng, kind, side as usize);
                    sink.ask(extract(kind, &[side], &[start, length], &c));
                    let kind = ragged(0, 4, 0);
                    let c = content(rng, kind, 1);
                    sink.ask(merge(kind, &[side], &[(vec![start, length], c)]));
                    let bytes = stored(rng, kind, side as usize);
                    sink.ask(partial_decode(kind, &[side], &[start, length], &bytes));
                }
            }
        }
    }
    // an empty subset in a list, a list with too many or too few numbers
    for kind in [fixed(0, 1, 0), ragged(1, 8, 0)] {
        let whole = content(rng, kind, 2);
        let empty = Content { masks: vec![], values: vec![], offsets: if kind[1] == 1 { vec![0] } else { vec![] } };
        for at in 0..=2 {
            sink.ask(merge(kind, &[2], &[(vec![0, 2], whole.clone()), (vec![at, 0], empty.clone())]));
        }
        for subsets in [vec![0], vec![0, 2, 0], vec![0, 2, 2], vec![0, 0, 2, 2], vec![0, 2, 0, 2, 0]] {
            sink.ask(merge(kind, &[2], &[(subsets, whole.clone())]));
        }
    }
    // sums of last offsets that leave 64 bits, offsets near 2^64
    let half = 1 << 63;
    for offsets in [
        vec![0, half, 0, half],
        vec![0, MAX, 0, 1],
        vec![0, MAX, 0, 2],
        vec![0, MAX - 1, 0, 4],
        vec![half, half, half, half],
        vec![MAX, MAX, 1, 1],
        vec![1, 1, 1, 1],
    ] {
        for values in [vec![], vec![1], vec![1, 2]] {
            let c = Content { masks: vec![], values, offsets: offsets.clone() };
            sink.ask(merge(ragged(0, 8, 0), &[2], &[(vec![0, 1, 1, 1], c.clone())]));
            sink.ask(merge(ragged(0, 8, 0), &[2], &[(vec![0, 1, 0, 1], c)]));
        }
    }
    for n in NUMBERS {
        for values in [vec![], vec![1], vec![1; 8]] {
            for offsets in [vec![0, n], vec![n, n], vec![n, 0], vec![n], vec![1, n]] {
                let c = Content { masks: vec![], values: values.clone(), offsets };
                for width in [4, 8] {
                    sink.ask(encode(ragged(0, width, 0), &[1], &c));
                }
                ask_interleaved(sink, ragged(0, 4, 0), &[1], &c);
                sink.ask(extract(ragged(0, 8, 0), &[1], &[0, 1], &c));
                sink.ask(extract(ragged(0, 8, 0), &[1], &[1, 0], &c));
            }
        }
        // the count of the interleaved form, from the caller and in the field
        for bytes in [vec![], vec![0; 4], vec![1, 0, 0, 0], (n as u32).to_le_bytes().to_vec()] {
            sink.ask(DecodeInterleaved { cells: n, bytes });
        }
        for bytes in [0, 1, 8].map(|more| [&[1, 0, 0, 0][..], &(n as u32).to_le_bytes(), &vec![5; more]].concat()) {
            sink.ask(DecodeInterleaved { cells: 1, bytes });
        }
        // every number in every field of a frame and of an index
        for (depth, cells) in [(1, 1), (2, 1), (1, 3), (4, 2)] {
            for kind in [fixed(depth, 1, 0), ragged(depth, 4, 0), ragged(depth, 8, 1), packed(ragged(depth, 4, 0))] {
                let s = stored(rng, kind, cells);
                for at in 0..s.len().saturating_sub(7) {
                    let mut copy = s.clone();
                    put_number(&mut copy, at, 8, n);
                    sink.ask(decode(kind, &[cells as u64], &copy));
                }
                if s.len() >= 16 {
                    for mask in [n, n.wrapping_add(cells as u64), n.wrapping_neg()] {
                        let mut copy = s.clone();
                        put_number(&mut copy, 0, 8, mask);
                        put_number(&mut copy, 8, 8, (s.len() as u64 - 16).wrapping_sub(mask));
                        sink.ask(decode(kind, &[cells as u64], &copy));
                    }
                }
            }
        }
    }
}

// ---------------------------------------------------------------- medium

/// Each size, depth and order with cells around the blocks that a fast walk may have.
fn blocks(sink: &mut dyn Sink, rng: &mut Rng) {
    let counts = [31, 32, 33, 63, 64, 65, 127, 128, 129, 239, 240, 241, 255, 256, 257, 479, 480, 511, 512, 513, 700];
    let mut kinds: Vec<[u64; 5]> = RAGGED.iter().map(|&(width, place)| ragged(0, width, place)).collect();
    for size in 1..=64 {
        kinds.extend([fixed(0, size, 0), fixed(0, size, 1)]);
    }
    kinds.extend(kinds.clone().into_iter().map(packed));
    for kind in kinds {
        for depth in kind[4] as usize..=4 {
            let kind = at_depth(kind, depth);
            let cells = rng.pick(&counts);
            let shape = shape_of(rng, cells);
            let c = content(rng, kind, cells);
            sink.ask(encode(kind, &shape, &c));
            if kind[1] == 1 {
                sink.ask(encode(kind, &shape, &late(rng, &c)));
            }
            ask_load(sink, kind, &shape, a_start(rng));
            let cells = rng.pick(&counts);
            let bytes = stored(rng, kind, cells);
            let shape = shape_of(rng, cells);
            sink.ask(decode(kind, &shape, &bytes));
            sink.ask(decode(kind, &shape, &hiding(rng, kind, cells)));
            let c = content(rng, kind, cells);
            let subset = inside(rng, &shape);
            sink.ask(extract(kind, &shape, &subset, &c));
            if kind[1] == 1 && depth == 0 {
                for _ in 0..10 {
                    let bytes = stored(rng, kind, cells);
                    let subset = inside(rng, &shape);
                    sink.ask(partial_decode(kind, &shape, &subset, &bytes));
                }
            }
            let list = partition(rng, &shape);
            let list: Vec<(Vec<u64>, Content)> = list
                .into_iter()
                .map(|subset| {
                    let cells = cells_of(&subset[shape.len()..]);
                    (subset, content(rng, kind, cells))
                })
                .collect();
            sink.ask(merge(kind, &shape, &list));
            if kind[1] == 0 {
                let bytes = rng.bytes(cells * kind[2] as usize + depth);
                sink.ask(ReverseEndianness { size: kind[2], bytes });
            }
        }
    }
    for cells in counts {
        let bytes = interleaved(rng, cells);
        sink.ask(DecodeInterleaved { cells: cells as u64, bytes });
        let c = content(rng, ragged(0, 4, 0), cells);
        ask_interleaved(sink, ragged(0, 4, 0), &shape_of(rng, cells), &c);
    }
}

// ---------------------------------------------------------------- large

/// The limit of value bytes as it was once, and that of a store. What is longer by far is in long.rs.
pub const ONCE: usize = 16_777_216;

/// 65,536 cells in each call.
fn many_cells(sink: &mut dyn Sink, rng: &mut Rng) {
    const CELLS: usize = 65_536;
    for (shape, kind) in [
        (vec![65_536], fixed(4, 64, 1)),
        (vec![256, 256], fixed(0, 8, 0)),
        (vec![16, 16, 16, 16], ragged(4, 4, 0)),
        (vec![1, 65_536], ragged(0, 8, 1)),
        (vec![256, 256], packed(fixed(2, 8, 0))),
        (vec![16, 16, 16, 16], packed(ragged(4, 8, 1))),
    ] {
        let c = content(rng, kind, CELLS);
        let subset = inside(rng, &shape);
        sink.ask(encode(kind, &shape, &c));
        let s = stored(rng, kind, CELLS);
        sink.ask(decode(kind, &shape, &s));
        sink.ask(extract(kind, &shape, &subset, &c));
        sink.ask(subset_cells(&shape, &subset));
        let list = partition(rng, &shape);
        let list: Vec<(Vec<u64>, Content)> = list
            .into_iter()
            .map(|subset| {
                let cells = cells_of(&subset[shape.len()..]);
                (subset, content(rng, kind, cells))
            })
            .collect();
        sink.ask(merge(kind, &shape, &list));
        if kind[0] > 0 {
            let mut bad = c.clone();
            spoilt(rng, &mut bad.masks);
            sink.ask(encode(kind, &shape, &bad));
            sink.ask(extract(kind, &shape, &subset, &bad));
            let mut bad = s.clone();
            spoilt(rng, &mut bad[16..16 + judge::mask_bytes(kind[4] == 1, CELLS)]);
            sink.ask(decode(kind, &shape, &bad));
        }
        sink.ask(decode(kind, &shape, &hiding(rng, kind, CELLS)));
        if kind[1] == 1 {
            let bad = late(rng, &c);
            sink.ask(encode(kind, &shape, &bad));
            sink.ask(extract(kind, &shape, &subset, &bad));
        }
        sink.ask(encode(kind, &[65_537], &content(rng, kind, CELLS + 1)));
        ask_load(sink, kind, &shape, a_start(rng));
        sink.ask(generate(kind, &[65_537], a_start(rng)));
        if kind[1] == 1 && kind[0] == 0 {
            sink.ask(partial_decode(kind, &shape, &subset, &s));
        }
    }
    for cells in [CELLS, CELLS + 1] {
        let lengths = value_lengths(rng, cells);
        let bytes = interleaved_of(rng, &lengths);
        sink.ask(DecodeInterleaved { cells: cells as u64, bytes });
        let c = content(rng, ragged(0, 8, 1), cells);
        ask_interleaved(sink, ragged(0, 8, 1), &[cells as u64], &c);
    }
    // one subset for each cell, in any order; then one cell missed, one held twice
    for kind in [fixed(1, 2, 0), ragged(1, 4, 0)] {
        let mut order: Vec<u64> = (0..CELLS as u64).collect();
        rng.shuffle(&mut order);
        let mut list: Vec<(Vec<u64>, Content)> =
            order.iter().map(|&cell| (vec![cell / 256, cell % 256, 1, 1], content(rng, kind, 1))).collect();
        sink.ask(merge(kind, &[256, 256], &list));
        if kind[1] == 1 {
            // only the last chunk has a first offset above 0
            let kept = list[CELLS - 1].1.clone();
            list[CELLS - 1].1 = late(rng, &kept);
            sink.ask(merge(kind, &[256, 256], &list));
            list[CELLS - 1].1 = kept;
        }
        let again = list[7].clone();
        list.push(again);
        sink.ask(merge(kind, &[256, 256], &list));
        list.truncate(CELLS - 1);
        sink.ask(merge(kind, &[256, 256], &list));
    }
}

/// 16,777,216 value bytes in each call, and one more, which is no limit any more.
fn many_bytes(sink: &mut dyn Sink, rng: &mut Rng) {
    let bulk = rng.bytes(ONCE + 1);
    for bytes in [ONCE, ONCE + 1] {
        let values = &bulk[..bytes];
        let end = bytes as u64;
        let whole = Content { masks: vec![], values: values.to_vec(), offsets: vec![0, end] };
        let late = Content { masks: vec![], values: values.to_vec(), offsets: vec![1, end] };
        let kind = ragged(0, 8, 0);
        sink.ask(encode(kind, &[1], &whole));
        sink.ask(encode(ragged(1, 4, 1), &[1], &Content { masks: vec![1], ..whole.clone() }));
        let bad = Content { masks: vec![2], ..whole.clone() };
        sink.ask(encode(ragged(1, 4, 1), &[1], &bad));
        sink.ask(extract(ragged(1, 4, 1), &[1], &[1, 0], &bad));
        sink.ask(merge(ragged(1, 4, 1), &[1], &[(vec![0, 1], bad)]));
        sink.ask(encode(ragged(1, 4, 1), &[1], &Content { masks: vec![0], ..whole.clone() }));
        sink.ask(encode(kind, &[1], &Content { offsets: vec![end, end], ..whole.clone() }));
        ask_interleaved(sink, kind, &[1], &whole);
        sink.ask(extract(kind, &[1], &[0, 1], &whole));
        sink.ask(extract(kind, &[1], &[1, 0], &whole));
        sink.ask(merge(kind, &[1], &[(vec![0, 1], whole.clone())]));
        ask_interleaved(sink, kind, &[1], &late);
        sink.ask(encode(kind, &[1], &late));
        sink.ask(extract(kind, &[1], &[1, 0], &late));
        sink.ask(merge(kind, &[1], &[(vec![0, 1], late)]));
        sink.ask(merge(kind, &[2], &[(vec![0, 1], whole.clone())]));
        let (a, b) = (ONCE / 2, bytes - ONCE / 2);
        for subsets in [vec![0, 1, 1, 1], vec![0, 1, 0, 1]] {
            for second in [0, 1] {
                let c = Content { masks: vec![], values: values.to_vec(), offsets: vec![0, a as u64, second, b as u64] };
                sink.ask(merge(kind, &[2], &[(subsets.clone(), c)]));
            }
        }
        for (width, place) in [(4, 0), (8, 1)] {
            // a first offset above 0, and one that falls: 10
            for offsets in [[0, end], [1, end], [end, end], [end + 1, end]] {
                let s = ragged_string(width, place, &offsets, values);
                sink.ask(decode(ragged(0, width, place), &[1], &s));
                if place == 0 {
                    sink.ask(partial_decode(ragged(0, width, place), &[1], &[0, 1], &s));
                    sink.ask(partial_decode(ragged(0, width, place), &[1], &[0, 0], &s));
                    sink.ask(decode(ragged(1, width, place), &[1], &frame(0, &[1], &s)));
                }
            }
        }
        sink.ask(decode(ragged(1, 8, 0), &[1], &frame(0, &[0], values)));
        sink.ask(decode(ragged(0, 8, 0), &[1], &ragged_string(8, 0, &[end, end - 1], &values[1..])));
        let mut s = 1_u32.to_le_bytes().to_vec();
        s.extend((bytes as u32).to_le_bytes());
        s.extend(values);
        sink.ask(DecodeInterleaved { cells: 1, bytes: s.clone() });
        s[0] = 2;
        sink.ask(DecodeInterleaved { cells: 2, bytes: s });
        sink.ask(ReverseEndianness { size: 8, bytes: values.to_vec() });
    }
    // cells × size over all subsets: four times the whole shape is as much, and a cell more
    let kind = fixed(0, 64, 0);
    let whole = content(rng, kind, 65_536);
    let mut list = vec![(vec![0, 65_536], whole); 4];
    sink.ask(merge(kind, &[65_536], &list));
    list.push((vec![0, 1], content(rng, kind, 1)));
    sink.ask(merge(kind, &[65_536], &list));
}

// ---------------------------------------------------------------- random, with damaged copies

/// A request, and copies with several faults.
pub fn ask_with_faults(sink: &mut dyn Sink, rng: &mut Rng, request: Request) {
    for _ in 0..3 {
        sink.ask(faulty(rng, &request));
    }
    sink.ask(request);
}

fn random_decode(sink: &mut dyn Sink, rng: &mut Rng, masks: u64) {
    let depth = rng.below(5);
    let kind = any_kind(rng, depth, masks);
    let levels = rng.below(depth + 1);
    let inner = at_depth(kind, depth - levels);
    let cells = if rng.once_in(20) { 1 + rng.below(60) } else { 1 + rng.below(6) };
    let good = if rng.once_in(4) { hiding(rng, inner, cells) } else { stored(rng, inner, cells) };
    let mut copies = vec![good.clone()];
    if good.len() <= 40 && rng.once_in(8) {
        copies.extend(each_damage(&good));
    } else {
        for _ in 0..8 {
            copies.push(damaged(rng, &good, masks, cells));
        }
        let twice = damaged(rng, &good, masks, cells);
        copies.push(damaged(rng, &twice, masks, cells));
    }
    for s in copies {
        sink.damaged(s != good);
        let partial = depth == 0 && kind[1] == 1;
        let (bytes, outer) = wrapped(rng, masks, levels, cells, s);
        let shape = shape_of(rng, outer);
        if partial {
            let subset = inside(rng, &shape);
            if rng.once_in(4) {
                ask_with_faults(sink, rng, partial_decode(kind, &shape, &subset, &bytes));
            } else {
                sink.ask(partial_decode(kind, &shape, &subset, &bytes));
            }
        }
        if rng.once_in(10) {
            let (k, s) = (damaged_kind(rng, kind), damaged_numbers(rng, &shape));
            sink.ask(decode(k, &shape, &bytes));
            sink.ask(decode(kind, &s, &bytes));
            sink.ask(faulty(rng, &decode(kind, &shape, &bytes)));
        }
        sink.ask(decode(kind, &shape, &bytes));
    }
    sink.damaged(false);
}

fn random_array(sink: &mut dyn Sink, rng: &mut Rng, masks: u64) {
    let depth = rng.below(5);
    let kind = any_kind(rng, depth, masks);
    let shape = any_shape(rng);
    let c = content(rng, kind, cells_of(&shape));
    let subset = inside(rng, &shape);
    let request = encode(kind, &shape, &c);
    if let Ok(r) = request.judged() {
        sink.ask(decode(kind, &shape, &r.values));
        if depth == 0 && kind[1] == 1 {
            sink.ask(partial_decode(kind, &shape, &subset, &r.values));
        }
    }
    ask_with_faults(sink, rng, request);
    ask_with_faults(sink, rng, extract(kind, &shape, &subset, &c));
    ask_with_faults(sink, rng, subset_cells(&shape, &subset));
    sink.ask(ReverseEndianness { size: 1 + rng.below(64) as u64, bytes: c.values.clone() });
    for _ in 0..3 {
        let bad = damaged_content(rng, &c);
        sink.ask(encode(kind, &shape, &bad));
        sink.ask(extract(kind, &shape, &subset, &bad));
    }
    let (k, s, b) = (damaged_kind(rng, kind), damaged_numbers(rng, &shape), damaged_numbers(rng, &subset));
    sink.ask(encode(k, &shape, &c));
    sink.ask(encode(kind, &s, &c));
    sink.ask(extract(k, &shape, &subset, &c));
    sink.ask(extract(kind, &s, &subset, &c));
    sink.ask(extract(kind, &shape, &b, &c));
    sink.ask(subset_cells(&s, &subset));
    sink.ask(subset_cells(&shape, &b));
}

/// The interleaved form written, of any kind; behind the others, so that `random` draws as it did.
pub fn random_older(sink: &mut dyn Sink, rng: &mut Rng) {
    let (depth, masks) = (rng.below(3), rng.below(2) as u64);
    let kind = any_kind(rng, depth, masks);
    let shape = any_shape(rng);
    ask_interleaved(sink, kind, &shape, &content(rng, kind, cells_of(&shape)));
    let (width, place) = rng.pick(&RAGGED);
    let kind = ragged(0, width, place);
    let c = content(rng, kind, cells_of(&shape));
    ask_interleaved(sink, kind, &shape, &c);
    ask_with_faults(sink, rng, encode_interleaved(kind, &shape, &c));
    for _ in 0..3 {
        let bad = damaged_content(rng, &c);
        sink.ask(encode_interleaved(kind, &shape, &bad));
    }
    let (k, s) = (damaged_kind(rng, kind), damaged_numbers(rng, &shape));
    sink.ask(encode_interleaved(k, &shape, &c));
    sink.ask(encode_interleaved(kind, &s, &c));
}

/// Start numbers about the ends of 16, 31 and 32 bits, and any.
fn a_start(rng: &mut Rng) -> u32 {
    if rng.below(2) == 0 { a_number(rng) as u32 } else { rng.next() as u32 }
}
/// A load, and what is written of it: by the Rust, too.
fn ask_load(sink: &mut dyn Sink, kind: [u64; 5], shape: &[u64], start: u32) {
    let request = generate(kind, shape, start);
    if let Ok(r) = request.judged() {
        sink.ask(encode(kind, shape, &Content { masks: r.masks, values: r.values, offsets: r.offsets }));
    }
    sink.ask(request);
}
/// Behind the others, so that `random` draws as it did.
fn random_load(sink: &mut dyn Sink, rng: &mut Rng) {
    let (depth, masks) = (rng.below(5), rng.below(2) as u64);
    let kind = any_kind(rng, depth, masks);
    let shape = any_shape(rng);
    let start = a_start(rng);
    ask_load(sink, kind, &shape, start);
    ask_with_faults(sink, rng, generate(kind, &shape, start.wrapping_add(1)));
    let (k, s) = (damaged_kind(rng, kind), damaged_numbers(rng, &shape));
    sink.ask(generate(k, &shape, start));
    sink.ask(generate(kind, &s, start));
    sink.ask(generate(k, &s, start));
}

fn random_merge(sink: &mut dyn Sink, rng: &mut Rng, masks: u64) {
    let depth = rng.below(5);
    let kind = any_kind(rng, depth, masks);
    let shape = any_shape(rng);
    let sides = shape.len();
    let mut list: Vec<(Vec<u64>, Content)> = partition(rng, &shape)
        .into_iter()
        .map(|subset| {
            let cells = cells_of(&subset[sides..]);
            (subset, content(rng, kind, cells))
        })
        .collect();
    let request = merge(kind, &shape, &list);
    ask_with_faults(sink, rng, request.clone());
    if kind[1] == 1 {
        // one chunk with a first offset above 0
        let at = rng.below(list.len());
        let kept = list[at].1.clone();
        list[at].1 = late(rng, &kept);
        sink.ask(merge(kind, &shape, &list));
        list[at].1 = kept;
    }
    let Merge { subsets, masks, values, offsets, .. } = request else { unreachable!() };
    let all = Content { masks, values, offsets };
    for _ in 0..3 {
        let bad = damaged_content(rng, &all);
        sink.ask(merge(kind, &shape, &[(subsets.clone(), bad)]));
        let bad = damaged_numbers(rng, &subsets);
        sink.ask(merge(kind, &shape, &[(bad, all.clone())]));
    }
    sink.ask(merge(damaged_kind(rng, kind), &shape, &list));
    sink.ask(merge(kind, &damaged_numbers(rng, &shape), &list));
    // a subset twice, a subset missed, one in the place of another
    let at = rng.below(list.len());
    let other = rng.below(list.len());
    list.push(list[at].clone());
    sink.ask(merge(kind, &shape, &list));
    list.pop();
    let kept = list[at].clone();
    list[at] = list[other].clone();
    sink.ask(merge(kind, &shape, &list));
    list[at] = kept;
    // a subset moved: its cells number the same
    let side = rng.below(sides);
    list[at].0[side] = rng.below(shape[side] as usize) as u64;
    sink.ask(merge(kind, &shape, &list));
    list.remove(at);
    sink.ask(merge(kind, &shape, &list));
}

fn random_interleaved(sink: &mut dyn Sink, rng: &mut Rng) {
    let cells = if rng.once_in(10) { rng.below(40) } else { rng.below(5) };
    let good = interleaved(rng, cells);
    let mut copies = vec![good.clone()];
    if good.len() <= 24 && rng.once_in(8) {
        copies.extend(each_damage(&good));
    } else {
        for _ in 0..6 {
            copies.push(damaged(rng, &good, 0, cells));
        }
        let mut field = good.clone();
        let n = a_number(rng);
        put_number(&mut field, 4, 4, n);
        copies.push(field);
    }
    for bytes in copies {
        sink.ask(DecodeInterleaved { cells: cells as u64, bytes });
    }
    sink.ask(DecodeInterleaved { cells: cells as u64 + 1, bytes: good.clone() });
    sink.ask(DecodeInterleaved { cells: (cells as u64).wrapping_sub(1), bytes: good.clone() });
    ask_with_faults(sink, rng, DecodeInterleaved { cells: cells as u64, bytes: good });
}

/// Of kinds with masks of bytes: what is recorded of the Rust.
pub fn random(sink: &mut dyn Sink, rng: &mut Rng) {
    random_decode(sink, rng, 0);
    random_array(sink, rng, 0);
    random_merge(sink, rng, 0);
    random_interleaved(sink, rng);
}
fn random_packed(sink: &mut dyn Sink, rng: &mut Rng) {
    random_decode(sink, rng, 1);
    random_array(sink, rng, 1);
    random_merge(sink, rng, 1);
}

/// Everything, and random ones until `requests` have been asked.
pub fn all(sink: &mut dyn Sink, seed: u64, requests: u64) {
    let rng = &mut Rng(seed);
    let tables = &mut Rng(seed ^ 0x7461_626C_6573); // their own, so that the others draw as they did
    let guests = &mut Rng(seed ^ 0x6775_6573_7473);
    let moving = &mut Rng(seed ^ 0x6d6f_7669_6e67);
    for _ in 0..200 {
        random(sink, rng);
        random_packed(sink, rng);
        random_older(sink, rng);
        random_load(sink, rng);
        tables::random(sink, tables);
        guests::random(sink, guests);
        live::random(sink, moving);
    }
    arrangements::every(sink);
    arrangements::limits(sink);
    sink.long();
    live::limits(sink, moving);
    live::damages(sink, moving);
    live::uncovered(sink, moving);
    live::exhaustive(sink, moving);
    live::many_cells(sink, moving);
    guests::limits(sink, guests);
    guests::exhaustive(sink, guests);
    guests::blocks(sink, guests);
    guests::large(sink, guests);
    tables::limits(sink, tables);
    tables::exhaustive(sink, tables);
    tables::many_cells(sink, tables);
    limits(sink, rng);
    blocks(sink, rng);
    many_bytes(sink, rng);
    many_cells(sink, rng);
    exhaustive_reversal(sink, rng);
    exhaustive_subsets(sink, rng);
    exhaustive_masks(sink, rng);
    exhaustive_strings(sink, rng);
    exhaustive_packed(sink, rng);
    exhaustive_strict(sink, rng);
    hidden_content(sink, rng);
    hidden_offsets(sink, rng);
    hidden_chunks(sink, rng);
    loads(sink, rng);
    damaged_strings(sink, rng);
    let mut turn = 0;
    while sink.asked() < requests {
        random(sink, rng);
        turn += 1;
        if turn % 3 == 0 {
            random_packed(sink, rng);
            random_older(sink, rng);
            random_load(sink, rng);
            tables::random(sink, tables);
            guests::random(sink, guests);
            live::random(sink, moving);
        }
    }
}
