//! What both sides are called with.

use crate::rng::Rng;

#[derive(Clone, Copy, PartialEq)]
pub enum Mask {
    Empty,
    Full,
    Half,
    Clustered,
    Sparse,
}
pub const MASKS: [Mask; 4] = [Mask::Empty, Mask::Full, Mask::Half, Mask::Clustered];
impl Mask {
    pub fn name(self) -> &'static str {
        ["empty mask", "full mask", "half mask", "clustered mask", "sparse mask"][self as usize]
    }
    /// 00 and 01 only: what both sides take.
    pub fn plane(self, rng: &mut Rng, cells: usize) -> Vec<u8> {
        match self {
            Mask::Empty => vec![0; cells],
            Mask::Full => vec![1; cells],
            Mask::Half => (0..cells).map(|_| rng.below(2) as u8).collect(),
            Mask::Sparse => (0..cells).map(|_| u8::from(rng.once_in(32))).collect(),
            Mask::Clustered => {
                let mut mask = vec![];
                let mut set = 1;
                while mask.len() < cells {
                    // few cells have smaller clusters
                    let length = (16 + rng.below(96)).min(cells.div_ceil(4));
                    mask.extend(vec![set; length]);
                    set ^= 1;
                }
                mask.truncate(cells);
                mask
            }
        }
    }
}

/// Ragged values: of 0 to 8 bytes, of 200, of none.
#[derive(Clone, Copy, PartialEq)]
pub enum Values {
    Short,
    Long,
    Empty,
}
pub const VALUES: [Values; 3] = [Values::Short, Values::Long, Values::Empty];
impl Values {
    pub fn name(self) -> &'static str {
        ["short values", "long values", "empty values"][self as usize]
    }
    pub fn length(self, rng: &mut Rng) -> u64 {
        match self {
            Values::Short => rng.below(9) as u64,
            Values::Long => 200,
            Values::Empty => 0,
        }
    }
}

/// An array, and the subsets of a chunk list where there is one.
pub struct Input {
    pub kind: [u64; 5],
    pub shape: Vec<u64>,
    pub subsets: Vec<u64>,
    pub masks: Vec<u8>,
    pub values: Vec<u8>,
    pub offsets: Vec<u64>,
}
pub fn fixed(depth: u64, size: u64, order: u64) -> [u64; 5] {
    [depth, 0, size, order, 0]
}
pub fn ragged(depth: u64, width: u64, place: u64) -> [u64; 5] {
    [depth, 1, width, place, 0]
}
/// The same array of the kind with packed masks.
pub fn packed(i: &Input) -> Input {
    let Input { kind: [depth, form, size, order, _], shape, subsets, masks, values, offsets } = i;
    Input {
        kind: [*depth, *form, *size, *order, 1],
        shape: shape.clone(),
        subsets: subsets.clone(),
        masks: masks.clone(),
        values: values.clone(),
        offsets: offsets.clone(),
    }
}
pub fn four(k: &[u64; 5]) -> [u64; 4] {
    [k[0], k[1], k[2], k[3]]
}
pub fn kind_name(k: &[u64; 5]) -> String {
    if k[1] == 0 {
        format!("F({}, {})", k[2], ["little", "big"][k[3] as usize])
    } else {
        format!("R({}, {})", k[2], ["start", "end"][k[3] as usize])
    }
}
pub fn cells_of(shape: &[u64]) -> usize {
    shape.iter().product::<u64>() as usize
}
/// Two sides as equal as can be.
pub fn square(cells: usize) -> Vec<u64> {
    let mut side = 1;
    while side * side < cells {
        side *= 2;
    }
    vec![(cells / side) as u64, side as u64]
}
pub fn input(kind: [u64; 5], shape: Vec<u64>, mask: Mask, values: Values) -> Input {
    let rng = &mut Rng(7);
    let cells = cells_of(&shape);
    let masks = (0..kind[0]).flat_map(|_| mask.plane(rng, cells)).collect();
    let (values, offsets) = if kind[1] == 0 {
        (rng.bytes(cells * kind[2] as usize), vec![])
    } else {
        let mut offsets = vec![0];
        for _ in 0..cells {
            offsets.push(offsets.last().unwrap() + values.length(rng));
        }
        (rng.bytes(offsets[cells] as usize), offsets)
    };
    Input { kind, shape, subsets: vec![], masks, values, offsets }
}
/// A ragged array of depth 0 whose values have these lengths.
pub fn of_lengths(cells: usize, length: impl Fn(&mut Rng) -> u64) -> Input {
    let rng = &mut Rng(11);
    let mut offsets = vec![0];
    for _ in 0..cells {
        offsets.push(offsets.last().unwrap() + length(rng));
    }
    let values = rng.bytes(offsets[cells] as usize);
    Input { kind: ragged(0, 8, 0), shape: square(cells), subsets: vec![], masks: vec![], values, offsets }
}
/// A chunk list of `count` equal subsets over so many cells. A subset's masks are its part of the whole array's.
pub fn chunk_list(depth: u64, cells: usize, count: usize, mask: Mask, values: Values) -> Input {
    let rng = &mut Rng(9);
    let (kind, shape, n) = (ragged(depth, 8, 0), square(cells), square(count));
    let (high, wide, side) = (shape[0] / n[0], shape[1] / n[1], shape[1]);
    let planes: Vec<Vec<u8>> = (0..depth).map(|_| mask.plane(rng, cells)).collect();
    let mut all = Input { kind, shape, subsets: vec![], masks: vec![], values: vec![], offsets: vec![] };
    for top in (0..n[0]).map(|row| row * high) {
        for left in (0..n[1]).map(|column| column * wide) {
            all.subsets.extend([top, left, high, wide]);
            for plane in &planes {
                for line in top..top + high {
                    let at = (line * side + left) as usize;
                    all.masks.extend(&plane[at..at + wide as usize]);
                }
            }
            let mut end = 0;
            all.offsets.push(0);
            for _ in 0..high * wide {
                end += values.length(rng);
                all.offsets.push(end);
            }
            all.values.extend(rng.bytes(end as usize));
        }
    }
    all
}

/// The older form of so many values.
pub fn interleaved(cells: usize, values: Values) -> Vec<u8> {
    let rng = &mut Rng(5);
    let mut stored = (cells as u32).to_le_bytes().to_vec();
    for _ in 0..cells {
        let length = values.length(rng) as usize;
        stored.extend((length as u32).to_le_bytes());
        stored.extend(rng.bytes(length));
    }
    stored
}
