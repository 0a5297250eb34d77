//! The limits pass; one more of each is refused. That of value bytes is tried in long.rs; here are arrays of 16,777,216 value bytes,
//! the limit up to version 0.9, and of one more, which pass as well.

use durpaxeta::*;

const MOST: usize = 16_777_216;

fn kind() -> Kind {
    Kind::ragged(0, Width::Eight, Place::Start)
}

fn array(kind: Kind, shape: &[u64], masks: Vec<u8>, values: Vec<u8>, offsets: Vec<u64>) -> Array {
    Array { kind, shape: shape.to_vec(), masks, values, offsets }
}

fn value(length: usize) -> Vec<u8> {
    (0..length).map(|i| (i * 7 + (i >> 8)) as u8).collect()
}

/// One cell of that many bytes.
fn one(length: usize) -> Array {
    array(kind(), &[1], vec![], value(length), vec![0, length as u64])
}

/// The stored bytes of one cell, written by hand.
fn stored(place: Place, length: usize) -> Vec<u8> {
    let index = [0u64.to_le_bytes(), (length as u64).to_le_bytes()].concat();
    let count = 16u64.to_le_bytes().to_vec();
    match place {
        Place::Start => [count, index, value(length)].concat(),
        Place::End => [value(length), index, count].concat(),
    }
}

fn interleaved(lengths: &[usize]) -> Vec<u8> {
    let mut bytes = (lengths.len() as u32).to_le_bytes().to_vec();
    for &length in lengths {
        bytes.extend_from_slice(&(length as u32).to_le_bytes());
        bytes.extend_from_slice(&value(length));
    }
    bytes
}

#[test]
fn a_long_encode() {
    assert_eq!(encode(&one(MOST)).as_ref(), Ok(&stored(Place::Start, MOST)));
    assert_eq!(encode(&one(MOST + 1)).as_ref(), Ok(&stored(Place::Start, MOST + 1)));
    // The lengths come first, and so does the first offset.
    assert_eq!(encode(&array(kind(), &[1], vec![], vec![], vec![0, MOST as u64 + 1])), Err(Refusal::Content));
    let late = array(kind(), &[1], vec![], value(MOST + 1), vec![1, MOST as u64 + 1]);
    assert_eq!(encode(&late), Err(Refusal::Content));
}

#[test]
fn a_long_encode_interleaved() {
    assert_eq!(encode_interleaved(&one(MOST)).as_ref(), Ok(&interleaved(&[MOST])));
    assert_eq!(encode_interleaved(&one(MOST + 1)).as_ref(), Ok(&interleaved(&[MOST + 1])));
    assert_eq!(
        encode_interleaved(&array(kind(), &[1], vec![], vec![], vec![0, MOST as u64 + 1])),
        Err(Refusal::Content)
    );
    let many = array(kind(), &[65_536], vec![], vec![], vec![0; 65_537]);
    assert_eq!(encode_interleaved(&many).as_ref(), Ok(&interleaved(&[0; 65_536])));
}

#[test]
fn a_long_decode() {
    for place in [Place::Start, Place::End] {
        let kind = Kind::ragged(0, Width::Eight, place);
        let read = decode(kind, &[1], &stored(place, MOST)).unwrap();
        assert_eq!((read.values, read.offsets), (value(MOST), vec![0, MOST as u64]));
        assert_eq!(decode(kind, &[1], &stored(place, MOST + 1)).unwrap().values, value(MOST + 1));
        // Inside a frame.
        let framed = |length: usize| {
            let content = stored(place, length);
            [&1u64.to_le_bytes()[..], &(content.len() as u64).to_le_bytes(), &[1], &content].concat()
        };
        let kind = Kind::ragged(1, Width::Eight, place);
        assert_eq!(decode(kind, &[1], &framed(MOST)).unwrap().values, value(MOST));
        assert_eq!(decode(kind, &[1], &framed(MOST + 1)).unwrap().values, value(MOST + 1));
    }
    // A first offset above 0.
    let mut late = stored(Place::Start, MOST + 1);
    late[8] = 1;
    assert_eq!(decode(kind(), &[1], &late), Err(Refusal::Falling));
}

#[test]
fn a_long_decode_interleaved() {
    assert_eq!(decode_interleaved(1, &interleaved(&[MOST])).unwrap().values, value(MOST));
    assert_eq!(decode_interleaved(1, &interleaved(&[MOST + 1])).unwrap().values, value(MOST + 1));
    let two = decode_interleaved(2, &interleaved(&[MOST - 1, 1])).unwrap();
    assert_eq!(two.offsets, [0, MOST as u64 - 1, MOST as u64]);
    assert_eq!(decode_interleaved(2, &interleaved(&[MOST, 1])).unwrap().offsets, [0, MOST as u64, MOST as u64 + 1]);
    // A tail does not count.
    let tail = [interleaved(&[1]), value(MOST)].concat();
    assert_eq!(decode_interleaved(1, &tail).unwrap().values, value(1));
    // A cell past the end.
    let mut three = interleaved(&[MOST, 1]);
    three[0] = 3;
    assert_eq!(decode_interleaved(3, &three), Err(Refusal::PastEnd));
}

#[test]
fn a_long_extract() {
    let whole = Subset::whole(&[1]);
    assert_eq!(extract(&one(MOST), &whole).unwrap(), one(MOST));
    assert_eq!(extract(&one(MOST + 1), &whole).unwrap(), one(MOST + 1));
    assert_eq!(extract(&one(MOST + 1), &Subset::new(&[1], &[0]).unwrap()).unwrap().values, []);
}

#[test]
fn a_long_guest_read() {
    let kind = Kind::ragged(1, Width::Eight, Place::Start);
    let two = |length: usize| {
        let offsets = vec![0, length as u64 - 1, length as u64];
        array(kind, &[2], vec![1, 1], value(length), offsets)
    };
    let (all, last) = (Rights::new(&[true; 2]), Rights::new(&[false, true]));
    assert_eq!(guest_read(&two(MOST), &all).as_ref(), Ok(&two(MOST)));
    let byte = value(MOST)[MOST - 1];
    assert_eq!(guest_read(&two(MOST), &last), Ok(array(kind, &[2], vec![0, 1], vec![byte], vec![0, 0, 1])));
    assert_eq!(guest_read(&two(MOST + 1), &all).as_ref(), Ok(&two(MOST + 1)));
    assert_eq!(guest_read(&two(MOST + 1), &Rights::new(&[true])), Err(Refusal::Content));
    assert_eq!(guest_read(&one(MOST + 1), &Rights::new(&[])), Err(Refusal::NoMasks));
}

#[test]
fn a_long_merge() {
    let (first, second) = (Subset::new(&[0], &[1]).unwrap(), Subset::new(&[1], &[1]).unwrap());
    let merged = |subsets: [&Subset; 2], lengths: [usize; 2]| {
        let (a, b) = (one(lengths[0]), one(lengths[1]));
        merge(kind(), &[2], &[Chunk::new(subsets[0], &a), Chunk::new(subsets[1], &b)])
    };
    let half = MOST / 2;
    let both = merged([&second, &first], [half, half]).unwrap();
    assert_eq!(both.offsets, [0, half as u64, MOST as u64]);
    assert_eq!(both.values, [value(half), value(half)].concat());
    assert_eq!(merged([&second, &first], [half, half + 1]).unwrap().values, [value(half + 1), value(half)].concat());
    assert_eq!(merged([&first, &first], [half, half + 1]), Err(Refusal::Cover));
    let late = array(kind(), &[1], vec![], value(MOST + 1), vec![MOST as u64, MOST as u64 + 1]);
    assert_eq!(merge(kind(), &[1], &[Chunk::new(&first, &late)]), Err(Refusal::Content));
}

#[test]
fn a_long_fixed_merge() {
    let kind = Kind::fixed(0, 64, Order::Little);
    let (whole, cell) = (Subset::whole(&[65_536]), Subset::new(&[0], &[1]).unwrap());
    let all = array(kind, &[65_536], vec![], vec![1; 4_194_304], vec![]);
    let one = array(kind, &[1], vec![], vec![1; 64], vec![]);
    let mut chunks = vec![Chunk::new(&whole, &all); 4];
    assert_eq!(merge(kind, &[65_536], &chunks), Err(Refusal::Cover));
    chunks.push(Chunk::new(&cell, &one));
    assert_eq!(merge(kind, &[65_536], &chunks), Err(Refusal::Cover));
}

#[test]
fn a_long_partial_decode() {
    for place in [Place::Start, Place::End] {
        let whole = Subset::whole(&[1]);
        let part = |length, subset| partial_decode(Width::Eight, place, &[1], subset, &stored(place, length));
        assert_eq!(part(MOST, &whole).unwrap().values, value(MOST));
        assert_eq!(part(MOST + 1, &whole).unwrap().values, value(MOST + 1));
        assert_eq!(part(MOST + 1, &Subset::new(&[0], &[0]).unwrap()).unwrap().values, []);
    }
}

#[test]
fn depth_size_and_cells() {
    let shape = [65_536];
    let largest = Kind::fixed(4, 64, Order::Big);
    let table = array(largest, &shape, vec![1; 4 * 65_536], value(64 * 65_536), vec![]);
    let stored = encode(&table).unwrap();
    assert_eq!(stored.len(), 4 * (16 + 65_536) + 64 * 65_536);
    assert_eq!(decode(largest, &shape, &stored).as_ref(), Ok(&table));
    let whole = Subset::whole(&shape);
    assert_eq!(extract(&table, &whole).as_ref(), Ok(&table));
    assert_eq!(merge(largest, &shape, &[Chunk::new(&whole, &table)]).as_ref(), Ok(&table));
    let rights: Rights = (0..65_536).map(|cell| cell % 3 > 0).collect();
    let seen = guest_read(&table, &rights).unwrap();
    for (cell, wanted) in table.cells().enumerate() {
        assert_eq!(seen.cell(cell), Some(if cell % 3 > 0 { wanted } else { Cell::Null { level: 1 } }));
    }
    assert_eq!(subset_cells(&shape, &whole).unwrap().len(), 65_536);
    assert_eq!(decode_interleaved(65_536, &interleaved(&[0; 65_536])).unwrap().cell_count(), 65_536);
    // The last mask byte of many, handed over and stored.
    let (mut neither, mut bytes) = (table.clone(), stored);
    *neither.masks.last_mut().unwrap() = 2;
    assert_eq!(encode(&neither), Err(Refusal::Content));
    assert_eq!(extract(&neither, &Subset::new(&[0], &[1]).unwrap()), Err(Refusal::Content));
    assert_eq!(merge(largest, &shape, &[Chunk::new(&whole, &neither)]), Err(Refusal::Content));
    assert_eq!(guest_read(&neither, &rights), Err(Refusal::Content));
    bytes[16 + 65_535] = 2;
    assert_eq!(decode(largest, &shape, &bytes), Err(Refusal::NotBoolean));
    let load = generate(largest, &shape, u32::MAX).unwrap();
    assert_eq!((load.masks.len(), load.values.len()), (4 * 65_536, 64 * 65_536));
    let load = generate(Kind::ragged(4, Width::Four, Place::Start), &shape, 0).unwrap();
    assert_eq!((load.masks.len(), load.offsets.len()), (4 * 65_536, 65_537));

    assert_eq!(encode(&Array { kind: Kind::fixed(5, 64, Order::Big), ..table.clone() }), Err(Refusal::Kind));
    assert_eq!(encode(&Array { kind: Kind::fixed(4, 65, Order::Big), ..table.clone() }), Err(Refusal::Kind));
    assert_eq!(encode(&Array { shape: vec![65_537], ..table.clone() }), Err(Refusal::Shape));
    assert_eq!(decode_interleaved(65_537, &interleaved(&[0; 65_536])), Err(Refusal::Shape));
}

#[test]
fn one_subset_for_each_cell() {
    let kind = Kind::ragged(1, Width::Four, Place::End);
    let shape = [256, 256];
    let chunks: Vec<(Subset, Array)> = (0..65_536u64)
        .rev()
        .map(|cell| {
            let masks = vec![u8::from(cell % 3 > 0)];
            let values = cell.to_le_bytes()[..(cell % 4) as usize].to_vec();
            let offsets = vec![0, values.len() as u64];
            (Subset::new(&[cell / 256, cell % 256], &[1, 1]).unwrap(), array(kind, &[1, 1], masks, values, offsets))
        })
        .collect();
    let list: Vec<Chunk<'_>> = chunks.iter().map(|(subset, array)| Chunk::new(subset, array)).collect();
    let merged = merge(kind, &shape, &list).unwrap();
    for cell in 0..65_536u64 {
        let value = &cell.to_le_bytes()[..(cell % 4) as usize];
        let wanted = if cell % 3 == 0 { Cell::Null { level: 1 } } else { Cell::Value(value) };
        assert_eq!(merged.cell(cell as usize), Some(wanted));
    }
    assert_eq!(merge(kind, &shape, &list[1..]), Err(Refusal::Cover));
}
