//! Each refusal of each call, and their order.

use durpaxeta::*;

const LITTLE: Order = Order::Little;

fn array(kind: Kind, shape: &[u64], masks: &[u8], values: &[u8], offsets: &[u64]) -> Array {
    Array { kind, shape: shape.to_vec(), masks: masks.to_vec(), values: values.to_vec(), offsets: offsets.to_vec() }
}

fn subset(numbers: &[u64]) -> Subset {
    Subset::from_numbers(numbers.to_vec())
}

fn r4(depth: u64) -> Kind {
    Kind::ragged(depth, Width::Four, Place::Start)
}

fn f1(depth: u64) -> Kind {
    Kind::fixed(depth, 1, LITTLE)
}

/// Fields of eight and of four bytes, and bytes as they are.
fn le(numbers: &[u64], width: usize, then: &[u8]) -> Vec<u8> {
    let mut bytes: Vec<u8> = numbers.iter().flat_map(|number| number.to_le_bytes()[..width].to_vec()).collect();
    bytes.extend_from_slice(then);
    bytes
}

#[test]
fn numbers_messages_and_blame() {
    for &refusal in Refusal::ALL {
        assert_eq!(Refusal::try_from(refusal.number()), Ok(refusal));
        assert!(!refusal.message().is_empty());
        assert!(refusal.to_string().starts_with(&format!("refusal {}: {}", refusal.number(), refusal.message())));
        assert!(refusal.to_string().contains(&refusal.blame().to_string()));
    }
    assert!(Refusal::ALL.windows(2).all(|two| two[0].number() < two[1].number()));
    let last = Refusal::ALL.last().unwrap().number();
    for number in [0, last + 1, u32::MAX] {
        assert_eq!(Refusal::try_from(number), Err(UnknownRefusal(number)));
    }
    assert_eq!(UnknownRefusal(0).to_string(), "no refusal has the number 0");
    let all = Refusal::ALL.iter().copied();
    let of = |blame| all.clone().filter(|r| r.blame() == blame).map(Refusal::number).collect::<Vec<_>>();
    assert_eq!(of(Blame::Describer), [1, 2, 3, 17]);
    assert_eq!(of(Blame::Supplier), [4, 5, 12, 20]);
    assert_eq!(of(Blame::Setter), [15, 16, 18]);
    assert_eq!(of(Blame::Numberer), [19]);
    assert_eq!(of(Blame::Storer), [7, 8, 9, 10, 11, 13, 14]);
    assert_eq!(of(Blame::Lender), [6]);
}

#[test]
fn kind_comes_first() {
    let bad = [
        f1(5),
        f1(u64::MAX),
        r4(5),
        Kind::fixed(0, 0, LITTLE),
        Kind::fixed(0, 65, LITTLE),
        Kind::fixed(0, u64::MAX, LITTLE),
    ];
    for kind in bad {
        assert_eq!(encode(&array(kind, &[0], &[1], b"a", &[5])), Err(Refusal::Kind));
        assert_eq!(encode_interleaved(&array(kind, &[0], &[1], b"a", &[5])), Err(Refusal::Kind));
        assert_eq!(decode(kind, &[0], &[]), Err(Refusal::Kind));
        assert_eq!(generate(kind, &[0], 0), Err(Refusal::Kind));
        assert_eq!(guest_read(&array(kind, &[0], &[1], b"a", &[5]), &Rights::new(&[])), Err(Refusal::Kind));
        assert_eq!(extract(&array(kind, &[0], &[], &[], &[]), &subset(&[])), Err(Refusal::Kind));
        assert_eq!(merge(kind, &[0], &[]), Err(Refusal::Kind));
        let chunk = array(kind, &[1], &[], b"a", &[]);
        assert_eq!(merge(kind, &[0], &[Chunk::new(&subset(&[1]), &chunk)]), Err(Refusal::Kind));
        assert_eq!(Array::from_cells(kind, &[0], &[]), Err(Refusal::Kind));
    }
    // The interleaved form is of ragged kinds of depth 0 alone.
    for kind in [r4(1), r4(4), f1(0), f1(1)] {
        assert_eq!(encode_interleaved(&array(kind, &[], &[], b"", &[])), Err(Refusal::Kind));
    }
    let mut bytes = [1; 65];
    assert_eq!(reverse_endianness(0, &mut bytes), Err(Refusal::Kind));
    bytes[0] = 2;
    assert_eq!(reverse_endianness(65, &mut bytes), Err(Refusal::Kind));
    assert_eq!(bytes[0], 2);
}

#[test]
fn shape_comes_next() {
    let bad: [&[u64]; 9] = [
        &[],
        &[0],
        &[2, 0],
        &[65_537],
        &[256, 257],
        &[1, 1, 1, 1, 1],
        &[u64::MAX],
        &[1 << 32, 1 << 32],
        &[65_536, 1 << 48],
    ];
    for shape in bad {
        assert_eq!(encode(&array(f1(0), shape, &[1], &[], &[])), Err(Refusal::Shape));
        assert_eq!(encode_interleaved(&array(r4(0), shape, &[1], &[], &[])), Err(Refusal::Shape));
        assert_eq!(decode(f1(0), shape, &[]), Err(Refusal::Shape));
        assert_eq!(generate(r4(1), shape, 0), Err(Refusal::Shape));
        assert_eq!(guest_read(&array(f1(0), shape, &[1], &[], &[]), &Rights::new(&[true])), Err(Refusal::Shape));
        assert_eq!(extract(&array(r4(0), shape, &[], &[], &[]), &subset(&[9])), Err(Refusal::Shape));
        assert_eq!(merge(f1(0), shape, &[]), Err(Refusal::Shape));
        assert_eq!(
            merge(f1(0), shape, &[Chunk::new(&subset(&[9]), &array(f1(0), &[], &[], &[], &[]))]),
            Err(Refusal::Shape)
        );
        assert_eq!(partial_decode(Width::Four, Place::End, shape, &subset(&[9]), &[]), Err(Refusal::Shape));
        assert_eq!(subset_cells(shape, &subset(&[9])), Err(Refusal::Shape));
        assert_eq!(Array::from_cells(f1(0), shape, &[]), Err(Refusal::Shape));
    }
    assert_eq!(decode_interleaved(65_537, &[]), Err(Refusal::Shape));
    assert_eq!(decode_interleaved(u64::MAX, &[]), Err(Refusal::Shape));
}

#[test]
fn subsets() {
    let table = array(f1(0), &[2, 2], &[1], b"", &[]);
    let stored: [u8; 0] = [];
    let bad: [&[u64]; 8] = [
        &[],
        &[0, 0, 1],
        &[0, 0, 1, 1, 1],
        &[0, 0, 1, 1, 0, 0, 1, 1],
        &[0, 0, 0, 3],
        &[3, 0, 0, 2],
        &[u64::MAX, 0, 1, 1],
        &[1 << 63, 0, 1 << 63, 1],
    ];
    for numbers in bad {
        let bad = subset(numbers);
        assert_eq!(subset_cells(&[2, 2], &bad), Err(Refusal::Subset));
        assert_eq!(extract(&table, &bad), Err(Refusal::Subset));
        assert_eq!(partial_decode(Width::Eight, Place::Start, &[2, 2], &bad, &stored), Err(Refusal::Subset));
        assert_eq!(merge(f1(0), &[2, 2], &[Chunk::new(&bad, &table)]), Err(Refusal::Subset));
    }
    // An empty subset is fine to cut, not to merge.
    let empty = subset(&[0, 0, 0, 2]);
    assert_eq!(subset_cells(&[2, 2], &empty), Ok(vec![]));
    let whole = Subset::whole(&[2, 2]);
    let all = array(f1(0), &[2, 2], &[], b"abcd", &[]);
    let none = extract(&all, &empty).unwrap();
    assert_eq!(none, array(f1(0), &[0, 2], &[], b"", &[]));
    assert_eq!(merge(f1(0), &[2, 2], &[Chunk::new(&whole, &all), Chunk::new(&empty, &none)]), Err(Refusal::Subset));
    assert_eq!(encode(&none), Err(Refusal::Shape));

    assert_eq!(Subset::new(&[0], &[1, 1]), Err(Refusal::Subset));
    assert_eq!(Subset::from_ranges(&[std::ops::Range { start: 2, end: 1 }]), Err(Refusal::Subset));
    let good = Subset::new(&[1, 2], &[3, 4]).unwrap();
    assert_eq!((good.starts(), good.lengths(), good.numbers()), (&[1, 2][..], &[3, 4][..], &[1, 2, 3, 4][..]));
}

#[test]
fn contents() {
    let one = |kind, masks: &[u8], values: &[u8], offsets: &[u64]| array(kind, &[1], masks, values, offsets);
    let two = |kind, masks: &[u8], values: &[u8], offsets: &[u64]| array(kind, &[2], masks, values, offsets);
    let bad = [
        one(f1(0), &[1], b"a", &[]),
        one(f1(0), &[], b"", &[]),
        one(f1(0), &[], b"ab", &[]),
        one(f1(0), &[], b"a", &[0]),
        one(f1(0), &[], b"a", &[0, 1]),
        one(f1(1), &[], b"a", &[]),
        two(f1(2), &[1, 1, 1], b"ab", &[]),
        two(f1(2), &[1, 1, 1, 1, 1], b"ab", &[]),
        one(r4(0), &[], b"", &[]),
        one(r4(0), &[], b"", &[0]),
        one(r4(0), &[], b"x", &[0, 0]),
        one(r4(0), &[], b"x", &[0, 2]),
        one(r4(0), &[], b"x", &[0, 1, 1]),
        one(r4(0), &[], b"", &[0, 1 << 40]),
        one(r4(0), &[], b"", &[0, u64::MAX]),
        one(r4(1), &[], b"x", &[0, 1]),
        two(r4(0), &[], b"ab", &[1, 0, 2]),
        two(r4(0), &[], b"ab", &[0, 3, 2]),
        two(r4(0), &[], b"ab", &[0, u64::MAX, 2]),
        one(r4(0), &[], b"AB", &[1, 2]),
        one(r4(0), &[], b"A", &[1, 1]),
        one(r4(1), &[0], b"A", &[1, 1]),
        two(r4(4), &[1; 8], b"abc", &[1, 2, 3]),
    ];
    for table in &bad {
        assert_eq!(encode(table), Err(Refusal::Content), "{table:?}");
        if table.kind == r4(0) {
            assert_eq!(encode_interleaved(table), Err(Refusal::Content), "{table:?}");
        }
        assert_eq!(extract(table, &Subset::whole(&table.shape)), Err(Refusal::Content), "{table:?}");
        let whole = Subset::whole(&table.shape);
        assert_eq!(merge(table.kind, &table.shape, &[Chunk::new(&whole, table)]), Err(Refusal::Content), "{table:?}");
        let rights: Rights = (0..table.cell_count()).map(|_| true).collect();
        let seen = if table.kind.depth == 0 { Refusal::NoMasks } else { Refusal::Content };
        assert_eq!(guest_read(table, &rights), Err(seen), "{table:?}");
    }
    assert_eq!(Array::from_cells(f1(1), &[2], &[Cell::Value(b"a")]), Err(Refusal::Content));
    assert_eq!(Array::from_cells(f1(1), &[1], &[Cell::Value(b"ab")]), Err(Refusal::Content));
    assert_eq!(Array::from_cells(f1(1), &[1], &[Cell::Null { level: 2 }]), Err(Refusal::Content));
    assert_eq!(Array::from_cells(f1(1), &[1], &[Cell::Null { level: 0 }]), Err(Refusal::Content));
    assert_eq!(Array::from_cells(f1(0), &[1], &[Cell::Null { level: 1 }]), Err(Refusal::Content));
}

#[test]
fn chunks_are_tested_one_by_one() {
    let (first, second) = (subset(&[0, 1]), subset(&[1, 1]));
    let chunk = |values: &[u8]| array(f1(0), &[1], &[], values, &[]);
    // The totals agree, the chunks do not.
    let (long, none) = (chunk(b"ab"), chunk(b""));
    let merged = merge(f1(0), &[2], &[Chunk::new(&first, &long), Chunk::new(&second, &none)]);
    assert_eq!(merged, Err(Refusal::Content));
    // A chunk of another shape with as many cells.
    let tall = array(f1(0), &[2, 1], &[], b"ab", &[]);
    assert_eq!(merge(f1(0), &[1, 2], &[Chunk::new(&Subset::whole(&[1, 2]), &tall)]), Err(Refusal::Content));
    // Numbers of one subset are not taken for those of the next.
    let (three, one) = (subset(&[0, 1, 1]), subset(&[1]));
    let a = chunk(b"a");
    assert_eq!(merge(f1(0), &[2], &[Chunk::new(&three, &a), Chunk::new(&one, &a)]), Err(Refusal::Subset));
    let both = subset(&[0, 1, 1, 1]);
    assert_eq!(merge(f1(0), &[2], &[Chunk::new(&both, &long)]), Err(Refusal::Subset));
    // Order, width, place and mask form of a chunk do not matter.
    let big = array(Kind::fixed(0, 1, Order::Big), &[1], &[], b"a", &[]);
    assert_eq!(merge(f1(0), &[1], &[Chunk::new(&first, &big)]), Ok(chunk(b"a")));
    let packed = array(f1(0).packed(), &[1], &[], b"a", &[]);
    assert_eq!(merge(f1(0), &[1], &[Chunk::new(&first, &packed)]), Ok(chunk(b"a")));
}

#[test]
fn cover() {
    let (first, second, whole) = (subset(&[0, 1]), subset(&[1, 1]), subset(&[0, 2]));
    let a = array(f1(0), &[1], &[], b"a", &[]);
    let ab = array(f1(0), &[2], &[], b"ab", &[]);
    let merged = |chunks: &[Chunk<'_>]| merge(f1(0), &[2], chunks);
    assert_eq!(merged(&[Chunk::new(&first, &a)]), Err(Refusal::Cover));
    assert_eq!(merged(&[Chunk::new(&first, &a), Chunk::new(&first, &a)]), Err(Refusal::Cover));
    assert_eq!(merged(&[Chunk::new(&whole, &ab), Chunk::new(&second, &a)]), Err(Refusal::Cover));
    assert_eq!(merged(&[]), Err(Refusal::Cover));
    assert_eq!(merge(r4(1), &[1], &[]), Err(Refusal::Cover));
    assert_eq!(merged(&[Chunk::new(&whole, &ab)]), Ok(ab.clone()));
}

#[test]
fn stored_frames() {
    let cases: [(Kind, &[u64], Vec<u8>, Refusal); 18] = [
        (f1(1), &[1], vec![], Refusal::Short),
        (f1(1), &[1], vec![1, 2, 3], Refusal::Short),
        (f1(1), &[1], vec![0; 15], Refusal::Short),
        (f1(1), &[1], le(&[1, u64::MAX], 8, &[]), Refusal::Length),
        (f1(1), &[1], le(&[u64::MAX - 14, 0], 8, &[]), Refusal::Length),
        (f1(1), &[1], le(&[1, 5], 8, &[0]), Refusal::Length),
        (f1(1), &[1], le(&[2, 0], 8, &[1, 1]), Refusal::Length),
        (f1(1), &[1], le(&[1, 1], 8, &[1, 7, 7]), Refusal::Length),
        (f1(1), &[1], le(&[1, 0], 8, &[1]), Refusal::Length),
        (r4(1), &[1], le(&[1, 0], 8, &[1]), Refusal::Short),
        (f1(2), &[1], le(&[1, 0], 8, &[1]), Refusal::Short),
        (f1(2), &[1], le(&[2, 0], 8, &[1, 1]), Refusal::Length),
        (f1(1), &[1], le(&[1, 1], 8, &[0, 7]), Refusal::Length),
        (r4(1), &[2], le(&[2, 8], 8, &[0, 0, 0, 0, 0, 0, 0, 0, 0, 0]), Refusal::Length),
        (f1(2), &[1], le(&[1, 18], 8, &[&[1][..], &le(&[1, 1], 8, &[0, 7])].concat()), Refusal::Length),
        (f1(2), &[1], le(&[1, 17], 8, &[&[0][..], &le(&[1, 0], 8, &[0])].concat()), Refusal::Length),
        (Kind::fixed(0, 2, LITTLE), &[1], vec![], Refusal::Length),
        (Kind::fixed(0, 2, LITTLE), &[1], vec![1, 2, 3], Refusal::Length),
    ];
    for (kind, shape, bytes, refusal) in cases {
        assert_eq!(decode(kind, shape, &bytes), Err(refusal), "{kind}: {bytes:02X?}");
    }
    // The inner mask counts the cells set above, not the shape's.
    let inner = le(&[2, 0], 8, &[0, 0]);
    let outer = le(&[2, 18], 8, &[1, 0]);
    assert_eq!(decode(f1(2), &[2], &[outer, inner].concat()), Err(Refusal::Length));
}

/// 13 comes after the lengths of its frame and before its content; the bits are those after the cells of that level.
#[test]
fn unused_bits() {
    let (one, two, ragged) = (f1(1).packed(), f1(2).packed(), r4(1).packed());
    let inner = |mask: u8| le(&[1, 1], 8, &[mask, 7]);
    let cases: [(Kind, u64, Vec<u8>, Refusal); 13] = [
        (one, 1, le(&[1, 1], 8, &[0b11, 7]), Refusal::UnusedBits),
        (one, 1, le(&[1, 0], 8, &[0b1000_0000]), Refusal::UnusedBits),
        (one, 7, le(&[1, 0], 8, &[0b1000_0000]), Refusal::UnusedBits),
        (one, 9, le(&[2, 0], 8, &[0, 0b10]), Refusal::UnusedBits),
        (one, 1, le(&[1, 1], 8, &[0b10, b'x']), Refusal::UnusedBits),
        (one, 1, le(&[1, 5], 8, &[0b11, 1, 2, 3, 4, 5]), Refusal::UnusedBits),
        (ragged, 1, le(&[1, 3], 8, &[0b11, 1, 2, 3]), Refusal::UnusedBits),
        (two, 8, le(&[1, 18], 8, &[&[1][..], &inner(0b11)].concat()), Refusal::UnusedBits),
        (one, 1, le(&[1, 2], 8, &[0b11]), Refusal::Length),
        (one, 1, le(&[2, 0], 8, &[0b11, 0]), Refusal::Length),
        (one, 2, le(&[2, 2], 8, &[1, 1, 7, 8]), Refusal::Length),
        (one, 9, le(&[1, 8], 8, &[255, 1, 2, 3, 4, 5, 6, 7, 8]), Refusal::Length),
        (one, 1, le(&[1, 0], 8, &[1]), Refusal::Length),
    ];
    for (kind, cells, bytes, refusal) in cases {
        assert_eq!(decode(kind, &[cells], &bytes), Err(refusal), "{kind}: {bytes:02X?}");
    }
    // Eight cells fill a byte, also where the shape has nine.
    let full = decode(one, &[8], &le(&[1, 8], 8, &[255, 1, 2, 3, 4, 5, 6, 7, 8])).unwrap();
    assert_eq!(full.masks, [1; 8]);
    let inner = le(&[1, 8], 8, &[255, 1, 2, 3, 4, 5, 6, 7, 8]);
    let nine = decode(two, &[9], &le(&[2, 25], 8, &[&[255, 0][..], &inner].concat())).unwrap();
    assert_eq!((nine.cell(7), nine.cell(8)), (Some(Cell::Value(&[8])), Some(Cell::Null { level: 1 })));
    // At depth 0 the form is idle, and what is handed over is a byte a cell.
    assert_eq!(encode(&array(f1(0).packed(), &[1], &[], b"a", &[])), Ok(b"a".to_vec()));
    assert_eq!(encode(&array(one, &[2], &[1], b"ab", &[])), Err(Refusal::Content));
}

/// 14 comes after the lengths of its frame and before its content, at each level and in each place of a mask; 4 comes before 5
/// and 12.
#[test]
fn mask_bytes() {
    let level = |depth: usize, mask: u8, content: &[u8]| {
        let mut bytes = le(&[1, content.len() as u64], 8, &[&[mask][..], content].concat());
        for _ in 1..depth {
            bytes = le(&[1, bytes.len() as u64], 8, &[&[1][..], &bytes].concat());
        }
        bytes
    };
    for depth in 1..=4 {
        for above in 1..=depth {
            for mask in [2, 3, 0x10, 0x7F, 0x80, 0xFE, 0xFF] {
                for content in [&b""[..], b"x", b"abcde", &[0; 24]] {
                    for kind in [f1(depth as u64), r4(depth as u64)] {
                        let answer = decode(kind, &[1], &level(above, mask, content));
                        assert_eq!(answer, Err(Refusal::NotBoolean), "{kind}: {mask:02X} at level {above}");
                    }
                }
            }
        }
    }
    for at in 0..40 {
        let mut mask = vec![1; 40];
        mask[at] = 2;
        let stored = le(&[40, 39], 8, &[&mask[..], &[7; 39]].concat());
        assert_eq!(decode(f1(1), &[40], &stored), Err(Refusal::NotBoolean), "{at}");
        for kind in [f1(1), f1(1).packed()] {
            assert_eq!(encode(&array(kind, &[40], &mask, &[7; 40], &[])), Err(Refusal::Content), "{at}");
        }
    }
    let short = [(vec![2; 15], Refusal::Short), (le(&[1, 1], 8, &[2]), Refusal::Length)];
    for (bytes, refusal) in [short.to_vec(), vec![(le(&[2, 0], 8, &[2, 2]), Refusal::Length)]].concat() {
        assert_eq!(decode(f1(1), &[1], &bytes), Err(refusal), "{bytes:02X?}");
    }
    // The subsets miss a cell, or hold one twice; an empty subset comes first.
    let (whole, none) = (subset(&[0, 1]), subset(&[0, 0]));
    let (good, bad) = (array(f1(1), &[1], &[1], b"a", &[]), array(f1(1), &[1], &[2], b"a", &[]));
    let chunk = |table| Chunk::new(&whole, table);
    assert_eq!(merge(f1(1), &[2], &[chunk(&good)]), Err(Refusal::Cover));
    assert_eq!(merge(f1(1), &[2], &[chunk(&bad)]), Err(Refusal::Content));
    assert_eq!(merge(f1(1), &[1], &[chunk(&good), chunk(&bad)]), Err(Refusal::Content));
    let empty = array(f1(1), &[0], &[], b"", &[]);
    assert_eq!(merge(f1(1), &[1], &[chunk(&bad), Chunk::new(&none, &empty)]), Err(Refusal::Subset));
    // More than was taken up to version 0.9.
    let large = array(r4(1), &[1], &[2], &vec![7; 16_777_217], &[0, 16_777_217]);
    assert_eq!(encode(&large), Err(Refusal::Content));
    assert_eq!(encode(&Array { masks: vec![1], ..large }).unwrap().len(), 17 + 16 + 16_777_217);
}

#[test]
fn stored_ragged_values() {
    let cases = [
        (vec![], Refusal::Short),
        (vec![0; 7], Refusal::Short),
        (vec![255; 8], Refusal::Length),
        (le(&[12], 8, &le(&[0, 0, 0], 4, &[])), Refusal::Length),
        (le(&[8], 8, &le(&[0], 4, &[])), Refusal::Length),
        (le(&[8], 8, &le(&[0, 2], 4, b"a")), Refusal::Length),
        (le(&[8], 8, &le(&[0, 1], 4, b"ab")), Refusal::Length),
        (le(&[8], 8, &le(&[2, 1], 4, b"ab")), Refusal::Length),
        (le(&[8], 8, &le(&[2, 1], 4, b"a")), Refusal::Falling),
        (le(&[8], 8, &le(&[5, 0], 4, b"x")), Refusal::Length),
        (le(&[8], 8, &le(&[5, 0], 4, b"")), Refusal::Falling),
        (le(&[8], 8, &le(&[0, 0], 4, b"x")), Refusal::Length),
        (le(&[8], 8, &le(&[1, 2], 4, b"A")), Refusal::Length),
        (le(&[8], 8, &le(&[1, 2], 4, b"AB")), Refusal::Falling),
        (le(&[8], 8, &le(&[1, 1], 4, b"A")), Refusal::Falling),
    ];
    for (bytes, refusal) in cases {
        assert_eq!(decode(r4(0), &[1], &bytes), Err(refusal), "{bytes:02X?}");
        let part = partial_decode(Width::Four, Place::Start, &[1], &subset(&[1, 0]), &bytes);
        assert_eq!(part, Err(refusal), "{bytes:02X?}");
        // The same below a mask.
        let framed = [le(&[1, bytes.len() as u64], 8, &[1]), bytes].concat();
        assert_eq!(decode(r4(1), &[1], &framed), Err(refusal), "{framed:02X?}");
    }
    let empty = le(&[8], 8, &le(&[0, 0], 4, b""));
    assert_eq!(decode(r4(0), &[1], &empty), Ok(array(r4(0), &[1], &[], b"", &[0, 0])));
}

#[test]
fn stored_interleaved() {
    assert_eq!(decode_interleaved(0, &[]), Err(Refusal::Short));
    assert_eq!(decode_interleaved(0, &[1, 0, 0, 0]), Err(Refusal::Count));
    assert_eq!(decode_interleaved(0, &[0, 0, 0, 0, 9]).map(|read| read.offsets), Ok(vec![0]));
    assert_eq!(decode_interleaved(2, &le(&[1, 1], 4, &[65, 0, 0])), Err(Refusal::Short));
    assert_eq!(decode_interleaved(2, &le(&[1, 1], 4, &[65, 0, 0, 0])), Err(Refusal::Count));
    assert_eq!(decode_interleaved(2, &le(&[2, 1], 4, &[65, 0, 0, 0])), Err(Refusal::PastEnd));
    assert_eq!(decode_interleaved(1, &le(&[1, u32::MAX as u64], 4, &[])), Err(Refusal::PastEnd));
    assert_eq!(decode_interleaved(1, &le(&[1, 1], 4, &[])), Err(Refusal::PastEnd));
    assert_eq!(decode_interleaved(1, &le(&[1, 0], 4, &[])).map(|read| read.offsets), Ok(vec![0, 0]));
}
