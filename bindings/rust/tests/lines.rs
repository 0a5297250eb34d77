//! The lines of docs/SPEC.md, S10, and the smallest inputs of docs/DECISIONS.md that a caller can hand over.

use durpaxeta::*;

fn bytes(hex: &str) -> Vec<u8> {
    let digits: Vec<u32> = hex.chars().filter_map(|c| c.to_digit(16)).collect();
    digits.chunks(2).map(|pair| (pair[0] * 16 + pair[1]) as u8).collect()
}

fn fixed(depth: u64, size: u64) -> Kind {
    Kind::fixed(depth, size, Order::Little)
}

fn ragged(depth: u64, width: Width, place: Place) -> Kind {
    Kind::ragged(depth, width, place)
}

fn array(kind: Kind, shape: &[u64], masks: &[u8], values: &[u8], offsets: &[u64]) -> Array {
    Array { kind, shape: shape.to_vec(), masks: masks.to_vec(), values: values.to_vec(), offsets: offsets.to_vec() }
}

fn subset(numbers: &[u64]) -> Subset {
    Subset::from_numbers(numbers.to_vec())
}

#[test]
fn depth_1_size_2() {
    let kind = fixed(1, 2);
    let stored = encode(&array(kind, &[3], &[1, 0, 1], &bytes("0A0B 0C0D 0E0F"), &[])).unwrap();
    assert_eq!(stored, bytes("0300000000000000 0400000000000000 010001 0A0B 0E0F"));
    assert_eq!(stored.len(), 23);
    assert_eq!(decode(kind, &[3], &stored), Ok(array(kind, &[3], &[1, 0, 1], &bytes("0A0B 0000 0E0F"), &[])));
}

#[test]
fn depth_1_nothing_set() {
    let kind = fixed(1, 2);
    let stored = encode(&array(kind, &[3], &[0, 0, 0], &bytes("0A0B 0C0D 0E0F"), &[])).unwrap();
    assert_eq!(stored.len(), 19);
    assert_eq!(decode(kind, &[3], &stored), Ok(array(kind, &[3], &[0, 0, 0], &[0; 6], &[])));
}

/// S10.3, S10.6 and S10.31 to S10.36.
#[test]
fn hidden_bytes() {
    let (flat, one, two) = (ragged(0, Width::Four, Place::Start), fixed(1, 2), fixed(2, 1));
    for (kind, cells, hex, refusal) in [
        (one, 3, "0300000000000000 0500000000000000 000000 0102030405", Refusal::Length),
        (two, 1, "0100000000000000 1100000000000000 00 0100000000000000 0000000000000000 00", Refusal::Length),
        (fixed(1, 1), 1, "0100000000000000 0500000000000000 02 0102030405", Refusal::NotBoolean),
        (fixed(1, 1).packed(), 1, "0100000000000000 0500000000000000 02 0102030405", Refusal::UnusedBits),
        (flat, 1, "0800000000000000 00000000 00000000 78797A", Refusal::Length),
        (flat, 1, "0800000000000000 05000000 00000000 78797A", Refusal::Length),
        (flat, 1, "0800000000000000 05000000 00000000", Refusal::Falling),
        (flat, 1, "0800000000000000 01000000 02000000 41", Refusal::Length),
        (flat, 1, "0800000000000000 01000000 02000000 4142", Refusal::Falling),
        (flat, 1, "0800000000000000 01000000 01000000 41", Refusal::Falling),
    ] {
        assert_eq!(decode(kind, &[cells], &bytes(hex)), Err(refusal), "{hex}");
        if kind == flat {
            let none = partial_decode(Width::Four, Place::Start, &[1], &subset(&[0, 0]), &bytes(hex));
            assert_eq!(none, Err(refusal), "{hex}");
        }
    }
    for (values, offsets) in [(&b"AB"[..], [1, 2]), (b"A", [1, 1])] {
        let table = array(flat, &[1], &[], values, &offsets);
        assert_eq!(encode(&table), Err(Refusal::Content));
        assert_eq!(encode_interleaved(&table), Err(Refusal::Content));
        assert_eq!(extract(&table, &subset(&[0, 1])), Err(Refusal::Content));
        assert_eq!(merge(flat, &[1], &[Chunk::new(&subset(&[0, 1]), &table)]), Err(Refusal::Content));
    }
    // Each chunk by itself.
    let (first, second) = (array(flat, &[1], &[], b"a", &[0, 1]), array(flat, &[1], &[], b"bc", &[1, 2]));
    let (low, high) = (subset(&[0, 1]), subset(&[1, 1]));
    let merged = |second| merge(flat, &[2], &[Chunk::new(&low, &first), Chunk::new(&high, second)]);
    assert_eq!(merged(&second), Err(Refusal::Content));
    let good = array(flat, &[1], &[], b"bc", &[0, 2]);
    assert_eq!(merged(&good), Ok(array(flat, &[2], &[], b"abc", &[0, 1, 3])));
}

#[test]
fn depth_2() {
    let kind = fixed(2, 1);
    let stored = encode(&array(kind, &[3], &[1, 1, 0, 1, 0, 1], &[7, 8, 9], &[])).unwrap();
    assert_eq!(stored, bytes("0300000000000000 1300000000000000 010100 0200000000000000 0100000000000000 0100 07"));
    assert_eq!(stored.len(), 38);
    assert_eq!(decode(kind, &[3], &stored), Ok(array(kind, &[3], &[1, 1, 0, 1, 0, 0], &[7, 0, 0], &[])));
}

#[test]
fn ragged_ab_and_empty() {
    let end = ragged(0, Width::Four, Place::End);
    let table = array(end, &[2], &[], b"AB", &[0, 2, 2]);
    let stored = encode(&table).unwrap();
    assert_eq!(stored, bytes("4142 00000000 02000000 02000000 0C00000000000000"));
    assert_eq!(stored.len(), 22);
    assert_eq!(decode(end, &[2], &stored), Ok(table));

    let start = ragged(0, Width::Eight, Place::Start);
    let table = array(start, &[2], &[], b"AB", &[0, 2, 2]);
    let stored = encode(&table).unwrap();
    assert_eq!(stored.len(), 34);
    assert_eq!(decode(start, &[2], &stored), Ok(table));
}

#[test]
fn interleaved() {
    let stored = bytes("02000000 01000000 41 00000000");
    let read = RaggedValues { values: b"A".to_vec(), offsets: vec![0, 1, 1] };
    assert_eq!(decode_interleaved(2, &stored), Ok(read.clone()));
    assert_eq!(
        (read.cell_count(), read.cell(0), read.cell(1), read.cell(2)),
        (2, Some(&b"A"[..]), Some(&b""[..]), None)
    );
    assert_eq!(decode_interleaved(2, &[&stored[..], b"z"].concat()), Ok(read));
    assert_eq!(decode_interleaved(2, &stored[..11]), Err(Refusal::Short));
    assert_eq!(decode_interleaved(2, &bytes("02000000 05000000 4100000000")), Err(Refusal::PastEnd));

    let table = array(ragged(0, Width::Four, Place::End), &[2], &[], b"A", &[0, 1, 1]);
    assert_eq!(encode_interleaved(&table), Ok(stored));
}

#[test]
fn cells_of_a_subset() {
    assert_eq!(subset_cells(&[2, 3], &subset(&[0, 1, 2, 2])), Ok(vec![1, 2, 4, 5]));
    assert_eq!(subset_cells(&[2, 3], &subset(&[0, 2, 2, 2])), Err(Refusal::Subset));
    assert_eq!(subset_cells(&[2, 3], &Subset::from_ranges(&[0..2, 1..3]).unwrap()), Ok(vec![1, 2, 4, 5]));
    assert_eq!(subset_cells(&[2, 3], &Subset::whole(&[2, 3])), Ok(vec![0, 1, 2, 3, 4, 5]));
    assert_eq!(subset_cells(&[2, 3], &subset(&[2, 0, 0, 3])), Ok(vec![]));
}

#[test]
fn index_length_of_eight_ff() {
    for place in [Place::Start, Place::End] {
        assert_eq!(decode(ragged(0, Width::Four, place), &[1], &[255; 8]), Err(Refusal::Length));
    }
}

#[test]
fn reversed() {
    let mut cells = [1, 2, 3, 4, 5, 6, 7];
    assert_eq!(reverse_endianness(3, &mut cells), Ok(6));
    assert_eq!(cells, [3, 2, 1, 6, 5, 4, 7]);
    assert_eq!(reverse_endianness(1, &mut cells), Ok(7));
    assert_eq!(cells, [3, 2, 1, 6, 5, 4, 7]);
    assert_eq!(reverse_endianness(64, &mut []), Ok(0));
}

#[test]
fn big_order_reverses_values_only() {
    let kind = Kind::fixed(1, 2, Order::Big);
    let table = array(kind, &[1], &[1], &[0x0A, 0x0B], &[]);
    let stored = encode(&table).unwrap();
    assert_eq!(stored, bytes("0100000000000000 0200000000000000 01 0B0A"));
    assert_eq!(decode(kind, &[1], &stored), Ok(table));
}

#[test]
fn a_set_cell_of_no_bytes_is_not_null() {
    let kind = ragged(2, Width::Four, Place::Start);
    let cells = [Cell::Value(b""), Cell::Null { level: 1 }, Cell::Null { level: 2 }, Cell::Value(b"0-3")];
    let table = Array::from_cells(kind, &[4], &cells).unwrap();
    assert_eq!(table, array(kind, &[4], &[1, 0, 1, 1, 1, 0, 0, 1], b"0-3", &[0, 0, 0, 0, 3]));
    let read = decode(kind, &[4], &encode(&table).unwrap()).unwrap();
    for (number, cell) in cells.iter().enumerate() {
        assert_eq!(read.cell(number).as_ref(), Some(cell));
    }
    assert_eq!(read.cell(4), None);
    assert_eq!(read.masks_of(2), [1, 0]);
}

/// S10.25 to S10.30.
#[test]
fn strict_masks() {
    let (one, two) = (fixed(1, 1), fixed(2, 1));
    for (kind, cells, hex, refusal) in [
        (one, 1, "0100000000000000 0100000000000000 02 07", Refusal::NotBoolean),
        (one, 1, "0100000000000000 0500000000000000 02 0102030405", Refusal::NotBoolean),
        (two, 2, "0200000000000000 0100000000000000 0102 78", Refusal::NotBoolean),
        (two, 2, "0200000000000000 0100000000000000 0101 78", Refusal::Short),
        (one, 1, "0200000000000000 0000000000000000 0202", Refusal::Length),
        (one.packed(), 1, "0100000000000000 0100000000000000 02 07", Refusal::UnusedBits),
    ] {
        assert_eq!(decode(kind, &[cells], &bytes(hex)), Err(refusal), "{hex}");
    }
    // Content behind nulls is refused itself, and no mask of it is read.
    let hidden = bytes("0100000000000000 1100000000000000 00 0100000000000000 0000000000000000 02");
    assert_eq!(decode(two, &[1], &hidden), Err(Refusal::Length));
    for mask in 0..=255 {
        let strict = |answer: Result<Array, Refusal>, table: &Array| match mask {
            0 | 1 => assert_eq!(answer.as_ref(), Ok(table)),
            _ => assert_eq!(answer, Err(Refusal::Content)),
        };
        for kind in [one, one.packed()] {
            let table = array(kind, &[1], &[mask], &[7 * mask.min(1)], &[]);
            strict(encode(&table).map(|stored| decode(kind, &[1], &stored).unwrap()), &table);
            strict(extract(&table, &subset(&[0, 1])), &table);
            strict(merge(kind, &[1], &[Chunk::new(&subset(&[0, 1]), &table)]), &table);
        }
        // Hidden ones too.
        let table = array(two, &[1], &[0, mask], &[7], &[]);
        strict(extract(&table, &subset(&[0, 1])), &table);
        assert_eq!(encode(&table).err(), Some(Refusal::Content).filter(|_| mask > 1));
        // And the cell of such a byte is none.
        assert_eq!(table.cell(0), Some(Cell::Null { level: 1 }));
        let seen = array(two, &[1], &[1, mask], &[7], &[]);
        let cell = [Cell::Null { level: 2 }, Cell::Value(&[7])].get(usize::from(mask)).copied();
        assert_eq!((seen.cell(0), seen.cells().next()), (cell, cell));
    }
}

#[test]
fn chunk_by_chunk() {
    let kind = fixed(2, 1);
    let (second, first) = (subset(&[1, 1]), subset(&[0, 1]));
    let (b, a) = (array(kind, &[1], &[1, 0], b"b", &[]), array(kind, &[1], &[1, 1], b"a", &[]));
    let merged = merge(kind, &[2], &[Chunk::new(&second, &b), Chunk::new(&first, &a)]);
    assert_eq!(merged, Ok(array(kind, &[2], &[1, 1, 1, 0], b"ab", &[])));
}

#[test]
fn a_cut_keeps_what_is_hidden() {
    let kind = ragged(2, Width::Eight, Place::Start);
    let table = array(kind, &[2], &[1, 0, 1, 1], b"zAB", &[0, 1, 3]);
    assert_eq!(extract(&table, &subset(&[1, 1])), Ok(array(kind, &[1], &[0, 1], b"AB", &[0, 2])));
}

#[test]
fn cuts_of_stored_values() {
    let kind = ragged(0, Width::Four, Place::Start);
    let table = array(kind, &[2, 2], &[], b"abbccc", &[0, 1, 3, 3, 6]);
    let stored = encode(&table).unwrap();
    let column = subset(&[0, 1, 2, 1]);
    let cut = array(kind, &[2, 1], &[], b"bbccc", &[0, 2, 5]);
    assert_eq!(partial_decode(Width::Four, Place::Start, &[2, 2], &column, &stored), Ok(cut.clone()));
    assert_eq!(extract(&table, &column), Ok(cut));
    let none = partial_decode(Width::Four, Place::Start, &[2, 2], &subset(&[2, 0, 0, 2]), &stored);
    assert_eq!(none, Ok(array(kind, &[0, 2], &[], b"", &[0])));
}

/// S10.13 to S10.18.
#[test]
fn packed_masks() {
    let kind = fixed(1, 1).packed();
    let values: Vec<u8> = (1..=9).collect();
    let stored = encode(&array(kind, &[9], &[1, 0, 1, 0, 0, 0, 0, 0, 1], &values, &[])).unwrap();
    assert_eq!(stored, bytes("0200000000000000 0300000000000000 0501 010309"));
    let read = array(kind, &[9], &[1, 0, 1, 0, 0, 0, 0, 0, 1], &[1, 0, 3, 0, 0, 0, 0, 0, 9], &[]);
    assert_eq!(decode(kind, &[9], &stored), Ok(read));
    for (hex, refusal) in [
        ("0100000000000000 0200000000000000 03 0707", Refusal::UnusedBits),
        ("0200000000000000 0100000000000000 0102 07", Refusal::Length),
        ("0100000000000000 0200000000000000 03", Refusal::Length),
        ("0200000000000000 0000000000000000 0300", Refusal::Length),
        ("0100000000000000 0500000000000000 02 0102030405", Refusal::UnusedBits),
    ] {
        assert_eq!(decode(kind, &[1], &bytes(hex)), Err(refusal), "{hex}");
    }
    let kind = fixed(2, 1).packed();
    let masks = [1, 1, 1, 1, 1, 1, 1, 1, 0, 1, 1, 1, 1, 1, 1, 1, 1, 0];
    let table = array(kind, &[9], &masks, &[1, 2, 3, 4, 5, 6, 7, 8, 0], &[]);
    let stored = encode(&table).unwrap();
    assert_eq!((&stored[16..18], stored[34]), (&[255, 0][..], 255));
    assert_eq!(decode(kind, &[9], &stored), Ok(table));
}

/// S10.21, S10.22, S10.24, and S12.4.
#[test]
fn loads() {
    let load = |kind, cells, start| {
        let load = generate(kind, &[cells], start).unwrap();
        (load.masks, load.values, load.offsets)
    };
    assert_eq!(load(fixed(0, 1), 1, 0), (vec![], bytes("6E"), vec![]));
    assert_eq!(load(fixed(1, 1), 2, 0), (vec![1, 0], bytes("50 00"), vec![]));
    assert_eq!(load(fixed(1, 1), 3, 0), (vec![1, 0, 1], bytes("50 00 52"), vec![]));
    let two = ragged(0, Width::Four, Place::Start);
    assert_eq!(load(two, 2, 0), (vec![], bytes("50CCF9522EFED9FD F6D12396"), vec![0, 8, 12]));
    // Width, place, order and mask form change nothing.
    assert_eq!(load(two, 2, 0), load(ragged(0, Width::Eight, Place::End).packed(), 2, 0));
    assert_eq!(load(fixed(2, 3), 9, 5), load(Kind::fixed(2, 3, Order::Big).packed(), 9, 5));
    assert_ne!(load(fixed(2, 3), 9, 5), load(fixed(2, 3), 9, 6));
}

/// S10.52 to S10.54.
#[test]
fn small_arrangements() {
    let of = |depth, cells, number| {
        arrangement(ragged(depth, Width::Four, Place::Start), &[cells], number).map(|a| (a.masks, a.values, a.offsets))
    };
    assert_eq!(of(2, 1, 0), Ok((vec![0, 0], vec![], vec![0, 0])));
    assert_eq!(of(2, 1, 1), Ok((vec![1, 0], vec![], vec![0, 0])));
    assert_eq!(of(2, 1, 2), Ok((vec![1, 1], vec![], vec![0, 0])));
    assert_eq!(of(2, 1, 5), Ok((vec![1, 1], vec![0; 3], vec![0, 3])));
    assert_eq!(of(2, 2, 8), Ok((vec![1, 1, 0, 1], vec![], vec![0, 0, 0])));
    assert_eq!(of(0, 4, 0), Ok((vec![], vec![], vec![0; 5])));
    assert_eq!(of(1, 4, 624), Ok((vec![1; 4], vec![0; 12], vec![0, 3, 6, 9, 12])));
    assert_eq!(of(1, 2, 13), Ok((vec![1, 1], vec![0; 3], vec![0, 1, 3])));
    for (depth, cells, number, refusal) in
        [(3, 1, 99, Refusal::Kind), (0, 0, 0, Refusal::Kind), (0, 5, 0, Refusal::Kind), (0, 1, 4, Refusal::Arrangement)]
    {
        assert_eq!(of(depth, cells, number), Err(refusal), "{depth} {cells} {number}");
    }
}

#[test]
fn words_of_kinds() {
    assert_eq!(ragged(1, Width::Four, Place::Start).to_string(), "depth 1, ragged, width 4, index at start");
    assert_eq!(ragged(0, Width::Eight, Place::End).to_string(), "depth 0, ragged, width 8, index at end");
    assert_eq!(fixed(2, 16).to_string(), "depth 2, fixed, size 16, little order");
    assert_eq!(Kind::fixed(0, 1, Order::Big).to_string(), "depth 0, fixed, size 1, big order");
}
