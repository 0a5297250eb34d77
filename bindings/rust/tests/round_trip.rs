//! Arrays drawn at random: cut up, stored, read back and put together they are their rest form; what is accepted, read and
//! written again, is the very same bytes; and whatever is handed over, no call ever complains of an output.

use durpaxeta::*;
use std::collections::BTreeMap;

/// A small generator of repeatable numbers.
struct Draws(u64);

impl Draws {
    fn below(&mut self, limit: u64) -> u64 {
        self.0 ^= self.0 << 13;
        self.0 ^= self.0 >> 7;
        self.0 ^= self.0 << 17;
        (self.0 >> 11) % limit
    }

    fn one_in(&mut self, count: u64) -> bool {
        self.below(count) == 0
    }

    fn bytes(&mut self, length: u64) -> Vec<u8> {
        (0..length).map(|_| self.below(256) as u8).collect()
    }

    fn kind(&mut self) -> Kind {
        let depth = self.below(5);
        let packed = self.one_in(2);
        let kind = match self.below(2) {
            0 => Kind::fixed(depth, 1 + self.below(9), if self.one_in(2) { Order::Big } else { Order::Little }),
            _ => Kind::ragged(
                depth,
                if self.one_in(2) { Width::Four } else { Width::Eight },
                if self.one_in(2) { Place::Start } else { Place::End },
            ),
        };
        if packed {
            kind.packed()
        } else {
            kind
        }
    }

    fn shape(&mut self) -> Vec<u64> {
        (0..1 + self.below(4)).map(|_| 1 + self.below(4)).collect()
    }

    fn array(&mut self, kind: Kind, shape: &[u64]) -> Array {
        let cells: u64 = shape.iter().product();
        let masks = (0..kind.depth * cells).map(|_| u8::from(!self.one_in(4))).collect();
        let (values, offsets) = match kind.values {
            Values::Fixed { size, .. } => (self.bytes(cells * size), vec![]),
            Values::Ragged { .. } => {
                let mut offsets = vec![0];
                for cell in 0..cells as usize {
                    offsets.push(offsets[cell] + self.below(4));
                }
                (self.bytes(offsets[cells as usize]), offsets)
            }
        };
        Array { kind, shape: shape.to_vec(), masks, values, offsets }
    }

    /// Cuts the shape into subsets that hold each cell once, in any order.
    fn subsets(&mut self, shape: &[u64]) -> Vec<Subset> {
        let mut boxes = vec![(vec![0; shape.len()], shape.to_vec())];
        for _ in 0..self.below(6) {
            let which = self.below(boxes.len() as u64) as usize;
            let side = self.below(shape.len() as u64) as usize;
            let (starts, lengths) = boxes[which].clone();
            if lengths[side] > 1 {
                let at = 1 + self.below(lengths[side] - 1);
                let (mut rest_starts, mut rest_lengths) = (starts, lengths);
                boxes[which].1[side] = at;
                rest_starts[side] += at;
                rest_lengths[side] -= at;
                let to = self.below(boxes.len() as u64 + 1) as usize;
                boxes.insert(to, (rest_starts, rest_lengths));
            }
        }
        boxes.iter().map(|(starts, lengths)| Subset::new(starts, lengths).unwrap()).collect()
    }

    /// Another byte, another bit, neighbours exchanged, or one more or less: offsets, masks and values are often still good.
    fn damage(&mut self, stored: &mut [u8]) {
        let at = self.below(stored.len() as u64) as usize;
        match self.below(5) {
            0 => stored[at] = self.below(256) as u8,
            1 => stored[at] ^= 1 << self.below(8),
            2 => stored.swap(at, (at + 1) % stored.len()),
            3 => stored[at] = stored[at].wrapping_add(1),
            _ => stored[at] = stored[at].wrapping_sub(1),
        }
    }

    fn subset(&mut self, shape: &[u64]) -> Subset {
        let lengths: Vec<u64> = shape.iter().map(|&side| self.below(side + 1)).collect();
        let starts: Vec<u64> = shape.iter().zip(&lengths).map(|(side, length)| self.below(side - length + 1)).collect();
        Subset::new(&starts, &lengths).unwrap()
    }
}

/// The rest form, by the sentences of docs/SPEC.md.
fn rest(array: &Array) -> Array {
    let count = array.shape.iter().product::<u64>() as usize;
    let depth = array.kind.depth as usize;
    let mut rest = Array {
        masks: vec![0; depth * count],
        values: vec![],
        offsets: if array.kind.is_ragged() { vec![0] } else { vec![] },
        ..array.clone()
    };
    for cell in 0..count {
        let mut set = true;
        for level in 0..depth {
            if set {
                rest.masks[level * count + cell] = array.masks[level * count + cell];
                set = array.masks[level * count + cell] == 1;
            }
        }
        match array.kind.values {
            Values::Fixed { size, .. } => {
                let size = size as usize;
                let value = &array.values[cell * size..(cell + 1) * size];
                rest.values.extend(value.iter().map(|&byte| if set { byte } else { 0 }));
            }
            Values::Ragged { .. } => {
                let value = &array.values[array.offsets[cell] as usize..array.offsets[cell + 1] as usize];
                if set {
                    rest.values.extend_from_slice(value);
                }
                rest.offsets.push(rest.values.len() as u64);
            }
        }
    }
    rest
}

#[test]
fn cut_stored_read_and_merged() {
    let mut draws = Draws(0x9E37_79B9_7F4A_7C15);
    for _ in 0..4000 {
        let (kind, shape) = (draws.kind(), draws.shape());
        let table = draws.array(kind, &shape);
        let subsets = draws.subsets(&shape);
        let read: Vec<Array> = subsets
            .iter()
            .map(|subset| {
                let cut = extract(&table, subset).unwrap();
                decode(kind, subset.lengths(), &encode(&cut).unwrap()).unwrap()
            })
            .collect();
        let chunks: Vec<Chunk<'_>> =
            subsets.iter().zip(&read).map(|(subset, array)| Chunk::new(subset, array)).collect();
        let merged = merge(kind, &shape, &chunks).unwrap();
        assert_eq!(merged, rest(&table), "{table:?} {subsets:?}");
        let query = draws.subset(&shape);
        let cut = extract(&table, &query).unwrap();
        assert_eq!(extract(&merged, &query).unwrap(), rest(&cut), "{table:?} {query:?}");
        // Written and read at once.
        let back = decode(kind, &shape, &encode(&table).unwrap()).unwrap();
        assert_eq!(back, rest(&table));
        if let (0, Values::Ragged { width, place }) = (kind.depth, kind.values) {
            let part = partial_decode(width, place, &shape, &query, &encode(&table).unwrap());
            assert_eq!(part.map(|part| (part.values, part.offsets)), Ok((cut.values, cut.offsets)));
        }
    }
}

/// S8.9: damaged copies that are accepted all the same, read and written again. S8.10: each is another table.
#[test]
fn accepted_bytes_return() {
    let mut draws = Draws(0x5EED_0F07);
    let mut changed: BTreeMap<String, usize> = BTreeMap::new();
    let mut refused = 0;
    for _ in 0..120_000 {
        let (kind, shape) = (draws.kind(), draws.shape());
        let whole = encode(&draws.array(kind, &shape)).unwrap();
        let mut stored = whole.clone();
        for _ in 0..1 + draws.below(2) {
            draws.damage(&mut stored);
        }
        let Ok(table) = decode(kind, &shape, &stored) else {
            refused += 1;
            continue;
        };
        assert!(encode(&table).as_ref() == Ok(&stored), "{kind} {shape:?} {stored:02X?}");
        let before = decode(kind, &shape, &whole).unwrap();
        assert_eq!(table == before, stored == whole, "{kind} {shape:?} {whole:02X?} {stored:02X?}");
        let form = if kind.is_ragged() { "ragged" } else { "fixed" };
        let masks = if kind.masks == MaskForm::Packed { "packed" } else { "bytes" };
        for (part, differs) in [
            ("masks", table.masks != before.masks),
            ("values", table.values != before.values),
            ("offsets", table.offsets != before.offsets),
        ] {
            *changed.entry(format!("{form}, {masks}: {part}")).or_default() += usize::from(differs);
        }
    }
    assert!(refused > 50_000, "{refused}");
    assert_eq!(changed.len(), 12);
    for (what, count) in changed {
        let none = what.starts_with("fixed") && what.ends_with("offsets");
        assert!(if none { count == 0 } else { count > 100 }, "{what} changed in {count} accepted copies");
    }
}

/// All strings over few bytes.
fn strings(bytes: &[u8], lengths: std::ops::RangeInclusive<u32>) -> Vec<Vec<u8>> {
    let count = bytes.len();
    let string = |length, mut number: usize| {
        let next = |_| {
            let byte = bytes[number % count];
            number /= count;
            byte
        };
        (0..length).map(next).collect()
    };
    lengths.flat_map(|length| (0..count.pow(length)).map(move |number| string(length, number))).collect()
}

/// S8.10 over everything that small fields can say, right and wrong: no two strings that are accepted read alike.
#[test]
fn no_two_strings_read_alike() {
    let number = |number: u64| number.to_le_bytes().to_vec();
    let joined = |fields: &[&Vec<Vec<u8>>]| {
        fields.iter().fold(vec![Vec::new()], |begun: Vec<Vec<u8>>, field| {
            begun.iter().flat_map(|begin| field.iter().map(move |end| [&begin[..], end].concat())).collect()
        })
    };
    let lengths: Vec<Vec<u8>> = (0..=3).map(number).collect();
    let frames = joined(&[&lengths, &lengths, &strings(&[0, 1, 2, 3], 0..=4)]);
    let offset: Vec<Vec<u8>> = (0..=3).map(|at: u32| at.to_le_bytes().to_vec()).collect();
    let index: Vec<Vec<u8>> = [0, 8, 12, 16].map(number).to_vec();
    let data = strings(&[7, 8], 0..=3);
    let start = joined(&[&index, &offset, &offset, &offset, &data]);
    let end = joined(&[&data, &offset, &offset, &offset, &index]);
    // Two cells, each null or one of four bytes. Up to 3 bytes of two, and one border between the cells: (n + 1) << n of n bytes.
    for (kind, stored, wanted) in [
        (Kind::fixed(1, 1, Order::Little), &frames, 5 * 5),
        (Kind::fixed(1, 1, Order::Little).packed(), &frames, 5 * 5),
        (Kind::ragged(0, Width::Four, Place::Start), &start, 1 + 4 + 12 + 32),
        (Kind::ragged(0, Width::Four, Place::End), &end, 1 + 4 + 12 + 32),
    ] {
        let mut tables = BTreeMap::new();
        for bytes in stored {
            let Ok(table) = decode(kind, &[2], bytes) else { continue };
            assert!(encode(&table).as_ref() == Ok(bytes), "{kind} {bytes:02X?}");
            let other = tables.insert((table.masks, table.values, table.offsets), bytes);
            assert!(other.is_none(), "{kind}: {other:02X?} and {bytes:02X?} read alike");
        }
        assert_eq!(tables.len(), wanted, "{kind}");
    }
}

#[test]
fn cells_make_the_rest_form() {
    let mut draws = Draws(77);
    for _ in 0..500 {
        let (kind, shape) = (draws.kind(), draws.shape());
        let table = draws.array(kind, &shape);
        let cells: Vec<Cell<'_>> = (0..table.cell_count()).map(|number| table.cell(number).unwrap()).collect();
        assert_eq!(Array::from_cells(kind, &shape, &cells), Ok(rest(&table)));
    }
}

/// A load is valid and its own rest form, so it comes back as it was.
#[test]
fn loads_return() {
    let mut draws = Draws(3);
    for _ in 0..2_000 {
        let (kind, shape) = (draws.kind(), draws.shape());
        let load = generate(kind, &shape, draws.below(1 << 32) as u32).unwrap();
        assert_eq!(load, rest(&load));
        assert_eq!(decode(kind, &shape, &encode(&load).unwrap()), Ok(load));
    }
}

/// In the interleaved form the cells come back.
#[test]
fn interleaved_cells_return() {
    let mut draws = Draws(2024);
    for _ in 0..2_000 {
        let kind = Kind::ragged(0, Width::Eight, Place::End);
        let shape = draws.shape();
        let table = draws.array(kind, &shape);
        let stored = encode_interleaved(&table).unwrap();
        let cells = table.cell_count();
        assert_eq!(stored.len(), 4 + 4 * cells + table.values.len());
        let read = decode_interleaved(cells as u64, &stored).unwrap();
        assert_eq!((read.values, read.offsets), (table.values, table.offsets));
    }
}

/// Small changes to anything: refused or not, never for the output's sake.
#[test]
fn outputs_are_never_short() {
    let mut draws = Draws(4242);
    let mut refused = [0; 15];
    for _ in 0..20_000 {
        let (kind, mut shape) = (draws.kind(), draws.shape());
        let mut table = draws.array(kind, &shape);
        let mut stored = encode(&table).unwrap();
        let mut subset = draws.subset(&shape);
        let chunk = draws.array(kind, subset.lengths());
        if draws.one_in(3) && !stored.is_empty() {
            let at = draws.below(stored.len() as u64) as usize;
            stored[at] = draws.below(256) as u8;
        }
        if draws.one_in(4) {
            stored.truncate(draws.below(stored.len() as u64 + 1) as usize);
        }
        if draws.one_in(4) && !table.offsets.is_empty() {
            let at = draws.below(table.offsets.len() as u64) as usize;
            table.offsets[at] = [draws.below(9), u64::MAX, 1 << 40][draws.below(3) as usize];
        }
        if draws.one_in(6) {
            table.values.push(1);
        }
        if draws.one_in(6) {
            table.masks.pop();
        }
        if draws.one_in(6) && !table.masks.is_empty() {
            let at = draws.below(table.masks.len() as u64) as usize;
            table.masks[at] = draws.below(256) as u8;
        }
        if draws.one_in(6) {
            let side = draws.below(shape.len() as u64) as usize;
            shape[side] = draws.below(7);
            table.shape = shape.clone();
        }
        if draws.one_in(6) {
            let mut numbers = subset.numbers().to_vec();
            let at = draws.below(numbers.len() as u64) as usize;
            numbers[at] = [draws.below(7), u64::MAX][draws.below(2) as usize];
            subset = Subset::from_numbers(numbers);
        }
        let other = draws.kind();
        let answers = [
            encode(&table).err(),
            decode(kind, &shape, &stored).err(),
            decode(other, &shape, &stored).err(),
            extract(&table, &subset).err(),
            merge(kind, &shape, &[Chunk::new(&subset, &table)]).err(),
            merge(kind, &shape, &[Chunk::new(&subset, &chunk)]).err(),
            partial_decode(Width::Four, Place::Start, &shape, &subset, &stored).err(),
            partial_decode(Width::Eight, Place::End, &shape, &subset, &stored).err(),
            decode_interleaved(draws.below(4), &stored).err(),
            encode_interleaved(&table).err(),
            subset_cells(&shape, &subset).err(),
            generate(kind, &shape, draws.below(1 << 32) as u32).err(),
        ];
        for refusal in answers.into_iter().flatten() {
            refused[refusal.number() as usize] += 1;
        }
    }
    assert_eq!(refused[6], 0, "an output was too short");
    for number in [2, 3, 4, 7, 8, 9, 10, 12, 13, 14] {
        assert!(refused[number] > 0, "refusal {number} was never met");
    }
}
