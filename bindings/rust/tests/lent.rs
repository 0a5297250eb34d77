//! The calls over lent slices: they write what the others give, in exactly the room that is told; with less they are refused,
//! and a refusal changes nothing.

use durpaxeta::*;

const FILL: u8 = 0xA5;

/// Slices to lend.
#[derive(Clone, Debug, PartialEq)]
struct Slices {
    masks: Vec<u8>,
    values: Vec<u8>,
    offsets: Vec<u64>,
}

impl Slices {
    fn new(room: Room) -> Slices {
        let offsets = vec![u64::from(FILL); room.offsets];
        Slices { masks: vec![FILL; room.masks], values: vec![FILL; room.values], offsets }
    }

    fn lend(&mut self) -> Lent<'_> {
        Lent { masks: &mut self.masks, values: &mut self.values, offsets: &mut self.offsets }
    }
}

/// Six cells: a value, an empty one where it can be, and a null at each level.
fn table(kind: Kind) -> Array {
    let size = match kind.values {
        Values::Fixed { size, .. } => size as usize,
        Values::Ragged { .. } => 3,
    };
    let values = [vec![7; size], vec![9; if kind.is_ragged() { 0 } else { size }]];
    let depth = kind.depth as usize;
    let cell = |number: usize| match number {
        0 | 1 => Cell::Value(&values[number]),
        _ if depth == 0 => Cell::Value(&values[0]),
        _ => Cell::Null { level: 1 + number % depth },
    };
    Array::from_cells(kind, &[2, 3], &(0..6).map(cell).collect::<Vec<_>>()).unwrap()
}

fn kinds() -> Vec<Kind> {
    let of = |depth| {
        [
            Kind::fixed(depth, 3, Order::Big),
            Kind::ragged(depth, Width::Four, Place::Start),
            Kind::ragged(depth, Width::Eight, Place::End),
        ]
    };
    (0..=MAX_DEPTH).flat_map(of).collect()
}

/// With exactly the room of the answer: that answer. With one element less of an output that is used: `Output`, nothing changed.
fn exactly(answer: &Array, call: impl Fn(Lent<'_>) -> Result<Array, Refusal>) {
    let room = Room { masks: answer.masks.len(), values: answer.values.len(), offsets: answer.offsets.len() };
    assert_eq!(call(Slices::new(room).lend()).as_ref(), Ok(answer));
    let more = Room { masks: room.masks + 5, values: room.values + 5, offsets: room.offsets + 5 };
    let mut slices = Slices::new(more);
    assert_eq!(call(slices.lend()).as_ref(), Ok(answer));
    assert!(slices.masks[room.masks..].iter().all(|byte| *byte == FILL), "beyond the masks");
    assert!(slices.values[room.values..].iter().all(|byte| *byte == FILL), "beyond the values");
    assert!(slices.offsets[room.offsets..].iter().all(|number| *number == u64::from(FILL)), "beyond the offsets");
    let less = [
        Room { masks: room.masks.saturating_sub(1), ..room },
        Room { values: room.values.saturating_sub(1), ..room },
        Room { offsets: room.offsets.saturating_sub(1), ..room },
    ];
    for short in less.into_iter().filter(|less| *less != room) {
        let mut slices = Slices::new(short);
        assert_eq!(call(slices.lend()), Err(Refusal::Output), "{short:?} of {room:?}");
        assert_eq!(slices, Slices::new(short));
    }
}

#[test]
fn encode_and_decode() {
    for kind in kinds() {
        let table = table(kind);
        let stored = encode(&table).unwrap();
        let mut out = vec![FILL; stored.len() + 3];
        assert_eq!(encode_into(&table, &mut out), Ok(&stored[..]));
        assert_eq!(out[stored.len()..], [FILL; 3]);
        let mut out = vec![FILL; stored.len() - 1];
        assert_eq!(encode_into(&table, &mut out), Err(Refusal::Output));
        assert!(out.iter().all(|byte| *byte == FILL));
        assert!(stored.len() <= kind.stored_room(6, table.values.len()));

        exactly(&table, |out| decode_into(kind, &[2, 3], &stored, out).map(ArrayRef::to_array));
        let room = kind.array_room(cell_count(&[2, 3]), stored.len());
        assert_eq!((room.masks, room.offsets), (table.masks.len(), table.offsets.len()));
        assert!(kind.is_ragged() || room.values == table.values.len());
        let mut slices = Slices::new(room);
        assert_eq!(decode_into(kind, &[2, 3], &stored, slices.lend()), Ok(table.view()));
    }
}

#[test]
fn interleaved() {
    let table = table(Kind::ragged(0, Width::Four, Place::Start));
    let stored = encode_interleaved(&table).unwrap();
    let mut out = vec![FILL; stored.len() + 3];
    assert_eq!(encode_interleaved_into(&table, &mut out), Ok(&stored[..]));
    assert_eq!(out[stored.len()..], [FILL; 3]);
    let mut out = vec![FILL; stored.len() - 1];
    assert_eq!(encode_interleaved_into(&table, &mut out), Err(Refusal::Output));
    assert!(out.iter().all(|byte| *byte == FILL));
}

/// A load into slices that hold just it, and into ones for any load of that kind and shape.
#[test]
fn loads() {
    for kind in kinds() {
        for start in [0, 1, 77, u32::MAX] {
            let load = generate(kind, &[2, 3], start).unwrap();
            exactly(&load, |out| generate_into(kind, &[2, 3], start, out).map(ArrayRef::to_array));
            let mut slices = Slices::new(kind.array_room(6, 8 * 6));
            assert_eq!(generate_into(kind, &[2, 3], start, slices.lend()), Ok(load.view()));
        }
    }
}

/// What a guest sees, in slices that hold just what is shown, for each plane.
#[test]
fn guests() {
    for kind in kinds().into_iter().filter(|kind| kind.depth > 0) {
        let table = table(kind);
        for shown in 0..1 << 6 {
            let rights: Rights = (0..6).map(|cell| shown >> cell & 1 == 1).collect();
            let seen = guest_read(&table, &rights).unwrap();
            exactly(&seen, |out| guest_read_into(&table, &rights, out).map(ArrayRef::to_array));
        }
        let mut slices = Slices::new(kind.array_room(6, table.values.len()));
        let seen = guest_read_into(&table, &Rights::new(&[true; 6]), slices.lend());
        assert_eq!(seen, Ok(table.view()));
    }
}

/// Where no cell is null the room for the stored bytes is what they take.
#[test]
fn stored_room_is_exact() {
    for kind in kinds() {
        let mut full = table(kind);
        full.masks.fill(1);
        assert_eq!(encode(&full).unwrap().len(), kind.stored_room(6, full.values.len()), "{kind}");
    }
    assert_eq!(Kind::fixed(5, 1, Order::Little).stored_room(6, 6), 0);
    assert_eq!(Kind::fixed(0, 65, Order::Little).array_room(6, 6), Room::default());
    let ragged = Kind::ragged(1, Width::Four, Place::Start);
    assert_eq!(ragged.array_room(usize::MAX, usize::MAX), Room::default());
    assert_eq!(ragged.array_room(1, usize::MAX).values as u64, MAX_VALUE_BYTES);
}

#[test]
fn extract_and_merge() {
    for kind in kinds() {
        let table = table(kind);
        let subsets: [Subset; 2] = ["0..2,1..3", "0..2,0..1"].map(|text| text.parse().unwrap());
        let parts: Vec<Array> = subsets.iter().map(|subset| extract(&table, subset).unwrap()).collect();
        for (subset, part) in subsets.iter().zip(&parts) {
            exactly(part, |out| extract_into(&table, subset, out).map(ArrayRef::to_array));
        }
        let none = Subset::new(&[0, 0], &[0, 3]).unwrap();
        exactly(&extract(&table, &none).unwrap(), |out| extract_into(&table, &none, out).map(ArrayRef::to_array));

        let chunks: Vec<Chunk<'_>> =
            subsets.iter().zip(&parts).map(|(subset, part)| Chunk::new(subset, part)).collect();
        exactly(&table, |out| merge_into(kind, &[2, 3], &chunks, out).map(ArrayRef::to_array));
        let mut slices = Slices::new(kind.array_room(6, table.values.len()));
        let before = slices.clone();
        assert_eq!(merge_into(kind, &[2, 3], &chunks[..1], slices.lend()), Err(Refusal::Cover));
        assert_eq!(slices, before);
    }
}

/// Chunks that disagree with their subsets, though end to end they have as many bytes as they should.
#[test]
fn a_merge_that_only_fits_in_sum_writes_nothing() {
    let kind = Kind::fixed(0, 1, Order::Little);
    let array = |values: &[u8]| {
        let shape = vec![values.len() as u64];
        Array { kind, shape, masks: vec![], values: values.to_vec(), offsets: vec![] }
    };
    let subsets: [Subset; 2] = ["0..1", "1..3"].map(|text| text.parse().unwrap());
    let parts = [array(b"ab"), array(b"c")];
    let chunks = [Chunk::new(&subsets[0], &parts[0]), Chunk::new(&subsets[1], &parts[1])];
    let mut slices = Slices::new(kind.array_room(3, 3));
    let before = slices.clone();
    assert_eq!(merge_into(kind, &[3], &chunks, slices.lend()), Err(Refusal::Content));
    assert_eq!(slices, before);
    assert_eq!(merge_into(kind, &[2], &chunks, slices.lend()), Err(Refusal::Subset));
    assert_eq!(slices, before);
}

#[test]
fn cells_by_number_place_and_in_row() {
    for kind in kinds() {
        let table = table(kind);
        let cells: Vec<Cell<'_>> = table.cells().collect();
        assert_eq!(cells.len(), 6);
        assert_eq!(table.cells().size_hint(), (0, Some(6)));
        for (number, cell) in cells.iter().enumerate() {
            let place = [number as u64 / 3, number as u64 % 3];
            assert_eq!((table.cell(number), table.cell_at(&place)), (Some(*cell), Some(*cell)));
            assert_eq!(cell.is_null(), table.masks_of(number).contains(&0));
        }
        for place in [&[0, 3][..], &[2, 0], &[0], &[0, 0, 0], &[], &[u64::MAX, 0]] {
            assert_eq!(table.cell_at(place), None, "{place:?}");
        }
    }
    // Lengths that do not fit end the row of cells; a shape that is refused has none.
    let mut short = table(Kind::ragged(1, Width::Four, Place::Start));
    short.offsets.truncate(2);
    assert_eq!(short.cells().count(), 1);
    short.shape = vec![u64::MAX, 2, 3];
    assert_eq!((short.cells().count(), short.cell_at(&[u64::MAX - 1, 1, 2])), (0, None));
}
