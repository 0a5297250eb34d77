//! Working tables: the lines of docs/SPEC.md, S10.37 to S10.46, refusals in their order, lent slices, and tables that are edited and
//! packed at random beside a plain list of cells, each setting previewed.

use durpaxeta::*;

fn kind(depth: u64) -> Kind {
    Kind::ragged(depth, Width::Eight, Place::Start)
}

fn table(masks: &[u8], starts: &[u64], lengths: &[u64], store: &[u8]) -> Table {
    let depth = masks.len().checked_div(starts.len()).unwrap_or(0) as u64;
    let (starts, lengths) = (starts.to_vec(), lengths.to_vec());
    Table { kind: kind(depth), masks: masks.to_vec(), starts, lengths, store: store.to_vec() }
}

fn array(depth: u64, shape: &[u64], masks: &[u8], values: &[u8], offsets: &[u64]) -> Array {
    Array {
        kind: kind(depth),
        shape: shape.to_vec(),
        masks: masks.to_vec(),
        values: values.to_vec(),
        offsets: offsets.to_vec(),
    }
}

/// The table after a call, or the refusal; a refused one is as it was.
fn after<T>(before: &Table, call: impl FnOnce(&mut TableMut<'_>) -> Result<T, Refusal>) -> Result<(T, Table), Refusal> {
    let mut table = before.clone();
    match call(&mut table.lent()) {
        Ok(named) => Ok((named, table)),
        Err(refusal) => {
            assert_eq!(table, *before, "{refusal}");
            Err(refusal)
        }
    }
}

/// A setting of a table without masks.
fn set(before: &Table, cell: u64, value: &[u8]) -> Result<Table, Refusal> {
    let set = after(before, |table| table.set(cell, Cell::Value(value))).map(|((), table)| table);
    let foreseen = before.preview(cell, Cell::Value(value));
    assert_eq!(foreseen, set.as_ref().map(looked_at).map_err(|refusal| *refusal), "{before:?}");
    set
}

/// A setting, and its preview: refused alike, or what the table is then.
fn set_masks(before: &Table, cell: u64, masks: &[u8], value: &[u8]) -> Result<Table, Refusal> {
    let set = after(before, |table| table.set_masks(cell, masks, value)).map(|((), table)| table);
    let foreseen = before.view().preview_masks(cell, masks, value);
    assert_eq!(foreseen, set.as_ref().map(looked_at).map_err(|refusal| *refusal), "{before:?}");
    set
}

fn looked_at(table: &Table) -> Preview {
    Preview { total: table.lengths.iter().sum(), unpacked: displaced(table) }
}

fn pack(before: &Table, most: u64) -> Result<(usize, Table), Refusal> {
    after(before, |table| table.pack(most))
}

#[test]
fn made_of_the_rest_form() {
    let hidden = array(2, &[1], &[0, 1], b"a", &[0, 1]);
    assert_eq!(Table::make(&hidden, 0), Ok(table(&[0, 0], &[0], &[0], b"")));
    let one = array(0, &[1], &[], b"a", &[0, 1]);
    assert_eq!(Table::make(&one, 0), Err(Refusal::Output));
    let some = array(1, &[2, 2], &[1, 0, 1, 1], b"0-3?8", &[0, 3, 4, 4, 5]);
    let made = table(&[1, 0, 1, 1], &[0, 0, 0, 3], &[3, 0, 0, 1], b"0-38\0\0");
    assert_eq!(Table::make(&some, 6), Ok(made.clone()));
    assert_eq!(made.read(&[2, 2]), Ok(array(1, &[2, 2], &[1, 0, 1, 1], b"0-38", &[0, 3, 3, 3, 4])));
    assert_eq!(made.cell(1), Some(Cell::Null { level: 1 }));
    assert_eq!(made.cell(2), Some(Cell::Value(b"")));
}

#[test]
fn read_out_in_cell_order() {
    let scattered = table(&[], &[3, 1, 0], &[1, 2, 1], b"zyyx.");
    assert_eq!(scattered.read(&[3]), Ok(array(0, &[3], &[], b"xyyz", &[0, 1, 3, 4])));
    assert_eq!(scattered.read(&[4]), Err(Refusal::Content));
    assert_eq!(scattered.read(&[]), Err(Refusal::Shape));
}

#[test]
fn where_new_bytes_go() {
    for (before, cell, value, then) in [
        (table(&[], &[3, 1, 0], &[1, 2, 1], b"zyyx.."), 2, &b"w"[..], table(&[], &[3, 1, 4], &[1, 2, 1], b"zyyxw.")),
        (table(&[], &[0, 1], &[1, 1], b"xy"), 1, b"b", table(&[], &[0, 1], &[1, 1], b"xb")),
        (table(&[], &[0], &[1], b"x"), 0, b"y", table(&[], &[0], &[1], b"y")),
        (table(&[], &[0, 1], &[1, 1], b"xy."), 0, b"x", table(&[], &[2, 1], &[1, 1], b"xyx")),
        (table(&[], &[0, 1], &[1, 1], b"xy.."), 0, b"abc", table(&[], &[1, 0], &[3, 1], b"yabc")),
        (table(&[], &[3, 0, 1], &[2, 0, 1], b".c.aa"), 1, b"bb", table(&[], &[1, 3, 0], &[2, 2, 1], b"caabb")),
        (table(&[], &[1, 0], &[1, 1], b"xy"), 1, b"", table(&[], &[1, 0], &[1, 0], b"xy")),
    ] {
        assert_eq!(set(&before, cell, value), Ok(then));
    }
}

#[test]
fn what_an_unset_level_hides() {
    let one = table(&[1], &[0], &[1], b"x");
    assert_eq!(set_masks(&one, 0, &[0], b"abc"), Ok(table(&[0], &[0], &[0], b"x")));
    let two = table(&[1, 1], &[0], &[1], b"x");
    assert_eq!(set_masks(&two, 0, &[0, 1], b""), Ok(table(&[0, 0], &[0], &[0], b"x")));
    let null = after(&two, |table| table.set(0, Cell::Null { level: 2 })).unwrap().1;
    assert_eq!((null.cell(0), &null.masks[..]), (Some(Cell::Null { level: 2 }), &[1, 0][..]));
    for level in [0, 3, usize::MAX] {
        assert_eq!(after(&two, |table| table.set(0, Cell::Null { level })), Err(Refusal::Content));
    }
}

#[test]
fn what_packing_moves() {
    assert_eq!(pack(&table(&[], &[1], &[3], b".abc"), 1), Ok((1, table(&[], &[0], &[3], b"abcc"))));
    assert_eq!(pack(&table(&[], &[0, 2], &[1, 1], b"a.b"), 1), Ok((1, table(&[], &[0, 1], &[1, 1], b"abb"))));
    assert_eq!(pack(&table(&[], &[3, 1], &[1, 1], b".b.a"), 1), Ok((1, table(&[], &[3, 0], &[1, 1], b"bb.a"))));
    assert_eq!(pack(&table(&[], &[0], &[1], b"a"), 256), Ok((0, table(&[], &[0], &[1], b"a"))));
}

#[test]
fn what_a_preview_says() {
    let two = |store: &[u8]| table(&[], &[0, 1], &[1, 1], store);
    for (before, cell, value, total, unpacked) in [
        (two(b"xy..."), 0, &b"abc"[..], 4, 2),
        (two(b"xy.."), 0, b"abc", 4, 0),
        (two(b"xy.."), 0, b"", 1, 1),
        (two(b"xy"), 1, b"b", 2, 0),
        (table(&[], &[3, 1, 0], &[1, 2, 1], b"zyyx.."), 2, b"w", 4, 3),
        (table(&[], &[1], &[3], b".abc"), 0, b"x", 1, 0),
        (table(&[], &[1, 0], &[1, 1], b"xy"), 1, b"", 1, 1),
    ] {
        assert_eq!(before.preview(cell, Cell::Value(value)), Ok(Preview { total, unpacked }), "{before:?}");
        let mut lent = before.clone();
        assert_eq!(lent.lent().preview(cell, Cell::Value(value)), Ok(Preview { total, unpacked }));
        assert_eq!(lent, before);
    }
    let one = table(&[1], &[0], &[1], b"x");
    let nothing = Preview { total: 0, unpacked: 0 };
    assert_eq!(one.view().preview_masks(0, &[0], b"abc"), Ok(nothing));
    assert_eq!(one.preview(0, Cell::Null { level: 1 }), Ok(nothing));
    assert_eq!(one.preview(0, Cell::Null { level: 2 }), Err(Refusal::Content));
    let empty = table(&[], &[0], &[0], b"");
    assert_eq!(empty.preview(1, Cell::Value(b"a")), Err(Refusal::Cell));
    assert_eq!(empty.preview(0, Cell::Value(b"a")), Err(Refusal::Full));
    assert_eq!(empty.preview(0, Cell::Value(b"")), Ok(nothing));
}

#[test]
fn refusals_in_their_order() {
    let one = table(&[1], &[0], &[0], b"");
    let fixed = Table { kind: Kind::fixed(1, 1, Order::Little), ..one.clone() };
    let deep = Table { kind: kind(5), ..one.clone() };
    for wrong in [&fixed, &deep] {
        assert_eq!(pack(wrong, 1), Err(Refusal::Kind));
        assert_eq!(set_masks(wrong, 1, &[2], b"a"), Err(Refusal::Kind));
        assert_eq!(wrong.read(&[1]), Err(Refusal::Kind));
    }
    let none = table(&[], &[], &[], b"x");
    assert_eq!(pack(&none, 257), Err(Refusal::Kind));
    assert_eq!(pack(&none, 0), Err(Refusal::Kind));
    assert_eq!(pack(&none, 1), Err(Refusal::Shape));
    assert_eq!(set(&none, 0, b""), Err(Refusal::Shape));
    assert_eq!(none.read(&[0]), Err(Refusal::Shape));
    assert_eq!(set_masks(&one, 1, &[2], b"a"), Err(Refusal::Content));
    assert_eq!(set_masks(&one, 1, &[], b"a"), Err(Refusal::Content));
    assert_eq!(set_masks(&one, 1, &[1], b"a"), Err(Refusal::Cell));
    assert_eq!(set_masks(&one, u64::MAX, &[0], b""), Err(Refusal::Cell));
    assert_eq!(set_masks(&one, 0, &[1], b"a"), Err(Refusal::Full));
    for broken in [
        table(&[0], &[0], &[1], b"x"),
        table(&[2], &[0], &[0], b"x"),
        table(&[0, 1], &[0], &[0], b"x"),
        table(&[], &[1], &[0], b"x"),
        table(&[], &[0, 1], &[2, 1], b"xy"),
        table(&[], &[u64::MAX], &[1], b"x"),
        table(&[], &[0, 0], &[1 << 63, 1 << 63], b""),
        Table { lengths: vec![], ..one.clone() },
        Table { masks: vec![1, 1], ..one.clone() },
    ] {
        let masks = vec![1; broken.kind.depth as usize];
        assert_eq!(pack(&broken, 1), Err(Refusal::Content), "{broken:?}");
        assert_eq!(set_masks(&broken, 9, &masks, b"a"), Err(Refusal::Content), "{broken:?}");
        assert_eq!(broken.read(&[broken.starts.len() as u64]), Err(Refusal::Content), "{broken:?}");
    }
    let array = array(1, &[1], &[1], b"a", &[0, 1]);
    assert_eq!(Table::make(&array, usize::MAX), Err(Refusal::Size));
    let long = Table { store: vec![0; MAX_STORE as usize + 1], ..one };
    assert_eq!(pack(&long, 1).map(|_| ()), Err(Refusal::Size));
    assert_eq!(set_masks(&long, 1, &[2], b"").map(|_| ()), Err(Refusal::Content));
    assert_eq!(set_masks(&long, 1, &[1], b"").map(|_| ()), Err(Refusal::Size));
}

/// With exactly the room that is needed, with more, and with one element less of each.
#[test]
fn lent_slices() {
    let from = array(1, &[3], &[1, 0, 1], b"abc", &[0, 1, 1, 3]);
    let needs = [3, 3, 3, 3];
    let make = |room: [usize; 4]| {
        let (mut masks, mut starts, mut lengths, mut store) =
            (vec![9; room[0]], vec![9; room[1]], vec![9; room[2]], vec![9; room[3]]);
        let out = TableMut {
            kind: kind(0),
            masks: &mut masks,
            starts: &mut starts,
            lengths: &mut lengths,
            store: &mut store,
        };
        let made = table_make_into(&from, out).map(|made| (made.masks.len(), made.starts.len(), made.store.len()));
        (made, masks, starts, lengths, store)
    };
    let (made, masks, starts, lengths, store) = make(needs.map(|need| need + 2));
    assert_eq!(made, Ok((3, 3, 5)));
    assert_eq!((masks, starts), (vec![1, 0, 1, 9, 9], vec![0, 0, 1, 9, 9]));
    assert_eq!((lengths, store), (vec![1, 0, 2, 9, 9], b"abc\x09\x09".to_vec()));
    assert_eq!(make(needs).0, Ok((3, 3, 3)));
    for short in 0..4 {
        let mut room = needs;
        room[short] -= 1;
        let (made, masks, starts, lengths, store) = make(room);
        assert_eq!(made, Err(Refusal::Output));
        assert!(masks.iter().chain(&store).all(|&byte| byte == 9));
        assert!(starts.iter().chain(&lengths).all(|&number| number == 9));
    }

    let table = Table::make(&from, 3).unwrap();
    let (mut masks, mut values, mut offsets) = ([9; 4], [9; 4], [9; 5]);
    let out = Lent { masks: &mut masks, values: &mut values, offsets: &mut offsets };
    assert_eq!(table_read_into(table.view(), &[3], out).map(ArrayRef::to_array), Ok(from));
    assert_eq!((masks, values, offsets), ([1, 0, 1, 9], *b"abc\x09", [0, 1, 1, 3, 9]));
    let out = Lent { masks: &mut masks, values: &mut values[..2], offsets: &mut offsets };
    assert_eq!(table_read_into(table.view(), &[3], out), Err(Refusal::Output));
}

struct Draws(u64);

impl Draws {
    fn below(&mut self, n: usize) -> usize {
        self.0 = self.0.wrapping_mul(6_364_136_223_846_793_005).wrapping_add(1_442_695_040_888_963_407);
        ((self.0 >> 33) % n as u64) as usize
    }
}

/// How many cells are not packed, by the rule.
fn displaced(table: &Table) -> usize {
    let cells = 0..table.cell_count();
    let packed = |cell: usize| -> u64 {
        let lower = cells.clone().filter(|&other| table.lengths[other] > 0 && table.starts[other] < table.starts[cell]);
        lower.map(|other| table.lengths[other]).sum()
    };
    cells.clone().filter(|&cell| table.lengths[cell] > 0 && table.starts[cell] != packed(cell)).count()
}

/// Settings and packings at random, beside a plain list of cells: no cell but the one that is set ever changes, nothing is refused
/// but what has too many bytes, and packing ends as it should.
#[test]
fn edited_and_packed_at_random() {
    let draws = &mut Draws(8);
    for round in 0..400 {
        let depth = round % 5;
        let cells = 1 + draws.below(12);
        let start = draws.below(1000) as u32;
        let load = generate(kind(depth), &[cells as u64], start).unwrap();
        let size = load.values.len() + draws.below(30);
        let mut table = Table::make(&load, size).unwrap();
        assert_eq!((displaced(&table), table.read(&[cells as u64])), (0, Ok(load.clone())));
        let mut model: Vec<Result<Vec<u8>, usize>> = load
            .cells()
            .map(|cell| match cell {
                Cell::Value(value) => Ok(value.to_vec()),
                Cell::Null { level } => Err(level),
            })
            .collect();
        for _ in 0..40 {
            if draws.below(4) == 0 {
                let (left, most) = (displaced(&table), 1 + draws.below(4));
                assert_eq!(table.pack(most as u64), Ok(left.min(most)));
                assert_eq!(displaced(&table), left - left.min(most));
            } else {
                let cell = draws.below(cells);
                let value: Vec<u8> = (0..draws.below(14)).map(|_| draws.below(256) as u8).collect();
                let to = match depth as usize {
                    depth if depth > 0 && draws.below(4) == 0 => Err(1 + draws.below(depth)),
                    _ => Ok(value),
                };
                let others: usize = (0..cells).filter(|&other| other != cell).map(|other| bytes(&model[other])).sum();
                let wanted = match &to {
                    Ok(value) => Cell::Value(value),
                    Err(level) => Cell::Null { level: *level },
                };
                let foreseen = table.preview(cell as u64, wanted);
                let set = table.set(cell as u64, wanted);
                assert_eq!(foreseen, set.map(|()| looked_at(&table)));
                if others + bytes(&to) > size {
                    assert_eq!(set, Err(Refusal::Full));
                } else {
                    assert_eq!(set, Ok(()));
                    model[cell] = to;
                }
            }
            let read = table.read(&[cells as u64]).unwrap();
            let cells: Vec<Cell<'_>> = model
                .iter()
                .map(|cell| match cell {
                    Ok(value) => Cell::Value(value),
                    Err(level) => Cell::Null { level: *level },
                })
                .collect();
            assert!(read.cells().eq(cells));
            assert_eq!(decode(read.kind, &read.shape, &encode(&read).unwrap()), Ok(read));
        }
    }
}

fn bytes(cell: &Result<Vec<u8>, usize>) -> usize {
    cell.as_ref().map_or(0, Vec::len)
}
