//! Guests: the lines of docs/SPEC.md, S10.47 to S10.51, refusals in their order; and at random what a plane shows, that arrays
//! which agree where it shows them are seen as one, that an edit is the setting of a cell that it shows, and that planes combine,
//! are cut and are merged (S14.9 to S14.11).

use durpaxeta::*;

fn kind(depth: u64) -> Kind {
    Kind::ragged(depth, Width::Four, Place::End)
}

fn pairs(depth: u64) -> Kind {
    Kind::fixed(depth, 2, Order::Little)
}

fn array(kind: Kind, shape: &[u64], masks: &[u8], values: &[u8], offsets: &[u64]) -> Array {
    Array { kind, shape: shape.to_vec(), masks: masks.to_vec(), values: values.to_vec(), offsets: offsets.to_vec() }
}

fn table(depth: u64, masks: &[u8], starts: &[u64], lengths: &[u64], store: &[u8]) -> Table {
    Table {
        kind: kind(depth),
        masks: masks.to_vec(),
        starts: starts.to_vec(),
        lengths: lengths.to_vec(),
        store: store.to_vec(),
    }
}

fn rights(plane: &[u8]) -> Rights {
    Rights::from_bytes(plane.to_vec()).unwrap()
}

/// The table after a guest's edit, or the refusal; a refused one is as it was.
fn edited(before: &Table, plane: &[u8], cell: u64, masks: &[u8], value: &[u8]) -> Result<Table, Refusal> {
    let mut table = before.clone();
    match table.lent().guest_edit_masks(&rights(plane), cell, masks, value) {
        Ok(()) => Ok(table),
        Err(refusal) => {
            assert_eq!(table, *before, "{refusal}");
            Err(refusal)
        }
    }
}

/// Two cells, "y" below "x", and a free byte.
fn two() -> Table {
    table(1, &[1, 1], &[1, 0], &[1, 1], b"yx.")
}

#[test]
fn planes_hold_two_bytes_alone() {
    for byte in 0..=255 {
        let made = Rights::from_bytes(vec![1, byte]);
        match byte {
            0 | 1 => assert_eq!(made, Ok(Rights::new(&[true, byte == 1]))),
            _ => assert_eq!(made, Err(Refusal::Content)),
        }
    }
    let plane = rights(&[0, 1, 1]);
    assert_eq!((plane.cell_count(), plane.bytes()), (3, &[0, 1, 1][..]));
    assert_eq!([0, 1, 2, 3, usize::MAX].map(|cell| plane.shows(cell)), [false, true, true, false, false]);
    assert_eq!(plane, (0..3).map(|cell| cell > 0).collect());
}

/// S14.8.
#[test]
fn planes_combine_and_are_arrays() {
    assert_eq!(rights(&[0, 0, 1, 1]).both(&rights(&[0, 1, 0, 1])), Ok(rights(&[0, 0, 0, 1])));
    assert_eq!(rights(&[]).both(&rights(&[])), Ok(rights(&[])));
    for other in [&[][..], &[1], &[1, 1, 1]] {
        assert_eq!(rights(&[1, 1]).both(&rights(other)), Err(Refusal::Content));
        assert_eq!(rights(other).both(&rights(&[1, 1])), Err(Refusal::Content));
    }

    let plane = rights(&[0, 1, 1, 0]);
    let array = plane.array(&[2, 2]).to_array();
    assert_eq!(array, self::array(Kind::fixed(0, 1, Order::Little), &[2, 2], &[], &[0, 1, 1, 0], &[]));
    assert_eq!(Rights::from_array(array.clone()), Ok(plane.clone()));
    // The order of a byte is no order, and there is no mask to be packed.
    let same = Kind::fixed(0, 1, Order::Big).packed();
    assert_eq!(Rights::from_array(Array { kind: same, ..array.clone() }), Ok(plane.clone()));
    for other in [Kind::fixed(1, 1, Order::Little), pairs(0), kind(0)] {
        assert_eq!(Rights::from_array(Array { kind: other, ..array.clone() }), Err(Refusal::Kind), "{other}");
    }
    for broken in [
        Array { shape: vec![3], ..array.clone() },
        Array { shape: vec![], ..array.clone() },
        Array { masks: vec![1; 4], ..array.clone() },
        Array { offsets: vec![0], ..array.clone() },
        Array { values: vec![0, 1, 2, 0], ..array.clone() },
    ] {
        assert_eq!(Rights::from_array(broken.clone()), Err(Refusal::Content), "{broken:?}");
    }
    // Another count of cells than the shape's is refused by the calls.
    assert_eq!(extract(plane.array(&[3]), &Subset::whole(&[3])), Err(Refusal::Content));
    assert_eq!(extract(plane.array(&[]), &Subset::whole(&[])), Err(Refusal::Shape));
}

/// S10.47 and S10.48.
#[test]
fn what_is_hidden() {
    let ab = array(kind(1), &[2], &[1, 1], b"ab", &[0, 1, 2]);
    assert_eq!(guest_read(&ab, &rights(&[1, 0])), Ok(array(kind(1), &[2], &[1, 0], b"a", &[0, 1, 1])));
    let lent = |plane: &[u8]| {
        let (mut masks, mut values, mut offsets) = ([9; 2], [9; 1], [9; 3]);
        let out = Lent { masks: &mut masks, values: &mut values, offsets: &mut offsets };
        let seen = guest_read_into(&ab, &rights(plane), out).map(ArrayRef::to_array);
        (seen, masks, values, offsets)
    };
    // One value byte is enough for what is shown.
    let (seen, masks, values, offsets) = lent(&[1, 0]);
    assert_eq!(seen, guest_read(&ab, &rights(&[1, 0])));
    assert_eq!((masks, values, offsets), ([1, 0], *b"a", [0, 1, 1]));
    assert_eq!(lent(&[1, 1]), (Err(Refusal::Output), [9; 2], [9; 1], [9; 3]));

    let deep = array(kind(2), &[1], &[1, 1], b"a", &[0, 1]);
    assert_eq!(guest_read(&deep, &rights(&[0])), Ok(array(kind(2), &[1], &[0, 0], b"", &[0, 0])));
    let fixed = array(pairs(1), &[2], &[1, 1], &[10, 11, 12, 13], &[]);
    assert_eq!(guest_read(&fixed, &rights(&[0, 1])), Ok(array(pairs(1), &[2], &[0, 1], &[0, 0, 12, 13], &[])));
}

/// S10.49: right after 2, before every 4, of a fixed kind too.
#[test]
fn refusals_of_a_read_in_their_order() {
    let ab = array(kind(1), &[2], &[1, 1], b"ab", &[0, 1, 2]);
    let bad = |kind, shape: &[u64]| guest_read(&array(kind, shape, &[7], b"a", &[5]), &rights(&[1, 1, 1]));
    assert_eq!(bad(kind(5), &[]), Err(Refusal::Kind));
    assert_eq!(bad(Kind::fixed(0, 65, Order::Little), &[1]), Err(Refusal::Kind));
    assert_eq!(bad(kind(0), &[]), Err(Refusal::Shape));
    assert_eq!(bad(kind(0), &[65_537]), Err(Refusal::Shape));
    for kind in [kind(0), pairs(0), kind(0).packed()] {
        assert_eq!(bad(kind, &[1]), Err(Refusal::NoMasks));
        assert_eq!(guest_read(&array(kind, &[1], &[], b"ab", &[]), &rights(&[1])), Err(Refusal::NoMasks));
    }
    for plane in [&[][..], &[1], &[1, 1, 1]] {
        assert_eq!(guest_read(&ab, &rights(plane)), Err(Refusal::Content), "{plane:?}");
    }
    // Of the array too, be it shown or hidden.
    for broken in [
        array(kind(1), &[2], &[1, 2], b"ab", &[0, 1, 2]),
        array(kind(1), &[2], &[1], b"ab", &[0, 1, 2]),
        array(kind(1), &[2], &[1, 1], b"ab", &[1, 1, 2]),
        array(kind(1), &[2], &[1, 1], b"ab", &[0, 2, 1]),
        array(pairs(1), &[2], &[1, 1], b"abc", &[]),
    ] {
        for plane in [[0, 0], [1, 1]] {
            assert_eq!(guest_read(&broken, &rights(&plane)), Err(Refusal::Content), "{broken:?}");
        }
    }
}

/// S10.50: a permitted edit packs, and so moves the hidden cell.
#[test]
fn what_an_edit_moves() {
    let then = table(1, &[1, 1], &[0, 1], &[1, 2], b"xzz");
    assert_eq!(edited(&two(), &[0, 1], 1, &[1], b"zz"), Ok(then));
    let mut owned = two();
    assert_eq!(owned.guest_edit(&rights(&[0, 1]), 1, Cell::Value(b"z")), Ok(()));
    assert_eq!(owned, table(1, &[1, 1], &[1, 2], &[1, 1], b"yxz"));
    assert_eq!(owned.guest_edit(&rights(&[0, 1]), 1, Cell::Null { level: 1 }), Ok(()));
    assert_eq!(owned, table(1, &[1, 0], &[1, 0], &[1, 0], b"yxz"));
}

/// S10.51: the plane's 4 before 5 and 15, the setting's masks before 18, 15 before 18, and 18 before 16.
#[test]
fn refusals_of_an_edit_in_their_order() {
    let one = table(0, &[], &[0], &[0], b"");
    for fixed in [pairs(0), pairs(1)] {
        assert_eq!(edited(&Table { kind: fixed, ..one.clone() }, &[], 0, &[], b""), Err(Refusal::Kind));
    }
    assert_eq!(edited(&Table { kind: kind(5), ..one.clone() }, &[], 0, &[], b""), Err(Refusal::Kind));
    assert_eq!(edited(&table(0, &[], &[], &[], b""), &[1], 0, &[], b""), Err(Refusal::Shape));
    assert_eq!(edited(&one, &[], 9, &[2], b"a"), Err(Refusal::NoMasks));
    for plane in [&[][..], &[1], &[1, 1, 1]] {
        assert_eq!(edited(&two(), plane, 2, &[1], b""), Err(Refusal::Content), "{plane:?}");
    }
    let broken = table(1, &[1, 1], &[0, 0], &[1, 1], b"yx.");
    for cell in [0, 1, 2] {
        assert_eq!(edited(&broken, &[0, 1], cell, &[1], b""), Err(Refusal::Content), "{cell}");
    }
    for masks in [&[2][..], &[], &[1, 1]] {
        assert_eq!(edited(&two(), &[0, 1], 0, masks, b""), Err(Refusal::Content), "{masks:?}");
    }
    let long = Table { store: vec![0; MAX_STORE as usize + 1], ..two() };
    assert_eq!(edited(&long, &[1], 2, &[1], b"").map(|_| ()), Err(Refusal::Content));
    assert_eq!(edited(&long, &[0, 1], 2, &[1], b"").map(|_| ()), Err(Refusal::Size));
    assert_eq!(edited(&long, &[0, 1], 0, &[1], b"").map(|_| ()), Err(Refusal::Size));
    for cell in [2, 1 << 32, u64::MAX] {
        assert_eq!(edited(&two(), &[0, 1], cell, &[1], b"zzzz"), Err(Refusal::Cell));
    }
    assert_eq!(edited(&two(), &[0, 1], 0, &[1], b"zzzz"), Err(Refusal::Hidden));
    assert_eq!(edited(&two(), &[0, 1], 0, &[0], b""), Err(Refusal::Hidden));
    assert_eq!(edited(&two(), &[0, 1], 1, &[1], b"zzz"), Err(Refusal::Full));
    assert_eq!(edited(&two(), &[0, 1], 1, &[0], b"zzz"), Ok(table(1, &[1, 0], &[1, 0], &[1, 0], b"yx.")));
}

struct Draws(u64);

impl Draws {
    fn below(&mut self, n: usize) -> usize {
        self.0 = self.0.wrapping_mul(6_364_136_223_846_793_005).wrapping_add(1_442_695_040_888_963_407);
        ((self.0 >> 33) % n as u64) as usize
    }

    fn bytes(&mut self, count: usize) -> Vec<u8> {
        (0..count).map(|_| self.below(256) as u8).collect()
    }

    fn plane(&mut self, cells: usize) -> Rights {
        (0..cells).map(|_| self.below(2) == 1).collect()
    }

    /// Any masks, and any value, hidden or not.
    fn cell(&mut self, kind: Kind) -> (Vec<u8>, Vec<u8>) {
        let masks = (0..kind.depth).map(|_| u8::from(self.below(4) > 0)).collect();
        let length = match kind.values {
            Values::Fixed { size, .. } => size as usize,
            Values::Ragged { .. } => self.below(6),
        };
        (masks, self.bytes(length))
    }

    /// A cell that in rest form is the same.
    fn alike(&mut self, kind: Kind, cell: &(Vec<u8>, Vec<u8>)) -> (Vec<u8>, Vec<u8>) {
        match cell.0.iter().position(|&mask| mask == 0) {
            None => cell.clone(),
            Some(null) => {
                let (below, value) = self.cell(kind);
                ([&cell.0[..=null], &below[null + 1..]].concat(), value)
            }
        }
    }
}

fn of_cells(kind: Kind, cells: &[(Vec<u8>, Vec<u8>)]) -> Array {
    let mut offsets = Vec::new();
    if kind.is_ragged() {
        let ends = cells.iter().scan(0, |end, (_, value)| {
            *end += value.len() as u64;
            Some(*end)
        });
        offsets = std::iter::once(0).chain(ends).collect();
    }
    Array {
        kind,
        shape: vec![cells.len() as u64],
        masks: (0..kind.depth as usize).flat_map(|level| cells.iter().map(move |(masks, _)| masks[level])).collect(),
        values: cells.iter().flat_map(|(_, value)| value.clone()).collect(),
        offsets,
    }
}

/// Each cell is the array's where the plane shows it, and null at level 1 where not; all in rest form. An array that agrees in
/// rest form where the plane shows it, whatever it hides, gives the same answer, and the same in lent slices of any length.
#[test]
fn seen_at_random() {
    let draws = &mut Draws(10);
    let (mut refused, mut given) = (0, 0);
    for round in 0..2000 {
        let depth = 1 + round % 4;
        let kind = [kind(depth), kind(depth).packed(), pairs(depth), Kind::fixed(depth, 5, Order::Big)][draws.below(4)];
        let cells: Vec<_> = (0..1 + draws.below(9)).map(|_| draws.cell(kind)).collect();
        let plane = draws.plane(cells.len());
        let array = of_cells(kind, &cells);
        let seen = guest_read(&array, &plane).unwrap();
        for cell in 0..cells.len() {
            let wanted = if plane.shows(cell) { array.cell(cell) } else { Some(Cell::Null { level: 1 }) };
            assert_eq!(seen.cell(cell), wanted);
        }
        assert_eq!(decode(kind, &seen.shape, &encode(&seen).unwrap()).as_ref(), Ok(&seen));

        let others: Vec<_> = (0..cells.len())
            .map(|cell| if plane.shows(cell) { draws.alike(kind, &cells[cell]) } else { draws.cell(kind) })
            .collect();
        let other = of_cells(kind, &others);
        assert_eq!(guest_read(&other, &plane).as_ref(), Ok(&seen));
        let room = [seen.masks.len(), seen.values.len(), seen.offsets.len()]
            .map(|needs| (needs + draws.below(3)).saturating_sub(usize::from(draws.below(4) == 0)));
        let lent = |array: &Array| {
            let (mut masks, mut values, mut offsets) = (vec![9; room[0]], vec![9; room[1]], vec![9; room[2]]);
            let out = Lent { masks: &mut masks, values: &mut values, offsets: &mut offsets };
            let seen = guest_read_into(array, &plane, out).map(ArrayRef::to_array);
            (seen, masks, values, offsets)
        };
        let answer = lent(&array);
        assert_eq!(answer, lent(&other));
        *(if answer.0.is_ok() { &mut given } else { &mut refused }) += 1;
    }
    assert!(refused > 200 && given > 200, "{refused} and {given}");
}

/// An edit is the setting where the plane shows the cell, and 18 where not. Of two tables that keep the rules the answers differ in
/// 16 alone.
#[test]
fn edited_at_random() {
    let draws = &mut Draws(11);
    let (mut hidden, mut full, mut made) = (0, 0, 0);
    for round in 0..400 {
        let depth = 1 + round % 4;
        let cells = 1 + draws.below(8);
        let mut tables: Vec<Table> = (0..2)
            .map(|_| {
                let load = generate(kind(depth), &[cells as u64], draws.below(1000) as u32).unwrap();
                Table::make(&load, load.values.len() + draws.below(12)).unwrap()
            })
            .collect();
        let plane = draws.plane(cells);
        for _ in 0..20 {
            let cell = draws.below(cells + 1);
            let (masks, value) = draws.cell(kind(depth));
            let answers: Vec<Result<(), Refusal>> = tables
                .iter_mut()
                .map(|table| {
                    let before = table.clone();
                    let mut copy = table.clone();
                    let set = copy.lent().set_masks(cell as u64, &masks, &value);
                    let answer = table.lent().guest_edit_masks(&plane, cell as u64, &masks, &value);
                    match cell < cells && !plane.shows(cell) {
                        true => assert_eq!((answer, &*table), (Err(Refusal::Hidden), &before)),
                        false => assert_eq!((answer, &*table), (set, &copy)),
                    }
                    for other in (0..cells).filter(|&other| !plane.shows(other)) {
                        assert_eq!(table.cell(other), before.cell(other));
                    }
                    answer
                })
                .collect();
            assert!(answers[0] == answers[1] || answers.contains(&Err(Refusal::Full)), "{answers:?}");
            match answers[0] {
                Err(Refusal::Hidden) => hidden += 1,
                Err(Refusal::Full) => full += 1,
                Err(refusal) => assert_eq!((refusal, cell), (Refusal::Cell, cells)),
                Ok(()) => made += 1,
            }
        }
    }
    assert!(hidden > 500 && full > 100 && made > 500, "{hidden}, {full} and {made}");
}

impl Draws {
    /// A kind with masks.
    fn kind(&mut self, depth: u64) -> Kind {
        let size = 1 + self.below(9) as u64;
        let (width, place) = ([Width::Four, Width::Eight][self.below(2)], [Place::Start, Place::End][self.below(2)]);
        let kind = [Kind::fixed(depth, size, Order::Big), Kind::ragged(depth, width, place)][self.below(2)];
        [kind, kind.packed()][self.below(2)]
    }

    /// One to four sides, of up to 27 cells.
    fn shape(&mut self) -> Vec<u64> {
        let sides = 1 + self.below(4);
        let longest = [9, 4, 3, 2][sides - 1];
        (0..sides).map(|_| 1 + self.below(longest) as u64).collect()
    }

    fn array(&mut self, kind: Kind, shape: &[u64]) -> Array {
        let cells: Vec<_> = (0..cell_count(shape)).map(|_| self.cell(kind)).collect();
        Array { shape: shape.to_vec(), ..of_cells(kind, &cells) }
    }

    /// One that holds a cell.
    fn subset(&mut self, shape: &[u64]) -> Subset {
        let ranges: Vec<_> = shape
            .iter()
            .map(|&side| {
                let start = self.below(side as usize) as u64;
                start..start + 1 + self.below((side - start) as usize) as u64
            })
            .collect();
        Subset::from_ranges(&ranges).unwrap()
    }

    /// Subsets that cover a shape: it is split, and what came of that is split again. In any order.
    fn cover(&mut self, shape: &[u64]) -> Vec<Subset> {
        let mut list = vec![(vec![0; shape.len()], shape.to_vec())];
        for _ in 0..self.below(7) {
            let (at, side) = (self.below(list.len()), self.below(shape.len()));
            let (start, length) = (list[at].0[side], list[at].1[side]);
            if length > 1 {
                let first = 1 + self.below(length as usize - 1) as u64;
                let mut second = list[at].clone();
                list[at].1[side] = first;
                (second.0[side], second.1[side]) = (start + first, length - first);
                list.insert(self.below(list.len() + 1), second);
            }
        }
        list.iter().map(|(starts, lengths)| Subset::new(starts, lengths).unwrap()).collect()
    }
}

/// Calls that end in lent slices.
type Way<'a> = &'a dyn Fn(Lent<'_>) -> Result<Array, Refusal>;

/// How many answers were given, and how many refused with `Output`.
#[derive(Default)]
struct Answers {
    given: usize,
    refused: usize,
}

impl Answers {
    /// The ways end alike: one answer, and the same left in the slices. Each of these gets every length from none to enough and one
    /// more.
    fn alike(&mut self, draws: &mut Draws, ways: &[Way<'_>]) {
        let end = |way: Way<'_>, room: [usize; 3]| {
            let (mut masks, mut values, mut offsets) = (vec![9; room[0]], vec![9; room[1]], vec![9; room[2]]);
            let answer = way(Lent { masks: &mut masks, values: &mut values, offsets: &mut offsets });
            (answer, masks, values, offsets)
        };
        let outcome = end(ways[0], [1000; 3]).0.unwrap();
        let needs = [outcome.masks.len(), outcome.values.len(), outcome.offsets.len()];
        for slice in 0..3 {
            for length in 0..=needs[slice] + 1 {
                let mut room = needs.map(|length| length + draws.below(2));
                room[slice] = length;
                let first = end(ways[0], room);
                for way in &ways[1..] {
                    assert_eq!(end(*way, room), first, "{room:?} where {needs:?} are needed");
                }
                match length < needs[slice] {
                    true => assert_eq!(first.0, Err(Refusal::Output)),
                    false => assert_eq!(first.0.as_ref(), Ok(&outcome)),
                }
                *(if first.0.is_ok() { &mut self.given } else { &mut self.refused }) += 1;
            }
        }
    }

    fn enough(self) {
        assert!(self.given > 5000 && self.refused > 5000, "{} and {}", self.given, self.refused);
    }
}

/// S14.9: reading under one plane and then under another, in either order, is reading under what both show; once more under the
/// same one changes nothing.
#[test]
fn two_planes_at_random() {
    let (draws, mut answers) = (&mut Draws(12), Answers::default());
    for round in 0..1000 {
        let kind = draws.kind(1 + round % 4);
        let shape = draws.shape();
        let array = draws.array(kind, &shape);
        let planes = [0, 1].map(|_| draws.plane(cell_count(&shape)));
        let [first, second] = &planes;
        let seen = planes.each_ref().map(|plane| guest_read(&array, plane).unwrap());
        let both = first.both(second).unwrap();
        assert_eq!(second.both(first).as_ref(), Ok(&both));
        let read =
            |from: &Array, plane: &Rights, out: Lent<'_>| guest_read_into(from, plane, out).map(ArrayRef::to_array);
        answers.alike(
            draws,
            &[&|out| read(&array, &both, out), &|out| read(&seen[0], second, out), &|out| read(&seen[1], first, out)],
        );
        answers.alike(draws, &[&|out| read(&array, first, out), &|out| read(&seen[0], first, out)]);
    }
    answers.enough();
}

/// S14.10: reading and then cutting is cutting array and plane and then reading.
#[test]
fn cut_at_random() {
    let (draws, mut answers) = (&mut Draws(13), Answers::default());
    for round in 0..1500 {
        let kind = draws.kind(1 + round % 4);
        let shape = draws.shape();
        let array = draws.array(kind, &shape);
        let plane = draws.plane(cell_count(&shape));
        let subset = draws.subset(&shape);
        let seen = guest_read(&array, &plane).unwrap();
        let cut = extract(&array, &subset).unwrap();
        let rights = Rights::from_array(extract(plane.array(&shape), &subset).unwrap()).unwrap();
        answers.alike(
            draws,
            &[&|out| extract_into(&seen, &subset, out).map(ArrayRef::to_array), &|out| {
                guest_read_into(&cut, &rights, out).map(ArrayRef::to_array)
            }],
        );
    }
    answers.enough();
}

/// S14.11: reading parts and then merging them is merging arrays and planes and then reading.
#[test]
fn merged_at_random() {
    let (draws, mut answers) = (&mut Draws(14), Answers::default());
    let mut parts = 0;
    for round in 0..1500 {
        let kind = draws.kind(1 + round % 4);
        let shape = draws.shape();
        let subsets = draws.cover(&shape);
        let arrays: Vec<Array> = subsets.iter().map(|subset| draws.array(kind, subset.lengths())).collect();
        let planes: Vec<Rights> = arrays.iter().map(|array| draws.plane(array.cell_count())).collect();
        let seen: Vec<Array> = (0..subsets.len()).map(|i| guest_read(&arrays[i], &planes[i]).unwrap()).collect();
        let merged = merge(kind, &shape, &chunks(&subsets, arrays.iter().map(Array::view))).unwrap();
        let of_planes = planes.iter().zip(&subsets).map(|(plane, subset)| plane.array(subset.lengths()));
        let rights = Rights::from_array(merge(Rights::KIND, &shape, &chunks(&subsets, of_planes)).unwrap()).unwrap();
        let seen = chunks(&subsets, seen.iter().map(Array::view));
        answers.alike(
            draws,
            &[&|out| merge_into(kind, &shape, &seen, out).map(ArrayRef::to_array), &|out| {
                guest_read_into(&merged, &rights, out).map(ArrayRef::to_array)
            }],
        );
        parts += subsets.len();
    }
    answers.enough();
    assert!(parts > 3000, "{parts}");
}

fn chunks<'a>(subsets: &'a [Subset], arrays: impl Iterator<Item = ArrayRef<'a>>) -> Vec<Chunk<'a>> {
    subsets.iter().zip(arrays).map(|(subset, array)| Chunk::new(subset, array)).collect()
}

/// The smallest inputs of docs/DECISIONS.md, O2 to O6: what is cut and merged, and where nothing is claimed.
#[test]
fn where_reading_first_is_and_is_no_other_way() {
    let cut = |array: ArrayRef<'_>, start, length| extract(array, &Subset::new(&[start], &[length]).unwrap());
    let plane = |array| Rights::from_array(array).unwrap();
    assert_eq!(plane(cut(rights(&[1, 0]).array(&[2]), 1, 1).unwrap()), rights(&[0]));

    let bytes = |depth| Kind::fixed(depth, 1, Order::Little);
    let one = array(bytes(1), &[1], &[1], &[7], &[]);
    let hidden = guest_read(&one, &rights(&[0])).unwrap();
    assert_eq!(hidden, array(bytes(1), &[1], &[0], &[0], &[]));
    assert_eq!(cut(hidden.view(), 0, 1), Ok(hidden.clone()));
    assert_eq!(guest_read(&cut(one.view(), 0, 1).unwrap(), &rights(&[0])), Ok(hidden.clone()));

    // A subset without a cell is no shape.
    assert_eq!(cut(hidden.view(), 0, 0), Ok(array(bytes(1), &[0], &[], &[], &[])));
    let nothing = plane(cut(rights(&[0]).array(&[1]), 0, 0).unwrap());
    assert_eq!(guest_read(&cut(one.view(), 0, 0).unwrap(), &nothing), Err(Refusal::Shape));

    // What is hidden has no bytes. Parts so long that they do not merge are in tests/c/long.c.
    let subsets = [0, 1].map(|start| Subset::new(&[start], &[1]).unwrap());
    let long = array(kind(1), &[1], &[1], &vec![0; 16_777_216], &[0, 16_777_216]);
    let short = guest_read(&long, &rights(&[0])).unwrap();
    let merged = |part: &Array| merge(kind(1), &[2], &chunks(&subsets, [part.view(); 2].into_iter()));
    assert_eq!(merged(&long).unwrap().offsets, [0, 16_777_216, 33_554_432]);
    assert_eq!(merged(&short), Ok(array(kind(1), &[2], &[0, 0], b"", &[0, 0, 0])));

    // At depth 0 not always the same refusal is met first.
    let bare = array(bytes(0), &[1], &[], &[7], &[]);
    assert_eq!(guest_read(&bare, &rights(&[1])), Err(Refusal::NoMasks));
    assert_eq!(cut(bare.view(), 0, 2), Err(Refusal::Subset));
}
