//! Live tables: the lines of docs/SPEC.md, S10.56 to S10.62, refusals in their order, lent slices, and tables that are moved chunk by
//! chunk at random beside a plain list of cells.

use durpaxeta::*;

/// A live table that owns its lists.
#[derive(Clone, Debug, PartialEq)]
struct Live {
    shape: Vec<u64>,
    subsets: Vec<u64>,
    old_lengths: Vec<u64>,
    old: Vec<u8>,
    moved: u64,
    moved_lengths: Vec<u64>,
    area: Vec<u8>,
}

impl Live {
    fn lent(&mut self) -> LiveTable<'_> {
        LiveTable {
            shape: &self.shape,
            subsets: &self.subsets,
            old_lengths: &self.old_lengths,
            old: &self.old,
            moved: self.moved,
            moved_lengths: &mut self.moved_lengths,
            area: &mut self.area,
        }
    }

    fn view(&self) -> LiveTableRef<'_> {
        LiveTableRef {
            shape: &self.shape,
            subsets: &self.subsets,
            old_lengths: &self.old_lengths,
            old: &self.old,
            moved: self.moved,
            moved_lengths: &self.moved_lengths,
            area: &self.area,
        }
    }

    /// A step; a refused one changes nothing, and nor does one that finds no chunk left.
    fn step(&mut self) -> Result<Step, Refusal> {
        let before = self.clone();
        let mut table = self.lent();
        let answer = table.step();
        self.moved = table.moved;
        if !matches!(answer, Ok(Step::Moved { .. })) {
            assert_eq!(*self, before, "{answer:?}");
        }
        answer
    }

    fn cut(&self, subset: &Subset) -> Result<Array, Refusal> {
        self.view().extract(Width::Four, Place::Start, subset)
    }

    /// Refused alike: a step, a cut of a cell and one of none.
    fn refused(&self, refusal: Refusal) {
        assert_eq!(self.clone().step(), Err(refusal), "{self:?}");
        for length in [0, 1] {
            let sides = self.shape.len();
            let subset = Subset::new(&vec![0; sides], &vec![length; sides]).unwrap();
            assert_eq!(self.cut(&subset), Err(refusal), "{self:?}");
        }
    }
}

fn subset(start: u64, length: u64) -> Subset {
    Subset::new(&[start], &[length]).unwrap()
}

/// An old string of one cell.
fn one(cell: &[u8]) -> Vec<u8> {
    [&[1, 0, 0, 0, cell.len() as u8, 0, 0, 0], cell].concat()
}

/// Cell 1 is "A" and lies in chunk 0, cell 0 is "BC" and lies in chunk 1, whose old string has a byte behind it.
fn two() -> Live {
    Live {
        shape: vec![2],
        subsets: vec![1, 1, 0, 1],
        old_lengths: vec![9, 11],
        old: [one(b"A"), one(b"BC"), vec![7]].concat(),
        moved: 0,
        moved_lengths: vec![7, 7],
        area: vec![0; 52],
    }
}

/// The same with one chunk moved.
fn between() -> Live {
    let mut table = two();
    table.step().unwrap();
    table
}

#[test]
fn moved_one_after_the_other() {
    let mut table = two();
    assert_eq!(table.step(), Ok(Step::Moved { bytes: 25, moved: 1 }));
    assert_eq!((table.moved, &table.moved_lengths[..]), (1, &[25, 7][..]));
    assert_eq!(table.area[25..], [0; 27]);
    assert_eq!(table.step(), Ok(Step::Moved { bytes: 26, moved: 2 }));
    assert_eq!((table.moved, &table.moved_lengths[..], table.area[51]), (2, &[25, 26][..], 0));
    assert_eq!(table.step(), Ok(Step::NoneLeft));
    // Each is a stored table of its own.
    for (string, cell) in [(&table.area[..25], &b"A"[..]), (&table.area[25..51], b"BC")] {
        assert!(decode(LiveTable::KIND, &[1], string).unwrap().cells().eq([Cell::Value(cell)]));
    }
}

#[test]
fn cut_before_between_and_after() {
    let mut table = two();
    loop {
        for (width, place) in [(Width::Four, Place::End), (Width::Eight, Place::Start)] {
            let all = table.view().extract(width, place, &subset(0, 2)).unwrap();
            assert_eq!((all.kind, &all.shape[..]), (Kind::ragged(0, width, place), &[2][..]));
            assert_eq!((&all.values[..], &all.offsets[..]), (&b"BCA"[..], &[0, 2, 3][..]));
            assert_eq!(decode(all.kind, &all.shape, &encode(&all).unwrap()), Ok(all));
        }
        assert_eq!(table.cut(&subset(1, 1)).unwrap().values, b"A");
        let none = table.cut(&subset(2, 0)).unwrap();
        assert_eq!((none.values, none.offsets), (vec![], vec![0]));
        assert_eq!(table.cut(&subset(1, 2)), Err(Refusal::Subset));
        assert_eq!(table.cut(&Subset::whole(&[2, 1])), Err(Refusal::Subset));
        if table.step() == Ok(Step::NoneLeft) {
            break;
        }
    }
}

#[test]
fn a_longer_area() {
    let mut table = between();
    table.area.truncate(50);
    assert_eq!(table.step(), Err(Refusal::Output));
    let cut = table.cut(&subset(0, 2));
    table.area = [&table.area[..25], &[9; 26]].concat();
    assert_eq!(table.cut(&subset(0, 2)), cut);
    assert_eq!(table.step(), Ok(Step::Moved { bytes: 26, moved: 2 }));
    assert_eq!(table.cut(&subset(0, 2)), cut);
    // Without any chunk moved the area may be empty.
    let mut none = Live { area: vec![], ..two() };
    assert_eq!(none.cut(&subset(0, 2)), cut);
    assert_eq!(none.step(), Err(Refusal::Output));
}

#[test]
fn every_call_checks_all() {
    let with = |change: fn(&mut Live)| {
        let mut table = two();
        change(&mut table);
        table
    };
    // The count of the second chunk, which neither call needs.
    with(|table| table.old[9] = 2).refused(Refusal::Count);
    with(|table| table.old_lengths = vec![8, 12]).refused(Refusal::PastEnd);
    with(|table| table.old_lengths = vec![7, 13]).refused(Refusal::Short);
    with(|table| table.old_lengths = vec![9, 10]).refused(Refusal::Content);
    with(|table| table.old_lengths = vec![(1 << 63) + 9, (1 << 63) + 11]).refused(Refusal::Content);
    with(|table| table.old_lengths = vec![20]).refused(Refusal::Content);
    with(|table| table.moved_lengths = vec![7]).refused(Refusal::Content);
    with(|table| table.moved = 3).refused(Refusal::Content);
    with(|table| table.moved = u64::MAX).refused(Refusal::Content);
    with(|table| (table.moved, table.moved_lengths, table.area) = (1, vec![25, 7], vec![0; 24]))
        .refused(Refusal::Content);
    with(|table| table.shape = vec![2, 0]).refused(Refusal::Shape);
    with(|table| table.subsets = vec![1, 1, 0, 0]).refused(Refusal::Subset);
    with(|table| table.subsets = vec![1, 1, 0]).refused(Refusal::Subset);
    // 4 before 12, 12 before any chunk, and the chunks in the list's order.
    let twice = |table: &mut Live| (table.subsets, table.old[9]) = (vec![1, 1, 1, 1], 2);
    with(twice).refused(Refusal::Cover);
    with(|table| (table.subsets, table.moved_lengths) = (vec![1, 1, 1, 1], vec![7])).refused(Refusal::Content);
    with(|table| (table.old[4], table.old_lengths) = (2, vec![9, 3 + 8])).refused(Refusal::PastEnd);
    let no_chunks = |moved_lengths| Live { subsets: vec![], old_lengths: vec![], old: vec![], moved_lengths, ..two() };
    no_chunks(vec![]).refused(Refusal::Cover);
    no_chunks(vec![1]).refused(Refusal::Content);

    let moved = |change: fn(&mut Live)| {
        let mut table = between();
        change(&mut table);
        table
    };
    // The moved string is what its length says, and the list past it may be anything.
    moved(|table| table.moved_lengths[0] = 26).refused(Refusal::Length);
    moved(|table| table.moved_lengths[0] = 24).refused(Refusal::Length);
    moved(|table| table.moved_lengths[0] = 7).refused(Refusal::Short);
    moved(|table| table.moved_lengths[0] = u64::MAX).refused(Refusal::Content);
    moved(|table| table.area[8] = 1).refused(Refusal::Falling);
    moved(|table| table.moved_lengths[1] = u64::MAX).step().unwrap();
    // What was moved is not read in its old place any more, and what is left of it is.
    moved(|table| table.old[0] = 9).step().unwrap();
    moved(|table| table.old[9] = 9).refused(Refusal::Count);
    // Also where none is left.
    let mut all = between();
    all.step().unwrap();
    all.area[25] = 0;
    all.refused(Refusal::Length);
}

/// With exactly the room that is needed, with more, and with one element less of each.
#[test]
fn lent_slices() {
    let table = between();
    let whole = subset(0, 2);
    let cut = |values: usize, offsets: usize| {
        let (mut values, mut offsets) = (vec![9; values], vec![9; offsets]);
        let out = Lent { masks: &mut [], values: &mut values, offsets: &mut offsets };
        let answer = table.view().extract_into(Width::Eight, Place::Start, &whole, out).map(ArrayRef::to_array);
        (answer, values, offsets)
    };
    let all = table.view().extract(Width::Eight, Place::Start, &whole);
    assert_eq!(cut(3, 3).0, all);
    assert_eq!(cut(5, 4), (all, b"BCA\x09\x09".to_vec(), vec![0, 2, 3, 9]));
    for (values, offsets) in [(2, 3), (3, 2)] {
        assert_eq!(cut(values, offsets), (Err(Refusal::Output), vec![9; values], vec![9; offsets]));
    }
}

struct Draws(u64);

impl Draws {
    fn below(&mut self, n: u64) -> u64 {
        self.0 = self.0.wrapping_mul(6_364_136_223_846_793_005).wrapping_add(1_442_695_040_888_963_407);
        (self.0 >> 33) % n
    }
}

/// Splits a box until its parts are small, in a random order.
fn split(draws: &mut Draws, starts: Vec<u64>, lengths: Vec<u64>, into: &mut Vec<Subset>) {
    let side = draws.below(lengths.len() as u64) as usize;
    if lengths[side] < 2 || draws.below(4) == 0 {
        let at = draws.below(into.len() as u64 + 1) as usize;
        into.insert(at, Subset::new(&starts, &lengths).unwrap());
        return;
    }
    let first = 1 + draws.below(lengths[side] - 1);
    let (mut low, mut high, mut from) = (lengths.clone(), lengths, starts.clone());
    low[side] = first;
    high[side] -= first;
    from[side] += first;
    split(draws, starts, low, into);
    split(draws, from, high, into);
}

/// Tables of any shape and chunks: every step moves the next chunk, or meets 6 and moves none; all along each cut is that of the whole
/// array, and each chunk, read by the older calls and merged, is the table.
#[test]
fn moved_at_random() {
    let draws = &mut Draws(14);
    let mut refused = 0;
    for _ in 0..300 {
        let shape: Vec<u64> = (0..1 + draws.below(3)).map(|_| 1 + draws.below(4)).collect();
        let whole = generate(LiveTable::KIND, &shape, draws.below(1000) as u32).unwrap();
        let mut subsets = Vec::new();
        split(draws, vec![0; shape.len()], shape.clone(), &mut subsets);
        let mut table = Live {
            shape: shape.clone(),
            subsets: subsets.iter().flat_map(Subset::numbers).copied().collect(),
            old_lengths: vec![],
            old: vec![],
            moved: 0,
            moved_lengths: vec![u64::MAX; subsets.len()],
            area: vec![],
        };
        for subset in &subsets {
            let mut string = encode_interleaved(&extract(&whole, subset).unwrap()).unwrap();
            string.extend(vec![0xEE; draws.below(3) as usize]);
            table.old_lengths.push(string.len() as u64);
            table.old.extend(string);
        }
        loop {
            let mut asked = Vec::new();
            split(draws, vec![0; shape.len()], shape.clone(), &mut asked);
            for subset in asked.iter().chain([&Subset::whole(&shape)]) {
                let cut = table.view().extract(Width::Eight, Place::Start, subset);
                assert_eq!(cut, extract(&whole, subset), "{table:?} {subset}");
            }
            assert_eq!(by_the_older_calls(&table, &subsets), whole);
            match table.step() {
                Ok(Step::NoneLeft) => break,
                Ok(Step::Moved { .. }) => {}
                Err(refusal) => {
                    assert_eq!(refusal, Refusal::Output);
                    refused += 1;
                    let used: u64 = table.moved_lengths[..table.moved as usize].iter().sum();
                    table.area.truncate(used as usize);
                    table.area.extend(vec![0xDD; draws.below(2000) as usize]);
                }
            }
        }
        assert_eq!(table.moved, subsets.len() as u64);
        let (used, tails) = (table.moved_lengths.iter().sum::<u64>() as usize, tails(&table, &subsets));
        assert_eq!(LiveTable::area_room(subsets.len(), whole.cell_count(), table.old.len()), used + tails);
    }
    assert!(refused > 100, "{refused} steps met 6");
}

fn by_the_older_calls(table: &Live, subsets: &[Subset]) -> Array {
    let (mut old, mut new) = (0, 0);
    let mut arrays = Vec::new();
    for (number, subset) in subsets.iter().enumerate() {
        let string = &table.old[old..old + table.old_lengths[number] as usize];
        old += string.len();
        if number < table.moved as usize {
            let string = &table.area[new..new + table.moved_lengths[number] as usize];
            new += string.len();
            arrays.push(decode(LiveTable::KIND, subset.lengths(), string).unwrap());
            continue;
        }
        let read = decode_interleaved(cell_count(subset.lengths()) as u64, string).unwrap();
        let (shape, values, offsets) = (subset.lengths().to_vec(), read.values, read.offsets);
        arrays.push(Array { kind: LiveTable::KIND, shape, masks: vec![], values, offsets });
    }
    let chunks: Vec<Chunk<'_>> = subsets.iter().zip(&arrays).map(|(subset, array)| Chunk::new(subset, array)).collect();
    merge(LiveTable::KIND, &table.shape, &chunks).unwrap()
}

/// The bytes behind the last cells of the old strings.
fn tails(table: &Live, subsets: &[Subset]) -> usize {
    let mut rest = &table.old[..];
    let mut tails = 0;
    for (length, subset) in table.old_lengths.iter().zip(subsets) {
        let (string, others) = rest.split_at(*length as usize);
        rest = others;
        let cells = cell_count(subset.lengths());
        let read = decode_interleaved(cells as u64, string).unwrap();
        tails += string.len() - 4 - 4 * cells - read.values.len();
    }
    tails
}
