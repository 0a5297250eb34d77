//! Small arrangements: each is the row of its number in oracle/data/arrangements.txt, which a script made that knows the rule alone.

use durpaxeta::*;
use std::collections::HashSet;

const ROWS: &str = include_str!("../../../oracle/data/arrangements.txt");

/// Depth, cells and number, and what is given of them.
struct Row {
    depth: u64,
    cells: u64,
    number: u64,
    masks: Vec<u8>,
    values: Vec<u8>,
    offsets: Vec<u64>,
}

fn rows() -> Vec<Row> {
    let row = |line: &str| {
        let mut words = line.split(' ');
        let mut word = || words.next().unwrap_or_else(|| panic!("{line}"));
        let (depth, cells, number) = (word().parse().unwrap(), word().parse().unwrap(), word().parse().unwrap());
        let hex = if word() == "0" { "" } else { word() };
        let masks = (0..hex.len() / 2).map(|at| u8::from_str_radix(&hex[2 * at..][..2], 16).unwrap()).collect();
        let mut offsets = vec![0];
        for _ in 0..word().parse().unwrap() {
            offsets.push(offsets[offsets.len() - 1] + word().parse::<u64>().unwrap());
        }
        assert_eq!(words.next(), None, "{line}");
        let values = vec![0; offsets[offsets.len() - 1] as usize];
        Row { depth, cells, number, masks, values, offsets }
    };
    ROWS.lines().filter(|line| !line.starts_with('#')).map(row).collect()
}

fn kinds(depth: u64) -> Vec<Kind> {
    let mut kinds = Vec::new();
    for width in [Width::Four, Width::Eight] {
        for place in [Place::Start, Place::End] {
            let kind = Kind::ragged(depth, width, place);
            kinds.extend([kind, kind.packed()]);
        }
    }
    kinds
}

const START: fn(u64) -> Kind = |depth| Kind::ragged(depth, Width::Four, Place::Start);

/// Of each depth and count there are as many rows as the crate counts, in their order, and each is a valid array: it is stored and read
/// again as it was, and it goes through a working table.
#[test]
fn every_row() {
    let rows = rows();
    let mut at = rows.iter();
    for depth in 0..=MAX_ARRANGED_DEPTH {
        for cells in 1..=MAX_ARRANGED_CELLS {
            let mut seen = HashSet::new();
            for number in 0..arrangement_count(depth, cells) {
                let row = at.next().expect("a row for each number");
                assert_eq!((row.depth, row.cells, row.number), (depth, cells, number));
                assert!(seen.insert((&row.masks, &row.offsets)), "{depth}, {cells}, {number}");
                for kind in kinds(depth) {
                    holds(row, kind, &[cells]);
                }
                holds(row, START(depth), &[1, cells, 1]);
            }
        }
    }
    assert!(at.next().is_none());
    assert_eq!(rows.len(), 2_674);
    for row in rows.iter().filter(|row| row.cells == 4) {
        holds(row, START(row.depth), &[2, 2]);
    }
}

fn holds(row: &Row, kind: Kind, shape: &[u64]) {
    let Row { masks, values, offsets, .. } = row;
    let (masks, values, offsets) = (masks.clone(), values.clone(), offsets.clone());
    let array = Array { kind, shape: shape.to_vec(), masks, values, offsets };
    assert_eq!(arrangement(kind, shape, row.number).as_ref(), Ok(&array));
    assert_eq!(decode(kind, shape, &encode(&array).unwrap()).as_ref(), Ok(&array));
    let table = Table::make(&array, array.values.len()).unwrap();
    assert_eq!(table.read(shape).as_ref(), Ok(&array));
    let cell = |number: usize| match (0..row.depth as usize).find(|level| array.masks_of(number)[*level] == 0) {
        Some(level) => Cell::Null { level: level + 1 },
        None => Cell::Value(&array.values[array.offsets[number] as usize..array.offsets[number + 1] as usize]),
    };
    assert!(array.cells().eq((0..row.cells as usize).map(cell)));
}

/// Into slices of the exact lengths, longer ones, and each one short: what lies beyond stays, and after a refusal all of it.
#[test]
fn lent_slices() {
    for row in rows() {
        let shape = [row.cells];
        let needs = [row.masks.len(), row.values.len(), row.offsets.len()];
        let mut rooms = vec![needs, needs.map(|need| need + 3), [8, 12, 5]];
        for at in (0..3).filter(|&at| needs[at] > 0) {
            let mut short = needs;
            short[at] -= 1;
            rooms.push(short);
        }
        for [masks, values, offsets] in rooms {
            let (mut m, mut v, mut o) = (vec![9; masks], vec![9; values], vec![9; offsets]);
            let out = Lent { masks: &mut m, values: &mut v, offsets: &mut o };
            let answer = arrangement_into(START(row.depth), &shape, row.number, out);
            let fits = masks >= needs[0] && values >= needs[1] && offsets >= needs[2];
            match fits {
                true => {
                    let array = answer.unwrap();
                    assert_eq!(array.masks, row.masks);
                    assert_eq!((array.values, array.offsets), (&row.values[..], &row.offsets[..]));
                }
                false => assert_eq!(answer, Err(Refusal::Output)),
            }
            let written = if fits { needs } else { [0; 3] };
            assert!(m[written[0]..].iter().chain(&v[written[1]..]).all(|&byte| byte == 9));
            assert!(o[written[2]..].iter().all(|&offset| offset == 9));
        }
    }
}

/// `Kind` before `Arrangement`, and both before `Output`. No number is cut to 32 bits.
#[test]
fn refused_in_order() {
    let top = 1 << 32;
    let into = |kind, shape: &[u64], number| {
        let out = Lent { masks: &mut [], values: &mut [], offsets: &mut [] };
        arrangement_into(kind, shape, number, out).map(|_| ())
    };
    for depth in [3, 4, 5, top, top + 1, u64::MAX] {
        for number in [0, 4, u64::MAX] {
            assert_eq!(arrangement(START(depth), &[1], number), Err(Refusal::Kind));
            assert_eq!(into(START(depth), &[1], number), Err(Refusal::Kind));
        }
    }
    for shape in [&[0][..], &[5], &[top + 1], &[u64::MAX], &[], &[1, 1, 1, 1, 1], &[2, 0], &[3, 2], &[65_536]] {
        for number in [0, 4, u64::MAX] {
            assert_eq!(arrangement(START(0), shape, number), Err(Refusal::Kind));
            assert_eq!(into(START(0), shape, number), Err(Refusal::Kind));
        }
        assert_eq!(arrangements(START(0), shape).err(), Some(Refusal::Kind));
    }
    let fixed = Kind::fixed(1, 2, Order::Little);
    assert_eq!(arrangement(fixed, &[1], 0), Err(Refusal::Kind));
    assert_eq!(into(fixed, &[1], 99), Err(Refusal::Kind));
    assert_eq!(arrangements(fixed, &[1]).err(), Some(Refusal::Kind));
    assert_eq!(arrangements(START(3), &[1]).err(), Some(Refusal::Kind));
    for depth in 0..=2 {
        for cells in 1..=4 {
            let count = arrangement_count(depth, cells);
            for number in [count, count + 1, top, top + count - 1, top + 1, 1 << 63, u64::MAX] {
                assert_eq!(arrangement(START(depth), &[cells], number), Err(Refusal::Arrangement));
                assert_eq!(into(START(depth), &[cells], number), Err(Refusal::Arrangement));
            }
            assert_eq!(into(START(depth), &[cells], count - 1), Err(Refusal::Output));
        }
    }
    for (depth, cells) in [(3, 1), (0, 0), (0, 5), (top, 1), (0, top + 1), (u64::MAX, u64::MAX)] {
        assert_eq!(arrangement_count(depth, cells), 0);
    }
}

/// From both ends, and past some; as many as are told.
#[test]
fn all_of_them() {
    for depth in 0..=2 {
        for cells in 1..=4 {
            let count = arrangement_count(depth, cells);
            let one = |number| arrangement(START(depth), &[cells], number).unwrap();
            let all = arrangements(START(depth), &[cells]).unwrap();
            assert_eq!((all.len() as u64, all.size_hint().1), (count, Some(count as usize)));
            assert!(all.clone().eq((0..count).map(one)));
            assert!(all.clone().rev().eq((0..count).rev().map(one)));
            assert_eq!(all.clone().last(), Some(one(count - 1)));
            assert_eq!((all.clone().nth(2), all.clone().nth_back(2)), (Some(one(2)), Some(one(count - 3))));
            assert_eq!((all.clone().nth(count as usize), all.clone().nth_back(usize::MAX)), (None, None));
            let mut both = all.clone();
            assert_eq!(
                (both.next(), both.next_back(), both.len() as u64),
                (Some(one(0)), Some(one(count - 1)), count - 2)
            );
            assert_eq!((both.nth(usize::MAX), both.next(), both.next_back(), both.len()), (None, None, None, 0));
        }
    }
    let packed = Kind::ragged(2, Width::Eight, Place::End).packed();
    assert!(arrangements(packed, &[2, 2]).unwrap().all(|table| table.kind == packed && table.shape == [2, 2]));
}
