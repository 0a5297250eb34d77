//! Small arrangements: every number of each depth and count, and each number around its limits. Beside one that is given its row of
//! oracle/data/arrangements.txt; its stored forms, read again; and a working table that is made of it and read.

use crate::Compare;
use crate::cases::{RAGGED, Sink, packed, ragged};
use crate::lines::Words;
use crate::request::Request::{self, *};
use crate::request::{Outcome, Results};
use std::collections::{HashMap, HashSet};
use std::fmt;

const DEPTHS: u64 = 3;
const CELLS: u64 = 4;

/// How many arrangements there are.
fn count(depth: u64, cells: u64) -> u64 {
    (depth + 4).pow(cells as u32)
}

pub fn every(sink: &mut dyn Sink) {
    for depth in 0..DEPTHS {
        for cells in 1..=CELLS {
            (0..count(depth, cells)).for_each(|number| sink.ask(Arrangement { depth, cells, number }));
        }
    }
}

/// What is one beside a limit, or is one of these when it is cut to 8, 16 or 32 bits.
fn around(numbers: impl Iterator<Item = u64>) -> Vec<u64> {
    let mut all: Vec<u64> = numbers.flat_map(|n| [n, n + 256, n + 65_536, n + (1 << 32), n + (1 << 63)]).collect();
    all.extend([u64::MAX, u64::MAX - 1, 1 << 31, (1 << 32) - 1, (1 << 63) - 1]);
    all
}

/// Each of the three numbers around its limits, alone and with the others.
pub fn limits(sink: &mut dyn Sink) {
    for depth in around(0..=5) {
        for cells in around(0..=6) {
            // The count of the numbers that are right, or of the nearest.
            let count = count(depth.min(DEPTHS - 1), cells.clamp(1, CELLS));
            for number in around([0, 1, count - 1, count, count + 1].into_iter()) {
                sink.ask(Arrangement { depth, cells, number });
            }
        }
    }
}

/// The rows that a script made from the rule: of depth, cells and number what must be given.
pub struct Rows(HashMap<[u64; 3], Results>);

impl Rows {
    pub fn recorded() -> Rows {
        let rows = include_str!("../data/arrangements.txt").lines().filter(|line| !line.starts_with('#'));
        Rows(rows.map(|row| Rows::read(row).unwrap_or_else(|what| panic!("{row}: {what}"))).collect())
    }

    fn read(row: &str) -> Result<([u64; 3], Results), String> {
        let mut words = Words::of(row);
        let asked = [words.number()?, words.number()?, words.number()?];
        let masks = words.bytes()?;
        let mut offsets = vec![0];
        for length in words.numbers()? {
            offsets.push(offsets[offsets.len() - 1] + length);
        }
        let values = vec![0; offsets[offsets.len() - 1] as usize];
        Ok((asked, Results { masks, values, offsets, ..Results::default() }))
    }

    pub fn count(&self) -> usize {
        self.0.len()
    }
}

/// What was done with arrangements.
#[derive(Default)]
pub struct Arranged {
    /// Depth, cells and number of those that were given, as their rows say.
    rows: HashSet<[u64; 3]>,
    /// Those that differ: depth, cells, masks and offsets.
    different: HashSet<(u64, u64, Vec<u8>, Vec<u64>)>,
    /// Stored forms that were read again, and working tables.
    stored: u64,
    tables: u64,
}

impl Arranged {
    pub fn rows(&self) -> usize {
        self.rows.len()
    }
}

impl fmt::Display for Arranged {
    fn fmt(&self, f: &mut fmt::Formatter<'_>) -> fmt::Result {
        let Arranged { rows, different, stored, tables } = self;
        let (rows, different) = (rows.len(), different.len());
        write!(f, "arrangements: {rows} numbers, each held against its row, {different} different tables; ")?;
        write!(f, "{stored} stored forms and {tables} working tables read again")
    }
}

impl Compare {
    pub fn arranged(&mut self, request: &Request, observed: &Outcome) {
        let Arrangement { depth, cells, number } = request else { return };
        let asked = [*depth, *cells, *number];
        match (self.rows.0.get(&asked), observed) {
            (None, Err(_)) => return,
            (Some(row), Ok(given)) if row == given => {}
            _ => return self.differ(11, request, "another one, or none"),
        }
        let Ok(given) = observed else { return };
        self.counts.arranged.rows.insert(asked);
        self.counts.arranged.different.insert((*depth, *cells, given.masks.clone(), given.offsets.clone()));
        if let Err(what) = self.again_by_all_ways(*depth, *cells, given) {
            self.differ(12, request, &what);
        }
    }

    /// Stored in every width, place and mask form, and read; and made a working table, and read.
    fn again_by_all_ways(&mut self, depth: u64, cells: u64, given: &Results) -> Result<(), String> {
        let (masks, values, offsets) = (&given.masks, &given.values, &given.offsets);
        for (width, place) in RAGGED {
            let bytes = ragged(depth as usize, width, place);
            for kind in [bytes, packed(bytes)] {
                let shape = vec![cells];
                let (masks, values, offsets) = (masks.clone(), values.clone(), offsets.clone());
                let stored = self.given(&Encode { kind, shape: shape.clone(), masks, values, offsets }, [0, 200, 0, 0])?;
                let again = self.given(&Decode { kind, shape, bytes: stored.values }, [8, 12, 5, 0])?;
                if again != *given {
                    return Err(format!("stored as {kind:?}: {again:?}"));
                }
                self.counts.arranged.stored += 1;
            }
        }
        let kind = ragged(depth as usize, 8, 0);
        let (store, n) = (values.len(), cells as usize);
        let (masks, values, offsets) = (masks.clone(), values.clone(), offsets.clone());
        let made = self.given(&TableMake { kind, cells, masks, values, offsets, store }, [8, store, n, n])?;
        let table = judge::Table { masks: made.masks, starts: made.offsets, lengths: made.lengths, store: made.values };
        let again = self.given(&TableRead { kind, cells, table }, [8, 12, 5, 0])?;
        if again != *given {
            return Err(format!("by a working table: {again:?}"));
        }
        self.counts.arranged.tables += 1;
        Ok(())
    }
}
