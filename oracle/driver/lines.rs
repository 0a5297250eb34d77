//! The line format of oracle/data. One request with its answer a line: decimal numbers and hexadecimal bytes, one space between.
//! See oracle/data/README.md.

use crate::request::{LiveTable, Outcome, Request, Request::*, Results};
use judge::Table;

fn put_number(line: &mut String, n: u64) {
    if !line.is_empty() {
        line.push(' ');
    }
    line.push_str(&n.to_string());
}
fn put_numbers(line: &mut String, list: &[u64]) {
    put_number(line, list.len() as u64);
    for &n in list {
        put_number(line, n);
    }
}
fn put_bytes(line: &mut String, bytes: &[u8]) {
    put_number(line, bytes.len() as u64);
    if !bytes.is_empty() {
        line.push(' ');
    }
    for b in bytes {
        line.push_str(&format!("{b:02x}"));
    }
}

fn put_table(line: &mut String, t: &Table) {
    put_bytes(line, &t.masks);
    put_numbers(line, &t.starts);
    put_numbers(line, &t.lengths);
    put_bytes(line, &t.store);
}

fn put_live(line: &mut String, t: &LiveTable, subset: Option<&[u64]>) {
    put_numbers(line, &t.shape);
    put_numbers(line, &t.subsets);
    subset.into_iter().for_each(|subset| put_numbers(line, subset));
    put_numbers(line, &t.old_lengths);
    put_bytes(line, &t.old);
    put_number(line, t.moved);
    put_numbers(line, &t.moved_lengths);
    put_bytes(line, &t.area);
}

pub fn request_line(request: &Request) -> String {
    let mut line = String::new();
    put_number(&mut line, request.call() as u64 + 1);
    let l = &mut line;
    match request {
        Encode { kind, shape, masks, values, offsets } | EncodeInterleaved { kind, shape, masks, values, offsets } => {
            kind.iter().for_each(|&n| put_number(l, n));
            put_numbers(l, shape);
            put_bytes(l, masks);
            put_bytes(l, values);
            put_numbers(l, offsets);
        }
        Decode { kind, shape, bytes } => {
            kind.iter().for_each(|&n| put_number(l, n));
            put_numbers(l, shape);
            put_bytes(l, bytes);
        }
        DecodeInterleaved { cells, bytes } => {
            put_number(l, *cells);
            put_bytes(l, bytes);
        }
        Extract { kind, shape, subset, masks, values, offsets }
        | Merge { kind, shape, subsets: subset, masks, values, offsets } => {
            kind.iter().for_each(|&n| put_number(l, n));
            put_numbers(l, shape);
            put_numbers(l, subset);
            put_bytes(l, masks);
            put_bytes(l, values);
            put_numbers(l, offsets);
        }
        PartialDecode { width, place, shape, subset, bytes } => {
            put_number(l, *width);
            put_number(l, *place);
            put_numbers(l, shape);
            put_numbers(l, subset);
            put_bytes(l, bytes);
        }
        ReverseEndianness { size, bytes } => {
            put_number(l, *size);
            put_bytes(l, bytes);
        }
        SubsetCells { shape, subset } => {
            put_numbers(l, shape);
            put_numbers(l, subset);
        }
        Generate { kind, shape, start } => {
            kind.iter().for_each(|&n| put_number(l, n));
            put_numbers(l, shape);
            put_number(l, u64::from(*start));
        }
        TableMake { kind, cells, masks, values, offsets, store } => {
            kind.iter().for_each(|&n| put_number(l, n));
            put_number(l, *cells);
            put_bytes(l, masks);
            put_bytes(l, values);
            put_numbers(l, offsets);
            put_number(l, *store as u64);
        }
        TableRead { kind, cells, table }
        | TableSet { kind, cells, table, .. }
        | TablePack { kind, cells, table, .. }
        | TablePreview { kind, cells, table, .. } => {
            kind.iter().for_each(|&n| put_number(l, n));
            put_number(l, *cells);
            put_table(l, table);
            if let TableSet { cell, cell_masks, value, .. } | TablePreview { cell, cell_masks, value, .. } = request {
                put_number(l, *cell);
                put_bytes(l, cell_masks);
                put_bytes(l, value);
            }
            if let TablePack { most, .. } = request {
                put_number(l, *most);
            }
        }
        GuestRead { kind, shape, rights, masks, values, offsets } => {
            kind.iter().for_each(|&n| put_number(l, n));
            put_numbers(l, shape);
            put_bytes(l, rights);
            put_bytes(l, masks);
            put_bytes(l, values);
            put_numbers(l, offsets);
        }
        GuestEdit { kind, cells, rights, table, cell, cell_masks, value } => {
            kind.iter().for_each(|&n| put_number(l, n));
            put_number(l, *cells);
            put_bytes(l, rights);
            put_table(l, table);
            put_number(l, *cell);
            put_bytes(l, cell_masks);
            put_bytes(l, value);
        }
        Arrangement { depth, cells, number } => [depth, cells, number].into_iter().for_each(|&n| put_number(l, n)),
        MigrateStep { live } => put_live(l, live, None),
        MigrateExtract { live, subset } => put_live(l, live, Some(subset)),
    }
    line
}

pub fn line(request: &Request, outcome: &Outcome) -> String {
    let mut line = request_line(request);
    match outcome {
        Err(refusal) => put_number(&mut line, u64::from(*refusal)),
        Ok(r) => {
            put_number(&mut line, 0);
            if let ReverseEndianness { .. } | TablePack { .. } | TablePreview { .. } | MigrateStep { .. } = request {
                put_number(&mut line, r.whole);
            }
            if let TablePreview { .. } | MigrateStep { .. } = request {
                put_number(&mut line, r.second);
            }
            let [masks, values, offsets, lengths] = request.slots();
            if masks {
                put_bytes(&mut line, &r.masks);
            }
            if values && !table_comes_out(request) {
                put_bytes(&mut line, &r.values);
            }
            if offsets {
                put_numbers(&mut line, &r.offsets);
            }
            if lengths {
                put_numbers(&mut line, &r.lengths);
            }
            if table_comes_out(request) {
                put_bytes(&mut line, &r.values);
            }
        }
    }
    line
}

/// Masks, starts, lengths and store or area, in this order, as far as the call lends them.
fn table_comes_out(request: &Request) -> bool {
    matches!(request, TableMake { .. } | TableSet { .. } | TablePack { .. } | GuestEdit { .. } | MigrateStep { .. })
}

/// The words of a line.
pub struct Words<'a>(std::str::Split<'a, char>);
impl<'a> Words<'a> {
    pub fn of(text: &'a str) -> Words<'a> {
        Words(text.split(' '))
    }
    pub fn number(&mut self) -> Result<u64, String> {
        let word = self.0.next().ok_or("the line ends early")?;
        word.parse().map_err(|_| format!("not a number: {word}"))
    }
    pub fn numbers(&mut self) -> Result<Vec<u64>, String> {
        (0..self.number()?).map(|_| self.number()).collect()
    }
    pub fn bytes(&mut self) -> Result<Vec<u8>, String> {
        let count = self.number()? as usize;
        if count == 0 {
            return Ok(vec![]);
        }
        let word = self.0.next().ok_or("the line ends early")?;
        if word.len() != 2 * count {
            return Err(format!("{count} bytes announced: {word}"));
        }
        (0..count).map(|i| u8::from_str_radix(&word[2 * i..2 * i + 2], 16).map_err(|_| format!("not bytes: {word}"))).collect()
    }
    fn kind(&mut self) -> Result<[u64; 5], String> {
        Ok([self.number()?, self.number()?, self.number()?, self.number()?, self.number()?])
    }
    fn table(&mut self) -> Result<Table, String> {
        Ok(Table { masks: self.bytes()?, starts: self.numbers()?, lengths: self.numbers()?, store: self.bytes()? })
    }
    /// And the subset, where one is asked for.
    fn live(&mut self, asked: bool) -> Result<(LiveTable, Vec<u64>), String> {
        let (shape, subsets) = (self.numbers()?, self.numbers()?);
        let subset = if asked { self.numbers()? } else { vec![] };
        let (old_lengths, old, moved) = (self.numbers()?, self.bytes()?, self.number()?);
        let (moved_lengths, area) = (self.numbers()?, self.bytes()?);
        Ok((LiveTable { shape, subsets, old_lengths, old, moved, moved_lengths, area }, subset))
    }
}

/// A line is a request and its answer, or a request alone.
pub fn parse(text: &str) -> Result<(Request, Option<Outcome>), String> {
    let mut w = Words::of(text);
    let request = match w.number()? {
        1 => Encode { kind: w.kind()?, shape: w.numbers()?, masks: w.bytes()?, values: w.bytes()?, offsets: w.numbers()? },
        2 => Decode { kind: w.kind()?, shape: w.numbers()?, bytes: w.bytes()? },
        3 => DecodeInterleaved { cells: w.number()?, bytes: w.bytes()? },
        4 => Extract {
            kind: w.kind()?,
            shape: w.numbers()?,
            subset: w.numbers()?,
            masks: w.bytes()?,
            values: w.bytes()?,
            offsets: w.numbers()?,
        },
        5 => Merge {
            kind: w.kind()?,
            shape: w.numbers()?,
            subsets: w.numbers()?,
            masks: w.bytes()?,
            values: w.bytes()?,
            offsets: w.numbers()?,
        },
        6 => {
            PartialDecode { width: w.number()?, place: w.number()?, shape: w.numbers()?, subset: w.numbers()?, bytes: w.bytes()? }
        }
        7 => ReverseEndianness { size: w.number()?, bytes: w.bytes()? },
        8 => SubsetCells { shape: w.numbers()?, subset: w.numbers()? },
        9 => EncodeInterleaved {
            kind: w.kind()?,
            shape: w.numbers()?,
            masks: w.bytes()?,
            values: w.bytes()?,
            offsets: w.numbers()?,
        },
        10 => Generate {
            kind: w.kind()?,
            shape: w.numbers()?,
            start: w.number()?.try_into().map_err(|_| "a start number has 32 bits")?,
        },
        11 => TableMake {
            kind: w.kind()?,
            cells: w.number()?,
            masks: w.bytes()?,
            values: w.bytes()?,
            offsets: w.numbers()?,
            store: w.number()? as usize,
        },
        12 => TableRead { kind: w.kind()?, cells: w.number()?, table: w.table()? },
        13 => TableSet {
            kind: w.kind()?,
            cells: w.number()?,
            table: w.table()?,
            cell: w.number()?,
            cell_masks: w.bytes()?,
            value: w.bytes()?,
        },
        14 => TablePack { kind: w.kind()?, cells: w.number()?, table: w.table()?, most: w.number()? },
        15 => TablePreview {
            kind: w.kind()?,
            cells: w.number()?,
            table: w.table()?,
            cell: w.number()?,
            cell_masks: w.bytes()?,
            value: w.bytes()?,
        },
        16 => GuestRead {
            kind: w.kind()?,
            shape: w.numbers()?,
            rights: w.bytes()?,
            masks: w.bytes()?,
            values: w.bytes()?,
            offsets: w.numbers()?,
        },
        17 => GuestEdit {
            kind: w.kind()?,
            cells: w.number()?,
            rights: w.bytes()?,
            table: w.table()?,
            cell: w.number()?,
            cell_masks: w.bytes()?,
            value: w.bytes()?,
        },
        18 => Arrangement { depth: w.number()?, cells: w.number()?, number: w.number()? },
        19 => MigrateStep { live: w.live(false)?.0 },
        20 => {
            let (live, subset) = w.live(true)?;
            MigrateExtract { live, subset }
        }
        n => return Err(format!("no such call: {n}")),
    };
    if w.0.clone().next().is_none() {
        return Ok((request, None));
    }
    let outcome = match w.number()? {
        0 => {
            let mut r = Results::default();
            if let ReverseEndianness { .. } | TablePack { .. } | TablePreview { .. } | MigrateStep { .. } = request {
                r.whole = w.number()?;
            }
            if let TablePreview { .. } | MigrateStep { .. } = request {
                r.second = w.number()?;
            }
            let [masks, values, offsets, lengths] = request.slots();
            if masks {
                r.masks = w.bytes()?;
            }
            if values && !table_comes_out(&request) {
                r.values = w.bytes()?;
            }
            if offsets {
                r.offsets = w.numbers()?;
            }
            if lengths {
                r.lengths = w.numbers()?;
            }
            if table_comes_out(&request) {
                r.values = w.bytes()?;
            }
            Ok(r)
        }
        refusal => Err(refusal as u32),
    };
    match w.0.next() {
        None => Ok((request, Some(outcome))),
        Some(word) => Err(format!("more than a line: {word}")),
    }
}
