//! The listing: a working table as text. What each cell is, where it lies, and the bytes of the store.
//!
//! ```text
//! durpaxeta working table 2
//! kind: depth 2, ragged, width 4, index at start
//! shape: 2x2
//! store: 16
//! 0,0 | 01 01 | value | start 5, length 2
//! 0,1 | 01 01 | empty | start 0, length 0
//! 1,0 | 00 00 | null at level 1 | start 0, length 0
//! 1,1 | 01 00 | null at level 2 | start 0, length 0
//! at 0 | "0-3,8"
//! at 5 | "12"
//! ```
//!
//! A line of a cell is its coordinates, its mask byte of each level (a `-` at depth 0), what masks and length say of it in words, its
//! start and its length. So null and empty differ in a word and in a mask byte, and a line where the two contradict each other is not
//! accepted. In version 1 the words were not there. A line of the store is where its bytes begin, and `"text"` or `hex 0A 0B` as in a
//! worksheet; these lines stand in the order of the store, and bytes that none of them has are 00. Nothing else is judged here: what
//! the lists say is for the library to refuse.

use crate::failure::Failure;
use crate::literal::{self, hex_byte, word};
use crate::words;
use durpaxeta::{read_number, Kind, Mark, Table, MAX_STORE};
use std::fmt::Write;

/// The version of this form. Before it the lines of cells had no words.
const VERSION: u64 = 2;

/// A working table with the shape that its cells are named by.
#[derive(Debug, PartialEq)]
pub struct Listing {
    pub shape: Vec<u64>,
    pub table: Table,
}

/// The table as a listing: its cells, then the store, a line for each cell as they lie and for the bytes between them.
pub fn write(listing: &Listing) -> String {
    let Listing { shape, table } = listing;
    let (kind, count, size) = (table.kind, table.cell_count(), table.store.len());
    let mut text = format!(
        "durpaxeta working table {VERSION}\nkind: {kind}\nshape: {}\nstore: {size}\n",
        words::shape_text(shape)
    );
    text.push_str("# cell | mask of each level | null: not set, and at which level; empty: set, with no bytes | ");
    text.push_str("where its bytes lie in the store\n");
    let width = if count > 0 { words::coordinates(shape, count - 1).len() } else { 0 };
    for cell in 0..count {
        let masks: Vec<u8> = table.masks.iter().skip(cell).step_by(count).copied().collect();
        let (name, start, length) = (words::coordinates(shape, cell), table.starts[cell], table.lengths[cell]);
        let is = is(&masks, length);
        let masks = if masks.is_empty() { "-".into() } else { literal::spaced(&masks) };
        let _ = writeln!(text, "{name:<width$} | {masks} | {is} | start {start}, length {length}");
    }
    text.push_str("# the store: from which byte on | its bytes; those that are not listed are 00\n");
    let mut lying: Vec<usize> = (0..count).filter(|&cell| table.lengths[cell] > 0).collect();
    lying.sort_by_key(|&cell| table.starts[cell]);
    let mut at = 0;
    for cell in lying {
        let (start, end) = (table.starts[cell] as usize, (table.starts[cell] + table.lengths[cell]) as usize);
        between(&mut text, &table.store, at..start);
        let value = literal::write(&table.store[start..end], false);
        let _ = writeln!(text, "at {start} | {value} # cell {}", words::coordinates(shape, cell));
        at = end;
    }
    between(&mut text, &table.store, at..size);
    text
}

/// What a cell is, by its masks and its length: the words that stand between them.
fn is(masks: &[u8], length: u64) -> String {
    match masks.iter().position(|&mask| Mark::of(mask) == Mark::Null) {
        Some(level) => format!("null at level {}", level + 1),
        None if length == 0 => "empty".into(),
        None => "value".into(),
    }
}

/// Bytes in no cell, where some are not 00.
fn between(text: &mut String, store: &[u8], places: std::ops::Range<usize>) {
    let bytes = &store[places.clone()];
    let kept = bytes.iter().rposition(|&byte| byte != 0).map_or(0, |last| last + 1);
    if kept > 0 {
        let _ = writeln!(text, "at {} | {} # in no cell", places.start, literal::write(&bytes[..kept], false));
    }
}

/// Reads a listing.
pub fn read(name: &str, bytes: &[u8]) -> Result<Listing, Failure> {
    let text = words::text(name, bytes, "no listing of a working table")?;
    let mut reader = Reader { name, ..Reader::default() };
    let mut titled = false;
    for (number, line) in text.lines().enumerate() {
        reader.line = number + 1;
        let line = line.trim();
        if line.is_empty() || line.starts_with('#') {
            continue;
        }
        if titled {
            reader.line(line)?;
        } else {
            let version = words::version(line, "working table", VERSION).map_err(|what| reader.wrong(what))?;
            (titled, reader.words) = (true, version == VERSION);
        }
    }
    reader.listing()
}

/// A cell as it was read.
struct Given {
    line: usize,
    masks: Vec<u8>,
    start: u64,
    length: u64,
}

#[derive(Default)]
struct Reader<'a> {
    name: &'a str,
    line: usize,
    /// Whether the lines of cells have words.
    words: bool,
    kind: Option<Kind>,
    shape: Option<Vec<u64>>,
    size: Option<u64>,
    cells: Vec<Option<Given>>,
    store: Vec<u8>,
    /// Where the last line of the store ended.
    at: usize,
}

impl Reader<'_> {
    fn wrong(&self, what: impl Into<String>) -> Failure {
        Failure::Worksheet { name: self.name.to_string(), line: Some(self.line), what: what.into() }
    }

    fn line(&mut self, line: &str) -> Result<(), Failure> {
        let uncommented = line.split('#').next().unwrap_or("");
        if let Some(words) = uncommented.strip_prefix("kind:") {
            let kind = words::kind(words.trim()).map_err(|failure| failure.in_line(self.name, self.line))?;
            return self.once("kind", self.kind.is_some()).map(|()| self.kind = Some(kind));
        }
        if let Some(words) = uncommented.strip_prefix("shape:") {
            let shape = words::shape(words.trim()).map_err(|failure| failure.in_line(self.name, self.line))?;
            self.once("shape", self.shape.is_some())?;
            self.cells.resize_with(shape.iter().product::<u64>() as usize, || None);
            self.shape = Some(shape);
            return Ok(());
        }
        if let Some(words) = uncommented.strip_prefix("store:") {
            let Some(size) = read_number(words.trim()) else {
                return Err(self.wrong("a line \"store: ...\" says how many bytes the store has"));
            };
            self.once("store", self.size.is_some())?;
            // One byte more than a store can have is refused as any more are.
            self.store.resize(size.min(MAX_STORE + 1) as usize, 0);
            self.size = Some(size);
            return Ok(());
        }
        let (Some(kind), Some(shape), Some(_)) = (self.kind, self.shape.clone(), self.size) else {
            return Err(self.wrong("lines \"kind: ...\", \"shape: ...\" and \"store: ...\" come before all else"));
        };
        match word(line, "at") {
            Some(rest) => self.bytes(rest),
            None => self.cell(kind, &shape, uncommented),
        }
    }

    fn once(&self, what: &str, given: bool) -> Result<(), Failure> {
        match given {
            true => Err(self.wrong(format!("the {what} was given before"))),
            false => Ok(()),
        }
    }

    /// `5 | "12"`: bytes of the store.
    fn bytes(&mut self, rest: &str) -> Result<(), Failure> {
        let parts = rest.split_once('|').and_then(|(at, value)| Some((read_number(at.trim())?, value.trim())));
        let Some((at, value)) = parts else {
            return Err(self.wrong("a line of the store is: at 5 | \"text\", or: at 5 | hex 0A 0B"));
        };
        let mut bytes = Vec::new();
        literal::read(value, &mut bytes).map_err(|what| self.wrong(what))?;
        let at = usize::try_from(at).unwrap_or(usize::MAX);
        if at < self.at {
            return Err(self.wrong(format!("the store was listed up to byte {} already", self.at)));
        }
        let end = at.saturating_add(bytes.len());
        let Some(place) = self.store.get_mut(at..end) else {
            let size = self.size.unwrap_or_default();
            return Err(self.wrong(format!("these bytes end at {end}; the store has {size} bytes")));
        };
        place.copy_from_slice(&bytes);
        self.at = end;
        Ok(())
    }

    fn cell(&mut self, kind: Kind, shape: &[u64], line: &str) -> Result<(), Failure> {
        let parts: Vec<&str> = line.split('|').map(str::trim).collect();
        let (coordinates, masks, said, place) = match (self.words, &parts[..]) {
            (true, &[coordinates, masks, said, place]) => (coordinates, masks, Some(said), place),
            (false, &[coordinates, masks, place]) => (coordinates, masks, None, place),
            (words, _) => {
                let words = if words { "null at level 1, empty or value | " } else { "" };
                return Err(self.wrong(format!("a line of a cell is: coordinates | masks | {words}start 0, length 5")));
            }
        };
        let Some(number) = words::cell_number(shape, coordinates) else {
            return Err(self.wrong(format!("\"{coordinates}\" is no cell of a table of {}", words::shape_text(shape))));
        };
        if let Some(given) = &self.cells[number] {
            return Err(self.wrong(format!("cell {coordinates} was given before, in line {}", given.line)));
        }
        let bytes: Option<Vec<u8>> = match masks {
            "-" => Some(Vec::new()),
            _ => masks.split_whitespace().map(hex_byte).collect(),
        };
        let Some(masks) = bytes.filter(|bytes| bytes.len() as u64 == kind.depth) else {
            let what = format!("\"{masks}\" is not one mask byte for each of {} levels, outermost first", kind.depth);
            return Err(self.wrong(what));
        };
        let words: Vec<&str> = place.split([' ', ',']).filter(|word| !word.is_empty()).collect();
        let place = match words[..] {
            ["start", start, "length", length] => read_number(start).zip(read_number(length)),
            _ => None,
        };
        let Some((start, length)) = place else {
            return Err(self.wrong("last comes where the cell lies: start 0, length 5"));
        };
        let is = is(&masks, length);
        if let Some(said) = said.filter(|said| *said != is) {
            return Err(self.wrong(format!("the cell says \"{said}\", and its masks and its length say \"{is}\"")));
        }
        self.cells[number] = Some(Given { line: self.line, masks, start, length });
        Ok(())
    }

    fn listing(self) -> Result<Listing, Failure> {
        let whole = |what: String| Failure::Worksheet { name: self.name.to_string(), line: None, what };
        let (Some(kind), Some(shape), Some(_)) = (self.kind, self.shape, self.size) else {
            return Err(whole(
                "it is no working table: a line \"kind: ...\", \"shape: ...\" or \"store: ...\" is missing".into(),
            ));
        };
        if let Some(missing) = self.cells.iter().position(Option::is_none) {
            return Err(whole(format!("cell {} is missing", words::coordinates(&shape, missing))));
        }
        let cells: Vec<&Given> = self.cells.iter().flatten().collect();
        let level = |level: usize| cells.iter().map(move |cell| cell.masks[level]);
        let table = Table {
            kind,
            masks: (0..kind.depth as usize).flat_map(level).collect(),
            starts: cells.iter().map(|cell| cell.start).collect(),
            lengths: cells.iter().map(|cell| cell.length).collect(),
            store: self.store,
        };
        Ok(Listing { shape, table })
    }
}

#[cfg(test)]
mod tests {
    use super::*;
    use durpaxeta::{generate, Cell, Place, Width};

    const HEAD: &str =
        "durpaxeta working table 2\nkind: depth 1, ragged, width 4, index at start\nshape: 2\nstore: 6\n";

    fn status(text: &str) -> u8 {
        read("listing", text.as_bytes()).unwrap_err().status()
    }

    #[test]
    fn cells_and_store() {
        let text = format!(
            "{HEAD}1 | 01 | value | start 3, length 2 # any order\n0 | 00 | null at level 1 | start 0, length 0\nat 0 | hex 41\nat 3 | \"xy\"\n"
        );
        let Listing { shape, table } = read("listing", text.as_bytes()).unwrap();
        assert_eq!((&shape[..], &table.masks[..]), (&[2][..], &[0, 1][..]));
        assert_eq!((&table.starts[..], &table.lengths[..]), (&[0, 3][..], &[0, 2][..]));
        assert_eq!(table.store, b"A\0\0xy\0");
        let written = write(&Listing { shape, table });
        assert!(
            written.contains("0 | 00 | null at level 1 | start 0, length 0\n1 | 01 | value | start 3, length 2\n"),
            "{written}"
        );
        assert!(written.ends_with("at 0 | \"A\" # in no cell\nat 3 | \"xy\" # cell 1\n"), "{written}");
    }

    #[test]
    fn what_is_no_listing() {
        let cells = "0 | 01 | empty | start 0, length 0\n1 | 01 | empty | start 0, length 0\n";
        assert!(read("listing", format!("{HEAD}{cells}").as_bytes()).is_ok());
        for lines in [
            "",
            "0 | 01 | empty | start 0, length 0\n",
            &format!("{cells}0 | 01 | empty | start 0, length 0\n"),
            "2 | 01 | empty | start 0, length 0\n",
            "0 | 01 01 | empty | start 0, length 0\n",
            "0 | - | empty | start 0, length 0\n",
            "0 | 01 | empty | start 0\n",
            "0 | 01 | empty | 0, 0\n",
            "0 | 01 | empty | start 0, length -1\n",
            "0 | 01 | empty | start 0, length 0 | more\n",
            "0 | 01 | start 0, length 0\n",
            "0 | 01 | value | start 0, length 0\n",
            "0 | 00 | empty | start 0, length 0\n",
            "kind: depth 0, ragged, width 4, index at start\n",
            "shape: 2\n",
            "store: 6\n",
            "at 0 \"a\"\n",
            "at x | \"a\"\n",
            "at 0 | a\n",
            "at 6 | \"a\"\n",
            "at 5 | \"ab\"\n",
            "at 1 | \"ab\"\nat 2 | \"c\"\n",
            "at 18446744073709551615 | \"ab\"\n",
        ] {
            assert_eq!(status(&format!("{HEAD}{lines}")), 65, "{lines}");
        }
        assert_eq!(status(""), 65);
        assert_eq!(status("durpaxeta worksheet 1\n"), 65);
        assert_eq!(status("durpaxeta working table 2\nstore: many\n"), 65);
        assert_eq!(status("durpaxeta working table 2\nkind: depth 5, ragged, width 4, index at start\n"), 1);
        assert_eq!(status("durpaxeta working table 2\nshape: 0\n"), 2);
        assert_eq!(read("listing", b"durpaxeta working table 2\n\xFF\n").unwrap_err().status(), 65);
    }

    /// What is written is read as the same table, whatever lies where.
    #[test]
    fn written_and_read() {
        let mut draw = crate::random::draws(8);
        for round in 0..300 {
            let kind = Kind::ragged(round % 5, Width::Four, Place::Start);
            let shape = vec![1 + draw(3) as u64, 1 + draw(4) as u64];
            let load = generate(kind, &shape, round as u32).unwrap();
            let mut table = Table::make(&load, load.values.len() + draw(20)).unwrap();
            for _ in 0..draw(9) {
                let value: Vec<u8> = (0..draw(7)).map(|_| b"ab\0\n\"\xFF# |"[draw(9)]).collect();
                let _ = table.set(draw(table.cell_count()) as u64, Cell::Value(&value));
            }
            let listing = Listing { shape, table };
            let text = write(&listing);
            assert_eq!(read("listing", text.as_bytes()).unwrap(), listing, "{text}");
        }
    }
}
