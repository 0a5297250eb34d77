//! The worksheet: a table as text, one cell a line, masks before the value.
//!
//! ```text
//! durpaxeta worksheet 1
//! kind: depth 2, ragged, width 4, index at start
//! shape: 2x2
//! 0,0 | 01 01 | value "0-3,8"
//! 0,1 | 01 01 | value ""
//! 1,0 | 00 00 | null at level 1
//! 1,1 | 01 00 | null at level 2
//! ```
//!
//! A line is the cell's coordinates, its mask byte of each level, 00 or 01 (a `-` at depth 0), and either the word `null` with the
//! level, or the word `value` with `"text"` or `hex 0A 0B`. So an empty value and a null differ in a word and in a mask
//! byte, and a line where the two contradict each other is not accepted. In a text `\"`, `\\`, `\n`, `\t`, `\r` and `\x0A`
//! stand for one byte, other characters for their bytes in UTF-8. `#` begins a comment, on a line of its own or behind a
//! cell.

use crate::failure::Failure;
use crate::literal::{self, hex_byte, word};
use crate::words;
use durpaxeta::{Array, Cell, Kind, Mark, Order, Refusal, Values};
use std::fmt::Write;

/// The version of this form.
const VERSION: u64 = 1;

/// The table as a worksheet; with values in hex only where that is asked for.
pub fn write(array: &Array, hex: bool) -> String {
    sheet(array, hex, "not set")
}

/// What a guest sees of a table; a cell that is hidden from it reads as null, too.
pub fn write_seen(array: &Array, hex: bool) -> String {
    sheet(array, hex, "hidden or not set")
}

fn sheet(array: &Array, hex: bool, null: &str) -> String {
    let (kind, shape) = (array.kind, words::shape_text(&array.shape));
    let mut text = format!("durpaxeta worksheet {VERSION}\nkind: {kind}\nshape: {shape}\n");
    let _ = writeln!(
        text,
        "# cell | mask of each level | null: {null}, and at which level; value \"\": set, with no bytes"
    );
    if let Values::Fixed { size: 2.., order: Order::Big } = array.kind.values {
        text.push_str(
            "# big order: the bytes of a value stand here as in memory, and are stored the other way round, ",
        );
        text.push_str("the last one first\n");
    }
    let fixed = !array.kind.is_ragged();
    let count = array.cell_count();
    let width = if count > 0 { words::coordinates(&array.shape, count - 1).len() } else { 0 };
    for number in 0..count {
        let _ = write!(text, "{:<width$} | ", words::coordinates(&array.shape, number));
        let masks = array.masks_of(number);
        if masks.is_empty() {
            text.push('-');
        } else {
            text.push_str(&literal::spaced(&masks));
        }
        if let Some(cell) = array.cell(number) {
            let _ = writeln!(text, " | {}", what(cell, hex || fixed));
        }
    }
    text
}

/// What a cell is, as it stands behind the masks.
pub fn what(cell: Cell<'_>, hex: bool) -> String {
    match cell {
        Cell::Null { level } => format!("null at level {level}"),
        Cell::Value(value) => format!("value {}", literal::write(value, hex)),
    }
}

/// Reads a worksheet.
pub fn read(name: &str, bytes: &[u8]) -> Result<Array, Failure> {
    let text = words::text(name, bytes, "no worksheet")?;
    let mut reader = Reader { name, line: 0, kind: None, shape: None, cells: Vec::new(), data: Vec::new() };
    let mut titled = false;
    for (number, line) in text.lines().enumerate() {
        reader.line = number + 1;
        let line = line.trim();
        if line.is_empty() || line.starts_with('#') {
            continue;
        }
        if titled {
            reader.line(line)?;
        } else {
            words::version(line, "worksheet", VERSION).map_err(|what| reader.wrong(what))?;
            titled = true;
        }
    }
    if !titled {
        return Err(Failure::Worksheet {
            name: name.into(),
            line: None,
            what: "it is empty, so it is no worksheet".into(),
        });
    }
    reader.array()
}

/// A cell as it was read: its line, its masks, and its value as a place in the data.
struct Given {
    line: usize,
    masks: Vec<u8>,
    value: std::ops::Range<usize>,
}

struct Reader<'a> {
    name: &'a str,
    line: usize,
    kind: Option<Kind>,
    shape: Option<Vec<u64>>,
    cells: Vec<Option<Given>>,
    data: Vec<u8>,
}

impl Reader<'_> {
    fn wrong(&self, what: impl Into<String>) -> Failure {
        Failure::Worksheet { name: self.name.to_string(), line: Some(self.line), what: what.into() }
    }

    fn refused(&self, refusal: Refusal, detail: impl Into<String>) -> Failure {
        Failure::refused(refusal, format!("{}, line {}", self.name, self.line), detail)
    }

    fn line(&mut self, line: &str) -> Result<(), Failure> {
        let uncommented = line.split('#').next().unwrap_or("");
        if let Some(words) = uncommented.strip_prefix("kind:") {
            if self.kind.is_some() {
                return Err(self.wrong("the kind was given before"));
            }
            let kind = words::kind(words.trim()).map_err(|failure| failure.in_line(self.name, self.line))?;
            self.kind = Some(kind);
            return Ok(());
        }
        if let Some(words) = uncommented.strip_prefix("shape:") {
            if self.shape.is_some() {
                return Err(self.wrong("the shape was given before"));
            }
            let shape = words::shape(words.trim()).map_err(|failure| failure.in_line(self.name, self.line))?;
            self.cells.resize_with(shape.iter().product::<u64>() as usize, || None);
            self.shape = Some(shape);
            return Ok(());
        }
        let (Some(kind), Some(shape)) = (self.kind, self.shape.clone()) else {
            return Err(self.wrong("a line \"kind: ...\" and a line \"shape: ...\" come before the cells"));
        };
        // A line of version 0.4 and before.
        if line.starts_with("before:") {
            return Err(self.refused(Refusal::Content, "Bytes before the first cell are in no cell: remove the line"));
        }
        self.cell(kind, &shape, line)
    }

    fn cell(&mut self, kind: Kind, shape: &[u64], line: &str) -> Result<(), Failure> {
        let parts =
            line.split_once('|').and_then(|(cell, rest)| rest.split_once('|').map(|(masks, what)| (cell, masks, what)));
        let Some((coordinates, masks, what)) = parts else {
            return Err(self.wrong(
                "a line of a cell is: coordinates | masks | null at level N, or: coordinates | masks | value \"text\"",
            ));
        };
        let (coordinates, what) = (coordinates.trim(), what.trim());
        let Some(number) = words::cell_number(shape, coordinates) else {
            return Err(self.wrong(format!("\"{coordinates}\" is no cell of a table of {}", words::shape_text(shape))));
        };
        if let Some(given) = &self.cells[number] {
            return Err(self.wrong(format!("cell {coordinates} was given before, in line {}", given.line)));
        }
        let masks = self.masks(kind, masks.trim())?;
        let null = masks.iter().position(|&mask| Mark::of(mask) == Mark::Null);
        let from = self.data.len();
        if let Some(rest) = word(what, "null") {
            self.null(null, rest)?;
            if masks.iter().skip(null.unwrap_or(0)).any(|&mask| Mark::of(mask) == Mark::Set) {
                return Err(self.wrong("below a null every mask byte is 00"));
            }
            if let Values::Fixed { size, .. } = kind.values {
                self.data.resize(from + size as usize, 0);
            }
        } else if let Some(rest) = word(what, "value") {
            if let Some(level) = null {
                return Err(self.wrong(format!(
                    "the cell has a value, but its mask byte of level {} is 00, which is null",
                    level + 1
                )));
            }
            let mut data = std::mem::take(&mut self.data);
            let read = self.literal(rest, &mut data);
            self.data = data;
            read?;
            if let Values::Fixed { size, .. } = kind.values {
                let length = self.data.len() - from;
                if length as u64 != size {
                    let detail = format!("The value has {length} bytes; a cell of this kind has {size}");
                    return Err(self.refused(Refusal::Content, detail));
                }
            }
        } else {
            return Err(self.wrong("behind the masks comes: null at level N, or value \"text\", or value hex 0A 0B"));
        }
        self.cells[number] = Some(Given { line: self.line, masks, value: from..self.data.len() });
        Ok(())
    }

    fn masks(&self, kind: Kind, text: &str) -> Result<Vec<u8>, Failure> {
        if kind.depth == 0 {
            if text == "-" {
                return Ok(Vec::new());
            }
            return Err(self.wrong(format!("at depth 0 there are no masks: \"{text}\" should be \"-\"")));
        }
        let masks: Option<Vec<u8>> = text.split_whitespace().map(hex_byte).collect();
        match masks {
            Some(masks) if masks.len() as u64 == kind.depth => {
                match masks.iter().position(|&mask| Mark::of(mask) == Mark::Other) {
                    None => Ok(masks),
                    Some(level) => {
                        let (byte, level) = (masks[level], level + 1);
                        let detail = format!("The mask byte of level {level} is {byte:02X}; 00 is null, 01 is set");
                        Err(self.refused(Refusal::Content, detail))
                    }
                }
            }
            _ => Err(self.wrong(format!(
                "\"{text}\" is not one mask byte for each level, outermost first; at depth {} write for example \"{}\"",
                kind.depth,
                vec!["01"; kind.depth as usize].join(" ")
            ))),
        }
    }

    /// What stands behind the word `null`: the level that the masks say.
    fn null(&self, level: Option<usize>, rest: &str) -> Result<(), Failure> {
        let rest = rest.split('#').next().unwrap_or("");
        let words: Vec<&str> = rest.split_whitespace().collect();
        let ["at", "level", said] = words[..] else {
            return Err(self.wrong("say at which level the cell is null: \"null at level 1\""));
        };
        match level {
            None => {
                Err(self
                    .wrong("the cell is null, but no mask byte is 00; a set cell of no bytes is written as value \"\""))
            }
            Some(level) if said == (level + 1).to_string() => Ok(()),
            Some(level) => {
                Err(self.wrong(format!("the cell is null at level {said}, but its masks say level {}", level + 1)))
            }
        }
    }

    /// `"text"` or `hex 0A 0B`, and perhaps a comment.
    fn literal(&self, text: &str, to: &mut Vec<u8>) -> Result<(), Failure> {
        literal::read(text, to).map_err(|what| self.wrong(what))
    }

    /// All cells together.
    fn array(self) -> Result<Array, Failure> {
        let whole = |what: String| Failure::Worksheet { name: self.name.to_string(), line: None, what };
        let (Some(kind), Some(shape)) = (self.kind, self.shape) else {
            return Err(whole("a line \"kind: ...\" or a line \"shape: ...\" is missing".into()));
        };
        if let Some(missing) = self.cells.iter().position(Option::is_none) {
            let more = self.cells.iter().filter(|cell| cell.is_none()).count() - 1;
            let cell = words::coordinates(&shape, missing);
            return Err(whole(match more {
                0 => format!("cell {cell} is missing"),
                _ => format!("cell {cell} is missing, and {more} more"),
            }));
        }
        let count = self.cells.len();
        let mut array = Array {
            kind,
            shape,
            masks: vec![0; kind.depth as usize * count],
            values: Vec::new(),
            offsets: if kind.is_ragged() { vec![0] } else { Vec::new() },
        };
        for (number, cell) in self.cells.iter().flatten().enumerate() {
            for (level, &mask) in cell.masks.iter().enumerate() {
                array.masks[level * count + number] = mask;
            }
            array.values.extend_from_slice(&self.data[cell.value.clone()]);
            if kind.is_ragged() {
                array.offsets.push(array.values.len() as u64);
            }
        }
        Ok(array)
    }
}

#[cfg(test)]
mod tests {
    use super::*;
    use durpaxeta::{Place, Width};

    fn sheet(kind: &str, shape: &str, cells: &[&str]) -> String {
        format!("{TITLE}\nkind: {kind}\nshape: {shape}\n{}\n", cells.join("\n"))
    }

    fn status(text: &str) -> u8 {
        read("sheet", text.as_bytes()).unwrap_err().status()
    }

    const TITLE: &str = "durpaxeta worksheet 1";
    const RAGGED: &str = "depth 2, ragged, width 4, index at start";
    const FLAT: &str = "depth 0, ragged, width 8, index at end";
    const FIXED: &str = "depth 1, fixed, size 2, little order";

    #[test]
    fn null_and_empty() {
        let text = sheet(
            RAGGED,
            "2x2",
            &[
                "0,0 | 01 01 | value \"0-3,8\"  # cores 0 to 3, and 8",
                "0,1 | 01 01 | value \"\"",
                "1,0 | 00 00 | null at level 1",
                "1,1 | 01 00 | null at level 2 # deeper",
            ],
        );
        let array = read("sheet", text.as_bytes()).unwrap();
        assert_eq!(array.masks, [1, 1, 0, 1, 1, 1, 0, 0]);
        assert_eq!((&array.values[..], &array.offsets[..]), (&b"0-3,8"[..], &[0, 5, 5, 5, 5][..]));
        let written = write(&array, false);
        assert!(written.contains("0,0 | 01 01 | value \"0-3,8\"\n"));
        assert!(written.contains("0,1 | 01 01 | value \"\"\n"));
        assert!(written.contains("1,0 | 00 00 | null at level 1\n"));
        assert!(written.contains("1,1 | 01 00 | null at level 2\n"));
    }

    #[test]
    fn contradictions_are_not_accepted() {
        for cell in [
            "0 | 01 01 | null at level 1",
            "0 | 01 01 | null at level 3",
            "0 | 00 00 | value \"\"",
            "0 | 01 00 | value \"a\"",
            "0 | 01 00 | null at level 1",
            "0 | 00 00 | null at level 2",
            "0 | 00 01 | null at level 1",
            "0 | 00 00 | null",
            "0 | 00 00 | null at level",
            "0 | 00 00 | null at level 1 and more",
            "0 | 00 00 |",
            "0 | 00 00",
            "0",
            "0 | | null at level 1",
            "0 | - | value \"\"",
            "0 | 01 | value \"\"",
            "0 | 01 01 01 | value \"\"",
            "0 | 0101 | value \"\"",
            "0 | 1 1 | value \"\"",
            "0 | 01 01 | value",
            "0 | 01 01 | value a",
            "0 | 01 01 | value \"a",
            "0 | 01 01 | value \"a\" b",
            "0 | 01 01 | value \"\\q\"",
            "0 | 01 01 | value \"\\x4\"",
            "0 | 01 01 | value \"\\x+4\"",
            "0 | 01 01 | value hex",
            "0 | 01 01 | value hex 4",
            "0 | 01 01 | value hex 41 4g",
            "0 | 01 01 | value hex +4",
            "0 | 01 01 | valuehex 41",
            "0 | 01 01 | \"a\"",
            "1 | 01 01 | value \"a\"",
            "0,0 | 01 01 | value \"a\"",
            "x | 01 01 | value \"a\"",
            "shape: 1",
            "kind: depth 0, fixed, size 1, little",
        ] {
            assert_eq!(status(&sheet(RAGGED, "1", &[cell])), 65, "{cell}");
        }
        assert_eq!(status(&sheet(FLAT, "1", &["0 | 01 | value \"\""])), 65);
    }

    #[test]
    fn sheets_that_are_none() {
        let cell = "0 | 01 01 | value \"a\"";
        assert_eq!(status(""), 65);
        assert_eq!(status("# nothing\n"), 65);
        assert_eq!(status("durpaxeta worksheet 2\n"), 65);
        assert_eq!(status(&format!("kind: {RAGGED}\nshape: 1\n{cell}\n")), 65);
        assert_eq!(status(&format!("{TITLE}\nkind: {RAGGED}\n{cell}\n")), 65);
        assert_eq!(status(&format!("{TITLE}\nshape: 1\n{cell}\n")), 65);
        assert_eq!(status(TITLE), 65);
        assert_eq!(status(&sheet(RAGGED, "1", &[])), 65);
        assert_eq!(status(&sheet(RAGGED, "1", &[cell, cell])), 65);
        assert_eq!(status(&sheet(RAGGED, "2x2", &["0,0 | 01 01 | value \"a\"", "1,1 | 01 01 | value \"a\""])), 65);
        assert_eq!(status(&sheet("some kind", "1", &[cell])), 65);
        assert_eq!(status(&sheet(RAGGED, "one", &[cell])), 65);
        assert_eq!(read("sheet", b"durpaxeta worksheet 1\n\xFF\n").unwrap_err().status(), 65);
    }

    #[test]
    fn refusals() {
        assert_eq!(status(&sheet("depth 5, fixed, size 1, little", "1", &[])), 1);
        assert_eq!(status(&sheet("depth 1, fixed, size 65, little", "1", &[])), 1);
        assert_eq!(status(&sheet("depth 1, ragged, width 6, index at end", "1", &[])), 1);
        assert_eq!(status(&sheet(RAGGED, "0x3", &[])), 2);
        assert_eq!(status(&sheet(RAGGED, "65537", &[])), 2);
        assert_eq!(status(&sheet(FIXED, "1", &["0 | 01 | value hex 0A"])), 4);
        assert_eq!(status(&sheet(FIXED, "1", &["0 | 01 | value \"\""])), 4);
        for masks in ["02 01", "01 FF", "00 02", "ff 80"] {
            assert_eq!(status(&sheet(RAGGED, "1", &[&format!("0 | {masks} | value \"\"")])), 4, "{masks}");
        }
        assert_eq!(status(&sheet(FLAT, "1", &["before: \"A\"", "0 | - | value \"B\""])), 4);
    }

    #[test]
    fn any_order_line_ends_and_comments() {
        let text = format!(
            "\u{FEFF}# first\r\n\r\n{TITLE}\r\nshape: 2 # two\r\nkind: {FIXED}\r\n  1 | 01 | value hex 0a0B # b\r\n# between\r\n0 | 00 | null at level 1\r\n"
        );
        let array = read("sheet", text.as_bytes()).unwrap();
        assert_eq!((&array.masks[..], &array.values[..]), (&[0, 1][..], &[0, 0, 0x0A, 0x0B][..]));
    }

    #[test]
    fn escapes() {
        let text = sheet(FLAT, "1", &["0 | - | value \"a\\\"\\\\\\n\\t\\r\\x00\\xfF|#é\""]);
        let array = read("sheet", text.as_bytes()).unwrap();
        assert_eq!(array.values, b"a\"\\\n\t\r\0\xFF|#\xC3\xA9");
        assert_eq!(array.offsets, [0, 12]);
    }

    /// What is written is read as the same array, in text and in hex.
    #[test]
    fn written_and_read() {
        let values: [&[u8]; 6] = [b"", b"null at level 1", b"say \"a\\b\" | # x", b"\0", b"\x7F", "é".as_bytes()];
        for depth in 0..=4 {
            let kind = Kind::ragged(depth, Width::Four, Place::Start);
            let mut cells: Vec<Cell<'_>> = values.iter().map(|value| Cell::Value(value)).collect();
            cells.extend((1..=depth as usize).map(|level| Cell::Null { level }));
            let array = Array::from_cells(kind, &[1, cells.len() as u64], &cells).unwrap();
            for hex in [false, true] {
                let text = write(&array, hex);
                assert_eq!(read("sheet", text.as_bytes()).unwrap(), array, "{text}");
            }
        }
        let kind = Kind::fixed(1, 3, Order::Big);
        let array = Array::from_cells(kind, &[2], &[Cell::Null { level: 1 }, Cell::Value(b"abc")]).unwrap();
        let text = write(&array, false);
        assert!(text.contains("1 | 01 | value hex 61 62 63\n"));
        assert_eq!(read("sheet", text.as_bytes()).unwrap(), array);
    }

    /// Whatever is damaged: an array that the library can judge, or a failure; never a panic.
    #[test]
    fn damaged_sheets() {
        let mut draw = crate::random::draws(99);
        let sheets = [
            include_str!("../../demo/guests.txt").to_string(),
            sheet(FLAT, "2", &["0 | - | value \"a\\\"\\x41é\"", "1 | - | value hex 0A0b"]),
            sheet(FIXED, "1x2", &["0,0 | 7F | value hex 0A 0B # x", "0,1 | 00 | null at level 1"]),
        ];
        let (mut good, mut bad) = (0, 0);
        for round in 0..30_000 {
            let mut bytes = sheets[round % sheets.len()].clone().into_bytes();
            for _ in 0..1 + draw(3) {
                let at = draw(bytes.len());
                match draw(4) {
                    0 => bytes[at] = b" \n|\"\\#,x0129-"[draw(13)],
                    1 => bytes[at] ^= 1 << draw(8),
                    2 => {
                        bytes.remove(at);
                    }
                    _ => bytes.insert(at, draw(256) as u8),
                }
            }
            match read("sheet", &bytes) {
                Ok(array) => {
                    good += 1;
                    let stored = durpaxeta::encode(&array).unwrap();
                    let shown = write(&durpaxeta::decode(array.kind, &array.shape, &stored).unwrap(), round % 2 == 0);
                    let again = read("shown", shown.as_bytes()).unwrap();
                    assert_eq!(durpaxeta::encode(&again).unwrap(), stored, "{shown}");
                }
                Err(failure) => {
                    bad += 1;
                    assert!([1, 2, 4, 65].contains(&failure.status()), "{failure}");
                }
            }
        }
        assert!(good > 1000 && bad > 1000, "{good} and {bad}");
    }
}
