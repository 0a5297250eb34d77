//! Stored bytes as the pictures of docs/FORMAT.md show them: position, bytes, what they are.

use crate::literal;
use crate::locate::{self, Field, Part, Walk};
use crate::words;
use durpaxeta::{Kind, Mark, MaskForm, Order, Values};
use std::fmt::Write;
use std::ops::Range;

/// Most bytes of a line.
const LINE: usize = 8;
/// Lines of one field; of a longer one the rest is counted.
const LINES: usize = 4;
/// Fields of one sort, one after the other, that are shown at the beginning and at the end; the others are counted.
const FIRST: usize = 8;
const LAST: usize = 2;

/// The line of the picture in which a byte lies that was read.
pub fn line(kind: Kind, shape: &[u64], bytes: &[u8], walk: &Walk, at: usize) -> String {
    let mut picture = Picture::new(Some(kind), shape, bytes, walk);
    if let Some(field) = walk.fields.iter().find(|field| field.range().contains(&at)) {
        let length = line_length(field);
        picture.part(field, (at - field.at) / length, length);
    }
    picture.text
}

/// All fields that were read, in the order of their positions, and what was not read.
pub fn picture(kind: Option<Kind>, shape: &[u64], bytes: &[u8], walk: &Walk) -> String {
    let mut picture = Picture::new(kind, shape, bytes, walk);
    let mut fields: Vec<&Field> = walk.fields.iter().collect();
    fields.sort_by_key(|field| field.at);
    let mut at = 0;
    let mut rest = &fields[..];
    while let Some(first) = rest.first() {
        picture.gap(at..first.at);
        let run = rest.iter().take_while(|field| sort(field) == sort(first)).count();
        picture.run(&rest[..run]);
        at = rest[run - 1].range().end;
        rest = &rest[run..];
    }
    picture.gap(at..bytes.len());
    if walk.stop.as_ref().is_some_and(|stop| stop.at == bytes.len()) {
        picture.line(bytes.len(), "", "nothing is left", true);
    }
    picture.text
}

/// Fields of one sort follow one another, a field for each cell.
fn sort(field: &Field) -> &'static str {
    match field.part {
        Part::MaskLength { .. } | Part::ContentLength { .. } => "lengths",
        Part::Mask { .. } => "masks",
        Part::IndexLength { .. } | Part::Count { .. } => "length",
        Part::Offset { .. } => "offsets",
        Part::Plain { .. } | Part::Data { .. } | Part::CellLength { .. } => "fields of cells",
        Part::Tail => "tail",
    }
}

/// Bytes of a line. A byte of a packed mask has eight cells, and a line for itself.
fn line_length(field: &Field) -> usize {
    match field.part {
        Part::Mask { form: MaskForm::Packed, .. } => 1,
        _ => LINE,
    }
}

struct Picture<'a> {
    kind: Option<Kind>,
    shape: &'a [u64],
    bytes: &'a [u8],
    walk: &'a Walk,
    width: usize,
    text: String,
}

impl<'a> Picture<'a> {
    fn new(kind: Option<Kind>, shape: &'a [u64], bytes: &'a [u8], walk: &'a Walk) -> Picture<'a> {
        let width = bytes.len().to_string().len().max(3);
        Picture { kind, shape, bytes, walk, width, text: String::new() }
    }

    fn line(&mut self, at: usize, bytes: &str, what: &str, refused: bool) {
        let mark = if refused { "  <- refused" } else { "" };
        let (width, column) = (self.width, 3 * LINE - 1);
        let _ = writeln!(self.text, "{at:>width$} | {bytes:<column$} | {what}{mark}");
    }

    /// A line that stands for many.
    fn more(&mut self, what: String) {
        let (width, column) = (self.width, 3 * LINE - 1);
        let _ = writeln!(self.text, "{:>width$} | {:<column$} | {what}", "..", "..");
    }

    /// Whether reading stopped in these bytes.
    fn refused(&self, range: Range<usize>) -> bool {
        self.walk.stop.as_ref().is_some_and(|stop| range.contains(&stop.at))
    }

    /// Bytes that belong to no field, because reading stopped before.
    fn gap(&mut self, range: Range<usize>) {
        if range.is_empty() {
            return;
        }
        let count = range.len();
        let shown = range.start..range.end.min(range.start + LINE);
        let what = match count > LINE {
            true => format!("not read: {count} bytes, of which these are the first"),
            false => "not read".into(),
        };
        self.line(range.start, &literal::spaced(&self.bytes[shown]), &what, self.refused(range.start..range.start + 1));
    }

    /// Fields of one sort: the first, the last, the one that is refused, and how many stand between.
    fn run(&mut self, fields: &[&Field]) {
        let long = fields.len() > FIRST + LAST + 1;
        let mut skipped = 0;
        for (number, field) in fields.iter().enumerate() {
            if long && number >= FIRST && number + LAST < fields.len() && !self.refused(field.range()) {
                skipped += 1;
                continue;
            }
            if skipped > 0 {
                self.more(format!("{skipped} {} more", sort(field)));
                skipped = 0;
            }
            self.field(field);
        }
    }

    fn field(&mut self, field: &Field) {
        let range = field.range();
        let length = line_length(field);
        let lines = field.length.div_ceil(length);
        let shown = if lines > LINES { LINES - 1 } else { lines };
        for number in 0..shown {
            self.part(field, number, length);
        }
        if shown == lines {
            return;
        }
        let what = match &field.part {
            Part::Mask { level, form, cells } => {
                let mask = &self.bytes[range.clone()];
                let set = (0..cells.len()).filter(|&place| locate::mark(*form, mask, place) == Mark::Set).count();
                format!("; level {level}, mask: {set} of {} cells are set", cells.len())
            }
            _ => String::new(),
        };
        let begin = |number: usize| (range.start + length * number).min(range.end);
        // The line where reading stopped, too.
        let Some(stopped) = (shown..lines).find(|&number| self.refused(begin(number)..begin(number + 1))) else {
            return self.more(format!("{} bytes more{what}", range.end - begin(shown)));
        };
        if stopped > shown {
            self.more(format!("{} bytes more{what}", begin(stopped) - begin(shown)));
        }
        self.part(field, stopped, length);
        if stopped + 1 < lines {
            self.more(format!("{} bytes more", range.end - begin(stopped + 1)));
        }
    }

    /// One line of a field.
    fn part(&mut self, field: &Field, number: usize, length: usize) {
        let part = length * number..field.length.min(length * (number + 1));
        let range = field.at + part.start..field.at + part.end;
        let bytes = literal::spaced(&self.bytes[range.clone()]);
        let what = self.what(field, number, part);
        self.line(range.start, &bytes, &what, self.refused(range));
    }

    fn cell(&self, cell: usize) -> String {
        words::coordinates(self.shape, cell)
    }

    fn cells(&self, cells: &[usize]) -> String {
        cells.iter().map(|&cell| self.cell(cell)).collect::<Vec<_>>().join(" ")
    }

    /// What these bytes of a field are, in its line of that number.
    fn what(&self, field: &Field, line: usize, part: Range<usize>) -> String {
        let bytes = &self.bytes[field.range()];
        match &field.part {
            Part::MaskLength { level, says } => format!("level {level}, mask length: {says}"),
            Part::ContentLength { level, says } => format!("level {level}, content length: {says}"),
            Part::Mask { level, form, cells } => {
                let last = part.end == bytes.len();
                let places = locate::places(*form, part, cells.len());
                let named = |places: &[usize]| {
                    let bits = match form {
                        MaskForm::Bytes => String::new(),
                        MaskForm::Packed => {
                            let bits: Vec<usize> = places.iter().map(|place| place % locate::BITS).collect();
                            format!("{}: ", locate::bits_text(&bits))
                        }
                    };
                    let cells: Vec<usize> = places.iter().map(|&place| cells[place]).collect();
                    format!("{bits}cell{} {}", if cells.len() == 1 { "" } else { "s" }, self.cells(&cells))
                };
                let mut parts = Vec::new();
                for (mark, word) in [(Mark::Set, "set"), (Mark::Null, "null"), (Mark::Other, "neither")] {
                    let said = places.clone().filter(|&place| locate::mark(*form, bytes, place) == mark);
                    let said: Vec<usize> = said.collect();
                    if !said.is_empty() {
                        parts.push(format!("{} {word}", named(&said)));
                    }
                }
                let unused: Vec<usize> = locate::unused_bits(*form, cells.len()).filter(|_| last).collect();
                if !unused.is_empty() {
                    parts.push(format!("{} unused", locate::bits_text(&unused)));
                }
                format!("level {level}, mask: {}", parts.join(", "))
            }
            Part::Plain { cell } if line == 0 => {
                let before = if self.kind.is_some_and(|kind| kind.depth > 0) { "content: " } else { "" };
                let big = matches!(self.kind.map(|kind| kind.values), Some(Values::Fixed { order: Order::Big, .. }));
                let order = if big && bytes.len() > 1 { ", its last byte first" } else { "" };
                format!("{before}cell {}{order}", self.cell(*cell))
            }
            Part::IndexLength { says } => format!("index length: {says}"),
            Part::Offset { number, says, ends, begins } => {
                let mut parts = Vec::new();
                if let Some((cell, empty)) = ends {
                    let empty = if *empty { ", so it is empty" } else { "" };
                    parts.push(format!("cell {} ends at {says}{empty}", self.cell(*cell)));
                }
                if let Some(cell) = begins {
                    let there = if ends.is_some() { "there".to_string() } else { format!("at {says}") };
                    parts.push(format!("cell {} begins {there}", self.cell(*cell)));
                }
                format!("offset {number}: {}", parts.join("; "))
            }
            Part::Data { cell } if line == 0 => {
                let text = match literal::text(bytes) {
                    Some(_) if bytes.len() <= LINE * LINES => format!(" is {}", literal::write(bytes, false)),
                    _ if bytes.len() > LINE => format!(", {} bytes", bytes.len()),
                    _ => String::new(),
                };
                format!("data: cell {}{text}", self.cell(*cell))
            }
            Part::Plain { cell } | Part::Data { cell } => format!("cell {} goes on", self.cell(*cell)),
            Part::Count { says } => format!("count: {says} cells"),
            Part::CellLength { cell, says } => format!("length of cell {}: {says}", self.cell(*cell)),
            Part::Tail => "after the last cell: ignored".into(),
        }
    }
}

#[cfg(test)]
mod tests {
    use super::*;
    use crate::random;

    /// Of a table that is accepted each byte lies in a line of the picture.
    #[test]
    fn the_line_of_each_byte() {
        let mut draw = random::draws(7);
        let mut bytes = 0;
        for round in 0..3_000 {
            let (kind, stored) = random::damaged(round, &mut draw);
            let walk = locate::table(kind, 4, &stored);
            if walk.stop.is_some() {
                continue;
            }
            let text = picture(Some(kind), &[4], &stored, &walk);
            for at in 0..stored.len() {
                let line = line(kind, &[4], &stored, &walk, at);
                assert!(text.split_inclusive('\n').any(|whole| whole == line), "{line}{text}");
                let parts: Vec<&str> = line.split(" | ").map(str::trim).collect();
                let begin: usize = parts[0].parse().unwrap();
                assert!((begin..begin + parts[1].split_whitespace().count()).contains(&at), "{at}: {line}");
                bytes += 1;
            }
        }
        assert!(bytes > 10_000, "{bytes}");
    }

    /// Whatever is damaged: each line shows the bytes at its position, the lines are in order, one is marked where reading
    /// stopped, and of a table that is accepted no byte is missing.
    #[test]
    fn every_byte_at_its_place() {
        let mut draw = random::draws(31);
        let (mut whole, mut refused) = (0, 0);
        for round in 0..20_000 {
            let (kind, stored) = random::damaged(round, &mut draw);
            let (form, walk) = match draw(3) {
                0 => (None, locate::interleaved(4, &stored)),
                _ => (Some(kind), locate::table(kind, 4, &stored)),
            };
            let text = picture(form, &[4], &stored, &walk);
            let mut shown = 0;
            for line in text.lines() {
                let parts: Vec<&str> = line.splitn(3, " | ").map(str::trim).collect();
                if parts[..2] == ["..", ".."] {
                    shown += parts[2].strip_suffix(" bytes more").unwrap().parse::<usize>().unwrap();
                    continue;
                }
                let (at, bytes): (usize, &str) = (parts[0].parse().unwrap(), parts[1]);
                assert!(at >= shown && !parts[2].is_empty(), "{text}");
                let length = bytes.split_whitespace().count();
                assert_eq!(bytes, literal::spaced(&stored[at..at + length]), "{text}");
                assert!(at == shown || walk.stop.is_some(), "{text}");
                shown = at + length;
            }
            assert_eq!(text.matches("<- refused").count(), usize::from(walk.stop.is_some()), "{text}");
            if walk.stop.is_none() {
                assert_eq!(shown, stored.len(), "{text}");
            }
            *(if walk.stop.is_none() { &mut whole } else { &mut refused }) += 1;
        }
        assert!(whole > 1000 && refused > 1000, "{whole} and {refused}");
    }
}
